"""--help of every executable ends with 0 and begins nothing else; an option or a name that it does not know is an error."""
import concurrent.futures
import glob
import os
import shlex
import subprocess
import sys
import tempfile
import unittest

from scripts import TOP

FOLDERS = ("tools", "bench", "fuzz", "bindings", "packages/signing")
LEFT_OUT = ("target", "__pycache__", "found", "out")


def commands():
    """The executables but for the two launchers, whose arguments are the programs', and the scripts that are run by `python3 PATH`."""
    for folder in FOLDERS:
        for at, folders, names in os.walk(f"{TOP}/{folder}"):
            folders[:] = [it for it in folders if it not in LEFT_OUT]
            yield from ([f"{at}/{name}"] for name in names if os.access(f"{at}/{name}", os.X_OK))
    for path in glob.glob(f"{TOP}/tools/definitions/*.py") + glob.glob(f"{TOP}/tools/oracle/*.py"):
        with open(path, encoding="utf-8") as file:
            if '__name__ == "__main__"' in file.read():
                yield [sys.executable, path]


# Arguments that are wrong: names of what is not there, and options that do not go together. Words in quotes are one.
WRONG = (
    *("tools/examples TYPO", "tools/examples GUIDE TYPO", "tools/examples --writes"),
    *("tools/mutants", "tools/mutants record", "tools/mutants gate yaml_text", "tools/mutants run yaml_nothing"),
    *("tools/mutants run --only 'nothing at all'", "tools/mutants check yaml_nothing"),
    *("tools/conformance", "tools/conformance vector", "tools/conformance suite", "tools/conformance suite /no/such/place"),
    *("tools/conformance vectors /no/such/program", "tools/conformance vectors --add --release"),
    "tools/signing 'no such attack'",
    "tools/check-headline yaml_nothing",
    "tools/build yaml_nothing name",
    "tools/fuzz /no/such/folder",
    "tools/large no-such-part",
    "tools/abi /no/such/folder",
    "tools/bindings --library /no/such/folder",
    "tools/many --library /no/such/folder",
    *("tools/release", "tools/release --source folder", "tools/release --try", "tools/release --try /no/such/folder"),
    *("tools/release --try --gate log folder", "tools/release --try --key key folder", "tools/release a b"),
    "tools/links /no/such/folder",
    "tools/memory --list no_such_crate",
    "tools/plain no-such-page.md",
    *("tools/pages", "tools/pages --check no-such-page.md", "tools/pages --check --write"),
    *("bench/report no-such-part", "bench/hostile no-such-shape", "bench/hostile --growth no-such-shape"),
    *("bench/hostile --prefix no-such-shape", "bench/texts no-such-shape", "bench/peers --shape no-such-shape"),
    *("bench/many /no/such/folder", "bench/joined /no/such/folder"),
)


class Help(unittest.TestCase):
    def each(self, calls):
        """How each call ended, with its words. It writes nothing into the folder where it is run."""
        streams = {"stdin": subprocess.DEVNULL, "capture_output": True, "text": True, "env": {**os.environ, "YAML_TEST_SUITE": ""}}
        with tempfile.TemporaryDirectory() as folder, concurrent.futures.ThreadPoolExecutor(4) as pool:
            ends = pool.map(lambda words: subprocess.run(words, cwd=folder, timeout=600, check=False, **streams), calls)
            for ran in ends:
                self.assertNotIn("Traceback", ran.stderr, ran.args)
                yield ran
            self.assertEqual(os.listdir(folder), [])

    def test_help(self):
        found = list(self.each([*command, "--help"] for command in commands()))
        self.assertGreater(len(found), 50)
        for ran in found:
            self.assertEqual((ran.returncode, ran.stderr), (0, ""), ran.args)
            self.assertGreater(len(ran.stdout), 80, ran.args)

    def test_option_that_is_not_known(self):
        for ran in self.each([*command, "--no-such-option"] for command in commands()):
            self.assertEqual((ran.returncode in (2, 3), ran.stdout, bool(ran.stderr)), (True, "", True), ran.args)

    def test_arguments_that_are_wrong(self):
        for ran in self.each([f"{TOP}/{line[0]}", *line[1:]] for line in map(shlex.split, WRONG)):
            self.assertEqual(ran.returncode, 2, ran.args)
