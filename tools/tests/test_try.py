"""What tools/try gives to `rt try`, with a program in the place of rt."""
import os
import subprocess
import unittest

from scripts import TOP, folder_of, load, put, put_program

TRY = load("tools/try")
# Prints what it was given as rt, and what a run of the program would: one line, one on standard error, and a status.
RT = """#!/bin/sh
pwd
printf '%s\\n' "$@"
cat
printf 'yaml: said\\nchecked: ended status=2\\nrun=ended status=2 runners=1 proved=no\\n' >&2
exit 2
"""
BROKEN = "#!/bin/sh\nprintf 'src/main.rt:1:1: error[x]: y\\nrun=none proved=no\\n' >&2\nexit 2\n"


class Try(unittest.TestCase):
    def setUp(self):
        self.folder = folder_of(self)
        self.here = f"{self.folder}/here"
        put(self.folder, {"here/sub/a.yaml": "a\n", "up.yaml": "a\n"})

    def run_with(self, rt, *words, given=b""):
        path = f"{self.folder}/bin"
        os.makedirs(path)
        if rt:
            put_program(f"{path}/rt", rt)
        for name in ("python3", "sh", "cat"):
            os.symlink(subprocess.check_output(["sh", "-c", f"command -v {name}"], text=True).strip(), f"{path}/{name}")
        ran = subprocess.run(
            [f"{TOP}/tools/try", *words],
            cwd=self.here,
            input=given,
            capture_output=True,
            check=False,
            env={**os.environ, "PATH": path if not rt else f"{path}:{os.environ['PATH']}"},
        )
        return ran.returncode, ran.stdout.decode().splitlines(), ran.stderr.decode()

    def test_files_status_and_streams(self):
        status, lines, said = self.run_with(RT, "same", "sub/a.yaml", "../up.yaml", given=b"not asked for")
        up = os.path.realpath(f"{self.folder}/up.yaml")
        self.assertEqual(status, 2)
        self.assertEqual(lines[0], f"{TOP}/crates/yaml_tool")
        self.assertEqual(
            lines[1:],
            ["try", "--seconds", "600", "--data", f"sub/a.yaml={os.path.realpath(self.here)}/sub/a.yaml", "--", "same", "sub/a.yaml", up],
        )
        self.assertIn("nothing is proved in this run", said)
        self.assertTrue(said.endswith("yaml: said\n"), said)

    def test_standard_input_and_the_second_program(self):
        status, lines, _ = self.run_with(RT, "faults", given=b"{a: 1}\n")
        self.assertEqual((status, lines[0], lines[-3:]), (2, f"{TOP}/crates/yaml_review", ["--", "faults", "{a: 1}"]))

    def test_help_reads_no_input(self):
        _, lines, _ = self.run_with(RT, "diff", "--help", given=b"not asked for")
        self.assertEqual(lines[-3:], ["--", "diff", "--help"])

    def test_names_in_a_list(self):
        _, lines, _ = self.run_with(RT, "sum", "--files-from", "-", given=b"sub/a.yaml\n")
        self.assertIn(f"sub/a.yaml={os.path.realpath(self.here)}/sub/a.yaml", lines)

    def test_sources_that_do_not_compile(self):
        status, _, said = self.run_with(BROKEN, "canon", "sub/a.yaml")
        self.assertEqual(status, 3)
        self.assertIn("error[x]: y", said)
        self.assertIn("could not be compiled", said)

    def test_no_rt(self):
        status, _, said = self.run_with(None, "canon", "sub/a.yaml")
        self.assertEqual(
            (status, said),
            (3, "try: rt, the command of the Rattle kit, is not found: install the kit, or a package that has the program built\n"),
        )

    def test_names_that_lead_out(self):
        inside = {"a.yaml": True, "./b/a.yaml": True, "../a.yaml": False, "b/../../a": False, "/a": False, "stdin": False, "a=b": False}
        self.assertEqual({name: TRY.is_inside(name) for name in inside}, inside)
