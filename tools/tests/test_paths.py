"""The columns of `diff --paths` lead to their nodes: jq follows the filters, and the pointers are followed as RFC 6901 says."""
import json
import os
import shutil
import subprocess
import tempfile
import unittest

from scripts import load  # noqa: F401  (puts tools on the path)
from lib.paths import REVIEW

# Strings that differ everywhere, below keys with characters that have a meaning in a path.
KEYS = 'a a-b a/b ~ ~1 a~0b " \\ \\"(1) \\(1) 0 - é 𝄞 . [0] and _1 1a $x #'.split() + ["", "a b"]
LEFT = {"list": [{"name": "one", "v": "l1"}, {"name": "two", "v": "l2"}], "keys": {key: f"l{n}" for n, key in enumerate(KEYS)}}
RIGHT = {"list": [{"name": "two", "v": "r2"}, {"name": "one", "v": "r1"}], "keys": {key: f"r{n}" for n, key in enumerate(KEYS)}}


def followed(value, pointer):
    """The node to which a pointer leads (RFC 6901, 4)."""
    if pointer and not pointer.startswith("/"):
        raise ValueError(pointer)
    for token in pointer.split("/")[1:]:
        token = token.replace("~1", "/").replace("~0", "~")
        value = value[int(token)] if isinstance(value, list) else value[token]
    return value


def filtered(value, text):
    """The node to which a filter of jq leads."""
    done = subprocess.run(["jq", text], input=json.dumps(value), capture_output=True, text=True, check=True)
    return json.loads(done.stdout)


@unittest.skipUnless(os.access(REVIEW, os.X_OK), "yamlreview is not built")
class Paths(unittest.TestCase):
    def columns(self, how, left=LEFT, right=RIGHT):
        with tempfile.TemporaryDirectory() as folder:
            names = [f"{folder}/left.yaml", f"{folder}/right.yaml"]
            for name, value in zip(names, (left, right)):
                with open(name, "w", encoding="utf-8") as file:
                    json.dump(value, file, ensure_ascii=False)
            words = [REVIEW, "diff", "--no-places", f"--paths={how}", *names]
            done = subprocess.run(words, capture_output=True, text=True, check=False)
        self.assertEqual((done.returncode, done.stderr), (1, ""))
        return [line.split("\t") for line in done.stdout.splitlines()]

    def lead(self, how, follow):
        lines = [line for line in self.columns(how) if line[0] == "~"]
        self.assertEqual(len(lines), len(KEYS) + 2)
        for _, left, right, one, other in lines:
            with self.subTest(left=left, right=right):
                self.assertEqual((follow(LEFT, left), follow(RIGHT, right)), (json.loads(one), json.loads(other)))

    def test_pointers(self):
        self.lead("jsonpointer", followed)

    @unittest.skipUnless(shutil.which("jq"), "jq is not installed")
    def test_filters(self):
        self.lead("jq", filtered)

    def test_one_side(self):
        self.assertEqual(self.columns("jq", {"a": "x"}, {"b": "y"}), [["-", ".a", "-", '"x"', ""], ["+", "-", ".b", "", '"y"']])
        self.assertEqual(self.columns("jsonpointer", {"a": "x"}, {"b": "y"}), [["-", "/a", "-", '"x"', ""], ["+", "-", "/b", "", '"y"']])
