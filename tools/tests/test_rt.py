"""That tools/rt takes each crate's sum once, and leaves arguments, output and status to the kit's rt."""
import os
import subprocess
import unittest

from scripts import TOP, folder_of, put_program

# Stands for the kit's rt: a crate's sum is told each time it is computed.
KIT = """
import types

class Crate:
    def __init__(self, folder, deps):
        self.folder, self.deps = folder, deps

    def stamp(self):
        print("sum of", self.folder)
        return self.folder + "".join(it.stamp() for it in self.deps)

rtlib = types.SimpleNamespace(Crate=Crate)

def main(words):
    low = Crate("low", [])
    top = Crate("top", [low, Crate("middle", [low])])
    print(*words, top.stamp(), top.stamp())
    return 7
"""


class Rt(unittest.TestCase):
    def run_over(self, rt, *words):
        folder = folder_of(self)
        put_program(f"{folder}/rt", rt)
        env = {**os.environ, "PATH": f"{folder}:{os.environ['PATH']}"}
        ran = subprocess.run([f"{TOP}/tools/rt", *words], capture_output=True, text=True, check=False, env=env)
        return ran.returncode, ran.stdout.splitlines()

    def test_each_sum_is_computed_once(self):
        sums = ["sum of top", "sum of low", "sum of middle"]
        self.assertEqual(self.run_over(KIT, "check", "--only", "a"), (7, [*sums, "check --only a toplowmiddlelow toplowmiddlelow"]))

    def test_another_kit_is_called_as_it_is(self):
        self.assertEqual(self.run_over('#!/bin/sh\necho "$@"\nexit 5\n', "ci"), (5, ["ci"]))
