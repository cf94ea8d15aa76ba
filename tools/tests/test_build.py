"""How long tools/build says that a build takes yet."""
import os
import tempfile
import time
import unittest
from unittest import mock

from scripts import load, run

BUILD = load("tools/build")


class Left(unittest.TestCase):
    def setUp(self):
        self.build = BUILD.Build("yaml_tool", "yamlcanon")

    def test_nothing_is_proved(self):
        self.assertEqual(
            self.build.seconds_left(), max(max(self.build.chain.values()), sum(self.build.seconds.values()) / self.build.processors)
        )

    def test_one_crate_is_left(self):
        self.build.proved = set(self.build.names) - {"yaml_tool"}
        self.assertEqual(self.build.seconds_left(), self.build.seconds["yaml_tool"])

    def test_a_slower_machine(self):
        self.build.proved = set(self.build.names) - {"yaml_tool"}
        self.build.took = {it: 3 * self.build.seconds[it] for it in self.build.proved}
        self.assertAlmostEqual(self.build.seconds_left() / self.build.seconds["yaml_tool"], 3, delta=0.2)

    def test_a_quick_first_crate_says_little(self):
        self.build.took = {"yaml_definitions": 0.0}
        self.assertGreater(self.build.pace(), 0.8)

    def test_a_crate_that_is_under_way(self):
        self.build.proved, self.build.starts = set(self.build.names) - {"yaml_tool"}, {"yaml_tool": time.monotonic() - 60}
        self.assertAlmostEqual(self.build.seconds_left(), self.build.seconds["yaml_tool"] - 60, delta=5)

    def test_what_is_printed(self):
        self.build.proved = set(self.build.names[:12])
        _, said = run(lambda _: self.build.say_progress())
        self.assertRegex(said, rf"^yamlcanon: 12 of {len(self.build.names)} proved, about \d+ minutes left\n$")

    def run_with(self, prove):
        """The status of a build whose crates are proved by a function, its lines, and the files of its folder."""
        with tempfile.TemporaryDirectory() as folder, mock.patch.object(BUILD.shutil, "which", return_value="rt"):
            self.build.out, self.build.log, self.build.take_built, self.build.prove = folder, f"{folder}/log", lambda: None, prove
            status, said = run(lambda _: self.build.run())
            return status, said.splitlines(), sorted(os.listdir(folder))

    def test_a_whole_build(self):
        status, lines, files = self.run_with(lambda name, jobs, niceness: (True, f"{name}: proved"))
        self.assertEqual((status, files), (0, ["log", "yamlcanon.built"]))
        self.assertIn("tools/try COMMAND", lines[1])
        self.assertRegex(lines[2], "^yamlcanon: 0 of .. proved, about .. minutes left$")
        self.assertEqual(len(lines), 3 + len(self.build.names))
        self.assertRegex(lines[-1], r"^yamlcanon: built in 0\.\d minutes, \d+\.\d of processor$")

    def test_a_crate_that_is_not_proved(self):
        status, lines, files = self.run_with(lambda name, jobs, niceness: (name != "yaml_text", name))
        self.assertEqual((status, files), (3, ["log"]))
        self.assertEqual(
            [line for line in lines if "was not proved" in line],
            [f"yamlcanon: yaml_text was not proved and built: {self.build.log} says why"],
        )
