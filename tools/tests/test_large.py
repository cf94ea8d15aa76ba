"""tools/large: a right program passes, and each wrong answer is reported."""
import unittest
from unittest import mock

from scripts import folder_of, load, put, put_program

large = load("tools/large")

# A program that answers as the files next to it say, by its words.
PROGRAM = """#!/bin/sh
answer="${0%/*}/answers/$*"
cat "$answer/output"
cat "$answer/error" >&2
read -r status <"$answer/status"
exit "$status"
"""
PARTS = ("parts", "last", "memory")


class Wanted(large.Checks):
    """Only notes what each run has to answer."""

    def want(self, words, status, output, error=b"", memory=None, review=False, begins=False):
        self.wrong.append((" ".join(words), [status, output.decode("latin-1"), error.decode("latin-1")]))


def few():
    """The table with texts of twenty pieces, and room for an interpreter."""
    given = large.table()
    for text in given["text"].values():
        text["times"] = 20
    for run in given["memory"]:
        run["memory"] = 1_000_000
    return given


class Large(unittest.TestCase):
    def setUp(self):
        self.folder = folder_of(self)
        self.program = f"{self.folder}/program"
        put_program(self.program, PROGRAM)

    def wrong(self, part, answers, given=None):
        """What a part reports of a program that gives these answers."""
        for words, (status, output, error) in answers.items():
            texts = {"status": f"{status}\n", "output": output.encode("latin-1"), "error": error.encode("latin-1")}
            put(f"{self.folder}/answers/{words}", texts)
        checks = large.Checks(self.folder, self.program, self.program)
        large.PARTS[part](checks, given or few())
        return checks.wrong

    def answers(self, part):
        wanted = Wanted(self.folder)
        large.PARTS[part](wanted, few())
        return dict(wanted.wrong)

    def test_right_answers(self):
        for part in PARTS:
            with self.subTest(part):
                self.assertEqual(self.wrong(part, self.answers(part)), [])

    def test_each_wrong_answer(self):
        """Every answer is wrong in its status, its last byte or its error: every run is reported."""
        for part in PARTS:
            right = self.answers(part)
            for at in range(3):
                wrong = {words: list(answer) for words, answer in right.items()}
                for answer in wrong.values():
                    answer[at] = 1 - min(answer[at], 1) if at == 0 else answer[at][:-1] or "x"
                with self.subTest((part, at)):
                    self.assertEqual({it.split(":")[0] for it in self.wrong(part, wrong)}, set(right))

    def test_too_little_memory(self):
        given = few()
        for run in given["memory"]:
            run["memory"] = 1000
        self.assertEqual(len(self.wrong("memory", self.answers("memory"), given)), len(given["memory"]))

    def test_growth(self):
        given = few()
        shapes = len(given["growth"]["shapes"])
        with mock.patch.object(large.shutil, "which", return_value="valgrind"):
            for grows, counted, count in ((2.0, 1, 0), (4.0, 1, shapes), (2.0, 10**9, 1)):
                with mock.patch("bench.lib.growth.growth", return_value=(grows, "shape")), mock.patch(
                    "bench.lib.growth.instructions", return_value=(counted, "answered")
                ):
                    self.assertEqual(len(self.wrong("growth", {}, given)), count)

    def test_shapes_are_there(self):
        from bench.lib.shapes import SHAPES

        self.assertEqual([name for name in large.table()["growth"]["shapes"] if name not in SHAPES], [])
