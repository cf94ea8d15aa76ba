"""tools/moves: a right list is a patch in both directions, and a list that lacks a line or has a wrong one is none. Which differences
have one line."""
import unittest

from scripts import load

moves = load("tools/moves")
aliases = moves.aliases

LEFT = [["a", "b", {"name": "c", "image": "1"}]]
RIGHT = [[{"name": "c", "image": "2"}, "a", "new"]]
LINES = [
    ("changed", [(0, 0), (2, 0), "image"], "1", "2"),
    ("left", [(0, 0), (1, None)], "b", None),
    ("right", [(0, 0), (None, 2)], None, "new"),
    ("moved", [(0, 0), (2, 0)], None, None),
]
ONE_SIDE = {"kind": "left", "path": "[1]", "left": '"x"', "right": None, "left_value": "x"}
ONE_SIDE["steps"] = [{"left": 0, "right": 0}, {"left": 1}]


def both(lines):
    """Whether the lines make either side of the other."""
    try:
        return moves.patched(LEFT, lines) == RIGHT and moves.patched(RIGHT, [moves.turned(line) for line in lines]) == LEFT
    except (moves.Bad, KeyError, IndexError):
        return False


class Moves(unittest.TestCase):
    def test_patch(self):
        self.assertTrue(both(LINES))

    def test_line_left_out(self):
        for number in range(len(LINES)):
            with self.subTest(LINES[number]):
                self.assertFalse(both(LINES[:number] + LINES[number + 1 :]))

    def test_item_taken_twice(self):
        self.assertFalse(both([*LINES, ("moved", [(0, 0), (0, 0)], None, None)]))

    def test_path(self):
        self.assertEqual(moves.steps_of("1:2.a[3:4]", "moved"), [(1, 2), "a", (3, 4)])
        self.assertEqual(moves.steps_of(".a[3]", "left"), [(0, 0), "a", (3, None)])
        self.assertEqual(moves.steps_of(".", "changed"), [(0, 0)])
        self.assertEqual(moves.steps_of("2", "right"), [(None, 2)])

    def test_line(self):
        line = {"kind": "changed", "path": ".a[0:1]", "left": '"x"', "right": '["y"]', "left_value": "x", "right_value": ["y"]}
        line["steps"] = [{"left": 0, "right": 0}, "a", {"left": 0, "right": 1}]
        self.assertEqual(moves.read(line), ("changed", [(0, 0), "a", (0, 1)], "x", ["y"]))
        self.assertEqual(moves.read(ONE_SIDE), ("left", [(0, 0), (1, None)], "x", None))

    def test_line_that_says_two_things(self):
        wrong = [{"steps": [{"left": 0, "right": 0}, {"right": 1}]}, {"steps": [{"left": 1}]}, {"left_value": "y"}, {"right_value": None}]
        for part in wrong:
            with self.subTest(part), self.assertRaises(moves.Bad):
                moves.read({**ONE_SIDE, **part})


def stream(value, **more):
    """A stream of one document, in which `value` is an anchor's node and stands at two other places, and some entries more."""
    return [{"x": value, "y": value, "z": [value], **more}]


def line(kind, *keys):
    return kind, [(0, 0), *keys], None, None


class Aliases(unittest.TestCase):
    def test_text(self):
        self.assertEqual(aliases.text_of(stream({"k": "ab"})), '--- {"x": &a0 {"k": "ab"}, "y": *a0 , "z": [*a0 ]}\n')
        self.assertEqual(aliases.text_of([["ab"], ["ab"]]), '--- ["ab"]\n--- ["ab"]\n')

    def test_one_change(self):
        lines = [line("changed", "x", "k"), line("changed", "y", "k"), line("changed", "z", (0, 0), "k")]
        left, right = stream({"k": "a1"}), stream({"k": "a2"})
        self.assertEqual(aliases.counts_of(lines, left, right), [3, 0, 0])
        # without the line of the node itself, the aliases have a line each
        self.assertEqual(aliases.counts_of(lines[1:], left, right), [1, 1])

    def test_part_that_is_new(self):
        lines = [line("right", "x", "m"), line("right", "y", "m")]
        self.assertEqual(aliases.counts_of(lines, stream({"k": "a1"}), stream({"k": "a1", "m": "b1"})), [2, 0])

    def test_aliases_that_are_new(self):
        value = {"k": "a1"}
        lines = [line("right", "p"), line("right", "q")]
        self.assertEqual(aliases.counts_of(lines, stream(value), stream(value, p=value, q=value)), [1, 1])

    def test_copies(self):
        lines = [line("changed", "x", "k"), line("changed", "y", "k")]
        copies = [{"x": {"k": "a2"}, "y": {"k": "".join(["a", "2"])}, "z": [{"k": "".join(["a", "2"])}]}]
        self.assertEqual(aliases.counts_of(lines, stream({"k": "a1"}), copies), [1, 1])
