"""python3 -m unittest: where two streams differ, and many callers at once with a budget each."""

import base64
import concurrent.futures
import dataclasses
import doctest
import hashlib
import json
import os
import threading
import unittest

import yamlcanon
import yamlcanon.differences
from yamlcanon import Difference, Kind, Refused, budget, canonical, diff, events, same, sha256

CALLERS = 64
# What callers have: no limit, enough for all vectors but large ones, and too little for any that has a node.
BUDGETS = (0, 1 << 20, 500)
VECTORS = os.environ.get("YAMLCANON_VECTORS") or os.path.join(os.path.dirname(__file__), "../../vectors/form-1.jsonl")
# Pairs of streams with what `yamlreview diff --format=json` prints of them, a line of JSON each: tools/bindings writes it.
DIFFERENCES = os.environ.get("YAMLCANON_DIFFERENCES")
DEEPEST = b"{a: " * 1023 + b"x" + b"}" * 1023


class Differences(unittest.TestCase):
    def test_each_kind(self):
        left, right = "a: 1\nb: [x]\n", "a: 2\nc: ~\nb: []\n"
        want = [
            Difference("changed", ".a", '!!int "1"', '!!int "2"', (1, 4), (1, 4)),
            Difference("left", ".b[0]", '"x"', None, (2, 5), None),
            Difference("right", ".c", None, '!!null "null"', None, (2, 4)),
        ]
        self.assertEqual(diff(left, right), want)
        self.assertEqual(diff(left, right, lines=3), want)
        self.assertEqual(diff(left, right, lines=2), [*want[:2], Difference("more")])
        self.assertEqual(diff(left, right, lines=0), [])

    def test_a_line_of_an_item_that_moved(self):
        line = b'{"kind":"moved","left":null,"left_place":{"column":3,"line":1},"path":"[2]","right":null,"right_place":{"column":3,"line":4}}\n'
        self.assertEqual(yamlcanon.differences.differences_in(line), [Difference("moved", "[2]", None, None, (1, 3), (4, 3))])

    def test_none(self):
        for left, right in (("", ""), ("a: 3", b"{a: 0x3}"), ("&x a", bytearray(b"a"))):
            self.assertEqual(diff(left, right), [])
            self.assertTrue(same(left, right))

    def test_a_rejection_names_its_side(self):
        for left, right, side in (("a:\tb", "[", "left"), ("a", "a:\tb", "right")):
            with self.assertRaises(Refused) as raised:
                diff(left, right)
            self.assertEqual((raised.exception.kind, raised.exception.side), (Kind.Tab, side))
            self.assertEqual((raised.exception.line, raised.exception.column), (1, 3))
        for lines in (-1, 2**64):
            self.assertRaises(ValueError, diff, "a", "b", lines=lines)

    def test_memory(self):
        self.assertRaises(MemoryError, diff, "a: b", "a: c", memory=1000)
        with budget(1000):
            self.assertRaises(MemoryError, diff, "a: b", "a: c")
            self.assertEqual(len(diff("a: b", "a: c", memory=0)), 1)

    def test_more_lines_than_the_first_room_holds(self):
        told = diff("- a\n" * 900, "- b\n" * 900, lines=10_000)
        self.assertGreaterEqual(len(told), 900)

    def test_deep_inputs_on_a_thread_with_a_small_stack(self):
        got = []
        before = threading.stack_size(128 << 10)
        try:
            thread = threading.Thread(target=lambda: got.append(diff(DEEPEST, DEEPEST.replace(b"x", b"y"))))
            thread.start()
        finally:
            threading.stack_size(before)
        thread.join()
        self.assertEqual([(one.kind, one.left, one.right) for one in got[0]], [("changed", '"x"', '"y"')])


def vectors():
    """The inputs of the vectors that are short, with their texts or the numbers of their errors."""
    with open(VECTORS, encoding="utf-8") as file:
        for line in file:
            told = json.loads(line)
            if told.get("input") is not None:
                yield base64.b64decode(told["input"]), told.get("text"), told.get("events"), told.get("refusal", {}).get("number")


def or_number(call, *words):
    """What a call gives, or the number of its error."""
    try:
        return call(*words)
    except MemoryError:
        return 21
    except Refused as fault:
        return fault.number


def answers_beside(vector, memory):
    """The answers on a vector under a limit that are not the vector's, and do not say that memory is lacking."""
    data, text, told, number = vector
    # A stream whose canonical text would be too long is compared.
    refused = None if number == Kind.TextTooLong else number
    wanted = [
        (canonical, (data,), number if text is None else text.encode()),
        (events, (data,), number if told is None else told.encode()),
        (sha256, (data,), number if text is None else hashlib.sha256(text.encode()).digest()),
        (same, (data, text or data), refused or True),
        (diff, (data, text or data), refused or []),
    ]
    allowed = (21,) if memory else ()
    with budget(memory):
        found = [(call, or_number(call, *words), want) for call, words, want in wanted]
    return [one for one in found if one[1] != one[2] and one[1] not in allowed]


@unittest.skipUnless(os.path.exists(VECTORS), "the vectors are not there")
class Callers(unittest.TestCase):
    def test_64_callers_with_a_budget_each(self):
        rows = list(vectors())
        self.assertGreater(len(rows), 700)
        work = [(vector, BUDGETS[number % len(BUDGETS)]) for number, vector in enumerate(rows * 3)]
        with concurrent.futures.ThreadPoolExecutor(CALLERS) as pool:
            wrong = [line for found in pool.map(answers_beside, *zip(*work)) for line in found]
        self.assertEqual(wrong, [])


def joined(pieces):
    """What pieces stand for: texts, and lists of a text, what is between two of it, and how often it comes, an @ in it being its number."""
    parts = (
        [piece] if isinstance(piece, str) else [piece[1].join(piece[0].replace("@", str(100000 + number)) for number in range(piece[2]))]
        for piece in pieces
    )
    return "".join(text for part in parts for text in part).encode()


@unittest.skipUnless(os.path.exists(VECTORS), "the vectors are not there")
class LongVectors(unittest.TestCase):
    def test_vectors_that_are_told_by_pieces(self):
        with open(VECTORS, encoding="utf-8") as file:
            long = [told for told in map(json.loads, file) if "input_pieces" in told]
        self.assertGreater(len(long), 5)
        for told in long:
            data, number = joined(told["input_pieces"]), told.get("refusal", {}).get("number")
            for call, pieces in ((canonical, "text_pieces"), (events, "events_pieces")):
                wanted = joined(told[pieces]) if pieces in told else number
                self.assertTrue(or_number(call, data) == wanted, (told["name"], call))


def as_told(line):
    """The numbers and texts of a line of JSON, in the order of a Difference."""
    told = json.loads(line)
    places = [told.get(side + "_place") for side in ("left", "right")]
    places = [place and (place["line"], place["column"]) for place in places]
    return (told["kind"], told.get("path", ""), told.get("left"), told.get("right"), *places)


def diff_beside(row, memory):
    """What a pair of streams is answered under a limit, if that is neither what the program prints nor that memory is lacking."""
    told = json.loads(row)
    left, right, lines = (base64.b64decode(told[name]) for name in ("left", "right", "lines"))
    wanted = [as_told(line) for line in lines.split(b"\n")[:-1]]
    try:
        with budget(memory):
            found = [dataclasses.astuple(one) for one in diff(left, right)]
    except MemoryError:
        return None if memory else (row, "MemoryError")
    except Refused as fault:
        return None if told["status"] == 2 else (row, str(fault))
    return None if (found, bool(found)) == (wanted, told["status"] == 1) else (row, found)


@unittest.skipUnless(DIFFERENCES, "YAMLCANON_DIFFERENCES names no file of pairs with the program's answers")
class CallersOfDiff(unittest.TestCase):
    def test_64_callers_are_told_what_the_program_prints(self):
        with open(DIFFERENCES, encoding="utf-8") as file:
            rows = file.read().splitlines()
        self.assertGreater(len(rows), 2000)
        self.assertEqual({json.loads(row)["status"] for row in rows}, {0, 1, 2})
        with concurrent.futures.ThreadPoolExecutor(CALLERS) as pool:
            work = [(row, BUDGETS[number % len(BUDGETS)]) for number, row in enumerate(rows + rows[1:] + rows[2:])]
            wrong = [found for found in pool.map(diff_beside, *zip(*work)) if found is not None]
        self.assertEqual(wrong, [])


def load_tests(_loader, tests, _pattern):
    """Adds the examples of the documentation."""
    tests.addTests(doctest.DocTestSuite(yamlcanon.differences))
    return tests


if __name__ == "__main__":
    unittest.main()
