"""python3 -m unittest: the values that the module loads."""

import doctest
import math
import os
import pickle
import random
import subprocess
import sys
import threading
import unittest
from decimal import Decimal

import yamlcanon
import yamlcanon.values
from yamlcanon import Refused, Tagged, TooManyNodes, Unhashable, budget, load, load_one


# A command finds the module where these tests have found it.
ENVIRONMENT = {**os.environ, "PYTHONPATH": os.path.dirname(os.path.dirname(os.path.realpath(yamlcanon.__file__)))}
# Numbers that differ by a multiple of it have one hash.
MODULUS = sys.hash_info.modulus


def unfolding(levels):
    """Sequences of two aliases of the one before: 2 to the power of so many scalars."""
    return "".join(f"- &a{level} [{f'*a{level - 1}, *a{level - 1}' if level else 'x, x'}]\n" for level in range(levels))


class Values(unittest.TestCase):
    def test_each_kind(self):
        data = "[~, true, 0x10, -5, 1.50, .inf, -.Inf, .nan, a, '1', !t u, !t [v], !t {w: x}, [], {}]"
        (values,) = load(data)
        self.assertEqual(values[:7], [None, True, 16, -5, Decimal("1.5"), Decimal("Infinity"), Decimal("-Infinity")])
        self.assertTrue(values[7].is_nan())
        self.assertEqual(values[8:], ["a", "1", Tagged("!t", "u"), Tagged("!t", ["v"]), Tagged("!t", {"w": "x"}), [], {}])
        self.assertEqual([type(value) for value in values[1:5]], [bool, int, int, Decimal])

    def test_all_digits_of_a_number_are_kept(self):
        self.assertEqual(
            load_one("123456789012345678901234567890.1234567890123456789"), Decimal("123456789012345678901234567890.1234567890123456789")
        )
        self.assertEqual(load_one(str(2**127 - 1)), 2**127 - 1)
        self.assertEqual(load_one("1e1000000"), Decimal("1e1000000"))

    def test_floats_are_made_by_what_is_asked_for(self):
        self.assertEqual(load("[1.5, .inf, -.inf]", floats=float), [[1.5, math.inf, -math.inf]])
        self.assertTrue(math.isnan(load_one(".nan", floats=float)))
        self.assertEqual(load_one("1.50", floats=str), load_one("15.0e-1", floats=str))

    def test_documents(self):
        self.assertEqual(load(""), [])
        self.assertEqual(load("a\n---\n- b\n--- a\n"), ["a", ["b"], "a"])
        for data in ("", "--- a\n--- b\n"):
            with self.assertRaises(ValueError):
                load_one(data)

    def test_what_means_the_same_has_the_same_values(self):
        self.assertEqual(repr(load("{b: 0x1, a: &x [q], c: *x}")), repr(load("c:\n  - q\na: [q]\nb: 1\n")))

    def test_each_place_has_an_object_of_its_own(self):
        values = load_one("{a: &x [{b: c}], d: *x, e: [{b: c}]}")
        values["a"][0]["b"] = "changed"
        self.assertEqual(values, {"a": [{"b": "changed"}], "d": [{"b": "c"}], "e": [{"b": "c"}]})

    def test_a_key_that_a_dict_cannot_have(self):
        for data, key, document, path in (
            ("--- a\n--- {x: [p, {? [q] : r}]}", ["q"], 1, ("x", 1)),
            ("{1: a, true: b}", True, 0, ()),
            ("{1: a, 1.0: b}", Decimal("1"), 0, ()),
            ("{? {? [a] : b} : c}", ["a"], 0, (0,)),
            ("{? !t [a] : b}", Tagged("!t", ["a"]), 0, ()),
        ):
            with self.assertRaises(Unhashable) as raised:
                load(data)
            self.assertEqual((raised.exception.key, raised.exception.document, raised.exception.path), (key, document, path))
        self.assertEqual(load_one("{!t a: b, a: c}"), {Tagged("!t", "a"): "b", "a": "c"})

    def test_the_limit_of_nodes(self):
        for levels in (10, 60):
            with self.assertRaises(TooManyNodes) as raised:
                load(unfolding(levels), limit=100)
            self.assertEqual(raised.exception.nodes, 1 + sum(2 ** (level + 2) - 1 for level in range(levels)))
        with self.assertRaises(TooManyNodes):
            load(unfolding(60))
        self.assertEqual(load("[a, b]", limit=3), [["a", "b"]])
        self.assertEqual(len(load_one(unfolding(10))), 10)
        self.assertEqual(len(load_one("[" + "~,~," * 600_000 + "]")), 1_200_000)

    def test_nothing_nests_too_deeply(self):
        value = load_one("[" * 1023 + "]" * 1023)
        for _ in range(1022):
            (value,) = value
        self.assertEqual(value, [])
        told = []
        threading.stack_size(128 << 10)
        try:
            thread = threading.Thread(target=lambda: told.append(load("{a: " * 1023 + "x" + "}" * 1023)))
            thread.start()
            thread.join()
        finally:
            threading.stack_size(0)
        self.assertEqual(list(told[0][0]), ["a"])

    def test_rejections_and_bounds(self):
        with self.assertRaises(Refused) as raised:
            load("port: 80\nhost:\tweb\n")
        self.assertEqual((raised.exception.line, raised.exception.column, raised.exception.number), (2, 6, 5))
        with self.assertRaises(Refused):
            load("{a: 1, 0x1: b, 1: c}")
        with self.assertRaises(MemoryError):
            load("a", memory=1000)
        with budget(1000), self.assertRaises(MemoryError):
            load_one("a")
        self.assertEqual(load(bytearray(b"a"), memory=10_000_000), ["a"])

    def test_keys_that_are_equal_or_cannot_be_hashed_among_many(self):
        many = "".join(f"{number}: a, " for number in range(300))
        for more, key in (("true: b", True), ("7.0: b", Decimal(7)), ("? [a] : b", ["a"])):
            with self.assertRaises(Unhashable) as raised:
                load("{" + many + more + "}")
            self.assertEqual((raised.exception.key, raised.exception.is_slow), (key, False))

    def test_examples(self):
        self.assertEqual(doctest.testmod(yamlcanon.values).failed, 0)


def mapping(keys):
    return "{" + ", ".join(f"{key}: 0" for key in keys) + "}"


def chosen_keys(size=8192):
    """Ints of different hashes. The first are in most of the places of a dict, next to one another in the order in which it looks when no
    bits of a hash are left. Of the others, which are behind them in the order of their texts, all of its looks before are at those."""
    run = [1]
    while len(run) < size * 6 // 10:
        run.append((5 * run[-1] + 1) % size)
    chance, taken, found = random.Random(1), set(run), []
    while len(found) < 400:
        own = rest = chance.getrandbits(60)
        at = own % size
        while at in taken and rest:
            rest >>= 5
            at = (5 * at + rest + 1) % size
        if at in taken:
            found.append(own + (9999 * 10**34 - own) // MODULUS * MODULUS + MODULUS)
    return run + found


# What 3 MB of keys of one hash take beside 3 MB of other keys, in seconds of the processor.
ONE_HASH = """
import sys, time, yamlcanon
def seconds(step):
    data = "{" + ", ".join(f"{10**20 + number * step}: 0" for number in range(116_000)) + "}"
    assert 3_000_000 < len(data) < 4_000_000
    began = time.process_time()
    try:
        yamlcanon.load(data)
        told = "a dict"
    except yamlcanon.Unhashable as fault:
        told = fault.is_slow
    return told, time.process_time() - began
(other, least), (one_hash, most) = seconds(10**15 + 1), seconds(sys.hash_info.modulus)
print(other, one_hash, most < 2 * least + 1)
"""


class Hashes(unittest.TestCase):
    def is_slow(self, data):
        with self.assertRaises(Unhashable) as raised:
            load(data)
        again = pickle.loads(pickle.dumps(raised.exception))
        self.assertEqual((str(again), again.is_slow), (str(raised.exception), raised.exception.is_slow))
        return raised.exception.is_slow

    def test_3_mb_of_keys_of_one_hash(self):
        done = subprocess.run([sys.executable, "-c", ONE_HASH], capture_output=True, env=ENVIRONMENT, timeout=100)
        self.assertEqual((done.stdout, done.stderr), (b"a dict True True\n", b""))

    def test_keys_of_one_hash(self):
        for keys in (
            [number * MODULUS for number in range(400)],
            [-number * MODULUS - 7 for number in range(400)],
            [f"{number * MODULUS}.5" for number in range(400)],
            [f"{number * MODULUS}{'.0' * (number % 2)}" for number in range(400)],
        ):
            self.assertTrue(self.is_slow(mapping(keys)), keys[1])
            self.assertEqual(len(load_one(mapping(keys[:256]))), 256)

    def test_keys_whose_hashes_differ_and_meet(self):
        keys = chosen_keys()
        self.assertEqual(len({hash(key) for key in keys}), len(keys))
        self.assertTrue(self.is_slow(mapping(keys)))

    def test_keys_that_nobody_chose_for_their_hashes(self):
        count = range(5000)
        for keys in (
            *([number << bits for number in count] for bits in range(0, 112, 13)),
            *([-number << bits for number in count] for bits in (0, 39, 60)),
            *([number * 10**digits for number in count] for digits in range(0, 33, 4)),
            *([Decimal(number) / 10**digits for number in count if number % 10] for digits in (1, 2, 9)),
            [number**2 for number in count],
            [1 << number for number in range(127)],
            [(192 << 24) + (number >> 8 << 16) + (number & 255) for number in count],
            [(0x2001 << 112) + (number >> 6 << 64) + (number & 63) for number in count],
            [Decimal(f"1e{number}") for number in range(-2500, 2500)],
        ):
            self.assertEqual(load_one(mapping(keys)), dict.fromkeys(keys, 0))


if __name__ == "__main__":
    unittest.main()
