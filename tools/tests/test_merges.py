"""tools/merges: the merge on trees takes a list for one value, and so each of several documents; which results have a change of another
item."""
import unittest

from scripts import load

merges = load("tools/merges")

BASE = [{"name": "a", "v": "a:1"}, {"name": "b", "v": "b:1"}]
SWAPPED = BASE[::-1]
CHANGED = [{**BASE[0], "root": "a:2"}, BASE[1]]
MIXED = [{**BASE[1], "root": "a:2"}, BASE[0]]


def merge_of(*triple):
    return merges.or_none(merges.merged_streams, triple)


class Merges(unittest.TestCase):
    def test_keys(self):
        sides = [[{"a": 1, "b": 2}], [{"a": 3, "b": 2}], [{"b": 4, "a": 1, "c": 5}]]
        self.assertEqual(merge_of(*sides), [{"a": 3, "b": 4, "c": 5}])
        self.assertIsNone(merge_of([{"a": 1}], [{"a": 2}], [{"a": 3}]))
        self.assertEqual(merge_of([{"a": 1}], [{"a": 2}], [{"a": 2}]), [{"a": 2}])
        self.assertIsNone(merge_of([{"a": 1}], [{"a": True}], [{"a": 2}]))

    def test_key_left_out(self):
        self.assertEqual(merge_of([{"a": 1, "b": 2}], [{"b": 2}], [{"a": 1, "b": 3}]), [{"b": 3}])
        self.assertIsNone(merge_of([{"a": 1, "b": 2}], [{"b": 2}], [{"a": 3, "b": 2}]))

    def test_list(self):
        for documents in (lambda value: [value], lambda value: [{"l": value}]):
            self.assertIsNone(merge_of(documents(BASE), documents(SWAPPED), documents(CHANGED)))
            self.assertEqual(merge_of(documents(BASE), documents(SWAPPED), documents(SWAPPED)), documents(SWAPPED))

    def test_documents(self):
        self.assertIsNone(merge_of(BASE, SWAPPED, CHANGED))
        self.assertIsNone(merge_of(BASE, [{**BASE[0], "k": "a:3"}, BASE[1]], CHANGED))
        self.assertEqual(merge_of(BASE, [BASE[0], "new"], CHANGED), [CHANGED[0], "new"])
        self.assertIsNone(merge_of(BASE, BASE[:1], CHANGED))

    def test_merge_by_place(self):
        self.assertEqual(merges.merged_by_place(BASE, SWAPPED, CHANGED), MIXED)
        self.assertTrue(merges.is_mixed(MIXED))
        self.assertFalse(any(merges.is_mixed(value) for value in (BASE, SWAPPED, CHANGED)))
