"""tools/sums: the digests stand in the lists, and a program that tells something else than sha256sum is found."""
import unittest

from scripts import folder_of, load, put_program

sums = load("tools/sums")

# Stands for yamlreview: what sha256sum does, in the words of `sum`, but for one pattern of the second argument of sed.
TOLD = """#!/bin/sh
shift
sha256sum "$@" 2>said
status=$?
sed 's/.*WARNING: \\([0-9]*\\) line.*/lines that are no sums: \\1/; s/.*WARNING: \\([0-9]*\\) listed.*/files without a sum: \\1/
s/.*WARNING: \\([0-9]*\\) computed.*/files with another sum: \\1/; s/no properly.*/no line is one of a sum/; s/no file was.*/no file has its sum/' said |
    sed '%s' >&2
exit $status
"""


class Sums(unittest.TestCase):
    def setUp(self):
        self.room = folder_of(self)
        sums.furnish(self.room)
        self.numbers = {name: number for number, name in enumerate(sums.LISTS)}

    def fault(self, changed, name, *options):
        put_program(f"{self.room}/program", TOLD % changed)
        return sums.fault(f"{self.room}/program", self.room, self.numbers[name], options)

    def test_the_same(self):
        for name in sums.LISTS:
            self.assertIsNone(self.fault("", name))

    def test_another_number(self):
        self.assertIn("no sums: 3", self.fault("s/1/3/", "all of it"))
        self.assertIsNone(self.fault("s/1/3/", "all of it", "--status"))

    def test_digests(self):
        self.assertEqual(sums.filled("%A %UA"), sums.A + b" " + sums.A.upper())
