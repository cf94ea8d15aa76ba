"""tools/examples cases: what a text of a case stands for, which runs a case has, and that a case with another answer fails by its name."""
import os
import re
import tomllib
import unittest
from unittest import mock

from scripts import folder_of, put_program
from lib.cases import running, table, writing
from lib.examples import room
from lib.paths import read, write

# A program that prints its words, the names of its folder's files, and its input.
FAKE = """\
#!/bin/sh
echo "$@"
ls
cat
echo told >&2
exit 2
"""
# A program that reads `a` and its text alone.
READER = """\
#!/bin/sh
case $1:$(cat -- ${2:+$2}) in
events:a) printf '+STR\\n+DOC\\n=VAL :a\\n-DOC\\n-STR\\n' ;;
check:a) [ "$(head -n 1 $3)" = +STR ] && echo match ;;
canon:a | 'canon:--- "a"') echo '--- "a"' ;;
events:) printf '+STR\\n-STR\\n' ;;
canon:) ;;
*) echo 'yaml: 4 Syntax at byte 1' >&2; exit 2 ;;
esac
"""
CASES = '''\
[all]
words = ["x", "%25"]
files.one = "1"

[[case]]
name = "all of it"
files."two words" = "2"
input = "given\\n"
status = 2
output = """
x %
one
two words
given
"""
error = "told\\n"

[[case]]
name = "a part of it"
status = 2
error = "told\\n"
has = ["x", "one"]
lacks = ["two"]
'''
STREAMS = """\
fronts = true

[[stream]]
name = "read"
input = "a"
node = "=VAL :a\\n"
canonical = '''
--- "a"
'''

[[stream]]
name = "rejected"
input = "b"
fault = "4 Syntax at byte 1"

[[stream]]
name = "rejected somewhere"
input = "c"
fault = "any"
"""


class Texts(unittest.TestCase):
    def test_texts_that_are_made(self):
        for value, wanted in (
            ("a", b"a"),
            ({"bytes": "a%FF"}, b"a\xff"),
            ({"piece": "ab", "times": 2}, b"abab"),
            ({"front": "<", "piece": "$number$before", "times": 3, "between": ",", "end": ">"}, b"<10,21,32>"),
            ({"piece": "[", "times": 2, "middle": "x", "close": "]"}, b"[[x]]"),
            ({"piece": "${number}a", "times": 2, "first": 9}, b"9a10a"),
            (["a", {"piece": "b", "times": 2}], b"abb"),
        ):
            self.assertEqual(table.whole(value), wanted, value)
        with self.assertRaises(ValueError):
            table.whole({"piece": "a", "time": 2})

    def test_spelled_texts_are_read_back(self):
        for text in (
            "",
            "a",
            "a\n",
            'a "b" \\c',
            "'\"\\",
            "a\tb\n\n \n",
            "x \ny\n" * 9,
            '"""\n"',
            "'''\\\n'\n",
            "\ufeff\x1b\r\n\u2028é\n",
            "\x00" * 3,
        ):
            self.assertEqual(tomllib.loads("x = " + table.spelled(text))["x"], text)
        for data in (b"a\xff%\n\x00", b"\xe2\x82"):
            self.assertEqual(table.whole(tomllib.loads("x = " + table.spelled(data))["x"]), data)


class WithAProgram(unittest.TestCase):
    def setUp(self):
        folder = folder_of(self)
        self.folder, self.program, self.path = f"{folder}/cases", f"{folder}/fake", f"{folder}/cases/one.toml"
        os.mkdir(self.folder)
        patch = mock.patch.dict(room.PROGRAMS, yamlcanon=self.program)
        patch.start()
        self.addCleanup(patch.stop)

    def put(self, program, text):
        put_program(self.program, program)
        write(self.path, text)

    def found(self, program, text):
        """How many cases were run, and what is wrong."""
        self.put(program, text)
        checked = room.Checked("cases")
        running.check(checked, self.folder)
        return checked.count, checked.wrong


class Cases(WithAProgram):
    def test_cases_that_are_right(self):
        self.assertEqual(self.found(FAKE, CASES), (2, []))

    def test_each_other_answer_fails_by_name(self):
        for old, new, name in (
            ("status = 2", "status = 1", "all of it"),
            ("given\n", "other\n", "all of it"),
            ('error = "told', 'error = "tell', "all of it"),
            ('has = ["x", "one"]', 'has = ["one", "x"]', "a part of it"),
            ('lacks = ["two"]', 'lacks = ["one"]', "a part of it"),
            ("lacks = [", 'hint = "y"\nlacks = [', "a part of it"),
            ("lacks = [", 'begins = "y"\nlacks = [', "a part of it"),
        ):
            count, wrong = self.found(FAKE, CASES.replace(old, new, 1))
            self.assertEqual((count, len(wrong)), (2, 1), new)
            self.assertIn(f"one.toml: {name}: yamlcanon x %\n", wrong[0])

    def test_key_that_is_not_known(self):
        for text in ('[[case]]\nword = ["x"]\n', '[[case]]\nname = "x"\n', '[[stream]]\ninput = "a"\n', "[[run]]\n"):
            self.assertEqual((self.found(FAKE, text)[0], len(self.found(FAKE, text)[1])), (0, 1), text)

    def test_what_is_printed_can_be_written(self):
        self.put(FAKE, CASES)
        wrong = CASES.replace("given\n", "other\n", 1).replace("x %\n", "[[case]]\n").replace("told", "tell", 1)
        write(self.path, wrong)
        with mock.patch("sys.stdout"):
            self.assertTrue(writing.write_file(self.path))
            self.assertFalse(writing.write_file(self.path))
        self.assertEqual(self.found(FAKE, read(self.path)), (2, []))
        self.assertIn('[[case]]\nname = "a part of it"', read(self.path))


class Streams(WithAProgram):
    def test_streams_that_are_right(self):
        # Three streams, and one front, which is empty.
        self.assertEqual(self.found(READER, STREAMS), (4, []))

    def test_each_other_answer_fails(self):
        for old, new in (("=VAL :a", "=VAL :b"), ('--- "a"', '--- "b"'), ("byte 1", "byte 2"), ('input = "c"', 'input = "a"')):
            self.assertEqual(len(self.found(READER, STREAMS.replace(old, new, 1))[1]), 1, new)

    def test_fronts_without_an_answer(self):
        self.assertEqual(len(self.found(READER, STREAMS.replace('input = "b"', 'input = "é"'))[1]), 1)
        self.assertEqual(running.fronts_of([b"ab", b"ac", b"x" * 5000]), [b"", b"a"])


class Repository(unittest.TestCase):
    def test_every_case_has_runs(self):
        found = [case for path in table.paths() for case in table.cases_of(path)]
        self.assertGreater(len(found), 1700)
        self.assertFalse([case.name for case in found if not case.runs])

    def test_no_file_is_too_long(self):
        for path in table.paths():
            self.assertLess(read(path).count("\n"), 550, path)
            self.assertFalse(re.search(r"[ \t]$", read(path), re.M), path)
