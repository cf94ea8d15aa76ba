"""tools/examples runs the examples of the pages: one that ends otherwise is found, and can be renewed."""
import os
import tempfile
import unittest
from unittest import mock

from scripts import folder_of, load, put, put_program, run
from lib.examples import pages, programs, room
from lib.examples.room import Checked

EXAMPLES = load("tools/examples")
# A program that accepts `a` and its text, and rejects everything else.
FAKE = """\
#!/bin/sh
case $(cat) in a | '--- "a"') echo '--- "a"'; exit 0;; esac
echo "yaml: 4 Syntax at byte 1" >&2
exit 2
"""
SECTION = """\
## One
```sh
echo one
```
```text
one
```
"""
TABLE = """\
[texts]
long = {{ piece = "ab", times = 3 }}
[files]
"file%FF" = "x"
[made]
nested = {{ open = "[", times = 2, middle = "x", close = "]" }}
steps = {{ indented = ["a:"], times = 2, middle = "x" }}
[other]
folders = ["folder"]
fifos = []
{runs}
"""
RIGHT = """\
[[run]]
input = "a"
output = '''
--- "a"
'''
[[run]]
each = ["b", "$long"]
input = "$each"
arguments = ["canon"]
status = 2
error = "yaml: 4 Syntax at byte 1\\n"
[[run]]
memory = 4000000
input = "a"
[[run]]
shell = "ls | grep -v ^f; cat nested steps; yamlcanon <nested 2>/dev/null || echo rejected"
output = '''
nested
steps
[[x]]
a:
 a:
  x
rejected
'''
"""


class WithAProgram(unittest.TestCase):
    def setUp(self):
        self.folder = folder_of(self)
        program = f"{self.folder}/fake"
        put_program(program, FAKE)
        for name in room.PROGRAMS:
            patch = mock.patch.dict(room.PROGRAMS, {name: program})
            patch.start()
            self.addCleanup(patch.stop)
        self.checked = Checked("page")

    def found(self):
        """How many examples were run, and how many were wrong; then from the start."""
        counts = self.checked.count, len(self.checked.wrong)
        self.checked = Checked("page")
        return counts


class Programs(WithAProgram):
    def found_of(self, runs):
        put(self.folder, {"table.toml": TABLE.format(runs=runs)})
        programs.check(self.checked, f"{self.folder}/table.toml")
        return self.found()

    def test_runs_that_are_right(self):
        self.assertEqual(self.found_of(RIGHT), (5, 0))

    def test_wrong_output_status_and_error(self):
        for old, new, wrong in (('--- "a"', '--- "b"', 1), ("status = 2", "status = 1", 2), ("byte 1", "byte 2", 2), ("  x", "   x", 1)):
            self.assertEqual(self.found_of(RIGHT.replace(old, new)), (5, wrong), (old, new))
        self.assertEqual(self.found_of(RIGHT.replace('memory = 4000000\ninput = "a"', 'memory = 4000000\ninput = "b"')), (5, 1))

    def test_more_is_printed_than_the_table_has(self):
        self.assertEqual(self.found_of('[[run]]\ninput = "a"\n'), (1, 1))
        self.assertEqual(self.found_of('[[run]]\ninput = "b"\nstatus = 2\n'), (1, 1))

    def test_key_that_is_not_known(self):
        with self.assertRaises(SystemExit):
            self.found_of('[[run]]\nwords = ["canon"]\n')

    def test_table_of_the_repository(self):
        runs = list(programs.runs_of(programs.table(), "room"))
        self.assertGreaterEqual(len(runs), 44)
        self.assertFalse([it.name() for it in runs if it.program not in room.PROGRAMS])


class Pages(WithAProgram):
    def test_rows_that_are_right(self):
        pages.try_row("a", '--- "a"', self.checked)
        pages.try_row("b: c: d", "4 Syntax at byte 1", self.checked)
        self.assertEqual(self.found(), (2, 0))

    def test_rows_that_are_wrong(self):
        for text, wanted in (("a", '--- "b"'), ("a", "4 Syntax at byte 1"), ("b", "4 Syntax at byte 10"), ("b", '--- "b"')):
            pages.try_row(text, wanted, self.checked)
        self.assertEqual(self.found(), (4, 4))

    def test_page_without_its_tables(self):
        with mock.patch.object(pages, "read", return_value="| a | b |\n"):
            pages.check_tables(self.checked)
        self.assertEqual(self.found(), (0, 3))

    def test_section(self):
        self.assertEqual(pages.try_section(SECTION, "One", self.checked), SECTION)
        self.assertEqual(self.found(), (1, 0))

    def test_section_that_prints_something_else(self):
        self.assertEqual(pages.try_section(SECTION.replace("text\none", "text 1\ntwo"), "One", self.checked), SECTION)
        self.assertEqual(self.found(), (1, 1))

    def test_block_that_fails_in_silence(self):
        pages.try_section(SECTION + "```sh\nexit 9\n```\n", "One", self.checked)
        self.assertEqual(self.found(), (2, 1))

    def test_block_whose_program_is_not_installed(self):
        pages.try_section("## One\n```sh needs=no-such-program\nexit 1\n```\n```text\nx\n```\n", "One", self.checked)
        self.assertEqual((len(self.checked.left_out), self.found()), (1, (0, 0)))

    def test_command_of_a_page(self):
        page = "Text:\n\n    $ echo one\n    two\n\nMore text.\n"
        os.mkdir(f"{self.folder}/room")
        written = pages.try_session(page, room.Room(f"{self.folder}/room"), self.checked)
        self.assertEqual((written, self.found()), (page.replace("two", "one"), (1, 1)))

    def test_examples_of_the_form(self):
        page = '# Title\n**`one`.** Text.\n```\n< a\n> --- "a"\n```\n'
        pages.try_rules(page, self.checked)
        self.assertEqual(self.found(), (2, 0))
        pages.try_rules(page.replace("< a", "< b"), self.checked)
        self.assertEqual(self.found(), (1, 1))
        pages.try_rules(page + "**`two`.** No example.\n", self.checked)
        self.assertEqual(self.found(), (2, 1))

    def test_paths_of_the_form(self):
        pages.try_paths("`crates/yaml_definitions/specs/model/Order.antt` (`trees_cmp`) and `Nothing.antt`", self.checked)
        self.assertEqual(self.found(), (3, 1))


class Arguments(unittest.TestCase):
    def test_page_without_examples_is_a_fault(self):
        self.assertTrue(run(lambda _: EXAMPLES.report("page", Checked("page")))[0])
        with mock.patch.dict(EXAMPLES.PAGES, {"FORM": ("page", lambda checked: None)}), mock.patch.object(EXAMPLES, "want_built"):
            self.assertEqual(run(EXAMPLES.main, "FORM")[0], 1)

    def test_what_is_printed_is_written_into_the_page(self):
        def check(checked):
            checked.text = "new\n"
            checked.want(EXAMPLES.read(f"{EXAMPLES.TOP}/page.md") == "new\n", "old")

        with tempfile.TemporaryDirectory() as top, mock.patch.object(EXAMPLES, "TOP", top), mock.patch.object(EXAMPLES, "want_built"):
            EXAMPLES.write(f"{top}/page.md", "old\n")
            with mock.patch.dict(EXAMPLES.PAGES, {"FORM": ("page.md", check)}):
                self.assertEqual(run(EXAMPLES.main, "FORM")[0], 1)
                self.assertEqual(run(EXAMPLES.main, "--write", "FORM")[0], 0)
                self.assertEqual(run(EXAMPLES.main, "FORM")[0], 0)
