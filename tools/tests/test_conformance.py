"""How tools/conformance sorts the cases of yaml-test-suite, and what it finds wrong."""
import collections
import os
import unittest
from unittest import mock

from scripts import folder_of, put, put_program, run
from lib.form import companion, suite
from lib.form.made import scalars

# A program that reads `a` and rejects everything else at its first byte.
FAKE = """\
#!/bin/sh
[ "$(cat)" = a ] && { printf '+STR\\n+DOC\\n=VAL :a\\n-DOC\\n-STR\\n'; exit 0; }
echo 'yaml: 4 Syntax at byte 0' >&2
exit 2
"""
EVENTS = b"+STR\n+DOC\n=VAL :a\n-DOC\n-STR\n"


class Suite(unittest.TestCase):
    def setUp(self):
        folder = folder_of(self)
        self.place, self.program = f"{folder}/suite", f"{folder}/fake"
        put_program(self.program, FAKE)

    def case(self, name, text, events=None):
        put(self.place, {f"{name}/in.yaml": text, f"{name}/{'error' if events is None else 'test.event'}": events or b""})

    def kind(self, text, **files):
        return suite.sorted_case(self.program, {"in.yaml": text, **{name.replace("_", "."): it for name, it in files.items()}})[0]

    def test_kinds(self):
        self.assertEqual(self.kind(b"a", test_event=EVENTS), "read")
        self.assertEqual(self.kind(b"a", test_event=b"+STR\n-STR\n"), "?")
        self.assertEqual(self.kind(b"a", error=b""), "?")
        self.assertEqual(self.kind(b"[", error=b""), "refused")
        self.assertEqual(self.kind(b"? b\n", test_event=b"+STR\n"), "question_key")
        self.assertEqual(self.kind(b"b\n", test_event=b"+STR\n"), "?")

    def found(self, expected):
        with mock.patch.object(suite, "expected_cases", return_value=expected):
            return run(lambda _: suite.check(self.program, self.place))

    def test_cases_where_they_belong(self):
        self.case("AAAA", b"a", EVENTS)
        self.case("BBBB", b"[")
        status, said = self.found({"AAAA": "read", "BBBB": "refused"})
        self.assertEqual(status, 0)
        self.assertIn("2 cases: 1 read with the suite's events, 1 refused as the suite does", said)

    def test_case_that_is_elsewhere_or_not_there(self):
        self.case("AAAA", b"a", EVENTS)
        for expected in ({"AAAA": "refused"}, {}, {"AAAA": "read", "CCCC": "read"}):
            self.assertEqual(self.found(expected)[0], 1, expected)

    def test_no_cases(self):
        os.makedirs(self.place)
        self.assertEqual(self.found({})[0], 1)


class Scalars(unittest.TestCase):
    def test_the_same_for_the_same_seed(self):
        self.assertEqual(scalars(50, 1), scalars(50, 1))
        self.assertNotEqual(scalars(50, 1), scalars(50, 2))

    def test_those_that_are_refused_stand_alone(self):
        found = [("", "1"), ("!!int ", "a"), ("!!float ", "1"), ("", str(2**127))]
        self.assertEqual(companion.streams_of(found), [b"- 1\n- !!float 1\n", b"- !!int a\n", b"- %d\n" % 2**127])

    def wrong(self, canon):
        """What is said of a program that reads a list of `1`, and writes this as its text."""
        events = "+STR\n+DOC\n+SEQ\n=VAL :1\n-SEQ\n-DOC\n-STR\n"
        with mock.patch.object(companion, "answer", lambda _, command, __: (events if command == "events" else canon, "")):
            return list(companion.wrong_streams("", [b"- 1\n"], "streams", collections.Counter()))

    def test_another_text_is_told(self):
        self.assertEqual(self.wrong('--- [!!int "1"]\n'), [])
        self.assertEqual(len(self.wrong('--- [!!int "2"]\n')), 1)


class Files(unittest.TestCase):
    def wrong(self, canon, again=None):
        """What is said of a program that reads `a: 1`, and writes these texts of it and of its text."""
        answers = {"events": "+STR\n+DOC\n=VAL :a\n-DOC\n-STR\n", "canon": canon}
        with mock.patch.object(
            companion, "answer", lambda _, command, source: (again if again and source != b"a" else answers[command], "")
        ):
            return list(companion.wrong_file("", b"a", collections.Counter()))

    def test_meaning(self):
        self.assertEqual(self.wrong('--- "a"\n'), [])
        self.assertEqual(len(self.wrong('--- "b"\n')), 1)
        self.assertEqual(self.wrong('--- "a"\n', '--- "c"\n'), ["its canonical text is not its own"])
