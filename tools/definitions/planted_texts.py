#!/usr/bin/env python3
"""planted_texts.py: the first text that tells changed definitions of the grammar from what it is known to be read as.

The environment variable SPECS names a folder that has the definitions (as in shadow.py). The texts are the rows of `yaml_vectors` and
tools/data/cases/streams, the cases of yaml-test-suite (SUITE: a checkout or an archive, see `tools/conformance suite --help`) and the
texts of at most 3 characters of short_readings/, all of at most 400 characters, each with its events or none. Prints the first that is
read otherwise, and its kind; nothing where there is none.
"""
import urllib.parse

import shadow
from short_readings import ALPHABETS, letters, shown, stored, texts

from lib.arguments import parser
from lib.failing import rows
from lib.form import suite

LONGEST = 400
MARK = b"\xef\xbb\xbf"


def texts_of_rows():
    for row in rows.all_rows():
        if isinstance(row, rows.Row) and row.events:
            fault = rows.is_fault(row.events)
            if not fault or 4 <= int(row.events.split()[0]) <= 11:
                yield "row", row.place, row.input, None if fault else row.events.decode()


def texts_of_suite(place):
    expected = suite.expected_cases()
    for name, files in suite.cases_of(place).items():
        if expected[name] not in suite.RULES:
            yield "suite", name, files["in.yaml"], files["test.event"].decode() if expected[name] == "read" else None


def texts_of_lists():
    for name in ALPHABETS:
        wanted = stored(name)
        for text in texts(name, 3):
            yield "short reading", repr(text), text.encode(), wanted.get(shown(text))


def is_read(kind, text, wanted):
    """Whether a text has these events by the definitions, and no others, or none. Tags are decoded, as each kind spells them."""
    found = shadow.event_texts(text, True, 1024)
    if kind == "short reading":
        found = {letters(events) for events in found}
    return {urllib.parse.unquote(events) for events in found} == ({urllib.parse.unquote(wanted)} if wanted is not None else set())


def main(words=None):
    given = parser("tools/definitions/planted_texts.py", __doc__)
    given.add_argument("suite", nargs="?", metavar="SUITE")
    place = given.parse_args(words).suite
    found = [*texts_of_rows(), *(texts_of_suite(place) if place else [])]
    found.sort(key=lambda it: (len(it[2]) > 60, it[0], len(it[2])))
    for kind, name, source, wanted in [*found, *texts_of_lists()]:
        text = source.decode(errors="replace")
        is_text = not source.startswith(MARK) and text.encode() == source and len(text) <= LONGEST
        if is_text and not is_read(kind, text, wanted):
            print("%s\t%s" % (kind, name))
            return


if __name__ == "__main__":
    main()
