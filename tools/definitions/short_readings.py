#!/usr/bin/env python3
"""short_readings.py: the events of every short text over an alphabet, as the productions read it.

NAME is one of the alphabets below, of 8 or 9 characters each; all texts of at most 5 characters over it are read. A line for each
text that has a reading: the text, a tab, and its events; texts come by length, then in the order of the alphabet. A line feed is
written `$`. Events are a letter each: `d` and `D` begin a document without and with its mark, `e` and `E` end one without and
with its suffix, `S` and `[` begin a block and a flow sequence, `M` and `{` a mapping, `]` and `}` end them, `=` is a scalar and
`*` an alias. An anchor `&name;` and a tag `<tag>` follow the letter; then a scalar has its style's sign, none for a plain one,
its text and `;`, and an alias its name and `;`. It stops at a text that has two lists of events. An alphabet takes a quarter of
an hour.
"""
import gzip
import re
import sys

import shadow
from lib.arguments import parser

ALPHABETS = {
    "plain": "a:-#[], \n",
    "flow": "a?{}:, \n",
    "keys": "a?:-[] \n",
    "quotes": 'a"\\:-# \n',
    "properties": "a&*!:- \n",
    "blocks": "a|>-1: \n",
}
LETTERS = {"+STR": "", "-STR": "", "+DOC": "d", "+DOC ---": "D", "-DOC": "e", "-DOC ...": "E", "-SEQ": "]", "-MAP": "}"}
STARTS = {"+SEQ": "S", "+SEQ []": "[", "+MAP": "M", "+MAP {}": "{", "=VAL": "=", "=ALI": ""}
LINE = re.compile(r"(\+SEQ \[\]|\+SEQ|\+MAP \{\}|\+MAP|=VAL|=ALI)( &\S+)?( <[^>]*>)?(?: (.)(.*))?")
STAND_FOR = {"n": "\n", "t": "\t", "r": "\r", "b": "\b"}


def shown(text):
    return text.replace("\n", "$")


def letter(line):
    if line in LETTERS:
        return LETTERS[line]
    kind, anchor, tag, style, value = LINE.fullmatch(line).groups("")
    found = STARTS[kind] + (anchor.strip() and anchor.strip() + ";") + tag.strip()
    if style:
        found += style.replace(":", "") + shown(re.sub(r"\\(.)", lambda at: STAND_FOR.get(at[1], at[1]), value)) + ";"
    return found


def letters(events):
    return "".join(map(letter, events.split("\n")[:-1]))


def texts(alphabet, longest=5):
    return shadow.short_texts(ALPHABETS[alphabet], longest)


def stored(alphabet):
    """The events of each text that the stored list has."""
    with gzip.open(f"{shadow.HERE}/short_readings/{alphabet}.txt.gz", "rt", newline="\n") as file:
        return dict(line.rstrip("\n").split("\t", 1) for line in file)


def main(words=None):
    given = parser("tools/definitions/short_readings.py", __doc__)
    given.add_argument("alphabet", choices=ALPHABETS, metavar="NAME", help=", ".join(ALPHABETS))
    for text in texts(given.parse_args(words).alphabet):
        found = shadow.event_texts(text, True, 1024)
        if len(found) > 1:
            sys.exit("two readings: %r" % text)
        for events in found:
            print("%s\t%s" % (shown(text), letters(events)))


if __name__ == "__main__":
    main()
