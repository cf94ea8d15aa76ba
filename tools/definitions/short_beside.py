#!/usr/bin/env python3
"""short_beside.py: the built program beside the lists of short_readings.py.

Runs `events` on each text of at most 5 characters over each of the alphabets: one that is in the list has its events, one that is not
is rejected. It ends with the counts of each alphabet, after a line for each difference, and takes
some minutes. The lists (short_readings/ALPHABET.txt.gz) were made by short_readings.py. The program must be built
(`./yamlcanon canon examples/sharing.yaml`), or be named by YAMLCANON.
"""
import subprocess
import sys

from short_readings import ALPHABETS, letters, shown, stored, texts

from lib.arguments import parser
from lib.paths import PROGRAM, want_built
from lib.trial import side_by_side


def read(text):
    done = subprocess.run([PROGRAM, "events"], input=text.encode(), capture_output=True, check=False)
    return None if done.returncode else letters(done.stdout.decode())


def compare(alphabet):
    every, wanted = list(texts(alphabet)), stored(alphabet)
    different = accepted = 0
    for text, got in zip(every, side_by_side(read, every)):
        accepted += got is not None
        if got != wanted.get(shown(text)):
            different += 1
            print("different: %r %r %r" % (text, got, wanted.get(shown(text))))
    print("%s: %d texts, %d read, %d in the list, %d differences" % (alphabet, len(every), accepted, len(wanted), different))
    return different


def main(words=None):
    parser("tools/definitions/short_beside.py", __doc__).parse_args(words)
    want_built("short_beside", PROGRAM)
    return int(any([compare(alphabet) for alphabet in ALPHABETS]))


if __name__ == "__main__":
    sys.exit(main())
