"""Whether the built program's work grows with its input, on each shape of shapes.py.

Counts the instructions at a size, at twice and at four times that size (valgrind's callgrind). What the second doubling adds is
set against what the first added, and scaled to the bytes that each added, so that the start of the program and a head that does
not grow count for nothing: 2 is linear, 4 quadratic. More than 2.3 fails, unless it was one step, as where a buffer first grows:
then the doubling behind it adds no more than 2.3 times what the doubling before it did. Fewer than ten instructions a byte
count as ten: behind a refusal near the start only the bytes are gathered and checked. Needs valgrind and Python 3.
"""
import concurrent.futures
import os
import re
import subprocess
import sys
import tempfile

from bench.lib.shapes import SHAPES, shapes_named
from lib.arguments import parser
from lib.paths import PROGRAM

SMALLEST, LARGEST, MOST, GATHERING = 10_000, 640_000, 2.3, 10


def size_of(make):
    """A size at which a text grows by its pieces and not by whole turns."""
    size = SMALLEST
    while size < LARGEST and not 1.7 < len(make(2 * size)) / len(make(size)) < 2.3:
        size *= 2
    return size


def words_of(command, text, room, prepare=None):
    """What the program is given; `prepare` is called in the process that makes the events of `check`."""
    path, events = os.path.join(room, "text"), os.path.join(room, "events")
    with open(path, "wb") as file:
        file.write(text)
    if command == "check":
        with open(events, "wb") as file:
            subprocess.run([PROGRAM, "events", path], stdout=file, stderr=subprocess.DEVNULL, preexec_fn=prepare)
    return [command, path] + {"same": [path], "check": [events]}.get(command, [])


def instructions(command, text):
    """How many there were, and how the run ended."""
    with tempfile.TemporaryDirectory() as room:
        log = os.path.join(room, "log")
        words = words_of(command, text, room)
        done = subprocess.run(
            ["valgrind", "--tool=callgrind", "--callgrind-out-file=/dev/null", "--log-file=" + log, PROGRAM] + words,
            stdout=subprocess.DEVNULL,
            stderr=subprocess.PIPE,
        )
        with open(log, encoding="utf-8") as file:
            counted = re.search(r"Collected : (\d+)", file.read())
        return int(counted.group(1)), done.stderr.decode().strip() or "answered"


def growth(command, name):
    """The growth on a shape, the instructions a byte, and a line that tells both."""
    make = SHAPES[name]
    size = size_of(make)
    texts = [make(times * size) for times in (1, 2, 4)]
    counts = [instructions(command, text) for text in texts]
    grows = growths(texts, counts)[0]
    if grows > MOST:
        texts.append(make(8 * size))
        counts.append(instructions(command, texts[3]))
        grows = min(growths(texts, counts))
    return grows, "%-26s %8d %8.0f %6.2f  %s" % (name, len(texts[-1]), counts[-1][0] / len(texts[-1]), grows, counts[-1][1])


def growths(texts, counts):
    """Of each doubling but the first, twice what it added for a byte by what the one before it added for a byte."""
    added = [(counts[k + 1][0] - counts[k][0]) / (len(texts[k + 1]) - len(texts[k])) for k in range(len(texts) - 1)]
    return [2 * more / max(GATHERING, less) for less, more in zip(added, added[1:])]


def main(words=None):
    given = parser("bench/hostile --growth", __doc__)
    given.add_argument("--command", choices=("canon", "events", "same", "check"), default="canon", help="what is run (canon)")
    given.add_argument("shapes", nargs="*", metavar="SHAPE", help="a shape of bench/lib/shapes.py; without one all are taken")
    asked = given.parse_args(words)
    names = shapes_named(asked.shapes, given)
    print("%-26s %8s %8s %6s  %s" % ("shape", "bytes", "a byte", "growth", "how it ended"))
    failed = []
    with concurrent.futures.ThreadPoolExecutor(len(os.sched_getaffinity(0))) as pool:
        for name, (grows, line) in zip(names, pool.map(lambda name: growth(asked.command, name), names)):
            print(line, flush=True)
            if grows > MOST:
                failed.append(name)
    print("%d shapes, %d grow by more than %s: %s" % (len(names), len(failed), MOST, " ".join(failed)))
    return 1 if failed else 0


if __name__ == "__main__":
    sys.exit(main())
