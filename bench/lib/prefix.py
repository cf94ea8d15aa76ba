"""Whether properties above a collection that is a key make the rest of a text dearer, on each shape of shapes.py.

They belong to the mapping, which is known once the colon is read. `canon` runs on each shape below a small document with such properties
and below the same document without them, at 500,000 bytes. (Below any document a text takes somewhat more than alone: a long scalar that
is the first content of all is not copied.) Peak memory and seconds of the processor are compared, both less what the program takes for
the empty input; of three runs the least counts. Where the seconds grow by more than a tenth, the instructions of both runs on a smaller
text decide (valgrind's callgrind). A shape fails whose memory or instructions grow by more than a tenth. Less than a byte of memory for a
byte of input counts as one, and 200 kB are taken off the memory below the properties, since the peak of one and the same run varies by
that. Needs Python 3, GNU time and valgrind.
"""
import concurrent.futures
import os
import sys

from bench.lib.cost import measured
from bench.lib.growth import instructions
from bench.lib.shapes import SHAPES, shapes_named
from lib.arguments import parser

PLAIN = b"[a]: b\n...\n"
PROPERTIES = b"!t\n" + PLAIN
MOST, RUNS, SMALL, VARIES = 1.1, 3, 40_000, 200_000


def taken(text, free):
    """Seconds and memory of a byte of the text, and how the run ended."""
    runs = [measured("canon", text, 0) for _ in range(RUNS)]
    seconds, memory = (min(run[field] for run in runs) - free[field] for field in (0, 1))
    return seconds, max(len(text), memory), runs[0][3]


def ratios(name, size, free):
    """What the properties above do to seconds, memory and, where the seconds call for it, instructions; and how the run ended."""
    text = SHAPES[name](size)
    (seconds, memory, ended), (more_seconds, more_memory, _) = taken(PLAIN + text, free), taken(PROPERTIES + text, free)
    time, counted = more_seconds / max(seconds, 0.01), None
    if time > MOST:
        small = SHAPES[name](SMALL)
        counted = instructions("canon", PROPERTIES + small)[0] / instructions("canon", PLAIN + small)[0]
    return time, max(len(text), more_memory - VARIES) / memory, counted, ended


def main(words=None):
    given = parser("bench/hostile --prefix", __doc__)
    given.add_argument("--size", type=int, default=500_000, metavar="BYTES")
    given.add_argument("shapes", nargs="*", metavar="SHAPE", help="a shape of bench/lib/shapes.py; without one all are taken")
    asked = given.parse_args(words)
    names, failed = shapes_named(asked.shapes, given), []
    free = measured("canon", b"", 0)
    print("%-26s %8s %8s %12s  %s" % ("shape", "seconds", "memory", "instructions", "how it ended without properties"))
    with concurrent.futures.ThreadPoolExecutor(max(1, len(os.sched_getaffinity(0)) // 2)) as pool:
        for name, (time, memory, counted, ended) in zip(names, pool.map(lambda name: ratios(name, asked.size, free), names)):
            print("%-26s %8.2f %8.2f %12s  %s" % (name, time, memory, "" if counted is None else "%.3f" % counted, ended), flush=True)
            if memory > MOST or (counted or 1) > MOST:
                failed.append(name)
    print("%d shapes, %d cost more than %s times as much below properties: %s" % (len(names), len(failed), MOST, " ".join(failed)))
    return 1 if failed else 0


if __name__ == "__main__":
    sys.exit(main())
