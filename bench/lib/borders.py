"""The jumps that a program executes and that cross or end at a border of 32 bytes, on shapes of shapes.py.

Intel's processors from Skylake to Cascade Lake do not keep such a jump decoded, so that a short loop with one takes up to half as
long again (docs/DECISIONS.md). For each shape, alone or with one of the five ends of cost.py behind it, tells how many instructions
of its own the built program executes in `canon`, what part of them are such jumps, as the code lies and 16 bytes further on, where
it might as well lie, and in which functions most of them are. By callgrind, so that it does not depend on what else is at work.
Needs Python 3, valgrind, objdump and nm.
"""
import bisect
import collections
import os
import re
import subprocess
import sys
import tempfile

from bench.lib.cost import ENDS
from bench.lib.shapes import SHAPES, shapes_named
from lib.arguments import parser
from lib.paths import PROGRAM

BORDER, SHIFT = 32, 16
JOINED = {"cmp", "test", "add", "sub", "and", "inc", "dec"}
SHOWN = 4


def told(*words):
    """What a tool prints, by lines."""
    return subprocess.run(words, capture_output=True, text=True, check=True).stdout.split("\n")


class Code:
    """Where the jumps and the functions of a program lie."""

    def __init__(self, program):
        self.jumps = {}
        last = ()
        for line in told("objdump", "-d", "-M", "intel", "-w", program):
            found = re.match(r"\s*([0-9a-f]+):\t((?:[0-9a-f]{2} )+) *\t(\S+)", line)
            if not found:
                last = ()
                continue
            start, name = int(found[1], 16), found[3]
            end = start + len(found[2].split())
            if re.match(r"j|call|ret", name):
                # a test and the conditional jump behind it are one
                is_joined = name != "jmp" and name[0] == "j" and last and last[1] in JOINED
                self.jumps[start] = (last[0] if is_joined else start, end)
            last = (start, name)
        rows = (line.split(" ", 2) for line in told("nm", "-n", "--defined-only", program) if re.match(r"\S+ [tT] ", line))
        self.starts, self.names = zip(*((int(row[0], 16), row[2]) for row in rows))

    def name_of(self, place):
        """The function in which a place lies."""
        return self.names[bisect.bisect_right(self.starts, place) - 1]


def at_border(start, end, shift):
    """Whether these bytes cross a border or end at one, so many bytes further on."""
    return (start + shift) // BORDER != (end + shift) // BORDER


def counted(lines, program):
    """How often each of the program's instructions was executed, by its place in the file, from what callgrind wrote."""
    counts, objects, own, place, is_call = collections.Counter(), {}, False, 0, False
    for line in lines:
        named = re.match(r"(c?)ob=(\(\d+\))(?: (.*))?", line)
        if named:
            name = objects.setdefault(named[2], named[3])
            own = own if named[1] else name == program
        elif line.startswith("calls="):
            is_call = True
        else:
            cost = re.match(r"(0x|[+-]|\*)(\w*) \S+ (\d+)$", line)
            if cost:
                by, number = cost[1], int(cost[2] or "0", 16 if cost[1] == "0x" else 10)
                place = {"0x": number, "+": place + number, "-": place - number, "*": place}[by]
                if own and not is_call:
                    counts[place] += int(cost[3])
                is_call = False
    return counts


def executed(program, path):
    """The same of a run of `canon`."""
    with tempfile.NamedTemporaryFile("r", encoding="utf-8") as out:
        subprocess.run(
            ["valgrind", "--tool=callgrind", "--dump-instr=yes", "--callgrind-out-file=" + out.name, program, "canon", path],
            stdout=subprocess.DEVNULL,
            stderr=subprocess.DEVNULL,
            check=False,
        )
        return counted(out, program)


def tell(code, name, counts):
    """A line for a text, and one for each function that has most of its jumps at borders."""
    own = sum(counts.values())
    parts = [collections.Counter(), collections.Counter()]
    for place, count in counts.items():
        for shift, part in zip((0, SHIFT), parts):
            if place in code.jumps and at_border(*code.jumps[place], shift):
                part[code.name_of(place)] += count
    print(
        "%s: %d instructions, jumps at borders %.4f, and %.4f with %d bytes before"
        % (name, own, sum(parts[0].values()) / own, sum(parts[1].values()) / own, SHIFT),
        flush=True,
    )
    for function, count in (parts[0] + parts[1]).most_common(SHOWN):
        if count > own // 1000:
            print("  %s: %.4f and %.4f" % (function, parts[0][function] / own, parts[1][function] / own), flush=True)


def main(words=None):
    given = parser("bench/hostile --borders", __doc__)
    given.add_argument("--size", type=int, default=100_000)
    given.add_argument("--end", choices=ENDS)
    given.add_argument("shapes", nargs="*", metavar="SHAPE", help="a shape of bench/lib/shapes.py; without one all are taken")
    asked = given.parse_args(words)
    program = os.path.realpath(PROGRAM)
    code = Code(program)
    with tempfile.TemporaryDirectory() as room:
        path = os.path.join(room, "text")
        for name in shapes_named(asked.shapes, given):
            with open(path, "wb") as out:
                out.write(SHAPES[name](asked.size) + ENDS.get(asked.end, b""))
            tell(code, name, executed(program, path))


if __name__ == "__main__":
    sys.exit(main())
