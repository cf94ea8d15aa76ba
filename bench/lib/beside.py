"""What the built program takes for what another build of it takes, on each shape of shapes.py and with each of five ends.

PROGRAM is another build of `yamlcanon`. Runs `canon` of both by turns on each shape alone and with each of the refusals of cost.py
behind it, and takes the least processor time of each over the rounds, its least peak of memory as the kernel tells it, and the most
pages of its own in one more run (own_pages.c says what these are). Prints, for the texts that are accepted, refused in reading
(1 to 11), refused by their documents (12 to 18) and refused for equal keys (19), the ratios of all three by this program's part:
median, nine in ten, most, how many are above 1.05; and the shapes that are worst. A text on which both end otherwise is named and
fails. Needs Python 3, GNU time and a C compiler.
"""
import concurrent.futures
import os
import re
import subprocess
import sys
import tempfile

from bench.lib.cost import ENDS
from bench.lib.shapes import SHAPES, shapes_named
from lib.arguments import parser
from lib.paths import PROGRAM, TOP

KINDS = ("accepted", "refused in reading", "refused by documents", "equal keys", "else")
SHOWN = 8


def run(program, path, room):
    """Processor seconds, peak memory in kB and how the run ended."""
    told = os.path.join(room, "told")
    with open(os.path.join(room, "err"), "w+b") as err:
        process = subprocess.Popen(
            ["time", "--quiet", "--format=%U %S %M", "--output=" + told, program, "canon", path], stdout=subprocess.DEVNULL, stderr=err
        )
        _, status, used = os.wait4(process.pid, 0)
        process.returncode = os.waitstatus_to_exitcode(status)
        err.seek(0)
        said = err.read().decode().strip() or "answered"
    with open(told, encoding="ascii") as peak:
        memory = int(peak.read().split()[-1])
    return used.ru_utime + used.ru_stime, memory, said if process.returncode in (0, 2) else "ended by %d" % process.returncode


def own_pages(library, program, path, room):
    """The most memory that a run had for itself, in kB."""
    told = os.path.join(room, "own")
    subprocess.run(
        [program, "canon", path],
        stdout=subprocess.DEVNULL,
        stderr=subprocess.DEVNULL,
        check=False,
        env={**os.environ, "LD_PRELOAD": library, "OWN_PAGES": told},
    )
    with open(told, encoding="ascii") as file:
        return int(file.read())


def kind_of(said):
    """Which kind of answer this is."""
    found = re.match(r"yaml: (\d+) ", said)
    number = int(found[1]) if found else 0
    if said == "answered":
        return KINDS[0]
    return KINDS[1] if 1 <= number <= 11 else KINDS[2] if number <= 18 else KINDS[3] if number == 19 else KINDS[4]


def beside(name, asked, library):
    """The kind of a text, whether both ended alike, and the ratios of time, memory and own pages."""
    shape, _, end = name.partition(" before ")
    text = SHAPES[shape](asked.size) + ENDS.get(end, b"")
    with tempfile.TemporaryDirectory(dir="/dev/shm") as room:
        path = os.path.join(room, "text")
        with open(path, "wb") as out:
            out.write(text)
        runs = [(run(asked.program, path, room), run(PROGRAM, path, room)) for _ in range(asked.rounds)]
        had, has = (own_pages(library, program, path, room) for program in (asked.program, PROGRAM))
    before, now = (min(pair[side][0] for pair in runs) for side in (0, 1))
    most, less = (min(pair[side][1] for pair in runs) for side in (0, 1))
    ends = {pair[side][2] for pair in runs for side in (0, 1)}
    return kind_of(runs[0][1][2]), ends, now / max(before, 1e-3), less / most, has / had


def tell(kind, found):
    """The ratios of a kind."""
    for place, what in ((2, "time"), (3, "memory"), (4, "own pages")):
        ratios = sorted((it[place], name) for name, it in found)
        if ratios:
            print(
                "%s, %d texts, %s: median %.2f, nine in ten at most %.2f, most %.3f, above 1.05 %d"
                % (
                    kind,
                    len(ratios),
                    what,
                    ratios[len(ratios) // 2][0],
                    ratios[len(ratios) * 9 // 10][0],
                    ratios[-1][0],
                    sum(ratio > 1.05 for ratio, _ in ratios),
                )
            )
            print("  " + ", ".join("%s %.2f" % (name, ratio) for ratio, name in ratios[: -1 - SHOWN : -1]), flush=True)


def main(words=None):
    given = parser("bench/hostile --beside", __doc__)
    given.add_argument("program")
    given.add_argument("--size", type=int, default=500_000)
    given.add_argument("--rounds", type=int, default=3)
    given.add_argument("--jobs", type=int, default=max(1, len(os.sched_getaffinity(0)) // 2))
    given.add_argument("shapes", nargs="*", metavar="SHAPE", help="a shape of bench/lib/shapes.py; without one all are taken")
    asked = given.parse_args(words)
    names = [name + end for name in shapes_named(asked.shapes, given) for end in ["", *(" before " + end for end in ENDS)]]
    with tempfile.TemporaryDirectory() as room, concurrent.futures.ThreadPoolExecutor(asked.jobs) as pool:
        library = os.path.join(room, "own_pages.so")
        subprocess.run(["cc", "-shared", "-fPIC", "-O2", "-o", library, f"{TOP}/bench/c/own_pages.c"], check=True)
        found = list(zip(names, pool.map(lambda name: beside(name, asked, library), names)))
    other = [(name, it[1]) for name, it in found if len(it[1]) > 1]
    for kind in KINDS:
        tell(kind, [(name, it) for name, it in found if it[0] == kind])
    for name, ends in other:
        print("%s: %s" % (name, " / ".join(sorted(ends))))
    return 1 if other else 0


if __name__ == "__main__":
    sys.exit(main())
