"""The most time, memory and output that a byte of input costs, on each shape of shapes.py.

Runs each command of the built program on each shape, and `canon` once more with each of five refusals behind it, as a last
document (`later`): an alias without an anchor, two equal keys, an int out of range, a tag of another kind of node, a tree that is
too high. Prints the shapes that cost the most of each. Seconds are of the processor, memory is the peak; of both what the program
takes for the empty input is taken off. Bytes are those of one file. A run that ends by a signal is named and fails. `--space`
bounds the address space, as `ulimit -v` does, so that memory is refused, also where the events of `check` are made; each such
refusal is counted. Each run's end is told on standard error.
Needs Python 3, GNU time, and without a bound about 3 kB for each byte.
"""
import collections
import concurrent.futures
import os
import resource
import subprocess
import sys
import tempfile

from bench.lib.growth import words_of
from bench.lib.shapes import SHAPES, shapes_named
from lib.arguments import parser
from lib.paths import PROGRAM

KINDS, SHOWN = "canon,later,same,events,check", 6
# What refuses a text behind a shape, each as a last document.
ENDS = {
    "alias": b"\n--- *x\n",
    "key": b"\n--- {1: a, 0x1: b}\n",
    "int": b"\n--- 170141183460469231731687303715884105728\n",
    "kind": b"\n--- !!seq x\n",
    "high": b"\n---\n- &a " + b"[" * 600 + b"]" * 600 + b"\n- " + b"[" * 600 + b"*a " + b"]" * 600 + b"\n",
}
Cost = collections.namedtuple("Cost", "micros memory output ended")


def bounded(space):
    return lambda: resource.setrlimit(resource.RLIMIT_AS, (space << 20, space << 20)) if space else None


def measured(command, text, space):
    """Seconds, peak memory and output of a run, and how it ended."""
    with tempfile.TemporaryDirectory(dir="/dev/shm") as room:
        words, told = words_of(command, text, room, bounded(space)), os.path.join(room, "told")
        # By `time`, since the peak of a process that Python starts is at least Python's own.
        timed = ["time", "--quiet", "--format=%M", "--output=" + told]
        with open(os.path.join(room, "out"), "wb") as out, open(os.path.join(room, "err"), "w+b") as err:
            process = subprocess.Popen(timed + [PROGRAM] + words, stdout=out, stderr=err, preexec_fn=bounded(space))
            _, status, used = os.wait4(process.pid, 0)
            process.returncode = os.waitstatus_to_exitcode(status)
            err.seek(0)
            said = err.read().decode().strip() or "answered"
            if process.returncode in (126, 127):
                raise SystemExit(said)
            ended = "signal %d" % (process.returncode - 128) if process.returncode > 128 else said
            with open(told, encoding="ascii") as peak:
                memory = int(peak.read().split()[-1]) * 1024
            return used.ru_utime + used.ru_stime, memory, os.fstat(out.fileno()).st_size, ended


def cost(kind, name, asked):
    """The cost of a shape. A text whose canonical text is too long is halved until it has another end, since that end hides the costs."""
    shape, _, end = name.partition(" before ")
    command, size = "canon" if kind == "later" else kind, asked.size
    while True:
        text = SHAPES[shape](size) + ENDS.get(end, b"")
        seconds, memory, output, ended = measured(command, text, asked.space)
        if "20 TextTooLong" not in ended:
            break
        size //= 2
    free = measured(command, b"", asked.space)
    each = len(text)
    return Cost((seconds - free[0]) * 1e6 / each, max(0, memory - free[1]) / each, output / each, ended)


def costs_of(kind, names, asked):
    """The cost of each shape, which is told on standard error as it is known."""
    costs = {}
    if kind == "later":
        names = ["%s before %s" % (name, end) for name in names for end in ENDS]
    with concurrent.futures.ThreadPoolExecutor(max(1, len(os.sched_getaffinity(0)) // 2)) as pool:
        running = {pool.submit(cost, kind, name, asked): name for name in names}
        for done in concurrent.futures.as_completed(running):
            name = running[done]
            costs[name] = done.result()
            print("%s: %d of %d, %s: %s" % (kind, len(costs), len(names), name, costs[name].ended), file=sys.stderr, flush=True)
    return costs


def tell(kind, costs):
    """The counts and the worst shapes of a kind; whether none ended by a signal."""
    signals = [name for name in costs if costs[name].ended.startswith("signal")]
    ends = [cost.ended for cost in costs.values()]
    print(
        "%s: %d answered, %d refused for memory, %d refused, %d ended by a signal %s"
        % (
            kind,
            ends.count("answered"),
            sum("21 OutOfMemory" in end for end in ends),
            sum(end.startswith("yaml:") and "21 OutOfMemory" not in end for end in ends),
            len(signals),
            " ".join(signals),
        )
    )
    for field, unit in (("micros", "microseconds"), ("memory", "bytes of memory"), ("output", "bytes of output")):
        most = sorted(costs, key=lambda name: -getattr(costs[name], field))[:SHOWN]
        print("  %-16s a byte: %s" % (unit, ", ".join("%s %.4g" % (name, getattr(costs[name], field)) for name in most)), flush=True)
    return not signals


def main(words=None):
    given = parser("bench/hostile --cost", __doc__)
    given.add_argument("--size", type=int, default=500_000)
    given.add_argument("--space", type=int, default=0)
    given.add_argument("--runs", default=KINDS)
    given.add_argument("shapes", nargs="*", metavar="SHAPE", help="a shape of bench/lib/shapes.py; without one all are taken")
    asked = given.parse_args(words)
    names, fine = shapes_named(asked.shapes, given), True
    for kind in asked.runs.split(","):
        fine = tell(kind, costs_of(kind, names, asked)) and fine
    return 0 if fine else 1


if __name__ == "__main__":
    sys.exit(main())
