"""hostile.py: texts that are made to be expensive (bench/lib/shapes.py): how the work grows, and what a byte costs at most."""
import concurrent.futures
import contextlib
import io
import os
import statistics
import sys
import types

from .base import need, need_tool, say

from bench.lib import cost as costs_of_shapes
from bench.lib import growth as growth_of_shapes
from bench.lib.shapes import SHAPES
from lib.paths import PROGRAM

COMMANDS = ("canon", "same", "events", "check")
# `canon` is measured on each text. The other commands read in the same way, so that every fourth text is enough for them.
EVERY = {"canon": 1, "same": 4, "events": 4, "check": 4}
QUICK_EVERY, SIZE, QUICK_SIZE, SEVERAL = 40, 500_000, 20_000, 50
FIELDS = (
    ("time", "micros", "microseconds per byte"),
    ("memory", "memory", "bytes per byte"),
    ("output", "output", "bytes of output per byte"),
)


def names_of(run):
    return list(SHAPES)[::QUICK_EVERY] if run.quick else list(SHAPES)


def growth(run):
    """The greatest growth of each command: what the second doubling of a text adds, for what the first adds. 2 is linear."""
    need(PROGRAM, "yamlcanon")
    need_tool("valgrind")
    for command, every in EVERY.items():
        names = names_of(run)[::every]
        with concurrent.futures.ThreadPoolExecutor(len(os.sched_getaffinity(0))) as pool:
            found = {}
            for name, (grows, _) in zip(names, pool.map(lambda name: growth_of_shapes.growth(command, name), names)):
                found[name] = grows
                if len(found) % SEVERAL == 0:
                    say(f"growth: {command}: {len(found)} of {len(names)}")
        worst = max(found, key=found.get)
        yield f"growth/{command}/texts", len(names), "texts", ""
        yield f"growth/{command}", found[worst], "times", f"{worst}; median {statistics.median(found.values()):.3g}"
        say(f"growth: {command}: at most {found[worst]:.2f} ({worst})")


def costs(run):
    """The most time, memory and output of a byte: of texts that are accepted, and of those that are rejected."""
    need(PROGRAM, "yamlcanon")
    asked = types.SimpleNamespace(size=QUICK_SIZE if run.quick else SIZE, space=0)
    yield "costs/size", asked.size, "bytes", ""
    found = {kind: costs_of(kind, names_of(run), asked) for kind in (*COMMANDS, "later")}
    for command in COMMANDS:
        yield from worst_of(f"{command} accepted", {name: it for name, it in found[command].items() if it.ended == "answered"})
    rejected = {name: it for kind in ("canon", "later") for name, it in found[kind].items() if it.ended != "answered"}
    yield from worst_of("canon rejected", rejected)


class Thinned(io.TextIOBase):
    """Passes on one line in SEVERAL."""

    def __init__(self, out):
        super().__init__()
        self.out, self.line, self.count = out, "", 0

    def write(self, text):
        self.line += text
        if self.line.endswith("\n"):
            self.count += 1
            if self.count % SEVERAL == 0:
                self.out.write(f"report: costs: {self.line}")
            self.line = ""
        return len(text)


def costs_of(kind, names, asked):
    """The costs of bench/lib/cost.py, which prints a line for each text."""
    say(f"costs: {kind}")
    with contextlib.redirect_stderr(Thinned(sys.stderr)):
        return costs_of_shapes.costs_of(kind, names, asked)


def worst_of(what, found):
    """For each kind of cost the most, with the text that has it."""
    for name, field, unit in FIELDS if found else ():
        worst = max(found, key=lambda it, field=field: getattr(found[it], field))
        yield f"costs/{what}/{name}", float(getattr(found[worst], field)), unit, f"{worst}; {len(found)} texts"
