"""small.py: small inputs: a run of the program, and calls of the library from C and from Python."""
import os
import statistics
import subprocess
import sys
import time

from lib.paths import PROGRAM, TOP
from .base import LeftOut, need, say
from .taken import BENCH

INPUT = f"{TOP}/examples/service.yaml"
CALLS = ("canonical", "events")
# Prints the microseconds of processor of the quickest round.
FROM_PYTHON = """
import sys, time, yamlcanon
data, rounds, calls = open(sys.argv[1], "rb").read(), int(sys.argv[2]), int(sys.argv[3])
call, least = getattr(yamlcanon, sys.argv[4]), 1e9
for _ in range(rounds):
    since = time.process_time()
    for _ in range(calls):
        call(data)
    least = min(least, time.process_time() - since)
print(least / calls * 1e6)
"""


def small(run):
    """Milliseconds of a run of the program on a small file, and microseconds of a call."""
    yield "small/size", os.path.getsize(INPUT), "bytes", ""
    yield from starts(run)
    yield from calls(run)


def starts(run):
    """A run of the program, start included: the median of many by turns with a C program over libyaml that only parses."""
    need(PROGRAM, "yamlcanon")
    parser = run.libyaml("parse_events.c")[-1]
    clocks = {"canon": [], "parse": []}
    for _ in range(20 if run.quick else 500):
        for name, words in (("canon", [PROGRAM, "canon"]), ("parse", [parser])):
            with open(INPUT, "rb") as given:
                since = time.perf_counter()
                subprocess.run(words, stdin=given, stdout=subprocess.DEVNULL, check=False)
                clocks[name].append((time.perf_counter() - since) * 1e3)
    for name, taken in clocks.items():
        parts = statistics.quantiles(taken, n=10)
        yield f"small/run of {name}", statistics.median(taken), "milliseconds by the clock", f"{parts[0]:.3g}..{parts[-1]:.3g}"
    say("small: runs of the program")


def calls(run):
    """A call of the library on the same file, from C and from Python: the least of some rounds."""
    library = run.library()
    made, (rounds, count) = run.path("time_calls"), (3, 200) if run.quick else (20, 10_000)
    words = ["cc", "-O2", "-I", library, "-o", made, f"{BENCH}/c/time_calls.c", f"{library}/libyamlcanon.a"]
    built = subprocess.run(words, capture_output=True, check=False)
    if built.returncode:
        raise LeftOut(f"calls from C: {built.stderr.decode(errors='replace').strip()}")
    env = {**os.environ, "YAMLCANON_LIBRARY": f"{library}/libyamlcanon.so.1", "PYTHONPATH": f"{TOP}/bindings/python"}
    for call in CALLS:
        for name, words in (("C", [made]), ("Python", [sys.executable, "-c", FROM_PYTHON])):
            words = [*words, INPUT, str(rounds), str(count), call]
            ran = subprocess.run(words, env=env, capture_output=True, text=True, check=False)
            if ran.returncode:
                raise LeftOut(f"calls from {name}: {ran.stderr.strip()}")
            yield f"small/{call} from {name}", float(ran.stdout), "microseconds of processor", f"least of {rounds} rounds"
    say("small: calls of the library")
