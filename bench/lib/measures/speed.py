"""speed.py: `canon` compared with libyaml's parser, and the other commands compared with `canon`."""
import os
import statistics
import subprocess

from lib.paths import PROGRAM, REVIEW
from .base import LeftOut, need, need_tool, ratio, say, script
from .taken import instructions

COUNTED_SIZE, QUICK_COUNTED_SIZE, CHANGES = 1_000_000, 30_000, 100


def speed(run):
    """Time, instructions and memory of `canon` on each text, for those of libyaml's parser alone and for the bytes of the text."""
    need(PROGRAM, "yamlcanon")
    parser = run.libyaml("parse_events.c")
    for name in run.texts():
        text = run.text(name, run.size)
        size = os.path.getsize(text)
        taken = run.by_turns({"canon": [PROGRAM, "canon", text], "libyaml": [*parser, text]})
        yield f"speed/{name}/size", size, "bytes", ""
        yield f"speed/{name}/time", *of_parser(taken)
        yield f"speed/{name}/memory", max(it[1] for it in taken["canon"]) * 2**20 / size, "times the input", ""
        yield from counted(run, name, parser)
        say(f"speed: {name}: {statistics.median(it[0] for it in taken['canon']):.3f} s of processor for {size} bytes")


def of_parser(taken):
    median, spread = ratio(taken, "canon", "libyaml")
    return median, "times libyaml's parser", spread


def counted(run, name, parser):
    """The instructions of both on a smaller text."""
    need_tool("valgrind")
    text = run.text(name, QUICK_COUNTED_SIZE if run.quick else COUNTED_SIZE)
    ours, theirs = instructions([PROGRAM, "canon", text], run.folder), instructions([*parser, text], run.folder)
    if ours and theirs:
        yield f"speed/{name}/instructions", ours / theirs, "times libyaml's parser", ""
        yield f"speed/{name}/instructions a byte", ours / os.path.getsize(text), "instructions per byte", ""


def commands(run):
    """`same`, `events` and `diff` on each text, for `canon` in the same round; `events` also for a C program over libyaml."""
    need(PROGRAM, "yamlcanon")
    printer = run.libyaml("print_events.c")
    for name in run.texts():
        text = run.text(name, run.size)
        ways = {
            "canon": [PROGRAM, "canon", text],
            "same": [PROGRAM, "same", text, canonical_of(run, text)],
            "events": [PROGRAM, "events", text],
            "printer": [*printer, text],
        }
        if os.access(REVIEW, os.X_OK):
            other = changed_of(run, text)
            ways |= {"same changed": [PROGRAM, "same", text, other], "diff": [REVIEW, "diff", text, other]}
        yield from compared(name, run.by_turns(ways))
        say(f"commands: {name}")
    if not os.access(REVIEW, os.X_OK):
        raise LeftOut(f"diff, since yamlreview is not built: {REVIEW}")


def compared(name, taken):
    for way, base, unit in (
        ("same", "canon", "times canon"),
        ("events", "canon", "times canon"),
        ("diff", "canon", "times canon"),
        ("events", "printer", "times a C program over libyaml"),
        ("diff", "same changed", "times same"),
    ):
        if way in taken:
            median, spread = ratio(taken, way, base)
            yield f"commands/{name}/{way} for {base}", median, unit, spread


def canonical_of(run, text):
    path = f"{text}.canonical"
    with open(path, "wb") as file:
        subprocess.run([PROGRAM, "canon", text], stdout=file, check=True)
    return path


def changed_of(run, text):
    """The text with some of its values changed, as bench/review changes them."""
    path = f"{text}.changed"
    with open(text, "rb") as file:
        other, _ = script("review").changed(file.read(), CHANGES)
    with open(path, "wb") as file:
        file.write(other)
    return path
