"""The library, held against other answers.

The values: of each vector that is read and of made streams the records are the trees of the companion of the form, tools/oracle/oracle.py:
one for each different tree, each behind its parts, with its kind, tag, content and parts in the order of keys. `yamlcanon.load` gives what
these trees are as Python's own. `library/values_test.c` runs over the inputs with rooms of every kind.

The differences: each vector with the next one and with a changed one of itself, and so of made streams. The bytes are those that
`yamlreview diff --format=json` prints, the library says DIFFERENT where the program ends with 1, and it rejects a pair where the program
ends with 2. Each pair is tried with a few lines, too.

A hundred threads, with bounds of their own: the inputs are the rows of the tables, the shapes of `bench/lib/shapes.py` at 300 and 1,000
bytes, and changed ones of both; the right side of `same` is the canonical text of the left one for one input in three, else the next input.
"""
import base64
import decimal
import itertools
import json
import os
import random
import struct
import subprocess
import time

from bench.lib.shapes import SHAPES
from lib.form.made import stream
from lib.form.vectors import vectors
from lib.paths import PROGRAM, REVIEW, TOP
from lib.trial import put, run as run_program, side_by_side
from oracle import oracle
from .base import build, changed, is_program_built, is_there, run, say, texts_of_rows, told, with_changed, wrong

MADE = 2000
KINDS = ("null", "bool", "int", "float", "str")
# Of what has more nodes with its aliases written out, the records alone are compared.
MOST_NODES = 100_000


def composed(events):
    """What the companion composes from an event text."""
    composer = oracle.Composer()
    for event, line in enumerate(events.split("\n")[:-1]):
        composer.take(event, line)
    return composer


def kind_of(tree):
    if tree.kind != oracle.SCALAR:
        return 5 + tree.kind
    name = oracle.core_name(tree.tag)
    return KINDS.index(name) if name in KINDS else 5


def value_differs(records, at, tree):
    """What of one value is not as the companion's tree is, or None."""
    parts = records.parts_of(at)
    found = (records.kinds[at], records.tag(at), "" if records.kinds[at] > 5 else records.content(at), len(parts))
    wanted = (kind_of(tree), tree.tag, tree.content, len(tree.ordered))
    if found != wanted:
        return "value %d is %.200r, and not %.200r" % (at, found, wanted)
    return "a part of value %d is not before it" % at if any(part >= at for part in parts) else None


def records_differ(records, composer):
    """What of the records is not as the companion's trees are, or None."""
    places, stack = {}, list(zip(records.roots(), composer.roots))
    if len(records.roots()) != len(composer.roots):
        return "%d documents, and not %d" % (len(records.roots()), len(composer.roots))
    while stack:
        at, tree = stack.pop()
        if tree.like in places:
            if places[tree.like] != at:
                return "one tree is the values %d and %d" % (places[tree.like], at)
            continue
        places[tree.like] = at
        told = value_differs(records, at, tree)
        if told:
            return told
        stack += zip(records.parts_of(at), tree.ordered)
    count = len(records.kinds)
    return None if len(places) == count else "%d values, of which the documents have %d" % (count, len(places))


def nodes_of(tree, known):
    if tree.like not in known:
        known[tree.like] = 1 + sum(nodes_of(part, known) for part in tree.ordered)
    return known[tree.like]


def own_scalar(tree):
    name = oracle.core_name(tree.tag)
    if name == "null":
        return None
    if name == "bool":
        return tree.content == "true"
    if name == "int":
        return int(tree.content)
    if name == "float":
        return decimal.Decimal({".inf": "Infinity", "-.inf": "-Infinity", ".nan": "NaN"}.get(tree.content, tree.content))
    return tree.content


def own(tree):
    """A tree as Python's own, as the page of the library says; TypeError where a key has no place in a dict."""
    import yamlcanon  # pylint: disable=import-outside-toplevel

    default = (("null", "bool", "int", "float", "str"), ("seq",), ("map",))[tree.kind]
    if tree.kind == oracle.SCALAR:
        value = own_scalar(tree)
    elif tree.kind == oracle.SEQUENCE:
        value = [own(part) for part in tree.ordered]
    else:
        value = {own(key): own(one) for key, one in zip(tree.ordered[::2], tree.ordered[1::2])}
        if len(value) != len(tree.ordered) // 2:
            raise TypeError
    return value if oracle.core_name(tree.tag) in default else yamlcanon.Tagged(tree.tag, value)


def load_differs(data, composer):
    """What `load` gives that is not what the trees are, or None."""
    import yamlcanon  # pylint: disable=import-outside-toplevel

    known = {}
    if sum(nodes_of(tree, known) for tree in composer.roots) > MOST_NODES:
        return None
    try:
        wanted = repr([own(tree) for tree in composer.roots])
    except TypeError:
        wanted = "Unhashable"
    try:
        found = repr(yamlcanon.load(data))
    except yamlcanon.Unhashable:
        found = "Unhashable"
    return None if found == wanted else "load gives %.200s, and not %.200s" % (found, wanted)


def differs(data, events):
    """What is not as the companion has it of an input with these events, or None."""
    import yamlcanon  # pylint: disable=import-outside-toplevel
    from yamlcanon.values import records_of  # pylint: disable=import-outside-toplevel

    try:
        oracle.canonical(events.split("\n")[:-1])
    except oracle.Refused as fault:
        try:
            yamlcanon.load(data)
        except yamlcanon.Refused as found:
            return None if str(found) == str(fault) else "load rejects it with %s, and the companion with %s" % (found, fault)
        # A stream is not rejected because its canonical text would be too long.
        return None if str(fault).startswith("20 ") else "load takes what the companion rejects with %s" % fault
    composer = composed(events)
    records, _ = records_of(data, 0)
    if records is None:
        return "there are no records"
    return records_differ(records, composer) or load_differs(data, composer)


def events_of(data):
    """The event text of a stream by the program, or None."""
    done = subprocess.run([PROGRAM, "events"], input=data, capture_output=True, check=False)
    return None if done.returncode else done.stdout.decode()


def try_values(folder, names, some):
    """The values of the library in a folder. names: the files of inputs as lines; some: those for valgrind."""
    made = build(folder, "values_test", TOP + "/library/values_test.c", folder + "/libyamlcanon.a")
    say("rooms of values: " + run(made, input=names))
    if is_there("valgrind", "--version"):
        say("valgrind over values: " + run("valgrind", "-q", "--leak-check=full", "--error-exitcode=9", made, input=some))
    os.environ["YAMLCANON_LIBRARY"] = folder + "/libyamlcanon.so.1"
    inputs = [(vector.name, vector.input, vector.events) for vector in vectors() if vector.events is not None]
    streams = ((seed, stream(seed)) for seed in range(MADE))
    inputs += [("made stream %d" % seed, data, events_of(data)) for seed, data in streams]
    held = [(name, differs(data, events)) for name, data, events in inputs if events is not None]
    for name, why in held:
        if why:
            wrong("values of %s: %s" % (name, why))
    say("the values of %d streams are the companion's trees" % len(held))


PAIRS, SEED, LINES, LONG = 500, 2, (1000, 2), 100_000


def pairs():
    chance, inputs = random.Random(SEED), [vector.input for vector in vectors()]
    for group in (inputs, [stream(seed) for seed in range(PAIRS)]):
        yield from zip(group, group[1:] + group[:1])
        yield from ((data, changed(data, chance)) for data in group if len(data) < LONG)


def own_lines(left, right, lines):
    """The status of the library and its text."""
    import yamlcanon  # pylint: disable=import-outside-toplevel
    from yamlcanon.differences import lines_of  # pylint: disable=import-outside-toplevel

    text, _ = lines_of(left, right, lines, 0)
    status = 2 if text is None else int(not yamlcanon.same(left, right))
    return status, text or b""


def its(room, number, left, right):
    """The answers of the program on a pair, for so many lines each: its status and what it prints."""
    names = ["%d.left" % number, "%d.right" % number]
    put(room, dict(zip(names, (left, right))))
    paths = ["%s/%s" % (room, name) for name in names]
    ended = [run_program([REVIEW, "diff", "--format=json", "--lines=%d" % lines, *paths]) for lines in LINES]
    for path in paths:
        os.remove(path)
    return [(done.status, done.out) for done in ended]


def other_lines(left, right, answers):
    """Where the library tells otherwise of a pair than the program."""
    for lines, wanted in zip(LINES, answers):
        found = own_lines(left, right, lines)
        if found != wanted:
            yield "differences of %.200r and %.200r: %.300r, and yamlreview %.300r" % (left, right, found, wanted)


def write_cases(path, rows, answers):
    """Writes the pairs with the program's answers into a file, a line of JSON each, for those tests of the modules that make many calls
    at once. Long inputs are left out."""
    with open(path, "w", encoding="utf-8") as file:
        for pair, ((status, lines), *_) in zip(rows, answers):
            if max(map(len, pair)) < LONG:
                texts = [base64.b64encode(data).decode() for data in (*pair, lines)]
                print(json.dumps(dict(zip(("left", "right", "lines"), texts), status=status)), file=file)


def try_differences(folder, room):
    """The library in a folder over all pairs, if yamlreview is built. Gives the name of a file that has the pairs with the
    program's answers; an empty name if it is not built."""
    if not os.access(REVIEW, os.X_OK):
        say("differences are left out, since yamlreview is not built")
        return ""
    os.environ["YAMLCANON_LIBRARY"] = folder + "/libyamlcanon.so.1"
    os.mkdir(room)
    rows = list(pairs())
    answers = side_by_side(lambda number: its(room, number, *rows[number]), range(len(rows)))
    for line in itertools.chain(*side_by_side(lambda each: list(other_lines(*each[0], each[1])), zip(rows, answers))):
        wrong(line)
    say("the differences of %d pairs are those of yamlreview" % len(rows))
    cases = room + "/cases.jsonl"
    write_cases(cases, rows, answers)
    return cases


INPUTS, SIZES = 10_000, (300, 1000)


def inputs(count):
    return with_changed(texts_of_rows() + [make(size) for make in SHAPES.values() for size in SIZES], count)


def answer(*words):
    status, text, line = told(*words)
    return bytes([status]) + (line if status > 1 else b"" if words[0] == "same" else text)


def case(room, number, text, following):
    """The parts of a case: both inputs, and what the program answers."""
    left, right = "%s/%d" % (room, number), "%s/%d.right" % (room, number)
    put(room, {f"{number}": text})
    canonical = answer("canon", left)
    other = canonical[1:] if number % 3 == 0 and canonical[0] == 0 else following
    put(room, {f"{number}.right": other})
    parts = [text, other, canonical, answer("events", left), answer("same", left, right)]
    os.remove(left)
    os.remove(right)
    return b"".join(struct.pack("<I", len(part)) + part for part in parts)


def try_threads(folder, room, count):
    if not is_program_built():
        return
    texts, began = inputs(count), time.monotonic()
    os.mkdir(room)
    cases = b"".join(side_by_side(lambda each: case(room, *each), zip(range(count), texts, texts[1:] + texts[:1])))
    say("%d answers of the program on inputs of %d bytes in all, %.1f s" % (3 * count, sum(map(len, texts)), time.monotonic() - began))
    made, began = build(folder, "threads", TOP + "/library/threads.c", folder + "/libyamlcanon.a", "-lpthread"), time.monotonic()
    say("100 threads: %s, %.1f s" % (run(made, input=cases), time.monotonic() - began))
