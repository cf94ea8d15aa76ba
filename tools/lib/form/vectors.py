"""vectors/form-1.jsonl, the vectors of the form: what they are made from, how they are read, and how they are compared with the test cases and
with the program.

A line is an object of JSON. `name`; then `input` in base64; `events`, the event text, where the input is read; and `text`, the
canonical text, or `refusal`, with its `number`, its `name` and its `place`, a list of the numbers that its line has. A long
line has in place of `input`, `events` and `text` the same with `_pieces` behind the name: a list in which a string stands for itself,
and `[piece, between, count]` for the piece so many times, with `between` between two of them, where in the piece the numbers from
100000 on are in the place of `@`.
"""
import base64
import collections
import functools
import hashlib
import json
import os
import re

from lib.cases.table import whole
from lib.failing import rows
from lib.form.page import answer, examples, page
from lib.paths import TOP, read
from lib.trial import side_by_side, status_of

FIRST_NUMBER, COUNT = 100000, 100000
NUMBER = re.compile(r"\$number|\$\{number\}")


def pieces_of(value):
    if isinstance(value, str):
        return [value]
    if isinstance(value, list):
        return [piece for each in value for piece in pieces_of(each)]
    assert value["times"] == COUNT and value.get("first", FIRST_NUMBER) == FIRST_NUMBER, value
    piece = [NUMBER.sub("@", value["piece"]), value.get("between", ""), COUNT]
    return [part for part in (value.get("front"), piece, value.get("end")) if part]


def whole_of_pieces(pieces):
    """The bytes that pieces stand for."""

    def many(piece, between, count):
        parts = piece.split("@")
        return between.join(str(FIRST_NUMBER + number).join(parts) for number in range(count))

    return "".join(part if isinstance(part, str) else many(*part) for part in pieces).encode()


def built_rows():
    """The row of each stream, with its pieces if it is long: first those at the limits."""
    for place, block in sorted(rows.streams(True), key=lambda each: "events" in each[1]):
        if "events" in block:
            found = [pieces_of(block[name]) for name in ("input", "events", "canonical")]
            source, events, text = map(whole_of_pieces, found)
            yield rows.Row(place, source, text, events, dict(zip(("input_pieces", "events_pieces", "text_pieces"), found)))
        else:
            canon, events = rows.said_of(block)
            yield rows.Row(place, whole(block["input"]), canon, events or None)


VECTORS = os.path.join(TOP, "vectors/form-1.jsonl")

# what a line says of an input: its events, None where it is not read, and its canonical text or its fault's line
Vector = collections.namedtuple("Vector", "name input events canon")

FAULT = re.compile(r"(\d+) (\w+)((?:\D+\d+)*)")


def all_rows():
    """Every row that has to stand in the file, in its order: of the tables, with each side of a pair, and of docs/format/FORM.md."""
    for row in rows.all_rows():
        if isinstance(row, rows.Row):
            yield row
        else:
            yield from (rows.Row(f"{row.place}, {side}", getattr(row, side), None, None) for side in ("left", "right"))
    yield from built_rows()
    for example in examples(page()):
        canon = example.refusal.rstrip("\n") or example.text
        yield rows.Row("FORM.md, " + example.rule, example.input.encode(), canon.encode(), None)


def vector_by(program, name, source):
    """The vector of an input, by what the program prints."""
    events, unread = answer(program, "events", source)
    text, refusal = answer(program, "canon", source)
    return Vector(name, source, None if unread else events, refusal.rstrip("\n") or text)


def refusal_of(message):
    """A fault's line as an object, or None for what is none."""
    found = FAULT.fullmatch(message)
    if not found:
        return None
    number, name, place = found.groups()
    return {"number": int(number), "name": name, "place": [int(digits) for digits in re.findall(r"\d+", place)]}


def line_of(vector, pieces):
    """A vector as a line; the canonical text of a stream never looks like a fault, since it begins with `---` or is empty."""
    said = {"name": vector.name, **(pieces or {})}
    if not pieces:
        refusal = refusal_of(vector.canon)
        said["input"] = base64.b64encode(vector.input).decode()
        said |= {"events": vector.events} if vector.events is not None else {}
        said |= {"refusal": refusal} if refusal else {"text": vector.canon}
    return json.dumps(said) + "\n"


def message_of(refusal):
    """A refusal's line, as the program tells it."""
    kind = {18: " in document %d", 19: " in node %d, entries %d and %d"}.get(refusal["number"])
    kind = kind or (" at byte %d" if refusal["number"] < 12 else " at event %d")
    place = tuple(refusal["place"])
    return "%d %s" % (refusal["number"], refusal["name"]) + (kind % place if place else "")


def vector_of(line):
    said = json.loads(line)
    if "input_pieces" in said:
        return Vector(
            said["name"],
            whole_of_pieces(said["input_pieces"]),
            *(whole_of_pieces(said[part]).decode() for part in ("events_pieces", "text_pieces")),
        )
    canon = message_of(said["refusal"]) if "refusal" in said else said["text"]
    return Vector(said["name"], base64.b64decode(said["input"], validate=True), said.get("events"), canon)


def file_lines():
    with open(VECTORS, "rb") as file:
        return file.read().splitlines(keepends=True)


def vectors():
    return [vector_of(line.decode("ascii")) for line in file_lines()]


DIGESTS = os.path.join(os.path.dirname(VECTORS), "form-1.sha256")
RELEASED = re.compile(r"(\d+) ([0-9a-f]{64})\n")


def differs(row, vector):
    if row.canon is not None and row.canon.decode() != vector.canon:
        return True
    said = vector.canon if vector.events is None else vector.events
    return row.events is not None and row.events.decode() != said


def lasting(found, wrong):
    """The last vector of each input. Those before it may be refusals alone."""
    last = {}
    for vector in found:
        before = last.get(vector.input)
        if before and (not refusal_of(before.canon) or refusal_of(vector.canon)):
            wrong.append("%s: says anew what was said as %s" % (vector.name, before.name))
        last[vector.input] = vector
    return last


def wrong_line(program, vector):
    got = vector_by(program, vector.name, vector.input)
    if got != vector:
        return "%s: the program answers %.200r, %.200r" % (vector.name, got.events, got.canon)
    if not refusal_of(vector.canon) and answer(program, "canon", vector.canon.encode()) != (vector.canon, ""):
        return "%s: its text is not its own" % vector.name
    return None


def wrong_rows(last):
    for row in all_rows():
        if row.input not in last:
            yield "%s: stands in no line (tools/conformance vectors --add appends one)" % row.place
        elif differs(row, last[row.input]):
            yield "%s: %s says otherwise" % (row.place, last[row.input].name)
    for pair in rows.all_rows():
        if isinstance(pair, rows.Pair) and pair.same in (b"same\n", b"different\n"):
            texts = [last[side].canon for side in (pair.left, pair.right) if side in last]
            if len(texts) == 2 and not any(map(refusal_of, texts)) and (texts[0] == texts[1]) != (pair.same == b"same\n"):
                yield "%s: texts of a pair" % pair.place


def digest(lines):
    return hashlib.sha256(b"".join(lines)).hexdigest()


def wrong_fronts():
    lines, count = file_lines(), 0
    for told in read(DIGESTS).splitlines(keepends=True):
        found = RELEASED.fullmatch(told)
        if not found or int(found[1]) <= count:
            yield "form-1.sha256: %r" % told
            continue
        count = int(found[1])
        if count > len(lines) or digest(lines[:count]) != found[2]:
            yield "the first %d lines are not those that were released" % count
    if lines and not lines[-1].endswith(b"\n"):
        yield "the last line has no end"


def check(program):
    wrong = list(wrong_fronts())
    last = lasting(vectors(), wrong)
    wrong += filter(None, side_by_side(functools.partial(wrong_line, program), last.values()))
    return status_of("vectors", [*wrong, *wrong_rows(last)])


def add(program):
    """Appends the rows that stand in no line."""
    found = vectors()
    names, inputs = {vector.name for vector in found}, {vector.input for vector in found}
    with open(VECTORS, "a", encoding="ascii", newline="") as file:
        for row in all_rows():
            if row.input in inputs:
                continue
            name, count = row.place, 1
            while name in names:
                count += 1
                name = "%s (%d)" % (row.place, count)
            vector = vector_by(program, name, row.input)
            if differs(row, vector):
                raise SystemExit("vectors: %s: the program answers otherwise" % row.place)
            file.write(line_of(vector, row.pieces))
            names.add(name)
            inputs.add(row.input)
    return 0


def release():
    lines = file_lines()
    with open(DIGESTS, "a", encoding="ascii") as file:
        print(len(lines), digest(lines), file=file)
    return 0
