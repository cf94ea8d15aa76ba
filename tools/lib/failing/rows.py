"""rows.py: the worked examples of `crates/yaml_vectors`, read from the text of their tables, and those of tools/data/cases/streams.

A table is `static NAME: [Type; N] = [`, rows, `];`. Each has to give N rows, so that none is lost.
"""
import collections
import glob
import os
import re

from lib.cases.table import STREAMS, blocks_of, events_of, paths, table_of, whole
from lib.paths import TOP, read

# where a row stands; its input; what its table says of `canon` and of `events` (None: nothing): a text, or a fault's line; the pieces of
# which a long one is made (lib/form/vectors.py)
Row = collections.namedtuple("Row", "place input canon events pieces", defaults=(None,))
# two inputs, and the word or the fault's line that `same` prints
Pair = collections.namedtuple("Pair", "place left right same")

TABLE = re.compile(r"^(?:pub )?(?:static|const) (\w+): \[(Row|Pair); (\d+)\] = \[\n(.*?)^\];", re.M | re.S)
FIELD = re.compile(r'\b(shows|input|answer|left|right):\s*b?"((?:[^"\\]|\\.)*)"', re.S)
ESCAPE = re.compile(r"\\(?:u\{([0-9A-Fa-f]+)\}|x([0-9A-Fa-f]{2})|\n\s*|(.))", re.S)
SIMPLE = {"n": b"\n", "t": b"\t", "r": b"\r", "0": b"\0", "\\": b"\\", '"': b'"', "'": b"'"}


def unescaped(text):
    out, at = b"", 0
    for found in ESCAPE.finditer(text):
        code, byte, letter = found.groups()
        out += text[at : found.start()].encode()
        out += chr(int(code, 16)).encode() if code else bytes([int(byte, 16)]) if byte else SIMPLE[letter] if letter else b""
        at = found.end()
    return out + text[at:].encode()


def is_fault(text):
    return re.match(rb"\d+ [A-Z]\w+", text) is not None


def row_of(place, source):
    """The row or the pair of a table's piece."""
    fields = FIELD.findall(source)
    said = {name: unescaped(text) for name, text in fields}
    assert len(said) == len(fields), (place, source)
    place += ": " + (said.get("shows") or said["input"]).decode("utf-8", "replace")
    if "left" in said:
        return Pair(place, said["left"], said["right"], said["answer"] + (b"" if b": " in said["answer"] else b"\n"))
    return Row(place, said["input"], said["answer"], None)


def rows_of_crates():
    for path in sorted(glob.glob(TOP + "/crates/yaml_vectors/src/*.rt")):
        for name, kind, count, body in TABLE.findall(read(path)):
            place = os.path.basename(path) + ", " + name
            found = [row_of(place, piece) for piece in re.split(r"^    %s \{\n" % kind, body, flags=re.M)[1:]]
            assert len(found) == int(count), (place, len(found), count)
            yield from found


def said_of(block):
    """What the block of a stream says of `canon` and of `events`."""
    events, fault = events_of(block), block["fault"].encode() if "fault" in block else None
    canon = whole(block["canonical"]) if "canonical" in block else fault
    return canon, fault if events is None and not block.get("read") else events


def streams(is_made):
    """(place, block) of each stream of tools/data/cases/streams whose input is made of a piece, or of each other one."""
    for path in paths(STREAMS):
        for _, _, block in blocks_of(table_of(path)):
            if (not isinstance(block["input"], str) and "bytes" not in block["input"]) == is_made:
                yield "%s: %s" % (os.path.basename(path), block.get("name", block["input"])), block


def all_rows():
    """The rows but for those whose inputs are made of a piece, which lib/form/vectors.py has."""
    return [*rows_of_crates(), *(Row(place, whole(block["input"]), *said_of(block)) for place, block in streams(False))]
