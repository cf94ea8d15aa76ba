"""The cases of the files of tools/data/cases, and the runs of each; what a value stands for, in bytes, and how a text is spelled in TOML; and
what judges an output that a case does not give whole.
"""
import collections
import difflib
import functools
import glob
import os
import re
import string
import tomllib
import urllib.parse

from lib.paths import DATA

# Characters that are not seen, or that break a line for some readers, are spelled as escapes.
UNSEEN = re.compile(r"[\x00-\x1f\x7f-\xa0\xad\u1680\u2000-\u200f\u2028-\u202f\u205f-\u206f\u3000\ufeff\U000e0000-\U000e0fff]")
SHORT = {"\n": "\\n", "\t": "\\t", "\r": "\\r", "\\": "\\\\", '"': '\\"'}
LONGEST = 60
PIECES = {"front", "piece", "times", "between", "middle", "close", "end", "first"}


def whole(value):
    """The bytes that a value stands for: a text, bytes, a text made of a piece, or a list of such."""
    if isinstance(value, str):
        return value.encode()
    if isinstance(value, list):
        return b"".join(whole(each) for each in value)
    if set(value) == {"bytes"}:
        return urllib.parse.unquote_to_bytes(value["bytes"])
    if not {"piece", "times"} <= set(value) <= PIECES:
        raise ValueError(f"no text has the keys {', '.join(sorted(value))}")
    return made(value).encode()


def made(given):
    """A text that is made of a piece, so many times. In it `$number` is counted from `first`, `$before` is one less."""
    first, piece, times = given.get("first", 1), given["piece"], given["times"]
    pieces = [piece] * times
    if "$" in piece:
        piece = string.Template(piece).substitute(number="\0", before="\1")
        pieces = [piece.replace("\0", str(number)).replace("\1", str(number - 1)) for number in range(first, first + times)]
    closed = given.get("middle", "") + given.get("close", "") * times
    return given.get("front", "") + given.get("between", "").join(pieces) + closed + given.get("end", "")


def named(text):
    """The bytes of a word or of a file's name, in which `%FF` is the byte FF."""
    return urllib.parse.unquote_to_bytes(text)


def code(character):
    number = ord(character)
    return f"\\U{number:08X}" if number > 0xFFFF else f"\\u{number:04X}"


def escaped(text):
    return UNSEEN.sub(lambda found: SHORT.get(found[0]) or code(found[0]), text)


def is_seen(text):
    """Whether a text can stand between three apostrophes."""
    unseen = UNSEEN.search(text.replace("\n", "")) or re.search(r" $", text, re.M)
    return not unseen and "'''" not in text and not text.endswith("'")


def lines_spelled(text):
    if "\\" in text and is_seen(text):
        return f"'''\n{text}'''"
    inner = "\n".join(re.sub(r" $", r"\\u0020", escaped(line.replace("\\", "\\\\"))) for line in text.split("\n"))
    inner = inner.replace('"""', '""\\"')
    return '"""\n' + (inner[:-1] + '\\"' if inner.endswith('"') else inner) + '"""'


def spelled(data):
    if isinstance(data, bytes):
        text = data.decode("utf-8", "surrogateescape")
        if re.search("[\udc80-\udcff]", text):
            text = re.sub("[\x00%\udc80-\udcff]", lambda found: "%%%02X" % (ord(found[0]) & 0xFF), text)
            return "{ bytes = %s }" % spelled(text)
    else:
        text = data
    is_marked = '"' in text or "\\" in text
    if "\n" in text and (is_marked or len(text) > LONGEST):
        return lines_spelled(text)
    if is_marked and is_seen(text) and "'" not in text:
        return f"'{text}'"
    return '"' + escaped(text.replace("\\", "\\\\").replace('"', '\\"')) + '"'


# The lines that are shown of a difference at most, and the characters of each.
LINES, COLUMNS = 60, 400


def seen(data):
    return [escaped(line) for line in data.decode("utf-8", "backslashreplace").split("\n")]


def difference(what, wanted, given):
    lines = difflib.unified_diff(seen(wanted), seen(given), f"wanted {what}", f"given {what}", lineterm="", n=1)
    return "".join(f"  {line[:COLUMNS]}\n" for line in list(lines)[:LINES])


def judged(block, output):
    """What is wrong with an output: whether it begins with a text, has some, each behind the one before, has none of others, and whether
    its first line ends with a hint."""
    told, at = "", 0
    begins, line = whole(block.get("begins", "")), output.split(b"\n")[0]
    if not output.startswith(begins):
        told += difference("beginning", begins, output)
    for part in map(whole, block.get("has", [])):
        found = output.find(part, at)
        if found < 0:
            told += f"  {part.decode()!r} is not in the output, or not behind what is before it\n" + difference("output", b"", output)
            break
        at = found + len(part)
    told += "".join(f"  {text.decode()!r} is in the output\n" for text in map(whole, block.get("lacks", [])) if text in output)
    if "hint" in block and not line.endswith(b": " + block["hint"].encode()):
        told += difference("hint", b".. : " + block["hint"].encode(), line)
    return told


FOLDER = f"{DATA}/cases"
# The streams that are vectors of the form, too.
STREAMS = f"{FOLDER}/streams"
CASE = {"name", "program", "words", "input", "files", "folders", "environment", "status", "output", "error"}
PARTS = {"begins", "has", "lacks", "hint"}
STREAM = {"name", "input", "node", "events", "canonical", "fault", "read"}

# A run: a program, its words, its standard input, and the folder's files; and what is wanted of its status, its output and its error.
# None: anything; an error may be a pattern. `judge` gets the output, and answers what is wrong with it.
Run = collections.namedtuple("Run", "program words input files folders environment status output error judge")
RUN = Run("yamlcanon", [], b"", {}, [], {}, 0, b"", b"", None)
# A case: the file and the block in it, the name, and the runs.
Case = collections.namedtuple("Case", "path kind number name runs")
# The line of any fault of reading.
UNREAD = re.compile(rb"yaml: ([2-9]|1[01]) [^\n]*\n")


class NoCase(Exception):
    """What is wrong with a block."""


def paths(folder=FOLDER):
    return sorted(glob.glob(f"{folder}/**/*.toml", recursive=True))


def case_runs(block):
    unknown = set(block) - CASE - PARTS
    if unknown or "words" not in block:
        raise NoCase(f"a case has no key {min(unknown)}" if unknown else "a case needs words")
    judge = functools.partial(judged, block) if PARTS & set(block) else None
    return [
        Run(
            block.get("program", "yamlcanon"),
            [named(word) for word in block["words"]],
            whole(block.get("input", "")),
            {named(name): whole(text) for name, text in block.get("files", {}).items()},
            [named(name) for name in block.get("folders", [])],
            block.get("environment", {}),
            block.get("status", 0),
            None if judge else whole(block.get("output", "")),
            whole(block.get("error", "")),
            judge,
        )
    ]


def events_of(block):
    """The event text that a stream's block says, or None."""
    if "node" in block:
        return b"+STR\n+DOC\n" + whole(block["node"]) + b"-DOC\n-STR\n"
    return whole(block["events"]) if "events" in block else None


def error_of(fault):
    """The line of a fault; `any` is one of reading."""
    return UNREAD if fault == "any" else b"yaml: %s\n" % fault.encode()


def stream_runs(block):
    """The runs of a block `[[stream]]`: its events, its canonical text, which is its own, or its fault."""
    unknown = set(block) - STREAM
    if unknown:
        raise NoCase(f"a stream has no key {min(unknown)}")
    source, events, runs = whole(block["input"]), events_of(block), []
    rejected = RUN._replace(input=source, status=2, error=error_of(block.get("fault", "")))
    is_read = events is not None or block.get("read", False)
    if events is not None:
        runs.append(RUN._replace(words=[b"events"], input=source, output=events))
        runs.append(RUN._replace(words=[b"check", b"a", b"b"], files={b"a": source, b"b": events}, output=b"match\n"))
    elif is_read:
        runs.append(RUN._replace(words=[b"events"], input=source, output=None))
    if "canonical" in block:
        text = whole(block["canonical"])
        runs += [RUN._replace(words=[b"canon"], input=each, output=text) for each in (source, text)]
    if "fault" in block and not is_read:
        runs.append(rejected._replace(words=[b"events"]))
        runs.append(rejected._replace(words=[b"check", b"a", b"b"], files={b"a": source, b"b": b""}))
    if "fault" in block:
        runs.append(rejected._replace(words=[b"canon"]))
    if not runs:
        raise NoCase("a stream needs events, a canonical text or a fault")
    return runs


KINDS = {"case": case_runs, "stream": stream_runs}


def table_of(path):
    """A file of cases. What is in none of the tables is no key."""
    with open(path, "rb") as file:
        table = tomllib.load(file)
    unknown = set(table) - set(KINDS) - {"all", "fronts"}
    if unknown:
        raise NoCase(f"{path}: there is no table {min(unknown)}")
    return table


def filled(block, common):
    files = {**common.get("files", {}), **block.get("files", {})}
    return {**common, **block, **({"files": files} if files else {})}


def blocks_of(table):
    """The blocks of a file, by kind and number, with what each has."""
    for kind in KINDS:
        for number, block in enumerate(table.get(kind, [])):
            yield kind, number, filled(block, table.get("all", {}))


def cases_of(path):
    for kind, number, block in blocks_of(table_of(path)):
        name = block.get("name") or repr(block.get("input", ""))[:100]
        try:
            yield Case(path, kind, number, name, KINDS[kind](block))
        except (NoCase, ValueError) as error:
            raise NoCase(f"{os.path.relpath(path, FOLDER)}: {name}: {error}") from error


def streams_with_fronts(path):
    """The inputs of a file that asks for the fronts of each of its streams."""
    table = table_of(path)
    return [whole(block["input"]) for block in table.get("stream", [])] if table.get("fronts") else []
