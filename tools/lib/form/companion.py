"""The companion of the form, tools/oracle/oracle.py, compared with docs/format/FORM.md, with the vectors and with the program; and on files of
YAML, where PyYAML's parser is compared with the program, too.
"""
import collections
import functools
import re
from collections.abc import Iterable, Iterator
from typing import Any

from lib.form.made import scalars, stream
from lib.form.page import answer, page
from lib.form.vectors import refusal_of, vectors
from lib.paths import read
from lib.trial import side_by_side, status_of
from oracle import oracle


def companion(events):
    """What the companion gives for an event text: a text, or a refusal's line without its LF."""
    status, text, refusal = oracle.answer(events)
    return refusal.removeprefix("yaml: ").rstrip("\n") if status else text


def wrong_names():
    """Rules that the page or the companion alone names."""
    ruled = set(re.findall(r"^\*\*`([^`\n]+)`\.", page(), re.M))
    comments = re.findall(r"^ *# (`.*)$", read(oracle.__file__), re.M)
    named = set(name for comment in comments for name in re.findall(r"`([a-z ]+)`", comment.partition(":")[0]))
    for name in sorted(ruled ^ named):
        yield "rule %s stands in %s alone" % (name, "FORM.md" if name in ruled else "the companion")


def wrong_vectors(counts):
    for vector in vectors():
        if vector.events is not None:
            counts["vectors"] += 1
            got = companion(vector.events)
            if got != vector.canon:
                yield "%s: %.200r, and not %.200r" % (vector.name, got, vector.canon)


def asked(program, source):
    """(stream, why it is not read, its events, its text or refusal), by the program"""
    events, unread = answer(program, "events", source)
    text, refusal = answer(program, "canon", source)
    return source, unread, events, refusal.rstrip("\n") or text


def wrong_streams(program, sources, what, counts):
    for source, unread, events, canon in side_by_side(functools.partial(asked, program), sources):
        refusal = refusal_of(canon)
        counts[what] += 1
        counts["%s %s" % (what, "refused with %d" % refusal["number"] if refusal else "accepted")] += 1
        got = unread.rstrip("\n") if unread else companion(events)
        if got != canon:
            yield "%.200r: %.200r, and not %.200r" % (source, got, canon)


def streams_of(found):
    """Streams of scalars: a list of those that the companion accepts, and each other one alone."""
    accepted, alone = [], []
    for tag, text in found:
        full = "<tag:yaml.org,2002:%s> " % tag.strip(" !") if tag else ""
        refused = refusal_of(companion("+STR\n+DOC\n=VAL %s:%s\n-DOC\n-STR\n" % (full, text)))
        (alone if refused else accepted).append("- %s%s\n" % (tag, text))
    return [it.encode() for it in ["".join(accepted), *alone] if it]


def check(program, scalar_count):
    """Prints the counts if all is well, else a line for each difference; the status."""
    counts = collections.Counter({"scalars": scalar_count})
    wrong = [*wrong_names(), *wrong_vectors(counts)]
    wrong += wrong_streams(program, map(stream, range(MADE, MADE + 2000)), "made streams", counts)
    wrong += wrong_streams(program, streams_of(scalars(scalar_count, 1)), "streams of scalars", counts)
    return status_of("companion", wrong, ", ".join("%d %s" % (counts[what], what) for what in sorted(counts)))


# The first of the made streams.
MADE = 1000000
ESCAPES = str.maketrans({"\\": "\\\\", "\n": "\\n", "\t": "\\t", "\r": "\\r", "\b": "\\b"})
WORDS = {"StreamStart": "+STR", "StreamEnd": "-STR", "SequenceEnd": "-SEQ", "MappingEnd": "-MAP"}
STARTS = {"SequenceStart": ("+SEQ", " []"), "MappingStart": ("+MAP", " {}")}
MARKS = {"DocumentStart": ("+DOC", " ---"), "DocumentEnd": ("-DOC", " ...")}


def line_of(event: Any) -> str:
    kind = type(event).__name__.removesuffix("Event")
    if kind in WORDS:
        return WORDS[kind]
    if kind in MARKS:
        return MARKS[kind][0] + MARKS[kind][1] * bool(event.explicit)
    if kind == "Alias":
        return f"=ALI *{event.anchor}"
    properties = (f" &{event.anchor}" if event.anchor else "") + (f" <{event.tag}>" if event.tag else "")
    if kind in STARTS:
        return STARTS[kind][0] + STARTS[kind][1] * bool(event.flow_style) + properties
    return f"=VAL{properties} {event.style or ':'}{event.value.translate(ESCAPES)}"


def by_pyyaml(source: bytes) -> str | None:
    """The event text by PyYAML, or None where that rejects the file or is not installed."""
    try:
        import yaml  # pylint: disable=import-outside-toplevel
    except ImportError:
        return None
    try:
        return "".join(line_of(event) + "\n" for event in yaml.parse(source.decode()))
    except (yaml.YAMLError, UnicodeDecodeError):
        return None


def wrong_file(program: str, source: bytes, counts: collections.Counter[str]) -> Iterator[str]:
    """What is wrong with the meaning of a file, with counts of how it is read."""
    events, unread = answer(program, "events", source)
    theirs = by_pyyaml(source)
    if unread or theirs is None:
        counts["reading: " + ("neither" if unread and theirs is None else "PyYAML alone" if unread else "the program alone")] += 1
    else:
        counts["reading: " + ("the same events" if events == theirs else "other events")] += 1
    if unread:
        return
    text, refusal = answer(program, "canon", source)
    counts["meaning: " + (refusal.split()[1] if refusal else "text")] += 1
    _, wanted, refused = oracle.answer(events)
    if (text, refusal) != (wanted, refused.removeprefix("yaml: ")):
        yield f"{refusal or text!r:.200}, and not {refused or wanted!r:.200}"
    if not refusal and answer(program, "canon", text.encode())[0] != text:
        yield "its canonical text is not its own"


def check_files(program: str, names: Iterable[str]) -> int:
    """Prints the counts, and a line for each difference in meaning; the status."""
    counts: collections.Counter[str] = collections.Counter()
    found: list[str] = []
    for name in names:
        with open(name, "rb") as file:
            found += (f"{name}: {wrong}" for wrong in wrong_file(program, file.read(), counts))
    for what, count in sorted(counts.items()):
        print(f"files: {what}: {count}")
    return status_of("files", found)
