"""Streams with aliases, and which of their differences are one change.

A part of a document that is one object at several places is written once, with an anchor, and as an alias at the others.
"""
import json
import random
from collections import Counter
from collections.abc import Iterable
from typing import Any

Value = Any  # what JSON can say
Path = tuple[Any, ...]


def size(value: Value) -> int:
    parts = value.values() if isinstance(value, dict) else value if isinstance(value, list) else ()
    return 1 + sum(size(part) for part in parts)


def shared(rng: random.Random, value: Value, met: list[Value]) -> Value:
    """The value, some of whose parts are such as were met before in the document."""
    if met and rng.random() < 0.3:
        return rng.choice(met)
    made: Value
    if isinstance(value, list):
        made = [shared(rng, part, met) for part in value]
    elif isinstance(value, dict):
        made = {key: shared(rng, part, met) for key, part in value.items()}
    else:
        made = str(value.encode(), "utf-8")  # another object
    if size(made) <= 30:
        met.append(made)
    return made


def steps_below(value: Value) -> Iterable[tuple[Any, Value]]:
    if isinstance(value, dict):
        return value.items()
    return enumerate(value) if isinstance(value, list) else ()


def own_paths(value: Value, path: Path = (), found: dict[int, Path] | None = None) -> dict[int, Path]:
    """The path at which each part is written, by its object's number."""
    found = {} if found is None else found
    if id(value) not in found:
        found[id(value)] = path
        for step, part in steps_below(value):
            own_paths(part, (*path, step), found)
    return found


def times(value: Value, counts: Counter[int]) -> Counter[int]:
    """How often each part is written, as itself or as an alias."""
    counts[id(value)] += 1
    if counts[id(value)] == 1:
        for _, part in steps_below(value):
            times(part, counts)
    return counts


def written(value: Value, counts: Counter[int], names: dict[int, str]) -> str:
    """A part in flow style, with an anchor if aliases follow."""
    if id(value) in names:
        return f"*{names[id(value)]} "
    mark = ""
    if counts[id(value)] > 1:
        names[id(value)] = f"a{len(names)}"
        mark = f"&{names[id(value)]} "
    if isinstance(value, dict):
        return mark + "{" + ", ".join(f"{json.dumps(key)}: {written(part, counts, names)}" for key, part in value.items()) + "}"
    if isinstance(value, list):
        return mark + "[" + ", ".join(written(part, counts, names) for part in value) + "]"
    return mark + json.dumps(value)


def text_of(documents: list[Value]) -> str:
    return "".join(f"--- {written(document, times(document, Counter()), {})}\n" for document in documents)


class Side:
    """One of two streams, of whose steps each pair of places has one."""

    def __init__(self, documents: list[Value], hand: int) -> None:
        self.documents, self.hand = documents, hand
        self.own = [own_paths(document) for document in documents]

    def path(self, steps: list[Any]) -> Path:
        return tuple(step[self.hand] if isinstance(step, tuple) else step for step in steps)

    def node(self, path: Path) -> tuple[int, bool]:
        """The part to which a path leads, and whether it leads there without an alias."""
        value = self.documents
        for step in path:
            value = value[step]
        return id(value), self.own[path[0]][id(value)] == path[1:]

    def event(self, path: Path) -> tuple[Any, bool]:
        """The place in the text at which a part is written, as itself or as an alias."""
        return (self.node(path[:-1])[0], path[-1]), self.node(path)[1]


def cause_of(kind: str, steps: list[Any], sides: tuple[Side, Side]) -> tuple[Any, bool]:
    """What is changed, and whether this is told at its own place: the nodes of both sides or, of a part that one side has alone, the
    place in its text and the node of which it is no part on the other side."""
    paths = [side.path(steps) for side in sides]
    if kind == "changed":
        ends: list[Any] = [side.node(path) for side, path in zip(sides, paths)]
    elif len(steps) == 1:
        return None, False
    else:
        alone = 0 if kind == "left" else 1
        ends = [None, None]
        ends[alone] = sides[alone].event(paths[alone])
        ends[1 - alone] = sides[1 - alone].node(paths[1 - alone][:-1])
    return (kind, ends[0][0], ends[1][0]), ends[0][1] and ends[1][1]


def counts_of(lines: list[Any], left: list[Value], right: list[Value]) -> list[int]:
    """How many differences the line of each one tells: those of one change have one line, if it is told at its own place too."""
    sides = Side(left, 0), Side(right, 1)
    causes = [cause_of(kind, steps, sides) for kind, steps, _, _ in lines if kind != "moved"]
    own = {cause for cause, is_own in causes if is_own}
    together = Counter(cause for cause, _ in causes if cause in own)
    counts, met = [], set()
    for cause, _ in causes:
        counts.append(1 if cause not in own else 0 if cause in met else together[cause])
        met.add(cause)
    return counts
