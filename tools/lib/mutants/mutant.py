"""A mutant: a wrong body that the check must reject, the functions in which it is by the layout of `rt fmt`, its shape, and what a check said."""
from __future__ import annotations

import glob
import os
import re
from collections.abc import Iterator
from typing import List, NamedTuple, Optional, Tuple

from lib.paths import read


class Place(NamedTuple):
    """A function: its name as the check prints it, the cycle of calls that it shares a proof with, or None, the folders of its
    proof files, its lines, counted from 1, and whether it is public."""

    name: str
    cycle: Optional[str]
    folders: List[str]
    path: str
    first: int
    last: int
    is_public: bool


def owner_of(line: str) -> str | None:
    """The name under which the check tells the functions of an impl: its type, and the trait behind it, if there is one."""
    head = re.match(r"(?:unsafe )?impl\b(.*)", line)
    if not head:
        return None
    rest = re.sub(r"<[^<>]*(?:<[^<>]*>[^<>]*)*>", "", head[1])
    what, _, whom = rest.split(" where ")[0].partition(" for ")
    names: list[str] = re.findall(r"\w+", what)
    return re.findall(r"\w+", whom)[0] + names[-1] if whom else names[0]


def module_of(text: str, module: list[str], owner: str) -> list[str]:
    """The module under whose name the check tells the functions of an impl in this file. Those of a type alone are told under the
    module of the type, which a `use` line names where it is another one; those of a trait under the module of the impl."""
    for found in re.finditer(r"^use crate::(?:([\w:]+)::)?(?:(\w+)|\{([^{}]*)\});", text, re.M):
        names = found[3].split(",") if found[3] else [found[2]]
        if owner in [name.strip() for name in names]:
            return found[1].split("::") if found[1] else []
    return module


def last_line(lines: list[str], number: int, indent: str) -> int:
    """The last line of the function that begins in this line. One that a trait only declares has no body, and ends at its `;`."""
    line = lines[number]
    if line.endswith("}") and line.count("{") == line.count("}"):
        return number
    has_body = False
    while number < len(lines) - 1 and lines[number] != indent + "}" and (has_body or not lines[number].endswith(";")):
        has_body |= lines[number].endswith("{")
        number += 1
    return number


def function_at(text: str, path: str, crate: str, start: int, length: int) -> Place | None:
    """The function in which a part of a file of `src/` stands (its attributes and contract too), or None."""
    if not path.startswith("src/"):
        return None
    first = text.count("\n", 0, start)
    last = text.count("\n", 0, start + length)
    module = path[len("src/") : -len(".rt")].split("/")
    module = [] if module in (["lib"], ["main"]) else module
    lines, owner = text.split("\n"), None
    for number, line in enumerate(lines):
        owner = None if line == "}" else owner_of(line) or owner
        found = re.match(r'( *)(?:pub(?:\([^)]*\))? )?(?:const )?(?:unsafe )?(?:extern "C" )?fn (\w+)', line)
        if not found:
            continue
        top, end = number, last_line(lines, number, found[1])
        while top and re.match(r" *(#\[|///)", lines[top - 1]):
            top -= 1
        cycle = (re.findall(r"#\[cycle\((\w+)\)\]", "\n".join(lines[top:number])) or [None])[-1]
        if top <= first and last <= end:
            home = module_of(text, module, owner) if found[1] and owner else module
            room = home + ([owner] if found[1] and owner else [])
            name, is_public = "::".join([crate, *room, found[2]]), line.lstrip().startswith("pub ")
            # a cycle's proof is at the module that holds all of its functions: this one, or one above it
            above = [room, *(home[:length] for length in range(len(home), -1, -1))]
            parts = [[*it, f"+{cycle}"] for it in above] if cycle else [[*room, found[2]]]
            return Place(name, cycle, sorted({f"proofs/{'/'.join(it)}/" for it in parts}), path, top + 1, end + 1, is_public)
    return None


Change = Tuple[str, str, str]  # a file, an old text and a new one
Pair = Tuple[str, str, str, Optional[str]]  # the same with a twin of the new one, if there is one


class Mutant:
    """A mutant of a crate, by its name and its text.

    The text has lines `file: PATH`, and for each change `old: TEXT` and `new: TEXT`; a line `twin: TEXT` behind a `new:` gives the same
    shape with the right meaning. `why` says what is wrong with the text, if anything is."""

    def __init__(self, crate: str, name: str, text: str, folder: str) -> None:
        self.crate, self.name, self.text = crate, name, text
        self.pairs = pairs_of(text)
        self.places: list[Place] = []
        self.is_outside = False
        self.verdict, self.control = "", ""
        self.goals: list[str] = []
        self.why = "" if self.pairs else "it has no pair"
        for file, old, _, _ in self.pairs:
            self.find_place(folder, file, old)

    def find_place(self, folder: str, file: str, old: str) -> None:
        """Notes the function in which an old text stands, which has to stand there once."""
        path = f"{folder}/{file}"
        text = read(path) if os.path.isfile(path) else ""
        if text.count(old) != 1:
            self.why = f"its old text stands {text.count(old)} times in {file}"
            return
        place = function_at(text, file, self.crate, text.index(old), len(old))
        self.is_outside |= place is None
        if place and place.name not in self.functions():
            self.places.append(place)

    def functions(self) -> set[str]:
        return {place.name for place in self.places}

    def changes(self) -> list[Change]:
        """(file, old text, new text) of each pair."""
        return [(file, old, new) for file, old, new, _ in self.pairs]

    def twin(self) -> list[Change]:
        """The changes that keep the mutant's shape and the right meaning, if the file gives any."""
        return [(file, old, twin) for file, old, _, twin in self.pairs if twin is not None]

    def keeps_shape(self) -> bool:
        """Whether it has as many branches, calls, returns .. as the text that it stands for."""
        before = [shape(old) for _, old, _, _ in self.pairs]
        after = [shape(new) for _, _, new, _ in self.pairs]
        return [sum(counts) for counts in zip(*before)] == [sum(counts) for counts in zip(*after)]


def pairs_of(text: str) -> list[Pair]:
    """The changes of a mutant's text, as lists of file, old text, new text and twin, if there is one."""
    pairs: list[Pair] = []
    file, old = "", None
    for line in text.split("\n"):
        if line.startswith("file: "):
            file = line[len("file: ") :].strip()
        elif line.startswith("old: "):
            old = line[len("old: ") :]
        elif line.startswith("new:") and file and old:
            pairs.append((file, old, line[len("new:") :].removeprefix(" "), None))
            old = None
        elif line.startswith("twin:") and pairs:
            pairs[-1] = (*pairs[-1][:3], line[len("twin:") :].removeprefix(" "))
    return pairs


# What the shape of a text counts: branches, arms, loops, exits, `?`, calls, alternatives, statements, indexings, operators.
COUNTED = (
    r"\bif\b",
    r"\bmatch\b",
    r"=>",
    r"\bfor\b|\bwhile\b|\bloop\b",
    r"\breturn\b|\bbreak\b|\bcontinue\b",
    r"\?",
    r"\b[a-z_]\w*\(",
    r"&&|\|\|",
    r" \| ",
    r";",
    r"\[",
    r" [-+*/%] ",
)


def shape(text: str) -> tuple[int, ...]:
    """How many of each form a text has, its texts and characters aside."""
    masked = re.sub(r"\"(?:\\.|[^\"\\])*\"|b?'(?:\\.[^']*|[^'\\])'", '""', text)
    return tuple(len(re.findall(form, masked)) for form in COUNTED)


def texts_of(text: str) -> Iterator[tuple[str, str]]:
    """(name, text) of each block of a mutants.txt. Blocks are apart by empty lines; the first line of each is `name: NAME`."""
    for block in text.split("\n\n"):
        lines = [line for line in block.split("\n") if line and not line.startswith("#")]
        if lines:
            name = lines[0].removeprefix("name: ")
            if name == lines[0] or not re.fullmatch(r"\w+", name):
                raise SystemExit(f"mutants: a block begins with `name: NAME`, and not with: {lines[0]}")
            yield name, "".join(f"{line}\n" for line in lines[1:])


def mutants_of(root: str, crate: str) -> list[Mutant]:
    """The mutants of a crate: those of its mutants.txt, then those of must-fail/, which `rt ci` tries too."""
    folder = f"{root}/crates/{crate}"
    found = [*texts_of(read(f"{folder}/mutants.txt"))] if os.path.isfile(f"{folder}/mutants.txt") else []
    for path in sorted(glob.glob(f"{folder}/must-fail/*.edit")):
        found.append((os.path.basename(path).removesuffix(".edit"), read(path)))
    return [Mutant(crate, name, text, folder) for name, text in found]


def faults_of(root: str, crate: str) -> Iterator[str]:
    """What is wrong with the mutants of a crate: a name twice, another order than that of the names, a text that is not there once."""
    names: list[str] = []
    mutants = mutants_of(root, crate)
    for it in mutants:
        if it.why:
            yield f"{crate}/{it.name}: {it.why}"
        if it.name in names:
            yield f"{crate}/{it.name}: another one has this name"
        names.append(it.name)
    path = f"{root}/crates/{crate}/mutants.txt"
    listed = [name for name, _ in texts_of(read(path))] if os.path.isfile(path) else []
    if listed != sorted(listed):
        after = next(later for before, later in zip(listed, listed[1:]) if later < before)
        yield f"{crate}: mutants.txt is in the order of the names, and {after} is too far down"
    if os.path.isdir(f"{root}/crates/{crate}/edits"):
        yield f"{crate}: edits/ is not read: mutants are in mutants.txt"


# What the check says where a proof file names a step, case or field that is not there.
NAMES = re.compile(r"has no field|has no `[^`]*`|is not in scope|is no name|no such|was not admitted|unknown answer|no goal")
STATUS = re.compile(r"^fn (\S+): (.*)", re.M)
AT = re.compile(r"(note: )?(?:\./)?((?:src|specs|proofs)/\S+?):(\d+):(\d+): (error|warning|note)?:? ?(.*)")
GONE = re.compile(r"(?:error: )?module `\S*\.Goals` has no `([^`]*)`(.*)")
LEFT_OPEN = re.compile(r"note: (?:\./)?(src/\S+?):(\d+):\d+: it is not proved .*\(`([^`]*)`\)(.*)")
AT_VALUES = "allow values at which this goal is false"
NOT_SEARCHED = re.compile(r"`search` did not prove ((?:`[^`]*`(?:, | and )?)+)")


class Refusal:
    """What a check said of the functions of one mutant.

    `goals` are those that it refused, `false` those of them at which it found values that make them false, `names`
    the errors of proof files that name what is not there."""

    def __init__(self) -> None:
        self.is_proved = False
        self.goals: list[str] = []
        self.false: list[str] = []
        self.names: list[tuple[str, int, str]] = []

    def is_silent(self) -> bool:
        """Whether the functions are refused without a goal or a name."""
        return not (self.is_proved or self.goals or self.names)

    def of_cycle(self, mutant: Mutant) -> Refusal:
        """The same of a mutant in a cycle of calls, whose functions share a proof and its files: what is said of goals that bear
        the names of its own functions. Where those files name what another mutant took away, nothing is told of this one."""
        # (a goal has a function's name from below the modules that all of the cycle share)
        fronts = tuple(place.name.split("::", count)[-1] + "-" for place in mutant.places for count in range(1, place.name.count("::") + 1))
        own = Refusal()
        own.is_proved = self.is_proved
        if any(not goal.removeprefix("name:").startswith(fronts) for _, _, goal in self.names):
            return own
        own.goals = [goal for goal in self.goals if goal.startswith(fronts)]
        own.false = [goal for goal in self.false if goal.startswith(fronts)]
        own.names = self.names
        return own


class Said:
    """The lines of one check."""

    def __init__(self, text: str) -> None:
        self.status: dict[str, str] = dict(STATUS.findall(text))
        self.errors: list[tuple[str, int, str, str]] = []
        self.false: list[tuple[str, int, str]] = []
        self.open: list[tuple[str, int, str]] = []
        for line in text.split("\n"):
            self.read_error(line)
            self.read_open(line)

    def read_error(self, line: str) -> None:
        """An error at a place of a file: the goal that it names, or the names that a `use` line asks for in vain."""
        found = AT.match(line)
        if not found or not (found[5] == "error" or found[6].startswith("error")):
            return
        gone = GONE.match(found[6])
        if gone:
            more = re.findall(r"`([^`]*)`", gone[2].partition("not found:")[2])
            goals = ["name:" + name for name in [gone[1], *more]]
        else:
            goal = re.match(r"(?:error: )?`([^`]*)`: ", found[6])
            goals = [goal[1] if goal else ""]
        self.errors += [(found[2], int(found[3]), goal, found[6]) for goal in goals]

    def read_open(self, line: str) -> None:
        """A goal that the search left open; of some the check found values at which they are false."""
        found = LEFT_OPEN.match(line)
        if found:
            self.open.append((found[1], int(found[2]), found[3]))
            if AT_VALUES in found[4]:
                self.false.append(self.open[-1])

    def of(self, mutant: Mutant) -> Refusal:
        told = Refusal()
        mine: list[str] = []
        for name, status in self.status.items():
            if mutant.is_outside or any(self.belongs(name, place) for place in mutant.places):
                mine.append(status)
                found = NOT_SEARCHED.search(status)
                told.goals += re.findall(r"`([^`]*)`", found[1]) if found else []
        told.is_proved = bool(mine) and all(status == "proved" for status in mine)
        for path, line, goal, text in self.errors:
            if self.is_of(mutant, path):
                told.is_proved = False
                sort_error(told, path, line, goal, text)
        told.goals = sorted({*told.goals, *within(mutant, self.open)})
        told.false = sorted(within(mutant, self.false))
        return told if mutant.is_outside or not any(place.cycle for place in mutant.places) else told.of_cycle(mutant)

    @staticmethod
    def is_of(mutant: Mutant, path: str) -> bool:
        """Whether an error of this file is one of the mutant's."""
        if mutant.is_outside and path.startswith("proofs/"):
            return True
        return any(path.startswith(folder) for place in mutant.places for folder in place.folders)

    def belongs(self, name: str, place: Place) -> bool:
        """Whether a function of the check is that of a place, a part of it, or refused for it in its cycle."""
        if place.cycle is None:
            return name == place.name or name.startswith((place.name + "::{", place.name + "+"))
        inside = re.search(r"in `([^`]*)`, of this cycle", self.status[name])
        return name == place.name or name.startswith(place.name + "::") or bool(inside and inside[1] == place.name)


def sort_error(told: Refusal, path: str, line: int, goal: str, text: str) -> None:
    """Puts an error where it belongs: a name that is not there, or a goal that is refused."""
    if NAMES.search(re.sub(r"expected type.*", "", text)):
        told.names.append((path, line, goal))
    elif not re.search(r"declarations? that depends? on .* (?:was|were) not checked", text):
        told.goals.append(goal or f"{path}:{line}")


def within(mutant: Mutant, found: list[tuple[str, int, str]]) -> set[str]:
    """The goals of these places that stand in the mutant's functions."""
    return {
        goal
        for path, line, goal in found
        if mutant.is_outside or any(path == place.path and place.first <= line <= place.last for place in mutant.places)
    }
