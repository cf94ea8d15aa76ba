"""The cases of yaml-test-suite, each sorted by what the program does with it, and tools/data/suite.cases, which says where each belongs."""
import functools
import os
import pathlib
import re
import tarfile
from typing import Any

from lib.paths import DATA, read
from lib.trial import run, side_by_side

CASE = re.compile(r"(?:^|/)([A-Z0-9]{4}(?:/[0-9]{2,3})?)/(in\.yaml|test\.event|error)$")
REFUSAL = re.compile(r"yaml: (\d+) (\w+)(?: at byte (\d+))?\n")

# What the profile leaves out (docs/using/YAML.md): the refusal, what stands before its byte, and what at it.
PROFILE = {
    "question_key": ("Syntax", rb"(?:^|[ \n])\Z", rb"\?[ \n]"),  # `?` at the start of a block entry (8.2.2)
    "empty_key": ("Syntax", rb"(?:^|[ \n])\Z", rb":(?:[ \n]|\Z)"),  # a block entry without a key (8.2.2)
    "tab": ("Tab", rb"", rb"\t"),  # a tab as separation or indentation (6.1, 6.2)
    "version": ("BadDirective", rb"(?:^|\n)\Z", rb"%YAML +1\.[013-9]"),  # a version other than 1.2 (6.8.1)
    "root_digit": ("Syntax", rb"--- [|>]\Z", rb"[1-9]"),  # an indentation indicator at a root (8.1.1.1)
}
# Rules by which events differ: what the text ends in, and that it is all that differs (docs/using/YAML.md).
RULES = {"unended_line": rb"\n +\Z"}  # a block scalar's last line of spaces that no break ends gives no break


def cases_of(place: str) -> Any:
    """{name: {file: bytes}} of a folder or an archive."""
    found: dict[str, dict[str, bytes]] = {}

    def take(path: str, content: Any) -> None:
        case = CASE.search(path)
        if case and content:
            found.setdefault(case[1], {})[case[2]] = content.read()

    if os.path.isdir(place):
        for path in filter(CASE.search, map(str, pathlib.Path(place).rglob("*"))):
            with open(path, "rb") as file:
                take(path, file)
    else:
        with tarfile.open(place) as archive:
            for member in archive:
                take(member.name, archive.extractfile(member) if member.isfile() else None)
    return found


def expected_cases() -> dict[str, str]:
    lines = (line.partition(": ") for line in read(f"{DATA}/suite.cases").split("\n") if not line.startswith("#"))
    return {name: kind for kind, _, names in lines for name in names.split()}


def out_of_profile(text: bytes, refusal: Any) -> Any:
    """The name of what the profile leaves out and the refusal is of, or None."""
    _, fault, at = refusal.groups()
    if at is None:
        return None
    before, behind = text[: int(at)], text[int(at) :]
    for name, (wanted, ahead, here) in PROFILE.items():
        if fault == wanted and re.search(ahead, before) and re.match(here, behind):
            return name
    return None


def own_rule(text: bytes, wanted: bytes, got: Any) -> Any:
    """The name of the rule by which the events differ, or None."""
    for name, ends in RULES.items():
        lines = [(line, other) for line, other in zip(wanted.split(b"\n"), got.split(b"\n")) if line != other]
        if re.search(ends, text) and len(lines) == 1 and wanted.count(b"\n") == got.count(b"\n") and lines[0][0] == lines[0][1] + rb"\n":
            return name
    return None


def sorted_case(program: str, files: dict[str, bytes]) -> tuple[str, str]:
    """(where a case belongs by what the program does, what it did)."""
    done, invalid = run([program, "events"], files["in.yaml"]), "error" in files
    if done.status == 0:
        if invalid:
            return "?", "read, though the suite has it as an error"
        if done.out == files["test.event"] and not done.err:
            return "read", ""
        return own_rule(files["in.yaml"], files["test.event"], done.out) or "?", "read to other events"
    said = done.err.decode(errors="replace")
    refusal = REFUSAL.fullmatch(said)
    if done.status != 2 or done.out or not refusal or not 1 <= int(refusal[1]) <= 11:
        return "?", f"status {done.status}: {said.strip()}"
    return "refused" if invalid else out_of_profile(files["in.yaml"], refusal) or "?", said.strip()


def check(program: str, place: str) -> int:
    """Sorts each case of a folder or an archive, and prints those that are not where they belong, and the counts; the status."""
    found, expected = cases_of(place), expected_cases()
    sorts = dict(zip(found, side_by_side(functools.partial(sorted_case, program), found.values())))
    wrong = [f"{name}: not in tools/data/suite.cases" for name in sorted(found) if name not in expected]
    wrong += [f"{name}: not in {place}" for name in sorted(expected) if name not in found]
    for name, (kind, said) in sorted(sorts.items()):
        if kind != expected.get(name, kind) or kind == "?":
            wrong.append(f"{name}: {expected.get(name)} is expected, and it is {kind}: {said}")
    for line in wrong:
        print(f"suite: {line}")
    kinds = [kind for kind, _ in sorts.values()]
    read_and_refused = f"{kinds.count('read')} read with the suite's events, {kinds.count('refused')} refused as the suite does"
    profile, rules = sum(kind in PROFILE for kind in kinds), sum(kind in RULES for kind in kinds)
    print(f"{len(found)} cases: {read_and_refused}, {profile} out of profile, {rules} by a rule of our own")
    print("of these out of profile: " + ", ".join(f"{kinds.count(name)} {name}" for name in PROFILE))
    return 1 if wrong or not found else 0
