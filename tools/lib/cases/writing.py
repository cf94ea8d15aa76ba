"""Writes what the programs print into cases whose output is given whole. Other cases are not changed."""
import difflib
import re
import sys

from lib.cases.running import each, faults_of, ran
from lib.cases.table import FOLDER, cases_of, paths, spelled, table_of
from lib.paths import read, write

KEY = re.compile(r"([\w.\"-]+) = ")
OPEN = re.compile(r" = ('''|\"\"\")")
ANSWER = ("status", "output", "error")


def entries(lines):
    """(key or heading, first line, line behind the last) of each entry of a file: a text between three quotes is one entry."""
    at, found = 0, []
    while at < len(lines):
        first, opened = at, OPEN.search(lines[at])
        key = KEY.match(lines[at])
        at += 1
        if opened and not lines[first].endswith(opened[1] + opened[1]):
            while not lines[at].endswith(opened[1]):
                at += 1
            at += 1
        if key or lines[first].startswith("["):
            found.append((key[1] if key else lines[first], first, at))
    return found


def block_at(lines, number):
    """The entries of the case of this number."""
    found = entries(lines)
    starts = [at for at, entry in enumerate(found) if entry[0] == "[[case]]"]
    ends = [at for at, entry in enumerate(found) if entry[0].startswith("[") and at > starts[number]]
    return found[starts[number] : ends[0] if ends else len(found)]


def answered(common, given):
    """The lines of what a run answered and wrote; what is so of each case is left out."""
    if given.returncode != common.get("status", 0):
        yield f"status = {given.returncode}"
    for name, data in (("output", given.stdout), ("error", given.stderr)):
        if data:
            yield f"{name} = {spelled(data)}"


def renewed(text, number, common, given):
    """The text of a file, with what a run answered and wrote in the case of this number."""
    lines = text.split("\n")
    block = block_at(lines, number)
    old = [entry for entry in block if entry[0] in ANSWER]
    last = max(entry[2] for entry in block)
    lines[last:last] = "\n".join(answered(common, given)).split("\n")
    for _, first, end in reversed(old):
        del lines[first:end]
    return "\n".join(lines)


def write_file(path):
    """Writes one file anew, and prints what is changed in it."""
    before = text = read(path)
    common = table_of(path).get("all", {})
    cases = [case for case in cases_of(path) if case.kind == "case" and case.runs[0].judge is None]
    for case, given in zip(cases, each(lambda case: ran(case.runs[0]), cases)):
        if faults_of(case.runs[0], given):
            text = renewed(text, case.number, common, given)
    if text != before:
        write(path, text)
        sys.stdout.writelines(difflib.unified_diff(before.splitlines(True), text.splitlines(True), path, path, n=2))
    return text != before


def renew(folder=FOLDER):
    """Writes what the programs print into the cases of `[[case]]`; whether anything is changed."""
    return any([write_file(path) for path in paths(folder)])
