"""What has to be believed for a claim: the definitions that it rests on, found by following names.

Names are followed by text, not by the checker: a variable that has a definition's name counts as that definition, and definitions that need
each other count together, so that the list may hold more than it has to, but no less. Lines of comments and empty lines are not counted.
Std's definitions and the types of the code are not followed.
"""
from __future__ import annotations

import os
import re
import sys

from lib.antt import Block, Definitions, Imports
from lib.paths import CRATES, TOP, read

PAGE = "docs/proof/DEFINITIONS.md"
TRUST = "docs/proof/TRUST.md"
README = "README.md"
ROW = re.compile(r"^\| (.*?) \| `(\w+/[\w/.]+:[\w-]+)` \| ([\d,]+) \| ([\d,]+) \|$", re.M)
SAID = re.compile(r"([\d,]+) definitions in ([\d,]+) lines")


class Closure:
    """The definitions that claims rest on, by file."""

    def __init__(self, crates: str) -> None:
        self.crates, self.known = crates, Definitions(crates)
        self.files: dict[str, list[Block]] = {}

    def claim(self, claim: str) -> Closure:
        """Takes in what a definition, or the clauses of a function, cite."""
        path, _, name = claim.partition(":")
        path += "" if path.endswith((".antt", ".rt")) else ".antt"
        if not os.path.exists(f"{self.crates}/{path}"):
            sys.exit(f"pages: there is no {path}")
        if path.endswith(".rt"):
            return self.take(self.in_clauses(path, name))
        file = self.known.file("Rattle." + path.removesuffix(".antt").replace("/", "."))
        block = file.find(name) if file else None
        if block is None:
            sys.exit(f"pages: {path} has no {name}")
        return self.take({block})

    def in_clauses(self, path: str, name: str) -> set[Block]:
        """What the clauses of a function of a source cite."""
        text = read(f"{self.crates}/{path}")
        at = re.search(rf'^ *(?:pub(?:\(crate\))? )?(?:extern "C" )?fn {re.escape(name)}\b.*?^ *\{{', text, re.M | re.S)
        if at is None:
            sys.exit(f"pages: {path} has no function {name}")
        clauses = " ".join(re.findall(r"^ *(?:requires|ensures)\b(.*)", at[0], re.M))
        return self.known.cited(Imports(text.split("\n")), None, clauses)[0]

    def take(self, blocks: set[Block]) -> Closure:
        todo = [*blocks]
        while todo:
            block = todo.pop()
            if block not in self.files.setdefault(block.path, []):
                self.files[block.path].append(block)
                file = self.known.files[block.path]
                todo += self.known.cited(file.imports, file, "\n".join(line for part in block.parts() for line in part.lines))[0]
        return self

    def of(self, path: str) -> dict[str, int]:
        """The definitions that are taken in of a file, each with its lines."""
        return {part.name: len(part.lines) for block in self.files[path] for part in block.parts()}

    def counts(self) -> tuple[int, int]:
        return sum(len(self.of(path)) for path in self.files), sum(sum(self.of(path).values()) for path in self.files)


def put(at: re.Match[str]) -> str:
    """A row of the table with the numbers that are found."""
    definitions, lines = Closure(CRATES).claim(at[2]).counts()
    return f"| {at[1]} | `{at[2]}` | {definitions:,} | {lines:,} |"


def page(name: str) -> str:
    """A page with numbers of definitions, as it should be: that of the table of claims, or one with the number of the first claim."""
    texts = {name: read(f"{TOP}/{name}") for name in (PAGE, TRUST, README)}
    made = ROW.sub(put, texts[PAGE])
    first = ROW.search(made)
    if first is None or not SAID.search(texts[TRUST]):
        sys.exit(f"pages: {PAGE} has no table of claims, or {TRUST} gives no number of definitions")
    return made if name == PAGE else SAID.sub(f"{first[3]} definitions in {first[4]} lines", texts[name], count=1)


def tell(claims: list[str], lists: bool) -> None:
    found = Closure(CRATES)
    for claim in claims:
        found.claim(claim)
    for path in sorted(found.files):
        print(f"{path:56} {len(found.of(path)):4} definitions {sum(found.of(path).values()):5} lines")
        if lists:
            print("    " + " ".join(sorted(found.of(path))))
    definitions, lines = found.counts()
    print(f"{len(found.files)} files, {definitions} definitions, {lines} lines")
