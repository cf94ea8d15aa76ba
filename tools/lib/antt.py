"""The one reader of `.antt` files: the definitions of specs/, what each names, and what a name in them stands for.

What is read is the layout that `rt fmt` gives. Nothing is checked: that is for the checker."""
from __future__ import annotations

import os
import re

STARTS = re.compile(r"(?:abbrev |unfoldable )?(?:pub )?(?:(data|record) )?(\S+) .*:")
KEYED = re.compile(r"(abbrev|unfoldable|pub|data|record)\b")
SIGNATURE = re.compile(r"((?:[^\s:(){}]+ )+):(?= |$)")
WORDS = re.compile(r"[^\s(){};,]+")
IMPORT = re.compile(r"(?:pub )?(?:ghost )?use (Rattle\.[\w.+]+?)(?:\.\{(.*)\}| as (\S+?)|);?$")


class Block:
    """A definition, or several that need each other: its comment, its lines, the names that it brings, the modules round it."""

    def __init__(self, path: str, place: int, indent: int, comment: list[str], around: list[tuple[str, tuple[str, ...]]]) -> None:
        self.path, self.place, self.indent, self.comment, self.around = path, place, indent, comment, around
        self.lines: list[str] = []
        self.names: list[str] = []

    def text(self) -> str:
        return "\n".join(self.lines)

    def parts(self) -> list[Part]:
        """Each definition of the block: its name, its lines without comments, and the cases that it has, if it is a `data`."""
        parts: list[Part] = []
        for line in self.lines:
            text, indent = line.strip(), len(line) - len(line.lstrip())
            found = STARTS.match(text) if KEYED.match(text) else None
            inside = parts and indent > parts[-1].indent
            if found and not inside:
                parts.append(Part(found[2], indent, bool(found[1])))
            elif found is None and inside and parts[-1].has_cases and not text.startswith("pub "):
                signed = SIGNATURE.match(text)
                parts[-1].cases += signed[1].split() if signed else []
            if parts and text and not text.startswith("--") and text.split()[-1] != "mutual":
                parts[-1].lines.append(line)
        return parts


class Part:
    """A definition of a block. `has_cases`: it is a `data` or a `record`."""

    def __init__(self, name: str, indent: int, has_cases: bool) -> None:
        self.name, self.indent, self.has_cases = name, indent, has_cases
        self.lines: list[str] = []
        self.cases: list[str] = []


class Imports:
    """What the names of a file stand for: the module and the name there, or the module alone for one that is named by `as`."""

    def __init__(self, lines: list[str]) -> None:
        self.names: dict[str, tuple[str, str]] = {}
        self.modules: dict[str, str] = {}
        for line in lines:
            found = IMPORT.match(line.strip())
            if not found:
                continue
            module, listed, other = found.groups()
            for name in re.split(r",\s*", listed or ""):
                name, _, given = name.strip().partition(" as ")
                self.names[given or name] = (module, name)
            if listed is None:
                self.modules[other or module.rsplit(".", 1)[1]] = module

    def find(self, word: str) -> tuple[str, str] | None:
        """(module, name) of a word as it stands in a text, or None."""
        word = word.strip(".")
        if word in self.names:
            return self.names[word]
        head, dot, rest = word.partition(".")
        if dot and head in self.modules:
            return self.modules[head], rest
        if dot and head in self.names:
            return self.names[head]
        return self.names.get(f"◌{word}◌")


class File:
    """A file of definitions."""

    def __init__(self, path: str, lines: list[str]) -> None:
        self.path = path
        self.blocks: list[Block] = []
        self.fixities: list[str] = []
        self.imports = Imports(lines)
        self.by_name: dict[str, Block] = {}
        self.read(lines)
        for block in self.blocks:
            for name in block.names:
                self.by_name.setdefault(name, block)

    def read(self, lines: list[str]) -> None:
        comment: list[str] = []
        around: list[tuple[int, str, tuple[str, ...]]] = []
        block: Block | None = None
        gap = False
        for place, line in enumerate(lines):
            text, indent = line.strip(), len(line) - len(line.lstrip())
            if block and text and indent > block.indent:
                block.lines.append(line)
                continue
            if not text:
                comment, gap = [], True
                continue
            block, gap = (None, False) if gap else (block, False)
            while around and indent <= around[-1][0]:
                around.pop()
            if text.startswith("--"):
                block = None
                comment = [] if text.startswith("-- ----") else [*comment, line]
            elif IMPORT.match(text):
                comment = []
            elif text.startswith("infix"):
                self.fixities.append(line)
                comment = []
            elif text.startswith("module "):
                around.append((indent, line, tuple(comment)))
                comment = []
            elif KEYED.match(text) or text.split()[-1] == "mutual":
                block = Block(self.path, place, indent, comment, [(it[1], it[2]) for it in around])
                block.lines.append(line)
                self.blocks.append(block)
                comment = []
            elif block:
                block.lines.append(line)
            else:
                raise SystemExit(f"pages: {self.path}:{place + 1}: no definition begins so: {text}")
        for block in self.blocks:
            block.names = [name for part in block.parts() for name in (part.name, *part.cases)]

    def find(self, word: str) -> Block | None:
        """The block of this file that brings the word."""
        word = word.strip(".")
        return self.by_name.get(word) or self.by_name.get(f"◌{word}◌")


Cited = tuple["set[Block]", "set[str]", "set[tuple[str, str]]"]  # blocks, types that the code declares, words of the library


class Definitions:
    """All files of specs/ in the crates of a tree."""

    def __init__(self, crates: str) -> None:
        self.crates = crates
        self.files: dict[str, File] = {}

    def file(self, module: str) -> File | None:
        """The file of a module of the tree, or None where it is no specs/ file of the tree's own."""
        parts = module.split(".")
        if len(parts) < 4 or parts[2] != "specs" or parts[3] == "declared":
            return None
        path = f"{parts[1]}/specs/{'/'.join(parts[3:])}.antt"
        if path not in self.files and os.path.isfile(f"{self.crates}/{path}"):
            with open(f"{self.crates}/{path}", encoding="utf-8") as file:
                self.files[path] = File(path, file.read().split("\n"))
        return self.files.get(path)

    def cited(self, imports: Imports, file: File | None, text: str) -> Cited:
        """What a text cites: (blocks, types that the code declares, words of the library), a set each."""
        blocks: set[Block] = set()
        types: set[str] = set()
        words: set[tuple[str, str]] = set()
        bound = {name for many in re.findall(r"λ ([^.]*)\.", text) for name in many.split()}
        for word in set(WORDS.findall(text)):
            own = file and file.find(word)
            if own:
                blocks.add(own)
                continue
            found = imports.find(word)
            if not found or word in bound:
                continue
            module, name = found
            there = self.file(module)
            if there:
                block = there.find(name)
                if not block:
                    raise SystemExit(f"pages: {module} has no definition of {name}")
                blocks.add(block)
            elif ".specs.declared." in module and not module.startswith("Rattle.std."):
                types.add(module.split(".TheVariants")[0])
            else:
                words.add((module, name))
        return blocks, types, words
