"""A statement as a page: a contract, and each definition that it rests on, once, before its use, by the standard's chapters.

Of the code only what a contract shows is here: the head of a function with its clauses, and types as they are declared.
"""
import glob
import itertools
import os
import re
from collections.abc import Iterator, Sequence
from typing import Union

from lib.antt import Block, Definitions, Imports
from lib.paths import read


class Contract:
    """The docstring, the head and the clauses of a public function."""

    def __init__(self, crates: str, call: str) -> None:
        found: list[tuple[str, list[str], int]] = []
        for path in sorted(glob.glob(f"{crates}/*/src/**/*.rt", recursive=True)):
            lines = read(path).split("\n")
            found += [(path, lines, at) for at, line in enumerate(lines) if re.match(rf"pub fn {re.escape(call)}\b", line)]
        if len(found) != 1:
            raise SystemExit(f"pages: {len(found)} public functions have the name {call}")
        path, lines, at = found[0]
        self.path, first, last = os.path.relpath(path, crates), at, at
        while re.match(r"///|#\[", lines[first - 1]):
            first -= 1
        while lines[last].strip() != "{" and not lines[last].endswith("{}"):
            last += 1
        self.lines = [line for line in lines[first:last] if not line.startswith("#[")]
        self.clauses = "\n".join(line for line in lines[at + 1 : last])
        self.imports = Imports(lines)
        self.uses = re.findall(r"^use ((?:yaml|law)_\w+|crate)::([\w:]+)::\{?([\w, ]+)\}?;", "\n".join(lines), re.M)
        self.crate = self.path.split("/")[0]

    def types(self, text: str) -> Iterator[str]:
        """The types of the tree's own crates that a text names."""
        for crate, below, names in self.uses:
            crate = self.crate if crate == "crate" else crate
            for name in re.split(r", *", names):
                if name[0].isupper() and re.search(rf"\b{name}\b", text):
                    yield f"Rattle.{crate}.specs.declared.{below.replace('::', '.')}.{name}"


class Declared:
    """An enum or a struct of the code, without its comments and derives."""

    def __init__(self, crates: str, module: str) -> None:
        parts = module.split(".")
        below, name = parts[4:-1], parts[-1]
        self.module, self.name, self.path = module, name, f"{parts[1]}/src/{'/'.join(below)}.rt"
        text = read(f"{crates}/{self.path}")
        found = re.search(
            rf"((?:^///[^\n]*\n)*)((?:^#\[[^\n]*\n)*)^(pub (?:enum|struct) {name}\b(?:[^\n{{]*;$|.*?^}}$))", text, re.M | re.S
        )
        if not found:
            raise SystemExit(f"pages: {self.path} declares no {name}")
        self.comment = [line.replace("///", "--", 1) for line in found[1].splitlines()]
        self.lines = [line for line in found[3].split("\n") if not re.match(r"\s*(///|#\[)", line)]
        self.imports = Imports(text.split("\n"))
        uses = re.findall(r"^(?:pub )?use (crate|(?:yaml|law)_\w+)::([\w:]+)::\{?([^}\n]*)\}?;", text, re.M)
        self.others: dict[str, str] = {}
        for crate, path, names in uses:
            for it in (it for it in re.split(r",\s*", names) if it[:1].isupper()):
                crate = parts[1] if crate == "crate" else crate
                self.others[it] = f"Rattle.{crate}.specs.declared.{path.replace('::', '.')}.{it}"
        for it in re.findall(r"^pub (?:enum|struct) (\w+)", text, re.M):
            self.others.setdefault(it, ".".join([*parts[:-1], it]))

    def types(self) -> set[str]:
        """The types of the tree's own crates that it is made of."""
        text = "\n".join(self.lines)
        return {module for name, module in self.others.items() if name != self.name and re.search(rf"\b{name}\b", text)}


WIDTH = 128  # up to which a comment stands behind the line that it is of
Piece = Union[Block, Declared]  # a definition, or a type of the code
OWN = "What the calls promise (the project's own definitions, and the types of its code)"


class Chapters:
    """Which file belongs to which chapter, in the order in which a statement goes through them (tools/data/chapters)."""

    def __init__(self, path: str) -> None:
        self.titles: list[str] = []
        self.of: dict[str, int] = {}
        for line in read(path).split("\n"):
            if line.startswith("    "):
                self.of[line.strip()] = len(self.titles) - 1
            elif line and not line.startswith("#"):
                self.titles.append(line)
        self.titles.append(OWN)

    def number(self, path: str) -> int:
        if path in self.of:
            return self.of[path]
        if path.startswith("yaml_definitions/"):
            raise SystemExit(f"pages: tools/data/chapters has no place for {path}")
        return len(self.titles) - 1


class Statement:
    """A contract with all that it rests on."""

    def __init__(self, crates: str, call: str, chapters: Chapters) -> None:
        self.crates, self.chapters = crates, chapters
        self.contract = Contract(crates, call)
        self.definitions = Definitions(crates)
        self.types: dict[str, Declared] = {}
        self.below: dict[Piece, list[Piece]] = {}
        self.words: set[tuple[str, str]] = set()
        text = "\n".join(self.contract.lines)
        found = self.definitions.cited(self.contract.imports, None, self.contract.clauses)
        types = found[1] | {it for it in self.contract.types(text)}
        self.roots = self.follow(found[0], types, found[2])
        self.place()

    def follow(self, blocks: set[Block], types: set[str], words: set[tuple[str, str]]) -> list[Piece]:
        """The blocks and types cited, once all below them are known."""
        self.words |= words
        return [self.below_block(it) for it in blocks] + [self.below_type(it) for it in types]

    def below_block(self, block: Block) -> Block:
        if block not in self.below:
            self.below[block] = []
            file = self.definitions.files[block.path]
            text = "\n".join([block.text(), *(head for head, _ in block.around)])
            blocks, types, words = self.definitions.cited(file.imports, file, text)
            self.below[block] = [it for it in self.follow(blocks - {block}, types, words) if it is not block]
        return block

    def below_type(self, module: str) -> Declared:
        if module not in self.types:
            declared = self.types[module] = Declared(self.crates, module)
            ghosts = "\n".join(re.findall(r"ghost \w+: \{(.*?)\}", "\n".join(declared.lines)))
            blocks, types, words = self.definitions.cited(declared.imports, None, ghosts)
            self.below[declared] = self.follow(blocks, types | declared.types(), words)
        return self.types[module]

    def place(self) -> None:
        """Gives each its chapter: its own, or that of the first that needs it."""
        self.chapter = {it: self.chapters.number(it.path) for it in self.below}
        moved = True
        while moved:
            moved = False
            for it, below in self.below.items():
                for other in below:
                    if self.chapter[other] > self.chapter[it]:
                        self.chapter[other], moved = self.chapter[it], True

    def order(self) -> list[tuple[int, list[tuple[str, list[Piece]]]]]:
        """All blocks and types, by chapter and then file, each behind what it needs: [(chapter, [(path, [..])])]."""
        return [(number, self.files_of(number)) for number in range(len(self.chapters.titles)) if number in self.chapter.values()]

    def files_of(self, number: int) -> list[tuple[str, list[Piece]]]:
        here = [it for it in self.below if self.chapter[it] == number]
        needs: dict[str, set[str]] = {it.path: set() for it in here}
        for it in here:
            needs[it.path] |= {other.path for other in self.below[it] if self.chapter[other] == number and other.path != it.path}
        paths: list[str] = []
        done: set[str] = set()

        def visit(path: str) -> None:
            if path not in done:
                done.add(path)
                for other in sorted(needs[path]):
                    visit(other)
                paths.append(path)

        for path in sorted(needs):
            visit(path)
        return [(path, self.sorted_in([it for it in here if it.path == path])) for path in paths]

    def sorted_in(self, parts: list[Piece]) -> list[Piece]:
        """Those of one file: definitions as they stand there; types each behind those that it is made of."""
        blocks = sorted((it for it in parts if isinstance(it, Block)), key=lambda it: it.place)
        types, todo = [], sorted((it for it in parts if not isinstance(it, Block)), key=lambda it: it.name)
        while todo:
            first = next((it for it in todo if not any(other in todo for other in self.below[it])), todo[0])
            todo.remove(first)
            types.append(first)
        return types + blocks


def printed(parts: list[Piece]) -> list[str]:
    """The lines of what stands in one file."""
    lines: list[str] = []
    inside: list[str] = []
    for it in parts:
        if not isinstance(it, Block):
            lines += it.comment + it.lines
            continue
        for depth, (head, comment) in enumerate(it.around):
            if inside[depth : depth + 1] != [head]:
                lines += commented(comment, [head])
                inside = [head for head, _ in it.around[: depth + 1]]
        inside = inside[: len(it.around)]
        lines += commented(it.comment, it.lines)
    return lines


def commented(comment: Sequence[str], lines: list[str]) -> list[str]:
    """Lines with their comment: behind the first where it is short, else before it."""
    if len(comment) == 1 and len(lines[0]) + len(comment[0].strip()) < WIDTH:
        return [f"{lines[0]}  {comment[0].strip()}", *lines[1:]]
    return [*comment, *lines]


def fixities(statement: Statement, path: str, parts: list[Piece]) -> list[str]:
    """How strongly the signs bind that are printed here."""
    names = {name for it in parts if isinstance(it, Block) for name in it.names}
    file = statement.definitions.files.get(path)
    kept = []
    for line in file.fixities if file else []:
        head, *signs = re.split(r" (?=◌)", line)
        signs = [it for it in signs if it in names]
        if signs:
            kept.append(" ".join([head, *signs]))
    return kept


INTRODUCTION = """\
`tools/pages` writes this page: the contract of `{call}`, and each definition that it rests on, once, before its use.
If you have read it, you have read the whole promise. `tools/check-headline` checks the proof that the promise is kept.
Names between ◌ are operators: `R ◆ S` uses `◌◆◌`. A `Type 0` is a statement; `⊎` is or, `×` is and, `⊥` is false.
A clause holds of each call that returns. The signs are explained in [PROVED.md](PROVED.md#the-notation).
"""


def untied(path: str) -> set[str]:
    """The definitions that no theorem constrains, and the files of which that is said whole, as docs/proof/DEFINITIONS.md lists them."""
    found = re.search(r"^##+ Definitions that no theorem constrains\n(.*?)^##+ ", read(path), re.M | re.S)
    rows = [line.split("|")[1] for line in found[1].split("\n") if line.startswith("| ")] if found else []
    return {name for row in rows for name in re.findall(r"`([^`]+)`", row)}


def page_of(statement: Statement, definitions: str) -> str:
    call = re.findall(r"pub fn (\w+)", "\n".join(statement.contract.lines))[0]
    parts: list[str] = []
    defined: list[Block] = []
    total = comments = 0
    for number, files in statement.order():
        lines: list[str] = []
        for path, within in files:
            lines += [f"-- {path}", *fixities(statement, path, within), *printed(within)]
            defined += [it for it in within if isinstance(it, Block)]
        comments += sum(line.strip().startswith("--") for line in lines)
        total += len(lines)
        parts += [f"## {statement.chapters.titles[number]}", "```", *lines, "```"]
    contract = [line for line in statement.contract.lines if not line.startswith("///")]
    said = [line.removeprefix("///").strip() for line in statement.contract.lines if line.startswith("///")]
    names = untied(definitions)
    loose = [it for it in defined if names & {os.path.basename(it.path).removesuffix(".antt"), *it.names}]
    types = f"{len(statement.types)} type{'s' if len(statement.types) > 1 else ''} of the code"
    head = [
        f"# What `{call}` promises",
        *INTRODUCTION.format(call=call).splitlines(),
        "",
        f"{count_of(defined)} definitions and {types} in {total + len(contract)} lines, {comments} of them comments: those of all clauses."
        f" No theorem constrains {count_of(loose)} of the definitions: [DEFINITIONS.md](DEFINITIONS.md#definitions-that-no-theorem-constrains)"
        " says which tests do.",
        "## The contract",
        *said,
        "```",
        f"-- {statement.contract.path}",
        *contract,
        "```",
    ]
    return "\n".join([*head, *parts, *words_of(statement)]) + "\n"


def count_of(blocks: list[Block]) -> int:
    """How many definitions are in blocks: those that need each other are counted one by one."""
    head = re.compile(r"^\s*(?:abbrev |unfoldable )?(?:pub )?(?:data |record )?\S+ [^\n]*:(?: |$)", re.M)
    return sum(max(1, len(head.findall(it.text()))) if "mutual" in it.lines[0] else 1 for it in blocks)


def words_of(statement: Statement) -> list[str]:
    # a type of the library and its variants are together
    words = sorted((module.removeprefix("Rattle.").removesuffix(".TheVariants"), name) for module, name in statement.words)
    said = "Lists, numbers, options and characters are defined in the library of the Rattle kit; `rt lemma WORD` prints what each name is."
    lines = ["## Names from the kit's library", said]
    for module, of_module in itertools.groupby(dict.fromkeys(words), key=lambda it: it[0]):
        lines.append(f"- `{module}`: {' '.join(f'`{name}`' for _, name in of_module)}")
    return lines


def first_difference(stored: str, made: str) -> str:
    """The file under whose name two pages differ first, or nothing."""
    path = "the head of the page"
    lines, others = stored.split("\n"), made.split("\n")
    for line, other in zip(lines, others):
        named = re.match(r"-- (\S+\.(?:antt|rt))$", other)
        path = named[1] if named else path
        if line != other:
            return path
    return path if len(lines) != len(others) else ""
