"""The pages that say what the crates have, of their sources: the public functions of the libraries with their contracts, and the tables of
the page of crates.

The page of contracts begins with the main calls and theorems (MAIN, below); then come the others, crate by crate in the order of crates.txt.
Each has the first sentence of its comment, its head and its clauses. Functions without a clause are listed at the end. Programs and crates
of tests are left out.
"""
import glob
import itertools
import os
import re
from collections.abc import Iterator
from typing import NamedTuple

from lib.crates import groups_of, lines_of
from lib.paths import CRATES, TOP, read

MODULE = re.compile(r"^(pub )?mod (\w+);", re.M)
REEXPORT = re.compile(r"^pub use ([\w:]+?)(?:::\{([^}]*)\})?;", re.M)
OWNER = re.compile(r"(pub trait|trait|impl)\b(?:<[^>]*>)? *([^{]*?)(?: where [^{]*)?\{$")
HEAD = re.compile(r"( *)(pub )?(?:extern \"C\" )?fn (\w+)")
CLAUSE = re.compile(r" *(requires|ensures)\b")
SENTENCE = re.compile(r"(.*?[.!?])(?= +[A-Z`(]|$)", re.S)


class Call(NamedTuple):
    """A public function: its crate and file, the line that opens its type or trait, its comment, its lines up to its body."""

    crate: str
    path: str
    opening: str | None
    name: str
    comment: list[str]
    lines: list[str]

    def owner(self) -> str:
        """The type or the trait that it belongs to, without parameters, or nothing."""
        found = OWNER.match(self.opening or "")
        return re.split(r"\W", found[2].split(" for ")[-1].strip())[0] if found else ""

    def title(self) -> str:
        return f"{self.owner()}::{self.name}" if self.opening else self.name

    def has_clauses(self) -> bool:
        return any(CLAUSE.match(line) for line in self.lines)

    def sentence(self) -> str:
        return first_sentence(" ".join(self.comment))


def first_sentence(text: str) -> str:
    found = SENTENCE.match(text)
    return found[1] if found else text


def module_files(path: str, folder: str, is_public: bool = True) -> Iterator[tuple[str, bool]]:
    """(the file, whether other crates see it) of a module and of those in its folder, in the order in which they are declared."""
    yield path, is_public
    for at in MODULE.finditer(read(path)):
        if os.path.isfile(f"{folder}/{at[2]}.rt"):
            yield from module_files(f"{folder}/{at[2]}.rt", f"{folder}/{at[2]}", is_public and bool(at[1]))


def comment_above(lines: list[str], at: int) -> list[str]:
    """The comment above a line, up to its first empty line."""
    first = at
    while first and re.match(r" *(///|#\[)", lines[first - 1]):
        first -= 1
    said = [line.strip()[3:].strip() for line in lines[first:at] if line.strip().startswith("///")]
    return said[: said.index("")] if "" in said else said


def head_of(lines: list[str], at: int) -> list[str]:
    """The lines of a function up to its body, or with the `;` of a trait's function that has none."""
    last = at
    while True:
        text = lines[last].rstrip()
        if text.strip() in ("{", "{}"):
            return lines[at:last]
        if text.endswith((" {", " {}")):
            return [*lines[at:last], text.rsplit(" {", 1)[0]]
        if text.endswith(";"):
            return [*lines[at:last], text]
        last += 1


def calls_in(crates: str, crate: str, path: str) -> Iterator[Call]:
    """The functions of a file that are public in it, with those of its public traits."""
    lines, opening, is_trait = read(path).split("\n"), None, False
    for at, line in enumerate(lines):
        if OWNER.match(line):
            opening, is_trait = line, line.startswith("pub trait")
        elif line == "}":
            opening, is_trait = None, False
        found = HEAD.match(line)
        if found and (found[2] or is_trait and found[1] == "    "):
            yield Call(crate, os.path.relpath(path, crates), opening, found[3], comment_above(lines, at), head_of(lines, at))


def calls_of(crates: str, crate: str) -> Iterator[Call]:
    """The public functions of a crate, in the order of its modules."""
    root, passed_on = f"{crates}/{crate}/src/lib.rt", set[str]()
    for at in REEXPORT.finditer(read(root)):
        passed_on |= set(re.split(r",\s*", at[2].strip(", \n"))) if at[2] else {at[1].rsplit("::", 1)[-1]}
    for path, is_public in module_files(root, os.path.dirname(root)):
        for call in calls_in(crates, crate, path):
            if is_public or {call.name, call.owner()} & passed_on:
                yield call


def summary_of(crates: str, crate: str) -> str:
    """What the crate's root file says of it in its first sentence."""
    path = next(path for name in ("lib", "main") if os.path.isfile(path := f"{crates}/{crate}/src/{name}.rt"))
    said = re.findall(r"\A((?://!.*\n)*)", read(path))[0]
    if not said:
        raise SystemExit(f"pages: {path} does not begin with a //! comment")
    return first_sentence(" ".join(line.removeprefix("//!").strip() for line in said.splitlines()))


def libraries_of(top: str) -> list[str]:
    """The crates of crates.txt in their order, but for programs and crates of tests."""
    names = [name for name, _ in lines_of(top)]
    is_test = re.compile(r"rows_|yaml_vectors$")
    return [name for name in names if not is_test.match(name) and not glob.glob(f"{top}/crates/{name}/src/main.rt")]


MAIN = {
    "Canonical text and comparison": "canonical canonical_into canonical_len run_canonical same",
    "Reading": "read_events count_events event_text event_text_into",
    "Event notation": "write_events read_event_text is_event_text",
    "Meaning": "plain_kind resolve compose join rank",
    "Theorems": "one_reading one_meaning spellings_are_read spellings_mean texts_tell canonical_is_bounded contents_have_forms "
    "resolved_have_forms",
    "The library for C": "yamlcanon_version yamlcanon_form yaml_c_canonical yaml_c_events yaml_c_show yaml_c_json yaml_c_same yaml_c_diff "
    "yaml_c_sha256 yaml_c_values yaml_c_message yaml_c_position",
    "The programs": "yaml_command::command_over differences diff diff_json show show_json sum",
}
INTRODUCTION = """\
# Contracts

`tools/pages` writes this page from the sources. It lists {count} public functions of {crates} crates; {clauses} of them have a contract.
For each it gives the first sentence of the comment, the head and the clauses, as they are in the source.

- `requires` is what a caller must ensure. `ensures` is what a call that returns has done. `result` is its result.
- [PROVED.md](PROVED.md#the-notation) explains the notation, and what the main calls promise in words.
- The names in a clause are definitions in the folder `specs` of the crates.
- `tools/pages --statement CALL` prints the contract of a public function with every definition below it; [STATEMENT.md](STATEMENT.md) is that of `canonical`.
- A function whose only content is its contract is a theorem: its body is empty, and the proof of the contract is the proof of the theorem.
"""


def link_to(call: Call) -> str:
    return f"[{call.path}](../../crates/{call.path})"


def main_calls(calls: list[Call]) -> list[tuple[str, list[Call]]]:
    """[(title, the calls)] of MAIN; ends where a name stands for no function, or for several."""
    groups = []
    for title, names in MAIN.items():
        group: list[Call] = []
        for name in names.split():
            found = [it for it in calls if not it.opening and name in (it.name, f"{it.crate}::{it.name}")]
            if len(found) != 1:
                raise SystemExit(
                    f"pages: {len(found)} public functions have the name {name}, which MAIN of lib/statement/contracts.py lists"
                )
            group += found
        groups.append((title, group))
    return groups


def shown_together(calls: list[Call]) -> list[str]:
    """The calls of one file in one block, each behind the first sentence of its comment, inside their types and traits."""
    lines: list[str] = []
    for opening, group in itertools.groupby(calls, key=lambda it: it.opening):
        dent = "    " if opening else ""
        lines += [opening] if opening else []
        for call in group:
            lines += [f"{dent}/// {call.sentence()}", *call.lines, ""]
        if opening:
            lines[-1:] = ["}", ""]
    return [link_to(calls[0]), "", "```", *lines[:-1], "```", ""]


def page() -> str:
    crates = libraries_of(TOP)
    calls = {crate: list(calls_of(f"{TOP}/crates", crate)) for crate in crates}
    everything = list(itertools.chain(*calls.values()))
    groups = main_calls(everything)
    shown = {id(it) for _, group in groups for it in group}
    rest = {crate: [it for it in calls[crate] if it.has_clauses() and id(it) not in shown] for crate in crates}
    lines = INTRODUCTION.format(
        count=len(everything), crates=sum(map(bool, calls.values())), clauses=sum(it.has_clauses() for it in everything)
    ).splitlines()
    for title, group in groups:
        lines += ["", f"## {title}"]
        for it in group:
            lines += ["", f"### `{it.name}`", "", f"{link_to(it)}. {it.sentence()}", "", "```", *it.lines, "```"]
    lines += ["", "## The other functions, by crate", "", ", ".join(f"[{it}](#{it})" for it in crates if rest[it]), ""]
    for crate in filter(rest.get, crates):
        lines += [f"### {crate}", "", summary_of(CRATES, crate), ""]
        for _, of_file in itertools.groupby(rest[crate], key=lambda it: it.path):
            lines += shown_together(list(of_file))
    lines += ["## Public functions without a contract", ""]
    lines += ["The check proves that these are safe and that they end, and nothing more.", ""]
    for crate, bare in itertools.groupby((it for it in everything if not it.has_clauses()), key=lambda it: it.crate):
        lines.append(f"- {crate}: {', '.join(f'`{it.title()}`' for it in bare)}")
    return "\n".join(lines) + "\n"


TABLE = re.compile(r"(?<=<!-- crates: tools/pages --write -->\n).*?(?=<!-- end of crates -->)", re.S)


def page_of_crates(text: str) -> str:
    """The page with the tables as they should be: the headings of crates.txt, and what each crate says of itself in its first sentence."""
    if not TABLE.search(text):
        raise SystemExit("pages: the page of crates has no place for the table")
    rows = []
    for heading, lines in groups_of():
        rows += ["", f"**{heading}**", "", "| crate | what it holds |", "|---|---|"]
        for crate in (line.partition(":")[0].split()[0] for line in lines):
            rows.append(f"| `{crate}` | {summary_of(CRATES, crate)} |")
    return TABLE.sub(lambda _: "\n".join(rows) + "\n\n", text)
