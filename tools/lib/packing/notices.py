"""The kit's crates that are linked into the products: where, after which crates of Rust, by whom, and under which licences. What NOTICE
says of them."""
import functools
import glob
import os
import re
import sys
from collections.abc import Iterable, Iterator
from typing import NoReturn

from lib import paths
from lib.crates import crates_below, uses_of
from lib.paths import TOP, read

Uses = dict[str, list[str]]
PRODUCTS = {"yaml_tool": "the program", "yaml_review": "yamlreview", "yaml_c": "the library"}
# Licences by words of their texts.
LICENCES = {
    "Apache-2.0": "Apache License Version 2.0",
    "MIT": "Permission is hereby granted, free of charge, to any person obtaining a copy of this software and associated",
    "Unicode-3.0": "UNICODE LICENSE V3",
}
# Licences by the names that pages have for them, as SPDX writes them.
NAMES = {"Apache License, Version 2.0": "Apache-2.0", "Apache 2.0": "Apache-2.0"}
NAMES.update({name: name for name in ("Apache-2.0", "BSL-1.0", "MIT", "Unicode-3.0")})
# Licences between which a crate of Rust leaves the choice, where its page in the kit names none; a text of another one is of a part.
CHOICES = ("MIT", "Apache-2.0")
UNKNOWN = "NOASSERTION"
# A line of a licence's text that names a holder, and no line of the licence itself.
HOLDER = re.compile(r"^[ \t]*Copyright (?:\([cC]\) |© )?((?![\[{])[A-Z0-9].*?)[ \t]*$", re.M)
# What in a comment tells that data or code is from elsewhere.
ORIGIN = re.compile(r"\b(MIT|Apache|BSD|ISC|Zlib|Boost|Unlicense|Unicode License|[Ll]icen[cs]ed?|Copyright)\b|Unicode \d")
# What a page tells as a licence: names of licences and "or", no name of a file.
NAMED = re.compile(r"(?:[A-Z][\w.-]*(?: [\d.]+)?)(?: or [A-Z][\w.-]*(?: [\d.]+)?)*")
KIT = re.compile(r"rattle-kit-\w+")
TERMS = re.compile(r"TERMS AND CONDITIONS FOR USE.*END OF TERMS AND CONDITIONS", re.S)
HEAD = """\
yamlcanon
Copyright (c) The yamlcanon authors. MIT OR Apache-2.0: LICENSE-MIT, LICENSE-APACHE.

The program and the library have crates of the Rattle kit (%s) linked into them, some of which are ports
of crates of Rust. This file names each, where it is linked, the versions that its page in the kit names, and its
licence. tools/notices writes it from crates.txt and the kit's folders. The C library of the machine (glibc), which the
program and the shared library find when they start, is not part of the packages.
"""
BARE = """\
The kit has no licence text for these. What stands in its place is what their pages in the kit, where they have any, and
comments in their sources say of work that was taken from elsewhere; nothing is said of the others. Under which licence the
kit's own may be passed on is for whoever gave the kit to say."""


def end(text: str) -> NoReturn:
    print("notices: " + text, file=sys.stderr)
    sys.exit(1)


def kit_folder() -> str:
    return paths.kit_folder() or end("rt, the Rattle kit, is not found")


def squeezed(text: str) -> str:
    """The words of a text with single spaces."""
    return " ".join(text.split())


def kind(text: str) -> str:
    """The licence that a text is, by its words."""
    return next((name for name, words in LICENCES.items() if words in squeezed(text)), "another licence")


class Crate:
    """A crate of the kit, by its folder there. `products` are those in which it is linked; `after` are the crates of Rust that its page
    names with a version, and `licence` what it says behind the first of them; `texts` are the files of licences, of these `kinds`."""

    def __init__(self, name: str, folder: str, products: list[str]) -> None:
        self.name, self.folder, self.products = name, folder, products
        files = [path for form in ("LICEN*", "COPY*", "NOTICE*", "UNLICEN*") for path in glob.glob(f"{folder}/{form}")]
        self.texts = sorted(path for path in files if os.path.isfile(path))
        self.kinds = sorted({kind(read(path)) for path in self.texts}, reverse=True)
        page = read(f"{folder}/README.md") if os.path.isfile(f"{folder}/README.md") else ""
        spelled = name.replace("_", "[-_]")
        named = re.findall(rf"\b({spelled}(?:[-_][a-z]+)*)`? (\d+\.\d+\.\d+)(?: \(([^,;)]*))?", page)
        self.after = list(dict.fromkeys(f"{crate} {number}" for crate, number, _ in named))
        self.licence: str | None = next((licence for _, _, licence in named if NAMED.fullmatch(licence)), None)

    def holders(self) -> list[str]:
        return list(dict.fromkeys(holder for path in self.texts for holder in HOLDER.findall(read(path))))

    def declared(self) -> str:
        """Its licence as SPDX writes it: the choice that its page names, or that its texts leave; and the licence of each text that is not
        in that choice. UNKNOWN where there is neither, or a name is not known."""
        words = self.licence.split(" or ") if self.licence else [it for it in self.kinds if it in CHOICES]
        choice = [NAMES.get(word.strip(), "") for word in words]
        parts = sorted(NAMES.get(it, "") for it in self.kinds if NAMES.get(it, "") not in choice)
        if choice + parts and all(choice + parts):
            chosen = " OR ".join(choice)
            return " AND ".join(([f"({chosen})" if len(choice) > 1 and parts else chosen] if choice else []) + parts)
        if self.kinds:
            end(f"{self.name} has licence texts in the kit, and SPDX has no known name for them: {self.licence}, {self.kinds}")
        return UNKNOWN

    @functools.cached_property
    def comments(self) -> dict[str, list[str]]:
        """What comments in its source say of others' work: blocks of comment, each with its files."""
        blocks: dict[str, list[str]] = {}
        for path in sorted(glob.glob(f"{self.folder}/src/**/*.rt", recursive=True)):
            for block in re.findall(r"(?:^//(?!/).*\n)+", read(path), re.M):
                if ORIGIN.search(block):
                    blocks.setdefault(re.sub(r"^// ?", "", block, flags=re.M), []).append(os.path.relpath(path, self.folder))
        return blocks

    def quoted(self) -> list[str]:
        return [f"{self.name}, {', '.join(files)}:\n\n{indented(block)}" for block, files in self.comments.items()]

    def place(self) -> str:
        return "In " + " and ".join(", ".join(self.products).rsplit(", ", 1) if self.products else ["tests alone"]) + "."

    def versions(self) -> str:
        return f"After {', '.join(self.after)}." if self.after else "Its page names no version."

    def section(self) -> str:
        """What NOTICE says of it, if it has a licence text."""
        licence = self.licence or " or ".join(self.kinds) + ", by the texts below"
        head = f"{titled(self.name)}{self.place()} {self.versions()} Licence: {licence}.\n"
        return "\n".join([head, *map(licence_text, self.texts), *self.quoted()])


def with_kit(own: Uses, kit: str) -> Uses:
    """The own crates and the kit's below them, each with those that it uses."""
    uses, todo = dict(own), [name for below in own.values() for name in below]
    while todo:
        name = todo.pop()
        if name in uses:
            continue
        built = f"{kit}/rlibs/{name}.rlib/format"
        if not os.path.isfile(built):
            end(f"{name} is neither a crate of crates.txt nor one of the kit")
        uses[name] = re.findall(r"^dep (\w+)$", read(built), re.M)
        todo += uses[name]
    return uses


def kit_crates() -> Iterator[Crate]:
    """The kit's crates that any of ours uses, the standard library among them."""
    kit, own = kit_folder(), {name: [*below, "std"] for name, below in uses_of().items()}
    uses = with_kit(own, kit)
    below = {told: crates_below(uses, product) for product, told in PRODUCTS.items() if product in uses}
    for name in sorted(set(uses) - set(own)):
        yield Crate(name, f"{kit}/rattle/{name}", [told for told, names in below.items() if name in names])


def linked() -> list[Crate]:
    return [crate for crate in kit_crates() if crate.products]


def indented(text: str) -> str:
    return "".join(f"    {line}\n" if line.strip() else "\n" for line in text.strip("\n").splitlines())


def titled(name: str) -> str:
    return f"{'-' * 100}\n{name}\n{'-' * 100}\n"


def licence_text(path: str) -> str:
    """A licence's text, in which the terms of our own LICENSE-APACHE are not said again."""
    text, ours = read(path), TERMS.search(read(f"{TOP}/LICENSE-APACHE"))
    terms = TERMS.search(text)
    if not terms or not ours or squeezed(terms[0]) != squeezed(ours[0]):
        return f"{os.path.basename(path)}:\n\n{indented(text)}"
    holders = [line.strip() for line in text[terms.end() :].splitlines() if re.match(r"\s*Copyright (?![\[{]yyyy)", line)]
    lines = '", "'.join(holders)
    named = f'with the line "{lines}"' if holders else "with no holder of copyright named"
    return f"{os.path.basename(path)}: the terms of the LICENSE-APACHE beside this file, word for word,\n{named}.\n"


def bare_section(crates: Iterable[Crate]) -> str:
    """What NOTICE says of the kit's crates without a licence text."""
    where: dict[str, list[str]] = {}
    for crate in crates:
        where.setdefault(crate.place(), []).append(crate.name)
    lines = [f"{', '.join(names)}: {place}" for place, names in where.items()]
    for crate in crates:
        if crate.licence or crate.after:
            lines.append(f"{crate.name}: {crate.versions()} Licence by its page: {crate.licence or 'none is named'}.")
    head = titled("Crates without a licence text in the kit") + "\n".join(lines)
    return "\n".join([f"{head}\n{BARE}\n", *(part for crate in crates for part in crate.quoted())])


def notice() -> tuple[str, list[str]]:
    """The whole text, and the crates of the kit that have no licence text."""
    kit, crates = kit_folder(), [*kit_crates()]
    bare = [crate for crate in crates if not crate.texts]
    parts = [crate.section() for crate in crates if crate.texts] + ([bare_section(bare)] if bare else [])
    if any("Unicode" in block for crate in crates for block in crate.comments):
        text = licence_text(f"{kit}/rattle/unicode/LICENSE-UNICODE")
        parts.append(titled("Unicode's data, from which the tables named above are made") + "\n" + text)
    return "\n".join([HEAD % read(f"{kit}/KIT-ID").split()[0], *parts]), [crate.name for crate in bare]
