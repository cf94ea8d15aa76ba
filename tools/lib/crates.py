"""The crates of crates.txt, and which crates each one uses."""
from __future__ import annotations

from collections.abc import Collection, Iterator

from lib.paths import TOP, read, write


def groups_of(top: str = TOP) -> list[tuple[str, list[str]]]:
    """(heading, its lines) of crates.txt, in their order: a heading is a comment behind the first line, its lines are those of crates."""
    groups: list[tuple[str, list[str]]] = []
    for line in read(f"{top}/crates.txt").split("\n")[1:]:
        if line.startswith("# "):
            groups.append((line[2:], []))
        elif ":" in line.partition("#")[0]:
            groups[-1][1].append(line)
    return groups


def lines_of(top: str = TOP) -> Iterator[tuple[str, str]]:
    """(crate, its line) for each crate of crates.txt, in their order."""
    for line in read(f"{top}/crates.txt").split("\n"):
        head, colon, _ = line.partition("#")[0].partition(":")
        if colon:
            yield head.split()[0], line


def uses_of(root: str = TOP) -> dict[str, list[str]]:
    """The crates of the tree, each with all that it uses, the kit's among them."""
    return {name: line.partition("#")[0].partition(":")[2].split() for name, line in lines_of(root)}


def crates_of(root: str = TOP) -> dict[str, list[str]]:
    """The crates of the tree, each with those of them that it uses."""
    uses = uses_of(root)
    return {name: [it for it in below if it in uses] for name, below in uses.items()}


def crates_below(uses: dict[str, list[str]], crate: str) -> list[str]:
    """The crates that a crate stands on."""
    found, todo = [], [*uses[crate]]
    while todo:
        name = todo.pop()
        if name not in found:
            found.append(name)
            todo += uses[name]
    return found


def write_list(folder: str, names: Collection[str], root: str = TOP) -> None:
    """Writes a crates.txt into a folder that has the lines of these crates alone."""
    write(f"{folder}/crates.txt", "".join(line + "\n" for name, line in lines_of(root) if name in names))
