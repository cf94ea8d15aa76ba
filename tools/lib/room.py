"""A copy of a crate over the built libraries below it, outside the tree, in which it is checked with mutants."""
from __future__ import annotations

import os
import re
import shutil
import subprocess
import sys
import tempfile
from collections.abc import Sequence
from typing import Any

from lib.crates import crates_below, crates_of, write_list
from lib.paths import RT, read, write
from lib.mutants.mutant import Said

PARTS = ("src", "specs", "proofs")


def free_memory() -> int:
    return int(re.findall(r"MemAvailable: *(\d+)", read("/proc/meminfo"))[0]) * 1024


def kit() -> Any:
    """The kit's own module, which knows when a built library is that of its sources."""
    sys.path.insert(0, os.path.dirname(os.path.realpath(shutil.which("rt") or "rt")))
    import rtlib  # type: ignore[import]  # pylint: disable=import-outside-toplevel,import-error

    if rtlib.Crate.stamp is not stamp_once:
        rtlib.Crate.stamp_anew, rtlib.Crate.stamp = rtlib.Crate.stamp, stamp_once
    return rtlib


def stamp_once(crate: Any) -> str:
    """A crate's stamp, which has those of all that it uses in it: taken anew for each use, those of 20 crates take a minute."""
    if not hasattr(crate, "stamp_taken"):
        crate.stamp_taken = crate.stamp_anew()
    return str(crate.stamp_taken)


def linked(source: str, target: str) -> None:
    """Puts a file in a second place: a link where the file system gives one, else a copy."""
    try:
        os.link(source, target)
    except OSError:
        shutil.copy2(source, target)


class Room:
    """The copy, and what was spent in it: `seconds` of processor, `checks`."""

    def __init__(self, root: str, crate: str, anew: bool = False) -> None:
        self.root, self.crate = root, crate
        self.folder = tempfile.mkdtemp(prefix="mutants-")
        self.at, self.source = f"{self.folder}/crates/{crate}", f"{root}/crates/{crate}"
        self.seconds, self.checks = 0.0, 0
        below = crates_below(crates_of(root), crate)
        write_list(self.folder, [*below, crate], root)
        if os.path.isfile(f"{root}/HANDLES"):
            shutil.copy(f"{root}/HANDLES", self.folder)
        for name in below:
            self.link_library(name)
        self.stamp_libraries()
        os.makedirs(f"{self.at}/out")
        if not anew and os.path.isdir(f"{self.source}/out/incremental"):
            shutil.copytree(f"{self.source}/out/incremental", f"{self.at}/out/incremental")

    def link_library(self, name: str) -> None:
        if not os.path.isdir(f"{self.root}/crates/{name}/out/rlib"):
            raise SystemExit(f"mutants: {name} is not built: run rt ci, or rt lib in its folder, first")
        for part in (*PARTS, "out/rlib"):
            if os.path.isdir(f"{self.root}/crates/{name}/{part}"):
                shutil.copytree(f"{self.root}/crates/{name}/{part}", f"{self.folder}/crates/{name}/{part}", copy_function=linked)

    def stamp_libraries(self) -> None:
        """Writes the stamps that a gate leaves out: what it has proved minutes before is taken as proved here, for refusals alone."""
        os.makedirs(self.at, exist_ok=True)
        self.put_sources()
        for crate in kit().crates_below(self.folder):
            stamp = f"{crate.folder}/out/rlib/stamp"
            if os.path.isdir(os.path.dirname(stamp)) and not os.path.isfile(stamp):
                write(stamp, crate.stamp())

    def put_sources(self) -> None:
        """Puts the crate's own files there as they are in the tree."""
        for part in PARTS:
            shutil.rmtree(f"{self.at}/{part}", ignore_errors=True)
            if os.path.isdir(f"{self.source}/{part}"):
                shutil.copytree(f"{self.source}/{part}", f"{self.at}/{part}")

    def check(self, changes: list[tuple[str, str, str]], aside: dict[str, set[str]], only: Sequence[str] = ()) -> Said:
        """What the check says with these changes (file, old text, new text), without these answers (file: goals), of these functions alone."""
        self.put_sources()
        texts: dict[str, str] = {}
        for path, old, new in changes:
            text = texts.get(path) or read(f"{self.at}/{path}")
            if text.count(old) != 1:
                raise ValueError(path)
            texts[path] = text.replace(old, new)
        for path, goals in aside.items():
            texts[path] = without(texts.get(path) or read(f"{self.at}/{path}"), goals)
        for path, text in texts.items():
            self.write(path, text, path in aside)
        said = Said(self.run([RT, "check", "--jobs", "1", *(word for name in only for word in ("--only", name))]))
        return self.check(changes, aside) if only and not said.status else said

    def write(self, path: str, text: str, may_go: bool) -> None:
        """Writes a file; a proof file in which nothing is left goes."""
        if may_go and not re.search(r"^(abbrev )?pub ", text, re.M):
            os.remove(f"{self.at}/{path}")
            return
        write(f"{self.at}/{path}", text)

    def run(self, words: list[str]) -> str:
        """What a command in the crate's folder prints. Its processor time is added up."""
        with subprocess.Popen(
            words, cwd=self.at, stdin=subprocess.DEVNULL, stdout=subprocess.PIPE, stderr=subprocess.STDOUT, text=True, errors="replace"
        ) as ran:
            text = ran.stdout.read() if ran.stdout else ""
            _, ran.returncode, used = os.wait4(ran.pid, 0)
        self.checks += 1
        self.seconds += used.ru_utime + used.ru_stime
        return text

    def close(self) -> None:
        shutil.rmtree(self.folder, ignore_errors=True)


def without(text: str, goals: set[str]) -> str:
    """A proof file without the paragraphs that answer these goals, and without the names that its `use` lines ask for in vain."""
    for gone in [goal[len("name:") :] for goal in goals if goal.startswith("name:")]:
        word = re.compile(r"(?<=[{ ])" + re.escape(gone) + r"(, |(?=\}))")
        for line in re.findall(r"^use .*", text, re.M):
            text = text.replace(line, word.sub("", line).replace(", }", "}"))
    text = re.sub(r"^use \S*\.\{\}\n", "", text, flags=re.M)
    kept = []
    for paragraph in text.split("\n\n"):
        name = re.match(r"(?:abbrev )?(?:pub )?(?:abbrev )?(\S+) :", paragraph.lstrip("\n"))
        if not (name and name[1] in goals):
            kept.append(paragraph)
    return "\n\n".join(kept)
