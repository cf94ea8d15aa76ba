"""A row for each file that is named on standard input, by as many processes as there are processors.

    find . -name '*.yaml' -print0 | python3 -m yamlcanon.many TABLE [--cache FILE] [--jobs N] [--batch N]
    python3 -m yamlcanon.many --duplicates TABLE
    python3 -m yamlcanon.many --drift OLD NEW

Names end in a null byte if there is one, else in a line feed. TABLE is an SQLite file. What it has already is left out, and
what could not be read is tried again: a run that was ended is gone on with by the same command. What the bytes of a file mean
is looked up in the cache first, and kept there at the end. Status: 0; 1 if a file was refused or could not be read; 2 for
wrong words; 3 if the run was ended from outside (Ctrl-C too), a worker was killed or wanted memory, the table is of another
library, or a table, the cache or the output can't be used. A database that this command did not make is no table and no cache.

--duplicates tells the files that mean the same, a group at a time and the largest first: `=` stands before those that have
the bytes of the group's first file, `~` before those that are alike in meaning alone. Files that hold no document, as those
with nothing but comments, and files that hold one null are the last groups.

--drift tells what became of each file between two tables: `spelling` where its bytes changed and its meaning did not,
`meaning` where that changed, `new`, `gone`, `refused` where it is refused now, `accepted` where it was, and `unread`. Files
that are the same are only counted. Status: 0 if no meaning changed and no file is new, gone, refused or unread now, else 1.
Tables of two libraries are compared if both give the same form of texts. A line on standard error says so, since the newer
library may accept more.

A name is told on one line: `\\\\` stands for a backslash in it, `\\n`, `\\r` and `\\t` for the ends of lines and a tab.
"""

import argparse
import hashlib
import os
import sqlite3
import sys
import time
from typing import Any, BinaryIO, Dict, Iterator, List, NoReturn, Optional, Sequence, Tuple

import yamlcanon
from yamlcanon.table import REFUSED, UNREAD, Judge, NoTable, OtherLibrary, Row, Table, keep, packed
from yamlcanon.workers import Killed, Workers

_FAILED = 3
_BATCH = 256
# A cache is taken whole that has no more bytes than this for each file, some three meanings, and no more than this at all.
_TAKEN_A_FILE, _TAKEN = 500, 64 << 20
# With more processes than this each looks into the cache by itself, in less time than they would wait for it to be taken.
_TAKEN_JOBS = 2
# What is mostly found by the thousand, and means nothing.
_HOLD_NOTHING = ((b"", "hold no document"), (b"~", "hold one null"))
# How often progress is told, in seconds: on a terminal, and elsewhere.
_ON_TERMINAL, _ELSEWHERE = 0.5, 10.0


def names(data: bytes) -> List[str]:
    """The names of a list."""
    return [name for name in os.fsdecode(data).split("\0" if b"\0" in data else "\n") if name]


def batches(paths: Sequence[str], size: int) -> Iterator[Sequence[str]]:
    return (paths[at : at + size] for at in range(0, len(paths), size))


def shown(path: str) -> bytes:
    """A name on one line."""
    name = os.fsencode(path).replace(b"\\", b"\\\\")
    return name.replace(b"\n", b"\\n").replace(b"\r", b"\\r").replace(b"\t", b"\\t")


def say(words: str) -> None:
    print(words, file=sys.stderr, flush=True)


class Progress:
    """Tells how many of the files are done, how many a second, and the time that is left."""

    def __init__(self, whole: int) -> None:
        self.whole, self.done = whole, 0
        self.since = self.shown = time.monotonic()
        self.is_terminal = sys.stderr.isatty()

    def add(self, count: int) -> None:
        self.done += count
        now = time.monotonic()
        if now - self.shown >= (_ON_TERMINAL if self.is_terminal else _ELSEWHERE):
            self.shown = now
            self.tell()

    def tell(self) -> None:
        spent = time.monotonic() - self.since
        rate = self.done / spent if spent else 0.0
        left = (self.whole - self.done) / rate if rate else 0.0
        line = f"{self.done:,} of {self.whole:,} files, {rate:,.0f} a second, {left:,.0f} s left"
        print(f"\r{line}  " if self.is_terminal else line, end="" if self.is_terminal else "\n", file=sys.stderr, flush=True)

    def end(self) -> None:
        self.tell()
        if self.is_terminal:
            say("")


def fill(table: Table, paths: Sequence[str], jobs: int, batch: int, cache: Optional[str]) -> int:
    """Adds a row for each path, by so many processes, and tells for how many contents the library was asked. The processes are
    forked, so each has the names and what was taken of the cache already, if they are few."""
    progress, some, judge, asked = Progress(len(paths)), list(batches(paths, batch)), Judge(cache), 0
    if jobs <= _TAKEN_JOBS:
        judge.take(min(_TAKEN_A_FILE * len(paths), _TAKEN))

    def answer(number: int) -> Tuple[Any, int, int]:
        """The rows of a batch, how many they are, and for how many contents the library was asked."""
        before = judge.asked
        return packed(judge.batch(some[number])), len(some[number]), judge.asked - before

    with Workers(jobs, answer) as workers:
        for answers in workers.answers(len(some)):
            table.add_packed([rows for rows, _, _ in answers])
            progress.add(sum(count for _, count, _ in answers))
            asked += sum(new for _, _, new in answers)
    progress.end()
    return asked


def run(name: str, data: bytes, jobs: int, batch: int, cache: Optional[str]) -> int:
    """Fills the table with the files of a list."""
    table = Table(name)
    try:
        paths = table.missing(names(data))
        if cache is not None:
            # What an earlier run has found, which was ended before it kept that; it takes no time where the table is empty.
            keep(cache, table)
        asked = fill(table, paths, jobs, batch, cache)
        if cache is not None and asked:
            keep(cache, table)
        return finish(table)
    except OtherLibrary as fault:
        say(f"{fault}: begin another table")
        return _FAILED
    except Killed:
        say("a worker was killed: the same command goes on from here")
        return _FAILED
    except MemoryError:
        say("a worker wanted more memory than there is: the same command goes on from here, with fewer --jobs")
        return _FAILED
    finally:
        table.close()


def finish(table: Table) -> int:
    """Tells how many files were done, and gives the status."""
    done, refused, unread, contents, meanings = table.summary()
    say(f"{done:,} done, {refused:,} refused, {unread:,} unread; {contents:,} contents, {meanings:,} meanings")
    return 1 if refused or unread else 0


def tell_duplicates(name: str, out: BinaryIO) -> int:
    """Tells the groups of files that mean the same."""
    heads = {hashlib.sha256(yamlcanon.canonical(data)).hexdigest(): head for data, head in _HOLD_NOTHING}
    apart: List[Tuple[str, List[Tuple[str, str]]]] = []
    for digest, group in Table(name, to_read=True).duplicates():
        count = len({raw for _, raw in group})
        spellings = f"in {count} spelling{'s' if count > 1 else ''}"
        if digest in heads:
            apart.append((f"{len(group)} files {heads[digest]}, {spellings}", group))
        else:
            tell_group(f"{len(group)} files mean the same, {spellings}", group, out)
    for head, group in apart:
        tell_group(head, group, out)
    out.flush()
    return 0


def tell_group(head: str, group: Sequence[Tuple[str, str]], out: BinaryIO) -> None:
    out.write(b"# %s\n" % head.encode())
    first = group[0][1]
    for path, raw in group:
        out.write(b"%s\t%s\n" % (b"=" if raw == first else b"~", shown(path)))


def change(old: Optional[Row], new: Optional[Row]) -> str:
    """What became of a file."""
    if old is None:
        return "new"
    if new is None:
        return "gone"
    if UNREAD in (old.status, new.status):
        return "unread"
    # Two libraries may answer otherwise to the same bytes.
    if old.raw is not None and (old.raw, old.status, old.digest) == (new.raw, new.status, new.digest):
        return "same"
    if new.status == REFUSED:
        return "refused"
    if old.status == REFUSED:
        return "accepted"
    return "spelling" if old.digest == new.digest else "meaning"


def both(old: Table, new: Table) -> Iterator[Tuple[str, Optional[Row], Optional[Row]]]:
    """The rows of two tables, path by path."""
    before: Dict[str, Row] = {one.path: one for one in old.rows()}
    for one in new.rows():
        yield one.path, before.pop(one.path, None), one
    for path, gone in before.items():
        yield path, gone, None


def tell_drift(old_name: str, new_name: str, out: BinaryIO) -> int:
    """Tells what became of each file between two tables."""
    old, new = Table(old_name, to_read=True), Table(new_name, to_read=True)
    if old.key != new.key:
        say(f"{old_name} is of the library {old.key}, and {new_name} of {new.key}")
        # The first word is the form: texts of two forms differ where the meaning is the same.
        if old.key.split()[0] != new.key.split()[0]:
            return _FAILED
    counts: Dict[str, int] = {}
    for path, before, after in both(old, new):
        became = change(before, after)
        counts[became] = counts.get(became, 0) + 1
        if became != "same":
            out.write(b"%s\t%s\n" % (became.encode(), shown(path)))
    out.flush()
    say(", ".join(f"{count:,} {became}" for became, count in sorted(counts.items())) or "no files")
    return 0 if counts.keys() <= {"same", "spelling"} else 1


def do(given: argparse.Namespace) -> int:
    """What the words ask for."""
    if given.duplicates:
        return tell_duplicates(given.duplicates, sys.stdout.buffer)
    if given.drift:
        old, new = given.drift
        return tell_drift(old, new, sys.stdout.buffer)
    return run(given.table, sys.stdin.buffer.read(), given.jobs, given.batch, given.cache)


def main(words: Optional[Sequence[str]] = None) -> int:
    parser = argparse.ArgumentParser(
        prog="python3 -m yamlcanon.many", description=__doc__, formatter_class=argparse.RawDescriptionHelpFormatter
    )
    parser.add_argument("table", nargs="?", metavar="TABLE")
    parser.add_argument("--cache", metavar="FILE")
    parser.add_argument("--jobs", type=int, default=len(os.sched_getaffinity(0)), metavar="N")
    parser.add_argument("--batch", type=int, default=_BATCH, metavar="N")
    what = parser.add_mutually_exclusive_group()
    what.add_argument("--duplicates", metavar="TABLE")
    what.add_argument("--drift", nargs=2, metavar=("OLD", "NEW"))
    given = parser.parse_args(words)
    asked = [given.table, given.duplicates, given.drift]
    if sum(one is not None for one in asked) != 1 or given.jobs < 1 or given.batch < 1:
        parser.error("one TABLE, --duplicates TABLE or --drift OLD NEW; at least one job and one file a batch")
    for name in [given.duplicates] if given.duplicates else given.drift or []:
        if not os.path.isfile(name):
            parser.error(f"there is no table {name}")
    try:
        return do(given)
    except NoTable as fault:
        say(str(fault))
        return _FAILED
    except sqlite3.DatabaseError as fault:
        used = [given.table, given.cache, given.duplicates, *(given.drift or [])]
        say(f"{' or '.join(name for name in used if name is not None)}: {fault}")
        return _FAILED
    except KeyboardInterrupt:
        say("ended: the same command goes on from here" if given.table else "ended")
        return _FAILED
    except BrokenPipeError:
        # What is still to be written when Python ends goes nowhere.
        os.dup2(os.open(os.devnull, os.O_WRONLY), sys.stdout.fileno())
        return _FAILED


def end(status: int) -> NoReturn:
    """Ends the process at once: Python would first free one by one what it has of each file, a sixth of a later run's time."""
    for stream in (sys.stdout, sys.stderr):
        if stream is not None:
            stream.flush()
    os._exit(status)


if __name__ == "__main__":
    end(main())
