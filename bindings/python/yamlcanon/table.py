"""What files mean, as rows of a table: a file's row is the same wherever, and however often, it is computed.

    rows(names, cache) -> [Row]     the rows of a batch, bytes that are met again judged once
    Judge(cache)                    the same batch after batch, with how many contents the library was asked for
    packed(rows)                    the same rows in fewer values, which a process sends and a table takes in less time
    Table(path)                     rows in an SQLite file
    keep(cache, table)              adds a table's meanings to a cache, which later runs look into
    library_key()                   names the library that answers: what another one answered is not taken for its answer
"""

import errno
import hashlib
import os
import sqlite3
import stat
import time
from functools import lru_cache
from itertools import chain, groupby
from typing import Any, Collection, Dict, Iterable, Iterator, List, NamedTuple, Optional, Sequence, Set, Tuple, Union

import yamlcanon
from yamlcanon.library import file as library_file

__all__ = [
    "DONE", "REFUSED", "UNREAD", "Judge", "Meaning", "NoTable", "OtherLibrary", "Row", "Table", "keep", "library_key", "packed", "rows",
]  # fmt: skip

DONE, REFUSED, UNREAD = 0, 2, 3
# No input that is accepted has more bytes, so no more are read.
_LONGEST = 67_108_864
# How many files, and how many bytes, are held at most before the cache is asked for them, but for one file more.
_MOST_HELD, _BYTES_HELD = 256, 1 << 20
# How many rows a table counts by itself, which takes memory: beyond them SQLite counts, which takes time.
_MOST_COUNTED = 1 << 20
_OPENED = os.O_RDONLY | os.O_NONBLOCK | os.O_CLOEXEC
# How many rows of accepted files are added by one statement, of four values each: each statement takes some time by itself.
# SQLite may take no more than 999 values.
_ADDED = 128
# For how many seconds a new table does not wait for the disk.
_UNWAITED = 5.0

# The columns by which a table and a cache are known: no other database is written to, or read as one.
_FILE = ("path", "status", "digest", "number", "message", "size", "raw")
_LIBRARY = ("version",)
_MEANING = ("version", "raw", "status", "digest", "number", "message")

# A row without the names of its parts, as marshal writes it.
_Plain = Tuple[Any, ...]
# Rows of accepted files as path, digest, size and raw, one after another, and all other rows; paths as SQLite takes them.
_Packed = Tuple[List[Any], List[_Plain]]


class Meaning(NamedTuple):
    """What the library answers to some bytes."""

    status: int  # 0 done, 2 refused
    digest: Optional[str]  # SHA-256 of the canonical text, in hex
    number: Optional[int]  # of the refusal, 1 to 20
    message: Optional[str]  # of the refusal: the program's line


class Row(NamedTuple):
    """A file by its name, and what it means. What can't be read has status 3 and the system's words as its message."""

    path: str
    status: int
    digest: Optional[str]
    number: Optional[int]
    message: Optional[str]
    size: Optional[int]
    raw: Optional[str]  # SHA-256 of the file's bytes, in hex


class OtherLibrary(Exception):
    """A table holds rows of another library."""


class NoTable(Exception):
    """A database is not one that this module made."""


@lru_cache(maxsize=None)
def library_key() -> str:
    """Names the library that answers, as `form1 1.1 0123456789abcdef`: the form of its texts, the version of its interface, and the
    start of the SHA-256 of its file.

    The version alone is not enough: it is 1.1 for each release 1.1.x, of which a later one may accept more. The file's digest
    differs for each release, and also where a release was built anew: then nothing is taken from the cache, which costs time alone.
    """
    over = hashlib.sha256()
    with open(library_file, "rb") as file:
        for piece in iter(lambda: file.read(1 << 20), b""):
            over.update(piece)
    major, minor = divmod(yamlcanon.library_version(), 100)
    return f"form{yamlcanon.FORM} {major}.{minor} {over.hexdigest()[:16]}"


def meaning(data: bytes) -> Meaning:
    """It raises for want of memory alone, which says nothing of the bytes."""
    try:
        return Meaning(DONE, hashlib.sha256(yamlcanon.canonical(data)).hexdigest(), None, None)
    except yamlcanon.Refused as fault:
        return Meaning(REFUSED, None, fault.number, str(fault))


def _read(path: str) -> bytes:
    """The bytes of a regular file: all of them, or one more than may be read. A pipe would be waited for for ever."""
    file = os.open(path, _OPENED)
    try:
        about = os.fstat(file)
        if not stat.S_ISREG(about.st_mode):
            if stat.S_ISDIR(about.st_mode):
                raise IsADirectoryError(errno.EISDIR, os.strerror(errno.EISDIR))
            raise OSError(errno.EINVAL, "Not a regular file")
        # One byte more than the file has, so that the first read tells its end; it is read on where it has grown.
        wanted = min(about.st_size, _LONGEST) + 1
        data = os.read(file, wanted)
        return data if len(data) < wanted else _read_on(file, data)
    finally:
        os.close(file)


def _read_on(file: int, data: bytes) -> bytes:
    """The bytes of a file that has more than it told, behind those that were read."""
    piece = data
    while piece and len(data) <= _LONGEST:
        piece = os.read(file, min(2 * len(data), _LONGEST + 1) - len(data))
        data += piece
    return data


def _opened(cache: str) -> sqlite3.Connection:
    """A cache that is looked into, where a page is not copied for its rows."""
    base = sqlite3.connect(cache)
    base.execute("PRAGMA mmap_size = 1073741824")
    return base


# What the library answers to some bytes, as a Meaning or a tuple of the same.
_Known = Tuple[int, Optional[str], Optional[int], Optional[str]]


class Judge:
    """Gives the rows of batches. It looks up what it reads in the cache, which it opens when it first does."""

    def __init__(self, cache: Optional[str] = None) -> None:
        self.cache = cache
        self.base: Optional[sqlite3.Connection] = None
        self.is_whole = cache is None  # whether nothing is to be looked up that was not taken
        self.taken: Dict[str, str] = {}  # the digests of what is accepted
        self.refused: Dict[str, _Known] = {}
        self.met: Dict[str, _Known] = {}  # in this batch
        self.asked = 0  # for how many contents the library was asked

    def take(self, most: int) -> None:
        """Takes the cache whole, where its file has no more than so many bytes: to look up one by one takes thrice as long."""
        if self.cache is None or not os.path.exists(self.cache) or os.path.getsize(self.cache) > most:
            return
        base = _opened(self.cache)
        # Two values a row, of which SQLite's rows are made into a dictionary as they are, take half the time of five.
        self.taken = dict(base.execute("SELECT raw, digest FROM meaning WHERE version = ? AND status = 0", (library_key(),)))
        others = base.execute(
            "SELECT raw, status, digest, number, message FROM meaning WHERE version = ? AND status <> 0", (library_key(),)
        )
        self.refused = {one[0]: one[1:] for one in others}
        self.is_whole = True
        base.close()

    def batch(self, paths: Sequence[str]) -> List[_Plain]:
        """The rows of a batch. The cache is asked for many files at once, and these held until then have few bytes."""
        found: List[_Plain] = [()] * len(paths)
        waiting, held, sha256, taken, refused, met = [], 0, hashlib.sha256, self.taken, self.refused, self.met
        met.clear()
        for place, path in enumerate(paths):
            try:
                data = _read(path)
            except (OSError, ValueError) as fault:
                # Python's words for a null byte inside a name changed, and a row does not.
                why = "embedded null byte" if "\0" in path else getattr(fault, "strerror", None) or str(fault)
                found[place] = (path, UNREAD, None, None, why, None, None)
                continue
            if len(data) > _LONGEST:
                found[place] = (path, *meaning(data), None, None)
                continue
            raw = sha256(data).hexdigest()
            digest = taken.get(raw)
            if digest is not None:
                found[place] = (path, DONE, digest, None, None, len(data), raw)
                continue
            known = refused.get(raw) or met.get(raw)
            if known is not None or self.is_whole:
                found[place] = (path, *(known or self._meaning(raw, data)), len(data), raw)
                continue
            waiting.append((place, path, raw, data))
            held += len(data)
            if held > _BYTES_HELD or len(waiting) >= _MOST_HELD:
                self._settle(waiting, found)
                waiting, held = [], 0
        self._settle(waiting, found)
        return found

    def _settle(self, waiting: Sequence[Tuple[int, str, str, bytes]], found: List[_Plain]) -> None:
        """Puts the rows of files that were read into their places."""
        self._look_up({one[2] for one in waiting})
        for place, path, raw, data in waiting:
            found[place] = (path, *(self.met.get(raw) or self._meaning(raw, data)), len(data), raw)

    def _meaning(self, raw: str, data: bytes) -> _Known:
        self.asked += 1
        self.met[raw] = known = meaning(data)
        return known

    def _look_up(self, raws: Collection[str]) -> None:
        """Meets what the cache has of these."""
        if not raws or self.cache is None or not (self.base or os.path.exists(self.cache)):
            return
        if self.base is None:
            self.base = _opened(self.cache)
        # Not `raw IN (?, ..)`, which sorts them first and takes half as long again.
        found = self.base.execute(
            "SELECT raw, status, digest, number, message FROM (VALUES %s) CROSS JOIN meaning ON version = ? AND raw = column1"
            % ",".join(["(?)"] * len(raws)),
            (*raws, library_key()),
        )
        for one in found:
            self.met[one[0]] = one[1:]

    def close(self) -> None:
        if self.base is not None:
            self.base.close()


def rows(paths: Sequence[str], cache: Optional[str] = None) -> List[Row]:
    """The rows of a batch."""
    judge = Judge(cache)
    try:
        return [Row(*one) for one in judge.batch(paths)]
    finally:
        judge.close()


_Stored = Union[str, bytes]


def _stored(path: str) -> _Stored:
    """A path as SQLite takes it: text where it is UTF-8, else its bytes."""
    try:
        path.encode()
        return path
    except UnicodeEncodeError:
        return os.fsencode(path)


def _storable(some: Sequence[_Plain]) -> Sequence[_Plain]:
    """Rows as SQLite takes them: these themselves where all paths are UTF-8, which is told at once."""
    try:
        "".join([one[0] for one in some]).encode()
        return some
    except UnicodeEncodeError:
        return [(_stored(one[0]), *one[1:]) for one in some]


def packed(some: Sequence[_Plain]) -> _Packed:
    """Rows, each a Row or what it is a tuple of, in fewer values: those of accepted files have no number and no message."""
    some = _storable(some)
    done = [(path, digest, size, raw) for path, status, digest, _, _, size, raw in some if status == DONE]
    others = [tuple(one) for one in some if one[1] != DONE] if len(done) < len(some) else []
    return [*chain.from_iterable(done)], others


@lru_cache(maxsize=None)
def _adding(count: int) -> str:
    """The statement that adds so many rows of accepted files."""
    return "INSERT INTO file VALUES " + ",".join(["(?, 0, ?, NULL, NULL, ?, ?)"] * count)


def _has(base: sqlite3.Connection, table: str, columns: Tuple[str, ...], schema: str = "main") -> bool:
    """Whether a database has a table with these columns and no others."""
    return tuple(row[1] for row in base.execute(f"PRAGMA {schema}.table_info({table})")) == columns


def _is_empty(base: sqlite3.Connection, schema: str = "main") -> bool:
    return base.execute(f"SELECT 1 FROM {schema}.sqlite_master LIMIT 1").fetchone() is None


def _opened_to_read(name: str) -> sqlite3.Connection:
    """A database that is not changed. SQLite would put two files next to one that has a log (WAL), and leave them there, so it is
    read as one that nobody writes, unless a file next to it shows that somebody does, or was ended while doing so."""
    from urllib.parse import quote  # only here, since it takes its time to load

    is_written = any(os.path.exists(name + end) for end in ("-wal", "-journal"))
    where = "file:%s?mode=ro%s" % (quote(os.fsencode(os.path.abspath(name))), "" if is_written else "&immutable=1")
    return sqlite3.connect(where, uri=True)


def _path(stored: _Stored) -> str:
    return os.fsdecode(stored) if isinstance(stored, bytes) else stored


class _Counts:
    """What the rows that were added come to."""

    def __init__(self) -> None:
        self.rows, self.statuses = 0, {DONE: 0, REFUSED: 0, UNREAD: 0}
        self.raws: Set[Optional[str]] = set()
        self.digests: Set[Optional[str]] = set()

    def add(self, done: Sequence[Any], others: Sequence[_Plain]) -> None:
        self.rows += len(done) // 4 + len(others)
        if self.rows > _MOST_COUNTED:
            self.raws, self.digests = set(), set()
            return
        self.statuses[DONE] += len(done) // 4
        self.digests.update(done[1::4])
        self.raws.update(done[3::4])
        for _, status, digest, _, _, _, raw in others:
            self.statuses[status] += 1
            self.digests.add(digest)
            self.raws.add(raw)

    def summary(self) -> Tuple[int, int, int, int, int]:
        contents, meanings = len(self.raws - {None}), len(self.digests - {None})
        return self.statuses[DONE], self.statuses[REFUSED], self.statuses[UNREAD], contents, meanings


class Table:
    """The rows in an SQLite file. What it has is not computed again, so a run that was ended goes on.

    No index is kept while rows come: they come in any order, and by an index on paths each takes ten times as long. What was
    added stays where the process is killed. Where the machine itself ends, a table that waits for the disk loses its last rows,
    and one that does not yet wait may be lost: that is a new one, which has not more than some seconds of work.
    """

    def __init__(self, name: str, to_read: bool = False) -> None:
        """Opens a table, which is made where there is none, or one that is only read."""
        self.waits, self.since = os.path.exists(name), time.monotonic()
        self.name, self.counts = name, _Counts()
        self.base = _opened_to_read(name) if to_read else sqlite3.connect(name)
        try:
            if to_read or not _is_empty(self.base):
                self._look()
            if not to_read:
                self._begin()
        except BaseException:
            self.base.close()
            raise
        self.key = str(self.base.execute("SELECT version FROM library").fetchone()[0])
        self.others = self._changed_by_others()
        self.was_empty = self.base.execute("SELECT 1 FROM file LIMIT 1").fetchone() is None

    def _look(self) -> None:
        """Looks whether this module made the table."""
        if not (_has(self.base, "file", _FILE) and _has(self.base, "library", _LIBRARY)):
            raise NoTable(f"{self.name}: no table of yamlcanon.many")

    def _begin(self) -> None:
        """Makes what a table has, where that is not there."""
        if not self.waits:
            # Its first page is written with no journal beside it.
            self.base.execute("PRAGMA journal_mode = MEMORY")
        self.base.execute(f"PRAGMA synchronous = {'NORMAL' if self.waits else 'OFF'}")
        self.base.execute("PRAGMA journal_mode = WAL")
        with self.base:
            # All at once: a table of which a part is missing is not known as one.
            self.base.execute("BEGIN IMMEDIATE")
            self.base.execute(
                "CREATE TABLE IF NOT EXISTS file (path NOT NULL, status INTEGER NOT NULL, digest TEXT, number INTEGER,"
                " message TEXT, size INTEGER, raw TEXT)"
            )
            self.base.execute("CREATE TABLE IF NOT EXISTS library (version TEXT NOT NULL)")
            if self.base.execute("SELECT 1 FROM library").fetchone() is None:
                self.base.execute("INSERT INTO library VALUES (?)", (library_key(),))

    def missing(self, paths: Iterable[str]) -> List[str]:
        """Those of the paths that have no row, each once. What could not be read is tried again."""
        if self.key != library_key():
            raise OtherLibrary(f"{self.name} is of the library {self.key}, and this is {library_key()}")
        with self.base:
            self.base.execute("DELETE FROM file WHERE status = ?", (UNREAD,))
        has = {path for (path,) in self.base.execute("SELECT path FROM file")}
        each = dict.fromkeys(paths)
        return [path for path in each if _stored(path) not in has] if has else list(each)

    def add(self, some: Sequence[_Plain]) -> None:
        """Adds rows, each a Row or what it is a tuple of."""
        self.add_packed([packed(some)])

    def add_packed(self, some: Sequence[_Packed]) -> None:
        """Adds the rows of batches, all or none."""
        if not self.waits and time.monotonic() - self.since > _UNWAITED:
            self._wait()
        done = some[0][0] if len(some) == 1 else [*chain.from_iterable(batch[0] for batch in some)]
        others = [*chain.from_iterable(batch[1] for batch in some)]
        with self.base:
            self._insert_done(done)
            self.base.executemany("INSERT INTO file VALUES (?, ?, ?, ?, ?, ?, ?)", others)
        self.counts.add(done, others)

    def _wait(self) -> None:
        """Waits for the disk from here on, and for what it has not yet."""
        self.waits = True
        self.base.execute("PRAGMA synchronous = NORMAL")
        self.base.execute("PRAGMA wal_checkpoint").fetchall()

    def _insert_done(self, values: List[Any]) -> None:
        """Adds rows of accepted files: as many as may be by one statement, and the rest by those of 64, 32 and so on, so that few
        statements are made."""
        at, count = 0, _ADDED
        while at < len(values):
            while 4 * count > len(values) - at:
                count //= 2
            self.base.execute(_adding(count), values[at : at + 4 * count])
            at += 4 * count

    def rows(self) -> Iterator[Row]:
        """All rows, by path."""
        for stored, *rest in self.base.execute("SELECT * FROM file ORDER BY CAST(path AS BLOB)"):
            yield Row(_path(stored), *rest)

    def duplicates(self) -> Iterator[Tuple[str, List[Tuple[str, str]]]]:
        """Each digest that more than one file has, the largest group first, with the path and the raw digest of each."""
        found = self.base.execute(
            "SELECT file.digest, path, raw FROM file JOIN"
            " (SELECT digest, count(*) AS files FROM file WHERE status = 0 GROUP BY digest HAVING files > 1) AS many"
            " ON file.digest = many.digest WHERE status = 0 ORDER BY files DESC, file.digest, CAST(path AS BLOB)"
        )
        for digest, group in groupby(found, key=lambda row: str(row[0])):
            yield digest, [(_path(stored), raw) for _, stored, raw in group]

    def _changed_by_others(self) -> int:
        """A number that changes where another connection changes the table."""
        return int(self.base.execute("PRAGMA data_version").fetchone()[0])

    def has_counted_all(self) -> bool:
        """Whether its rows are those that were added and counted here."""
        return self.was_empty and self.counts.rows <= _MOST_COUNTED and self._changed_by_others() == self.others

    def summary(self) -> Tuple[int, int, int, int, int]:
        """How many files: done, refused, unread; how many contents and meanings they have."""
        if self.has_counted_all():
            return self.counts.summary()
        found = self.base.execute(
            "SELECT sum(status = 0), sum(status = 2), sum(status = 3), count(DISTINCT raw), count(DISTINCT digest) FROM file"
        ).fetchone()
        done, refused, unread, contents, meanings = (number or 0 for number in found)
        return done, refused, unread, contents, meanings

    def checksum(self) -> str:
        """SHA-256 over all rows by path: equal for equal tables, in whatever order the rows came."""
        over = hashlib.sha256()
        for one in self.rows():
            over.update(repr(one).encode("utf-8", "surrogateescape"))
        return over.hexdigest()

    def close(self) -> None:
        self.base.close()


_CACHE = (
    "CREATE TABLE IF NOT EXISTS cache.meaning (version TEXT, raw TEXT, status INTEGER NOT NULL, digest TEXT, number INTEGER,"
    " message TEXT, PRIMARY KEY (version, raw)) WITHOUT ROWID"
)


def keep(cache: str, table: Table) -> None:
    """Adds the meanings of a table to a cache, in the order of its key, in which it grows quickest."""
    table.base.execute("ATTACH ? AS cache", (cache,))
    try:
        if not (_is_empty(table.base, "cache") or _has(table.base, "meaning", _MEANING, "cache")):
            raise NoTable(f"{cache}: no cache of yamlcanon.many")
        with table.base:
            table.base.execute(_CACHE)
            table.base.execute(
                "INSERT OR IGNORE INTO cache.meaning SELECT DISTINCT ?, raw, status, digest, number, message FROM file"
                " WHERE raw IS NOT NULL AND raw NOT IN (SELECT raw FROM cache.meaning WHERE version = ?) ORDER BY raw",
                (table.key, table.key),
            )
    finally:
        table.base.execute("DETACH cache")
