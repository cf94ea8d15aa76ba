"""python3 -m unittest: the tables of what files mean, and the command that fills them."""

import hashlib
import os
import signal
import sqlite3
import subprocess
import sys
import tempfile
import time
import unittest

import yamlcanon
from yamlcanon import table
from yamlcanon.many import change, names, shown
from yamlcanon.table import Judge, OtherLibrary, Row, Table, keep, library_key, packed, rows
from yamlcanon.workers import Killed, Workers

HERE = os.path.dirname(os.path.realpath(__file__))
ODD = b"a \\ b\nc\xff.yaml"
# A command finds the module where these tests have found it.
ENVIRONMENT = {**os.environ, "PYTHONPATH": os.path.dirname(os.path.dirname(os.path.realpath(yamlcanon.__file__)))}


def digest(text):
    return hashlib.sha256(text).hexdigest()


class Folder(unittest.TestCase):
    def setUp(self):
        room = tempfile.TemporaryDirectory()
        self.addCleanup(room.cleanup)
        self.room = os.path.realpath(room.name)

    def write(self, name, data):
        path = os.path.join(os.fsencode(self.room), os.fsencode(name))
        with open(path, "wb") as file:
            file.write(data)
        return os.fsdecode(path)

    def command(self, *words, given=b"", library=None):
        env = {**ENVIRONMENT, "YAMLCANON_LIBRARY": library} if library else ENVIRONMENT
        return subprocess.run(
            [sys.executable, "-m", "yamlcanon.many", *words], input=given, capture_output=True, cwd=self.room, env=env, timeout=120
        )

    def filled(self, table_name, paths, *words, library=None):
        given = b"".join(os.fsencode(path) + b"\0" for path in paths)
        return self.command(table_name, "--jobs", "2", *words, given=given, library=library)

    def changed(self, name, *statements):
        """Does to a database what this module would not, and gives its file's bytes."""
        base = sqlite3.connect(os.path.join(self.room, name))
        for statement in statements:
            base.execute(statement)
        base.commit()
        base.close()
        return self.read(name)

    def read(self, name):
        with open(os.path.join(self.room, name), "rb") as file:
            return file.read()

    def other_library(self):
        """A library of the same version with other bytes, as a later release is."""
        other = os.path.join(self.room, "later.so")
        with open(yamlcanon.library.file, "rb") as file, open(other, "wb") as copy:
            copy.write(file.read() + b"later")
        return other

    def table(self, name):
        opened = Table(os.path.join(self.room, name))
        self.addCleanup(opened.close)
        return opened


class Rows(Folder):
    def test_a_row_is_what_a_file_means(self):
        good, bad = self.write("good.yaml", b"b: 0x1\n"), self.write("bad.yaml", b"{1: a, 0x1: b}")
        text = yamlcanon.canonical(b"b: 0x1\n")
        self.assertEqual(
            rows([good, bad]),
            [
                Row(good, 0, digest(text), None, None, 7, digest(b"b: 0x1\n")),
                Row(bad, 2, None, 19, "19 EqualKeys in node 4, entries 0 and 1", 14, digest(b"{1: a, 0x1: b}")),
            ],
        )

    def test_what_is_no_regular_file_is_told_and_not_waited_for(self):
        fifo = os.path.join(self.room, "fifo")
        os.mkfifo(fifo)
        none = os.path.join(self.room, "none")
        told = [(one.status, one.message) for one in rows([fifo, self.room, none, "a\0b"])]
        self.assertEqual(
            told, [(3, "Not a regular file"), (3, "Is a directory"), (3, "No such file or directory"), (3, "embedded null byte")]
        )

    def test_more_bytes_than_are_accepted_are_not_read(self):
        long = self.write("long.yaml", b"")
        os.truncate(long, 1 << 34)
        self.assertEqual(rows([long]), [Row(long, 2, None, 1, "1 TooLong", None, None)])

    def test_a_file_that_tells_fewer_bytes_than_it_has_is_read_to_its_end(self):
        with open("/proc/version", "rb") as file:
            data = file.read()
        self.assertEqual(os.stat("/proc/version").st_size, 0)
        self.assertEqual([(one.size, one.raw) for one in rows(["/proc/version"])], [(len(data), digest(data))])

    def test_a_name_that_is_no_text_is_kept(self):
        path, plain = self.write(ODD, b"a: 1"), self.write("plain", b"a: 2")
        filled = self.table("table.db")
        filled.add(rows([path, plain]))
        self.assertEqual([one.path for one in filled.rows()], [path, plain])
        self.assertEqual(filled.missing([path, plain, "other"]), ["other"])
        self.assertEqual(shown(os.fsdecode(ODD)), b"a \\\\ b\\nc\xff.yaml")

    def test_bytes_that_are_met_again_are_judged_once(self):
        paths = [self.write(f"{number}.yaml", b"a: 1") for number in range(3)]
        judged, meaning = [], table.meaning
        table.meaning = lambda data: judged.append(data) or meaning(data)
        self.addCleanup(setattr, table, "meaning", meaning)
        self.assertEqual(len({one.digest for one in rows(paths)}), 1)
        self.assertEqual(judged, [b"a: 1"])


class Counts(Folder):
    def test_what_was_added_is_counted_as_the_table_counts_it(self):
        paths = [self.write(name, data) for name, data in (("a", b"x: 1"), ("b", b"{x: 1}"), ("c", b"{"), ("d", b"{"))]
        filled = self.table("table.db")
        filled.add(rows([*paths, "none"]))
        self.assertTrue(filled.has_counted_all())
        self.assertEqual(filled.summary(), (2, 2, 1, 3, 1))
        again = self.table("table.db")
        self.assertFalse(again.has_counted_all())
        self.assertEqual(again.summary(), (2, 2, 1, 3, 1))
        again.add(rows([self.write("e", b"x: 2")]))
        self.assertFalse(filled.has_counted_all())
        self.assertEqual([one.summary() for one in (filled, again)], [(3, 2, 1, 4, 2)] * 2)

    def test_no_more_than_so_many_are_counted(self):
        before, table._MOST_COUNTED = table._MOST_COUNTED, 2
        self.addCleanup(setattr, table, "_MOST_COUNTED", before)
        filled = self.table("table.db")
        for number in range(3):
            filled.add(rows([self.write(str(number), b"x: 1")]))
        self.assertEqual((filled.summary(), filled.counts.raws), ((3, 0, 0, 1, 1), set()))


class Packed(Folder):
    def test_rows_are_added_as_they_are_however_many(self):
        for count in (0, 1, 5, 127, 128, 129, 300):
            some = [Row(f"{number}", 0, f"d{number}", None, None, number, f"r{number}") for number in range(count)]
            some[2:2] = [
                Row(os.fsdecode(ODD), 0, "d", None, None, 1, "r"),
                Row("b", 2, None, 2, "2 No", 1, "s"),
                Row("u", 3, None, None, "No", None, None),
            ]
            filled = self.table(f"{count}.db")
            filled.add_packed([packed(some), packed([]), packed([Row("last", 0, "d", None, None, 1, "r")])])
            self.assertEqual(filled.summary(), (count + 2, 1, 1, count + 2, count + 1))
            wanted = [*some, Row("last", 0, "d", None, None, 1, "r")]
            self.assertEqual([*filled.rows()], sorted(wanted, key=lambda one: os.fsencode(one.path)))

    def test_a_table_waits_for_the_disk_behind_its_first_seconds(self):
        def level(of):
            return of.base.execute("PRAGMA synchronous").fetchone()[0]

        filled = self.table("table.db")
        filled.add([Row("a", 0, "d", None, None, 1, "r")])
        self.assertEqual(level(filled), 0)
        filled.since -= table._UNWAITED
        filled.add([Row("b", 0, "d", None, None, 1, "r")])
        self.assertEqual([level(filled), level(self.table("table.db"))], [1, 1])


class Caches(Folder):
    def judged(self, path, cache):
        """How many times the library is asked for a row."""
        asked, meaning = [], table.meaning
        table.meaning = lambda data: asked.append(data) or meaning(data)
        try:
            for taken in (False, True):
                judge = Judge(cache)
                if taken:
                    judge.take(1 << 30)
                judge.batch([path])
                judge.close()
        finally:
            table.meaning = meaning
        self.assertEqual(len(asked) % 2, 0)
        return len(asked) // 2

    def test_a_later_run_only_reads_and_hashes(self):
        path, cache = self.write("a.yaml", b"a: 1"), os.path.join(self.room, "cache.db")
        self.assertEqual(self.judged(path, cache), 1)
        filled = self.table("table.db")
        filled.add(rows([path], cache))
        keep(cache, filled)
        self.assertEqual(self.judged(path, cache), 0)
        self.assertEqual(rows([path], cache), rows([path]))

    def test_what_another_library_answered_is_not_taken(self):
        path, cache = self.write("a.yaml", b"a: 1"), os.path.join(self.room, "cache.db")
        filled = self.table("table.db")
        filled.add(rows([path]))
        filled.key += "0"
        keep(cache, filled)
        self.assertEqual(self.judged(path, cache), 1)
        with self.assertRaises(OtherLibrary):
            filled.missing([path])

    def test_contents_that_the_cache_has_are_not_asked_for(self):
        paths, cache = [self.write(str(number), b"a: %d" % (number % 3)) for number in range(9)], os.path.join(self.room, "cache.db")
        filled = self.table("table.db")
        filled.add(rows(paths[:2]))
        keep(cache, filled)
        for most in (0, 1 << 30):
            judge = Judge(cache)
            self.addCleanup(judge.close)
            judge.take(most)
            self.assertEqual([len(judge.taken), judge.is_whole], [2, True] if most else [0, False])
            self.assertEqual([Row(*one) for one in judge.batch(paths)], rows(paths))
            self.assertEqual(judge.asked, 1)


class Processes(unittest.TestCase):
    def answers(self, jobs, count, work):
        with Workers(jobs, work) as workers:
            for some in workers.answers(count):
                yield from some

    def test_each_number_is_answered_once(self):
        for jobs, count in ((1, 0), (1, 1), (1, 9), (3, 2), (4, 100)):
            self.assertEqual(
                sorted(self.answers(jobs, count, lambda number: [number, b"x" * 100_000])),
                [[number, b"x" * 100_000] for number in range(count)],
            )

    def test_what_the_work_raises_is_raised(self):
        def work(number):
            if number == 3:
                raise fault
            return number

        for fault, kind in (
            (sqlite3.DatabaseError("no"), sqlite3.DatabaseError),
            (MemoryError(), MemoryError),
            (Unpicklable(lambda: 0), RuntimeError),
        ):
            with self.assertRaises(kind):
                list(self.answers(2, 9, work))
        with self.assertRaises(ValueError):
            list(self.answers(2, 9, lambda number: object()))

    def test_one_that_is_killed_is_told(self):
        with self.assertRaises(Killed):
            list(self.answers(2, 9, lambda number: os.kill(os.getpid(), signal.SIGKILL) if number == 3 else number))
        with self.assertRaises(Killed), Workers(2, lambda number: number) as workers:
            for _ in workers.answers(1000):
                os.kill(workers.all[0].process, signal.SIGKILL)

    def test_none_stays_behind_the_process_that_asks(self):
        going = subprocess.Popen([sys.executable, "-c", ASLEEP], stdout=subprocess.PIPE, env=ENVIRONMENT)
        started = [int(word) for word in going.stdout.readline().split()]
        going.kill()
        going.wait()
        going.stdout.close()
        self.assertEqual(len(started), 2)
        wait_until(lambda: not any(os.path.exists(f"/proc/{process}/fd/0") for process in started))


class Unpicklable(Exception):
    pass


# A process that waits with two workers, of which one waits too.
ASLEEP = """
import time
from yamlcanon.workers import Workers
with Workers(2, lambda number: time.sleep(60 if number else 0)) as workers:
    for _ in workers.answers(2):
        print(*(worker.process for worker in workers.all), flush=True)
        time.sleep(60)
"""


def wait_until(what):
    end = time.monotonic() + 30
    while not what():
        assert time.monotonic() < end
        time.sleep(0.02)


class Runs(Folder):
    def setUp(self):
        super().setUp()
        self.paths = [self.write(f"{number}.yaml", b"a: %d" % (number % 7)) for number in range(40)]
        self.paths.append(self.write(ODD, b"a:  6"))

    def test_names_end_in_null_bytes_or_line_feeds(self):
        self.assertEqual(names(b"a\nb\n\nc"), ["a", "b", "c"])
        self.assertEqual(names(b"a\nb\0c\0"), ["a\nb", "c"])

    def test_one_job_and_four_give_one_table(self):
        for jobs in ("1", "4"):
            got = self.command(jobs + ".db", "--jobs", jobs, "--batch", "3", given="\0".join(self.paths).encode("utf-8", "surrogateescape"))
            self.assertEqual((got.returncode, got.stdout), (0, b""), got.stderr)
        self.assertEqual(self.table("1.db").checksum(), self.table("4.db").checksum())
        self.assertEqual(self.table("1.db").summary(), (41, 0, 0, 8, 7))

    def test_the_same_command_goes_on(self):
        self.filled("table.db", self.paths[:10])
        base = sqlite3.connect(os.path.join(self.room, "table.db"))
        base.execute("UPDATE file SET message = 'kept'")
        base.commit()
        base.close()
        unread = os.path.join(self.room, "late.yaml")
        got = self.filled("table.db", [*self.paths, unread])
        self.assertEqual(got.returncode, 1, got.stderr)
        self.assertIn(b"41 done, 0 refused, 1 unread", got.stderr)
        self.assertIn(b"32 of 32 files", got.stderr)
        self.assertEqual(sum(one.message == "kept" for one in self.table("table.db").rows()), 10)
        self.write("late.yaml", b"late")
        got = self.filled("table.db", [*self.paths, unread])
        self.assertEqual(got.returncode, 0, got.stderr)
        self.assertIn(b"1 of 1 files", got.stderr)

    def test_a_worker_that_is_killed_ends_the_command(self):
        fifo = b"".join(os.fsencode(path) + b"\0" for path in self.paths * 2000)
        going = subprocess.Popen(
            [sys.executable, "-c", SLOW, "table.db", "--jobs", "2", "--batch", "2"],
            stdin=subprocess.PIPE, stderr=subprocess.PIPE, cwd=self.room, env=ENVIRONMENT,
        )  # fmt: skip
        going.stdin.write(fifo)
        going.stdin.close()
        going.stdin = None
        workers = []
        while len(workers) < 2:
            time.sleep(0.05)
            self.assertIsNone(going.poll())
            workers = children(going.pid)
        os.kill(workers[0], signal.SIGKILL)
        told = going.communicate(timeout=60)[1]
        self.assertEqual(going.returncode, 3, told)
        self.assertIn(b"a worker was killed: the same command goes on from here", told)
        got = self.filled("table.db", self.paths)
        self.assertEqual((got.returncode, self.table("table.db").summary()), (0, (41, 0, 0, 8, 7)), got.stderr)

    def test_an_interrupt_of_all_its_processes_ends_the_command(self):
        given = b"".join(os.fsencode(path) + b"\0" for path in self.paths * 2000)
        going = subprocess.Popen(
            [sys.executable, "-c", SLOW, "table.db", "--jobs", "4", "--batch", "2"],
            stdin=subprocess.PIPE, stderr=subprocess.PIPE, cwd=self.room, env=ENVIRONMENT, start_new_session=True,
        )  # fmt: skip
        self.addCleanup(going.kill)
        going.stdin.write(given)
        going.stdin.close()
        going.stdin = None
        wait_until(lambda: len(children(going.pid)) == 4)
        time.sleep(0.3)
        os.killpg(going.pid, signal.SIGINT)
        told = going.communicate(timeout=60)[1]
        self.assertEqual((going.returncode, told), (3, b"ended: the same command goes on from here\n"))
        got = self.filled("table.db", self.paths)
        self.assertEqual((got.returncode, self.table("table.db").summary()), (0, (41, 0, 0, 8, 7)), got.stderr)

    def test_a_cache_serves_a_second_table(self):
        self.write("cache.db", b"")
        for name in ("1.db", "2.db"):
            self.assertEqual(self.filled(name, self.paths, "--cache", "cache.db").returncode, 0)
        self.assertEqual(self.table("1.db").checksum(), self.table("2.db").checksum())
        held = sqlite3.connect(os.path.join(self.room, "cache.db")).execute("SELECT count(*), min(version) FROM meaning").fetchone()
        self.assertEqual(held, (8, library_key()))


class Libraries(Folder):
    """A later release of the library, whose version is the same, accepts what an earlier one has rejected."""

    REJECT = "SET status = 2, digest = NULL, number = 4, message = '4 Syntax at byte 0'"

    def setUp(self):
        super().setUp()
        self.paths, self.later = [self.write("a.yaml", b"a: 1")], self.other_library()

    def test_a_cache_of_another_library_is_not_taken(self):
        self.assertEqual(self.filled("1.db", self.paths, "--cache", "cache.db").returncode, 0)
        self.changed("cache.db", "UPDATE meaning " + self.REJECT)
        self.assertEqual(self.filled("2.db", self.paths, "--cache", "cache.db").returncode, 1)
        got = self.filled("3.db", self.paths, "--cache", "cache.db", library=self.later)
        self.assertEqual((got.returncode, b"1 done, 0 refused" in got.stderr), (0, True), got.stderr)

    def test_a_table_of_another_library_is_not_gone_on_with(self):
        self.filled("1.db", self.paths)
        got = self.filled("1.db", [*self.paths, self.write("b.yaml", b"b")], library=self.later)
        self.assertEqual((got.returncode, b"begin another table" in got.stderr), (3, True), got.stderr)

    def test_drift_between_two_libraries_says_so(self):
        self.filled("1.db", self.paths)
        self.changed("1.db", "UPDATE file " + self.REJECT)
        self.filled("2.db", self.paths, library=self.later)
        got = self.command("--drift", "1.db", "2.db")
        self.assertEqual((got.returncode, got.stdout), (1, b"accepted\t" + os.fsencode(self.paths[0]) + b"\n"))
        self.assertIn(b"1.db is of the library " + library_key().encode() + b", and 2.db of form1 ", got.stderr)
        got = self.command("--drift", "2.db", "1.db")
        self.assertEqual((got.returncode, got.stdout), (1, b"refused\t" + os.fsencode(self.paths[0]) + b"\n"))

    def test_drift_between_two_forms_is_not_told(self):
        self.filled("1.db", self.paths)
        self.filled("2.db", self.paths)
        for key in ("form2 2.0 0", "100"):
            self.changed("2.db", f"UPDATE library SET version = '{key}'")
            got = self.command("--drift", "1.db", "2.db")
            self.assertEqual((got.returncode, got.stdout, key.encode() in got.stderr), (3, b"", True))

    def test_a_bag_of_another_library_is_not_taken(self):
        bag = os.path.join(os.path.dirname(os.path.dirname(HERE)), "examples", "dask_bag.py")
        if not os.path.exists(bag):
            self.skipTest("the examples are not here")
        got = []
        for library in (yamlcanon.library.file, self.later):
            words = [sys.executable, "-c", BAG, bag, self.room, *self.paths]
            done = subprocess.run(words, capture_output=True, env={**ENVIRONMENT, "YAMLCANON_LIBRARY": library}, timeout=120)
            self.assertEqual((done.returncode, done.stdout.count(b"\n")), (0, 1), done.stderr)
            got.append({name for name in os.listdir(self.room) if name.endswith(".csv")})
        self.assertEqual([len(names) for names in got], [1, 2])


# A batch of examples/dask_bag.py, where dask is not installed.
BAG = """
import importlib.util, sys, types
for name in ("dask", "dask.bag", "distributed"):
    sys.modules[name] = types.ModuleType(name)
sys.modules["distributed"].Client = None
spec = importlib.util.spec_from_file_location("dask_bag", sys.argv[1])
bag = importlib.util.module_from_spec(spec)
spec.loader.exec_module(bag)
print(bag.part(sys.argv[3:], sys.argv[2], "/"))
"""


# The command, with a library that takes its time. It heeds an interrupt also where this test was begun by who ignores them.
SLOW = """
import signal, sys, time
from yamlcanon import many, table
signal.signal(signal.SIGINT, signal.default_int_handler)
meaning = table.meaning
def slowly(data):
    time.sleep(0.2)
    return meaning(data)
table.meaning = slowly
sys.exit(many.main(sys.argv[1:]))
"""


def children(process):
    with open(f"/proc/{process}/task/{process}/children", encoding="ascii") as file:
        return [int(number) for number in file.read().split()]


class Questions(Folder):
    def test_duplicates_are_told_by_groups(self):
        paths = [
            self.write(name, data)
            for name, data in (
                ("a", b"x: 1"), ("b", b"x: 1"), ("c", b"{x: 0x1}"), ("d", b"x: 2"), ("e", b"# none"), ("f", b""), ("g", b"~"), ("h", b"null"), ("i", b"{"),
            )
        ]  # fmt: skip
        self.filled("table.db", paths)
        got = self.command("--duplicates", "table.db")
        at = self.room.encode() + b"/"
        self.assertEqual(got.returncode, 0, got.stderr)
        self.assertEqual(
            got.stdout.replace(at, b""),
            b"# 3 files mean the same, in 2 spellings\n=\ta\n=\tb\n~\tc\n"
            b"# 2 files hold one null, in 2 spellings\n=\tg\n~\th\n# 2 files hold no document, in 2 spellings\n=\te\n~\tf\n",
        )

    def test_drift_tells_what_became_of_each_file(self):
        before = {"same": b"a: 1", "spelled": b"a: 1", "meant": b"a: 1", "gone": b"a", "broken": b"a", "mended": b"{", "bad": b"{"}
        after = {"same": b"a: 1", "spelled": b"{a: 1}", "meant": b"a: 2", "new": b"a", "broken": b"{", "mended": b"a", "bad": b"{"}
        for name, files in (("old.db", before), ("new.db", after)):
            for path, data in files.items():
                self.write(path, data)
            self.filled(name, files)
        got = self.command("--drift", "old.db", "new.db")
        self.assertEqual(
            sorted(got.stdout.splitlines()),
            [b"accepted\tmended", b"gone\tgone", b"meaning\tmeant", b"new\tnew", b"refused\tbroken", b"spelling\tspelled"],
        )
        self.assertEqual((got.returncode, got.stderr), (1, b"1 accepted, 1 gone, 1 meaning, 1 new, 1 refused, 2 same, 1 spelling\n"))
        got = self.command("--drift", "old.db", "old.db")
        self.assertEqual((got.returncode, got.stdout, got.stderr), (0, b"", b"7 same\n"))

    def test_an_unread_file_is_no_change_of_meaning(self):
        done, unread = Row("a", 0, "d", None, None, 1, "r"), Row("a", 3, None, None, "No", None, None)
        self.assertEqual([change(done, unread), change(unread, done), change(unread, unread)], ["unread"] * 3)

    def test_a_table_that_is_none_is_told(self):
        for name in ("none.db", "cache.db"):
            self.write(name, b"no table\n" * 1000)
        for words in (("none.db",), ("--duplicates", "none.db"), ("--drift", "none.db", "none.db"), ("no/folder.db",)):
            got = self.command(*words)
            self.assertEqual((got.returncode, got.stderr.count(b"\n")), (3, 1), got.stderr)
        got = self.filled("a.db", [self.write("a", b"a")], "--cache", "cache.db")
        self.assertEqual((got.returncode, b"Traceback" in got.stderr), (3, False), got.stderr)

    def test_a_table_is_not_changed_by_a_question(self):
        name = "a?b#c%41.db"
        self.filled(name, [self.write(str(number), b"a: %d" % (number % 2)) for number in range(4)])
        before, files = self.read(name), sorted(os.listdir(self.room))
        for words in (("--duplicates", name), ("--drift", name, name)):
            got = self.command(*words)
            self.assertEqual((got.returncode, got.stdout.count(b"#")), (0, 2 if "--duplicates" in words else 0), got.stderr)
        self.assertEqual((sorted(os.listdir(self.room)), self.read(name) == before), (files, True))

    def test_a_table_that_is_being_filled_is_read(self):
        filled = self.table("table.db")
        filled.add([Row(name, 0, "d", None, None, 1, "r") for name in "ab"])
        got = self.command("--duplicates", "table.db")
        self.assertEqual((got.returncode, got.stdout), (0, b"# 2 files mean the same, in 1 spelling\n=\ta\n=\tb\n"), got.stderr)

    def test_the_database_of_another_program_is_left_alone(self):
        self.filled("own.db", [self.write("a", b"a")])
        for statement in ("CREATE TABLE users (name)", "CREATE TABLE file (path)", "CREATE TABLE meaning (raw)"):
            before = self.changed("other.db", "DROP TABLE IF EXISTS users", "DROP TABLE IF EXISTS file", statement)
            for words, what in (
                (("--duplicates", "other.db"), b"table"), (("--drift", "own.db", "other.db"), b"table"), (("--drift", "other.db", "own.db"), b"table"),
                (("other.db",), b"table"), (("new.db", "--cache", "other.db"), b"cache"),
            ):  # fmt: skip
                got = self.command(*words, given=b"a\0")
                self.assertEqual((got.returncode, got.stderr, got.stdout), (3, b"other.db: no %s of yamlcanon.many\n" % what, b""))
                self.assertEqual(self.read("other.db"), before)

    def test_an_output_that_is_closed_ends_the_command(self):
        self.filled("table.db", [self.write(name, b"a: 1") for name in "abc"])
        open_end, closed = os.pipe()
        os.close(open_end)
        for words in (("--duplicates", "table.db"), ("--drift", "empty.db", "table.db")):
            self.filled("empty.db", [])
            got = subprocess.run(
                [sys.executable, "-m", "yamlcanon.many", *words], stdout=closed, stderr=subprocess.PIPE, cwd=self.room, env=ENVIRONMENT, timeout=120
            )  # fmt: skip
            self.assertEqual((got.returncode, got.stderr), (3, b""))
        os.close(closed)

    def test_words_that_ask_for_nothing(self):
        for words in ((), ("--duplicates", "none.db"), ("a.db", "--jobs", "0"), ("a.db", "--drift", "a.db", "b.db")):
            self.assertEqual(self.command(*words).returncode, 2)
        self.assertEqual(os.listdir(self.room), [])


if __name__ == "__main__":
    unittest.main()
