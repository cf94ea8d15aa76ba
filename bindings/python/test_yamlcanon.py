"""python3 -m unittest: the module over the library."""

import array
import asyncio
import concurrent.futures
import doctest
import hashlib
import json
import mmap
import multiprocessing
import os
import pathlib
import pickle
import random
import shutil
import subprocess
import sys
import tempfile
import threading
import unittest

import yamlcanon
from yamlcanon import (
    FORM,
    Kind,
    NoJson,
    Refused,
    budget,
    canonical,
    canonical_file,
    diff,
    events,
    iter_events,
    library_release,
    library_version,
    load,
    same,
    sha256,
    show,
    to_json,
)
from yamlcanon.library import message_of
from yamlcanon.position import position_of

# A command finds the module where these tests have found it.
ENVIRONMENT = {**os.environ, "PYTHONPATH": os.path.dirname(os.path.dirname(os.path.realpath(yamlcanon.__file__)))}


def blocks(levels):
    """Block mappings, each with a tag and an anchor on lines of their own."""
    dents = (b" " * level for level in range(levels))
    return b"".join(b"%sa:\n%s !x\n%s &y\n" % (dent, dent, dent) for dent in dents) + b" " * levels + b"x"


# Flow mappings in one another: what takes the most stack.
DEEPEST = b"{a: " * 1023 + b"x" + b"}" * 1023


# An input for each kind of error but 1, 18 and 20.
REFUSED = (
    b"\xff", b"a\0", b"[a", b"a:\tb", b"a" * 1025 + b": b", b"[" * 1025, b'"\\q"', b"%YAML 1.3\n---\n", b"!e!x v", b"!!%ff x", b"[*x]", b"&a [*a]",
    b"!!seq x", b"!!int x", b"0x8" + b"0" * 31, b"1e-1000001", b"{1: a, 0x1: b}",
)  # fmt: skip


# Inputs that are rejected for an event, a document or two keys, with the number of the error, the line and the column.
PLACED = (
    (b"a: 1\nb: *x\n", 12, (2, 4)),
    (b"a: &a\n  b: [*a]", 13, (2, 7)),
    (b"a: 1\nb: !!seq x", 14, (2, 4)),
    (b"a: 1\r\nb: &x !!int x", 15, (2, 7)),
    (b"\xef\xbb\xbf0x8" + b"0" * 31, 16, (1, 1)),
    ("\u00e9: [\u00e9, 1e-1000001]".encode(), 17, (1, 8)),
    (b"--- a\n---\n" + b"- " * 1024 + b"x", 18, (3, 1)),
    (b"- {b: 1}\n- a: 1\n  b: 2\n  a: 3", 19, (4, 3)),
    (b"[" * 1000 + b"{a: 1, 'a': 2}" + b"]" * 1000, 19, (1, 1008)),
)

# Inputs that JSON cannot express, with the line and the column of the first such node.
UNSAYABLE = (
    (b"a: 1\nb: .inf\nc: .nan", (2, 4)),
    (b"a: 1\n80: x", (2, 1)),
    (b"a\n--- [b, !x c]", (2, 9)),
    (b"[" * 1000 + b"{~: b}" + b"]" * 1000, (1, 1002)),
)


def position_by_definition(data, at):
    """Line and column by counting: a line more for each break that ends before, a column more for each character of the line before."""
    text = data[3:] if data.startswith(b"\xef\xbb\xbf") else data
    at = max(at - (len(data) - len(text)), 0)
    ends = [k for k in range(at) if text[k] == 10 or text[k] == 13 and text[k + 1 : k + 2] != b"\n"]
    start = ends[-1] + 1 if ends else 0
    return 1 + len(ends), 1 + sum(byte < 128 or byte >= 192 for byte in text[start:at])


def answer(data):
    try:
        return canonical(data)
    except Refused as fault:
        return str(fault)


def or_memory(work):
    """What some work gives, or MemoryError where that is raised."""
    try:
        return work()
    except MemoryError:
        return MemoryError


def refusal(work):
    """What some work raises."""
    try:
        return work()
    except ValueError as fault:
        return fault


def on_thread(stack, work):
    """What some work gives on a thread with so many bytes of stack."""
    got = []
    before = threading.stack_size(stack)
    thread = threading.Thread(target=lambda: got.append(work()))
    thread.start()
    threading.stack_size(before)
    thread.join()
    return got[0]


class Calls(unittest.TestCase):
    def test_texts(self):
        self.assertEqual(canonical(b"{b: 0x1, a: [~]}"), b'--- {"a" : [!!null "null"], "b" : !!int "1"}\n')
        self.assertEqual(canonical(b""), b"")
        self.assertEqual(events(b"a"), b"+STR\n+DOC\n=VAL :a\n-DOC\n-STR\n")

    def test_the_digest_is_that_of_the_text(self):
        for data in (b"", b"{b: 0x1, a: [~]}", "é: [1, 2]", b"- \n" * 10_000, DEEPEST):
            self.assertEqual(sha256(data), hashlib.sha256(canonical(data)).digest())
        for data in (*REFUSED, b"- " * 1024 + b"x"):
            with self.assertRaises(Refused) as wanted:
                canonical(data)
            with self.assertRaises(Refused) as seen:
                sha256(data)
            self.assertEqual(seen.exception, wanted.exception)
            self.assertEqual(seen.exception.line, wanted.exception.line)

    def test_readable_texts_mean_the_same(self):
        for data in (b"", b"{b: 0x1, a: [~]}", "é: &x [yes, 'a b']\nf: *x\n--- |\n x\n", b"- \n" * 10_000, DEEPEST, blocks(1023)):
            text = show(data)
            self.assertTrue(same(data, text))
            self.assertEqual(show(text), text)
            self.assertEqual(show(canonical(data)), text)
        for data in (*REFUSED, b"- " * 1024 + b"x"):
            with self.assertRaises(Refused) as wanted:
                canonical(data)
            for call in (show, to_json):
                with self.assertRaises(Refused) as seen:
                    call(data)
                self.assertEqual(seen.exception, wanted.exception)
                self.assertEqual(seen.exception.line, wanted.exception.line)

    def test_a_text_with_aliases_written_out_is_too_long(self):
        data = b"a0: &a0 x\n" + b"".join(b"a%d: &a%d [*a%d, *a%d]\n" % (k, k, k - 1, k - 1) for k in range(1, 40))
        self.assertLess(len(canonical(data)), 2000)
        for call in (show, to_json):
            with self.assertRaises(Refused) as seen:
                call(data)
            self.assertEqual(seen.exception.kind, Kind.TextTooLong)

    def test_json_has_the_values(self):
        data = b'b: 0x1F\na: [~, .5, yes, "\\u2028", 1e3]\n--- &x "l\\r\\n"\n--- {c: {}}\n'
        values = [json.loads(line) for line in to_json(data).split(b"\n")[:-1]]
        self.assertEqual(values, [{"a": [None, 0.5, "yes", "\u2028", 1000.0], "b": 31}, "l\r\n", {"c": {}}])
        self.assertEqual(to_json(b""), b"")
        self.assertEqual(json.loads(to_json(b"[" * 900 + b"]" * 900)), json.loads("[" * 900 + "]" * 900))

    def test_what_json_cannot_express(self):
        for data in (b"{1: a}", b"{[a]: b}", b"{~: b}", b"- .inf", b"- -.inf", b"- .nan", b"- !x a", b"!x {}", b"- a\n--- {!x b: c}"):
            self.assertTrue(same(show(data), data))
            with self.assertRaisesRegex(NoJson, "^JSON cannot express this stream$"):
                to_json(data)
        self.assertTrue(issubclass(NoJson, ValueError) and not issubclass(NoJson, Refused))
        for data, place in UNSAYABLE:
            for stack in (64 << 10, 0):
                fault = on_thread(stack, lambda data=data: refusal(lambda: to_json(data)))
                self.assertEqual((type(fault), fault.line, fault.column), (NoJson, *place), data)
            again = pickle.loads(pickle.dumps(fault))
            self.assertEqual((str(again), vars(again)), (str(fault), vars(fault)))

    def test_events_one_by_one(self):
        data = "- a\n- |\n  \u2028b\x85\n---\n&x {}"
        self.assertEqual("".join(event + "\n" for event in iter_events(data)), events(data).decode())
        with self.assertRaises(Refused):
            iter_events("[a")

    def test_a_limit_of_memory(self):
        data = b"- a\n" * 10_000
        calls = [
            (lambda **how: canonical(data, **how), canonical(data)),
            (lambda **how: events(data, **how), events(data)),
            (lambda **how: show(data, **how), show(data)),
            (lambda **how: to_json(data, **how), to_json(data)),
            (lambda **how: sha256(data, **how), sha256(data)),
            (lambda **how: same(data, data, **how), True),
        ]
        for call, answer_without in calls:
            with self.assertRaisesRegex(MemoryError, "^yamlcanon: 21 OutOfMemory$"):
                call(memory=10_000)
            with budget(10_000):
                self.assertRaises(MemoryError, call)
                self.assertEqual(call(memory=0), answer_without)
                with budget(1 << 30):
                    self.assertEqual(call(), answer_without)
                self.assertRaises(MemoryError, call)
                # The call is handed to another thread, and its limit with it.
                self.assertIs(on_thread(128 << 10, lambda call=call: or_memory(lambda: call(memory=10_000))), MemoryError)
            self.assertEqual(call(), answer_without)
        for wrong in (-1, 1 << 64):
            self.assertRaises(ValueError, canonical, b"a", memory=wrong)
            self.assertRaises(ValueError, budget(wrong).__enter__)

    def test_a_limit_is_one_thread_s_and_one_task_s(self):
        data = b"- a\n" * 10_000
        with budget(10_000):
            self.assertEqual(on_thread(0, lambda: canonical(data)), canonical(data, memory=0))

        async def task(memory):
            with budget(memory):
                await asyncio.sleep(0.01)
                return or_memory(lambda: canonical(data))

        async def both():
            return await asyncio.gather(task(10_000), task(0))

        self.assertEqual(asyncio.run(both()), [MemoryError, canonical(data)])

    def test_whether_streams_are_the_same(self):
        self.assertIs(same(b"a: 0x3", b"{a: 3}"), True)
        self.assertIs(same(b"a: 0x3", b"{a: 4}"), False)

    def test_a_text_longer_than_the_first_room(self):
        many = b"- \n" * 100_000
        text = canonical(many)
        self.assertGreater(len(text), 2 * len(many) + 64)
        self.assertEqual(canonical(text), text)
        self.assertTrue(same(many, text))

    def test_bytes_and_text_are_taken(self):
        for data in (b"a", bytearray(b"a"), memoryview(b"a"), memoryview(b"abc")[:1], array.array("B", b"a"), "a"):
            self.assertEqual(canonical(data), b'--- "a"\n')
        with mmap.mmap(-1, 4096) as mapped:
            mapped[:] = b" " * 4095 + b"a"
            self.assertEqual(canonical(mapped), b'--- "a"\n')
        self.assertEqual(canonical("\ufeffé"), canonical(b"\xef\xbb\xbf\xc3\xa9"))
        self.assertTrue(same("é", b"\xc3\xa9"))
        for data in (5, None, [97], pathlib.Path("a")):
            for call in (canonical, events, lambda it: same(it, b"a"), lambda it: same(b"a", it)):
                with self.assertRaisesRegex(TypeError, "^yamlcanon: an input is bytes, .* not %s; " % type(data).__name__):
                    call(data)
        with self.assertRaises(UnicodeEncodeError):
            canonical("\ud800")

    def test_a_file(self):
        with tempfile.TemporaryDirectory() as room:
            path = pathlib.Path(room, "a.yaml")
            path.write_bytes(b"b: 0x1\r\n")
            for name in (path, str(path), os.fsencode(path)):
                self.assertEqual(canonical_file(name), b'--- {"b" : !!int "1"}\n')
            os.truncate(path, 1 << 34)
            with self.assertRaises(Refused) as seen:
                canonical_file(path)
            self.assertEqual(str(seen.exception), "1 TooLong")
            with self.assertRaises(FileNotFoundError):
                canonical_file(path.parent / "none")

    def test_a_refusal_tells_its_place_and_side(self):
        with self.assertRaises(Refused) as seen:
            canonical(b"{1: a, 0x1: b}")
        self.assertEqual(str(seen.exception), "19 EqualKeys in node 4, entries 0 and 1")
        with self.assertRaises(Refused) as seen:
            same(b"a", b"- a\n\t- b")
        fault = seen.exception
        self.assertEqual(str(fault), "right: 5 Tab at byte 4")
        self.assertEqual((fault.number, fault.name, fault.place, fault.side), (5, "Tab", 4, "right"))
        self.assertEqual((fault.kind, fault.line, fault.column), (Kind.Tab, 2, 1))

    def test_each_kind_has_the_name_that_the_library_gives(self):
        found = {}
        for data in (*REFUSED, b"a" * 67_108_865, b"- " * 1024 + b"x", b"a" * 67_108_860):
            with self.assertRaises(Refused) as seen:
                canonical(data)
            found[seen.exception.number] = seen.exception
        self.assertEqual(sorted(found), list(range(1, 21)))
        for number, fault in found.items():
            self.assertEqual((fault.kind, fault.kind.name), (number, fault.name))
            self.assertEqual(fault.line is None, number in (1, 20))

    def test_the_message_of_an_error_that_the_library_does_not_know(self):
        self.assertIsNone(message_of(24, 0, 0, 0))
        self.assertEqual(str(Refused(24, "Later", 7, side="left")), "left: 24 Later")
        self.assertEqual([Refused(number, "Later").kind for number in (0, 22, 24)], [Kind.Other] * 3)

    def test_refusals_are_equal_by_what_they_say(self):
        with self.assertRaises(Refused) as seen:
            canonical(b"- a\n\t- b")
        fault = seen.exception
        self.assertEqual(fault, Refused(5, "Tab", 4))
        self.assertEqual(hash(fault), hash(Refused(5, "Tab", 4)))
        for other in (
            Refused(5, "Tab", 5),
            Refused(4, "Syntax", 4),
            Refused(5, "Tab", 4, side="left"),
            ValueError("5 Tab at byte 4"),
            None,
        ):
            self.assertNotEqual(fault, other)

    def test_lines_and_columns_are_those_of_the_definition(self):
        chance = random.Random(1)
        parts = [b"\n", b"\r", b"\r\n", b"a", "é".encode(), "\u2028".encode(), "\U0001f600".encode(), b"\x85"]
        for number in range(3000):
            data = (b"\xef\xbb\xbf" if number % 3 == 0 else b"") + b"".join(chance.choice(parts) for _ in range(number % 12))
            for at in range(len(data) + 1):
                self.assertEqual(position_of(data, 4, at), position_by_definition(data, at), (data, at))
            self.assertIsNone(position_of(data, 4, len(data) + 1))
            self.assertIsNone(position_of(data, 20, 0))

    def test_lines_and_columns_of_events_documents_and_keys(self):
        for data, number, place in PLACED:
            for call in (canonical, show, to_json, sha256, load, lambda it: same(b"a", it), lambda it: diff(it, b"a")):
                fault = refusal(lambda call=call, data=data: call(data))
                self.assertEqual((fault.number, fault.line, fault.column), (number, *place), data)
            small = on_thread(64 << 10, lambda data=data: refusal(lambda: canonical(data)))
            self.assertEqual((small.line, small.column), place)
            self.assertIsNone(Refused(number, fault.name, fault.place).locate(data, 1000).line)
            self.assertEqual(position_of(data, number, 1 << 62), None)
            self.assertIsNone(position_of(b"[a", number, fault.place))

    def test_a_place_is_found_in_the_input_that_is_rejected(self):
        left, right = b"a:\r\n  b: \xc3\xa9\xc3\xa9\r\n  c: 1\r\n\td: 2", b"\xef\xbb\xbf- a\n- %"
        for words, wanted in (
            ((canonical, left), (4, 1)),
            ((same, left, b"a"), (4, 1)),
            ((same, b"a", left), (4, 1)),
            ((events, right), (2, 3)),
            ((same, b"a", right), (2, 3)),
            ((same, right, left), (2, 3)),
        ):
            with self.assertRaises(Refused) as seen:
                words[0](*words[1:])
            self.assertEqual((seen.exception.line, seen.exception.column), wanted, words)

    def test_a_refusal_comes_back_from_pickle(self):
        with self.assertRaises(Refused) as seen:
            same(b"a", b"{1: a, 0x1: b}")
        again = pickle.loads(pickle.dumps(seen.exception))
        self.assertEqual((str(again), vars(again)), (str(seen.exception), vars(seen.exception)))

    def test_a_refusal_comes_back_from_a_pool(self):
        # What can't be unpickled ends the one, and the other waits for ever.
        with concurrent.futures.ProcessPoolExecutor(1) as executor:
            with self.assertRaises(Refused) as seen:
                executor.submit(canonical, b"{1: a, 0x1: b}").result(60)
        self.assertEqual((str(seen.exception), seen.exception.number), ("19 EqualKeys in node 4, entries 0 and 1", 19))
        with multiprocessing.Pool(1) as pool:
            with self.assertRaises(Refused) as seen:
                pool.apply_async(same, (b"a", b"- a\n\t- b")).get(60)
        self.assertEqual((str(seen.exception), seen.exception.side), ("right: 5 Tab at byte 4", "right"))

    def test_the_version_of_the_library(self):
        self.assertEqual(library_version(), 101)
        self.assertEqual(FORM, 1)
        self.assertRegex(yamlcanon.__version__, r"^1\.1\.\d+$")
        self.assertEqual(library_release(), yamlcanon.__version__)

    def test_deep_inputs_on_threads_with_a_small_stack(self):
        deep = [b"[" * 1000 + b"]" * 1000, blocks(1023), b"- " * 3000, b"{a: " * 2000, DEEPEST]
        want, shown = [answer(data) for data in deep], show(DEEPEST)
        self.assertEqual(want[1][:4], b"--- ")
        least = 64 << 10 if os.uname().machine == "x86_64" else 128 << 10
        for stack in (least, 512 << 10, 2 << 20, 0):  # 0 is the default
            self.assertEqual(on_thread(stack, lambda: [answer(data) for data in deep]), want)
            self.assertTrue(on_thread(stack, lambda: same(deep[1], deep[1])))
            self.assertEqual(on_thread(stack, lambda: show(DEEPEST)), shown)
            self.assertEqual(on_thread(stack, lambda: to_json(DEEPEST).count(b"{")), 1023)

    def test_deep_inputs_where_a_part_of_the_stack_is_used(self):
        for stack, left in ((2 << 20, 1 << 20), (4 << 20, 1 << 20), (8 << 20, 1 << 20), (8 << 20, 6 << 20)):
            # ctypes puts an argument on the stack twice.
            words = [sys.executable, "-c", PARTLY_USED, str(stack), str((stack - left) // 2)]
            done = subprocess.run(words, capture_output=True, env=ENVIRONMENT, timeout=120)
            self.assertEqual((done.returncode, done.stdout), (0, b"True True\n"), (stack, left, done.stderr))

    def test_memory_is_lacking_where_no_thread_can_be_had(self):
        done = subprocess.run([sys.executable, "-c", NO_THREAD], capture_output=True, env=ENVIRONMENT, timeout=120)
        self.assertEqual((done.returncode, done.stdout), (0, b"MemoryError True\n"), done.stderr)

    def test_what_is_left_of_the_stack(self):
        # In a process of its own: the system may give a new thread a larger stack, which another thread had.
        done = subprocess.run([sys.executable, "-c", LEFT], capture_output=True, env=ENVIRONMENT, timeout=120)
        self.assertTrue(960 << 10 < int(done.stdout) < 1 << 20, (done.stdout, done.stderr))

    def test_many_threads_at_once(self):
        texts = [b"{a: [%d, b], c: 0x%x}" % (number, number) for number in range(200)]
        want = [answer(data) for data in texts]
        got = []
        threads = [threading.Thread(target=lambda: got.append([answer(data) for data in texts])) for _ in range(8)]
        for thread in threads:
            thread.start()
        for thread in threads:
            thread.join()
        self.assertEqual(got, [want] * 8)

    def test_a_call_in_the_midst_of_a_call(self):
        # A finalizer, a signal's handler or a tracer may call while a text still stands in the thread's room.
        want, inner, is_inside = canonical(b"outer: 1"), [], []

        def tracer(frame, _event, _word):
            if frame.f_code.co_name in ("_text", "called", "keep_room", "take_room") and not is_inside:
                is_inside.append(True)
                inner.append(canonical(b"inner: 2"))
                is_inside.pop()
            return tracer

        sys.settrace(tracer)
        try:
            got = canonical(b"outer: 1")
        finally:
            sys.settrace(None)
        self.assertEqual(got, want)
        self.assertTrue(inner)


# Calls with a deep input on a thread with a small stack: while the process may have no more than 2 MiB more, which is less than the stack
# of a thread for a call, and then. No call is made before, since the system would keep its thread's stack.
NO_THREAD = """
import resource, threading, yamlcanon
deep, limits = "[" * 1000 + "]" * 1000, resource.getrlimit(resource.RLIMIT_AS)
def answer():
    try:
        return yamlcanon.same(deep, deep)
    except MemoryError as fault:
        return type(fault).__name__
def answers():
    with open("/proc/self/statm") as file:
        size = int(file.read().split()[0]) * resource.getpagesize()
    resource.setrlimit(resource.RLIMIT_AS, (size + (2 << 20), limits[1]))
    within = answer()
    resource.setrlimit(resource.RLIMIT_AS, limits)
    print(within, answer())
threading.stack_size(256 << 10)
thread = threading.Thread(target=answers)
thread.start()
thread.join()
"""

# What is left of the stack of 1 MiB of a thread.
LEFT = """
import threading, yamlcanon
threading.stack_size(1 << 20)
thread = threading.Thread(target=lambda: print(yamlcanon._thread.stack_left()))
thread.start()
thread.join()
"""

# Calls with a deep input on a thread, a part of whose stack holds an argument of so many bytes.
PARTLY_USED = """
import ctypes, sys, threading, yamlcanon
stack, used = map(int, sys.argv[1:])
deep = b"{a: " * 1023 + b"x" + b"}" * 1023
want = yamlcanon.canonical(deep)
class Block(ctypes.Structure):
    _fields_ = [("bytes", ctypes.c_char * used)]
@ctypes.CFUNCTYPE(None, Block)
def inside(block):
    print(yamlcanon.canonical(deep) == want, yamlcanon.same(deep, want))
threading.stack_size(stack)
thread = threading.Thread(target=lambda: inside(Block()))
thread.start()
thread.join()
"""


# A library of another interface, or of another form.
OTHER = (
    "#include <stdint.h>\nuint32_t yamlcanon_version(void) { return VERSION; }\nuint32_t yamlcanon_form(void) { return FORM; }\n"
    + "".join(
        f"uint32_t yamlcanon_{name}(void) {{ return 0; }}\n"
        for name in (
            *("canonical_within", "diff_within", "events_within", "json_within", "same_within", "sha256_within", "show_within"),
            *("values_within", "position_within", "json_position_within", "message", "position", "release"),
        )
    )
)


class Libraries(unittest.TestCase):
    def setUp(self):
        room = tempfile.TemporaryDirectory()
        self.addCleanup(room.cleanup)
        self.room = room.name

    def imported(self, library):
        """What the import of the module over a library says, in its last line."""
        env = {**ENVIRONMENT, "YAMLCANON_LIBRARY": library}
        done = subprocess.run([sys.executable, "-c", "import yamlcanon"], stderr=subprocess.PIPE, env=env, timeout=60)
        return done.stderr.decode().rpartition("\n")[0].rpartition("\n")[2]

    def other(self, version, form):
        """A library that says that it has this version, and gives texts of this form."""
        with open(f"{self.room}/other.c", "w", encoding="ascii") as file:
            file.write(OTHER)
        words = ["cc", f"-DVERSION={version}", f"-DFORM={form}", "-shared", "-fPIC", "-o", "other.so", "other.c"]
        subprocess.run(words, check=True, cwd=self.room)
        return f"{self.room}/other.so"

    @unittest.skipUnless(shutil.which("cc"), "no C compiler is installed")
    def test_another_interface_or_form_is_not_loaded(self):
        self.assertEqual(self.imported(self.other(101, 1)), "")
        self.assertEqual(self.imported(self.other(102, 1)), "")
        for version, told in ((99, "0.99"), (100, "1.0"), (200, "2.0"), (201, "2.1")):
            other = self.other(version, 1)
            needs = "of the interface, and this module needs 1.1 or a later 1.x"
            self.assertEqual(self.imported(other), f"ImportError: yamlcanon: {other} has version {told} {needs}")
        other = self.other(101, 2)
        needs = "gives texts of form 2, and this module needs a library of form 1"
        self.assertEqual(self.imported(other), f"ImportError: yamlcanon: {other} {needs}")

    def test_another_library_is_not_loaded(self):
        told = "ImportError: yamlcanon: libc.so.6 is not libyamlcanon: it has no yamlcanon_version"
        self.assertEqual(self.imported("libc.so.6"), told)

    def test_the_file_that_was_loaded_is_known(self):
        with open(yamlcanon.library.file, "rb") as file:
            self.assertEqual(file.read(4), b"\x7fELF")


def load_tests(_loader, tests, _pattern):
    """Adds the examples of the documentation."""
    for module in (yamlcanon, yamlcanon.library, yamlcanon.refused):
        tests.addTests(doctest.DocTestSuite(module))
    page = pathlib.Path(__file__).with_name("README.md")
    if page.exists():
        tests.addTests(doctest.DocFileSuite(str(page), module_relative=False))
    return tests


if __name__ == "__main__":
    unittest.main()
