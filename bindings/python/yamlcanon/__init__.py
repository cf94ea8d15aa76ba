r"""The canonical text of YAML 1.2 streams, and whether two streams mean the same (libyamlcanon by ctypes).

    canonical(data) -> bytes          the canonical text
    canonical_file(path) -> bytes     the canonical text of a file
    sha256(data) -> bytes             the SHA-256 of the canonical text: what means the same has the same
    same(left, right) -> bool         whether two streams mean the same
    diff(left, right) -> list         where they differ
    show(data) -> bytes               readable YAML that means the same
    to_json(data) -> bytes            the documents as JSON, a line each
    load(data) -> list                the values of the documents; load_one(data) that of the only one
    events(data) -> bytes             the events, in the notation of yaml-test-suite; iter_events(data) one by one
    budget(memory)                    a memory limit for the calls inside a `with`
    library_version() -> int          the version of the library that is loaded, 101 for 1.1
    library_release() -> str          its release
    FORM, __version__                 the form of the canonical texts, the version of this module

`data` is bytes, a bytearray, a memoryview, an mmap or another buffer, or a str, which is read as its bytes in UTF-8. An input that is rejected raises
Refused, whose `kind` is one of Kind; what JSON cannot express raises NoJson. What needs more memory than there is, or than its limit, raises MemoryError.
Each call lets Python's lock go, holds no state, and may run on any number of threads, also on those with a small stack.

>>> canonical("{b: 0x1, a: [~]}")
b'--- {"a" : [!!null "null"], "b" : !!int "1"}\n'
>>> try:
...     canonical(b"port: 80\nhost:\tweb\n")
... except Refused as fault:
...     print(f"line {fault.line}, column {fault.column}: {fault}")
line 2, column 6: 5 Tab at byte 14
"""

import contextlib
import contextvars
import ctypes
import os
from ctypes import byref, c_size_t
from decimal import Decimal
from typing import TYPE_CHECKING, Any, Callable, Iterator, List, Optional, Union

from yamlcanon.differences import Difference, differences_in, lines_of
from yamlcanon.library import DONE, FORM, REFUSED, SHORT, Fault
from yamlcanon.library import lib as _lib
from yamlcanon.nojson import NoJson, unwritten as _unwritten
from yamlcanon.refused import Kind, Refused
from yamlcanon.stack import status_of, thread as _thread
from yamlcanon.values import Tagged, TooManyNodes, Unhashable, limit_for, records_of, values_in

__all__ = [
    "Difference",
    "FORM",
    "Kind",
    "NoJson",
    "Refused",
    "Tagged",
    "TooManyNodes",
    "Unhashable",
    "__version__",
    "budget",
    "canonical",
    "canonical_file",
    "diff",
    "events",
    "iter_events",
    "library_release",
    "library_version",
    "load",
    "load_one",
    "same",
    "sha256",
    "show",
    "to_json",
]

__version__ = "1.1.0"

if TYPE_CHECKING:
    # What memoryview takes, as bytes, bytearray, array and mmap.
    from _typeshed import ReadableBuffer

    Data = Union[ReadableBuffer, str]
else:
    Data = Union[bytes, bytearray, memoryview, str]

# No input has more bytes than this, so no more than one beyond it is read.
_LONGEST = 67_108_864
_DIGEST, _OUT_OF_MEMORY = 32, 21
# The greatest number of bytes that a call takes for a limit.
_MOST = c_size_t(-1).value
# The limit of the calls inside a `with budget(..)`, on each thread and in each task.
_limit: "contextvars.ContextVar[int]" = contextvars.ContextVar("yamlcanon.budget", default=0)


def _checked(memory: int) -> int:
    if not 0 <= memory <= _MOST:
        raise ValueError(f"yamlcanon: a memory limit is a number of bytes from 0 to {_MOST}, not {memory}")
    return memory


def _memory(memory: Optional[int]) -> int:
    """The limit of a call: the one that it is given, or the one of the `with` that it is in."""
    return _limit.get() if memory is None else _checked(memory)


def _raised(fault: Fault, memory: int, *inputs: bytes) -> Exception:
    """What a call on this input, or on these two, raises under a memory limit."""
    if fault.number == _OUT_OF_MEMORY:
        return MemoryError("yamlcanon: 21 OutOfMemory")
    side = ("left", "right")[fault.side] if len(inputs) > 1 else None
    refused = Refused(fault.number, fault.name.decode(), fault.place, fault.first, fault.second, side)
    return refused.locate(inputs[fault.side], memory)


def _bytes(data: Data) -> bytes:
    if type(data) is bytes:
        return data
    if isinstance(data, str):
        return data.encode()
    try:
        return bytes(memoryview(data))
    except TypeError:
        told = f"yamlcanon: an input is bytes, bytearray, memoryview or str, not {type(data).__name__}; canonical_file takes a path"
        raise TypeError(told) from None


def _text(call: Any, data: Data, memory: Optional[int]) -> bytes:
    own, limit = _bytes(data), _memory(memory)
    length, fault = c_size_t(), Fault()

    def called(room: Any) -> int:
        return status_of(len(own), call, own, len(own), room, len(room), byref(length), byref(fault), limit)

    room = _thread.take_room(2 * len(own) + 64)
    status = called(room)
    if status == SHORT:
        room = _thread.take_room(length.value)
        status = called(room)
    if status == REFUSED:
        raise _raised(fault, limit, own)
    if status != DONE:
        raise _unwritten(status, own, limit)
    text = bytes(memoryview(room)[: length.value])
    _thread.keep_room(room)
    return text


@contextlib.contextmanager
def budget(memory: int) -> Iterator[None]:
    r"""A limit for what each call inside the `with` may hold at once, in bytes; 0 is none. A call that needs more raises MemoryError.

    It holds for the calls of this thread, or of this task of asyncio. A `with` inside it, and `memory=` of a call, replace it.

    >>> with budget(100_000):
    ...     canonical("{b: 0x1, a: [~]}")
    b'--- {"a" : [!!null "null"], "b" : !!int "1"}\n'
    >>> with budget(1000):
    ...     canonical("{b: 0x1, a: [~]}")
    Traceback (most recent call last):
    MemoryError: yamlcanon: 21 OutOfMemory
    """
    before = _limit.set(_checked(memory))
    try:
        yield
    finally:
        _limit.reset(before)


def canonical(data: Data, *, memory: Optional[int] = None) -> bytes:
    r"""The canonical text of a stream. It is UTF-8, and empty for a stream without documents.

    memory: what the call may hold at once, in bytes.

    >>> canonical("b: 0x10\na: &b [x]\nc: *b")
    b'--- {"a" : &a1 ["x"], "b" : !!int "16", "c" : *a1}\n'
    >>> canonical(b"{a: 1, a: 2}")
    Traceback (most recent call last):
    yamlcanon.Refused: 19 EqualKeys in node 4, entries 0 and 1
    >>> canonical("a: b", memory=1000)
    Traceback (most recent call last):
    MemoryError: yamlcanon: 21 OutOfMemory
    """
    return _text(_lib.yamlcanon_canonical_within, data, memory)


def canonical_file(path: Union[str, bytes, "os.PathLike[Any]"], *, memory: Optional[int] = None) -> bytes:
    r"""The canonical text of a file. A file that is longer than an input may be is rejected, and not read to its end.

    >>> import os, tempfile
    >>> with tempfile.TemporaryDirectory() as room:
    ...     name = os.path.join(room, "app.yaml")
    ...     with open(name, "w") as file:
    ...         _ = file.write("port: 0x50\n")
    ...     canonical_file(name)
    b'--- {"port" : !!int "80"}\n'
    """
    with open(path, "rb") as file:
        return canonical(file.read(_LONGEST + 1), memory=memory)


def events(data: Data, *, memory: Optional[int] = None) -> bytes:
    """The events of a stream, in the notation of yaml-test-suite.

    >>> print(events("- &x a\\n- *x").decode(), end="")
    +STR
    +DOC
    +SEQ
    =VAL &x :a
    =ALI *x
    -SEQ
    -DOC
    -STR
    """
    return _text(_lib.yamlcanon_events_within, data, memory)


def iter_events(data: Data, *, memory: Optional[int] = None) -> Iterator[str]:
    """The same events one by one, each a str without the end of its line. An input that is rejected raises before the first.

    >>> [event for event in iter_events("- a\\n- b") if event.startswith("=VAL")]
    ['=VAL :a', '=VAL :b']
    """
    return iter(events(data, memory=memory).decode().split("\n")[:-1])


def same(left: Data, right: Data, *, memory: Optional[int] = None) -> bool:
    """Whether two streams mean the same. Refused has the `side` of the input that is rejected.

    >>> same("a: 0x3", "{a: 3}"), same("a: 3", "a: '3'")
    (True, False)
    >>> same("a: 3", "a: '3")
    Traceback (most recent call last):
    yamlcanon.Refused: right: 4 Syntax at byte 5
    """
    left, right = _bytes(left), _bytes(right)
    size, fault, limit = max(len(left), len(right)), Fault(), _memory(memory)
    call = _lib.yamlcanon_same_within
    status = status_of(size, call, left, len(left), right, len(right), byref(fault), limit)
    if status == REFUSED:
        raise _raised(fault, limit, left, right)
    return status == DONE


def diff(left: Data, right: Data, *, lines: int = 1000, memory: Optional[int] = None) -> List[Difference]:
    """Where two streams differ, as `yamlreview diff --format=json` prints it; an empty list if they mean the same.

    lines: how many differences are told at most. If there are more, a Difference of kind 'more' is behind them.

    >>> for one in diff("replicas: 0x3\\nports: [80]\\n", "{replicas: 5, ports: [80, 443]}"):
    ...     print(one.kind, one.path, one.left, one.right, one.left_place, one.right_place)
    changed .replicas !!int "3" !!int "5" (1, 11) (1, 12)
    right .ports[1] None !!int "443" None (1, 27)
    >>> diff("a: 3", "{a: 0x3}")
    []
    >>> diff("[a, b, c]", "[]", lines=1)[1:]
    [Difference(kind='more', path='', left=None, right=None, left_place=None, right_place=None)]
    """
    if not 0 <= lines <= _MOST:
        raise ValueError(f"yamlcanon: lines is a number from 0 to {_MOST}, not {lines}")
    left, right, limit = _bytes(left), _bytes(right), _memory(memory)
    text, fault = lines_of(left, right, lines, limit)
    if text is None:
        raise _raised(fault, limit, left, right)
    return differences_in(text)


def sha256(data: Data, *, memory: Optional[int] = None) -> bytes:
    """The SHA-256 of the canonical text, as `yamlreview sum` prints it in hexadecimal digits.

    >>> sha256("{b: 0x1, a: [~]}").hex()
    '96970e540112a1cb5d8cb917f7148434504e02d14b78a336158c68a612e1fc8e'
    >>> sha256("a: 0x3") == sha256("{a: 3}")
    True
    """
    own, digest, fault, limit = _bytes(data), ctypes.create_string_buffer(_DIGEST), Fault(), _memory(memory)
    if status_of(len(own), _lib.yamlcanon_sha256_within, own, len(own), digest, byref(fault), limit) != DONE:
        raise _raised(fault, limit, own)
    return digest.raw


def show(data: Data, *, memory: Optional[int] = None) -> bytes:
    r"""The stream as readable YAML, as `yamlreview show` writes it: block style, a line for each entry and item, aliases written out.

    It is checked to mean what the stream means before it is returned. Refused of kind TextTooLong means that this text would have more
    than 67,108,864 bytes.

    >>> print(show("{b: 0x10, a: &x [yes, 'on'], c: *x}").decode(), end="")
    ---
    a:
      - "yes"
      - "on"
    b: 16
    c:
      - "yes"
      - "on"
    """
    return _text(_lib.yamlcanon_show_within, data, memory)


def to_json(data: Data, *, memory: Optional[int] = None) -> bytes:
    r"""The stream as JSON (RFC 8259), a line for each document, checked to mean what the stream means.

    >>> to_json("b: 0x10\na: [~, .5]\n--- x")
    b'{"a": [null, 0.5], "b": 16}\n"x"\n'
    >>> to_json("{80: web}")
    Traceback (most recent call last):
    yamlcanon.NoJson: JSON cannot express this stream
    """
    return _text(_lib.yamlcanon_json_within, data, memory)


def load(data: Data, *, memory: Optional[int] = None, floats: Callable[[str], Any] = Decimal, limit: Optional[int] = None) -> List[Any]:
    r"""The values of the documents of a stream: None, bool, int, Decimal, str, list, dict, and Tagged for every other tag.

    They are made from what the library gives, with no reader of YAML in between: two streams have the same values if they mean the
    same. The entries of a dict are in the order of the canonical text.

    floats: what makes a value of the text of a float, as `float`; Decimal keeps all digits.
    limit: how many nodes the values may have together. An alias stands for a value of its own, so a short input may have billions. If
    no limit is given, it is 1,000,000 and two more for each byte of the input, which no input without aliases reaches. Past it
    TooManyNodes is raised, before a value is made.

    A key that cannot be hashed, as a list, raises Unhashable, and so does one that Python takes for another key of the mapping, as 1 for
    True and for 1.0.

    >>> load("{b: 0x1, a: [~, 1.50, yes]}\n--- !color red")
    [{'a': [None, Decimal('1.5'), 'yes'], 'b': 1}, Tagged(tag='!color', value='red')]
    >>> load("- &x [1]\n- *x", floats=float)
    [[[1], [1]]]
    >>> load("a: {? [b] : c}")
    Traceback (most recent call last):
    yamlcanon.Unhashable: document 0['a']: the key ['b'] cannot be one of a dict beside the others
    >>> load("[[], []]", limit=2)
    Traceback (most recent call last):
    yamlcanon.TooManyNodes: the values have 3 nodes, and the limit is 2
    """
    own, cap = _bytes(data), _memory(memory)
    records, fault = records_of(own, cap)
    if records is None:
        raise _raised(fault, cap, own)
    return values_in(records, floats, limit_for(own) if limit is None else limit)


def load_one(data: Data, *, memory: Optional[int] = None, floats: Callable[[str], Any] = Decimal, limit: Optional[int] = None) -> Any:
    """The value of the only document of a stream; ValueError if there are none or several.

    >>> load_one("port: 0x50")
    {'port': 80}
    >>> load_one("")
    Traceback (most recent call last):
    ValueError: yamlcanon: the stream has 0 documents, and not one
    """
    values = load(data, memory=memory, floats=floats, limit=limit)
    if len(values) != 1:
        raise ValueError(f"yamlcanon: the stream has {len(values)} documents, and not one")
    return values[0]


def library_version() -> int:
    """The version of the library that is loaded, as YAMLCANON_VERSION in yamlcanon.h: 101 for 1.1."""
    return int(_lib.yamlcanon_version())


def library_release() -> str:
    """The release of the library that is loaded.

    >>> library_release().split(".")[0]
    '1'
    """
    return bytes(_lib.yamlcanon_release()).decode()
