"""The values of a stream as Python's own, from the records that the library gives."""

import ctypes
import sys
from ctypes import POINTER, Structure, byref, c_size_t, c_uint8, c_uint32
from dataclasses import dataclass
from typing import Any, Callable, Dict, Iterator, List, Optional, Tuple

from yamlcanon.library import DONE, REFUSED, Fault, lib
from yamlcanon.stack import status_of

__all__ = ["Records", "Tagged", "TooManyNodes", "Unhashable", "limit_for", "records_of", "values_in"]

# The kinds of values, by the numbers of the header.
_NULL, _BOOL, _INT, _FLOAT, _STR, _TAGGED, _SEQUENCE, _MAPPING = range(8)
_CORE = "tag:yaml.org,2002:"
_OWN_TAGS = {_SEQUENCE: _CORE + "seq", _MAPPING: _CORE + "map"}
_FLOATS = {".inf": "Infinity", "-.inf": "-Infinity", ".nan": "NaN"}
# The numbers of a value: its kind, where its tag starts and ends, and where its content or its parts do.
_FIELDS = 5
# As many nodes are allowed for any input, and beside them two for each of its bytes: more than it has without its aliases.
_NODES, _NODES_A_BYTE = 1_000_000, 2
# How many other keys a key may meet, on average, where a dict looks for it. Multiples of a power of 2 meet up to 70 where there are a
# million of them. So few keys meet no more, whatever they are.
_MEETINGS, _FEW = 128, 256
_HASH_BITS = 2 * sys.maxsize + 1

Path = Tuple[Any, ...]


class Rooms(Structure):
    _fields_ = [
        ("values", POINTER(c_uint32)),
        ("values_cap", c_size_t),
        ("parts", POINTER(c_uint32)),
        ("parts_cap", c_size_t),
        ("texts", POINTER(c_uint8)),
        ("texts_cap", c_size_t),
    ]


class Lengths(Structure):
    _fields_ = [("values", c_size_t), ("parts", c_size_t), ("texts", c_size_t), ("documents", c_size_t)]


@dataclass(frozen=True)
class Tagged:
    """A value whose tag is not one of the core schema for its kind: the tag, and the text of a scalar, or a list or dict.

    >>> Tagged("!color", "red")
    Tagged(tag='!color', value='red')
    """

    __module__ = "yamlcanon"
    tag: str
    value: Any


class Unhashable(ValueError):
    """A key that cannot be one of a dict: it cannot be hashed; or Python takes it for another key, as 1 for 1.0 and True; or the keys up to
    it are numbers with hashes for which a dict would take time by their square.

    key         the key
    document    the number of the document, from 0
    path        the keys and places that lead from the document to the mapping
    is_slow     whether it is for the time
    """

    __module__ = "yamlcanon"

    def __init__(self, key: Any, document: int, path: Path, is_slow: bool = False) -> None:
        super().__init__(key, document, path, is_slow)
        self.key, self.document, self.path, self.is_slow = key, document, path, is_slow

    def __str__(self) -> str:
        where = "".join(f"[{step!r}]" for step in self.path)
        told = f"document {self.document}{where}: the key {self.key!r} cannot be one of a dict beside the others"
        return told + ": with their hashes a dict of them is slow" if self.is_slow else told


class TooManyNodes(ValueError):
    """The values would have more nodes than the limit, since each alias stands for a value of its own."""

    __module__ = "yamlcanon"

    def __init__(self, nodes: int, limit: int) -> None:
        super().__init__(nodes, limit)
        self.nodes, self.limit = nodes, limit

    def __str__(self) -> str:
        return f"the values have {self.nodes} nodes, and the limit is {self.limit}"


class Records:
    """What the library gives of a stream: a record for each different value, each behind its parts."""

    def __init__(self, values: List[int], parts: List[int], texts: bytes, documents: int) -> None:
        self.values, self.parts, self.texts, self.documents = values, parts, texts, documents
        self.kinds = values[::_FIELDS]

    def spans(self, at: int) -> Tuple[int, int, int, int]:
        """Where the tag of a value starts and ends, and its content or its parts."""
        start = at * _FIELDS
        tag_start, tag_end, own_start, own_end = self.values[start + 1 : start + _FIELDS]
        return tag_start, tag_end, own_start, own_end

    def tag(self, at: int) -> str:
        start, end, _, _ = self.spans(at)
        return self.texts[start:end].decode()

    def content(self, at: int) -> str:
        _, _, start, end = self.spans(at)
        return self.texts[start:end].decode()

    def parts_of(self, at: int) -> List[int]:
        """The items of a sequence; the keys and values of a mapping, in turn."""
        if self.kinds[at] < _SEQUENCE:
            return []
        _, _, start, end = self.spans(at)
        return self.parts[start:end]

    def roots(self) -> List[int]:
        return self.parts[: self.documents]

    def nodes(self) -> int:
        """How many nodes the documents have with each alias written out."""
        counts: List[int] = []
        for at in range(len(self.kinds)):
            counts.append(1 + sum(counts[part] for part in self.parts_of(at)))
        return sum(counts[root] for root in self.roots())


def records_of(data: bytes, memory: int) -> Tuple[Optional[Records], Fault]:
    """The records of a stream, or the fault for which it is rejected."""
    # Enough for most inputs. Where it is not, the library says what is.
    lengths, fault = Lengths(len(data) // 8 + 64, len(data) // 8 + 64, len(data) + 1024, 0), Fault()
    while True:
        values, parts = (c_uint32 * (_FIELDS * lengths.values))(), (c_uint32 * lengths.parts)()
        texts = ctypes.create_string_buffer(lengths.texts)
        rooms = Rooms(values, lengths.values, parts, lengths.parts, ctypes.cast(texts, POINTER(c_uint8)), lengths.texts)
        call = lib.yamlcanon_values_within
        status = status_of(len(data), call, data, len(data), byref(rooms), byref(lengths), byref(fault), memory)
        if status == REFUSED:
            return None, fault
        if status == DONE:
            own = bytes(memoryview(texts)[: lengths.texts])
            return Records(values[: _FIELDS * lengths.values], parts[: lengths.parts], own, lengths.documents), fault


class _NoKey(Exception):
    """A key cannot be one of a dict."""

    def __init__(self, key: Any, is_slow: bool = False) -> None:
        super().__init__(key, is_slow)
        self.key, self.is_slow = key, is_slow


def _hash(key: Any) -> int:
    """The hash of a key; what has none cannot be one."""
    try:
        return hash(key)
    except TypeError:
        raise _NoKey(key) from None


def _slow_key(hashes: List[int]) -> Optional[int]:
    """The number of the key at which keys with these hashes meet one another too often in a dict of CPython, if they do.

    The hash of a number is no secret, so keys can be chosen for theirs. A dict looks for a key at the place that the lowest bits of its
    hash name, and while another key is there at the next, which five more bits name. A third of its places is free: then it doubles.
    """
    size, fits = 8, 0
    while fits < len(hashes):
        fits, last, taken, meetings = 2 * size // 3, size - 1, bytearray(size), 0
        for number, own in enumerate(hashes[:fits]):
            place, rest = own & last, own & _HASH_BITS
            while taken[place]:
                meetings += 1
                rest >>= 5
                place = (5 * place + rest + 1) & last
            taken[place] = 1
            if meetings > _MEETINGS * fits:
                return number
        size *= 2
    return None


def _dict_of(made: List[Any]) -> Dict[Any, Any]:
    """The dict of keys and values in turn."""
    keys = made[::2]
    # The hashes of texts are a secret of Python's.
    if {*map(type, keys)} != {str}:
        hashes = [_hash(key) for key in keys]
        number = _slow_key(hashes) if len(keys) > _FEW else None
        if number is not None:
            raise _NoKey(keys[number], True)
    found = dict(zip(keys, made[1::2]))
    if len(found) < len(keys):
        found.clear()
        for key in keys:
            if key in found:
                raise _NoKey(key)
            found[key] = None
    return found


class _Maker:
    """Makes the values of a stream's documents. Each place has a list or a dict of its own; a scalar is made once."""

    def __init__(self, records: Records, floats: Callable[[str], Any]) -> None:
        self.records, self.floats = records, floats
        self.scalars: Dict[int, Any] = {}

    def scalar(self, at: int) -> Any:
        if at not in self.scalars:
            self.scalars[at] = self.scalar_of(self.records.kinds[at], self.records.content(at), at)
        return self.scalars[at]

    def scalar_of(self, kind: int, content: str, at: int) -> Any:
        if kind == _NULL:
            return None
        if kind == _BOOL:
            return content == "true"
        if kind == _INT:
            return int(content)
        if kind == _FLOAT:
            return self.floats(_FLOATS.get(content, content))
        return content if kind == _STR else Tagged(self.records.tag(at), content)

    def collection(self, at: int, made: List[Any]) -> Any:
        """The value of a sequence or a mapping, from those of its parts."""
        kind = self.records.kinds[at]
        value = made if kind == _SEQUENCE else _dict_of(made)
        tag = self.records.tag(at)
        return value if tag == _OWN_TAGS[kind] else Tagged(tag, value)

    def step(self, at: int, made: List[Any]) -> Any:
        """What leads to the part that comes next: its place, or the key of its value."""
        is_value = self.records.kinds[at] == _MAPPING and len(made) % 2
        return made[-1] if is_value else len(made) if self.records.kinds[at] == _SEQUENCE else len(made) // 2

    def document(self, root: int, number: int) -> Any:
        """The value of a document. Values may lie in one another up to 1,023 times, so they are kept on a list and not on the stack."""
        if self.records.kinds[root] < _SEQUENCE:
            return self.scalar(root)
        opened: List[Tuple[int, Iterator[int], List[Any]]] = [(root, iter(self.records.parts_of(root)), [])]
        while True:
            at, rest, made = opened[-1]
            for part in rest:
                if self.records.kinds[part] >= _SEQUENCE:
                    opened.append((part, iter(self.records.parts_of(part)), []))
                    break
                made.append(self.scalar(part))
            else:
                opened.pop()
                try:
                    value = self.collection(at, made)
                except _NoKey as fault:
                    path = tuple(self.step(above, before) for above, _, before in opened)
                    raise Unhashable(fault.key, number, path, fault.is_slow) from None
                if not opened:
                    return value
                opened[-1][2].append(value)


def values_in(records: Records, floats: Callable[[str], Any], limit: int) -> List[Any]:
    """The values of a stream's documents."""
    nodes = records.nodes()
    if nodes > limit:
        raise TooManyNodes(nodes, limit)
    maker = _Maker(records, floats)
    return [maker.document(root, number) for number, root in enumerate(records.roots())]


def limit_for(data: bytes) -> int:
    """The limit for an input where none is given."""
    return _NODES + _NODES_A_BYTE * len(data)
