"""Lines and columns, both from 1, in an input that is rejected or that JSON cannot express.

A line ends with a line feed, a carriage return, or both (YAML 1.2.2, 5.4). A column counts characters. A byte order mark has none.
"""

from ctypes import byref, c_size_t
from typing import Any, Optional, Tuple

from yamlcanon.library import DONE, Fault, lib
from yamlcanon.stack import status_of

__all__ = ["json_position_of", "position_of"]

# The last error at a byte. For one of an event the input is read again.
_LAST_OF_BYTES = 11


def _told(size: int, call: Any, memory: int, *words: Any) -> Optional[Tuple[int, int]]:
    """What a call tells that reads so many bytes again. One that reads none takes little stack."""
    line, column = c_size_t(), c_size_t()
    own = (*words, byref(line), byref(column), memory)
    try:
        status = status_of(size, call, *own) if size else call(*own)
    except MemoryError:
        return None
    return (line.value, column.value) if status == DONE else None


def position_of(data: bytes, number: int, place: int, first: int = 0, second: int = 0, memory: int = 0) -> Optional[Tuple[int, int]]:
    r"""The line and the column of an error in its input, as `yamlreview faults` prints them; None if it has no place, or if there is no
    memory to find it.

    >>> position_of(b"a: 1\r\nb: \xc3\xa9}", 4, 11)
    (2, 5)
    >>> position_of(b"a: 1\nb: *c", 12, 6)
    (2, 4)
    """
    fault, is_read = Fault(number, 0, place, first, second), number > _LAST_OF_BYTES
    return _told(len(data) if is_read else 0, lib.yamlcanon_position_within, memory, data, len(data), byref(fault))


def json_position_of(data: bytes, memory: int = 0) -> Optional[Tuple[int, int]]:
    """The line and the column of the first node of an input that JSON cannot express; None if there is none, or no memory to find it.

    >>> json_position_of(b"a: 1\\nb: .inf")
    (2, 4)
    """
    return _told(len(data), lib.yamlcanon_json_position_within, memory, data, len(data))
