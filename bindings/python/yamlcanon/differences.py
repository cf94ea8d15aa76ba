"""Where two streams differ, from the lines of JSON that the library gives."""

import json
from ctypes import byref, c_size_t
from dataclasses import dataclass
from typing import Any, Dict, List, Optional, Tuple

from yamlcanon.library import REFUSED, SHORT, Fault, lib
from yamlcanon.stack import status_of, thread

__all__ = ["Difference", "differences_in", "lines_of"]

# Enough for a few lines. Where it is not, the library says what is.
_ROOM = 4096


@dataclass(frozen=True)
class Difference:
    """Where two streams differ, as a line of `yamlreview diff --format=json` tells it.

    kind                      'changed'; 'left' or 'right' for what that side has alone; 'moved' for an item of a sequence that has
                              another place among the others; 'more', behind all others, if there are more than were asked for
    path                      where it is: '.spec.replicas', '[1]'. The number of the document comes first unless each side has one
    left, right               the canonical text of what each side has there, cut behind 60 bytes; None where it has nothing
    left_place, right_place   its line and its column there, from 1; None where there is none
    """

    __module__ = "yamlcanon"
    kind: str
    path: str = ""
    left: Optional[str] = None
    right: Optional[str] = None
    left_place: Optional[Tuple[int, int]] = None
    right_place: Optional[Tuple[int, int]] = None


def _place(told: Optional[Dict[str, int]]) -> Optional[Tuple[int, int]]:
    return None if told is None else (told["line"], told["column"])


def _difference(line: bytes) -> Difference:
    told = json.loads(line)
    if told["kind"] == "more":
        return Difference("more")
    return Difference(told["kind"], told["path"], told["left"], told["right"], _place(told["left_place"]), _place(told["right_place"]))


def differences_in(text: bytes) -> List[Difference]:
    """The differences that lines of JSON tell."""
    return [_difference(line) for line in text.split(b"\n")[:-1]]


def lines_of(left: bytes, right: bytes, lines: int, memory: int) -> Tuple[Optional[bytes], Fault]:
    """The lines of JSON of two streams, or the fault for which one is rejected."""
    length, fault = c_size_t(), Fault()

    def called(room: Any) -> int:
        inputs = (left, len(left), right, len(right), lines)
        answers = (room, len(room), byref(length), byref(fault))
        return status_of(max(len(left), len(right)), lib.yamlcanon_diff_within, *inputs, *answers, memory)

    room = thread.take_room(_ROOM)
    status = called(room)
    if status == SHORT:
        room = thread.take_room(length.value)
        status = called(room)
    if status == REFUSED:
        return None, fault
    text = bytes(memoryview(room)[: length.value])
    thread.keep_room(room)
    return text, fault
