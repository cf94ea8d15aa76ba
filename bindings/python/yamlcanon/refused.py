"""Why an input is rejected: the kinds of errors, and the exception that has the kind and the place."""

import enum
from typing import Optional

from yamlcanon.library import message_of
from yamlcanon.position import position_of

__all__ = ["Kind", "Refused"]


class Kind(enum.IntEnum):
    """The kinds of errors, with the numbers and names that the program prints. Error 21 is a MemoryError.

    >>> Kind(19)
    <Kind.EqualKeys: 19>
    >>> Kind.Tab == 5, Kind.Tab.name
    (True, 'Tab')
    """

    __module__ = "yamlcanon"
    # Of a number that this module does not know: a later library may have more.
    Other = 0
    TooLong = 1
    NotUtf8 = 2
    NotPrintable = 3
    Syntax = 4
    Tab = 5
    KeyTooLong = 6
    TooDeep = 7
    BadEscape = 8
    BadDirective = 9
    UnknownHandle = 10
    BadTag = 11
    UndefinedAlias = 12
    CyclicAlias = 13
    WrongKind = 14
    BadContent = 15
    IntRange = 16
    FloatRange = 17
    TooHigh = 18
    EqualKeys = 19
    TextTooLong = 20


class Refused(ValueError):
    """An input is rejected. Its text is the message that the program prints.

        kind, number    which error it is: a Kind, and the same as an int
        name            the error's name, as 'EqualKeys'
        place           a byte offset for 2 to 11, an event for 12 to 17, a document for 18, a node for 19; else 0
        first, second   the two entries of EqualKeys; else 0
        side            'left' or 'right' if the call was `same` or `diff`, else None
        line, column    of the byte, of the event's text, of the document's root or of the second of two equal keys, from 1, as
                        `yamlreview faults` prints them; None for 1 and 20, where the memory limit did not allow to find them, or if
                        no call has raised this

    Two are equal if they have the same number, name, place, entries and side. It can be pickled, so a pool of processes hands it on.

    >>> fault = Refused(5, "Tab", 4, side="right")
    >>> print(fault)
    right: 5 Tab at byte 4
    >>> fault.kind is Kind.Tab, fault == Refused(5, "Tab", 4), fault.line
    (True, False, None)
    >>> Refused(99, "Later").kind
    <Kind.Other: 0>
    """

    __module__ = "yamlcanon"

    def __init__(self, number: int, name: str, place: int = 0, first: int = 0, second: int = 0, side: Optional[str] = None) -> None:
        super().__init__(number, name, place, first, second, side)
        self.number, self.name, self.place = number, name, place
        self.first, self.second, self.side = first, second, side
        self.line: Optional[int] = None
        self.column: Optional[int] = None

    @property
    def kind(self) -> Kind:
        return Kind(self.number) if self.number in [*Kind] else Kind.Other

    def locate(self, data: bytes, memory: int = 0) -> "Refused":
        """Sets line and column from the input that is rejected, within a memory limit. Returns itself."""
        found = position_of(data, self.number, self.place, self.first, self.second, memory)
        if found is not None:
            self.line, self.column = found
        return self

    def __eq__(self, other: object) -> bool:
        if not isinstance(other, Refused):
            return NotImplemented
        return self.args == other.args

    def __hash__(self) -> int:
        return hash(self.args)

    def __str__(self) -> str:
        told = message_of(self.number, self.place, self.first, self.second) or f"{self.number} {self.name}"
        return f"{self.side}: {told}" if self.side else told
