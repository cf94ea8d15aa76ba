"""How much stack a call has: a call that may need more than is left is made on a thread of its own.

C makes that thread and not Python, which has one size for the stacks of all its threads: to set it for one of them takes a lock, and a
finalizer or a signal's handler that calls while this thread has the lock waits for ever. Here nothing is locked, and no thread is kept
between calls, which a fork would lose. Of Python such a thread runs one call of the library. As in each call of C, a signal's handler
waits for its end.
"""

import ctypes
import os
import sys
import threading
import time
from ctypes import byref, c_size_t, c_uint64, c_void_p
from typing import Any, Dict, List, Optional, Tuple

from yamlcanon.library import libc

__all__ = ["status_of", "thread"]

# What a call on n bytes takes of the stack at most: a level of nesting 1.5 KiB, of which a byte opens at most one, up to 1,024.
_STACK_BASE, _STACK_LEVEL, _MOST_LEVELS = 256 << 10, 1536, 1024
# The stack of a thread to which a call is handed.
_STACK_GIVEN = 8 << 20
# A thread keeps its room between calls up to this many bytes.
_ROOM_KEPT, _ROOM_LEAST = 1 << 20, 16384

# Where getcontext of glibc puts the stack pointer into its ucontext_t, by machine, and more bytes than it writes.
_POINTERS_AT = {"x86_64": 160, "aarch64": 432}
_POINTER_AT, _REGISTERS = _POINTERS_AT.get(os.uname().machine, 0), 8192
# Puts the registers of this thread into memory, without letting Python's lock go. On other machines, and where the C library has no
# such call, what is left of the stack is not known, and each call is made on a thread of its own.
_registers = getattr(ctypes.PyDLL(None), "getcontext", None) if _POINTER_AT else None


def _stack_range() -> Tuple[int, int]:
    """The lowest address of this thread's stack and the one behind it; twice 0 where the system does not tell."""
    if not hasattr(libc, "pthread_getattr_np"):
        return 0, 0
    libc.pthread_self.restype = c_void_p
    attributes, at, size = ctypes.create_string_buffer(256), c_void_p(), c_size_t()
    if libc.pthread_getattr_np(c_void_p(libc.pthread_self()), attributes):
        return 0, 0
    libc.pthread_attr_getstack(attributes, byref(at), byref(size))
    libc.pthread_attr_destroy(attributes)
    lowest = at.value or 0
    return lowest, lowest + size.value


class _Thread(threading.local):
    # What a finalizer has that calls while the rest is made: nothing is known of the stack.
    lowest = end = 0
    room: Any = None

    def __init__(self) -> None:
        self.registers = ctypes.create_string_buffer(_REGISTERS)
        self.pointer = c_uint64.from_buffer(self.registers, _POINTER_AT)
        self.lowest, self.end = _stack_range()

    def stack_left(self) -> int:
        """How many bytes of this thread's stack are left at this call, or 0 where that is not known, as on a stack that a program
        made by itself."""
        if _registers is None or not self.end:
            return 0
        _registers(self.registers)
        here = self.pointer.value
        return here - self.lowest if self.lowest <= here < self.end else 0

    def has_stack_for(self, size: int) -> bool:
        return _STACK_BASE + _STACK_LEVEL * min(size, _MOST_LEVELS) <= self.stack_left()

    def take_room(self, size: int) -> Any:
        """A room that is this call's alone: a signal's handler or a finalizer may call in the midst of it."""
        room, self.room = self.room, None
        return room if room is not None and size <= len(room) else ctypes.create_string_buffer(max(size, _ROOM_LEAST))

    def keep_room(self, room: Any) -> None:
        if len(room) <= _ROOM_KEPT:
            self.room = room


thread = _Thread()


class _Call:
    """A call of the library that another thread makes, and what comes of it."""

    def __init__(self, function: Any, words: Tuple[Any, ...]) -> None:
        self.function, self.words = function, words
        self.status: Optional[int] = None
        self.fault: Optional[BaseException] = None


# The calls whose threads have not begun, by numbers that differ.
_calls: Dict[int, _Call] = {}


def _run(number: int) -> None:
    """What such a thread runs."""
    own = _calls.pop(number, None)
    if own is None:
        return
    try:
        own.status = own.function(*own.words)
    except BaseException as fault:
        own.fault = fault


# One function of C for all threads, which is there as long as there is one.
_runs: Any = ctypes.CFUNCTYPE(c_void_p, c_void_p)(_run)


def _stack_for_all() -> Any:
    """What gives a thread a stack for an input of the greatest depth, as pthread_create takes it."""
    attributes = ctypes.create_string_buffer(256)
    libc.pthread_attr_init(attributes)
    libc.pthread_attr_setstacksize(attributes, c_size_t(_STACK_GIVEN))
    return attributes


def _has_own_lock() -> bool:
    """Whether this interpreter may have a lock of its own, as one beside the main one may since Python 3.13. On a thread of C, ctypes
    takes the lock of the main one."""
    if sys.version_info < (3, 13):
        return False
    main, own = ctypes.pythonapi.PyInterpreterState_Main, ctypes.pythonapi.PyInterpreterState_Get
    main.restype = own.restype = c_void_p
    return bool(main() != own())


def _wait_for_threads() -> None:
    """Waits until Python knows the threads that are there. Before 3.12 the child of a fork that comes just then waits for ever."""
    for _ in range(1000):
        if not _calls:
            break
        time.sleep(0.0001)


if sys.version_info < (3, 12):
    os.register_at_fork(before=_wait_for_threads)
_stack, _has_no_thread = _stack_for_all(), _has_own_lock()
_create, _join = libc.pthread_create, libc.pthread_join


def _status_elsewhere(function: Any, words: Tuple[Any, ...]) -> int:
    """The status of a call that is made on a thread of its own."""
    own, other = _Call(function, words), c_void_p()
    number = id(own)
    began: List[int] = []
    _calls[number] = own
    try:
        # Where Python is about to end, it lets no other thread run.
        if not _has_no_thread and not sys.is_finalizing():
            # In one step: what a signal's handler raises does not come between the thread and the note of it.
            began.extend(map(_create, [byref(other)], [_stack], [_runs], [c_void_p(number)]))
    finally:
        if began == [0]:
            _join(other, None)
        _calls.pop(number, None)
    if own.fault is not None:
        raise own.fault
    if own.status is None:
        raise MemoryError("yamlcanon: 21 OutOfMemory, since no thread can be had for the call")
    return own.status


def status_of(size: int, function: Any, *words: Any) -> int:
    """The status of a call of the library on inputs of at most so many bytes, which is made where there is stack enough for them."""
    return int(function(*words)) if thread.has_stack_for(size) else _status_elsewhere(function, words)
