"""Work by forked processes, each of which is asked through one pipe and answers through another.

    with Workers(jobs, work) as workers:
        for some in workers.answers(count):     # lists of what work(number) gave for the numbers below count, as they come
            ...

`work` gives what marshal writes, and has from before what the process had that asks: nothing is sent but numbers and answers. A
worker that is killed raises Killed, and what `work` raises is raised by `answers`. Whatever ends the block ends the workers.

Not by concurrent.futures, which takes as long to load as a thousand files to read, and whose threads wait for one another; nor
by multiprocessing.Pool, which waits for ever for a process that is killed.
"""

import ctypes
import gc
import marshal
import os
import select
import signal
from types import TracebackType
from typing import Any, Callable, Iterator, List, NoReturn, Optional, Type

__all__ = ["Killed", "Workers"]

# PR_SET_PDEATHSIG of Linux's prctl
_END_WITH_PARENT = 1
# How many numbers a worker has at most: the one that it works on, and one more, so that it does not wait for it.
_AHEAD = 2
# The bytes of a number, and of the length before an answer, with the kind of that in one byte more.
_NUMBER, _LENGTH = 4, 8
_GIVEN, _NO_MEMORY, _RAISED = b"g", b"m", b"r"
# Without the marks for what is met again, which take time.
_MARSHAL = 2


class Killed(Exception):
    """A worker was killed."""


def _write(pipe: int, data: bytes) -> None:
    left = memoryview(data)
    while left:
        left = left[os.write(pipe, left) :]


def _read(pipe: int, count: int) -> bytes:
    """So many bytes of a worker; it has been killed where they end before."""
    pieces: List[bytes] = []
    while count:
        piece = os.read(pipe, count)
        if not piece:
            raise Killed
        pieces.append(piece)
        count -= len(piece)
    return b"".join(pieces)


def _raised(fault: BaseException) -> bytes:
    """A fault in bytes."""
    import pickle  # only where there is a fault, since it takes its time to load

    try:
        return pickle.dumps(fault)
    except Exception:
        return pickle.dumps(RuntimeError(repr(fault)))


def _answer(work: Callable[[int], Any], number: int) -> bytes:
    """What a worker writes: the kind of its answer, the length, and the answer."""
    kind, told = _GIVEN, b""
    try:
        told = marshal.dumps(work(number), _MARSHAL)
    except MemoryError:
        kind = _NO_MEMORY
    except Exception as fault:
        kind, told = _RAISED, _raised(fault)
    return b"".join((kind, len(told).to_bytes(_LENGTH, "little"), told))


def _serve(work: Callable[[int], Any], parent: int, asked: int, answers: int) -> NoReturn:
    """Answers what is asked until this process is killed, by the kernel where the one that asks has ended. Ctrl-C reaches every
    process of a terminal, and only the one that asks takes it."""
    try:
        signal.signal(signal.SIGINT, signal.SIG_IGN)
        ctypes.CDLL(None).prctl(_END_WITH_PARENT, signal.SIGKILL)
        # What is there already is not looked through for what nothing refers to: each page of it would be copied.
        gc.freeze()
        # Where that one ended before the kernel was asked, this process has another parent.
        while os.getppid() == parent:
            number = os.read(asked, _NUMBER)
            if not number:
                break
            _write(answers, _answer(work, int.from_bytes(number, "little")))
    finally:
        os._exit(1)


class _Worker:
    """A process that was forked, as the one sees it that asks."""

    def __init__(self, work: Callable[[int], Any]) -> None:
        parent, (asked, self.asks), (self.answers, answers), self.owes = os.getpid(), os.pipe(), os.pipe(), 0
        self.process = os.fork()
        if self.process == 0:
            os.close(self.asks)
            _serve(work, parent, asked, answers)
        # The worker alone has these ends, so that its pipes end with it.
        os.close(answers)
        os.close(asked)

    def ask(self, number: Optional[int]) -> None:
        if number is None:
            return
        try:
            _write(self.asks, number.to_bytes(_NUMBER, "little"))
        except BrokenPipeError:
            raise Killed from None
        self.owes += 1

    def answer(self) -> Any:
        """What it was asked for first."""
        head = _read(self.answers, 1 + _LENGTH)
        told = _read(self.answers, int.from_bytes(head[1:], "little"))
        self.owes -= 1
        if head[:1] == _NO_MEMORY:
            raise MemoryError
        if head[:1] == _RAISED:
            import pickle

            raise pickle.loads(told)
        return marshal.loads(told)

    def end(self) -> None:
        """Ends it wherever it is: it has nothing to put in order."""
        os.kill(self.process, signal.SIGKILL)
        os.close(self.asks)
        os.close(self.answers)


class Workers:
    """So many processes for some work."""

    def __init__(self, jobs: int, work: Callable[[int], Any]) -> None:
        self.jobs, self.work = jobs, work
        self.all: List[_Worker] = []

    def __enter__(self) -> "Workers":
        return self

    def __exit__(self, kind: Optional[Type[BaseException]], fault: Optional[BaseException], at: Optional[TracebackType]) -> None:
        for worker in self.all:
            worker.end()
        for worker in self.all:
            os.waitpid(worker.process, 0)

    def answers(self, count: int) -> Iterator[List[Any]]:
        """What the work gives for each number below the count, in whatever order it comes: all that has come, again and again."""
        self._begin(min(self.jobs, count))
        numbers, of_pipe, poll = iter(range(count)), {worker.answers: worker for worker in self.all}, select.poll()
        for pipe in of_pipe:
            poll.register(pipe, select.POLLIN)
        for worker in self.all * _AHEAD:
            worker.ask(next(numbers, None))
        while any(worker.owes for worker in self.all):
            yield [self._next(of_pipe[pipe], numbers) for pipe, _ in poll.poll()]

    def _begin(self, jobs: int) -> None:
        """Forks the workers; Ctrl-C waits until all are begun, and each one takes it no more."""
        before = signal.pthread_sigmask(signal.SIG_BLOCK, {signal.SIGINT})
        try:
            for _ in range(jobs):
                self.all.append(_Worker(self.work))
        finally:
            signal.pthread_sigmask(signal.SIG_SETMASK, before)

    @staticmethod
    def _next(worker: _Worker, numbers: Iterator[int]) -> Any:
        """An answer of a worker, which is asked for another before."""
        answer = worker.answer()
        worker.ask(next(numbers, None))
        return answer
