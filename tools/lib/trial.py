"""What the tools share that try a program: files in a folder, a run, many at a time, and how what is wrong is told."""
import argparse
import concurrent.futures
import os
import subprocess
import sys
import tempfile
from collections.abc import Callable, Iterable, Mapping, Sequence
from typing import Any, NamedTuple, TypeVar

from lib.arguments import parser
from lib.paths import want_built

Given = TypeVar("Given")
Found = TypeVar("Found")


class Ran(NamedTuple):
    """How a run ended: its status, and what it wrote."""

    status: int
    out: bytes
    err: bytes


def run(words: Sequence[str | bytes], given: bytes = b"", room: str | None = None, **how: Any) -> Ran:
    """A run of a program in a folder, on this standard input."""
    done = subprocess.run(words, input=given, cwd=room, capture_output=True, check=False, **how)
    return Ran(done.returncode, done.stdout, done.stderr)


def put(room: str, files: Mapping[str, str | bytes] | Mapping[bytes, bytes]) -> None:
    """Writes files, and the folders in which they are. Their names are texts or bytes."""
    for name, text in files.items():
        path = f"{room}/{os.fsdecode(name)}"
        os.makedirs(os.path.dirname(path), exist_ok=True)
        with open(path, "wb") as file:
            file.write(text if isinstance(text, bytes) else text.encode())


def run_on(files: Mapping[str, str | bytes], *words: str) -> Ran:
    """A run in a new folder, which has these files. Their names follow the words."""
    with tempfile.TemporaryDirectory() as room:
        put(room, files)
        return run([*words, *files], room=room)


def side_by_side(call: Callable[[Given], Found], given: Iterable[Given]) -> list[Found]:
    """What a call gives of each, in order; as many at a time as there are processors."""
    with concurrent.futures.ThreadPoolExecutor(len(os.sched_getaffinity(0))) as pool:
        return list(pool.map(call, given))


def asked(tool: str, text: str, programs: Mapping[str, str], words: Sequence[str] | None = None, **counts: int) -> argparse.Namespace:
    """The arguments of a tool: counts with what they are otherwise, and its programs (PROGRAM: the path of the built one)."""
    given = parser(f"tools/{tool}", text)
    for name, count in counts.items():
        given.add_argument(f"--{name}", type=int, default=count, metavar="N", help=f"{count:,}")
    for name, path in programs.items():
        given.add_argument(name.lower(), nargs="?", default=path, metavar=name)
    found = given.parse_args(words)
    for name in programs:
        setattr(found, name.lower(), os.path.abspath(getattr(found, name.lower())))
        want_built(tool, getattr(found, name.lower()))
    return found


def status_of(tool: str, wrong: Sequence[str], *right: str) -> int:
    """Prints each line of what is wrong, or else what is said if all is right; the status."""
    for line in wrong:
        print(f"{tool}: {line}", file=sys.stderr)
    for line in right if not wrong else ():
        print(f"{tool}: {line}")
    return 1 if wrong else 0
