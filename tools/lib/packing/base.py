"""What the parts of tools/release share: what is said, commands, files, the version, pages whose links lead to what is packed, and the machines
that the library is built for, with what each needs to be built and tried here.
"""
import gzip
import hashlib
import os
import re
import shutil
import subprocess
import sys
from collections.abc import Collection
from typing import Any, NamedTuple, NoReturn

from lib.paths import TOP, read

ARCH = "x86_64-linux"
# Who hands the packages out, where nobody is named: the mail is none that reaches anybody.
SUPPLIER = "The yamlcanon authors <yamlcanon@example.org>"
LINK = re.compile(r"(?<!!)\[((?:[^\[\]]|\[[^\[\]]*\])*)\]\(([^()\s]+)\)")
IN_THE_WEB = re.compile(r"[A-Za-z][A-Za-z0-9+.-]*:|//|#")


def say(text: str) -> None:
    print("release: " + text, file=sys.stderr, flush=True)


def end(text: str) -> NoReturn:
    say(text)
    sys.exit(1)


def ended(*words: str, **how: Any) -> tuple[int, str]:
    """Status and output of a command, errors among it."""
    done = subprocess.run(words, stdout=subprocess.PIPE, stderr=subprocess.STDOUT, check=False, **how)
    return done.returncode, done.stdout.decode(errors="replace")


def run(*words: str, **how: Any) -> str:
    """What a command prints; its failure ends this, with what it said."""
    done = subprocess.run(words, capture_output=True, stdin=subprocess.DEVNULL, text=True, check=False, **how)
    if done.returncode:
        end(f"{' '.join(words)}: status {done.returncode}\n{done.stdout}{done.stderr}")
    return str(done.stdout)


def git(*words: str) -> str:
    return run("git", "-C", TOP, *words).strip()


def epoch() -> int:
    """The time that all files of a release bear: SOURCE_DATE_EPOCH, or when the commit was made."""
    return int(os.environ.get("SOURCE_DATE_EPOCH") or git("log", "-1", "--format=%ct"))


def found(path: str, pattern: str) -> str:
    first: str = re.findall(pattern, read(f"{TOP}/{path}"), re.M)[0]
    return first


def release() -> str:
    """The version of what is packed, as 1.0.0: that of the newest heading of CHANGELOG.md."""
    return found("CHANGELOG.md", r"^## (\d+\.\d+\.\d+)\b")


def interface() -> tuple[int, int]:
    """The number of the library's interface, which is in its name, and the number of what was added: those of the header."""
    return divmod(int(found("include/yamlcanon.h", r"^#define YAMLCANON_VERSION (\d+)$")), 100)


def bytes_of(path: str) -> bytes:
    with open(path, "rb") as file:
        return file.read()


def write(path: str, text: str, mode: int = 0o644) -> None:
    os.makedirs(os.path.dirname(path), exist_ok=True)
    with open(path, "w", encoding="utf-8") as file:
        file.write(text)
    os.chmod(path, mode)


def copy(source: str, target: str, mode: int = 0o644) -> None:
    os.makedirs(os.path.dirname(target), exist_ok=True)
    shutil.copyfile(source, target)
    os.chmod(target, mode)


def sum_of(path: str, kind: str = "sha256") -> str:
    return hashlib.new(kind, bytes_of(path)).hexdigest()


def zipped(data: bytes) -> bytes:
    return gzip.compress(data, 9, mtime=0)


def files_below(folder: str) -> list[str]:
    """The files of a folder, links among them, as sorted paths in it."""
    paths = []
    for at, folders, names in os.walk(folder):
        links = [name for name in folders if os.path.islink(os.path.join(at, name))]
        paths += [os.path.relpath(os.path.join(at, name), folder) for name in names + links]
    return sorted(paths)


def without_dead_links(text: str, page: str, packed: Collection[str]) -> str:
    """The text of a page of a package that has these files: a link to another file is only its words."""

    def shown(link: re.Match[str]) -> str:
        path = os.path.normpath(os.path.join(os.path.dirname(page), link[2].partition("#")[0]))
        is_packed = path in packed or any(name.startswith(path + "/") for name in packed)
        return link[0] if IN_THE_WEB.match(link[2]) or is_packed else link[1]

    return LINK.sub(shown, text)


def mend(top: str, names: Collection[str] | None = None) -> None:
    """Takes the links to files that are not packed out of the pages below a folder. `names`: what is packed of it; else all."""
    packed = {name for name in files_below(top) if names is None or name.split("/")[0] in names}
    for name in packed:
        if name.endswith(".md"):
            write(f"{top}/{name}", without_dead_links(read(f"{top}/{name}"), name, packed))


# name: in the names of packages. target, cpu: of the proved code, as rattle takes them. cc: compiles C and links. tools: the prefix of nm,
# strip and readelf. runs: the words that run a program of the machine here. debian: its name there, if it gets packages.
class Machine(NamedTuple):
    name: str
    target: str
    cpu: str
    cc: str
    tools: str
    runs: tuple[str, ...]
    debian: str | None


MACHINES = {
    "x86_64": Machine("x86_64-linux", "x86_64-unknown-linux-gnu", "x86-64", "cc", "", (), "amd64"),
    "aarch64": Machine(
        "aarch64-linux",
        "aarch64-unknown-linux-gnu",
        "generic",
        "aarch64-linux-gnu-gcc",
        "aarch64-linux-gnu-",
        ("qemu-aarch64", "-L", "/usr/aarch64-linux-gnu"),
        "arm64",
    ),
    "musl": Machine("x86_64-linux-musl", "x86_64-unknown-linux-gnu", "x86-64", "musl-gcc", "", (), None),
}
OTHERS = tuple(name for name in MACHINES if name != "x86_64")
# rt builds and judges for this target alone.
JUDGED = MACHINES["x86_64"].target


def lacking(name: str) -> list[str]:
    machine = MACHINES[name]
    return [word for word in (machine.cc, machine.tools + "nm", machine.tools + "strip") if not shutil.which(word)]


def lacking_to_run(name: str) -> list[str]:
    return [word for word in MACHINES[name].runs[:1] if not shutil.which(word)]
