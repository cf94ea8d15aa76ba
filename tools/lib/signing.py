"""The attacks of tools/data/signing.toml on yamlreview-sign and yamlreview-verify: where one is made, the call, and how it has to end."""
from __future__ import annotations

import dataclasses
import importlib
import importlib.util
import os
import shlex
import shutil
import signal
import stat
import string
import subprocess
import tempfile
import tomllib
from collections.abc import Iterator
from typing import Any

from lib.paths import DATA, PROGRAM, REVIEW, TOP

yaml: Any = importlib.import_module("yaml") if importlib.util.find_spec("yaml") else None

with open(f"{DATA}/signing.toml", "rb") as _file:
    TABLE = tomllib.load(_file)
PROGRAMS = {"yamlcanon": PROGRAM, "yamlreview": REVIEW}
SIGN, VERIFY = "yamlreview-sign", "yamlreview-verify"
# One file is both programs, by the name that it has.
SOURCE = f"{TOP}/packages/signing/{SIGN}"
# The folder of the programs that are called, where it is not the `bin` of a room.
SIGNING = None
SIGNATURES = ("app.yaml.sig", "config.sums", "config.sums.sig")
# The file by which yamlreview-verify knows a folder that it wrote.
MARK = ".yamlreview-verify"
CONTEXT, SIGNER = "shop/prod", "you@example.org"
# The programs of the system that yamlreview-sign and yamlreview-verify call: with these alone they have to work.
NEEDED = "cat cmp cp cut dd find grep mkdir mktemp mv readlink rm sed sha256sum sort tr wc ssh-keygen sh dash bash".split()
APP = "name: web\nreplicas: 3\nports: [80, 443]\n"
APP_TEXT = b'--- {"name" : "web", "ports" : [!!int "80", !!int "443"], "replicas" : !!int "3"}\n'
FOLDER_TEXTS = {"one.yaml": APP_TEXT, "deep er/two.yml": b'--- ["a", "b"]\n', "none.yaml": b""}
MOST_COMPARED, MOST_SECONDS = 1 << 20, 60
READINGS = [*TABLE["file"]["silent"], *TABLE["file"]["warned"]]
# What a change may call, in the folder of what is signed.
HEAD = """\
set -e
put() { mkdir -p "$(dirname "$1")"; printf %s "$2" >"$1"; }
program() { rm -f "$BIN/$1"; printf '#!%s\\n%s\\n' "$DASH" "$2" >"$BIN/$1"; chmod 755 "$BIN/$1"; }
around() { program "$1" "$2
exec $(readlink -f "$BIN/$1") \\"\\$@\\""; }
allow() { echo "$SIGNER $1 $(cat "$KEYS/signer.pub")" >"$KEYS/allowed"; }
sign() { PATH=$BIN "$BIN/yamlreview-sign" --key "$KEYS/${2:-signer}" --context "${3:-$CONTEXT}" "$1"; }
sign_text() { ssh-keygen -q -Y sign -f "$KEYS/signer" -n "$CONTEXT:form1-$1@yamlcanon" >"$2"; }
"""
# Files and folders that are signed for two contexts, and the outputs of an earlier run, of a file and of a folder.
FURNISH = """\
for key in signer stranger; do ssh-keygen -q -t ed25519 -N '' -C '' -f "$KEYS/$key"; done
allow 'namespaces="shop/*:form1-*@yamlcanon"'
for place in '' staging/; do
    [ -z "$place" ] && context=$CONTEXT || context=shop/staging
    put "${place}app.yaml" "$APP"
    put "${place}config/one.yaml" "$APP"
    put "${place}config/deep er/two.yml" '[a, b]
'
    put "${place}config/none.yaml" '# none
'
    put "${place}config/README" 'text
'
    sign "${place}app.yaml" signer "$context"
    sign "${place}config" signer "$context"
done
put README 'text
'
put staging.yaml "$APP"
put other/one.yaml 'admin: true
'
sign staging.yaml
sign other
for path in app.yaml config; do
    PATH=$BIN "$BIN/yamlreview-verify" --allowed "$KEYS/allowed" --signer "$SIGNER" --context "$CONTEXT" --output "$HOME/$path.stale" "$path"
done
"""
# How a script can call a program and test its status: POSIX ignores `set -e` in what is tested. A call prints into the file $TEXT.
# VERIFIED is printed exactly where the script takes it that the call succeeded: after a pipe, whose status is that of its last command,
# where something came out of it or the file or folder $MADE is there.
SHAPES = {
    "command": '%s >"$TEXT"\ncode=$?\nif [ $code -eq 0 ]; then echo VERIFIED; fi\nexit $code\n',
    "if": 'if %s >"$TEXT"; then echo VERIFIED; fi\n',
    "and": '%s >"$TEXT" && echo VERIFIED\n',
    "or": '%s >"$TEXT" || exit 0\necho VERIFIED\n',
    "not": 'if ! %s >"$TEXT"; then exit 0; fi\necho VERIFIED\n',
    "function": 'run() {\n%s\n}\nif run >"$TEXT"; then echo VERIFIED; fi\n',
    "pipe": '%s | cat >"$TEXT"\nif [ -s "$TEXT" ] || [ -f "$MADE" ] || [ -d "$MADE" ]; then echo VERIFIED; fi\n',
}
# Each way is tried with and without `set -e`; attacks that do not depend on the way of calling are made in two ways.
WAYS = [(shape, is_strict) for shape in SHAPES for is_strict in (False, True)]
FEW_WAYS = [("command", False), ("if", True)]
SHELLS = ("dash", "bash")


@dataclasses.dataclass(frozen=True)
class Attack:
    """A row of the table. `statuses` are those that the call may have, or None if a signal ends it. `text` is what has to be handed on if
    it succeeds: bytes, or for a folder those of each file, or a text whose canonical text it is."""

    name: str
    program: str
    path: str
    change: str
    statuses: tuple[int, ...] | None
    said: str
    options: dict[str, Any]
    environment: dict[str, str]
    in_all_ways: bool
    is_kept: bool
    needs_device: bool
    changed: tuple[str, ...]
    text: Any
    each: str = ""

    def is_folder(self) -> bool:
        return self.path.rstrip("/") == "config"


def attack_of(row: dict[str, Any], each: str, program: str, path: str) -> Attack:
    def filled(value: Any) -> Any:
        return string.Template(value).safe_substitute(each=each) if isinstance(value, str) else value

    status, path = row.get("status", 1), filled(row.get("path", path))
    first = f"rm -rf {' '.join(SIGNATURES)}\n" if row.get("first") and program == SIGN else ""
    return Attack(
        string.Template(row["name"]).safe_substitute(each=repr(each)[1:-1]),
        program,
        path,
        first + row.get("change", ""),
        None if status == "signal" else tuple(status) if isinstance(status, list) else (status,),
        filled(row.get("said", "")),
        {name: None if value is False else filled(value) for name, value in row.get("options", {}).items()},
        row.get("environment", {}),
        row.get("ways") == "all",
        row.get("kept", False),
        row.get("device", False),
        tuple(map(filled, row.get("changed", ()))),
        FOLDER_TEXTS if path.rstrip("/") == "config" else APP_TEXT,
        each,
    )


def attacks_of(rows: list[dict[str, Any]], program: str, path: str) -> Iterator[Attack]:
    for row in rows:
        yield from (attack_of(row, each, program, path) for each in row.get("each", [""]))


def attacks() -> Iterator[Attack]:
    """All attacks, each with a name of its own."""
    for what in ("file", "folder", "sign"):
        table = TABLE[what]
        program, path = table["program"], table["path"]
        found = [*attacks_of(table["attacks"], program, path)]
        for signed, replaced in READINGS if what == "file" else ():
            ways = "all" if [signed, replaced] in table["silent"] else "few"
            change = f"put app.yaml {shlex.quote(signed)}; sign app.yaml; put app.yaml {shlex.quote(replaced)}"
            row = {"name": f"{replaced!r} for {signed!r}".replace("$", "$$"), "change": change, "status": 0, "ways": ways}
            found.append(dataclasses.replace(attack_of(row, "", program, path), text=signed))
        for path in (path, "config") if what == "sign" else (path,):
            front = f"{path}: " if what == "sign" else ""
            found += [dataclasses.replace(it, name=front + it.name) for it in attacks_of(TABLE["programs"]["attacks"], program, path)]
        yield from (dataclasses.replace(it, name=f"{what}: {it.name}") for it in found)


def texts_in(path: str) -> Any:
    """The bytes of a file, or those of each file of a folder by its name, or None if there is nothing or an empty file."""
    if not os.path.isdir(path):
        return read_bytes(path) or None if os.path.isfile(path) else None
    paths = [os.path.join(at, name) for at, _, names in os.walk(path) for name in names]
    return {name: read_bytes(it) for it in paths if (name := os.path.relpath(it, path)) != MARK}


def read_bytes(path: str) -> bytes:
    with open(path, "rb") as file:
        return file.read()


class Room:
    """A folder, in which `signed` is where calls are made, `keys` are the keys, and `out/verified` is the output of a call."""

    def __init__(self, folder: str) -> None:
        self.folder, self.signed, self.keys, self.out = folder, f"{folder}/signed", f"{folder}/keys", f"{folder}/out/verified"
        self.bin, self.temporary = f"{folder}/bin", f"{folder}/temporary"
        self.environment = {"PATH": self.bin, "HOME": folder, "TMPDIR": self.temporary, "LC_ALL": "C.UTF-8"}

    def furnish(self) -> Room:
        """Makes it the room of which each attack gets a copy."""
        for place in (self.signed, self.keys, os.path.dirname(self.out), self.bin, self.temporary):
            os.mkdir(place)
        for name, path in {**{name: shutil.which(name) for name in NEEDED}, **PROGRAMS, SIGN: SOURCE, VERIFY: SOURCE}.items():
            if path:
                os.symlink(os.path.realpath(path), f"{self.bin}/{name}")
        self.run(FURNISH)
        return self

    def run(self, change: str, each: str = "") -> None:
        names = {"BIN": self.bin, "KEYS": self.keys, "OUT": self.out, "DASH": shutil.which("dash") or "/bin/sh", "EACH": each}
        env = {**self.environment, "PATH": os.environ["PATH"], **names, **TABLE["texts"], "APP": APP, "CONTEXT": CONTEXT, "SIGNER": SIGNER}
        subprocess.run(["sh", "-c", HEAD + change], cwd=self.signed, env=env, stdin=subprocess.DEVNULL, capture_output=True, check=True)

    def call(self, program: str, path: str, options: dict[str, Any], shell: str) -> str:
        """A call of one of the two programs by a shell, as a line of a script. An option of None is left out."""
        words = [word for name, value in options.items() if value is not None for word in (f"--{name}", value)]
        return " ".join(map(shlex.quote, [shell, f"{SIGNING or self.bin}/{program}", *words, path]))

    def files(self, folder: str) -> dict[str, Any]:
        """All below a folder: of each the kind, the length, and of a short file the bytes."""
        found = {}
        for at, folders, names in os.walk(folder):
            for path in (os.path.join(at, name) for name in folders + names):
                state = os.lstat(path)
                is_short = stat.S_ISREG(state.st_mode) and state.st_size < MOST_COMPARED
                found[os.path.relpath(path, folder)] = (state.st_mode, state.st_size, read_bytes(path) if is_short else None)
        return found

    def left(self) -> Iterator[str]:
        """What a call should have removed: all in the temporary folder, and hidden names next to its output and to what is signed."""
        yield from (f"{self.temporary}/{name}" for name in os.listdir(self.temporary))
        for place in (os.path.dirname(self.out), self.signed):
            yield from (f"{place}/{name}" for name in os.listdir(place) if name.startswith(".yamlreview"))


def ended(text: str, shell: str, room: Room, environment: dict[str, str]) -> tuple[int, str, str] | None:
    """How a script ends whose processes are a group of their own: status and both outputs. None if it does not end."""
    streams: Any = {"stdin": subprocess.DEVNULL, "stdout": subprocess.PIPE, "stderr": subprocess.PIPE}
    with subprocess.Popen([shell, "-c", text], cwd=room.signed, env=environment, start_new_session=True, **streams) as started:
        try:
            out, error = started.communicate(timeout=MOST_SECONDS)
        except subprocess.TimeoutExpired:
            os.killpg(started.pid, signal.SIGKILL)
            started.communicate()
            return None
    return started.returncode, out.decode(errors="replace"), error.decode(errors="replace")


class Trial:
    """One call: the attack, and the way of calling."""

    def __init__(self, room: Room, attack: Attack, shell: str, shape: str, is_strict: bool) -> None:
        self.room, self.attack, self.shell, self.shape, self.is_strict = room, attack, shell, shape, is_strict
        self.is_signing, self.text = attack.program == SIGN, f"{room.folder}/text"
        self.has_output = attack.is_folder() or shape != "pipe"
        self.own_signatures = SIGNATURES[1:] if attack.is_folder() else SIGNATURES[:1]
        self.made = f"{room.signed}/{self.own_signatures[-1]}" if self.is_signing else room.out

    def call(self, program: str, options: dict[str, Any]) -> str:
        """The call of a program as it should be, with other options in place of its own."""
        if program == SIGN:
            right = {"key": f"{self.room.keys}/signer", "context": CONTEXT}
        else:
            output = {"output": self.room.out} if self.has_output else {}
            right = {"allowed": f"{self.room.keys}/allowed", "signer": SIGNER, "context": CONTEXT, **output}
        return self.room.call(program, self.attack.path, {**right, **options}, self.shell)

    def faults(self) -> Iterator[str]:
        """What is wrong with how the call ends."""
        attack, room = self.attack, self.room
        room.run(attack.change, attack.each)
        if self.has_output and not attack.is_kept and not self.is_signing:
            stale = f"{room.folder}/{'config' if attack.is_folder() else 'app.yaml'}.stale"
            subprocess.run(["cp", "-a", stale, room.out], check=True)
        before = self.seen()
        environment = {**room.environment, **attack.environment, "TEXT": self.text, "MADE": self.made}
        script = "set -e\n" * self.is_strict + SHAPES[self.shape] % self.call(attack.program, attack.options)
        end = ended(script, self.shell, room, environment)
        if end is None:
            yield f"it does not end within {MOST_SECONDS} seconds"
            return
        yield from (f"{what}\n{end[2]}" for what in self.wrong(*end))
        if self.seen() != before:
            yield f"other files than its output are changed: {[key for key in before if self.seen().get(key) != before[key]]}"
        yield from (f"{path} is left behind" for path in room.left())

    def seen(self) -> dict[str, Any]:
        """All that the call may not change."""
        own = SIGNATURES if self.is_signing else self.attack.changed
        found = {name: what for name, what in self.room.files(self.room.signed).items() if name not in own}
        return {**found, **self.room.files(f"{self.room.folder}/out")} if self.attack.is_kept else found

    def wrong(self, status: int, out: str, error: str) -> Iterator[str]:
        wanted = self.attack.statuses
        if self.shape == "command" and wanted and status not in wanted:
            yield f"status {status}, not {' or '.join(map(str, wanted))}"
        if ("VERIFIED" in out) != (wanted == (0,)):
            yield "a script takes it as verified" if "VERIFIED" in out else "no script takes it as verified"
        yield from self.wrong_success() if wanted == (0,) else self.wrong_failure(error)

    def wrong_failure(self, error: str) -> Iterator[str]:
        attack, room = self.attack, self.room
        if texts_in(self.text):
            yield f"it prints {texts_in(self.text)!r}"
        if self.is_signing and any(os.path.isfile(f"{room.signed}/{name}") for name in self.own_signatures):
            yield "a signature or a list is there"
        if not self.is_signing and not attack.is_kept and self.has_output and os.path.lexists(room.out):
            yield f"an output is there: {texts_in(room.out)!r}"
        if attack.statuses and not (f"{attack.program}: " in error and attack.said in error):
            yield f"standard error has no reason with {attack.said!r}"

    def wrong_success(self) -> Iterator[str]:
        if self.is_signing:
            yield from self.wrong_signature()
        text = canon(self.attack.text) if isinstance(self.attack.text, str) else self.attack.text
        had = texts_in(self.room.out if self.has_output else self.text)
        if had != text:
            yield f"{had!r} is handed on, not {text!r}"
        if self.has_output and texts_in(self.text):
            yield f"it prints {texts_in(self.text)!r} as well"

    def wrong_signature(self) -> Iterator[str]:
        """A signature is a file, and verifies."""
        self.has_output = True
        for name in self.own_signatures:
            if os.path.islink(f"{self.room.signed}/{name}") or not os.path.isfile(f"{self.room.signed}/{name}"):
                yield f"{name} is no regular file"
        end = ended(self.call(VERIFY, {}), self.shell, self.room, self.room.environment)
        if end is None or end[0]:
            yield f"what was signed does not verify: {end}"


def canon(text: str) -> bytes:
    return subprocess.run([PROGRAMS["yamlcanon"], "canon"], input=text.encode(), capture_output=True, check=True).stdout


def faults(base: Room, attack: Attack, shell: str, shape: str, is_strict: bool) -> list[str]:
    """What is wrong with one call, which is made in a copy of the base."""
    with tempfile.TemporaryDirectory(prefix="room-", dir=os.path.dirname(base.folder)) as folder:
        subprocess.run(["cp", "-a", f"{base.folder}/.", folder], check=True)
        return [*Trial(Room(folder), attack, shell, shape, is_strict).faults()]


def read_otherwise() -> Iterator[str]:
    """The readings that PyYAML does not read otherwise than what was signed: these would be no attack."""
    for signed, replaced in READINGS if yaml else ():
        if repr(yaml.safe_load(replaced)) == repr(yaml.safe_load(signed)):
            yield f"PyYAML reads {replaced!r} as {signed!r}"
