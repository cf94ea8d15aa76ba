"""The runs of tools/data/programs.toml, whose head says what a block is."""
import os
import resource
import string
import subprocess
import tempfile
import tomllib
import urllib.parse

from lib.examples.room import PROGRAMS, environment
from lib.paths import DATA, EXAMPLES

TABLE = f"{DATA}/programs.toml"
LIMITS = {"stack": resource.RLIMIT_STACK, "memory": resource.RLIMIT_AS}
KEYS = {"program", "arguments", "input", "status", "output", "error", "each", "stack", "memory", "shell"}


def table(path=TABLE):
    with open(path, "rb") as file:
        return tomllib.load(file)


def made(piece):
    times, middle = piece["times"], piece.get("middle", "")
    if "indented" in piece:
        return "".join(f"{' ' * column}{line}\n" for column in range(times) for line in piece["indented"]) + " " * times + middle + "\n"
    if "numbered" in piece:
        return "".join(piece["numbered"] % number + "\n" for number in range(1, times + 1))
    return piece["open"] * times + middle + piece["close"] * times + "\n"


def furnish(room, given):
    for name, text in given["files"].items():
        with open(os.path.join(os.fsencode(room), urllib.parse.unquote_to_bytes(name)), "wb") as file:
            file.write(text.encode())
    for name, piece in given["made"].items():
        with open(f"{room}/{name}", "w", encoding="utf-8") as file:
            file.write(made(piece))
    for name in given["other"]["folders"]:
        os.mkdir(f"{room}/{name}")
    for name in given["other"]["fifos"]:
        os.mkfifo(f"{room}/{name}")


class Run:
    """One run of a block, with its texts filled in."""

    def __init__(self, block, texts):
        unknown = set(block) - KEYS
        if unknown:
            raise SystemExit(f"examples: {TABLE}: a run has no key {min(unknown)}")

        def filled(text):
            return string.Template(text).substitute(texts)

        self.block, self.program = block, block.get("program", "yamlcanon")
        self.arguments = [urllib.parse.unquote_to_bytes(filled(word)) for word in block.get("arguments", [])]
        self.shell, self.given, self.status = block.get("shell"), filled(block.get("input", "")).encode(), block.get("status", 0)
        self.output, self.error = filled(block.get("output", "")).encode(), filled(block.get("error", "")).encode()
        self.limits = [(kind, block[name] * 1024) for name, kind in LIMITS.items() if name in block]

    def name(self):
        if self.shell:
            return self.shell.strip().splitlines()[-1]
        return " ".join([self.program, *(word.decode(errors="replace") for word in self.arguments)])[:200]

    def limit(self):
        for kind, size in self.limits:
            resource.setrlimit(kind, (size, size))

    def fault(self, room, env):
        """What the run did, if it is not what the block says; else nothing."""
        words = ["sh", "-ec", self.shell] if self.shell else [PROGRAMS[self.program], *self.arguments]
        ran = subprocess.run(
            words,
            input=self.given,
            cwd=room if self.shell else EXAMPLES,
            env={} if self.limits else env,
            capture_output=True,
            preexec_fn=self.limit if self.limits else None,
            check=False,
        )
        is_output = bool(self.limits) or ran.stdout == self.output
        if ran.returncode == self.status and is_output and ran.stderr == self.error:
            return ""
        printed = (ran.stdout[:2000] if not is_output else b"") + ran.stderr[:2000]
        return f"{self.name()}: status {ran.returncode}, wanted {self.status}\n{printed.decode(errors='replace')}"


def runs_of(given, room):
    texts = {name: it["piece"] * it["times"] for name, it in given["texts"].items()}
    for block in given["run"]:
        for each in block.get("each", [""]):
            yield Run(block, {**texts, "room": room, "each": each})


def check(checked, path=TABLE):
    given = table(path)
    with tempfile.TemporaryDirectory(prefix="examples-") as folder:
        room, env = f"{folder}/room", environment(folder)
        os.mkdir(room)
        furnish(room, given)
        for run in runs_of(given, room):
            fault = run.fault(room, env)
            checked.want(not fault, fault)
