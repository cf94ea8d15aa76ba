"""page.py: the examples of docs/format/FORM.md, and how a program is asked."""
import os
import re
import subprocess
from collections.abc import Iterator
from typing import NamedTuple

from lib.paths import TOP


class Example(NamedTuple):
    """The rule under which an example stands; an input, its text and its refusal's line, which is empty where there is none."""

    rule: str
    input: str
    text: str
    refusal: str


def page() -> str:
    with open(os.path.join(TOP, "docs/format/FORM.md"), encoding="utf-8") as file:
        return file.read()


def after(sign: str, lines: list[str]) -> str:
    """What stands after a sign, line by line, each with its LF."""
    return "".join(line[2:] + "\n" for line in lines if line.startswith(sign))


def examples(text: str) -> Iterator[Example]:
    """The examples of a page, in order. A rule is a name in bold with which a line begins, or else a title."""
    rule = ""
    for found in re.finditer(r"^\*\*`(?P<rule>[^`\n]+)`\.|^#+ (?P<title>[^\n]+)|^```\n(?P<block>.*?)^```$", text, re.M | re.S):
        rule = found["rule"] or found["title"] or rule
        if not found["block"]:
            continue
        for example in found["block"].split("\n\n"):
            lines = example.strip("\n").split("\n")
            if not all(re.match(r"[<>!]( |$)", line) for line in lines):
                raise SystemExit("no example: %r" % example)
            yield Example(rule, *(after(sign, lines) for sign in "<>!"))


def answer(program: str, command: str, source: bytes) -> tuple[str, str]:
    """What the program prints for bytes: (standard output, standard error), without the `yaml: ` of a refusal."""
    if not os.access(program, os.X_OK):
        raise SystemExit("%s is not built" % program)
    done = subprocess.run([program, command], input=source, capture_output=True)
    return done.stdout.decode(), done.stderr.decode().removeprefix("yaml: ")
