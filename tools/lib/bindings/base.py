"""base.py: what the parts of tools/bindings share: a line said, a fault told, a command run, a program in C built, and the
program's own answers."""
import contextlib
import os
import random
import subprocess
import sys


from lib.paths import PROGRAM
from lib.failing import rows

SEED = 1
LETTERS = [letter.encode() for letter in "-:#[]{},?\"'\\&*!|> \n\tab01~%é"]
WRONG = []


def say(text):
    print("bindings: " + text, flush=True)


def wrong(text):
    WRONG.append(text)
    print("bindings: " + text, file=sys.stderr, flush=True)


@contextlib.contextmanager
def part(text):
    """A part of what is tried: the text is said behind it, if nothing went wrong in it."""
    before = len(WRONG)
    yield
    if len(WRONG) == before:
        say(text)


def run(*words, out=None, may_end=(0,), **how):
    """A command, which has to end well. Gives its output; where that goes to a file, what it says on standard error."""
    streams = {"stdout": out, "stderr": subprocess.PIPE} if out else {"stdout": subprocess.PIPE, "stderr": subprocess.STDOUT}
    try:
        done = subprocess.run(words, check=False, **streams, **how)
    except OSError as fault:
        wrong("%s: %s" % (" ".join(words), fault))
        return ""
    told = (done.stderr if out else done.stdout).decode(errors="replace")
    if done.returncode not in may_end:
        wrong("%s: status %d\n%s" % (" ".join(words), done.returncode, told))
    return told.strip()


def is_there(*words):
    """Whether what a part needs is there; where it is not, that part is left out."""
    try:
        subprocess.run(words, stdout=subprocess.DEVNULL, stderr=subprocess.DEVNULL, check=True)
        return True
    except (OSError, subprocess.CalledProcessError):
        say("left out, since it fails: " + " ".join(words))
        return False


def build(folder, name, *words, compiler="cc"):
    """A program in C over the library of a folder."""
    made = "%s/%s" % (folder, name)
    run(compiler, "-std=c11", "-D_DEFAULT_SOURCE", "-O2", "-Wall", "-Wextra", "-Werror", "-I", folder, "-o", made, *words)
    return made


def told(*words):
    """What the program answers: its status, its output and its line."""
    done = subprocess.run([PROGRAM, *words], stdin=subprocess.DEVNULL, capture_output=True, check=False)
    return done.returncode, done.stdout, done.stderr


def is_program_built():
    """Whether there is a program to hold answers against; where there is none, that is a fault."""
    if os.access(PROGRAM, os.X_OK):
        return True
    wrong("%s is not built: the answers are not held against it" % PROGRAM)
    return False


def texts_of_rows():
    return list(
        dict.fromkeys(text for row in rows.all_rows() for text in ([row.left, row.right] if isinstance(row, rows.Pair) else [row.input]))
    )


def changed(text, chance):
    """A text with up to three of its bytes taken out, doubled or replaced."""
    for _ in range(chance.randint(1, 3)):
        at = chance.randint(0, len(text))
        text = text[:at] + chance.choice([b"", text[at : at + 1] * 2, chance.choice(LETTERS)]) + text[at + 1 :]
    return text


def with_changed(own, count, largest=400):
    """So many texts, each of them once: these, and changed ones of those that have at most so many bytes."""
    texts, small, chance = dict.fromkeys(own), [text for text in own if len(text) <= largest], random.Random(SEED)
    while len(texts) < count:
        texts.setdefault(changed(chance.choice(small), chance))
    return list(texts)[:count]
