"""stack.py: the least stack at which each command answers on the deepest texts, in kB."""
import resource
import subprocess

from lib.paths import PROGRAM
from .base import need, say

DEPTH, PRECISION, USUAL = 1023, 4, 8192


def nests(depth):
    """Texts of the greatest depth (1,024 open collections, of which the last is empty, or a scalar below 1,023), one for each construct."""
    dents = [" " * level for level in range(depth)]
    yield "block sequences", "- " * depth + "x"
    yield "block mappings", "".join(f"{dent}a:\n" for dent in dents) + " " * depth + "x"
    yield "block mappings with properties", "".join(f"{dent}a:\n{dent} !x\n{dent} &y\n" for dent in dents) + " " * depth + "x"
    yield "block mappings with an anchor", "".join(f"{dent}a: &x\n" for dent in dents) + " " * depth + "x"
    yield "flow sequences", "[" * depth + "x" + "]" * depth
    yield "flow sequences with properties", "!a &a [" * depth + "x" + "]" * depth
    yield "flow mappings", "{a: " * depth + "x" + "}" * depth
    yield "flow mappings with quoted keys", '{"a":' * depth + "x" + "}" * depth
    yield "flow mappings as keys", "{" * depth + "x" + "}" * depth
    yield "flow mappings with explicit keys", "{? !x &y " * depth + "x" + "}" * depth
    yield "flow mappings with explicit pairs", "{? a : !x " * depth + "x" + "}" * depth
    half = depth // 2
    yield "single pairs", "[a: " * half + "x" + "]" * half
    yield "explicit single pairs", "[? a : " * half + "x" + "]" * half
    yield "flow in block mappings", "".join(f"{dent}a: &x\n" for dent in dents[:half]) + " " * half + "{a: " * half + "x" + "}" * half


def answer(words, kilobytes):
    """The status and output of a run with such a stack and no environment, which would take of it."""

    def limited():
        resource.setrlimit(resource.RLIMIT_STACK, (kilobytes << 10, kilobytes << 10))
        resource.setrlimit(resource.RLIMIT_CORE, (0, 0))

    ran = subprocess.run(words, stdin=subprocess.DEVNULL, capture_output=True, env={}, preexec_fn=limited, check=False)
    return ran.returncode, ran.stdout, ran.stderr


def least_stack(words):
    """The least stack at which a run ends as with the usual one, by halving."""
    usual, low, high = answer(words, USUAL), 0, USUAL
    while high - low > PRECISION:
        middle = (low + high) // 2
        low, high = (low, middle) if answer(words, middle) == usual else (middle, high)
    return high


def stack(run):
    """The most of these for each command, over all texts."""
    need(PROGRAM, "yamlcanon")
    found = {"canon": {}, "events": {}, "same": {}}
    for name, text in nests(DEPTH):
        path = run.path("nest")
        with open(path, "w", encoding="utf-8") as file:
            file.write(text)
        for command, least in found.items():
            least[name] = least_stack([PROGRAM, command, path, *[path] * (command == "same")])
        say(f"stack: {name}: " + ", ".join(f"{command} {least[name]} kB" for command, least in found.items()))
    for command, least in found.items():
        worst = max(least, key=least.get)
        yield f"stack/{command}", least[worst], "kB", f"{worst}; {len(least)} texts"
