"""base.py: what the parts of bench/report share: the options of a run, the texts, and runs by turns."""
import importlib.machinery
import importlib.util
import os
import shutil
import statistics
import subprocess
import sys

from lib.paths import PROGRAM
from .taken import BENCH, cost, of_libyaml

# The texts of `bench/texts`, and how many times the size each has: a key of `keys` takes 14 bytes.
SHAPES = {"mappings": 1, "flow": 1, "scalars": 1, "documents": 1, "anchored": 1, "keys": 1.4}
REAL = {"real by name": (), "real shuffled": ("--shuffled",)}


class LeftOut(Exception):
    """Why a part, or a piece of it, cannot be measured here."""


def say(text):
    print(f"report: {text}", file=sys.stderr, flush=True)


def need(path, what):
    if not os.access(path, os.X_OK):
        raise LeftOut(f"{what} is not built: {path}")
    return path


def need_tool(name):
    if not shutil.which(name):
        raise LeftOut(f"{name} is not installed")


def script(name):
    """A script of bench/ without a suffix, as a module."""
    loader = importlib.machinery.SourceFileLoader(f"{name}_script", f"{BENCH}/{name}")
    module = importlib.util.module_from_spec(importlib.util.spec_from_loader(loader.name, loader))
    loader.exec_module(module)
    return module


class Run:
    """What one run of the report has: its folder of temporary files, and its options."""

    def __init__(self, options, folder):
        self.options, self.folder, self.quick = options, folder, options.quick
        self.size = options.size or (200_000 if self.quick else 10_000_000)
        self.rounds = options.rounds or (3 if self.quick else 9)

    def library(self):
        """The folder that has the library."""
        if not self.options.library:
            raise LeftOut("what needs the library, since --library names no folder that tools/library built")
        return os.path.abspath(self.options.library)

    def path(self, name):
        return f"{self.folder}/{name}"

    def libyaml(self, source):
        """The words that run a C program over libyaml on a file."""
        words = of_libyaml(source, self.folder)
        if not words:
            raise LeftOut(f"bench/c/{source} cannot be built: install a C compiler and libyaml's headers (libyaml-dev)")
        return words

    def text(self, name, size):
        """The path of a text of about this size: a shape's, or real files as one stream."""
        path = self.path(f"{name.replace(' ', '_')}.{size}.yaml")
        if not os.path.exists(path):
            with open(path, "wb") as file:
                if name in REAL:
                    self.join(file, size, REAL[name])
                else:
                    subprocess.run([f"{BENCH}/texts", name, str(int(size * SHAPES[name]))], stdout=file, check=True)
        return path

    def join(self, file, size, options):
        """Joins files of the folder of real files that both readers read."""
        parse = self.libyaml("parse_events.c")[-1]
        words = [f"{BENCH}/joined", self.options.real, str(size), *options]
        subprocess.run(words, stdout=file, check=True, env={**os.environ, "YAMLCANON": PROGRAM, "PARSE": parse})

    def texts(self):
        """The names of the texts that can be made here."""
        if not self.options.real:
            say("left out: real files, since --real names no folder that has them")
        return [*SHAPES, *(REAL if self.options.real else ())]

    def by_turns(self, ways, rounds=None):
        """Runs each way once a round: of each by its name the costs of all rounds, seconds of processor and MiB."""
        taken = {name: [] for name in ways}
        for _ in range(rounds or self.rounds):
            for name, words in ways.items():
                taken[name].append(cost(words, self.folder))
        return taken


def ratio(taken, name, base):
    """The median of a way's seconds for another's in the same round, and the least and the greatest as a spread."""
    ratios = [mine[0] / max(other[0], 1e-4) for mine, other in zip(taken[name], taken[base])]
    return statistics.median(ratios), f"{min(ratios):.3g}..{max(ratios):.3g}"
