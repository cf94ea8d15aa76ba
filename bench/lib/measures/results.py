"""results.py: bench/results.tsv: one value a line, with what it was measured on."""
import collections
import csv
import functools
import os
import re
import shutil
import subprocess

from lib.paths import TOP

FIELDS = ("name", "value", "unit", "spread", "commit", "kit", "processor")
Row = collections.namedtuple("Row", FIELDS)


def read(path):
    """The rows of a file by their names, in its order; none where there is no file."""
    if not os.path.isfile(path):
        return {}
    with open(path, encoding="utf-8", newline="") as file:
        lines = csv.reader(file, delimiter="\t", quoting=csv.QUOTE_NONE)
        if tuple(next(lines, ())) != FIELDS:
            raise SystemExit(f"report: {path}: the first line has other columns than {' '.join(FIELDS)}")
        return {row.name: row for row in map(Row._make, lines)}


def write(path, rows):
    os.makedirs(os.path.dirname(path), exist_ok=True)
    with open(f"{path}.new", "w", encoding="utf-8", newline="") as file:
        lines = csv.writer(file, delimiter="\t", quoting=csv.QUOTE_NONE, lineterminator="\n")
        lines.writerow(FIELDS)
        lines.writerows(rows.values())
    os.replace(f"{path}.new", path)


def said(*words):
    """What a command prints, or nothing where it fails or is not there."""
    try:
        return subprocess.run(words, cwd=TOP, capture_output=True, text=True, check=True).stdout.strip()
    except (OSError, subprocess.CalledProcessError):
        return ""


@functools.cache
def commit():
    """The commit of the tree, with a mark where sources have changed since."""
    has_changes = bool(said("git", "status", "--porcelain", "--", "crates", "crates.txt", "library"))
    return said("git", "rev-parse", "--short=12", "HEAD") + "+changes" * has_changes


@functools.cache
def kit():
    return (said("rt", "version") if shutil.which("rt") else "").partition(" ")[0]


def processor():
    with open("/proc/cpuinfo", encoding="utf-8") as file:
        model = re.search(r"^model name\s*: (.*)$", file.read(), re.M)
    return f"{' '.join(model[1].split()) if model else 'unknown'}, {len(os.sched_getaffinity(0))} processors"


def rows_of(values):
    """The rows of measured values: name, value, unit and spread."""
    of = commit(), kit(), processor()
    return {name: Row(name, shown(value), unit, spread, *of) for name, value, unit, spread in values}


def shown(value):
    """A number as it is in the file: four significant digits of what was measured, and what was counted whole."""
    return f"{value:.4g}" if isinstance(value, float) and abs(value) < 1e4 else f"{value:.0f}"


class Results:
    """The values of a file, as the page and the picture ask for them."""

    def __init__(self, path):
        self.rows = read(path)

    def value(self, name):
        """A number, or None where it was not measured."""
        return float(self.rows[name].value) if name in self.rows else None

    def spread(self, name):
        return self.rows[name].spread if name in self.rows else ""

    def range(self, name):
        """The least and the greatest of a spread, or None."""
        found = re.fullmatch(r"([\d.e+-]+)\.\.([\d.e+-]+)", self.spread(name))
        return (float(found[1]), float(found[2])) if found else None

    def values(self, pattern):
        """The numbers whose names match, in the order of the file."""
        return [float(row.value) for name, row in self.rows.items() if re.fullmatch(pattern, name)]

    def all_of(self, field):
        """What the rows have in a column, each once."""
        return list(dict.fromkeys(getattr(row, field) for row in self.rows.values()))
