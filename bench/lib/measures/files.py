"""files.py: many files at once, by bench/many over the files of bench/many_files."""
import os
import statistics
import subprocess
import sys

from lib.paths import REVIEW, TOP
from .base import need, say, script
from .taken import BENCH

JOBS = 4


def files(run):
    """Files a second of each way by the clock, and how many times those of the way that it is compared with."""
    need(REVIEW, "yamlreview")
    library, many, count = run.library(), script("many"), 300 if run.quick else 10_000
    folder = run.path("files")
    subprocess.run([sys.executable, f"{BENCH}/many_files", folder, str(count)], stdout=subprocess.DEVNULL, check=True)
    os.environ.pop("PYTHONDONTWRITEBYTECODE", None)
    os.environ.update(
        YAMLCANON_LIBRARY=f"{library}/libyamlcanon.so.1", PYTHONPATH=f"{TOP}/bindings/python", PYTHONPYCACHEPREFIX=run.path("compiled")
    )
    names = many.names_below(folder, count)
    seen, _, bases = many.rounds_of(b"".join(os.fsencode(name) + b"\0" for name in names), run.folder, 2 if run.quick else 5, JOBS)
    yield "files/count", len(names), "files", ""
    yield "files/size", sum(map(os.path.getsize, names)) // len(names), "bytes on average", ""
    for way, runs in seen.items():
        ratios = [base[0] / mine[0] for base, mine in zip(seen[bases[way]], runs)]
        yield f"files/{way}/rate", len(names) / statistics.median(it[0] for it in runs), "files per second", ""
        yield f"files/{way}/ratio", statistics.median(ratios), f"times {bases[way]}", f"{min(ratios):.3g}..{max(ratios):.3g}"
    say(f"files: {len(names)} files")
