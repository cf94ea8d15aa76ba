"""minutes.py: the minutes of a first build and of CI, from what these printed."""
import re

from .base import LeftOut

BUILT = re.compile(r"^yamlcanon: built in ([\d.]+) minutes, ([\d.]+) of processor$", re.M)
PASSED = re.compile(r"^gate: ([\d.]+) minutes, ([\d.]+) of processor\ngate: passed\Z", re.M)


def minutes(run):
    """What a log of ./yamlcanon in a clean clone says, and one of .ci/run: each is left out where none is named."""
    logs = ("first build", run.options.build_log, BUILT), ("CI", run.options.ci_log, PASSED)
    if not any(log for _, log, _ in logs):
        raise LeftOut("no log is named by --build-log or --ci-log")
    for name, log, pattern in logs:
        if log:
            with open(log, encoding="utf-8", errors="replace") as file:
                found = pattern.search(file.read().rstrip("\n"))
            if not found:
                raise LeftOut(f"{log} has no line with the minutes of the {name}")
            yield f"minutes/{name}/clock", float(found[1]), "minutes", ""
            yield f"minutes/{name}/processor", float(found[2]), "minutes of processor", ""
