"""Runs of cases, each in a folder of its own, as many at a time as there are processors; and runs over every front of an input."""
import concurrent.futures
import functools
import os
import re
import subprocess
import tempfile

from lib.cases.table import FOLDER, RUN, NoCase, cases_of, difference, paths, streams_with_fronts
from lib.examples.room import PROGRAMS
from lib.trial import put

# A front is tried of inputs of so many bytes at most. Of an input of more than FEW bytes, which is made of one piece many times, only each
# STEPth front is tried but for those at its ENDS.
LONGEST, FEW, ENDS, STEP = 4096, 512, 128, 16
FAULT = re.compile(rb"yaml: (\d+) [^\n]*\n")


def ran_in(folder, run):
    env = {"HOME": folder, "LC_ALL": "C.UTF-8", **run.environment}
    return subprocess.run([PROGRAMS[run.program], *run.words], input=run.input, cwd=folder, env=env, capture_output=True, check=False)


@functools.cache
def empty():
    """A folder for all runs that have no files: no program writes a file."""
    return tempfile.TemporaryDirectory(prefix="cases-")


def ran(run):
    if not run.files and not run.folders:
        return ran_in(empty().name, run)
    with tempfile.TemporaryDirectory(prefix="cases-") as folder:
        for name in run.folders:
            os.makedirs(os.path.join(os.fsencode(folder), name))
        put(folder, run.files)
        return ran_in(folder, run)


def faults_of(run, given):
    told = "" if given.returncode == run.status else f"  status {given.returncode}, wanted {run.status}\n"
    for what, wanted, got in (("output", run.output, given.stdout), ("error", run.error, given.stderr)):
        is_pattern = isinstance(wanted, re.Pattern)
        if not (wanted.fullmatch(got) if is_pattern else wanted in (None, got)):
            told += difference(what, wanted.pattern if is_pattern else wanted, got)
    return told + (run.judge(given.stdout) if run.judge else "")


def fault_of(case):
    """What is wrong with a case, with its name; or nothing."""
    for run in case.runs:
        told = faults_of(run, ran(run))
        if told:
            words = " ".join([run.program, *(word.decode("utf-8", "backslashreplace") for word in run.words)])
            return f"{os.path.basename(case.path)}: {case.name}: {words}\n{told}"
    return ""


def each(call, given):
    empty()  # before the threads begin, which would make one each
    with concurrent.futures.ThreadPoolExecutor(len(os.sched_getaffinity(0))) as pool:
        yield from pool.map(call, given)


def fronts_of(inputs):
    """The fronts of inputs that are not too long, each once, the shortest first."""
    found = set()
    for source in (it for it in inputs if len(it) <= LONGEST):
        last = len(source)
        cuts = range(last) if last <= FEW else [*range(ENDS), *range(ENDS, last - ENDS, STEP), *range(last - ENDS, last)]
        found |= {source[:cut] for cut in cuts}
    return sorted(found, key=lambda front: (len(front), front))


def answer(word, source):
    """The status of a command over an input, with its output, or its error."""
    given = ran(RUN._replace(words=[word], input=source))
    return given.returncode, given.stdout, given.stderr


def fault_of_front(front):
    """What is wrong with the answers to a front, or nothing: it has a canonical text, which is its own, or a numbered fault, which is that of
    reading where the front is not read. A front that cuts a character is no UTF-8 from that character on."""
    status, text, error = answer(b"canon", front)
    reading, cut_at = answer(b"events", front), None
    try:
        front.decode()
    except UnicodeDecodeError as cut:
        cut_at = cut.start
    if cut_at is not None:
        is_right = (status, text, error) == reading == (2, b"", b"yaml: 2 NotUtf8 at byte %d\n" % cut_at)
    elif status == 0:
        is_right = reading[0] == 0 and answer(b"canon", text) == (0, text, b"")
    else:
        found = FAULT.fullmatch(error)
        number = int(found[1]) if found else 0
        is_unread = 3 <= number < 12 and reading == (2, b"", error)
        is_right = status == 2 and not text and (is_unread or (12 <= number <= 19 and reading[0] == 0))
    return "" if is_right else f"front {front!r}: status {status}, {text!r}, {error!r}; read: {reading!r}"


def check(checked, folder=FOLDER):
    """Runs all cases, and the fronts of those files that ask for it."""
    try:
        found = paths(folder)
        cases = [case for path in found for case in cases_of(path)]
        fronts = fronts_of([source for path in found for source in streams_with_fronts(path)])
    except NoCase as error:
        checked.wrong.append(str(error))
        return
    for fault in (*each(fault_of, cases), *each(fault_of_front, fronts)):
        checked.want(not fault, fault)
