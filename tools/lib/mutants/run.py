"""A run of mutants: which are tried, how many crates at a time, next to `rt ci` or alone, and what is printed."""
import glob
import os
import re
import subprocess
import threading
from concurrent.futures import ThreadPoolExecutor, as_completed

from lib.crates import crates_below, crates_of
from lib.mutants.judging import OWN, passes, try_crate
from lib.mutants.mutant import Mutant, mutants_of
from lib.paths import RT, read
from lib.room import free_memory

MEMORY_OF_A_PROOF = 5 * 2**30


def lanes(memory: int) -> int:
    """How many proofs or checks run side by side: as many as there are processors and memory for."""
    return max(1, min(len(os.sched_getaffinity(0)), free_memory() // memory))


class Gate:
    """A run of `rt ci`: its lines are passed on, and the crates that it has proved, now or before, are noted. `status` is None until it ends.

    Each proof has one job (RT_JOBS): a second one loads anew what stands below the crate, which is a third of what the upper crates
    cost, and so gains next to no time there."""

    def __init__(self, root: str) -> None:
        self.proved: set[str] = set()
        self.status: int | None = None
        self.changed = threading.Condition()
        self.process = subprocess.Popen(
            [RT, "ci"],
            cwd=root,
            stdin=subprocess.DEVNULL,
            stdout=subprocess.PIPE,
            text=True,
            errors="replace",
            stderr=subprocess.STDOUT,
            env={"RT_JOBS": str(lanes(MEMORY_OF_A_PROOF)), **os.environ, "PYTHONUNBUFFERED": "1"},
        )
        threading.Thread(target=self.read, daemon=True).start()

    def read(self) -> None:
        for line in self.process.stdout or ():
            print(line, end="", flush=True)
            found = re.match(r"rt: (\S+) (?:proved$|is kept:)", line)
            if found:
                with self.changed:
                    self.proved.add(found[1])
                    self.changed.notify_all()
        with self.changed:
            self.status = self.process.wait()
            self.changed.notify_all()

    def wait_for(self, crates: list[str]) -> bool:
        """Waits until these crates are proved, or until nothing more is; whether they are."""
        with self.changed:
            self.changed.wait_for(lambda: self.proved.issuperset(crates) or self.status is not None)
            return self.proved.issuperset(crates)

    def wait(self) -> int:
        with self.changed:
            self.changed.wait_for(lambda: self.status is not None)
            return self.status or 0


Asked = dict[str, "list[Mutant]"]  # mutants by their crate
MEMORY_OF_A_CHECK = 3 * 2**30
BESIDE_GATE = 10  # the niceness of checks beside a gate
KNOWN_AT_MOST = 10


class NoSuch(Exception):
    """What was asked for and is not there."""


def mutants_asked(root: str, crates: list[str], words: list[str] | None) -> Asked:
    """The mutants of these crates, or of all, whose name has one of these words, if there are any."""
    every = {crate: found for crate in sorted(crates_of(root)) if (found := mutants_of(root, crate))}
    unknown = [crate for crate in crates if crate not in every]
    if unknown:
        raise NoSuch(f"no crate with mutants has the name {unknown[0]}")
    asked = {crate: [it for it in every[crate] if not words or any(word in it.name for word in words)] for crate in crates or every}
    asked = {crate: mutants for crate, mutants in asked.items() if mutants}
    if not asked:
        raise NoSuch(f"no mutant has a name with {' or '.join(words)}" if words else "there are no mutants")
    return asked


def known_mutants(root: str) -> set[str]:
    """The mutants that may pass without a goal of their own, `crate/mutant: reason` a line. They are few."""
    path = f"{root}/tools/data/mutants.known"
    found = {line.partition(":")[0] for line in read(path).split("\n") if ": " in line and not line.startswith("#")}
    if len(found) > KNOWN_AT_MOST:
        raise SystemExit(f"mutants: {path} has more than {KNOWN_AT_MOST} lines")
    return found


def git(root: str, *words: str) -> str | None:
    """What git prints, or None where it knows no such thing."""
    done = subprocess.run(["git", "-C", root, *words], capture_output=True, text=True, check=False)
    return None if done.returncode else done.stdout


def landed(root: str) -> str:
    """The last commit that landed: where the branch left `origin/main`, or the commit before this one if it is there already."""
    here = git(root, "rev-parse", "HEAD")
    base = git(root, "merge-base", "HEAD", "origin/main")
    return (base if base and base != here else git(root, "rev-parse", "HEAD^") or "").strip()


def without_imports(text: str) -> list[str]:
    """The lines of a source or of definitions, but for imports and comments."""
    text = re.sub(r"(?m)^[ \t]*(?:pub )?(?:ghost )?use [^;{\n]*(?:\{[^}]*\})?[^;\n]*;?$", "", text)
    lines = (line.strip() for line in text.split("\n"))
    return [line for line in lines if line and not line.startswith(("//", "-- ", "pub mod ", "mod "))]


def says_more(root: str, since: str, path: str) -> bool:
    """Whether a file of a crate decides what a mutant is tried against, and has more than other imports and comments since a commit."""
    if path.split("/")[2:3] not in (["src"], ["specs"], ["mutants.txt"], ["must-fail"]):
        return False
    was = git(root, "show", f"{since}:./{path}")
    now = read(f"{root}/{path}") if os.path.isfile(f"{root}/{path}") else ""
    return without_imports(was or "") != without_imports(now)


def changed_crates(root: str, since: str | None) -> set[str] | None:
    """The crates whose code, definitions or mutants are not as they were in a commit, or None where git does not know the commit."""
    files = git(root, "diff", "--name-only", "--no-renames", "--relative", since, "--") if since else None
    if files is None or since is None or git(root, "show", f"{since}:./crates.txt") is None:
        return None
    new = git(root, "ls-files", "--others", "--exclude-standard") or ""
    paths = [path for path in (files + new).splitlines() if path.startswith("crates/")]
    return {path.split("/")[1] for path in paths if says_more(root, since, path)} & set(crates_of(root))


def one_of_each_function(mutants: list[Mutant]) -> list[Mutant]:
    """The mutants that change a function which none before them changes, and those that cannot be tried, so that they are reported."""
    chosen: list[Mutant] = []
    functions: set[str] = set()
    for mutant in mutants:
        if mutant.why or not mutant.functions() <= functions:
            chosen.append(mutant)
            functions |= mutant.functions()
    return chosen


def of_the_gate_in(mutants: list[Mutant]) -> list[Mutant]:
    """Of a crate: one of each public function that has any, one of each file that has none of these, and those that cannot be tried."""
    first = one_of_each_function(mutants)
    chosen = [it for it in first if it.why or any(place.is_public for place in it.places)]
    files = {place.path for it in chosen for place in it.places}
    for mutant in first:
        paths = {place.path for place in mutant.places}
        if mutant not in chosen and not paths <= files:
            chosen.append(mutant)
            files |= paths
    return chosen


def of_the_gate(root: str, since: str | None) -> Asked:
    """The mutants that a gate tries, in the crates that changed since a commit, or in all where git does not know it."""
    changed = changed_crates(root, since)
    if changed is None:
        print("mutants: git knows no commit to compare with, so those of all crates are tried", flush=True)
    every = mutants_asked(root, [], None)
    return {crate: of_the_gate_in(mutants) for crate, mutants in every.items() if changed is None or crate in changed}


def weight(root: str, crate: str, mutants: list[Mutant]) -> int:
    """What a crate's mutants may cost: its text, once more for each few of them."""
    size = sum(os.path.getsize(path) for path in glob.glob(f"{root}/crates/{crate}/src/**/*.rt", recursive=True))
    return size * (4 + len(mutants))


class Lanes:
    """How many crates are tried at a time: so many as there are processors and memory for, beside a gate one less."""

    def __init__(self, gate: Gate | None) -> None:
        self.gate, self.processors, self.most = gate, len(os.sched_getaffinity(0)), lanes(MEMORY_OF_A_CHECK)
        self.taken, self.changed = 0, threading.Condition()
        self.waiting: list[int] = []

    def may_begin(self) -> bool:
        is_beside_gate = self.gate is not None and self.gate.status is None
        if self.taken == 0 and not is_beside_gate:
            return True
        most = max(1, self.processors - 1) if is_beside_gate else self.most
        return self.taken < most and free_memory() > MEMORY_OF_A_CHECK

    def begin(self, size: int) -> None:
        """Waits for a lane. The largest of those that wait has the next one."""
        with self.changed:
            self.waiting.append(size)
            while size < max(self.waiting) or not self.may_begin():
                self.changed.wait(timeout=5)
            self.waiting.remove(size)
            self.taken += 1
            self.changed.notify_all()

    def end(self) -> None:
        with self.changed:
            self.taken -= 1
            self.changed.notify_all()


def try_when_proved(root: str, crate: str, mutants: list[Mutant], lanes: Lanes) -> tuple[float, int] | None:
    """Tries the mutants of a crate, beside a gate once that has proved what they stand on: (seconds, checks), or None where it does not."""
    if lanes.gate and not lanes.gate.wait_for([crate, *crates_below(crates_of(root), crate)]):
        return None
    lanes.begin(weight(root, crate, mutants))
    try:
        return try_crate(root, crate, mutants)
    finally:
        lanes.end()


def tell(crate: str, mutants: list[Mutant], seconds: float, checks: int) -> None:
    for mutant in mutants:
        where = ", ".join("::".join(place.name.split("::")[1:]) for place in mutant.places) or "(no function)"
        goals = " ".join(mutant.goals[:4]) + (" .." if len(mutant.goals) > 4 else "")
        print(f"{crate}/{mutant.name} | {where} | {mutant.verdict} | {goals} | {mutant.control}")
    print(f"{crate}: {len(mutants)} mutants, {checks} checks, {seconds:.0f} s of processor", flush=True)


def try_all(root: str, asked: Asked, lanes: Lanes) -> None:
    """Tries the mutants of all crates, and tells them as they are found."""
    with ThreadPoolExecutor(max(1, len(asked))) as pool:
        running = {
            pool.submit(try_when_proved, root, name, asked[name], lanes): name
            for name in sorted(asked, key=lambda name: -weight(root, name, asked[name]))
        }
        for done in as_completed(running):
            name, spent = running[done], done.result()
            if spent is None:
                print(f"{name}: its mutants were not tried, since the gate did not prove what they stand on", flush=True)
            else:
                tell(name, asked[name], *spent)


def conclude_all(asked: Asked, known: set[str]) -> int:
    """Prints what failed and the sums; the status."""
    tried = [it for mutants in asked.values() for it in mutants]
    failed = [it for it in tried if not passes(it.verdict, f"{it.crate}/{it.name}" in known)]
    if failed:
        print("\nrefused by no goal of their own:")
    for it in failed:
        print(f"  {it.crate}/{it.name}: {it.verdict or 'not tried'}; {it.control or ' '.join(it.goals[:3])}")
    functions = {place.name for it in tried for place in it.places}
    told = sum(it.verdict == OWN for it in tried)
    print(f"\n{len(functions)} functions with a mutant; {told} mutants of {len(tried)} are refused by a goal of their own")
    print(f"{len(tried) - len(failed)} passed, {len(failed)} failed")
    return 1 if failed else 0


def run(root: str, asked: Asked) -> int:
    known = known_mutants(root)
    try_all(root, asked, Lanes(None))
    return conclude_all(asked, known)


def run_gate(root: str, asked: Asked) -> int:
    known, gate = known_mutants(root), Gate(root)
    os.nice(BESIDE_GATE)
    try_all(root, asked, Lanes(gate))
    status = conclude_all(asked, known)
    return gate.wait() or status
