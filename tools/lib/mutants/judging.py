"""The mutants of one crate, tried in rounds and judged."""
from __future__ import annotations

from collections.abc import Sequence

from lib.mutants.mutant import Change, Mutant, Refusal, Said
from lib.room import Room

Told = dict[str, "Refusal | None"]  # by the name of the mutant

OWN = "refused by a goal of its own"
UNTOLD = "refused through what it calls alone"
SHAPE = "refused for its shape"
NONE = "no evidence"
THROUGH = "LET THROUGH"
BROKEN = "does not compile"

# How often answers that name what is not there are left to the search: those of a mutant, and those of its twin.
TRIES, TWIN_TRIES = 4, 2


class Trial:
    """A mutant with the changes that are tried for it and the answers that are left out (file: goals)."""

    def __init__(self, mutant: Mutant, changes: list[Change], aside: dict[str, set[str]]) -> None:
        self.mutant, self.changes, self.aside = mutant, changes, aside

    def overlaps(self, other: Trial) -> bool:
        """Whether a change of one takes or makes a text that one of the other's stands for."""
        return any(a[0] == b[0] and (b[1] in a[1] + "\n" + a[2] or a[1] in b[1] + "\n" + b[2]) for a in self.changes for b in other.changes)

    def fits(self, others: list[Trial]) -> bool:
        """Whether it can be told in one check with these: no function is theirs too. A mutant outside functions is tried alone."""
        if self.mutant.is_outside or any(it.mutant.is_outside for it in others):
            return False
        return not any(it.mutant.functions() & self.mutant.functions() or it.overlaps(self) for it in others)

    def set_aside(self, wrong: list[tuple[str, int, str]]) -> bool:
        """Leaves the answers that name what is not there to the search; whether any is new."""
        is_new = False
        for path, _, goal in wrong:
            if path.endswith("/Answers.antt") and goal not in self.aside.get(path, ()):
                self.aside.setdefault(path, set()).add(goal)
                is_new = True
        return is_new


def rounds(trials: list[Trial]) -> list[list[Trial]]:
    """Lays the trials into as few checks as may be."""
    laid: list[list[Trial]] = []
    for trial in trials:
        room = next((it for it in laid if trial.fits(it)), None)
        if room is None:
            laid.append([trial])
        else:
            room.append(trial)
    return laid


def functions_of(trials: list[Trial]) -> list[str]:
    """The functions that a round changes, or none where it changes more: what only calls them is judged by their contracts, which no mutant changes."""
    if any(it.mutant.is_outside for it in trials):
        return []
    return sorted({place.name.split("::", 1)[1] for it in trials for place in it.mutant.places})


def check_round(room: Room, trials: list[Trial]) -> tuple[Said | None, list[Trial]]:
    """What one check says of these trials, or None where the front end refuses it, and the trials that are to blame."""
    aside: dict[str, set[str]] = {}
    for trial in trials:
        for path, goals in trial.aside.items():
            aside.setdefault(path, set()).update(goals)
    try:
        said = room.check([it for trial in trials for it in trial.changes], aside, functions_of(trials))
    except ValueError:
        return None, trials
    bad = [it for it in trials if any(error[0] == change[0] for error in said.errors for change in it.changes)]
    return (said, []) if said.status else (None, bad)


def judge(room: Room, laid: list[list[Trial]]) -> Told:
    """Checks rounds of trials: {name of the mutant: what the check said of it, or None where it does not compile}."""
    told: Told = {}
    todo = [*laid]
    while todo:
        now = todo.pop(0)
        said, bad = check_round(room, now)
        if said:
            told.update({it.mutant.name: said.of(it.mutant) for it in now})
        elif len(now) == 1:
            told[now[0].mutant.name] = None
        elif bad and len(bad) < len(now):
            # those whose file the front end names are tried alone, the others together
            todo = [[it] for it in bad] + [[it for it in now if it not in bad]] + todo
        else:
            todo = [now[: len(now) // 2], now[len(now) // 2 :]] + todo
    return told


def settle(room: Room, trials: list[Trial], tries: int) -> Told:
    """What is said of each trial, once its answers that name what is not there are left to the search."""
    told = judge(room, rounds(trials))
    for _ in range(tries):
        found = [(it, told[it.mutant.name]) for it in trials]
        again = [it for it, said in found if said and not said.false and it.set_aside(said.names)]
        if not again:
            break
        told.update(judge(room, rounds(again)))
    # what was refused only with others that it calls is told alone
    silent = [it for it in trials if (said := told[it.mutant.name]) and said.is_silent()]
    told.update(judge(room, [[it] for it in silent]))
    return told


def wants_control(trial: Trial, told: Refusal | None) -> bool:
    """Whether a refusal may be one of the mutant's shape alone, so that its twin has to tell, or the unchanged text without the same answers."""
    if not told or told.is_proved or not told.goals or told.false:
        return False
    return bool(trial.aside) or bool(trial.mutant.twin()) and not trial.mutant.keeps_shape()


def conclude(trial: Trial, told: Refusal | None, control: Sequence[Refusal | None]) -> None:
    """Gives a mutant its verdict, the goals that refuse it, and what controls it: `control` has what was said of the control, if one was tried."""
    mutant = trial.mutant
    if told is None:
        mutant.verdict = BROKEN
        return
    mutant.goals = told.goals
    if told.is_proved:
        mutant.verdict = THROUGH
    elif told.false:
        mutant.verdict, mutant.goals, mutant.control = OWN, told.false, "false at values that the check found"
    elif told.names and not told.goals:
        mutant.verdict, mutant.goals = SHAPE, sorted({goal or path for path, _, goal in told.names})
    elif not told.goals:
        mutant.verdict = UNTOLD
    elif mutant.keeps_shape() and not trial.aside and not told.names:
        mutant.verdict, mutant.control = OWN, "same shape"
    elif not control:
        mutant.verdict, mutant.control = NONE, "its shape differs and it has no twin"
    else:
        hold_beside(mutant, told, control[0])


def hold_beside(mutant: Mutant, told: Refusal, control: Refusal | None) -> None:
    """The verdict of a mutant whose control was tried."""
    what = f"twin `{mutant.twin()[0][2].strip()}`" if mutant.twin() else "unedited, the same answers left to the search"
    if control is None:
        mutant.verdict, mutant.control = NONE, f"{what}: does not compile"
        return
    if control.is_proved:
        mutant.verdict, mutant.control = OWN, f"{what}: proved"
        return
    # A goal with no clause's name carries the names of steps, which a twin need not have: it tells nothing against the mutant.
    failed = control.goals + [goal for _, _, goal in control.names]
    left = sorted({it.split("-clause-")[-1] for it in told.goals if "-clause-" in it} - {it.split("-clause-")[-1] for it in failed})
    if mutant.twin() and left and control.goals and all("-clause-" in it for it in control.goals):
        mutant.verdict, mutant.control = OWN, f"{what}: refused in {' '.join(failed[:3])}, but not in {' '.join(left[:3])}"
    else:
        mutant.verdict, mutant.control = NONE, f"{what}: refused too, in {' '.join(failed[:3])}"


def passes(verdict: str, is_known: bool) -> bool:
    """Whether a verdict is that of a mutant which is refused as it should be."""
    return verdict == OWN or (is_known and verdict in (NONE, SHAPE, UNTOLD))


def is_proved(room: Room, trials: list[Trial]) -> bool:
    """Whether the functions of these trials are proved as they are: where they are not, no refusal tells anything."""
    said, _ = check_round(room, [Trial(it.mutant, [], {}) for it in trials])
    # (of a function that is passed as a value, the prover says that it is proved where its callers give what it asks)
    return said is not None and all(status.startswith("proved") for status in said.status.values())


def try_crate(root: str, crate: str, mutants: list[Mutant]) -> tuple[float, int]:
    """Judges the mutants of a crate; the processor seconds and the checks that it took."""
    for mutant in mutants:
        if mutant.why:
            mutant.verdict, mutant.control = BROKEN, mutant.why
    trials = [Trial(it, it.changes(), {}) for it in mutants if not it.why]
    room = Room(root, crate)
    try:
        if not is_proved(room, trials):
            raise SystemExit(f"mutants: {crate} is not proved as it is, so that no refusal tells anything")
        told = settle(room, trials, TRIES)
        beside = [
            Trial(it.mutant, it.mutant.twin(), {path: {*goals} for path, goals in it.aside.items()})
            for it in trials
            if wants_control(it, told[it.mutant.name])
        ]
        control = settle(room, beside, TWIN_TRIES)
        for trial in trials:
            name = trial.mutant.name
            conclude(trial, told[name], [control[name]] if name in control else [])
    finally:
        room.close()
    return room.seconds, room.checks
