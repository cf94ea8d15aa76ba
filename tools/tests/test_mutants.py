"""What tools/mutants reads, which mutants it chooses, and its verdicts."""
import subprocess
import unittest
import unittest.mock

from scripts import TOP, folder_of, put
from lib.crates import crates_of
from lib.mutants import judging
from lib.mutants.mutant import Mutant, Refusal, Said, faults_of, mutants_of, texts_of
from lib.mutants.run import changed_crates, known_mutants, landed, one_of_each_function

SOURCE = """\
/// One.
pub fn one(n: u32) -> u32
    ensures { result ≡ n }
{
    plus(n, 1)
}

fn two(n: u32) -> u32 {
    plus(n, 2)
}

pub fn three(n: u32) -> u32 {
    plus(n, 3)
}
"""
OF_ANOTHER_MODULE = """\
use crate::kind::Kind;
use crate::low::{Room, Steps};

impl Kind {
    /// Four.
    pub fn four(&self) -> u32
        ensures { result ≡ 4 }
    {
        plus(4, 0)
    }
}

impl<'a> Room<'a> {
    pub fn five(&self) -> u32
        ensures { result ≡ 5 }
    {
        plus(5, 0)
    }
}

impl Steps for Kind {
    fn six(&self) -> u32 {
        plus(6, 0)
    }
}

impl Own {
    fn seven(&self) -> u32 {
        plus(7, 0)
    }
}
"""
BLOCKS = """\
name: one_is_two
file: src/lib.rt
old:     plus(n, 1)
new:     plus(n, 2)

name: two_is_one
file: src/lib.rt
old:     plus(n, 2)
new:     if n > 0 { plus(n, 1) } else { n }
twin:     if n > 0 { plus(n, 2) } else { plus(n, 2) }
"""


def refusal(**fields):
    made = Refusal()
    for name, value in fields.items():
        setattr(made, name, value)
    return made


class OfTheRepository(unittest.TestCase):
    def test_each_mutant_can_be_tried(self):
        self.assertEqual([it for crate in crates_of(TOP) for it in faults_of(TOP, crate)], [])

    def test_there_are_mutants(self):
        self.assertGreater(sum(len(mutants_of(TOP, crate)) for crate in crates_of(TOP)), 600)

    def test_known_ones_are_there(self):
        labels = {f"{it.crate}/{it.name}" for crate in crates_of(TOP) for it in mutants_of(TOP, crate)}
        self.assertLessEqual(known_mutants(TOP), labels)


class OfACrate(unittest.TestCase):
    def setUp(self):
        self.top = folder_of(self)
        self.crate = f"{self.top}/crates/x"
        self.put("src/lib.rt", SOURCE)
        self.put("mutants.txt", BLOCKS)

    def put(self, name, text):
        put(self.crate, {name: text})

    def faults(self):
        return list(faults_of(self.top, "x"))

    def mutants(self):
        return mutants_of(self.top, "x")

    def test_names_functions_and_twins(self):
        one, two = self.mutants()
        self.assertEqual((one.name, one.functions(), two.functions()), ("one_is_two", {"x::one"}, {"x::two"}))
        self.assertEqual(one.changes(), [("src/lib.rt", "    plus(n, 1)", "    plus(n, 2)")])
        self.assertEqual(two.twin(), [("src/lib.rt", "    plus(n, 2)", "    if n > 0 { plus(n, 2) } else { plus(n, 2) }")])
        self.assertEqual((one.keeps_shape(), two.keeps_shape(), self.faults()), (True, False, []))

    def test_methods_have_the_module_of_their_type(self):
        self.put("src/deep/more.rt", OF_ANOTHER_MODULE)
        found = [
            Mutant("x", f"m{n}", f"file: src/deep/more.rt\nold: plus({n}, 0)\nnew: plus({n}, 1)\n", self.crate).places[0]
            for n in (4, 5, 6, 7)
        ]
        names = ["kind::Kind::four", "low::Room::five", "deep::more::KindSteps::six", "deep::more::Own::seven"]
        self.assertEqual([it.name for it in found], [f"x::{name}" for name in names])
        self.assertEqual([it.folders for it in found], [[f"proofs/{name.replace('::', '/')}/"] for name in names])

    def test_answers_of_a_method_are_its_own(self):
        self.put("src/more.rt", OF_ANOTHER_MODULE)
        four = Mutant("x", "four", "file: src/more.rt\nold: plus(4, 0)\nnew: plus(4, 1)\n", self.crate)
        said = Said("fn x::kind::Kind::four: no proof\nproofs/kind/Kind/four/Answers.antt:3:1: error: `returns`: expected type\n").of(four)
        self.assertEqual((said.goals, said.is_proved), (["returns"], False))
        judging.conclude(judging.Trial(four, four.changes(), {}), said, [])
        self.assertEqual(four.verdict, judging.OWN)

    def test_must_fail_is_read_too(self):
        self.put("must-fail/three.edit", "file: src/lib.rt\nold: plus(n, 3)\nnew: plus(n, 4)\n")
        self.assertEqual([it.name for it in self.mutants()], ["one_is_two", "two_is_one", "three"])

    def test_text_that_is_not_there_once(self):
        self.put("mutants.txt", BLOCKS.replace("old:     plus(n, 1)", "old: plus(n"))
        self.assertEqual(self.faults(), ["x/one_is_two: its old text stands 3 times in src/lib.rt"])

    def test_name_twice(self):
        self.put("must-fail/one_is_two.edit", "file: src/lib.rt\nold: plus(n, 3)\nnew: plus(n, 4)\n")
        self.assertEqual(self.faults(), ["x/one_is_two: another one has this name"])

    def test_order_of_the_names(self):
        one, two = BLOCKS.split("\n\n")
        self.put("mutants.txt", f"{two}\n{one}\n")
        self.assertEqual(self.faults(), ["x: mutants.txt is in the order of the names, and one_is_two is too far down"])

    def test_folder_that_is_not_read(self):
        self.put("edits/three.edit", "")
        self.assertEqual(self.faults(), ["x: edits/ is not read: mutants are in mutants.txt"])

    def test_block_without_a_name(self):
        with self.assertRaises(SystemExit):
            list(texts_of("file: src/lib.rt\nold: a\nnew: b\n"))

    def test_rounds_have_a_function_once(self):
        one, two = self.mutants()
        again = Mutant("x", "again", one.text, self.crate)
        laid = judging.rounds([judging.Trial(it, it.changes(), {}) for it in (one, two, again)])
        self.assertEqual([[it.mutant.name for it in now] for now in laid], [["one_is_two"], ["two_is_one"], ["again"]])


class Verdicts(unittest.TestCase):
    def setUp(self):
        OfACrate.setUp(self)

    put = OfACrate.put

    def trial(self, at, aside=()):
        mutant = mutants_of(self.top, "x")[at]
        return judging.Trial(mutant, mutant.changes(), dict(aside))

    def verdict(self, at, told, control=(), aside=()):
        trial = self.trial(at, aside)
        judging.conclude(trial, told, control)
        return trial.mutant.verdict

    def test_wrong_body_that_is_proved(self):
        self.assertEqual(self.verdict(0, refusal(is_proved=True)), judging.THROUGH)
        self.assertFalse(judging.passes(judging.THROUGH, is_known=True))

    def test_goal_of_its_own_in_the_same_shape(self):
        self.assertEqual(self.verdict(0, refusal(goals=["returns"])), judging.OWN)

    def test_text_that_does_not_compile(self):
        self.assertEqual(self.verdict(0, None), judging.BROKEN)

    def test_names_that_are_gone(self):
        self.assertEqual(self.verdict(0, refusal(names=[("proofs/one/Answers.antt", 1, "returns")])), judging.SHAPE)

    def test_no_goal_of_its_own(self):
        self.assertEqual(self.verdict(0, refusal()), judging.UNTOLD)

    def test_another_shape_wants_a_proved_twin(self):
        told = refusal(goals=["returns"])
        self.assertEqual(self.verdict(1, told), judging.NONE)
        self.assertEqual(self.verdict(1, told, [refusal(is_proved=True)]), judging.OWN)
        self.assertEqual(self.verdict(1, told, [refusal(goals=["returns"])]), judging.NONE)

    def test_values_that_make_a_goal_false(self):
        self.assertEqual(self.verdict(1, refusal(goals=["returns", "other"], false=["returns"])), judging.OWN)

    def test_known_ones_pass_if_they_are_rejected(self):
        self.assertTrue(judging.passes(judging.NONE, is_known=True))
        self.assertFalse(judging.passes(judging.NONE, is_known=False))

    def test_what_a_check_says_of_a_function(self):
        said = Said(
            "fn x::one: `search` did not prove `returns`\nfn x::two: proved\nproofs/one/Answers.antt:3:1: error: `returns`: expected type\n"
        )
        one, two = mutants_of(self.top, "x")
        self.assertEqual((said.of(one).goals, said.of(one).is_proved, said.of(two).is_proved), (["returns"], False, True))

    def test_answers_that_are_set_aside_want_the_unchanged_text(self):
        told, aside = refusal(goals=["returns"]), {"proofs/one/Answers.antt": {"step"}}
        self.assertTrue(judging.wants_control(self.trial(0, aside), told))
        self.assertFalse(judging.wants_control(self.trial(0), told))
        self.assertEqual(self.verdict(0, told, [refusal(is_proved=True)], aside), judging.OWN)
        self.assertEqual(self.verdict(0, told, [refusal(goals=["returns"])], aside), judging.NONE)


class FakeRoom:
    """Says of each check what a function makes of its changes, and keeps what was asked."""

    seconds, checks = 0.0, 0

    def __init__(self, says):
        self.says, self.asked = says, []

    def check(self, changes, aside, only):
        self.asked.append(only)
        return Said(self.says([new for _, _, new in changes], aside))

    def close(self):
        pass


class Tried(unittest.TestCase):
    def setUp(self):
        OfACrate.setUp(self)

    put = OfACrate.put

    def tried(self, says):
        mutants, room = mutants_of(self.top, "x"), FakeRoom(says)
        with unittest.mock.patch.object(judging, "Room", lambda *_: room):
            judging.try_crate(self.top, "x", mutants)
        return [it.verdict for it in mutants], room.asked

    def test_each_is_told_and_then_the_twin(self):
        def says(new, _):
            is_one, is_two = any("plus(n, 2)" == it.strip() for it in new), any("plus(n, 1)" in it for it in new)
            return f"fn x::one: {'`search` did not prove `a`' if is_one else 'proved'}\nfn x::two: " + (
                "`search` did not prove `b`\n" if is_two else "proved\n"
            )

        self.assertEqual(self.tried(says), ([judging.OWN, judging.OWN], [["one", "two"], ["one"], ["two"], ["two"]]))

    def test_mutants_that_are_proved_are_let_through(self):
        said = "fn x::one: proved\nfn x::two: proved\n"
        self.assertEqual(self.tried(lambda new, aside: said)[0], [judging.THROUGH, judging.THROUGH])

    def test_unchanged_functions_have_to_be_proved(self):
        with self.assertRaises(SystemExit):
            self.tried(lambda new, aside: "fn x::one: `search` did not prove `a`\nfn x::two: proved\n")

    def test_function_that_is_passed_as_a_value_is_proved_for_its_callers(self):
        lines = ["fn x::one: proved", "fn x::fn::one::is_a: proved where its callers give what it asks"]
        for more, proved in (([], True), (["fn x::two: not proved"], False), (["fn x::two: no proof: it calls `x::one`"], False)):
            said = Said("\n".join(lines + more))
            self.assertEqual(len(said.status), len(lines + more))
            with unittest.mock.patch.object(judging, "check_round", return_value=(said, [])):
                self.assertEqual(judging.is_proved(None, []), proved)


class Changed(unittest.TestCase):
    def setUp(self):
        OfACrate.setUp(self)
        self.put("../../crates.txt", "# crates\nx:\ny: x\n")
        self.put("../y/src/lib.rt", SOURCE)
        self.git("init", "-q")
        self.commit()

    put = OfACrate.put

    def git(self, *words):
        told = ("-c", "user.name=a", "-c", "user.email=a@b")
        subprocess.run(["git", "-C", self.top, *told, *words], check=True, capture_output=True)

    def commit(self):
        self.git("add", "-A")
        self.git("commit", "-qm", "a", "--allow-empty")

    def test_crates_that_differ_from_a_commit(self):
        self.assertEqual(changed_crates(self.top, "HEAD"), set())
        self.put("src/new.rt", "//! A page.\nghost use Rattle.y.specs.{\n  one,\n};\nuse std::alloc::Global;\n")
        self.put("proofs/new.antt", "one : ℕ\n")
        self.put("../../crates.txt", "# crates\nx: y\ny:\n")
        self.assertEqual(changed_crates(self.top, "HEAD"), set())
        self.put("src/new.rt", "use std::alloc::Global;\nconst ONE: usize = 1;\n")
        self.assertEqual(changed_crates(self.top, "HEAD"), {"x"})
        self.commit()
        self.put("../y/specs/new.antt", "use Rattle.x.specs.{two}\none : ℕ\n")
        self.assertEqual(changed_crates(self.top, "HEAD"), {"y"})
        self.assertEqual(changed_crates(self.top, landed(self.top)), {"x", "y"})

    def test_commit_that_git_does_not_know(self):
        self.assertIsNone(changed_crates(self.top, "no_such_commit"))
        self.assertEqual(landed(self.top), "")
        self.assertIsNone(changed_crates(self.top, ""))


class OneOfEachFunction(unittest.TestCase):
    @staticmethod
    def mutant(name, functions, why=""):
        found = unittest.mock.Mock(why=why, functions=lambda: functions)
        found.name = name
        return found

    def test_one_of_each_function_and_what_cannot_be_tried(self):
        given = [self.mutant("a", {"f"}), self.mutant("b", {"f"}), self.mutant("c", {"f", "g"}), self.mutant("d", set(), "no text")]
        self.assertEqual([it.name for it in one_of_each_function(given)], ["a", "c", "d"])
