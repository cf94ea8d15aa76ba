#!/usr/bin/env python3
"""planted.py: a hundred wrong definitions, each put alone into a copy, and what tells it.

    python3 planted.py                      prints what tells each
    python3 planted.py --listed             whether each can still be put into its definition, as CI asks
    python3 planted.py --table [FILE]       what a run printed, as a table (planted.found, the results that are stored)

The list is planted.list. What is asked, the cheapest first, until something tells:

- of a definition of the grammar: the rows of `yaml_vectors` and tools/data/cases/streams, the cases of yaml-test-suite (if YAML_TEST_SUITE
  names it) and the short readings that are stored, as the wrong definitions read them (planted_texts.py);
- `rt check` of yaml_definitions, over what an earlier check kept: an example that is computed or derived, or a law;
- `rt check` of the law crates that stand on yaml_definitions alone or nearly so (`law_length`, `law_read_back`, `yaml_core`).

A line for each: the definition, right ⇒ wrong, and what told it. Before that all are put into copies without proofs, as many
into one as are of different definitions: one with which the definitions themselves no longer check is no wrong definition, and
nothing is tried. The unchanged definitions are tried first, and nothing may tell them. Needs `rt`; takes about half a minute of
processor for each that no text tells.
"""
import collections
import contextlib
import os
import re
import shutil
import subprocess
import sys
import tempfile

HERE = os.path.dirname(os.path.realpath(__file__))
sys.path.insert(0, os.path.dirname(HERE))  # for lib
from lib.arguments import parser
from lib.paths import RT, TOP, read, write
from lib.antt import File
from lib.crates import write_list

SPECS = TOP + "/crates/yaml_definitions/specs"
LAWS = {"law_length": [], "law_read_back": ["yaml_text"], "yaml_core": ["yaml_text"]}
FOUND = HERE + "/planted.found"  # what told each, for docs/proof/DEFINITIONS.md
UNSHADOWED = ("Rules",)  # which shadow.py has by hand


class Planting:
    """A wrong definition: the file, the definition, the right and the wrong text."""

    def __init__(self, line):
        self.said, (head, change) = line, line.split(": ", 1)
        self.file, self.name = head.split(" ")
        self.right, self.wrong = change.split(" ⇒ ")

    def changed(self, specs):
        """The file with it in its place, or nothing where the right text does not stand once in the definition."""
        path = "%s/%s.antt" % (specs, self.file)
        if not os.path.isfile(path):
            return None
        lines = read(path).split("\n")
        block = File(path, lines).by_name.get(self.name)
        if not block or block.text().count(self.right) != 1:
            return None
        end, count = block.place, 0
        while count < len(block.lines):  # which leave out the empty lines between definitions that need each other
            count += bool(lines[end].strip())
            end += 1
        lines[block.place : end] = "\n".join(lines[block.place : end]).replace(self.right, self.wrong).split("\n")
        return "\n".join(lines)


class Room:
    """A copy of yaml_definitions and the law crates, with what was kept of them."""

    def __init__(self):
        self.folder = tempfile.mkdtemp(prefix="planted-")
        os.mkdir(self.folder + "/.git")
        shutil.copy(TOP + "/HANDLES", self.folder)
        names = {"yaml_definitions", *LAWS, *sum(LAWS.values(), [])}
        write_list(self.folder, names)
        for path in ("crates/%s/%s" % (name, part) for name in names for part in ("src", "specs", "proofs", "out")):
            if os.path.isdir("%s/%s" % (TOP, path)):
                shutil.copytree("%s/%s" % (TOP, path), "%s/%s" % (self.folder, path))
        self.specs = self.folder + "/crates/yaml_definitions/specs"

    def plant(self, plantings):
        shutil.rmtree(self.specs)
        shutil.copytree(SPECS, self.specs)
        for it in plantings:
            write("%s/%s.antt" % (self.specs, it.file), it.changed(self.specs))

    def run(self, words, **how):
        return subprocess.run(words, stdin=subprocess.DEVNULL, capture_output=True, text=True, errors="replace", check=False, **how)

    def text(self):
        words = [sys.executable, HERE + "/planted_texts.py", *filter(None, [os.environ.get("YAML_TEST_SUITE")])]
        done = self.run(words, env={**os.environ, "SPECS": self.specs + "/grammar"})
        if done.returncode:
            sys.exit("planted: the definitions do not run: " + done.stderr.strip().split("\n")[-1][:200])
        return ": ".join(done.stdout.strip().split("\t"))

    def rt_check(self, crate):
        """What `rt check` says of a crate that is not proved, or nothing."""
        done = self.run([RT, "check", "--jobs", "1"], cwd="%s/crates/%s" % (self.folder, crate))
        return done.stdout + done.stderr if done.returncode else ""

    def wrong(self):
        """What of the definitions themselves does not check, in a copy without proofs."""
        shutil.rmtree(self.folder + "/crates/yaml_definitions/proofs", ignore_errors=True)
        return re.findall(r"(?:\./)?(specs/\S+: error: .*)", self.rt_check("yaml_definitions"))

    def told(self, planting):
        """What tells a planting, or nothing; it is printed."""
        told = self.told_by(planting)
        print("%s | %s" % (planting.said if planting else "unchanged", told or "NOT TOLD"), flush=True)
        return told

    def told_by(self, planting):
        self.plant([planting] if planting else [])
        if planting is None or planting.file.startswith("grammar/") and not planting.file.endswith(UNSHADOWED):
            text = self.text()
            if text:
                return text
        for crate in ("yaml_definitions", *(LAWS if planting else ())):
            said = self.rt_check(crate)
            if said:
                return refused_in(crate, said)
        return ""

    def close(self):
        shutil.rmtree(self.folder, ignore_errors=True)


def refused_in(crate, said):
    """The first that rt says is not proved: examples are those of yaml_definitions, computed and derived; before others its crate."""
    places = re.findall(r"(?:\./)?((?:\.\./\w+/)?(?:specs|proofs)/\S+?)\.antt:\d+:\d+: error: `?([\w\-+\']*)", said)
    functions = re.findall(r"^fn (\S+?): (?!proved)", said, re.M)
    own = crate == "yaml_definitions"
    is_example = re.compile(r"proofs/(?:examples/|grammar/\w+Readings$)")
    told = []
    for place, name in places:
        kind = "example" if own and is_example.match(place) else "law"
        told.append("%s %s%s, %s" % (kind, "" if own or place.startswith("..") else crate + "/", place, name))
    told.sort(key=lambda it: not it.startswith("example"))
    return (told or ["law %s" % it for it in functions] or ["%s: %s" % (crate, said.strip().split("\n")[-1][:120])])[0]


def print_table(path):
    """The result of each definition, as rows of a table."""
    print("| definition | in its place | told by |\n|---|---|---|")
    for change, words, told in re.findall(r"^(.*?): (.*) \| (.*)$", read(path).replace("|", "\\|").replace(" \\| ", " | "), re.M):
        file, name = change.split(" ")
        print("| `%s` (`%s`) | `%s` | %s |" % (name, file.rsplit("/", 1)[1], words, told))


def listed(plantings):
    """Whether each planting can be put into the definitions as they are, and has its result in planted.found."""
    results = {line.rpartition(" | ")[0] for line in read(FOUND).split("\n")}
    lost = [it.said for it in plantings if it.changed(SPECS) is None]
    unknown = [it.said for it in plantings if it.said not in results]
    for said in lost:
        print("planted: its right text does not stand once in its definition: " + said)
    for said in unknown:
        print("planted: planted.found does not say what told it: " + said)
    print("%d of %d can be planted" % (len(plantings) - len(lost), len(plantings)))
    return 1 if lost or unknown else 0


def checked(plantings):
    """Whether the definitions check with the plantings in their places, as many in one copy as are of different definitions."""
    batches, met, wrong = collections.defaultdict(list), collections.Counter(), []
    for it in plantings:
        batches[met[it.file, it.name]].append(it)
        met[it.file, it.name] += 1
    with contextlib.closing(Room()) as room:
        for batch in batches.values():
            room.plant(batch)
            wrong += room.wrong()
    for said in wrong:
        print("planted: no definition: " + said)
    print("%d errors" % len(wrong) if wrong else "the definitions check with each of %d in its place" % len(plantings))
    return not wrong


def main():
    given = parser("tools/definitions/planted.py", __doc__)
    given.add_argument("--table", nargs="?", const=FOUND, metavar="FILE")
    given.add_argument("--listed", action="store_true")
    options = given.parse_args()
    if options.table:
        print_table(options.table)
        return 0
    plantings = [Planting(line) for line in read(HERE + "/planted.list").split("\n") if line and not line.startswith("#")]
    if options.listed or any(it.changed(SPECS) is None for it in plantings):
        return listed(plantings)
    if not checked(plantings):
        return 1
    with contextlib.closing(Room()) as room:
        plain = room.told(None)
        if plain:
            sys.exit("planted: the unchanged definitions are told by %s" % plain)
        results = [room.told(it) for it in plantings]
    print("%d of %d are told by something" % (sum(map(bool, results)), len(results)))
    return 0


if __name__ == "__main__":
    sys.exit(main())
