"""tools/pages. What a statement prints and what it cites is found here from the page and from the `use` lines alone, by other means than the
tool's own. (What the readers of sources take is held by `tools/pages --check`: a page would be another one.)"""
import functools
import glob
import os
import re
import unittest
from unittest import mock

from scripts import TOP, load, run
from lib.paths import read
from lib.statement.contracts import calls_of, libraries_of
from lib.statement.page import untied

PAGES = load("tools/pages")
CALLS = ("canonical", "same", "run_canonical", "read_events")
DEFINES = re.compile(r"^\s*(?:abbrev |unfoldable )?pub (?:data |record )?(\S+) .*?:(?: |$)")
CASES = re.compile(r"^  ((?:[^\s:(){}]+ )+):(?: |$)")
OWN = re.compile(r"use Rattle\.(\w+)\.specs\.([\w.]+?)(?:\.\{(.*?)\}| as (\w+));?$")


page = functools.cache(PAGES.statement)
source = functools.cache(lambda path: read(f"{TOP}/crates/{path}"))


def code(line):
    """A line without its comment."""
    return re.sub(r"(^|\s)--( .*|$)", "", line)


class Printed:
    """A page as its reader has it: the lines under each file's name, and the definitions among them."""

    def __init__(self, text):
        self.lines, path, inside = {}, None, False
        for line in text.split("\n"):
            if line == "```":
                inside = not inside
            elif inside and re.match(r"-- \S+\.(antt|rt)$", line):
                path = line[3:]
            elif inside:
                self.lines.setdefault(path, []).append(code(line))
        self.defined = {}
        for path, lines in self.lines.items():
            if path.endswith(".antt"):
                for name, at in names_in(lines):
                    self.defined[path, name] = at

    def text(self, path):
        return "\n".join(self.lines[path])


def names_in(lines):
    """(name, the definition that brings it) of what is defined, cases of a `data` among it."""
    found, data = [], None
    for line in lines:
        indent = len(line) - len(line.lstrip())
        if data and line.strip() and indent <= data[1]:
            data = None
        defines = None if data else DEFINES.match(line)
        if defines:
            found.append((defines[1], defines[1]))
            data = (defines[1], indent, "data " in line) if re.search(r"pub (data|record) ", line) else None
        elif data and data[2]:
            cases = CASES.match(line[indent - 2 :] if indent >= 2 else line)
            found += [(name, data[0]) for name in cases[1].split()] if cases else []
    return found


@functools.cache
def words_of(text):
    """The words and signs of a text; of one with dots what stands before each dot too."""
    words = {word.strip(".") for word in re.findall(r"[^\s(){};,]+", text)}
    for word in list(words):
        while "." in word:
            word = word.rsplit(".", 1)[0]
            words.add(word)
    return words


def has(text, name):
    """Whether a text has this name as a word, or this sign."""
    return name.strip("◌") in words_of(text)


@functools.cache
def imports(path):
    """(the name as it stands in this file, the file of its definition, its name there) of the tree's own names in use there."""
    everywhere, names_used = source(path), []
    for line in everywhere.split("\n"):
        found = OWN.search(line.strip())
        if not found or found[1] == "std" or found[2].startswith("declared"):
            continue
        there = f"{found[1]}/specs/{found[2].replace('.', '/')}.antt"
        for name in re.split(r", *", found[3] or ""):
            name, _, given = name.partition(" as ")
            if name:
                names_used.append((given or name, there, name))
        if found[4]:
            names_used += ((f"{found[4]}.{name}", there, name) for name in set(re.findall(rf"\b{found[4]}\.([\w+\-]+)", everywhere)))
    return names_used


def faults(text):
    """What is cited and not printed, and printed and not cited."""
    shown = Printed(text)
    cited, missing = set(), []
    for path in shown.lines:
        words = shown.text(path)
        if path.endswith(".rt"):
            words = "\n".join(line for line in shown.lines[path] if re.search(r"\{", line))
        for name, there, original in imports(path):
            if has(words, name):
                if (there, original) in shown.defined:
                    cited.add((there, shown.defined[there, original]))
                else:
                    missing.append((path, there, original))
        if path.endswith(".antt"):
            for name, _ in names_in(source(path).split("\n")):
                known = (path, name) in shown.defined
                if known and uses(shown.lines[path], name) > 0:
                    cited.add((path, shown.defined[path, name]))
                if not known and free(words, name):
                    missing.append((path, path, name))
    extra = {(path, brought) for (path, _), brought in shown.defined.items()} - cited
    return sorted(missing), sorted(extra)


def free(words, name):
    """Whether a text uses the name where it can only be a definition: not bound by a λ, a head or the variables of a clause."""
    if not has(words, name):
        return False
    for line in words.split("\n"):
        bound = re.findall(r"λ ([^.]*)\.", line) + re.findall(r"[({]([^(){}:]*) :", line) + re.findall(r"^\s*\S+ ([^=]*)=", line)
        if has(line, name) and not any(has(it, name) for it in bound):
            return True
    return False


def uses(lines, name):
    """In how many lines but those of its own definition a name stands."""
    own, dent, count = False, 0, 0
    for line in lines:
        indent = len(line) - len(line.lstrip())
        defines = DEFINES.match(line)
        if defines:
            own, dent = defines[1] == name, indent
        own = own and (defines is not None or indent > dent or line.split()[:1] == [name])
        count += has(line, name) and not own
    return count


class OfThePages(unittest.TestCase):
    def test_what_is_cited_is_printed_and_nothing_else(self):
        for call in CALLS:
            with self.subTest(call):
                self.assertEqual(faults(page(call)), ([], []))

    def test_a_definition_left_out_is_missed(self):
        text, end = page("canonical"), r"(?= *(?:abbrev|unfoldable|pub|--|module|mutual)|```)"
        # those at the margin or in a module, not in a `mutual` or a type
        blocks = re.findall(rf"^ *(?:abbrev|unfoldable) pub [^\n]*\n(?: *[^\n-][^\n]*\n)*?{end}", text, re.M)[::9]
        self.assertGreater(len(blocks), 30)
        for block in blocks:
            self.assertTrue(faults(text.replace(block, "\n", 1))[0], block)

    def test_a_definition_too_many_is_told(self):
        text = page("canonical")
        more = "-- yaml_definitions/specs/model/Limits.antt\nabbrev pub odd_limit : ℕ\nodd_limit = 1\n"
        _, extra = faults(text.replace("-- yaml_definitions/specs/model/Limits.antt\n", more, 1))
        self.assertEqual(extra, [("yaml_definitions/specs/model/Limits.antt", "odd_limit")])

    def test_each_definition_stands_once_and_before_its_use(self):
        for call in CALLS:
            text = page(call)
            shown = Printed(text)
            places, path = {}, None
            for at, line in enumerate(text.split("\n")):
                path = line[3:] if re.match(r"-- \S+\.antt$", line) else path
                defines = DEFINES.match(code(line))
                if defines and (path, defines[1]) in shown.defined:
                    self.assertNotIn((path, defines[1]), places, line)
                    places[path, defines[1]] = at
            self.assertGreater(len(places), 100)
            for user in {path for path, _ in places}:
                for name, there, original in imports(user):
                    at = [place for (where, _), place in places.items() if where == user]
                    if (there, original) in places and has(shown.text(user), name):
                        self.assertLess(places[there, original], max(at), (user, there, original))

    def test_each_type_stands_once_and_behind_what_it_is_made_of(self):
        for call in CALLS:
            text = page(call)
            types = re.findall(r"^pub (?:enum|struct) (\w+)", text, re.M)
            self.assertEqual(len(types), len(set(types)), types)
            for at, name in enumerate(types):
                body = re.search(rf"^pub (?:enum|struct) {name}\b(?:[^\n{{]*;$|.*?^}}$)", text, re.M | re.S)[0]
                self.assertFalse(words_of(re.sub(r"[<>&]", " ", body)) & set(types[at + 1 :]), (call, name))

    def test_what_no_theorem_constrains_is_named_as_it_is_defined(self):
        names = untied(f"{TOP}/docs/proof/DEFINITIONS.md")
        known = set()
        for path in glob.glob(f"{TOP}/crates/*/specs/**/*.antt", recursive=True):
            if "/out/" not in path and not path.endswith("/Lib.antt"):
                known |= {os.path.basename(path).removesuffix(".antt"), *(name for name, _ in names_in(read(path).split("\n")))}
        self.assertTrue(names)
        self.assertLessEqual(names, known)

    def test_a_statement_is_short(self):
        self.assertLessEqual(page("canonical").count("\n"), 1750)

    def test_a_page_that_is_not_current_is_told(self):
        stored = {"a.md": "made", "b.md": "changed"}
        with mock.patch.object(PAGES, "PAGES", {"a.md": lambda: "made", "b.md": lambda: "made too"}):
            with mock.patch.object(PAGES, "read", lambda path: stored[os.path.basename(path)]):
                self.assertEqual(run(PAGES.main, "--check"), (1, "pages: b.md is not current: run tools/pages --write\n"))
                self.assertEqual(run(PAGES.main, "--check", "a.md"), (0, ""))

    def test_no_tests_and_no_programs_are_among_the_libraries(self):
        names = libraries_of(TOP)
        self.assertIn("yaml_definitions", names)
        self.assertFalse([it for it in names if it.startswith("rows_") or it in ("yaml_vectors", "yaml_tool", "yaml_review")])

    def test_each_clause_of_a_theorem_is_taken(self):
        """The crates of theorems have public functions alone, so each line that begins a clause is taken."""
        for crate in (it for it in libraries_of(TOP) if it.startswith("law_")):
            is_clause = re.compile(r" *(?:ensures|requires)")
            wanted = list(filter(is_clause.match, source(f"{crate}/src/laws.rt").split("\n")))
            self.assertTrue(wanted)
            self.assertEqual([line for it in calls_of(f"{TOP}/crates", crate) for line in it.lines if is_clause.match(line)], wanted)
