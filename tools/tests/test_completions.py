"""Completions and the synopsis of the manual name the options that the grammar of yamlreview has, and no others."""
import re
import shutil
import subprocess
import unittest

from scripts import TOP

# Rules of the grammar that other definitions name, and their options.
RULES = {"lines": "lines", "unified": "unified", "color": "color", "form": "format", "format": "format", "spelling": "paths"}
SHELLS = "packages/completions"


def text(path):
    with open(f"{TOP}/{path}", encoding="utf-8") as file:
        return file.read()


def of_grammar():
    """The options of each command, by the definitions of the grammar."""
    found = {}
    for name, rules in re.findall(r'= command \(codes "(\w+)"\)\s*\((.*?)∷ \[\]\)', text("crates/review_args/specs/Grammar.antt"), re.S):
        options = set(re.findall(r'\b(?:flag|letter|number|repeated|list) \(codes "([\w-]+)"\)', rules))
        words = {rule.split()[0] for rule in rules.strip("( ").split("∷") if rule.strip()}
        found[name] = options | {RULES[word] for word in words if word in RULES}
    return found


def of_bash():
    cases = re.findall(r"^ +(\w+)\) words='(.*)' ;;$", text(f"{SHELLS}/yamlreview"), re.M)
    return {name: set(re.findall(r"--([\w-]+)", words)) for name, words in cases}


def of_zsh():
    """The options of each case of a command. A variable that a case names has the options of its value."""
    page = text(f"{SHELLS}/_yamlreview")
    values = dict(re.findall(r"^(\w+)=(.*)$", page, re.M))
    found = {}
    for name, body in re.findall(r"^            (\w+)\)(.*?);;$", page, re.M | re.S):
        body += "".join(values[word] for word in re.findall(r"\$\{?(\w+)", body))
        found[name] = set(re.findall(r"--([\w-]+)(?==?\[|=?\}|$)", body))
    return found


def of_fish():
    found = {}
    for names, option in re.findall(r"__fish_seen_subcommand_from ([\w ]+)'.* -l ([\w-]+)", text(f"{SHELLS}/yamlreview.fish")):
        for name in names.split():
            found.setdefault(name, set()).add(option)
    return found


def of_manual():
    """The options of each command in the synopsis."""
    page = text("docs/man/yamlreview.1").partition(".SH SYNOPSIS\n")[2].partition(".SH ")[0]
    found, letters = {}, {"q": "quiet", "U": "unified"}
    for part in re.split(r"^\.br$", page.replace("\\-", "-"), flags=re.M):
        name = re.search(r"yamlreview (\w+)", part)[1]
        options = {letters.get(option, option) for option in re.findall(r"(?<![\w-])--?([\w-]+)", part)}
        found[name] = found.get(name, set()) | options
    return found


class Options(unittest.TestCase):
    def setUp(self):
        self.grammar = of_grammar()

    def test_the_grammar_is_found(self):
        self.assertEqual(sorted(self.grammar), ["diff", "faults", "git", "merge3", "show", "sum", "warn"])
        self.assertIn("ignore", self.grammar["diff"])
        self.assertEqual(self.grammar["git"], set())

    def test_each_shell_and_the_synopsis_have_the_options_of_the_grammar(self):
        # The words that follow `git` are those of git, with --lines=show or --color before them.
        wanted = {**self.grammar, "git": {"lines", "color"}}
        for found in of_bash, of_zsh, of_fish, of_manual:
            with self.subTest(found.__name__):
                self.assertEqual({name: options - {"help"} for name, options in found().items()}, wanted)


class Shells(unittest.TestCase):
    def completed(self, words):
        if not shutil.which("fish"):
            self.skipTest("fish is not installed")
        loads = "".join(f"source {TOP}/{SHELLS}/{name}.fish; " for name in ("yamlcanon", "yamlreview"))
        ran = subprocess.run(["fish", "--no-config", "-c", f"{loads}complete -C '{words}'"], capture_output=True, text=True, check=True)
        return [line.split("\t")[0] for line in ran.stdout.splitlines()]

    def test_fish(self):
        self.assertEqual(self.completed("yamlcanon s"), ["same"])
        self.assertEqual(self.completed("yamlreview show --format="), ["--format=json", "--format=yaml"])
        self.assertEqual(self.completed("yamlreview warn --s"), ["--strict"])
        self.assertEqual(self.completed("yamlreview diff --s"), ["--stat"])

    def test_zsh_reads_the_files(self):
        if not shutil.which("zsh"):
            self.skipTest("zsh is not installed")
        for name in "_yamlcanon", "_yamlreview":
            subprocess.run(["zsh", "-n", f"{TOP}/{SHELLS}/{name}"], check=True)
