"""tools/signing finds wrong programs that sign and verify: each is the right one with a step changed, or a recipe that rests on `set -e`.

The built programs are not needed: two programs in shell take their place, whose canonical text is the sorted lines without comments.
"""
import dataclasses
import os
import shutil
import tempfile
import unittest
from unittest import mock

from scripts import TOP, put_program
from lib import signing
from lib.paths import read
from lib.signing import APP, VERIFY, Room

YAMLCANON = """\
#!/bin/sh
case $(cat "$2") in *'['1*) echo "yaml: 4 Syntax" >&2; exit 2 ;; esac
grep -v '^#' "$2" | sort
"""
YAMLREVIEW = """\
#!/bin/sh
case $1 in --version) echo 'yamlreview 0 (yamlcanon-form-1)'; exit ;; esac
status=0
while IFS= read -r name; do
    YAMLCANON canon "$name" >"$TMPDIR/canon" || { status=2; continue; }
    sum=$(sha256sum <"$TMPDIR/canon")
    echo "${sum%  -}  $name"
done <"$3"
rm -f "$TMPDIR/canon"
exit "$status"
"""
APP_TEXT = "".join(sorted(APP.splitlines(True))).encode()
RECIPE = """\
(
    set -e
    work=$(mktemp -d)
    trap 'rm -rf "$work"' EXIT
    rm -f %(out)s
    cp app.yaml app.yaml.sig "$work"
    cd "$work"
    echo app.yaml >names
    yamlreview sum --files-from names >list
    ssh-keygen -q -Y verify -f %(keys)s/allowed -I you@example.org -n shop/prod:form1-file@yamlcanon -s app.yaml.sig <list >&2
    yamlcanon canon app.yaml >text
    mv text %(out)s
)"""
OUTPUT, NO_LINK, OPENS = '[ -z "$out" ] || remove_output', '{ [ ! -L "$1" ] && [ -f "$1" ]; }', "iflag=nofollow,nonblock,"
# What is wrong, the steps in whose place others are, the attack that finds it, and what is said of it.
WRONG = (
    ("does not look at the signature", {"2>&1) && return": "2>&1) || return 0"}, "file: a forged file", "takes it as verified"),
    ("has no context", {"namespace=$context:": "namespace=shop/prod:"}, "file: another context is asked for", "takes it as verified"),
    ("keeps an older output", {OUTPUT: ":"}, "file: no temporary folder", "an output is there"),
    ("keeps an older output if arguments are wrong", {OUTPUT: ":"}, "file: no --signer", "an output is there"),
    ("hands on the file", {"yamlcanon canon": "cat"}, "file: the file written otherwise", "no script takes it as verified"),
    ("hands on any text", {"exec sha256sum --check --strict --status": ":"}, "file: yamlcanon prints another text", "takes it as verified"),
    ("follows links", {NO_LINK: '[ -f "$1" ]', OPENS: "iflag="}, "file: app.yaml.sig is a link to the right file", "takes it as verified"),
    ("waits for a writer", {NO_LINK: ":", OPENS: "iflag="}, "file: app.yaml.sig is a fifo", "it does not end within"),
    ("leaves its copies", {"trap clean EXIT": ":"}, "file: a forged file", "is left behind"),
    ("leaves its copies at a signal", {'trap "end_by $signal" "$signal"': ":"}, "file: a signal TERM", "is left behind"),
    ("has help as PATH", {'-*) : "${wrong:=there is no option $1}"': "-*) exit 0"}, "file: PATH is '--help'", "takes it as verified"),
    ("takes other files", {'"$work/listed" && return': '"$work/names" && return'}, "folder: an added file added.yml", "no reason with"),
    ("says nothing", {'printf \'%s: %s\\n\' "$program" "$2" >&2': ":"}, "file: a forged file", "standard error has no reason"),
    ("removes a folder of somebody", {'[ -f "$out/$mark" ]': '[ -d "$out" ]'}, "file: the output is a folder", "are changed"),
)


@unittest.skipUnless(shutil.which("ssh-keygen"), "ssh-keygen is not installed")
class Signing(unittest.TestCase):
    @classmethod
    def setUpClass(cls):
        folder = tempfile.TemporaryDirectory()
        cls.addClassCleanup(folder.cleanup)
        cls.folder = folder.name
        for name, text in (("yamlcanon", YAMLCANON), ("yamlreview", YAMLREVIEW.replace("YAMLCANON", f"{cls.folder}/yamlcanon"))):
            put_program(f"{cls.folder}/{name}", text)
            patch = mock.patch.dict(signing.PROGRAMS, {name: f"{cls.folder}/{name}"})
            patch.start()
            cls.addClassCleanup(patch.stop)
        os.mkdir(f"{cls.folder}/base")
        cls.base = Room(f"{cls.folder}/base").furnish()
        cls.attacks = {it.name: it for it in signing.attacks()}

    def found(self, name, shape="command", shell="sh"):
        attack = self.attacks[name]
        if attack.text == signing.APP_TEXT:
            attack = dataclasses.replace(attack, text=APP_TEXT)
        return signing.faults(self.base, attack, shell, shape, False)

    def test_right_program(self):
        names = ("the file as it was signed", "a forged file", "a signal TERM", "PATH is '--help'", "the output is a folder")
        for name in (*(f"file: {it}" for it in names), "folder: an added file added.yml", "sign: a file", "sign: a rejected file"):
            for shape in ("command", "if") if "the output is" in name else ("command", "if", "not", "function", "pipe"):
                self.assertEqual(self.found(name, shape), [], (name, shape))

    def test_wrong_programs(self):
        right = read(f"{TOP}/packages/signing/yamlreview-sign")
        for number, (what, steps, name, said) in enumerate(WRONG):
            folder, text = f"{self.folder}/wrong{number}", right
            for old, new in steps.items():
                self.assertEqual(right.count(old), 1, what)
                text = text.replace(old, new)
            put_program(f"{folder}/{VERIFY}", text)
            seconds = 3 if "not end" in said else 60
            with mock.patch.multiple(signing, SIGNING=folder, MOST_SECONDS=seconds), self.subTest(what):
                self.assertIn(said, "\n".join(self.found(name)))

    def test_recipe_that_rests_on_errexit(self):
        def call(place, *_):
            return RECIPE % {"out": place.out, "keys": place.keys}

        with mock.patch.object(signing.Room, "call", call):
            self.assertEqual(self.found("file: the file as it was signed"), [])
            self.assertNotIn("takes it as verified", "".join(self.found("file: a forged file")))
            for shape in ("if", "and", "or", "not", "function"):
                self.assertIn("a script takes it as verified", "".join(self.found("file: a forged file", shape)), shape)


class Arguments(unittest.TestCase):
    def test_names(self):
        """No two attacks on one thing have one name, so that each can be tried alone."""
        names = [it.name for it in signing.attacks()]
        self.assertEqual(len(names), len(set(names)))
        self.assertGreater(len(names), 200)
        for what in ("file", "folder", "sign"):
            self.assertTrue(any(it.in_all_ways for it in signing.attacks() if it.name.startswith(what)))
