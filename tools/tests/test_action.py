"""The action runs the program of an archive over the files that a branch changed, and nothing else."""
import hashlib
import io
import os
import subprocess
import tarfile
import unittest

from scripts import TOP, folder_of, put
from lib.paths import read

ACTION = f"{TOP}/packages/action/review"
# A program that prints its words, and ends with 2 for a file of the name bad.yaml, and with 1 for differences. Of `diff` the left file is
# standard input: the file .git/read has what was in it.
FAKE = """\
#!/bin/sh
printf '%s\\n' "$*"
[ "$1" = diff ] && printf '%s: %s\\n' "$5" "$(cat)" >>.git/read && exit 1
case $* in *bad.yaml*) exit 2;; *) exit 0;; esac
"""


def git(room, *words):
    return subprocess.run(["git", "-C", room, *words], capture_output=True, text=True, check=True).stdout.strip()


class Action(unittest.TestCase):
    def setUp(self):
        folder = folder_of(self)
        self.archive, self.room = f"{folder}/yamlcanon.tar.gz", f"{folder}/room"
        self.summary, self.pages = f"{folder}/summary.md", f"{folder}/pages"
        with tarfile.open(self.archive, "w:gz") as file:
            member = tarfile.TarInfo("yamlcanon-1/bin/yamlreview")
            member.mode, member.size = 0o755, len(FAKE)
            file.addfile(member, io.BytesIO(FAKE.encode()))
        with open(self.archive, "rb") as file:
            self.digest = hashlib.sha256(file.read()).hexdigest()
        os.mkdir(self.room)
        git(self.room, "init", "-q")
        git(self.room, "config", "user.name", "x")
        git(self.room, "config", "user.email", "x@example.org")
        self.base = self.commit({"kept.yaml": "a: 1\n", "changed.yaml": "a: 1\n", "left.yaml": "a: 1\n", "no.txt": "x"})
        os.remove(f"{self.room}/left.yaml")

    def commit(self, files):
        put(self.room, files)
        git(self.room, "add", "-A")
        git(self.room, "commit", "-q", "-m", "x")
        return git(self.room, "rev-parse", "HEAD")

    def run_action(self, **given):
        names = {"ARCHIVE": self.archive, "SHA256": self.digest, "WARN": "yes", "PAGES": self.pages, "BASE": self.base}
        names["GITHUB_STEP_SUMMARY"] = self.summary
        env = {**os.environ, **names, **given}
        ran = subprocess.run([ACTION], cwd=self.room, env=env, capture_output=True, text=True, check=False)
        return ran.returncode, ran.stdout

    def test_changed_files_alone(self):
        self.commit({"changed.yaml": "a: 2\n", "-new $(x).yml": "a: 3\n", "no.txt": "y"})
        self.assertEqual(self.run_action(), (0, "warn --format=github -- -new $(x).yml changed.yaml\n"))
        wanted = "".join(f"diff --format=markdown -- - {name}\n\n" for name in ("-new $(x).yml", "changed.yaml"))
        self.assertEqual(read(self.summary), wanted)

    def test_a_page_has_the_name_of_its_file(self):
        self.commit({"changed.yaml": "a: 2\n", "-new $(x).yml": "a: 3\n", "deep/er/new.yaml": "a: 3\n"})
        self.assertEqual(self.run_action()[0], 0)
        for name in ("changed.yaml", "-new $(x).yml", "deep/er/new.yaml"):
            self.assertEqual(read(f"{self.pages}/{name}.html"), f"diff --format=html -- - {name}\n")
        self.assertEqual(sorted(os.listdir(self.pages)), ["-new $(x).yml.html", "changed.yaml.html", "deep"])

    def test_a_new_file_is_compared_with_an_empty_one(self):
        self.commit({"changed.yaml": "a: 2\n", "new.yaml": "a: 3\n"})
        self.assertEqual(self.run_action(WARN="no")[0], 0)
        self.assertEqual(read(f"{self.room}/.git/read"), "changed.yaml: a: 1\nchanged.yaml: a: 1\nnew.yaml: \nnew.yaml: \n")

    def test_a_page_that_cannot_be_written(self):
        self.commit({"changed.yaml": "a: 2\n", "changed.yaml.html/new.yaml": "a: 3\n"})
        status, said = self.run_action()
        self.assertEqual(status, 3)
        self.assertIn("::error title=yamlreview::a page cannot be written", said)

    def test_the_status(self):
        self.commit({"bad.yaml": "a: ["})
        self.assertEqual(self.run_action(WARN="no"), (2, "faults --format=github -- bad.yaml\n"))
        self.assertEqual(self.run_action(WARN="strict", PAGES=""), (2, "warn --strict --format=github -- bad.yaml\n"))
        self.assertEqual(self.run_action(WARN="; x")[0], 3)

    def test_no_file(self):
        self.commit({"no.txt": "y"})
        self.assertEqual(self.run_action(), (0, "No YAML file is changed.\n"))

    def test_another_archive(self):
        self.commit({"changed.yaml": "a: 2\n"})
        status, said = self.run_action(SHA256="0" * 64)
        self.assertEqual(status, 3)
        self.assertIn("::error title=yamlreview::the archive has another SHA-256", said)
        self.assertEqual(self.run_action(ARCHIVE="nothing.tar.gz")[0], 3)
