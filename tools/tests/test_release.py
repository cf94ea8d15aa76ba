"""What tools/release takes as the run of CI on which packages rest, what it says of sums that are wrong, and links to what is not packed."""
import os
import tempfile
import unittest
from unittest import mock

from scripts import folder_of, load, put, run, write
from lib.packing import rests, trial
from lib.packing.base import mend, without_dead_links
from lib.paths import read, write as write_text

RELEASE = load("tools/release")
COMMIT = "0123456789" * 4
LOG = f"""\
gate: begins on commit {COMMIT}; kit a kit
rt: yaml_text proved
12 passed, 0 failed
297 passed, 0 failed
gate: 40.1 minutes, 152.2 of processor
gate: passed
"""


class Gate(unittest.TestCase):
    def setUp(self):
        self.log, self.changed = f"{folder_of(self)}/log", ""
        for name, value in (("kit", lambda: "a kit"), ("git", lambda *words: self.changed)):
            patch = mock.patch.object(rests, name, value)
            patch.start()
            self.addCleanup(patch.stop)

    def said(self, text):
        """What a package would say of a log, or the end of the run with what is wrong with it."""
        write_text(self.log, text)
        return run(lambda _: rests.gate_of(self.log))

    def assert_rejected(self, text, why):
        status, said = self.said(text)
        self.assertEqual(status, 1)
        self.assertIn(why, said)

    def test_whole_log(self):
        self.assertEqual(self.said(LOG), (f'passed on commit {COMMIT}, with "12 passed, 0 failed" and "297 passed, 0 failed"', ""))

    def test_log_that_is_not_whole(self):
        for text in (LOG.replace("gate: passed\n", ""), LOG.replace("gate: begins", "begins"), LOG.replace("passed, 0 failed", ""), ""):
            self.assert_rejected(text, "is no whole log of .ci/run")

    def test_log_that_goes_on_behind_its_end(self):
        self.assert_rejected(LOG + "more\n", "is no whole log of .ci/run")

    def test_failure(self):
        self.assert_rejected(LOG.replace("297 passed, 0 failed", "296 passed, 1 failed"), "tells of a failure")

    def test_changes_that_are_in_no_commit(self):
        self.assert_rejected(LOG.replace("; kit", ", with changes that are in no commit; kit"), "changes that are in no commit")

    def test_another_kit(self):
        self.assert_rejected(LOG.replace("a kit", "another kit"), "is of another kit")

    def test_sources_that_changed_since(self):
        self.changed = "crates/yaml_text/src/chars.rt"
        self.assert_rejected(LOG, "since which sources have changed")


class Sums(unittest.TestCase):
    def setUp(self):
        self.folder = folder_of(self)
        put(self.folder, {"one": "one", "two": "two"})
        RELEASE.write_sums(self.folder, None)
        wrong = mock.patch.object(trial, "WRONG", [])
        wrong.start()
        self.addCleanup(wrong.stop)

    def wrong(self):
        run(lambda _: trial.try_sums(self.folder))
        return trial.WRONG

    def test_sums(self):
        self.assertEqual(self.wrong(), [])

    def test_file_that_is_another(self):
        put(self.folder, {"two": "three"})
        self.assertEqual(self.wrong(), ["two has another sum"])

    def test_a_run_with_another_status_or_other_words(self):
        for done in ((1, "said"), (0, "nothing")):
            self.assertFalse(run(lambda _, done=done: trial.hold("it", done, 0, "said"))[0])
        self.assertTrue(run(lambda _: trial.hold("it", (0, "it said"), 0, "said"))[0])
        self.assertEqual(len(trial.WRONG), 2)


class Links(unittest.TestCase):
    def shown(self, text):
        return without_dead_links(text, "docs/PAGE.md", {"README.md", "docs/using/GUIDE.md", "examples/service.yaml"})

    def test_a_link_to_a_packed_file_or_folder_stays(self):
        links = ("guide](using/GUIDE.md#diff", "`all`](../examples", "top](../README.md", "web](https://yaml.org/", "here](#diff")
        for text in (f"[{it})" for it in links):
            self.assertEqual(self.shown(text), text)

    def test_another_link_is_only_its_words(self):
        text = "See [`lib.rt`](../crates/yaml_read/src/lib.rt#L3), [a [b] c](../bench) and [guide](using/GUIDE.md)."
        self.assertEqual(self.shown(text), "See `lib.rt`, a [b] c and [guide](using/GUIDE.md).")

    def test_what_is_not_packed_counts_as_lacking(self):
        with tempfile.TemporaryDirectory() as top:
            write(top, A="[b](B.md) [c](C.md)", B="[a](A.md)", C="[b](B.md) [d](D.md)")
            mend(top, ("A.md", "B.md"))
            texts = [read(f"{top}/{name}.md") for name in "ABC"]
        self.assertEqual(texts, ["[b](B.md) c", "[a](A.md)", "[b](B.md) [d](D.md)"])


class Arguments(unittest.TestCase):
    def test_folder_that_is_not_empty(self):
        with tempfile.TemporaryDirectory() as folder:
            os.mkdir(f"{folder}/something")
            status, said = run(RELEASE.main, folder)
            self.assertEqual(status, 1)
            self.assertIn("is not empty", said)
