"""tools/plain finds sentences that are too long, a median that is too high, and words of the old dialect."""
import tempfile
import unittest

from scripts import load, run, write

PLAIN = load("tools/plain")


class Plain(unittest.TestCase):
    def faults(self, text):
        with tempfile.TemporaryDirectory() as folder:
            write(folder, page=text)
            status, said = run(PLAIN.main, "--check", f"{folder}/page.md")
        self.assertEqual(status, 1 if said else 0)
        return said

    def test_plain_page(self):
        self.assertEqual(self.faults("# Title\n\nThe program reads a file. It prints the canonical text.\n"), "")

    def test_sentence_of_60_words(self):
        self.assertIn("60 words in a sentence", self.faults("Short ones pass here. " * 9 + "Word" + " word" * 59 + ".\n"))

    def test_sentence_of_40_words(self):
        self.assertEqual(self.faults("Short ones pass here. " * 9 + "Word" + " word" * 39 + ".\n"), "")

    def test_median(self):
        self.assertIn("the median sentence has 19 words", self.faults(("Word" + " word" * 18 + ". ") * 3 + "\n"))

    def test_dialect(self):
        self.assertIn("of the old dialect", self.faults("The program tells what stands there. It reads a file.\n"))

    def test_code_and_tables_are_left_out(self):
        long = " word" * 60
        self.assertEqual(self.faults(f"The program reads a file.\n\n```\nCode{long}.\n```\n\n| a{long} |\n"), "")

    def test_pages_by_hand(self):
        with tempfile.TemporaryDirectory() as folder:
            write(folder, README="x", OTHER="x", docs__proof__STATEMENT="x", docs__proof__PROVED="x")
            self.assertEqual(PLAIN.pages_by_hand(folder), ["README.md", "docs/proof/PROVED.md"])
