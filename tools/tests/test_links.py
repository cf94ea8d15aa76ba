"""tools/links finds each kind of bad link, and no good one."""
import tempfile
import unittest

from scripts import load, put, run, write

LINKS = load("tools/links")


class Links(unittest.TestCase):
    def faults(self, **texts):
        with tempfile.TemporaryDirectory() as folder:
            write(folder, **texts)
            status, said = run(LINKS.main, folder)
        self.assertEqual(status, 1 if said else 0)
        return said.splitlines()

    def test_good_links(self):
        page = "# A b\n[a](docs/b.md#some-code-and-a-link) [web](https://example.org/x.md) [own](#a-b) `[no](nothing.md)`\n```\n[no](nothing.md)\n```\n"
        other = "# Some `code`, and a [link](../README.md)!\n# Twice\n# Twice\n[up](../README.md) [second](#twice-1)\n"
        self.assertEqual(self.faults(README=page, docs__b=other), [])

    def test_missing_file(self):
        self.assertEqual(self.faults(README="text\n\n[a](docs/none.md)"), ["README.md:3: docs/none.md: there is no docs/none.md"])

    def test_missing_file_of_a_reference_and_an_image(self):
        self.assertEqual(len(self.faults(README="![a](none.svg)\n\n[a]: none.md\n")), 2)

    def test_missing_heading(self):
        self.assertEqual(self.faults(README="[a](b.md#here)", b="# There\n"), ["README.md:1: b.md#here: b.md has no heading of this name"])

    def test_heading_in_a_block_of_code(self):
        self.assertEqual(len(self.faults(README="[a](#here)\n```\n# Here\n```\n")), 1)

    def test_second_heading_of_a_name(self):
        self.assertEqual(len(self.faults(README="# Here\n[a](#here-1)\n")), 1)

    def test_line_of_a_file(self):
        with tempfile.TemporaryDirectory() as folder:
            put(folder, {"README.md": "[a](lib.rt#L2) [a](lib.rt#L9) [a](lib.rt#name)", "lib.rt": "one\ntwo\n"})
            _, said = run(LINKS.main, folder)
        self.assertEqual(
            said.splitlines(), ["README.md:1: lib.rt#L9: lib.rt has no line 9", "README.md:1: lib.rt#name: lib.rt is no page with headings"]
        )

    def test_name_that_a_file_has_not(self):
        page = "`read`, `write` in [`b`](b.md)\n`no-read` in [`b`](b.md)\n"
        said = self.faults(README=page, b="fn read and reader\n")
        self.assertEqual(said, ["README.md:1: b.md: has no `write`", "README.md:2: b.md: has no `no-read`"])

    def test_absolute_path_and_path_out_of_the_repository(self):
        self.assertEqual(len(self.faults(README="[a](/b.md) [c](../c.md)", b="x\n")), 2)

    def test_page_that_no_page_links_to(self):
        self.assertEqual(self.faults(README="x\n", docs__b="[own](b.md)\n"), ["docs/b.md:1: no other page links to this one"])
