"""What bench/report makes of a file of results, and what it finds wrong."""
import os
import shutil
import types
import unittest

from scripts import folder_of, load, run

REPORT = load("bench/report")
README = (
    "`canon` takes about {} times the processor time of libyaml's parser alone. "
    "On files its peak memory is at most {} times the size of the input.\n"
)
VALUES = [
    ("speed/mappings/size", 10_000_105, "bytes", ""),
    ("speed/mappings/time", 0.9183, "times libyaml's parser", "0.87..1.01"),
    ("speed/mappings/memory", 2.66, "times the input", ""),
    ("speed/keys/memory", 7.02, "times the input", ""),
    ("stack/canon", 1310, "kB", "flow mappings"),
]


def rows_of(values):
    return {name: REPORT.results.Row(name, str(value), unit, spread, "abc", "a kit", "a processor") for name, value, unit, spread in values}


class Report(unittest.TestCase):
    def setUp(self):
        self.top = folder_of(self)
        self.file = f"{self.top}/bench/results.tsv"
        kept = REPORT.TOP, REPORT.FILE
        self.addCleanup(lambda: setattr(REPORT, "TOP", kept[0]) or setattr(REPORT, "FILE", kept[1]))
        REPORT.TOP, REPORT.FILE = self.top, self.file
        REPORT.results.write(self.file, rows_of(VALUES))
        self.put("README.md", README.format("0.9", "7.1"))
        run(REPORT.main, "--write")

    def put(self, name, text):
        REPORT.write(f"{self.top}/{name}", text)

    def page(self):
        return REPORT.read(f"{self.top}/{REPORT.PAGE}")

    def test_page_has_the_values(self):
        self.assertIn(
            "| block mappings, as configuration files have them | 10.0 MB | 0.92 (0.87 to 1.01) | 2.7 times the text |", self.page()
        )
        self.assertIn("| `canon` | 1,310 kB |", self.page())

    def test_what_was_not_measured_is_left_out(self):
        for absent in ("Many files", "real files", "instructions |", "`same`", "Build and CI", "None", "| |"):
            self.assertNotIn(absent, self.page())

    def test_picture_has_a_bar_for_each_speed(self):
        picture = REPORT.read(f"{self.top}/{REPORT.PICTURE}")
        self.assertIn("block mappings", picture)
        self.assertEqual(picture.count("<rect"), 3)

    def test_all_is_current(self):
        self.assertEqual(run(REPORT.main, "--check"), (0, ""))

    def test_number_of_the_readme_that_is_not_in_the_file(self):
        self.put("README.md", README.format("0.8", "7.1"))
        self.assertEqual(run(REPORT.main, "--check"), (1, "README.md: 0.8: bench/results.tsv gives 0.9\n"))

    def test_memory_of_the_readme_that_is_not_in_the_file(self):
        self.put("README.md", README.format("0.9", "7.0"))
        self.assertEqual(run(REPORT.main, "--check"), (1, "README.md: 7.0: bench/results.tsv gives 7.1\n"))

    def test_readme_without_its_numbers(self):
        self.put("README.md", "fast\n")
        status, said = run(REPORT.main, "--check")
        self.assertEqual((status, said.count("there are 0")), (1, 2))

    def test_page_that_was_changed(self):
        self.put(REPORT.PAGE, self.page().replace("0.92", "0.12"))
        status, said = run(REPORT.main, "--check")
        self.assertEqual((status, said), (1, f"{REPORT.PAGE}: is not what bench/results.tsv gives: run bench/report --write\n"))

    def test_picture_that_is_gone(self):
        os.remove(f"{self.top}/{REPORT.PICTURE}")
        self.assertEqual(run(REPORT.main, "--check")[0], 1)

    def test_write_puts_the_numbers_into_the_readme(self):
        self.put("README.md", README.format("0.10", "1.0"))
        self.assertEqual(run(REPORT.main, "--write")[0], 0)
        self.assertEqual(REPORT.read(f"{self.top}/README.md"), README.format("0.9", "7.1"))

    def test_no_results(self):
        shutil.rmtree(f"{self.top}/bench")
        self.assertEqual(run(REPORT.main, "--check")[0], 1)
        run(REPORT.main, "--write")
        self.assertIn("Nothing has been measured of this version yet", self.page())

    def test_other_columns(self):
        self.put("bench/results.tsv", "name\tvalue\n")
        self.assertIn("other columns", str(run(REPORT.main, "--check")[0]))

    def test_a_part_replaces_its_own_values(self):
        def stack(_):
            yield "stack/canon", 1400, "kB", "x"
            raise REPORT.LeftOut("events")

        kept = REPORT.PARTS["stack"]
        self.addCleanup(lambda: REPORT.PARTS.__setitem__("stack", kept))
        REPORT.PARTS["stack"] = stack
        status, said = run(REPORT.main, "stack")
        self.assertEqual(status, 0)
        self.assertIn("stack: left out: events", said)
        found = REPORT.results.Results(self.file)
        self.assertEqual((found.value("stack/canon"), found.value("speed/mappings/time")), (1400, 0.9183))

    def test_minutes_of_logs(self):
        self.put("build", "yamlcanon: 31 of 32 proved, about 1 minutes left\nyamlcanon: built in 15.3 minutes, 41.3 of processor\n")
        self.put("ci", "63 passed, 0 failed\ngate: 40.1 minutes, 152.2 of processor\ngate: passed\n")
        asked = types.SimpleNamespace(options=types.SimpleNamespace(build_log=f"{self.top}/build", ci_log=f"{self.top}/ci"))
        self.assertEqual([it[1] for it in REPORT.PARTS["minutes"](asked)], [15.3, 41.3, 40.1, 152.2])
        self.put("ci", "gate: 40.1 minutes, 152.2 of processor\n")
        with self.assertRaises(REPORT.LeftOut):
            list(REPORT.PARTS["minutes"](asked))
