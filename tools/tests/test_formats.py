"""tools/formats finds what is wrong with a page, a log, a command and a table."""
import json
import unittest

from scripts import load  # noqa: F401  (puts tools on the path)
from lib.formats import github_faults, is_same, markdown_faults, page_faults, sarif_faults

PAGE = '<!DOCTYPE html>\n<html lang="en"><body><a href="#d1">x</a><p id="d1">&#x3C;b&#x3E;</p></body></html>'
ROW = "| changed | <code>&#x2E;a</code> | <code>x&#x40;</code> | <code>y</code> | 1:4 | 1:4 |\n"
TABLE = (
    "**yamlreview diff** <code>a</code> <code>b</code>\n\n"
    "| | path | left | right | left at | right at |\n|---|---|---|---|---|---|\n" + ROW
)
COMMAND = "::notice file=a%2C.yaml,line=1,col=4,title=yamlreview changed::.a: %0A::error::x\n"


def log(**changes):
    """A log with one result, in which some of its fields are others."""
    place = {"artifactLocation": {"uri": "a%20b.yaml"}, "region": {"startLine": 1, "startColumn": 4}}
    result = {"ruleId": "changed", "level": "note", "message": {"text": ".a"}, "locations": [{"physicalLocation": place}]}
    result.update(changes)
    driver = {"name": "yamlreview", "version": "1.1.0", "rules": [{"id": "changed"}]}
    runs = [{"tool": {"driver": driver}, "results": [result]}]
    return json.dumps({"$schema": "https://json.schemastore.org/sarif-2.1.0.json", "version": "2.1.0", "runs": runs})


class Formats(unittest.TestCase):
    def test_values(self):
        self.assertTrue(is_same({"a": [1, 1.0, True, None], "b": "x"}, {"b": "x", "a": [1, 1.0, True, None]}))
        for told, read in ((1, 1.0), (1, True), (None, "null"), ([1], [1, 2]), ({"b": 1, "a": 2}, {"a": 2, "b": 1}), ({"a": 1}, {"b": 1})):
            with self.subTest((told, read)):
                self.assertFalse(is_same(told, read))

    def test_a_page(self):
        self.assertEqual(page_faults(PAGE, ["<b>"]), [])
        self.assertEqual(page_faults(PAGE, ["<i>"]), ["'<i>' is not shown"])
        for old, new in (
            ("<p id", "<script>1</script><p id"),
            ("<p id", "<p onclick='x' id"),
            ('"#d1"', '"#d2"'),
            ('"#d1"', '"https://example.org"'),
            ('<p id="d1">', '<p id="d1"></p><p id="d1">'),
            ("</p>", "</pre>"),
            ("<!DOCTYPE html>\n", ""),
            ("<body>", "<body><!-- x -->"),
            ("<body>", "<style>a{background:url(x)}</style><body>"),
            ("</body>", ""),
        ):
            with self.subTest(new):
                self.assertNotEqual(page_faults(PAGE.replace(old, new)), [])

    def test_a_log(self):
        self.assertEqual(sarif_faults(log(), 1, ["a b.yaml"]), [])
        self.assertNotEqual(sarif_faults(log(), 2, ["a b.yaml"]), [])
        self.assertNotEqual(sarif_faults(log(), 1, ["other.yaml"]), [])
        self.assertNotEqual(sarif_faults(log().replace("2.1.0", "2.0.0"), 1, ["a b.yaml"]), [])
        for changes in ({"ruleId": "other"}, {"level": "info"}, {"message": {}}, {"locations": []}):
            with self.subTest(changes):
                self.assertNotEqual(sarif_faults(log(**changes), 1, ["a b.yaml"]), [])
        self.assertNotEqual(sarif_faults(log().replace('"startLine": 1', '"startLine": 0'), 1, ["a b.yaml"]), [])

    def test_commands(self):
        self.assertEqual(github_faults(COMMAND, 1, ["a,.yaml"]), [])
        self.assertEqual(github_faults("", 0, []), [])
        for text in (
            COMMAND + "::error::x\n",
            COMMAND.replace("%0A", "\n"),
            COMMAND.replace("%2C", ","),
            COMMAND[:-1],
            COMMAND.replace("notice", "set-env"),
        ):
            with self.subTest(text):
                self.assertNotEqual(github_faults(text, 1, ["a,.yaml"]), [])

    def test_a_table(self):
        self.assertEqual(markdown_faults(TABLE, 1, ["x@"]), [])
        self.assertNotEqual(markdown_faults(TABLE, 2), [])
        self.assertNotEqual(markdown_faults(TABLE, 1, ["z"]), [])
        for one in ("`", "|", "<b>", "@octocat", "[x](y)", "*", "https://x", "&amp;"):
            with self.subTest(one):
                self.assertNotEqual(markdown_faults(TABLE.replace("<code>y", "<code>y" + one), 1), [])
