"""The examples of the pages: sections of commands, lines that begin with `$ `, the tables of YAML.md, and the rules of FORM.md."""
import json
import os
import re
import subprocess
import tempfile

from lib.examples.room import PROGRAMS, Room, copied_examples, is_there
from lib.form.page import answer, examples, page as page_of_form
from lib.paths import TOP, read

GUIDE = "docs/using/GUIDE.md"
# The blocks of GUIDE.md, REVIEWS.md and CI.md. Each is taken in turn, in a repository that is made for the section. The page says at its head
# what a section's repository has.
#
#     ```sh               a shell runs it; if no text follows, status 0 is wanted, whatever it prints
#     ```text STATUS      all that the block before prints, on both streams, and its status (none: 0)
#     ```yaml NAME        the file NAME is written (json too); `https://example.org/yamlcanon` is a repository with our hooks and a tag TAG
#     ```sh needs=PROGRAM left out with a message if the program is not installed (systemd: if it does not run)
BLOCK = re.compile(r"^```(sh|text|yaml|json)(?: ([^\n]*))?\n(.*?)^```$", re.M | re.S)
# A line that begins with `$ `, and the lines under it, which are all that is printed.
SESSION = re.compile(r"^( *)\$ (.*)\n((?:^\1(?!\$ |```)(?=.*\S).+\n)*)", re.M)
# The rows of YAML.md: `.. | `TEXT` | NUMBER NAME .. | ..`, a number and a name first and a text last, a text and its canonical text.
CAUSE = re.compile(r"^\| [^|]* \| `([^|]*)` \| (\d+ \w[^|]*) \| ", re.M)
NUMBERED = re.compile(r"^\| (\d+) \| (\w+) \| .* \| `([^|]*)` \|$", re.M)
ACCEPTED = re.compile(r"^\| [^|]* \| `([^|]*)` \| `(--- [^|]*)` \|$", re.M)
FEWEST_ROWS = 10
# A path of FORM.md, or the name alone of a file in the folder of the path before it; and names in `..` between brackets.
PATH = re.compile(r"`((?:crates/\w+/specs/(?:\w+/)*)?\w+\.antt)`(?: \(((?:`\w+`(?:, )?)+)\))?")


def shown(status, printed):
    return f"```text{f' {status}' if status else ''}\n{printed}```"


class Section:
    """A section whose blocks are run. `before` is what the last one printed, until the page or its silence is compared with it."""

    def __init__(self, room, title, checked):
        self.room, self.title, self.checked, self.before = room, title, checked, None

    def take(self, block):
        kind, word, text = block[1], block[2] or "", block[3]
        if kind == "text" and self.before:
            now, self.before = shown(*self.before), None
            self.checked.want(now == block[0], f"{self.title}: wanted\n{block[0]}\nand had\n{now}")
            return now
        self.want_silence()
        if kind in ("yaml", "json") and word:
            self.room.put(word, text)
        elif kind == "sh" and word.startswith("needs=") and not is_there(word[6:]):
            self.checked.left_out.append(f"{text.splitlines()[0]} .., since {word[6:]} is not there")
        elif kind == "sh":
            self.before = self.room.run(text)
        return block[0]

    def want_silence(self):
        """A block that no text follows has to end well."""
        if self.before:
            self.checked.want(not self.before[0], f"{self.title}: wanted status 0 and had {shown(*self.before)}")
        self.before = None


def try_section(text, title, checked):
    """Runs a section's blocks, and gives the section with what they printed."""
    with tempfile.TemporaryDirectory(prefix="examples-") as folder:
        section = Section(Room(folder), title, checked)
        written = BLOCK.sub(section.take, text)
        section.want_silence()
    return written


def try_matcher(page, checked):
    """The problem matcher of the page finds file, line and column in the page's first line of a fault."""
    pattern = json.loads(re.search(r"(?ms)^```json yamlreview.json\n(.*?)^```", page)[1])["problemMatcher"][0]["pattern"][0]
    line = re.search(r"(?m)^broken.yaml:.*$", page)[0]
    found = re.search(pattern["regexp"], line)
    is_found = bool(found) and [found[pattern[it]] for it in ("file", "line", "column")] == line.split(":")[:3]
    checked.want(is_found, "the problem matcher does not find the page's error")


def check_sections(checked):
    """Runs the sections, and of GUIDE.md the problem matcher."""
    page = read(f"{TOP}/{checked.page}")
    sections = re.split(r"(?m)^(?=## )", page)
    for at, section in enumerate(sections):
        title = section.split("\n", 1)[0]
        if title.startswith("## ") and BLOCK.search(section):
            sections[at] = try_section(section, title[3:], checked)
    if checked.page == GUIDE:
        try_matcher(page, checked)
    checked.text = "".join(sections)


def try_session(page, room, checked):
    """Runs the commands of a page in turn, and gives the page with what they printed."""

    def printed(found):
        indent, command, wanted = found.groups()
        had = "".join(f"{indent}{line}" for line in room.run(command)[1].splitlines(True))
        checked.want(had == wanted, f"$ {command}\nwanted\n{wanted}and had\n{had}")
        return f"{indent}$ {command}\n{had}"

    return SESSION.sub(printed, page)


def check_session(checked):
    """Runs the commands of the page, next to examples/."""
    with tempfile.TemporaryDirectory(prefix="examples-") as folder:
        room = Room(folder)
        copied_examples(room)
        checked.text = try_session(read(f"{TOP}/{checked.page}"), room, checked)


def try_row(text, wanted, checked):
    """One example: an input, and the error or the canonical text that it has. `¶` is a line feed, `⇥` a tab."""
    given = text.replace("¶", "\n").replace("⇥", "\t").encode()
    ran = subprocess.run([PROGRAMS["yamlcanon"], "canon"], input=given, capture_output=True, check=False)
    line, printed = ran.stderr.decode().rstrip("\n"), ran.stdout.decode().rstrip("\n").replace("\n", "¶")
    is_rejected = ran.returncode == 2 and not printed and f"{line} ".startswith(f"yaml: {wanted} ")
    is_accepted = ran.returncode == 0 and printed == wanted
    checked.want(is_rejected or is_accepted, f"{text!r}: wanted {wanted}, and had {printed or line!r}, status {ran.returncode}")


def check_tables(checked):
    """Runs the examples in the tables of the page; a table of it that is not found is a fault."""
    page = read(f"{TOP}/{checked.page}")
    tables = [CAUSE.findall(page), [(text, f"{number} {name}") for number, name, text in NUMBERED.findall(page)], ACCEPTED.findall(page)]
    for rows in tables:
        if len(rows) < FEWEST_ROWS:
            checked.wrong.append(f"{checked.page}: a table of examples is not found")
        for text, wanted in rows:
            try_row(text, wanted, checked)


def try_rules(text, checked):
    """Each rule of the form has an example, but that of the length of a text: lines after `<`, the input, and lines after `>`, its text, or
    one after `!`, its error. Each text is also given again, and has to come back."""
    program, found = PROGRAMS["yamlcanon"], list(examples(text))
    for example in found:
        got, wanted = answer(program, "canon", example.input.encode()), (example.text, example.refusal)
        if checked.want(got == wanted, f"{example.rule}: {example.input!r}: {got!r}, and not {wanted!r}") and not example.refusal:
            again = answer(program, "canon", example.text.encode())
            checked.want(again == (example.text, ""), f"{example.rule}: {example.input!r}: its text is not its own")
    rules = set(re.findall(r"^\*\*`([^`\n]+)`\.", text, re.M)) - {"length"}
    checked.wrong += [f"{rule}: no example" for rule in sorted(rules - {example.rule for example in found})]


def try_paths(text, checked):
    """Each path that the page names is in the repository, with the names that it says of it."""
    folder = ""
    for path, names in PATH.findall(text):
        folder = os.path.dirname(path) or folder
        whole = f"{TOP}/{folder}/{os.path.basename(path)}"
        if checked.want(os.path.exists(whole), f"there is no file {whole}"):
            source = read(whole)
            for name in re.findall(r"\w+", names):
                checked.want(re.search(rf"^\s*(?:\w+ )*pub (?:\w+ )?{name}\b", source, re.M), f"{path} defines no {name}")


def check_form(checked):
    for part in (try_rules, try_paths):
        part(page_of_form(), checked)
