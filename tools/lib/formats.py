"""What is wrong with what `yamlreview` writes: a page of HTML (also in headless Chromium), a log of SARIF 2.1.0, GitHub's commands, a table in
Markdown, and the values in the lines of `diff --format=json`.
"""
import html.parser
import json
import os
import re
import shutil
import tempfile
import tomllib
import urllib.parse
from collections.abc import Collection, Iterable
from typing import Any

from lib.paths import DATA, read
from lib.trial import put, run

# The elements that `yamlreview` writes, and those of them that have no end.
ELEMENTS = set("html head meta title style body header h1 h2 h3 p code nav ol li a span main section div pre strong".split())
EMPTY = {"meta"}
ATTRIBUTES = set("lang charset name content http-equiv aria-label class href id value title".split())


class Page(html.parser.HTMLParser):
    """What is wrong with a page, and its text."""

    def __init__(self, text: str) -> None:
        super().__init__()
        self.faults: list[str] = []
        self.open: list[str] = []
        self.ids: list[str] = []
        self.links: list[str] = []
        self.text = ""
        self.feed(text)
        self.close()
        self.faults += [f"<{name}> is not closed" for name in self.open]
        self.faults += [f"two nodes have the id {name}" for name in set(self.ids) if self.ids.count(name) > 1]
        self.faults += [f"the link {link} leads nowhere" for link in set(self.links) if link[:1] != "#" or link[1:] not in self.ids]

    def handle_starttag(self, tag: str, attrs: list[tuple[str, str | None]]) -> None:
        if tag not in ELEMENTS:
            self.faults.append(f"an element <{tag}>")
        if tag not in EMPTY:
            self.open.append(tag)
        for name, value in attrs:
            if name not in ATTRIBUTES:
                self.faults.append(f"an attribute {name}")
            if name == "id":
                self.ids.append(value or "")
            if name == "href":
                self.links.append(value or "")

    def handle_endtag(self, tag: str) -> None:
        if not self.open or self.open.pop() != tag:
            self.faults.append(f"</{tag}> closes another element")

    def handle_comment(self, data: str) -> None:
        self.faults.append("a comment")

    def handle_pi(self, data: str) -> None:
        self.faults.append("an instruction")

    def handle_data(self, data: str) -> None:
        if self.open[-1:] != ["style"]:
            self.text += data
        elif "url(" in data or "@import" in data:
            self.faults.append("a style that loads something")


def page_faults(text: str, contents: Iterable[str] = ()) -> list[str]:
    """What is wrong with a page, and which of these texts it does not show."""
    page = Page(text)
    if not text.startswith("<!DOCTYPE html>\n"):
        page.faults.append("no DOCTYPE")
    return page.faults + [f"{content!r} is not shown" for content in contents if content not in page.text]


LEVELS = {"error", "warning", "note"}
COMMAND = re.compile(r"::(error|warning|notice) file=([^,:\r\n]+)(?:,line=([1-9][0-9]*),col=([1-9][0-9]*))?,title=[^,:\r\n]+::([^\r\n]*)")
REFERENCE = re.compile(r"&#x([0-9A-F]{2});")
# What a table has of its own, outside of escaped texts.
MARKUP = re.compile(
    r"</?(?:code|details|summary|pre)>|^\*\*yamlreview [a-z]+\*\*|^\|(?:-+\|)+$|^\| (?:changed|only on the left|only on the right|moved) \||\||"
    r"^(?:Nothing is found\.|Not listed: [a-z0-9, ]+)$|\d+:\d+",
    re.M,
)


def failures(*wanted: tuple[bool, str]) -> list[str]:
    """What is said of each that is not so."""
    return [said for is_so, said in wanted if not is_so]


def result_faults(result: dict[str, Any], rules: list[str], files: Collection[str]) -> list[str]:
    """What is wrong with a result. Its file is one of these."""
    locations = result.get("locations") or []
    faults = failures(
        (result.get("ruleId") in rules, "a result of no rule"),
        (result.get("level") in LEVELS, "a result of no level"),
        (bool(result.get("message", {}).get("text")), "a result without a text"),
        (len(locations) == 1, "a result without one place"),
    )
    for physical in (location.get("physicalLocation", {}) for location in locations):
        uri = physical.get("artifactLocation", {}).get("uri", "")
        region = physical.get("region", {"startLine": 1, "startColumn": 1})
        faults += failures(
            (re.fullmatch(r"[A-Za-z0-9/._~%-]+", uri) is not None, f"{uri!r} is no URI"),
            (urllib.parse.unquote(uri) in files, f"{uri!r} is no file"),
            *(
                (isinstance(region.get(name), int) and region[name] > 0, f"a region without {name}")
                for name in ("startLine", "startColumn")
            ),
        )
    return faults


def sarif_faults(text: str, count: int, files: Collection[str]) -> list[str]:
    """What is wrong with a log, which has so many results, at these files."""
    log = json.loads(text)
    faults = failures(
        (log.get("version") == "2.1.0" and log.get("$schema", "").endswith("sarif-2.1.0.json"), "another version"),
        (len(log.get("runs", [])) == 1, "no run, or several"),
    )
    for one in log.get("runs", []):
        driver, results = one.get("tool", {}).get("driver", {}), one.get("results", [])
        rules = [rule["id"] for rule in driver.get("rules", [])]
        faults += failures(
            (driver.get("name") == "yamlreview", "another program"),
            (len(rules) == len(set(rules)), "a rule twice"),
            (len(results) == count, f"{len(results)} results, not {count}"),
        )
        faults += (fault for result in results for fault in result_faults(result, rules, files))
    return faults


def github_faults(text: str, count: int, files: Collection[str]) -> list[str]:
    """What is wrong with commands, of which there are so many, at these files."""
    *lines, last = text.split("\n")
    faults = failures((last == "", "the last line has no end"), (len(lines) == count, f"{len(lines)} lines, not {count}"))
    for line in lines:
        found = COMMAND.fullmatch(line)
        if found is None:
            faults.append(f"{line!r} is no command")
        elif re.sub("%(0D|0A|3A|2C|25)", lambda escape: chr(int(escape[1], 16)), found[2]) not in files:
            faults.append(f"{found[2]!r} is no file")
    return faults


def markdown_faults(text: str, count: int, contents: Iterable[str] = ()) -> list[str]:
    """What is wrong with tables of so many rows in all; and which of these texts they do not show."""
    faults: list[str] = []
    lines, head, rows = text.split("\n"), "", 0
    for line, below in zip(lines, lines[1:]):
        if below.startswith("|-"):
            head = line
        elif line.startswith("| "):
            rows += 1
            faults += failures((line.count("|") == head.count("|"), f"{line!r} has other cells than the head"))
    bad = re.search(r"[^A-Za-z0-9 \n\x80-\U0010ffff]", MARKUP.sub("", REFERENCE.sub("", text)))
    shown = REFERENCE.sub(lambda found: chr(int(found[1], 16)), re.sub(r"</?code>", "", text))
    faults += failures((rows == count, f"{rows} rows, not {count}"), (bad is None, f"{bad and bad[0]!r} is markup"))
    return faults + [f"{content!r} is not shown" for content in contents if content not in shown]


NAMES = ("chromium", "chromium-browser", "google-chrome")
WORDS = "--headless=new --no-sandbox --disable-gpu --disable-dev-shm-usage --no-first-run --disable-background-networking".split()
WORDS += "--disable-component-update --disable-sync --virtual-time-budget=3000 --dump-dom".split()
PROBE = """<script>
addEventListener('load', () => {
  const inside = document.querySelector('iframe').contentDocument;
  document.title = JSON.stringify({
    wide: inside.documentElement.scrollWidth,
    links: [...inside.links].filter(a => !inside.getElementById(a.hash.slice(1))).length,
    scripts: inside.scripts.length + inside.images.length + inside.querySelectorAll('iframe,object,embed,form').length,
  });
});
</script>"""


def browser() -> str | None:
    """The program, or None if it is not installed."""
    return next(filter(None, map(shutil.which, NAMES)), None)


def requests(log: str) -> list[str]:
    """The addresses that a page asked for, of a log of the network; the browser's own are not its."""
    text = read(log)
    try:
        events = json.loads(text)["events"]
    except json.JSONDecodeError:
        events = json.loads(text.rstrip().rstrip(",") + "]}")["events"]
    found = {event["params"]["url"] for event in events if "url" in event.get("params", {})}
    return sorted(one for one in found if one.startswith(("http:", "https:", "ws:", "wss:", "ftp:")))


def browser_faults(program: str, text: str, width: int = 360) -> list[str]:
    frame = f'<!DOCTYPE html><iframe src="page.html" style="width:{width}px;height:800px;border:0"></iframe>{PROBE}'
    with tempfile.TemporaryDirectory() as room:
        put(room, {"page.html": text, "probe.html": frame})
        log, command = f"{room}/network.json", [program, f"--user-data-dir={room}/profile", *WORDS]
        dom = run([*command, "--allow-file-access-from-files", f"file://{room}/probe.html"], timeout=180).out.decode()
        console = run([*command, "--enable-logging=stderr", f"--log-net-log={log}", f"file://{room}/page.html"], timeout=180).err.decode()
        faults = seen_faults(dom, width) + [f"the console has {line}" for line in console.split("\n") if "CONSOLE" in line]
        asked = requests(log) if os.path.exists(log) else []
    return faults + [f"the page asks for {one}" for one in asked if "google" not in one]


def seen_faults(dom: str, width: int) -> list[str]:
    found = re.search(r"<title>(.*?)</title>", dom)
    if found is None:
        return ["the page is not loaded"]
    seen = json.loads(found[1].replace("&quot;", '"'))
    faults = [] if seen["wide"] <= width else [f"the page is {seen['wide']} pixels wide in a window of {width}"]
    faults += ["a link leads to no node"] if seen["links"] else []
    return faults + (["the page has a script, an image or a frame"] if seen["scripts"] else [])


TABLE = tomllib.loads(read(f"{DATA}/values.toml"))


def texts(name: str) -> dict[str, str]:
    """The texts of a table, by their keys."""
    tables: dict[str, Any] = TABLE[name]
    return {key: it if isinstance(it, str) else "".join(piece * times for piece, times in it) for key, it in tables.items()}


def stream() -> str:
    entries = {**texts("no_values"), **texts("limits")}
    return str(TABLE["values"]) + "".join(f"{key}: {text}\n" for key, text in entries.items())


def is_same(told: Any, read: Any) -> bool:
    """Whether two values are the same, with their kinds: a float is no integer, and `true` is no number."""
    if type(told) is not type(read):
        return False
    if isinstance(read, list):
        return len(told) == len(read) and all(map(is_same, told, read))
    if isinstance(read, dict):
        return list(told) == sorted(read) and all(is_same(told[key], read[key]) for key in read)
    return bool(told == read)


def value_faults(yaml: Any, text: str) -> list[str]:
    """What is wrong with lines that compare the stream with `{}`: each of its entries is on the left alone."""
    values = {**yaml.safe_load(TABLE["values"]), **{key: json.loads(limit) for key, limit in texts("limits").items()}}
    told, faults = {}, []
    for line in map(json.loads, text.splitlines()):
        if line["steps"][0] != {"left": 0, "right": 0} or len(line["steps"]) != 2 or line["kind"] != "left" or "right_value" in line:
            faults.append(f"a line of something else: {line['path']}")
            continue
        told[line["steps"][1]] = line
    if set(told) != set(values) | set(TABLE["no_values"]):
        faults.append("not a line for each entry")
    for key, line in told.items():
        if ("left_value" in line) != (key in values):
            faults.append(f"{key}: a value that is none, or none for one")
        elif key in values and not is_same(line["left_value"], values[key]):
            faults.append(f"{key}: {line['left_value']!r} is not {values[key]!r}")
    return faults
