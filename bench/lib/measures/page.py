"""page.py: docs/using/PERFORMANCE.md from the values of bench/results.tsv. A value that was not measured is left out, and so is a row, a
table or a section that has none."""

PAGE, PICTURE = "docs/using/PERFORMANCE.md", "docs/using/performance.svg"
TEXTS = {
    "mappings": "block mappings, as configuration files have them",
    "flow": "flow collections, as JSON has them",
    "scalars": "block scalars of 20 lines",
    "documents": "documents of three lines",
    "anchored": "mappings with anchors and aliases",
    "keys": "one mapping with many keys",
    "real by name": "real files, ordered by name",
    "real shuffled": "real files, in random order",
}
COSTS = {
    "canon accepted": "`canon`, text accepted",
    "canon rejected": "`canon`, text rejected",
    "same accepted": "`same`",
    "events accepted": "`events`",
    "check accepted": "`check`",
}
RUNS = {
    "run of canon": "one run of `yamlcanon canon`, with the start of the process",
    "run of parse": "one run of a C program over libyaml that only parses",
    "canonical from C": "one call of `canonical` from C",
    "canonical from Python": "one call of `canonical` from Python",
    "events from C": "one call of `events` from C",
    "events from Python": "one call of `events` from Python",
}
WAYS = {
    "sum, one process": "`yamlreview sum`, one process",
    "sum, xargs -P4 -n256": "`yamlreview sum`, four processes by `xargs`",
    "module, 1 job": "`yamlcanon.many`, one job",
    "module, 1 job, a new cache": "`yamlcanon.many`, one job, an empty cache",
    "module, 1 job, a cache that has all": "`yamlcanon.many`, one job, all files in the cache",
    "module, 4 jobs": "`yamlcanon.many`, four jobs",
    "module, 4 jobs, a cache that has all": "`yamlcanon.many`, four jobs, all files in the cache",
    "canon, xargs -P4 -n1": "`yamlcanon canon`, a process for each file, four at once",
}
SHORT = {"milliseconds by the clock": "ms", "microseconds of processor": "µs"}
PROSE = {
    "head": """All numbers are measured by [`bench/report`](../../bench/report), on {processors}, with {kits}.
[`results.tsv`](../../bench/results.tsv) has each value with its unit, its range and its commit. Other machines give other times; ratios
differ less. The measured programs were built for the level x86-64-v2. The programs in a package run on every x86-64 processor and take
about 4% more instructions.""",
    "nothing": "Nothing has been measured of this version yet: run [`bench/report`](../../bench/report).",
    "speed": """`canon` is compared with libyaml's parser, which reads the events of a text and does nothing with them. Both programs run by
turns on the same text. The column `time` has the processor time of `canon` divided by that of the parser: the median, with the least and
the greatest ratio. Below 1, `canon` is faster. Instructions are counted by callgrind on smaller texts of the same kind.""",
    "commands": """Each value is processor time divided by that of `canon` on the same text. `same` compares a text with its canonical
text. `diff` compares a text with a copy in which up to 100 values are changed. The last column compares `events` with a C program over
libyaml that prints the same lines.""",
    "small": """A file of {size} bytes. A run of a program is measured by the clock: the median, with the range of four runs in five. A
call has its processor time.""",
    "growth": """The work is designed to grow with n log n: all steps are linear but for sorting. We count instructions on
texts that are made to be expensive. The second column says how many kinds there are. Each kind has three sizes, each twice the one before.
The second step adds at most this many times what the first step adds. Linear growth gives 2, and quadratic growth gives 4.""",
    "costs": """The most that a byte of input costs on the same kinds of texts, at {size} bytes each. Each column has its own worst text.
The cost of an empty input is subtracted.""",
    "limits": """Limit the memory if inputs come from strangers: the [guide](GUIDE.md#bounds-for-untrusted-files) shows how. The program
then answers `21 OutOfMemory`.""",
    "stack": """The least stack with which each command answers on the deepest texts, of 1,023 nested collections. The usual limit is
8,192 kB.""",
    "files": """{count} files of {size} bytes on average. The ratio is by the clock: the median, with the least and the greatest. Ways of
`sum` are compared with one process of it. A run whose cache has all files is compared with the run that filled that cache. All other ways
are compared with one job of `yamlcanon.many`.""",
    "minutes": "In a clean clone, with nothing proved before.",
}


def prose(name, **values):
    """A paragraph of the page, on one line."""
    return " ".join(PROSE[name].format(**values).split())


def number(value):
    """A number for readers."""
    if value is None:
        return ""
    if value >= 100:
        return f"{value:,.0f}"
    if value >= 10:
        return f"{value:.1f}"
    return f"{value:.2f}" if value >= 0.1 else f"{value:.2g}"


def count(value):
    return "" if value is None else f"{value:,.0f}"


def with_unit(value, unit):
    return "" if value is None else f"{number(value)} {unit}"


def with_range(results, name):
    """A median with the least and the greatest."""
    span = results.range(name)
    return number(results.value(name)) + (f" ({number(span[0])} to {number(span[1])})" if span else "")


def table(head, rows):
    """A table of the rows that have a value in some column but the first, without the columns that have none."""
    rows = [row for row in rows if any(row[1:])]
    if not rows:
        return []
    kept = [0, *(at for at in range(1, len(head)) if any(row[at] for row in rows))]
    lines = [[head[at] for at in kept], ["---"] * len(kept), *([row[at] for at in kept] for row in rows)]
    return [f"| {' | '.join(line)} |" for line in lines] + [""]


def section(title, before, head, rows, after=""):
    """A section, or nothing where its table is empty."""
    lines = table(head, rows)
    return [f"## {title}", before, "", *lines, *([after, ""] if after else [])] if lines else []


def speed(results):
    def row(name, shown):
        size, memory = (results.value(f"speed/{name}/{it}") for it in ("size", "memory"))
        return [
            shown,
            "" if size is None else f"{size / 1e6:.1f} MB",
            with_range(results, f"speed/{name}/time"),
            number(results.value(f"speed/{name}/instructions")),
            "" if memory is None else f"{memory:.1f} times the text",
        ]

    picture = f"![processor time of `canon` for that of libyaml's parser, and its peak memory]({PICTURE.rpartition('/')[2]})"
    head = ["text", "size", "time", "instructions", "peak memory"]
    return section("Speed and memory", prose("speed"), head, [row(*it) for it in TEXTS.items()], picture)


def commands(results):
    columns = "same for canon", "events for canon", "diff for canon", "events for printer"
    rows = [[shown, *(number(results.value(f"commands/{name}/{it}")) for it in columns)] for name, shown in TEXTS.items()]
    return section("The other commands", prose("commands"), ["text", "`same`", "`events`", "`diff`", "`events` and C"], rows)


def small(results):
    measured = {shown: f"small/{name}" for name, shown in RUNS.items() if f"small/{name}" in results.rows}
    rows = [[shown, f"{with_range(results, name)} {SHORT[results.rows[name].unit]}"] for shown, name in measured.items()]
    return section("Small inputs", prose("small", size=number(results.value("small/size"))), ["what", "time"], rows)


def growth(results):
    names = {f"`{it}`": f"growth/{it}" for it in ("canon", "same", "events", "check")}
    rows = [[shown, count(results.value(f"{name}/texts")), number(results.value(name))] for shown, name in names.items()]
    return section("Growth", prose("growth"), ["command", "kinds of texts", "greatest growth"], rows)


def costs(results):
    units = {"time": "µs", "memory": "bytes", "output": "bytes"}
    rows = [[shown, *(with_unit(results.value(f"costs/{name}/{it}"), unit) for it, unit in units.items())] for name, shown in COSTS.items()]
    before = prose("costs", size=number(results.value("costs/size")))
    return section("Worst costs of a byte", before, ["command", *units], rows, prose("limits"))


def stack(results):
    rows = [[f"`{it}`", with_unit(results.value(f"stack/{it}"), "kB")] for it in ("canon", "events", "same")]
    return section("Stack", prose("stack"), ["command", "stack"], rows)


def files(results):
    rows = [
        [shown, number(results.value(f"files/{name}/rate")), with_range(results, f"files/{name}/ratio")] for name, shown in WAYS.items()
    ]
    before = prose("files", count=number(results.value("files/count")), size=number(results.value("files/size")))
    return section("Many files", before, ["way", "files per second", "ratio"], rows)


def minutes(results):
    logs = {"first build": "first build, by `./yamlcanon`", "CI": "CI, by `.ci/run`"}
    rows = [[shown, *(number(results.value(f"minutes/{name}/{it}")) for it in ("clock", "processor"))] for name, shown in logs.items()]
    return section("Build and CI", prose("minutes"), ["what", "minutes", "minutes of processor"], rows)


def page(results):
    """The page's text."""
    kits, processors = (" and ".join(results.all_of(it)) for it in ("kit", "processor"))
    source = prose("head", processors=processors, kits=kits) if results.rows else prose("nothing")
    head = ["# Performance", "", "<!-- Made by bench/report from bench/results.tsv: change these. -->", "", source, ""]
    parts = (part(results) for part in (speed, commands, small, growth, costs, stack, files, minutes))
    return "\n".join([*head, *(line for lines in parts for line in lines)]).rstrip("\n") + "\n"
