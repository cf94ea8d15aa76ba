"""languages.py: programs in each language over a built library, as a user builds them: the examples of docs/using/LIBRARY.md, the programs
examples/store.*, the tests of bindings/go, and the type hints of the module for Python."""
import os
import re
import subprocess
import sys

from lib.packing.base import write
from lib.packing.store import EXAMPLES, FILES, KEPT, PAGE, judged, put_files, put_go, put_rust
from lib.paths import TOP, read
from .base import WRONG, is_there, run, say, wrong

EXAMPLE = re.compile(r"^```(c|python|rust|go)\n(.*?)^```\n+```text\n(.*?)^```$", re.M | re.S)
GO, PYTHON = f"{TOP}/bindings/go", f"{TOP}/bindings/python"
# A stack on which the deepest input does not fit (kB), for the main thread and for those that Go has the system make.
STACKS = (256, 1024, 1792)
# Right uses of the module for Python that the examples do not have.
RIGHT_USES = """\
import array
import mmap
import yamlcanon
yamlcanon.canonical(array.array("B", b"a"))
with open("a.yaml", "rb") as file:
    yamlcanon.load(mmap.mmap(file.fileno(), 0))
yamlcanon.same(bytearray(b"a"), memoryview(b"a"))
"""
# One wrong use a line, each of which mypy has to report, so that the hints say something.
WRONG_USES = """\
yamlcanon.canonical(3)
yamlcanon.canonical("a").encode()
yamlcanon.canonical("a", memory="1 MB")
yamlcanon.canonical_file(b"a", 3)
yamlcanon.sha256("a").hexdigest()
yamlcanon.same("a")
yamlcanon.same("a", "b").left
yamlcanon.diff("a", "b", 3)
yamlcanon.diff("a", "b")[0].line
yamlcanon.diff("a", "b")[0].left.strip()
yamlcanon.events("a") + "a"
next(yamlcanon.iter_events("a")) + b"a"
yamlcanon.show("a").encode()
yamlcanon.to_json("a").encode()
yamlcanon.load("a").keys()
yamlcanon.load("a", floats=3)
yamlcanon.budget("1 MB")
yamlcanon.Kind.Tabs
yamlcanon.Refused(5, "Tab").line + 1
yamlcanon.library_version() + "1"
yamlcanon.library_release() + 1
"""


def go_environment(folder, differences=""):
    """What a user sets to build over the library of a folder, with nothing of the user's own and no network."""
    own = {name: value for name, value in os.environ.items() if not name.startswith(("GO", "CGO_"))}
    flags = {"CGO_ENABLED": "1", "CGO_CFLAGS": f"-O2 -I{folder}", "CGO_LDFLAGS": f"-O2 -L{folder}", "GOFLAGS": "-mod=mod"}
    places = {"GOPROXY": "off", "GOTOOLCHAIN": "local", "GOCACHE": f"{folder}/go/cache", "GOPATH": f"{folder}/go/path"}
    return {**own, **flags, **places, "YAMLCANON_VECTORS": f"{TOP}/vectors/form-1.jsonl", "YAMLCANON_DIFFERENCES": differences}


def built_in_c(folder, room, text):
    write(f"{room}/program.c", text)
    words = ("-std=c11", "-Wall", "-Wextra", "-Werror", "-I", folder, "-o", f"{room}/program", f"{room}/program.c")
    run("cc", *words, f"{folder}/libyamlcanon.a")
    return [f"{room}/program"], {}


def built_in_python(folder, room, text):
    write(f"{room}/program.py", text)
    env = {"YAMLCANON_LIBRARY": f"{folder}/libyamlcanon.so.1", "PYTHONPATH": PYTHON, "PYTHONDONTWRITEBYTECODE": "1"}
    return [sys.executable, f"{room}/program.py"], env


def built_in_rust(folder, room, text):
    if not is_there("cargo", "--version"):
        return None
    put_rust(room, f"{TOP}/bindings/rust", text)
    env = {**os.environ, "YAMLCANON_LIB_DIR": folder, "CARGO_TARGET_DIR": f"{room}/target"}
    run("cargo", "build", "-q", "--offline", "-j2", cwd=room, env=env)
    return [f"{room}/target/debug/app"], {}


def built_in_go(folder, room, text):
    if not is_there("go", "version"):
        return None
    put_go(room, GO, text)
    run("go", "build", "-o", f"{room}/program", ".", cwd=room, env=go_environment(folder))
    return [f"{room}/program"], {}


# Of each language the suffix of a program, and what builds one over the library of a folder: gives the words that run it and what they
# need in the environment, or None where the language is not installed.
LANGUAGES = {"c": built_in_c, "python": built_in_python, "rust": built_in_rust, "go": built_in_go}
SUFFIXES = {"c": "c", "python": "py", "rust": "rs", "go": "go"}


def try_page(folder, room):
    """Runs each example of the page over the library in a folder, and compares what it prints with what the page shows."""
    examples, before = EXAMPLE.findall(read(f"{TOP}/{PAGE}")), len(WRONG)
    if {language for language, _, _ in examples} != set(LANGUAGES):
        wrong(f"{PAGE}: an example in {', '.join(LANGUAGES)} each is wanted, and there are {[it for it, _, _ in examples]}")
    for number, (language, text, wanted) in enumerate(examples):
        made = LANGUAGES[language](folder, f"{room}/{language}{number}", text)
        had = run(*made[0], cwd=f"{room}/{language}{number}", env={**os.environ, **made[1]}) if made else None
        if had not in (None, wanted.strip()):
            wrong(f"{PAGE}: the example in {language} printed\n{had}\nand the page has\n{wanted}")
    if len(WRONG) == before:
        say(f"the examples of {PAGE} print what it shows")


def try_store(folder, room):
    """Builds examples/store.* in each language, and runs it on its four files."""
    put_files(room)
    ran = []
    for language, suffix in SUFFIXES.items():
        made = LANGUAGES[language](folder, f"{room}/{language}", read(f"{EXAMPLES}/store.{suffix}"))
        if not made:
            continue
        words, env = made
        done = subprocess.run(
            [*words, KEPT, *FILES], cwd=room, env={**os.environ, **env}, stdout=subprocess.PIPE, stderr=subprocess.STDOUT, check=False
        )
        fault = judged(language, room, done.returncode, done.stdout.decode(errors="replace"))
        if fault:
            wrong(fault)
        else:
            ran.append(language)
    say(f"examples/store in {', '.join(ran)}: as the page shows")


def try_go(folder, room, differences):
    """Formatting, go vet, the tests and examples, the same with the race detector, and the deep inputs on small stacks. differences: a
    file of pairs with the program's answers, where there is one."""
    if not is_there("go", "version"):
        return
    os.makedirs(room, exist_ok=True)
    how = {"cwd": GO, "env": go_environment(folder, differences)}
    unformatted = run("gofmt", "-l", GO, env=how["env"])
    if unformatted:
        wrong(f"bindings/go: not as gofmt writes it: {unformatted}")
    run("go", "vet", "./...", **how)
    for flags in ((), ("-race",)):
        told = run("go", "test", "-count=1", "-v", *flags, "./...", **how)
        passed, examples = told.count("--- PASS: Test"), told.count("--- PASS: Example")
        if told.count("--- SKIP") != (not differences) or not (passed >= 8 and examples >= 6):
            wrong(f"bindings/go: {passed} tests and {examples} examples passed, or something was skipped\n{told[-2000:]}")
        say(f"{passed} tests and {examples} examples in Go pass{' with -race' * bool(flags)}")
    run("go", "test", "-c", "-o", f"{room}/go.test", **how)
    for stack in STACKS:
        run("sh", "-c", f'ulimit -s {stack} && exec "$0" -test.run Deep', f"{room}/go.test", **how)
    say(f"deep inputs in Go pass on stacks of {', '.join(map(str, STACKS))} kB")


def strict(room, *files):
    """What mypy reports of these files, a line each."""
    words = ("mypy", "--strict", "--no-error-summary", "--config-file=", f"--cache-dir={room}/cache")
    return run(*words, *files, env={**os.environ, "MYPYPATH": PYTHON}, may_end=(0, 1)).splitlines()


def try_hints(room):
    """Whether `mypy --strict` passes the module, the examples of the page, as a user's programs, and other right uses; and no wrong use."""
    if not is_there("mypy", "--version"):
        return
    texts = [text for language, text, _ in EXAMPLE.findall(read(f"{TOP}/{PAGE}")) if language == "python"]
    names = [f"{room}/example_{number}.py" for number in range(len(texts) + 1)]
    for name, text in zip(names, [*texts, RIGHT_USES]):
        write(name, text)
    for line in [*strict(room, f"{PYTHON}/yamlcanon"), *(line for name in names for line in strict(room, name))]:
        wrong(f"mypy: {line}")
    write(f"{room}/wrong_uses.py", "import yamlcanon\n" + WRONG_USES)
    found = re.findall(r"wrong_uses\.py:(\d+): error", "\n".join(strict(room, f"{room}/wrong_uses.py")))
    for number, line in enumerate(WRONG_USES.splitlines(), 2):
        if str(number) not in found:
            wrong(f"mypy does not report the wrong use {line}")
    say(f"mypy --strict passes the module and {len(names)} programs, and reports {len(set(found))} wrong uses")
