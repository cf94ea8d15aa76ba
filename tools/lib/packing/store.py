"""store.py: the programs examples/store.*, which keep configurations by their digests, run on four files as docs/using/LIBRARY.md shows.

Two of the files mean the same, one differs from them, and one is rejected. Each program has to print what the page has for its language,
to end with status 1, and to keep the canonical texts under their SHA-256.
"""
import hashlib
import os
import re

from lib.packing.base import write
from lib.paths import TOP, read

PAGE = "docs/using/LIBRARY.md"
SECTION = re.compile(r"^## A store of configurations$(.*?)^## ", re.M | re.S)
BLOCK = re.compile(r"^```text\n(.*?)^```$", re.M | re.S)
EXAMPLES = TOP + "/examples"
CHANGED, BROKEN = ("replicas: 3", "replicas: 5"), "name: web\nreplicas:\t3\n"
FILES = ("service.yaml", "service_as_json.yaml", "staging.yaml", "broken.yaml")
KEPT = "kept"
# What the page shows first is what these print; the others print JSON.
WITH_FIELDS = ("python", "go")
CARGO = """\
[package]
name = "{name}"
version = "0.1.0"
edition = "2021"
[dependencies]
yamlcanon = {{ path = "{crate}" }}
"""
GO_MODULE = """\
module {name}

go 1.19

require example.org/yamlcanon v0.0.0

replace example.org/yamlcanon => {module}
"""


def put_files(room):
    """Writes the four files into a folder, and makes the folder that they are kept in."""
    service = read(f"{EXAMPLES}/{FILES[0]}")
    for name, text in zip(FILES, (service, read(f"{EXAMPLES}/{FILES[1]}"), service.replace(*CHANGED), BROKEN)):
        write(f"{room}/{name}", text)
    os.makedirs(f"{room}/{KEPT}", exist_ok=True)


def put_rust(room, crate, text, name="app"):
    """A program in Rust, as a crate over that of the module."""
    write(f"{room}/Cargo.toml", CARGO.format(name=name, crate=crate))
    write(f"{room}/src/main.rs", text)


def put_go(room, module, text, name="app"):
    """A program in Go, as a module over that of the package."""
    write(f"{room}/go.mod", GO_MODULE.format(name=name, module=module))
    write(f"{room}/main.go", text)


def shown(language):
    blocks = BLOCK.findall(SECTION.search(read(f"{TOP}/{PAGE}"))[1])
    return blocks[0 if language in WITH_FIELDS else 1]


def judged(language, room, status, told):
    """Takes what was kept out of a folder; gives what is wrong with a run in it, or nothing."""
    kept = {}
    for name in os.listdir(f"{room}/{KEPT}"):
        with open(f"{room}/{KEPT}/{name}", "rb") as file:
            kept[name] = hashlib.sha256(file.read()).hexdigest() + ".yaml"
        os.remove(f"{room}/{KEPT}/{name}")
    if (status, told) != (1, shown(language)):
        return f"store in {language}: status {status}\n{told}\nand the page has\n{shown(language)}"
    if len(kept) != 2 or any(name != wanted for name, wanted in kept.items()):
        return f"store in {language}: it kept {sorted(kept)}"
    return None
