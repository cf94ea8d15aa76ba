"""What a package says of itself. In its file BUILD: the commit, the kit, the compilers, and the run of CI on which it rests. As SPDX 2.3 in JSON:
each file's sums, the products, the crates and the kit with versions and licences, the compilers, and of each file that is handed out
which products are in it.
"""
import glob
import hashlib
import json
import os
import re
import time as clock
import urllib.parse

from lib.paths import read
from .base import JUDGED, SUPPLIER, end, files_below, git, release, run, say, sum_of, write
from .notices import UNKNOWN, kit_folder, linked

PARTS = ("crates", "crates.txt", "HANDLES", "include", "library")
CHANGED = ", with changes that are in no commit"
BEGINS = re.compile(r"^gate: begins on commit ([0-9a-f]{40})(, with changes that are in no commit)?; kit (.*)$", re.M)
PASSED = re.compile(r"^(\d+) passed, (\d+) failed$", re.M)
TEXT = """\
yamlcanon %s for %s
source: commit %s
kit: %s
compilers: %s
gate: %s
"""
# What the gate does not look at where the target is not the one that it builds for.
ONE_COMPILER = """
code: compiled for this processor from the libraries that were proved, by LLVM alone. The gate builds each program by two compilers
      and compares what they print; the second one writes no code for this processor, so here one compiler judges instead of two."""
AS_THE_GATE_BUILT = """
programs: those that the gate built, for processors of the level x86-64-v2. They are for tests, and not to be handed out."""
NONE = """\
none. No run of the gate is named for these bytes. Each crate that is linked into them was proved before it was linked
      (by rt); the tests, the mutants that have to be rejected and the runs of the gate are not said to have passed."""


def kit():
    return read(f"{kit_folder()}/KIT-ID").strip()


def is_changed():
    return bool(git("status", "--porcelain"))


def commit():
    return git("rev-parse", "HEAD") + CHANGED * is_changed()


def source():
    """The line with which the gate's log begins."""
    return f"gate: begins on commit {commit()}; kit {kit()}"


def first_line(*words):
    return run(*words).splitlines()[0].strip()


def compilers(machines):
    """The compilers, by what they tell: that of the proved code, and for each machine that of the library's C and of the link."""
    own = sorted(glob.glob(f"{kit_folder()}/toolchain/**/bin/clang", recursive=True))
    sources = "library/heap.c, library/calls.c, library/values.c and the library's link"
    return [
        f"the proved code: the kit's {first_line(own[0], '--version') if own else 'not found'}",
        *(f"{sources} for {machine.name}: {first_line(machine.cc, '--version')}" for machine in machines),
    ]


def gate_of(log):
    """What a log of .ci/run says, in words; refuses one that is not whole, has a failure, or is of other sources."""
    text = read(log)
    begun, sums = BEGINS.search(text), PASSED.findall(text)
    if not begun or not text.rstrip("\n").endswith("\ngate: passed") or not sums:
        end(f"{log} is no whole log of .ci/run")
    if begun[2] or any(failed != "0" for _, failed in sums):
        end(f"{log} tells of a failure, or of changes that are in no commit")
    if begun[3] != kit():
        end(f"{log} is of another kit, {begun[3]}")
    if git("diff", "--name-only", begun[1], "--", *PARTS):
        end(f"{log} is of commit {begun[1]}, since which sources have changed")
    lines = " and ".join(f'"{passed} passed, {failed} failed"' for passed, failed in sums)
    return f"passed on commit {begun[1]}, with {lines}"


def statement(log, machine, are_built=False):
    """The file BUILD of a release for a machine, which rests on the run of the gate whose log is given, or on none."""
    told = gate_of(log) if log else NONE
    more = ONE_COMPILER * (machine.target != JUDGED) + AS_THE_GATE_BUILT * are_built
    return TEXT % (release(), machine.name, commit(), kit(), "; ".join(compilers([machine])), told + more)


OWN_LICENCE, COPYRIGHT = "MIT OR Apache-2.0", "Copyright (c) The yamlcanon authors"
WITH_PROGRAMS = re.compile(r"^yamlcanon(-[\d.]+-\w+-linux\.tar\.gz|_.*\.deb)$")
# What is handed out, by the words of tools/notices: the name of each product, and the files that it is in.
HANDED_OUT = {
    "the program": ("yamlcanon-program", WITH_PROGRAMS),
    "yamlreview": ("yamlreview-program", WITH_PROGRAMS),
    "the library": ("libyamlcanon", re.compile(r"^(yamlcanon-[\d.]+-\w+-linux\.tar\.gz|libyamlcanon.*\.(tar\.gz|deb)|.*\.whl)$")),
}


def purl(kind, name, version, **more):
    """A package's name for those who look for known faults (https://github.com/package-url)."""
    locator = f"pkg:{kind}/{name}@{urllib.parse.quote(version, safe='.')}"
    return {"referenceCategory": "PACKAGE-MANAGER", "referenceType": "purl", "referenceLocator": locator, **more}


def package(name, version, licence, **more):
    unknown = dict.fromkeys(("downloadLocation", "licenseConcluded", "copyrightText", "supplier"), UNKNOWN)
    own = {"name": name, "SPDXID": "SPDXRef-package-" + re.sub(r"[^A-Za-z0-9.-]", "-", name), "versionInfo": version}
    return {**own, **unknown, "filesAnalyzed": False, "licenseDeclared": licence, **more}


def own_package(name, supplier, **more):
    about = {"supplier": supplier, "copyrightText": COPYRIGHT, "externalRefs": [purl("generic", name, release())]}
    return package(name, release(), OWN_LICENCE, **about, **more)


def crate_package(crate):
    """A crate of the kit. Where it is a port, the crates of Rust are named too: what is found in these may be in it."""
    number, port = kit().split()[0], "It is a port of this crate of Rust, and not the crate itself."
    refs = [purl("generic", "rattle-kit/" + crate.name, number), *(purl("cargo", *it.split(), comment=port) for it in crate.after)]
    after = f"After {', '.join(crate.after)}." if crate.after else "Its page in the kit names no version of another crate."
    holders = "\n".join("Copyright " + holder for holder in crate.holders())
    words = f"In {', '.join(crate.products)}. {after}"
    return package(crate.name, number, crate.declared(), comment=words, copyrightText=holders or UNKNOWN, externalRefs=refs)


def entries(trees, folder):
    """The files of the trees, each by its name in the archive, and those that are handed out."""
    pairs = [(f"{top}/{name}", f"{tree}/{name}") for top, tree in trees for name in files_below(tree)]
    pairs += [(name, f"{folder}/{name}") for name in files_below(folder)]
    for number, (name, path) in enumerate(pair for pair in pairs if not os.path.islink(pair[1])):
        sums = [{"algorithm": kind.upper(), "checksumValue": sum_of(path, kind)} for kind in ("sha1", "sha256")]
        unknown = {"licenseConcluded": UNKNOWN, "licenseInfoInFiles": [UNKNOWN], "copyrightText": UNKNOWN}
        yield {"fileName": "./" + name, "SPDXID": f"SPDXRef-file-{number}", "checksums": sums, **unknown}


def verification(files):
    """The code of a package over its files' SHA-1 sums, as SPDX asks for it."""
    sums = sorted(entry["checksums"][0]["checksumValue"] for entry in files)
    return {"packageVerificationCodeValue": hashlib.sha1("".join(sums).encode()).hexdigest()}


def namespace(files):
    """A name that no other build has, and that the same bytes always have: by the sums of all files."""
    sums = "".join(f"{entry['fileName']} {entry['checksums'][1]['checksumValue']}\n" for entry in files)
    return f"https://yamlcanon.invalid/spdx/{release()}/{hashlib.sha256(sums.encode()).hexdigest()}"


def related(one, kind, other):
    return {"spdxElementId": one["SPDXID"], "relationshipType": kind, "relatedSpdxElement": other["SPDXID"]}


def relations(whole, products, crates, tools, files):
    """What is described, what each product has linked in, which products each file that is handed out has, and what made them."""
    found = [related({"SPDXID": "SPDXRef-DOCUMENT"}, "DESCRIBES", whole)]
    found += [related(whole, "CONTAINS", it) for it in products.values()]
    found += [related(products[word], "STATIC_LINK", entry) for crate, entry in crates for word in crate.products]
    for word, product in products.items():
        found += [related(entry, "CONTAINS", product) for entry in files if HANDED_OUT[word][1].match(entry["fileName"][2:])]
    return found + [related(tool, "BUILD_TOOL_OF", whole) for tool in tools]


def document(trees, folder, build, made, machines, supplier):
    files, crates = list(entries(trees, folder)), [(crate, crate_package(crate)) for crate in linked()]
    by = "Organization: " + re.sub(r" <(.*)>$", "" if supplier == SUPPLIER else r" (\1)", supplier)
    tools = [package("rattle-kit", kit(), UNKNOWN, comment="The toolchain that proved and built.")]
    for number, words in enumerate(compilers(machines), 1):
        tools.append(package(f"compiler-{number}", words.partition(": ")[2], UNKNOWN, comment=words))
    products = {word: own_package(name, by) for word, (name, _) in HANDED_OUT.items()}
    whole = own_package("yamlcanon", by, comment=build)
    whole.update(filesAnalyzed=True, packageVerificationCode=verification(files), licenseInfoFromFiles=[UNKNOWN])
    whole["hasFiles"] = [entry["SPDXID"] for entry in files]
    created = clock.strftime("%Y-%m-%dT%H:%M:%SZ", clock.gmtime(made))
    return {
        **{"spdxVersion": "SPDX-2.3", "dataLicense": "CC0-1.0", "SPDXID": "SPDXRef-DOCUMENT", "name": f"yamlcanon-{release()}"},
        "documentNamespace": namespace(files),
        "creationInfo": {"created": created, "creators": ["Tool: yamlcanon-tools-release", by]},
        "packages": [whole, *products.values(), *(entry for _, entry in crates), *tools],
        "files": files,
        "relationships": relations(whole, products, crates, tools, files),
    }


def make_spdx(trees, folder, build, made, machines, supplier):
    """trees: of each tree the folder that it is in its archive, and its path."""
    name = f"yamlcanon-{release()}.spdx.json"
    text = json.dumps(document(trees, folder, build, made, machines, supplier), indent=1, sort_keys=True)
    write(f"{folder}/{name}", text + "\n")
    say(name)
