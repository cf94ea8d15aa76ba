"""debian.py: the Debian packages, by dpkg-buildpackage in a copy of the tree that is packed; for another processor than this machine's,
those of the library alone."""
import email.utils
import glob
import os
import re
import shutil
import tempfile
import textwrap
import time as clock

from lib.paths import TOP, read
from .base import copy, mend, release, run, say, without_dead_links, write
from .notices import UNKNOWN, linked

NEEDS = ("dpkg-buildpackage", "dh", "dh_python3", "fakeroot")
PACKAGES = ("yamlcanon", "libyamlcanon1", "libyamlcanon-dev", "python3-yamlcanon")
# What the package of the program has in /usr/share/doc/yamlcanon besides NOTICE and BUILD.
PAGES = ("README.md", "SECURITY.md", "CHANGELOG.md", "docs")
TEXTS = ("NOTICE", "BUILD", "SECURITY.md")
COPYRIGHT = """\
Format: https://www.debian.org/doc/packaging-manuals/copyright-format/1.0/
Upstream-Name: yamlcanon
Upstream-Contact: %(supplier)s

Files: *
Copyright: %(year)d The yamlcanon authors
License: MIT or Apache-2.0

Files: bin/* lib/*
Copyright:
 %(year)d The yamlcanon authors
%(holders)s
License: %(licence)s
Comment: These are linked with crates of the Rattle kit. Each is named here with
 where it is linked and its licence. The file NOTICE has the texts of the
 licences and what the kit says of where the crates are from.
%(crates)s
%(texts)s"""
LICENCES = {
    "Apache-2.0": " On Debian systems the text of the Apache License, Version 2.0, is\n /usr/share/common-licenses/Apache-2.0.",
    "Unicode-3.0": " The text is in the file NOTICE, which each package has.",
    "BSL-1.0": " Boost Software License, Version 1.0 (https://www.boost.org/LICENSE_1_0.txt).\n"
    " The crate that may be taken under it is here taken under Apache-2.0.",
}


def changelog(time, supplier):
    """What the newest heading of CHANGELOG.md says, as Debian writes it."""
    told = re.search(r"^## \S+\n(.*?)(?=^## |\Z)", read(f"{TOP}/CHANGELOG.md"), re.M | re.S)[1]
    points = re.findall(r"^- (.*(?:\n  .*)*)", told, re.M) or ["See CHANGELOG.md."]
    form = {"initial_indent": "  * ", "subsequent_indent": "    ", "break_long_words": False, "break_on_hyphens": False}
    lines = "\n".join(textwrap.fill(" ".join(point.split()), 78, **form) for point in points)
    return f"yamlcanon ({release()}) unstable; urgency=medium\n\n{lines}\n\n -- {supplier}  {email.utils.formatdate(time)}\n"


def copyright_of(time, supplier, has_programs):
    """debian/copyright: whose work is in the packages, and under which licences."""
    crates = [(crate, crate.declared()) for crate in linked() if has_programs or "the library" in crate.products]
    known, holders = [(crate, licence) for crate, licence in crates if licence != UNKNOWN], {}
    for crate, _ in known:
        for holder in crate.holders():
            holders.setdefault(holder, []).append(crate.name)
    parts = sorted({part.strip("()") for _, licence in known for part in licence.split(" AND ")} | {"MIT OR Apache-2.0"})
    names = dict.fromkeys(name for part in parts for name in part.split(" OR "))
    own = "\n".join(" " + (line or ".") for line in read(f"{TOP}/LICENSE-MIT").strip("\n").splitlines())
    lines = [" .", *(f"  {crate.name} ({', '.join(crate.products)}): {licence}" for crate, licence in known), " ."]
    bare = ", ".join(crate.name for crate, licence in crates if licence == UNKNOWN)
    said = f"The kit has no licence text for these, and NOTICE says so: {bare}."
    return COPYRIGHT % {
        "supplier": supplier,
        "year": clock.gmtime(time).tm_year,
        "holders": "\n".join(f" {holder} ({', '.join(named)})" for holder, named in holders.items()),
        "crates": "\n".join([*lines, *textwrap.wrap(said, 78, initial_indent=" ", subsequent_indent=" ")]),
        "licence": ", and ".join(parts).replace(" OR ", " or "),
        "texts": "".join(f"\nLicense: {name}\n{own if name == 'MIT' else LICENCES[name]}\n" for name in names),
    }


def prepare(room, tree, time, supplier):
    """The folder that is built from: the tree, and debian/ in it."""
    shutil.copytree(tree, room, symlinks=True)
    shutil.copytree(f"{TOP}/packages/debian", f"{room}/debian")
    control = re.sub(r"^Maintainer: .*$", lambda _: f"Maintainer: {supplier}", read(f"{room}/debian/control"), flags=re.M)
    write(f"{room}/debian/control", control)
    write(f"{room}/debian/changelog", changelog(time, supplier))
    write(f"{room}/debian/copyright", copyright_of(time, supplier, os.path.isdir(f"{tree}/bin")))
    mend(f"{room}/share/doc/yamlcanon", (*PAGES, "examples"))
    for name in TEXTS:
        copy(f"{tree}/share/doc/yamlcanon/{name}", f"{room}/{name}")
    # The package of the program has this page with the pages that it leads to, and the others have it alone.
    write(f"{room}/SECURITY.md", without_dead_links(read(f"{room}/SECURITY.md"), "SECURITY.md", TEXTS))
    doc = "share/doc/yamlcanon"
    lists = {f"{it}.docs": ["NOTICE", "BUILD", "SECURITY.md"] for it in PACKAGES}
    lists["yamlcanon.docs"] = ["NOTICE", "BUILD", *(f"{doc}/{name}" for name in PAGES)]
    lists["yamlcanon.examples"] = [f"{doc}/examples/*"]
    lists["libyamlcanon-dev.examples"] = [f"{doc}/examples/store.c", f"{doc}/library/yamlcanon.c"]
    pages = [os.path.relpath(page, tree) for page in sorted(glob.glob(f"{tree}/share/man/man*/*"))]
    for package, section in (("yamlcanon", ".1"), ("libyamlcanon-dev", ".3")):
        lists[f"{package}.manpages"] = [page for page in pages if page.endswith(section)]
    for name, lines in lists.items():
        write(f"{room}/debian/{name}", "\n".join(lines) + "\n")
    for at, _, names in os.walk(room):
        for name in (*names, "."):
            os.utime(os.path.join(at, name), (time, time), follow_symlinks=False)


def make(tree, folder, machine, time, supplier):
    """The packages; where what makes them is not found, they are left out."""
    lacking = [name for name in NEEDS if not shutil.which(name)]
    if lacking:
        say(f"the Debian packages for {machine.debian} are left out, since these are not found: {' '.join(lacking)}")
        return
    # Nothing is compiled, so what a build for another processor would depend on is not needed.
    words = ["-b"] if os.path.isdir(f"{tree}/bin") else ["-B", "-d", "-a", machine.debian]
    with tempfile.TemporaryDirectory() as room:
        prepare(f"{room}/yamlcanon", tree, time, supplier)
        env = {**os.environ, "SOURCE_DATE_EPOCH": str(time), "LC_ALL": "C.UTF-8"}
        run("dpkg-buildpackage", "-us", "-uc", *words, cwd=f"{room}/yamlcanon", env=env)
        for path in sorted(glob.glob(f"{room}/*.deb")):
            copy(path, f"{folder}/{os.path.basename(path)}")
            say(os.path.basename(path))
