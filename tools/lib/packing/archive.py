"""archive.py: the trees that are packed, their archives, and the wheel, the crate and the module for Go."""
import io
import os
import re
import shutil
import subprocess
import sys
import tarfile
import tempfile
import time as clock
import zipfile

from lib.paths import TOP, read
from .base import ARCH, SUPPLIER, bytes_of, copy, end, files_below, found, git, mend, release, run, say, write, zipped

PROGRAMS = {"yamlcanon": "yaml_tool", "yamlreview": "yaml_review"}
# Two names of one program in shell, which is packed as it is.
SCRIPTS = ("yamlreview-sign", "yamlreview-verify")
LICENCES = ("NOTICE", "LICENSE-MIT", "LICENSE-APACHE")
TEXTS = ("README.md", "CHANGELOG.md", "CONTRIBUTING.md", "SECURITY.md", *LICENCES)
# What stands on top of the archive, too.
TOP_TEXTS = ("BUILD", "README.md", "SECURITY.md", *LICENCES)
# What the archive of the library alone has of the pages.
LIBRARY_TEXTS = (
    *("CHANGELOG.md", "SECURITY.md", *LICENCES, "docs/using/LIBRARY.md"),
    *("library/yamlcanon.c", "examples/store.c", "examples/service.yaml", "examples/service_as_json.yaml"),
)
# What each module for another language has of them.
MODULE_TEXTS = (*LICENCES, "SECURITY.md")
LIBRARY = "libyamlcanon.so."
DOC = "share/doc/yamlcanon"
# The completions of a program for bash, zsh and fish: the form of a file's name, and the folder in which the shell looks for it.
COMPLETIONS = (("%s", "bash-completion/completions"), ("_%s", "zsh/site-functions"), ("%s.fish", "fish/vendor_completions.d"))
# The line of SECURITY.md that says whom to write to: whoever hands packages out puts an address there.
CONTACT = re.compile(r"^Contact: .*$", re.M)
PACKAGE = """\
prefix=${pcfiledir}/../..
libdir=${prefix}/lib
includedir=${prefix}/include
"""


def put_programs(tree, are_built):
    """Each program; where they are built as they should be, without a look at how old they are."""
    for name, crate in PROGRAMS.items():
        path, target = f"{TOP}/crates/{crate}/out/{crate}", f"{tree}/bin/{name}"
        if not are_built or not os.access(path, os.X_OK):
            # The launcher proves and builds it where it is not current; its words here are none, which it refuses.
            subprocess.run([f"{TOP}/{name}"], stdin=subprocess.DEVNULL, stdout=subprocess.DEVNULL, check=False)
        if not os.access(path, os.X_OK):
            end(f"{name} was not built")
        copy(path, target, 0o755)
        run("strip", target)
    for name in SCRIPTS:
        copy(f"{TOP}/packages/signing/{SCRIPTS[0]}", f"{tree}/bin/{name}", 0o755)


def put_library(tree, folder, machine):
    """The library that tools/library has built in a folder for a machine, with the file's whole version in its name."""
    number, whole = release().split(".")[0], LIBRARY + release()
    copy(f"{folder}/{LIBRARY}{number}", f"{tree}/lib/{whole}")
    run(machine.tools + "strip", "--strip-unneeded", f"{tree}/lib/{whole}")
    os.symlink(whole, f"{tree}/lib/{LIBRARY}{number}")
    os.symlink(LIBRARY + number, f"{tree}/lib/libyamlcanon.so")
    copy(f"{folder}/libyamlcanon.a", f"{tree}/lib/libyamlcanon.a")
    copy(f"{folder}/yamlcanon.h", f"{tree}/include/yamlcanon.h")
    write(f"{tree}/lib/pkgconfig/yamlcanon.pc", PACKAGE + "\n" + read(f"{folder}/yamlcanon.pc").partition("\n\n")[2])


def put_pages(tree, names, build, supplier):
    """These pages as the commit has them, and what the release rests on. SECURITY.md has the contact of whoever hands the packages out, if
    one is named. No link leads to a page that is not packed."""
    for name in names:
        copy(f"{TOP}/{name}", f"{tree}/{DOC}/{name}")
    text = read(f"{TOP}/SECURITY.md")
    if not CONTACT.search(text):
        end("SECURITY.md has no line of a contact")
    if supplier != SUPPLIER:
        write(f"{tree}/{DOC}/SECURITY.md", CONTACT.sub(lambda _: f"Contact: {supplier}", text))
    write(f"{tree}/{DOC}/BUILD", build)
    mend(f"{tree}/{DOC}")


def make_tree(tree, folder, machine, build, supplier, are_built):
    """Puts all that is packed into a tree as below /usr."""
    put_programs(tree, are_built)
    put_library(tree, folder, machine)
    listed = git("ls-files", "docs", "examples", "bindings", "library/yamlcanon.c").splitlines()
    own = [name for name in listed if not name.startswith("docs/man/") and os.path.isfile(f"{TOP}/{name}")]
    put_pages(tree, [*TEXTS, *own], build, supplier)
    for name in os.listdir(f"{TOP}/docs/man"):
        if name.partition(".")[0] in (*PROGRAMS, *SCRIPTS):
            copy(f"{TOP}/docs/man/{name}", f"{tree}/share/man/man{name[-1]}/{name}")
    for program in (*PROGRAMS, *SCRIPTS):
        for form, place in COMPLETIONS:
            source = f"{TOP}/packages/completions/{form % (SCRIPTS[0] if program in SCRIPTS else program)}"
            if os.path.isfile(source):
                copy(source, f"{tree}/share/{place}/{form % program}")


def make_library_tree(tree, folder, machine, build, supplier):
    """Puts the library for a machine into a tree as below /usr, with its pages."""
    put_library(tree, folder, machine)
    put_pages(tree, LIBRARY_TEXTS, build, supplier)
    copy(f"{TOP}/docs/man/yamlcanon.3", f"{tree}/share/man/man3/yamlcanon.3")


def pack(tree, folder, top, time):
    """The archive of a tree: sorted, with one time, and owned by root."""
    data, target = io.BytesIO(), f"{folder}/{top}.tar.gz"
    with tarfile.open(fileobj=data, mode="w", format=tarfile.GNU_FORMAT) as archive:
        for name in files_below(tree):
            path, info = f"{tree}/{name}", tarfile.TarInfo(f"{top}/{name}")
            info.mtime, info.uname, info.gname = time, "root", "root"
            if os.path.islink(path):
                info.type, info.linkname, info.mode = tarfile.SYMTYPE, os.readlink(path), 0o777
                archive.addfile(info)
            else:
                info.size, info.mode = os.path.getsize(path), 0o755 if os.access(path, os.X_OK) else 0o644
                archive.addfile(info, io.BytesIO(bytes_of(path)))
    with open(target, "wb") as file:
        file.write(zipped(data.getvalue()))
    say(os.path.basename(target))


def make(tree, folder, time):
    """The archive, of the tree with the script that installs it and the build's statement on top."""
    with tempfile.TemporaryDirectory() as room:
        whole = f"{room}/tree"
        shutil.copytree(tree, whole, symlinks=True)
        copy(f"{TOP}/packages/install.sh", f"{whole}/install.sh", 0o755)
        for text in TOP_TEXTS:
            copy(f"{tree}/{DOC}/{text}", f"{whole}/{text}")
        pack(whole, folder, f"yamlcanon-{release()}-{ARCH}", time)


def copied(part, room):
    """A folder of bindings/ as the commit has it, with the changes of this tree."""
    for name in git("ls-files", f"bindings/{part}").splitlines():
        if os.path.isfile(f"{TOP}/{name}"):
            copy(f"{TOP}/{name}", f"{room}/{name}")
    return f"{room}/bindings/{part}"


def put_texts(at, tree, build):
    """The licences, whom to write to, and what the release rests on."""
    for text in MODULE_TEXTS:
        copy(f"{tree}/{DOC}/{text}", f"{at}/{text}")
    mend(at, MODULE_TEXTS)
    write(f"{at}/BUILD", build)
    return at


def make_wheel(tree, folder, build, time):
    """The wheel, with the library of a tree inside, and its texts."""
    with tempfile.TemporaryDirectory() as room:
        put_texts(room, tree, build)
        own = {"YAMLCANON_LIBRARY": f"{tree}/lib/{LIBRARY}{release()}", "SOURCE_DATE_EPOCH": str(time), "PYTHONDONTWRITEBYTECODE": "1"}
        words = [sys.executable, "-c", "import backend, sys; print(backend.build_wheel(sys.argv[1]))", folder]
        say(run(*words, cwd=copied("python", room), env={**os.environ, **own}).strip())


def try_bare_wheel():
    """A wheel without a library has to be refused."""
    with tempfile.TemporaryDirectory() as room:
        at, env = copied("python", room), {**os.environ, "YAMLCANON_LIBRARY": f"{room}/empty"}
        write(f"{room}/empty", "")
        words = [sys.executable, "-c", "import backend, sys; backend.build_wheel(sys.argv[1])", room]
        if not subprocess.run(words, cwd=at, env=env, capture_output=True, check=False).returncode:
            end("a wheel without the library was made")


def make_crate(tree, folder, build):
    """The crate, which cargo builds once over the archive of the library."""
    if not shutil.which("cargo"):
        say("the crate is left out, since cargo is not found")
        return
    name = f"yamlcanon-{release()}.crate"
    with tempfile.TemporaryDirectory() as room:
        at = put_texts(copied("rust", room), tree, build)
        env = {**os.environ, "YAMLCANON_LIB_DIR": f"{tree}/lib", "CARGO_TARGET_DIR": f"{room}/target"}
        run("cargo", "package", "--quiet", "--offline", "--locked", "--allow-dirty", "-j2", cwd=at, env=env)
        copy(f"{room}/target/package/{name}", f"{folder}/{name}")
    say(name)


def make_go(tree, folder, build, time):
    """The module for Go, as the archive that Go has of a module (https://go.dev/ref/mod#zip-files)."""
    name, module = f"yamlcanon-{release()}-go.zip", f"{found('bindings/go/go.mod', r'^module (.*)$')}@v{release()}"
    with tempfile.TemporaryDirectory() as room, zipfile.ZipFile(f"{folder}/{name}", "w", zipfile.ZIP_DEFLATED) as file:
        at = put_texts(copied("go", room), tree, build)
        for part in files_below(at):
            info = zipfile.ZipInfo(f"{module}/{part}", clock.gmtime(time)[:6])
            info.compress_type, info.external_attr, info.create_system = zipfile.ZIP_DEFLATED, 0o100644 << 16, 3
            file.writestr(info, bytes_of(f"{at}/{part}"))
    say(name)
