"""The packages of a folder, installed in a root without the kit (roots.py), and run there: `tools/release --try`. Those of another machine
are tried without installing them; YAMLCANON_ROOT_AARCH64 may name a folder with the files of Debian's Python for arm64, in which the wheel is
tried too."""
import glob
import os
import re
import shutil
import subprocess
import sys
import tempfile
import zipfile

from lib.paths import TOP, read
from lib.packing.base import MACHINES, OTHERS, ended, lacking, lacking_to_run, release, sum_of, write
from lib.packing.roots import inside, make_root, may_make
from lib.packing.store import CARGO, EXAMPLES, FILES, KEPT, PAGE, judged, put_files, put_rust

BASE = ("bash", "dash", "coreutils", "sed", "grep", "findutils", "tar", "gzip", "libc-bin", "gcc", "libc6-dev", "pkgconf", "dpkg")
PYTHON = ("python3", "python3-venv")
CALLS = """\
import yamlcanon
assert yamlcanon.canonical(b'{b: 0x1, a: [~]}') == b'--- {"a" : [!!null "null"], "b" : !!int "1"}\\n'
assert yamlcanon.events(b'a') == b'+STR\\n+DOC\\n=VAL :a\\n-DOC\\n-STR\\n'
assert yamlcanon.same(b'a: 0x3', b'{a: 3}') is True
print(yamlcanon.__file__)
"""
# The same in a Python of another machine, and what is deep on a small stack.
OTHER_CALLS = """\
import os, threading, yamlcanon
assert yamlcanon.canonical("{b: 0x1, a: [~]}") == b'--- {"a" : [!!null "null"], "b" : !!int "1"}\\n'
deep = b"{a: " * 1023 + b"x" + b"}" * 1023
assert yamlcanon.same(deep, yamlcanon.canonical(deep)) and yamlcanon._thread.stack_left() > 1 << 20
def small():
    assert yamlcanon._thread.stack_left() < 1 << 20 and yamlcanon.same(deep, deep)
    print(os.uname().machine)
threading.stack_size(256 << 10)
thread = threading.Thread(target=small)
thread.start()
thread.join()
"""
VERSION = 'from importlib.metadata import version; print(version("yamlcanon"))'
METADATA = (
    'from importlib.metadata import files, metadata as m; d = m("yamlcanon"); '
    'print(d["License-Expression"], *d.get_all("License-File"), len(d.get_payload()))'
)
RUST = """\
fn main() {
    let text = yamlcanon::canonical(b"{b: 0x1, a: [~]}").unwrap();
    assert!(yamlcanon::same(&text, b"{a: [null], b: 1}").unwrap());
    print!("{}", String::from_utf8(text).unwrap());
}
"""
COMPLETES = """\
. %s
COMP_WORDS=(yamlcanon s) COMP_CWORD=1
_yamlcanon
[ "${COMPREPLY[*]}" = same ]
"""
SERVICE = '--- {"env" : &a1 {"LEVEL" : "info"'
EQUAL_KEYS = "yaml: 19 EqualKeys in node 4, entries 0 and 1\n"
# What the page says to build a program in Go with.
GO_COMMANDS = re.compile(r"^    go mod init app.*\n(?:    .*\n)*", re.M)
# What x86-64-v2 has and x86-64 has not: with each of them off, code that uses it ends by a signal.
LEAST = ",".join(["qemu64", *(f"{it}=off" for it in "pni ssse3 sse4.1 sse4.2 popcnt cx16 lahf-lm avx avx2".split())])
# What install.sh says to other words than one PREFIX.
REJECTED = (
    ("--prefix=/opt/x", "there is no option --prefix=/opt/x"),
    ("-v", "there is no option -v"),
    ("", "usage: install.sh PREFIX"),
    ("''", "PREFIX is empty"),
    ("a b", "usage: install.sh PREFIX"),
    ("uninstall", "uninstall of which PREFIX?"),
    ("uninstall /opt/x", "nothing was installed in /opt/x"),
)
WHEELS = {"aarch64": "manylinux_*_aarch64", "musl": "musllinux_*_x86_64"}
PLACE = "/tmp/store"
WRONG = []


def say(text):
    print("release: " + text, flush=True)


def wrong(text):
    WRONG.append(text)
    print("release: wrong: " + text, file=sys.stderr, flush=True)


def hold(what, done, status=0, words=""):
    """Whether a run ended with this status and said these words; else that is told."""
    if done[0] == status and words in done[1]:
        return True
    wrong(f"{what}: status {done[0]}, not {status}, or not said: {words}\n{done[1]}")
    return False


def try_sums(folder):
    lines = [line.split("  ") for line in read(f"{folder}/SHA256SUMS").splitlines()]
    for value, name in lines:
        if sum_of(f"{folder}/{name}") != value:
            wrong(f"{name} has another sum")
    say(f"{len(lines)} files have their sums")


def try_lintian(folder):
    """Debian's own checker finds no error in the packages and warns of nothing."""
    debs = sorted(glob.glob(f"{folder}/*.deb"))
    if not (debs and shutil.which("lintian")):
        say("no Debian packages, or no lintian: left out")
    elif hold("lintian", ended("lintian", "--allow-root", "--fail-on", "error,warning", *debs)):
        say(f"lintian: no error and no warning in {len(debs)} packages")


def libraries(folder, name, room):
    """The shared library in each package for another machine, by the package's name."""
    for wheel in glob.glob(f"{folder}/*-{WHEELS[name]}.whl"):
        with zipfile.ZipFile(wheel) as file:
            file.extractall(f"{room}/wheel")
        yield os.path.basename(wheel), f"{room}/wheel/yamlcanon/libyamlcanon.so.1"
    for deb in glob.glob(f"{folder}/libyamlcanon1_*_{MACHINES[name].debian}.deb"):
        subprocess.run(["dpkg-deb", "-x", deb, f"{room}/deb"], check=True)
        yield os.path.basename(deb), glob.glob(f"{room}/deb/usr/lib/*/libyamlcanon.so.1")[0]


def try_programs_of(machine, prefix, room):
    """A program in C over the static and the shared library of an archive, on the examples that README has."""
    texts = [f"{TOP}/examples/service.yaml", f"{TOP}/examples/service_as_json.yaml"]
    shared = [f"-L{prefix}/lib", "-lyamlcanon", f"-Wl,-rpath,{prefix}/lib"]
    for kind, words in (("static", [f"{prefix}/lib/libyamlcanon.a", "-static"]), ("shared", shared)):
        made, what = f"{room}/{kind}", f"{machine.name}, {kind}"
        if hold(what, ended(machine.cc, "-O2", "-Wall", f"-I{prefix}/include", "-o", made, f"{TOP}/library/yamlcanon.c", *words)):
            hold(what, ended(*machine.runs, made, "canon", texts[0]), 0, SERVICE)
            hold(what, ended(*machine.runs, made, "same", *texts), 0, "same\n")
            hold(what, ended(*machine.runs, made, "canon", input=b"{1: a, 0x1: b}"), 2, EQUAL_KEYS)


def try_other(name, folder, own):
    """What is there for another machine: the libraries in its packages are those of its archive, and a program with them runs."""
    machine, top = MACHINES[name], f"libyamlcanon-{release()}-{MACHINES[name].name}"
    if not os.path.isfile(f"{folder}/{top}.tar.gz"):
        return say(f"{machine.name}: no packages: left out")
    os.makedirs(own)
    subprocess.run(["tar", "-xzf", f"{folder}/{top}.tar.gz", "-C", own], check=True)
    prefix, packages = f"{own}/{top}", dict(libraries(folder, name, own))
    for package, path in packages.items():
        if sum_of(path) != sum_of(f"{prefix}/lib/libyamlcanon.so.{release()}"):
            wrong(f"{package} has another library than {top}")
    has_wheel = any(package.endswith(".whl") for package in packages)
    if not has_wheel or (machine.debian and shutil.which("dh") and len(packages) < 2):
        wrong(f"{machine.name}: a package is lacking: {[*packages]}")
    gone, root = lacking(name) + lacking_to_run(name), os.environ.get("YAMLCANON_ROOT_" + name.upper())
    if gone:
        return say(f"{machine.name}: {' '.join(gone)} is not found: no program was run")
    try_programs_of(machine, prefix, own)
    if root:
        words, env = [*machine.runs[:1], "-L", root, f"{root}/usr/bin/python3.11"], {**os.environ, "PYTHONPATH": f"{own}/wheel"}
        if hold(f"{machine.name}, Python", ended(*words, "-c", OTHER_CALLS, env=env), 0, name + "\n"):
            say(f"{machine.name}: the wheel in Python")
    return say(f"{machine.name}: {', '.join([top, *packages])}, a program in C")


def try_store(root, language, words, what, env=None):
    """Runs one of the programs examples/store.* of the root on its four files."""
    shutil.rmtree(root + PLACE, ignore_errors=True)
    put_files(root + PLACE)
    line = f"cd {PLACE} && exec {words} {KEPT} {' '.join(FILES)}"
    fault = judged(language, root + PLACE, *inside(root, "sh", "-c", line, env=env or {}))
    if fault:
        wrong(f"{what}: {fault}")
    else:
        say(f"{what}: examples/store in {language} keeps, compares and rejects as LIBRARY shows")


def try_program(root, command, env):
    """A program with the commands of the program, on the examples that README has."""
    files = ("/tmp/examples/service.yaml", "/tmp/examples/service_as_json.yaml")
    hold(command, inside(root, command, "canon", files[0], env=env), 0, SERVICE)
    hold(command, inside(root, command, "same", *files, env=env), 0, "same\n")
    hold(command, inside(root, command, "events", input=b"a", env=env), 0, "=VAL :a\n")
    hold(command, inside(root, command, "canon", input=b"{1: a, 0x1: b}", env=env), 2, EQUAL_KEYS)


def try_installed(root, prefix, env, what):
    """What is installed below a prefix: the program, programs in C by pkg-config, as LIBRARY says, the completion and the pages."""
    try_program(root, "yamlcanon" if prefix == "/usr" else f"{prefix}/bin/yamlcanon", {})
    shutil.copy(f"{TOP}/library/yamlcanon.c", f"{root}/tmp")
    for name, words in (("shared", ""), ("static", "-static")):
        line = f"cc -Wall -Werror -o /tmp/{name} /tmp/yamlcanon.c {words} $(pkg-config --cflags --libs yamlcanon)"
        if hold(f"cc {name}", inside(root, "sh", "-c", line, env=env)):
            try_program(root, f"/tmp/{name}", env)
    line = "cc -o /tmp/store_in_c /tmp/examples/store.c $(pkg-config --cflags --libs yamlcanon)"
    if hold(f"{what}: store.c", inside(root, "sh", "-c", line, env=env)):
        try_store(root, "c", "/tmp/store_in_c", what, env)
    hold("completion", inside(root, "bash", "-c", COMPLETES % f"{prefix}/share/bash-completion/completions/yamlcanon"))
    pages = f"{root}{prefix}/share/doc/yamlcanon"
    if not os.path.exists(f"{pages}/README.md") or not os.path.isdir(f"{pages}/docs"):
        wrong(f"the pages are not in {prefix}/share/doc/yamlcanon")
    # No link of the installed pages leads to a file that is not installed.
    hold(f"links of {pages}", ended(f"{TOP}/tools/links", pages))
    try_signing(root, f"{prefix}/bin")


def try_signing(root, folder):
    """The programs that sign are installed, with their help. The root has no ssh-keygen, which they report."""
    env, keys = {"PATH": f"{folder}:/usr/bin:/bin"}, "/etc/passwd"
    for name, options in (("yamlreview-sign", ["--key", keys]), ("yamlreview-verify", ["--allowed", keys, "--signer", "x"])):
        hold(name, inside(root, name, "--help", env=env), 0, f"usage: {name} --")
        words = [name, *options, "--context", "x", "/tmp/examples/service.yaml"]
        hold(name, inside(root, *words, env=env), 3, "ssh-keygen is not found")


def try_debs(root, folder, has_python):
    debs = sorted(glob.glob(f"{folder}/*_amd64.deb") + glob.glob(f"{folder}/*_all.deb"))
    if not debs:
        return say("no Debian packages: left out")
    own = [path for path in debs if has_python or "/python3-" not in path]
    if not hold("dpkg -i", ended("dpkg", f"--root={root}", "-i", *own)):
        return None
    try_installed(root, "/usr", {}, "libyamlcanon-dev")
    if has_python:
        hold("python3-yamlcanon", inside(root, "python3", "-c", CALLS), 0, "/dist-packages/")
        hold("the version of python3-yamlcanon", inside(root, "python3", "-c", VERSION), 0, release() + "\n")
        try_store(root, "python", "python3 /tmp/examples/store.py", "python3-yamlcanon")
    if os.path.exists(f"{root}/usr/bin/yamlreview"):
        hold("yamlreview", inside(root, "yamlreview", "--version"))
    return say(f"{len(own)} Debian packages, a program in C{', Python' * has_python}")


def try_archive(root, folder):
    name = f"yamlcanon-{release()}-x86_64-linux"
    subprocess.run(["tar", "-xzf", f"{folder}/{name}.tar.gz", "-C", f"{root}/tmp"], check=True)
    script = f"/tmp/{name}/install.sh"
    if not hold("install.sh", inside(root, script, "/opt/own"), 0, "/opt/own/bin/yamlcanon\n"):
        return
    try_installed(root, "/opt/own", {"PKG_CONFIG_PATH": "/opt/own/lib/pkgconfig", "LD_LIBRARY_PATH": "/opt/own/lib"}, "the archive")
    say("the archive, its install.sh, a program in C")
    for part in (try_words, try_places, try_uninstall, try_old):
        part(root, script)


def below(folder):
    """All that is in a folder of the root, as paths in it."""
    return sorted(os.path.relpath(os.path.join(at, name), folder) for at, folders, names in os.walk(folder) for name in folders + names)


def shell_in(root, line):
    return inside(root, "sh", "-c", line)


def try_words(root, script):
    """What install.sh says to other words than one PREFIX. It writes nothing then."""
    before = below(f"{root}/tmp")
    hold("install.sh --help", shell_in(root, f"cd /tmp && {script} --help"), 0, "usage: install.sh PREFIX")
    for words, told in REJECTED:
        hold(f"install.sh {words}", shell_in(root, f"cd /tmp && {script} {words}"), 1, f"install.sh: {told}")
    staged = shell_in(root, f"cd /tmp && DESTDIR=/tmp/stage {script} usr")
    hold("a relative PREFIX with DESTDIR", staged, 1, "PREFIX has to begin with /")
    if below(f"{root}/tmp") != before or os.path.exists(f"{root}/opt/x"):
        wrong("install.sh wrote something for other words than one PREFIX")
    say("install.sh: help, and words that it rejects")


def try_places(root, script):
    """A relative PREFIX is taken from the working directory, and DESTDIR is put before an absolute one."""
    os.makedirs(f"{root}/tmp/where")
    for line, folder in (
        ("%s relative", "relative"),
        ("DESTDIR=stage %s /usr", "stage/usr"),
        ("DESTDIR=/tmp/where/whole %s /opt/a", "whole/opt/a"),
    ):
        place, done = f"/tmp/where/{folder}", shell_in(root, "cd /tmp/where && " + line % script)
        is_there = hold(line % "install.sh", done, 0, f"{place}/bin/yamlcanon\n")
        if is_there and below(root + place) != below(f"{root}/opt/own"):
            wrong(f"{line}: other files than /opt/own has")
    if os.path.exists(f"{os.path.dirname(root + script)}/relative"):
        wrong("install.sh wrote into the unpacked folder")
    say("install.sh: a relative PREFIX, and DESTDIR")


def try_uninstall(root, script):
    """What is there besides what was installed stays; what an older version had is removed by a newer one."""
    folder = f"{root}/opt/kept"
    for name in ("lib/mine", "victim"):
        write(f"{folder}/{name}", "mine\n")
    os.symlink("../victim", f"{folder}/lib/libyamlcanon.a")
    hold("install.sh", inside(root, script, "/opt/kept"), 0, "/opt/kept/lib/libyamlcanon.a\n")
    with open(f"{folder}/share/doc/yamlcanon/installed", "a", encoding="utf-8") as file:
        file.write("lib/old\n")
    write(f"{folder}/lib/old", "of an older version\n")
    hold("install.sh again", inside(root, script, "/opt/kept"))
    if os.path.exists(f"{folder}/lib/old") or read(f"{folder}/victim") != "mine\n":
        wrong("install.sh leaves a file of an older version, or writes through a link")
    hold("install.sh uninstall", shell_in(root, f"cd /opt && {script} uninstall kept"), 0, "/opt/kept/bin/yamlcanon\n")
    if below(folder) != ["lib", "lib/mine", "victim"]:
        wrong(f"install.sh uninstall leaves {below(folder)}")
    inside(root, script, "/opt/gone")
    inside(root, script, "uninstall", "/opt/gone")
    if os.path.exists(f"{root}/opt/gone"):
        wrong("install.sh uninstall leaves the folder that install.sh made")
    say("install.sh: uninstall")


def try_old(root, script):
    """What a machine is told that is too old."""
    getconf = f"{root}/usr/local/bin/getconf"
    write(getconf, "#!/bin/sh\necho glibc 2.31\n", 0o755)
    hold("an old glibc", inside(root, script, "/opt/other"), 1, "install.sh: glibc 2.31 is here, and the programs need 2.34")
    os.remove(getconf)
    if os.path.exists(f"{root}/opt/other"):
        wrong("install.sh wrote before it refused")
    say("install.sh refuses an old glibc")


def try_processor(root):
    """The least processor of x86-64, which qemu has in this one's place: the library, and the programs but where the gate built them."""
    qemu = shutil.which("qemu-x86_64")
    if not qemu:
        return say("qemu-x86_64 is not found: the least processor was not tried")
    programs, build = ["/tmp/shared", "/tmp/static"], f"{root}/opt/own/share/doc/yamlcanon/BUILD"
    if not all(os.path.exists(root + path) for path in programs) or not os.path.exists(build):
        return wrong("there is nothing to try on the least processor")
    if "\nprograms: those that the gate built" not in read(build):
        programs.append("/opt/own/bin/yamlcanon")
    for path in programs:
        words = [qemu, "-L", root, "-E", "LD_LIBRARY_PATH=/opt/own/lib", "-cpu", LEAST, root + path, "canon"]
        hold(f"{path} on the least processor", ended(*words, f"{TOP}/examples/service.yaml"), 0, SERVICE)
    return say(f"{', '.join(programs)} run on the least processor of x86-64")


def try_wheel(root, folder, has_python):
    wheels = glob.glob(f"{folder}/*-manylinux_*_x86_64.whl")
    if not (wheels and has_python):
        return say("no wheel, or no Python with venv: left out")
    shutil.copy(wheels[0], f"{root}/tmp")
    install = "/tmp/venv/bin/pip install -q --no-index --disable-pip-version-check /tmp/"
    lines = ["python3 -m venv /tmp/venv", install + os.path.basename(wheels[0])]
    if not all(hold(line, shell_in(root, line)) for line in lines):
        return None
    python = ("/tmp/venv/bin/python", "-I")
    hold("the wheel", inside(root, *python, "-c", CALLS), 0, "/tmp/venv/")
    said = "MIT OR Apache-2.0 LICENSE-MIT LICENSE-APACHE NOTICE "
    hold("what the wheel says of itself", inside(root, *python, "-c", METADATA), 0, said)
    try_store(root, "python", f"{' '.join(python)} /tmp/examples/store.py", "the wheel")
    return say("the wheel in a venv with no index")


def try_crate(root, folder):
    crates = glob.glob(f"{folder}/*.crate")
    if not (crates and shutil.which("rustc") and shutil.which("cargo")):
        return say("no crate, or no cargo: left out")
    if inside(root, "true", has_proc=True)[0]:
        return say("/proc can not be had in the root, which rustc needs: the crate is left out")
    source = subprocess.run(["rustc", "--print", "sysroot"], stdout=subprocess.PIPE, text=True, check=True).stdout.strip()
    os.makedirs(f"{root}/opt/rust")
    for part in ("bin", "lib"):
        # By links where they can be made: the toolchain is read alone.
        if subprocess.call(["cp", "-al", f"{source}/{part}", f"{root}/opt/rust"], stderr=subprocess.DEVNULL):
            subprocess.run(["cp", "-a", f"{source}/{part}", f"{root}/opt/rust"], check=True)
    subprocess.run(["tar", "-xzf", crates[0], "-C", f"{root}/tmp"], check=True)
    env, crate = {"PATH": "/opt/rust/bin:/usr/sbin:/usr/bin:/bin", "YAMLCANON_LIB_DIR": "/opt/own/lib"}, f"/tmp/yamlcanon-{release()}"

    def cargo(words, place):
        return inside(root, "sh", "-c", f"cd {place} && cargo {words} -q --offline", env=env, has_proc=True)

    write(f"{root}/tmp/app/Cargo.toml", CARGO.format(name="app", crate=crate))
    write(f"{root}/tmp/app/src/main.rs", RUST)
    if hold("a program in Rust", cargo("run", "/tmp/app"), 0, '--- {"a" : [!!null "null"], "b" : !!int "1"}\n'):
        say("the crate, by a program in Rust")
        put_rust(f"{root}/tmp/store_in_rust", crate, read(f"{EXAMPLES}/store.rs"), "store")
        if hold("the crate: store.rs", cargo("build", "/tmp/store_in_rust")):
            try_store(root, "rust", "/tmp/store_in_rust/target/debug/store", "the crate")
    return None


def try_go(root, folder, room):
    """The program examples/store.go, built outside, where Go is: by the commands that LIBRARY has, over the module's archive and the library
    that is installed in /opt/own of the root, with no other module."""
    archives = glob.glob(f"{folder}/yamlcanon-*-go.zip")
    if not (archives and shutil.which("go")):
        return say("no module for Go, or no go: left out")
    with zipfile.ZipFile(archives[0]) as file:
        file.extractall(room)
    write(f"{room}/store/main.go", read(f"{EXAMPLES}/store.go"))
    own = {name: value for name, value in os.environ.items() if not name.startswith(("GO", "CGO_"))}
    flags = {"CGO_CFLAGS": f"-I{root}/opt/own/include", "CGO_LDFLAGS": f"-L{root}/opt/own/lib"}
    caches = {"GOCACHE": f"{room}/cache", "GOPATH": f"{room}/path", "GOPROXY": "off", "GOTOOLCHAIN": "local"}
    commands = GO_COMMANDS.search(read(f"{TOP}/{PAGE}"))[0].replace("VERSION", release()).replace("PATH", room)
    if hold("the module for Go", ended("sh", "-e", "-c", commands, cwd=f"{room}/store", env={**own, **flags, **caches})):
        shutil.copy(f"{room}/store/app", f"{root}/tmp/store_in_go")
        try_store(root, "go", "/tmp/store_in_go", "the module for Go")
    return None


def try_all(folder):
    with tempfile.TemporaryDirectory() as room:
        if not may_make(room):
            return say("a root is made by root, on Debian, where devices and chroot are allowed: left out")
        root = f"{room}/root"
        has_python = make_root(root, BASE + PYTHON)
        if not has_python:
            shutil.rmtree(root, ignore_errors=True)
            if not make_root(root, BASE):
                return say(f"what a root is made of is not installed here ({' '.join(BASE)}): left out")
        shutil.copytree(f"{TOP}/examples", f"{root}/tmp/examples")
        status, told = shell_in(root, "command -v rt; ls -d /opt/rattle /work")
        if status == 0 or "/rt" in told:
            wrong(f"the kit is in the root: {told}")
        try_archive(root, folder)
        try_processor(root)
        try_wheel(root, folder, has_python)
        try_crate(root, folder)
        try_go(root, folder, f"{room}/go")
        try_debs(root, folder, has_python)
    return None


def try_folder(folder):
    if not os.path.isfile(f"{folder}/SHA256SUMS"):
        say(f"{folder} has no packages that tools/release wrote")
        return 2
    try_sums(folder)
    try_lintian(folder)
    with tempfile.TemporaryDirectory() as room:
        for name in OTHERS:
            try_other(name, folder, f"{room}/{name}")
    try_all(folder)
    say(f"{len(WRONG)} wrong")
    return 1 if WRONG else 0
