"""roots.py: a root of its own, without the kit: the files of this machine's Debian packages, as far as those that are named need them."""
import glob
import os
import re
import shutil
import subprocess

from lib.paths import write

INFO = "/var/lib/dpkg/info"
CHROOT = "/usr/sbin/chroot"
MERGED = ("bin", "sbin", "lib", "lib64")
FOLDERS = ("dev", "etc", "proc", "root", "tmp", "usr", "var/lib/dpkg/info", "var/lib/dpkg/updates", "var/lib/dpkg/triggers")
# What a package's scripts would have made.
LINKS = {"/usr/bin/cc": "gcc", "/bin/sh": "dash"}


def may_make(room):
    """Whether this process may make roots: devices, and chroot."""
    if os.geteuid() or not shutil.which("dpkg") or not os.path.exists(CHROOT):
        return False
    try:
        os.mknod(room + "/null", 0o20666, os.makedev(1, 3))
        os.remove(room + "/null")
    except OSError:
        return False
    return not subprocess.call([CHROOT, "/", "true"], stderr=subprocess.DEVNULL)


def installed():
    """The installed packages: of each its paragraph in dpkg's status; and of each name that one provides the package."""
    with open("/var/lib/dpkg/status", encoding="utf-8") as file:
        paragraphs = [text for text in file.read().split("\n\n") if "\nStatus: install ok installed" in text]
    found, provided = {}, {}
    for text in paragraphs:
        name = re.match(r"Package: (\S+)", text)[1]
        found[name] = text
        for line in re.findall(r"^Provides: (.*)$", text, re.M):
            for word in line.split(","):
                provided.setdefault(word.split()[0], name)
    return found, provided


def needed(text):
    """What a paragraph depends on: lists of names, of which one is to be there."""
    for line in re.findall(r"^(?:Pre-)?Depends: (.*)$", text, re.M):
        for words in line.split(","):
            yield [re.match(r"\s*([\w.+-]+)", word)[1] for word in words.split("|")]


def with_depended(names):
    """These packages and what they depend on, as far as it is installed; None where one of them is not."""
    found, provided = installed()
    chosen, todo = {}, [[name] for name in names]
    while todo:
        choice = todo.pop()
        name = next((provided.get(name, name) if name not in found else name for name in choice if name in found or name in provided), None)
        if name is None:
            return None
        if name not in chosen:
            chosen[name] = found[name]
            todo += needed(found[name])
    return chosen


def info_files(name):
    return [
        path for path in glob.glob("%s/%s[.:]*" % (INFO, name)) if re.fullmatch(re.escape(name) + r"(:\w+)?\.\w+", os.path.basename(path))
    ]


def put_files(root, name):
    for path in info_files(name):
        shutil.copy2(path, root + INFO)
    lists = [path for path in info_files(name) if path.endswith(".list")]
    for line in open(lists[0], encoding="utf-8").read().splitlines():
        if line.startswith(("/usr/share/doc/", "/usr/share/locale/")) or not os.path.lexists(line):
            continue
        target = root + line
        if os.path.isdir(line) and not os.path.islink(line):
            os.makedirs(target, exist_ok=True)
        elif not os.path.lexists(target):
            os.makedirs(os.path.dirname(target), exist_ok=True)
            shutil.copy2(line, target, follow_symlinks=False)


def make_root(root, names):
    """Makes the root with these packages; whether they are all installed here."""
    chosen = with_depended(names)
    if chosen is None:
        return False
    for name in (*FOLDERS, *("usr/" + it for it in MERGED)):
        os.makedirs("%s/%s" % (root, name), exist_ok=True)
    for name in MERGED:
        os.symlink("usr/" + name, "%s/%s" % (root, name))
    for name in sorted(chosen):
        put_files(root, name)
    write(root + "/var/lib/dpkg/status", "\n\n".join(text.strip("\n") for text in chosen.values()) + "\n\n")
    for path, target in LINKS.items():
        if not os.path.lexists(root + path) and os.path.exists("%s/usr/bin/%s" % (root, target)):
            os.symlink(target, root + path)
    for name, minor in (("null", 3), ("zero", 5), ("urandom", 9)):
        os.mknod("%s/dev/%s" % (root, name), 0o20666, os.makedev(1, minor))
        os.chmod("%s/dev/%s" % (root, name), 0o666)
    for name in ("passwd", "group"):
        write("%s/etc/%s" % (root, name), "root:x:0:0:root:/root:/bin/sh\n" if name == "passwd" else "root:x:0:\n")
    return True


# Enters a root with /proc in it, which is there for this command alone.
WITH_PROC = ("unshare", "--mount", "sh", "-c", 'mount -t proc proc "$0/proc" && exec chroot "$0" "$@"')


def inside(root, *words, has_proc=False, **how):
    """Runs a command in the root, with an environment of its own. Gives status and output, errors among it."""
    enter = WITH_PROC if has_proc else (CHROOT,)
    env = {"PATH": "/usr/local/bin:/usr/bin:/bin:/usr/sbin:/sbin", "HOME": "/root", "LC_ALL": "C.UTF-8", **how.pop("env", {})}
    done = subprocess.run(
        [*enter, root, *words],
        env=env,
        stdout=subprocess.PIPE,
        stderr=subprocess.STDOUT,
        check=False,
        **({} if "input" in how else {"stdin": subprocess.DEVNULL}),
        **how,
    )
    return done.returncode, done.stdout.decode(errors="replace")
