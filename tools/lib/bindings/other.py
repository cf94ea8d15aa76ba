"""other.py: the library for another machine or C library, held against the one for this machine.

What is run: `library/records.c` over the vectors, made streams, deep inputs and shapes, static and shared, whose records have to be the
same bytes; for this processor the program of `library/yamlcanon.c`, which passes tools/examples programs and has the answers of the vectors; and
`library/test.c` with rooms of every kind, on small stacks, under bounds of memory and on threads. For another processor qemu runs it.
"""
import os
import subprocess

from lib.packing.base import JUDGED, MACHINES, lacking, lacking_to_run
from lib.paths import TOP, write
from .base import build, run, say, wrong

# Up to how many bytes an input is tried under bounds of memory.
BOUNDED = 100_000
# How many inputs qemu has on threads.
FEW = 40


def runnable(machine, made):
    """The path of a script that runs a program of the machine."""
    if not machine.runs:
        return made
    write(made + ".sh", '#!/bin/sh\nexec %s %s "$@"\n' % (" ".join(machine.runs), made))
    os.chmod(made + ".sh", 0o755)
    return made + ".sh"


def built(machine, folder, name, *words):
    """A program in C for the machine over the library of a folder, as a path that runs."""
    build(folder, name, *words, compiler=machine.cc)
    return runnable(machine, "%s/%s" % (folder, name))


def records(machine, folder, kind, names):
    """The records of the static or of the shared library, as the name of a file."""
    own = (folder + "/libyamlcanon.a", "-static") if kind == "static" else ("-L" + folder, "-lyamlcanon", "-Wl,-rpath," + folder)
    made, told = built(machine, folder, "records_" + kind, TOP + "/library/records.c", *own), "%s/records.%s" % (folder, kind)
    with open(told, "wb") as file:
        run(made, out=file, input=names)
    with open(told, "rb") as file:
        return file.read()


def build_other(name, own, folder):
    """Builds the library for a machine into a folder, of what this machine's has in it where the processor is the same; whether it is there."""
    if lacking(name):
        say("%s is left out, since %s is not found" % (MACHINES[name].name, " ".join(lacking(name))))
        return False
    words = ["--of", own] if MACHINES[name].target == JUDGED else ["--anew"]
    if subprocess.call([TOP + "/tools/library", *words, "--for", name, folder]):
        wrong("the library for %s is not built" % MACHINES[name].name)
        return False
    return True


def try_other(name, folder, own, inputs, try_made):
    """The library of a folder for a machine. own: the folder of this machine's. inputs: names of files, as lines: all, some, deep."""
    machine = MACHINES[name]
    if lacking_to_run(name):
        say("%s: built, and not run, since %s is not found" % (machine.name, " ".join(lacking_to_run(name))))
        return
    every, some, deepest = inputs
    wanted = records(MACHINES["x86_64"], own, "static", every)
    for kind in ("static", "shared"):
        if records(machine, folder, kind, every) != wanted:
            wrong("%s: the %s library answers otherwise than that of this machine" % (machine.name, kind))
    say("%s: the same %d bytes of answers on %d inputs, static and shared" % (machine.name, len(wanted), every.count(b"\n")))
    # A process for each answer takes qemu minutes.
    if not machine.runs:
        try_made(built(machine, folder, "program", TOP + "/library/yamlcanon.c", folder + "/libyamlcanon.a", "-static"))
        say("%s: the program in C passes tools/examples programs and has the answers of the vectors" % machine.name)
    made = built(machine, folder, "test", TOP + "/library/test.c", folder + "/libyamlcanon.a", "-static", "-lpthread")
    # Each input is tried under 65 bounds, which takes qemu minutes for a long one. So do threads, for many.
    short = [line for line in some.splitlines(True) if os.path.getsize(line.strip()) <= BOUNDED]
    shared = b"".join(short[:FEW]) if machine.runs else some
    for words, given in (((), some), (("threads", "8"), shared), (("budget",), b"".join(short)), (("stack",), some + deepest)):
        say("%s: %s" % (machine.name, " ".join([*words, run(made, *words, input=given)])))
