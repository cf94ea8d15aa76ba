"""taken.py: what a run takes: processor time and memory, or instructions; and the programs over libyaml that ours is compared with."""
import os
import re
import shutil
import subprocess

from lib.paths import TOP

BENCH = f"{TOP}/bench"


def cost(words, folder):
    """Seconds of processor, by the kernel's count, and MiB at most, by GNU time, which is small itself."""
    with subprocess.Popen(
        ["/usr/bin/time", "-f", "%M", "-o", f"{folder}/cost", *words],
        stdin=subprocess.DEVNULL,
        stdout=subprocess.DEVNULL,
        stderr=subprocess.DEVNULL,
    ) as run:
        _, _, used = os.wait4(run.pid, 0)
        run.returncode = 0
    with open(f"{folder}/cost", encoding="utf-8") as file:
        return used.ru_utime + used.ru_stime, int(file.read().split()[-1]) / 1024


def instructions(words, folder):
    """Instructions of a run and what it starts, by valgrind's callgrind; 0 where they were not counted."""
    log = f"{folder}/log"
    subprocess.run(
        ["valgrind", "--tool=callgrind", "--trace-children=yes", "--callgrind-out-file=/dev/null", f"--log-file={log}", *words],
        stdin=subprocess.DEVNULL,
        stdout=subprocess.DEVNULL,
        stderr=subprocess.DEVNULL,
        check=False,
    )
    with open(log, encoding="utf-8") as file:
        return max(map(int, re.findall(r"Collected : (\d+)", file.read())), default=0)


def of_libyaml(source, folder):
    """The words before a file's name that run a C program of bench/c over libyaml, or None where it cannot be built."""
    made = f"{folder}/{source.removesuffix('.c')}"
    if not shutil.which("cc"):
        return None
    built = subprocess.run(["cc", "-O2", "-o", made, f"{BENCH}/c/{source}", "-lyaml"], capture_output=True, check=False)
    return None if built.returncode else ["sh", "-c", 'exec "$1" < "$2"', "sh", made]
