"""The tag of a wheel with a shared library inside, by what the library asks for of the C library.

    python3 tag.py LIBRARY       prints it, as py3-none-manylinux_2_17_x86_64

A library that asks for another library than the C library (and the parts of it that its loader brings) gets no such tag, and neither
does one where readelf is not found: then the tag is that of this machine, as linux_x86_64, which no index takes.
"""
import os
import re
import subprocess
import sys
import sysconfig

# A machine with an older C library than these is not said to be served, whatever the symbols ask for: none was tried.
LEAST_GLIBC, LEAST_MUSL = (2, 17), (1, 2)
OF_GLIBC = {"libc.so.6", "libm.so.6", "libpthread.so.0", "ld-linux-x86-64.so.2", "ld-linux-aarch64.so.1"}
OF_MUSL = {"libc.so"}
PROCESSORS = {"Advanced Micro Devices X86-64": "x86_64", "AArch64": "aarch64"}


def told(library):
    """The heads, the dynamic section and the versions of a library of any processor."""
    words = ["readelf", "-hdVW", library]
    return subprocess.run(
        words, check=True, stdout=subprocess.PIPE, stderr=subprocess.PIPE, env={**os.environ, "LC_ALL": "C"}, text=True
    ).stdout


def platform(library):
    """The platform on which a library runs: its C library with the least version of it, and the processor."""
    own = sysconfig.get_platform().replace("-", "_").replace(".", "_")
    try:
        said = told(library)
    except (OSError, subprocess.CalledProcessError):
        return own
    processor = PROCESSORS.get(re.search(r"^ +Machine: +(.*)$", said, re.M)[1])
    needed = set(re.findall(r"\(NEEDED\) +Shared library: \[(.*)\]", said))
    versions = [(int(major), int(minor)) for major, minor in re.findall(r"Name: GLIBC_(\d+)\.(\d+)", said)]
    if not processor or "GLIBC_PRIVATE" in said:
        return own
    if needed == OF_MUSL and not versions:
        return "musllinux_%d_%d_%s" % (*LEAST_MUSL, processor)
    return "manylinux_%d_%d_%s" % (*max([LEAST_GLIBC, *versions]), processor) if needed <= OF_GLIBC else own


def tag(library):
    return "py3-none-" + platform(library)


if __name__ == "__main__":
    print(tag(sys.argv[1]))
