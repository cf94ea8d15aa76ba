"""Makes the wheel: the module, and the shared library next to it, which YAMLCANON_LIBRARY names or tools/library builds.

Its tag is by what that library asks for (tag.py). The same files and the same SOURCE_DATE_EPOCH give the same bytes.
"""
import base64
import glob
import hashlib
import os
import re
import subprocess
import sys
import tempfile
import time
import zipfile

HERE = os.path.dirname(os.path.abspath(__file__))
with open(HERE + "/pyproject.toml", encoding="utf-8") as project:
    TOLD = dict(re.findall(r'^([a-z-]+) = "(.*)"$', project.read(), re.M))
sys.path.insert(0, HERE)
from tag import tag  # noqa: E402

NAME = "yamlcanon-" + TOLD["version"]
INFO = NAME + ".dist-info/"
# The first time that a zip file can tell.
LEAST_TIME = 315532800
# What is licensed by a text of its own, and what a release rests on and whom to write to.
LICENCES, OTHERS = ("LICENSE-MIT", "LICENSE-APACHE", "NOTICE"), ("BUILD", "SECURITY.md")
METADATA = """\
Metadata-Version: 2.4
Name: yamlcanon
Version: {version}
Summary: {description}
License-Expression: {license}
{files}Requires-Python: {requires-python}
Classifier: Operating System :: POSIX :: Linux
Classifier: Programming Language :: Python :: 3 :: Only
Classifier: Typing :: Typed
Keywords: yaml,canonical,compare,digest
Description-Content-Type: text/markdown

{text}"""


class UnsupportedOperation(Exception):
    """What a backend raises if it makes no source distribution (PEP 517)."""


def bytes_of(path):
    with open(path, "rb") as file:
        return file.read()


def library(room):
    """The path of the shared library; one that is not there ends this: no wheel is made without it."""
    path = os.environ.get("YAMLCANON_LIBRARY")
    if not path:
        subprocess.check_call([HERE + "/../../tools/library", room])
        path = room + "/libyamlcanon.so.1"
    if bytes_of(path)[:4] != b"\x7fELF":
        raise SystemExit("%s is no shared library: a wheel has it inside" % path)
    return path


def texts(names):
    """Those of the repository's texts that are there; none where an older pip has copied this folder alone."""
    return {name: bytes_of(HERE + "/../../" + name) for name in names if os.path.isfile(HERE + "/../../" + name)}


def metadata():
    """What tells Python's tools of the module; its description is README.md."""
    with open(HERE + "/README.md", encoding="utf-8") as file:
        return METADATA.format(files="".join("License-File: %s\n" % name for name in texts(LICENCES)), text=file.read(), **TOLD)


def write_info(folder, installer):
    """Writes what tells Python which version of the module is installed in a folder, and by what. A list of files (RECORD) is left
    out, so that pip does not remove what another program has installed."""
    info = os.path.join(folder, INFO)
    os.makedirs(info)
    for name, text in (("METADATA", metadata()), ("INSTALLER", installer + "\n")):
        with open(info + name, "w", encoding="utf-8") as file:
            file.write(text)


def write_zip(path, parts):
    """The parts in their order, each with one time and one mode."""
    made = max(LEAST_TIME, int(os.environ.get("SOURCE_DATE_EPOCH") or time.time()))
    with zipfile.ZipFile(path, "w", zipfile.ZIP_DEFLATED) as file:
        for name, part in parts.items():
            info = zipfile.ZipInfo(name, time.gmtime(made)[:6])
            info.compress_type, info.external_attr, info.create_system = zipfile.ZIP_DEFLATED, 0o100644 << 16, 3
            file.writestr(info, part)


def build_wheel(wheel_directory, config_settings=None, metadata_directory=None):
    names = sorted(os.path.basename(path) for path in glob.glob(HERE + "/yamlcanon/*.py")) + ["py.typed"]
    parts = {"yamlcanon/" + name: bytes_of(HERE + "/yamlcanon/" + name) for name in names}
    with tempfile.TemporaryDirectory() as room:
        path = library(room)
        parts["yamlcanon/libyamlcanon.so.1"], tagged = bytes_of(path), tag(path)
    parts[INFO + "METADATA"] = metadata().encode()
    parts.update({INFO + "licenses/" + name: text for name, text in texts(LICENCES).items()})
    parts.update({INFO + name: text for name, text in texts(OTHERS).items()})
    parts[INFO + "WHEEL"] = ("Wheel-Version: 1.0\nGenerator: yamlcanon\nRoot-Is-Purelib: false\nTag: %s\n" % tagged).encode()
    sums = {name: base64.urlsafe_b64encode(hashlib.sha256(part).digest()).rstrip(b"=").decode() for name, part in parts.items()}
    record = "".join("%s,sha256=%s,%d\n" % (name, sums[name], len(part)) for name, part in parts.items())
    parts[INFO + "RECORD"] = (record + INFO + "RECORD,,\n").encode()
    wheel = "%s-%s.whl" % (NAME, tagged)
    write_zip(os.path.join(wheel_directory, wheel), parts)
    return wheel


def build_sdist(sdist_directory, config_settings=None):
    raise UnsupportedOperation("no source distribution is made: the library in the wheel is built by the Rattle kit, which no index has")
