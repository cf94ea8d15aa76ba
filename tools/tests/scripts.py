"""scripts.py: a tool without a suffix as a module, and what it prints."""
import contextlib
import importlib.machinery
import importlib.util
import io
import os
import sys
import tempfile

TOP = os.path.dirname(os.path.dirname(os.path.dirname(os.path.realpath(__file__))))
sys.path[:0] = [f"{TOP}/tools", TOP]  # for lib and bench.lib
from lib.trial import put


def load(path):
    """The tool at this path from the top of the repository."""
    name = os.path.basename(path).replace("-", "_")
    loader = importlib.machinery.SourceFileLoader(name, f"{TOP}/{path}")
    module = importlib.util.module_from_spec(importlib.util.spec_from_loader(name, loader))
    loader.exec_module(module)
    return module


def run(main, *words):
    """The status of a tool's `main`, and what it printed on both streams."""
    said = io.StringIO()
    with contextlib.redirect_stdout(said), contextlib.redirect_stderr(said):
        try:
            status = main(list(words))
        except SystemExit as end:
            status = end.code
    return status, said.getvalue()


def folder_of(test):
    """A new folder, which is there as long as a test runs."""
    folder = tempfile.TemporaryDirectory()
    test.addCleanup(folder.cleanup)
    return folder.name


def put_program(path, text):
    put(os.path.dirname(path), {os.path.basename(path): text})
    os.chmod(path, 0o755)


def write(folder, **texts):
    """Writes files below a folder; in their names `__` is for `/`, and `.md` is added."""
    put(folder, {f"{name.replace('__', '/')}.md": text for name, text in texts.items()})
