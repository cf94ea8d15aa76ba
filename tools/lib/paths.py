"""Where things are: the repository, its crates and data, the built programs, and the Rattle kit."""
from __future__ import annotations

import os
import shutil

TOP = os.path.dirname(os.path.dirname(os.path.dirname(os.path.realpath(__file__))))
TOOLS = f"{TOP}/tools"
DATA = f"{TOOLS}/data"
CRATES = f"{TOP}/crates"
# The kit's rt, as the tools call it.
RT = f"{TOOLS}/rt"
EXAMPLES = f"{TOP}/examples"
# The built programs. YAMLCANON and YAMLREVIEW name others in their place.
PROGRAM = os.environ.get("YAMLCANON") or f"{CRATES}/yaml_tool/out/yaml_tool"
REVIEW = os.environ.get("YAMLREVIEW") or f"{CRATES}/yaml_review/out/yaml_review"


def read(path: str) -> str:
    with open(path, encoding="utf-8") as file:
        return file.read()


def write(path: str, text: str) -> None:
    with open(path, "w", encoding="utf-8") as file:
        file.write(text)


def want_built(tool: str, *programs: str) -> None:
    """Ends a tool, with a message and status 1, if a program is not built."""
    for program in programs:
        if not os.access(program, os.X_OK):
            raise SystemExit(f"{tool}: {program} is not built")


def kit_folder() -> str | None:
    """The folder of the Rattle kit, or None if `rt` is not found."""
    found = shutil.which("rt")
    return os.path.dirname(os.path.dirname(os.path.realpath(found))) if found else None
