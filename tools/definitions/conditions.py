#!/usr/bin/env python3
"""conditions.py: each condition on which uniqueness rests (conditions.toml), dropped alone from the definitions, gives a text a second
reading.
"""
import os
import shutil
import subprocess
import sys
import tempfile
import tomllib

import shadow
from lib.arguments import parser
from lib.paths import CRATES, read, write

SPECS = f"{CRATES}/yaml_definitions/specs"


def table():
    with open(f"{shadow.HERE}/conditions.toml", "rb") as file:
        return tomllib.load(file)["condition"]


def numbers_of_readings(condition):
    """How many event lists each text has, by the definitions that SPECS names."""
    return [len(shadow.event_texts(text, condition.get("wide", False))) for text in condition["texts"]]


def drop(condition, specs):
    shutil.copytree(SPECS, specs)
    for name, old, new in condition["edits"]:
        path = f"{specs}/grammar/{name}.antt"
        text = read(path)
        assert text.count(old) == 1, (condition["sentence"], name, old, text.count(old))
        write(path, text.replace(old, new))


def is_told(number, condition):
    """Whether each text of a condition has several readings without it; says so."""
    with tempfile.TemporaryDirectory() as folder:
        drop(condition, f"{folder}/specs")
        env = {**os.environ, "SPECS": f"{folder}/specs/grammar"}
        ran = subprocess.run([sys.executable, os.path.abspath(__file__), str(number)], env=env, capture_output=True, text=True, check=False)
    numbers = ran.stdout.split()
    is_good = len(numbers) == len(condition["texts"]) and all(int(count) > 1 for count in numbers)
    what = (condition["sentence"], condition["place"], condition["texts"], " ".join(numbers), ran.stderr[-300:])
    print("%-4s %s | %s | %s | readings %s %s" % ("ok" if is_good else "NOT", *what))
    return is_good


def main(words=None):
    given = parser("tools/definitions/conditions.py", __doc__)
    told = "in a changed copy: print the numbers of readings for this condition"
    given.add_argument("number", nargs="?", type=int, metavar="NUMBER", help=told)
    number, conditions = given.parse_args(words).number, table()
    if number is not None:
        print(*numbers_of_readings(conditions[number]))
        return 0
    good = sum([is_told(*each) for each in enumerate(conditions)])
    print("%d of %d" % (good, len(conditions)))
    return 0 if good == len(conditions) else 1


if __name__ == "__main__":
    sys.exit(main())
