#!/usr/bin/env python3
"""The seeds: the inputs of vectors/*.jsonl.

OUT is a folder, which gets a file for each, by a name made of its bytes, or FILE.zip with the same, as OSS-Fuzz has them.
For `budget` each has a byte before it that says which call; `same` gets each with its text behind a null byte, where it has one,
and else twice.
"""
import argparse
import base64
import glob
import hashlib
import json
import os
import zipfile

TOP = os.path.dirname(os.path.dirname(os.path.realpath(__file__)))
TARGETS = ("canonical", "events", "same", "budget")
LARGEST = 4096


def seeds(target):
    for path in sorted(glob.glob(TOP + "/vectors/*.jsonl")):
        with open(path, encoding="utf-8") as file:
            for number, line in enumerate(file):
                row = json.loads(line)
                if "input" not in row:
                    continue
                text = base64.b64decode(row["input"])
                if target == "budget":
                    text = bytes([number % 3]) + text
                if target == "same":
                    text += b"\0" + row.get("text", "").encode() if number % 2 and "text" in row else b"\0" + text
                if len(text) <= LARGEST:
                    yield text


def main():
    given = argparse.ArgumentParser(prog="fuzz/corpus.py", description=__doc__, formatter_class=argparse.RawDescriptionHelpFormatter)
    given.add_argument("target", choices=TARGETS)
    given.add_argument("out", metavar="OUT")
    options = given.parse_args()
    write_seeds(options.target, options.out)


def write_seeds(target, out):
    named = {hashlib.sha1(text).hexdigest(): text for text in seeds(target)}
    if out.endswith(".zip"):
        with zipfile.ZipFile(out, "w", zipfile.ZIP_DEFLATED) as file:
            for name in sorted(named):
                file.writestr(zipfile.ZipInfo(name), named[name])
        return
    os.makedirs(out, exist_ok=True)
    for name, text in named.items():
        with open("%s/%s" % (out, name), "wb") as file:
            file.write(text)


if __name__ == "__main__":
    main()
