"""Keeps configurations by what they mean: python3 store.py FOLDER FILE..

The canonical text of each file goes into FOLDER, under its SHA-256. Printed is of each file whether it is kept, means the same as an
earlier one, or is rejected, with line and column; and where what is kept differs from the first. Status 1 if a file is rejected.
"""

import os
import sys

import yamlcanon


def where(path, fault):
    """The file, with line and column if the error is at a byte of it."""
    return f"{path}:{fault.line}:{fault.column}" if fault.line else path


def keep(folder, path, data, kept):
    """Keeps the text, or says of which it is a second spelling. kept: the files by their digests."""
    digest = yamlcanon.sha256(data)
    if digest in kept:
        print(f"{path} means the same as {kept[digest][0]}")
        return
    with open(os.path.join(folder, digest.hex() + ".yaml"), "wb") as file:
        file.write(yamlcanon.canonical(data))
    print(f"{path} is kept as {digest.hex()[:12]}")
    kept[digest] = path, data
    for one in yamlcanon.diff(next(iter(kept.values()))[1], data):
        print(f"  {one.kind} {one.path}:", " -> ".join(text for text in (one.left, one.right) if text is not None))


def main(folder, *paths):
    kept, status = {}, 0
    for path in paths:
        with open(path, "rb") as file:
            data = file.read()
        try:
            keep(folder, path, data, kept)
        except yamlcanon.Refused as fault:
            print(f"{where(path, fault)}: {fault}")
            status = 1
    return status


if __name__ == "__main__":
    sys.exit(main(*sys.argv[1:]) if len(sys.argv) > 1 else "usage: store.py FOLDER FILE..")
