"""What a caller in Python looks like: python3 example.py FILE.. groups files by what they mean."""

import sys

import yamlcanon

groups = {}
for path in sys.argv[1:]:
    with open(path, "rb") as file:
        try:
            groups.setdefault(yamlcanon.canonical(file.read()), []).append(path)
        except yamlcanon.Refused as fault:
            print(f"{path}: {fault}", file=sys.stderr)
for paths in groups.values():
    print(*paths)
