#!/usr/bin/env python3
"""later_names.py MAP NAMES: adds to a version script the versions that it has not, in place.

NAMES has lines NAME@@VERSION, of the libgcc_s of a GCC: each later one has added names in a version of its own, as GCC_14.0.0."""
import re
import sys

path, names = sys.argv[1:]
with open(path) as file:
    script = file.read()
known = re.findall(r"^(GCC_[\d.]+) \{", script, re.M)
added = {}
for line in open(names):
    name, _, version = line.strip().partition("@@")
    if re.fullmatch(r"GCC_[\d.]+", version) and name != version and version not in known:
        added.setdefault(version, []).append(name)
last = known[-1]
with open(path, "a") as file:
    for version in sorted(added, key=lambda each: [int(part) for part in each[4:].split(".")]):
        file.write(f"{version} {{\n  global:\n    {'; '.join(added[version])};\n}} {last};\n")
        last = version
