#!/usr/bin/env python3
"""twins.py FILE.rt..: functions whose bodies differ only in names, types and constants, in groups, one line a group.

A body counts as code of at least three lines: names, numbers and strings are made alike, clauses and comments left out, and lines
that are then the same as the one before count once, so that tables of any length are alike."""
import re
import sys

groups = {}
for file in sys.argv[1:]:
    text = re.sub(r"(?m)^\s*//.*\n", "", open(file).read())
    for found in re.finditer(r"(?ms)^( *)(?:pub )?(?:extern \"C\" )?fn (\w+).*?(?:^\1| )\{\n(.*?)^\1\}$", text):
        name, body = found[2], found[3]
        body = re.sub(r'b?"(?:[^"\\]|\\.)*"', "S", body)
        alike = re.sub(r"\b[A-Za-z_]\w*\b", "n", re.sub(r"\b\d\w*(?:\.\d+)?\b", "0", body))
        if body.count("\n") >= 3:
            lines = [re.sub(r"\s+", " ", it) for it in alike.split("\n")]
            kept = [it for i, it in enumerate(lines) if i == 0 or it != lines[i - 1]]
            groups.setdefault("".join(kept), []).append(f"{file.split('/')[1]}::{name}")
found = [it for it in groups.values() if len(it) > 1]
for group in sorted(found, key=len, reverse=True):
    print(len(group), *group)
print(f"{len(found)} groups, {sum(map(len, found))} functions")
