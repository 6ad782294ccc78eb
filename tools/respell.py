#!/usr/bin/env python3
"""Brings the names of definitions and lemmas to today's spelling: words in snake case.

usage: tools/respell.py [--report]     at the top of a checkout whose other spelling is of today

It reads which names the files of specs/ and proofs/ declare, and writes each in snake case wherever it stands: in those files, and in the
ghost parts of src/. Functions of src/, strings and what Rattle names itself keep their names. Where two names would fall together the
lemma's gets another, by the table below. --report writes nothing, and prints names that would fall together.
"""
import collections
import glob
import os
import re
import sys

# names that would fall together with another, or that a rule does not serve
TABLE = {
    "f-1": "f_minus_1",
    "getD-padded": "get_or_padded",
    "get_d_any": "get_or_any",
    "Own-bytes": "OwnBytes",
    "Own-words": "OwnWords",
    "fog-2048\u00b79": "fog_2048_9",
    "is-nan": "only_nan",
    "last_name": "last_name_made",
    "little_endian": "little_endian_order",
    "active-unit": "active_unit_in",
    "client-unit": "client_unit_in",
}
# an entry's field in the record of all entries
CALLS = "bind-buffer buffer-data buffer-sub-data delete-buffers gen-buffers load-identity take-error tex-env".split()
TABLE.update({n: n.replace("-", "_") + "_call" for n in CALLS})
# a lemma named as the definition that it is of
LAWS = """alpha-func argument-bytes argument-words bind-array bind-element borrowed-bytes corner-words current-at depth-func draw-from
encoded-bytes floats-in fresh-state front-face gen-names in-guest is-draw long-words parted-lasts parted-own put-current same-mode
slot-bytes viewed-lasts viewed-own words-read""".split()
TABLE.update({n: n.replace("-", "_") + "_law" for n in LAWS})

ENDS = r"\s(){}\[\],;."
TOKEN = re.compile(f"[^{ENDS}]+")
SIGNATURE = re.compile(
    r"\s*(?:(?:abbrev|unfoldable|pub|data|record|ruleset)\s+)*([^\s:(){},=]+(?: [^\s:(){},=\u2192]+)*)\s*(?:\(.*\)|\{.*\})*\s*:\s(.*)"
)
IN_FUNCTION = re.compile(r"/proofs/(?:[^/]+/)+(?:Proof|Answers|Invariants)\.antt$")


def snake(name):
    if name in TABLE:
        return TABLE[name]
    if name[0].isupper():
        return name
    return re.sub(r"(?<=[a-z0-9])([A-Z])", lambda m: "_" + m[1].lower(), name).replace("-", "_")


def read(path):
    with open(path, encoding="utf-8") as f:
        return f.read()


def declared(paths):
    """The names that are declared, but for those that Rattle asks for by name."""
    names = set()
    for path in paths:
        for line in read(path).split("\n"):
            found = SIGNATURE.match(line.split(" -- ")[0])
            if not found or line.lstrip().startswith("--"):
                continue
            for name in found[1].split():
                asked = found[2].startswith(("tie.", "goal.")) or re.match(r"(returns|invariant|decreases)(-|$)", name)
                if not (IN_FUNCTION.search(path) and asked):
                    names.add(name)
    return names


def turn(text, names):
    return TOKEN.sub(lambda m: names.get(m[0], m[0]), text)


def turn_code(text, names):
    """Only ghost parts: clauses and `ghost use` items. Code has no name in camel case or with a dash."""
    lines = []
    inside = 0
    for line in text.split("\n"):
        code = line.split("//")[0]
        ghost = inside or re.match(r"\s*(pub )?(ghost|requires|ensures)\b", code)
        if ghost:
            inside += code.count("{") - code.count("}")
            line = turn(code, names) + line[len(code) :]
        lines.append(line)
    return "\n".join(lines)


def main(argv):
    antt = sorted(p for top in ("specs", "proofs") for p in glob.glob(f"crates/*/{top}/**/*.antt", recursive=True))
    code = sorted(glob.glob("crates/*/src/**/*.rt", recursive=True))
    if not antt:
        sys.exit("respell: run it at the top of a checkout")
    names = {n: snake(n) for n in declared(antt) if snake(n) != n and "\u25cc" not in n}
    if "--report" in argv:
        by = collections.defaultdict(set)
        for old, new in names.items():
            by[new].add(old)
        for new, olds in sorted(by.items()):
            if len(olds) > 1:
                print("fall together:", new, sorted(olds))
        for path in antt + code:
            tokens = set(TOKEN.findall(re.sub(r"--.*", "", read(path))))
            for old, new in names.items():
                if old in tokens and new in tokens:
                    print("stands there already:", path, old, new)
        return
    for path in antt + code:
        text = read(path)
        new = turn(text, names) if path.endswith(".antt") else turn_code(text, names)
        if new != text:
            with open(path, "w", encoding="utf-8") as f:
                f.write(new)


if __name__ == "__main__":
    main(sys.argv[1:])
