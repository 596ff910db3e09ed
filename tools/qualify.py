#!/usr/bin/env python3
"""Names the bound that a trait's ghost member comes from, where a clause wrote the member alone, as today's Rattle wants it: coord becomes K.coord under K: Kind.

usage: python3 tools/qualify.py [FOLDER]

Run once, after port.py and respell.py. Clauses within a trait keep the plain names, since there the members are its own.
"""

import glob
import re
import sys

ROOT = sys.argv[1] if len(sys.argv) > 1 else "."
MEMBERS = {"Kind": ("coord", "width"), "Filed": ("coord", "width", "kind"), "Source": ("means",), "Item": ("reads", "value"), "Encode": ("bytes", "sound"), "Described": ("coord", "width", "kind")}
BOUND = re.compile(r"\b([A-Z])\s*:\s*([A-Z]\w*)")


def qualified(line, bounds):
    label, brace, line = line.partition("{")
    for param, trait in bounds:
        for member in MEMBERS.get(trait, ()):
            line = re.sub(rf"(?<![\w.'-]){member}(?![\w.'-])", f"{param}.{member}", line)
    return label + brace + line


def main():
    for path in sorted(glob.glob(f"{ROOT}/crates/*/src/*.rt")):
        lines = open(path, encoding="utf-8").read().split("\n")
        out, block, own, trait = [], [], [], False
        for line in lines:
            head = re.match(r"(pub )?(trait|impl)\b", line)
            if head:
                trait = head[2] == "trait"
                block = BOUND.findall(line.split(" for ")[0]) if head[2] == "impl" else []
            if line == "}":
                block, trait = [], False
            if re.match(r"\s*(pub(\(crate\))? )?(const )?fn ", line):
                own = BOUND.findall(line.split(" fn ")[-1].split("(")[0])
            if re.match(r"\s*(requires|ensures)", line) and not trait:
                line = qualified(line, [b for b in block + own])
            out.append(line)
        text = "\n".join(out)
        if text != "\n".join(lines):
            open(path, "w", encoding="utf-8").write(text)


main()
