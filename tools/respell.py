#!/usr/bin/env python3
"""Brings the repository's own definitions and lemmas to the spelling of today's Rattle: words in snake case.

usage: python3 tools/respell.py [FOLDER]

Run once, right after the kit's own port.py, at the top of the repository. It turns only names that specs/ and proofs/ define, in .antt files and in the clauses and
imports of .rt files: levelAt becomes level_at, and of a definition or a field also each-near becomes each_near. A lemma keeps the hyphens between the words of what it
says, as length-map does. Names of functions, types and files stay. OTHER has the names that would fall together with another one.
"""

import glob
import re
import sys

ROOT = sys.argv[1] if len(sys.argv) > 1 else "."
# Names that in snake case would be those of a function or of another definition beside them.
OTHER = {"leftPart": "left_part_at", "rightPart": "right_part_at", "bothParts": "both_parts_at", "degreeAfter": "next_degree"}
DEFINED = re.compile(r"\s*(?:abbrev|unfoldable)\s+(?:pub\s+)?(\S+)\s*:")
SIGNED = re.compile(r"(\s*)(?:pub\s+)?([^\s(){}:]+)\s*:\s")
BLOCK = re.compile(r"(?:pub )?(record|data) ")
GENERATED = re.compile(r"(invariant|decreases)-")
CAMEL = re.compile(r"(?<=[a-z0-9])([A-Z])")
TOKEN = re.compile(r"[A-Za-z_][A-Za-z0-9_']*(?:-[A-Za-z0-9_'*+≤<=]+)*")


def files(*patterns):
    for pattern in patterns:
        yield from sorted(glob.glob(f"{ROOT}/crates/*/{pattern}", recursive=True))


def snake(name):
    return CAMEL.sub(lambda m: "_" + m[1].lower(), name) if re.match(r"[a-z]", name) else name


def names():
    """The names to turn, with what they become."""
    turned = {}
    for path in files("specs/**/*.antt", "proofs/**/*.antt"):
        block = False
        for line in open(path, encoding="utf-8"):
            if re.match(r"\S", line):
                block = bool(BLOCK.match(line))
            defined = DEFINED.match(line)
            signed = SIGNED.match(line)
            if defined:
                name, plain = defined[1], True
            elif signed:
                name, plain = signed[2], block and bool(signed[1])
            else:
                continue
            if GENERATED.match(name):
                continue
            new = OTHER.get(name) or snake(name).replace("getD", "get_or").replace("get_d", "get_or")
            if plain and re.fullmatch(r"[a-z]+(-[a-z]+)+", name):
                new = new.replace("-", "_")
            if new != name:
                turned[name] = new
    return turned


def turn(text, turned):
    return TOKEN.sub(lambda m: turned.get(m[0], m[0]), text)


def main():
    turned = names()
    taken = set()
    for path in files("src/**/*.rt", "specs/**/*.antt", "proofs/**/*.antt"):
        taken.update(TOKEN.findall(open(path, encoding="utf-8").read()))
    for name, new in sorted(turned.items()):
        print(f"{name} -> {new}" + (" (a name that stands already)" if new in taken else ""))
    if len(set(turned.values())) < len(turned):
        print("two names fall together")
    if "--look" in sys.argv:
        return
    for path in files("src/**/*.rt", "specs/**/*.antt", "proofs/**/*.antt"):
        text = open(path, encoding="utf-8").read()
        new = turn(text, turned)
        if new != text:
            open(path, "w", encoding="utf-8").write(new)


main()
