#!/usr/bin/env python3
"""Compares the built program `pathflat` with an implementation of its own (that of `flattening.py` and `files.py`), straight from docs/RULES.md.

It feeds the program every example file, and files with random damage, to several tolerances, and compares what is printed and the
exit status. Build the program first, as by `./pathflat 1 examples/bow.path`; this is no part of the gate.
"""

import random
import subprocess
import sys

from files import Refused, encoded, opened, random_file
from flattening import Bent, pieces
from pathjob import ROOT, damaged

PROGRAM = ROOT / "crates" / "pathflat" / "out" / "pathflat"


def millimetres(value):
    """The shortest decimal of value / 256, which is exact."""
    text = repr(value / 256)
    return text[:-2] if text.endswith(".0") else text


def expected(tolerance, data):
    """What the program prints, and its status."""
    try:
        _, _, _, points, _ = opened("planar", data[:65536])
        vertices = [(0, points[0])] + list(pieces(points, tolerance, 0, 0))
    except Refused as r:
        return f"refused {r.number} at {r.place}\n", 1
    except Bent as b:
        return f"refused 9 at {b.args[0]}\n", 1
    words = ["start"] + ["line"] * (len(vertices) - 1)
    return "".join(f"{t} {w} {millimetres(x)} {millimetres(y)}\n" for w, (t, (x, y)) in zip(words, vertices)), 0


def run(arguments, data):
    done = subprocess.run([PROGRAM, *arguments], input=data, capture_output=True, timeout=20)
    return done.stdout.decode("ascii"), done.returncode


def main():
    r = random.Random(5)
    files = [p.read_bytes() for p in sorted((ROOT / "examples").glob("*.path"))]
    files += [encoded(random_file(r, "planar")) for _ in range(40)]
    inputs = [(t, f) for f in files for t in (0, 1, 40, 3000, 65535)]
    inputs += [(r.choice([1, 40, 65535]), damaged(r, r.choice(files))) for _ in range(600)]
    for tolerance, data in inputs:
        got, want = run([str(tolerance)], data), expected(tolerance, data)
        if got != want:
            sys.exit(f"to {tolerance}, {data.hex()}: printed {got}, expected {want}")
    for arguments in ([], ["-1"], ["65536"], ["x"]):
        if run(arguments, files[0]) != ("", 1):
            sys.exit(f"arguments {arguments}: {run(arguments, files[0])}")
    print(f"{len(inputs) + 4} runs agree")


if __name__ == "__main__":
    main()
