#!/usr/bin/env python3
"""Compares the built program `pathjob` with an implementation of its own (that of `files.py`), straight from docs/RULES.md.

It feeds the program every example file, the bow cut short at every byte, inputs as long as a file may be and longer, an input
without end, and files with random damage, and compares what is printed and the exit status. Build the program first, as by
`./pathjob examples/bow.path`; this is no part of the gate.
"""

import random
import subprocess
import sys
from pathlib import Path

from files import Refused, job, opened

ROOT = Path(__file__).resolve().parent.parent
PROGRAM = ROOT / "crates" / "pathjob" / "out" / "pathjob"


def shown(name):
    return "".join("\\\\" if c == 0x5C else chr(c) if 0x20 <= c <= 0x7E else f"\\x{c:02x}" for c in name)


def expected(data):
    """What the program prints, and its status."""
    try:
        _, allowance, name, points, workings = opened("planar", data[:65536])
    except Refused as r:
        return f"refused {r.number} at {r.place}\n", 1
    points, allowance, done, refused = job(points, allowance, workings)
    lines = [f"path {shown(name)}", f"degree {len(points) - 1} allowance {allowance}"]
    lines += [f"{i} {x} {y}" for i, (x, y) in enumerate(points)]
    lines += [f"done {done} of {len(workings)}"] + ([f"refused {refused.number}"] if refused else [])
    return "\n".join(lines) + "\n", 1 if refused else 0


def compare(label, data):
    run = subprocess.run([PROGRAM], input=data, capture_output=True, timeout=20)
    got = run.stdout.decode("ascii"), run.returncode
    if got != expected(data):
        sys.exit(f"{label}: printed {got}, expected {expected(data)}")


def damaged(r, data):
    """Some bytes changed, or the file cut, or bytes added."""
    data = bytearray(data)
    for _ in range(r.randint(1, 3)):
        if data:
            data[r.randrange(len(data))] = r.choice([0, 1, 2, 3, 16, 17, 76, 82, 84, 85, 255, r.randrange(256)])
    if r.random() < 0.2:
        data = data[: r.randrange(len(data) + 1)]
    if r.random() < 0.1:
        data += bytes(r.randrange(256) for _ in range(r.randint(1, 9)))
    return bytes(data)


def main():
    files = {p.stem: p.read_bytes() for p in sorted((ROOT / "examples").glob("*.path"))}
    inputs = list(files.items())
    inputs += [(f"bow cut to {n}", files["bow"][:n]) for n in range(len(files["bow"]))]
    inputs += [(f"bow of {n} bytes", files["bow"].ljust(n, b"\0")) for n in (65535, 65536, 1000000)]
    r = random.Random(3)
    inputs += [(f"damaged {i}", damaged(r, r.choice(list(files.values())))) for i in range(3000)]
    for label, data in inputs:
        compare(label, data)
    endless = subprocess.run("yes | timeout 20 " + str(PROGRAM), shell=True, capture_output=True)
    if (endless.stdout, endless.returncode) != (b"refused 12 at 0\n", 1):
        sys.exit(f"an input without end: {endless}")
    print(f"{len(inputs) + 1} inputs agree")


if __name__ == "__main__":
    main()
