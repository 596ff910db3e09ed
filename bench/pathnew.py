#!/usr/bin/env python3
"""Compares the built program `pathnew` with an implementation of its own, straight from docs/RULES.md.

It feeds the program the examples and descriptions made at random, sound and damaged, and compares the bytes that it writes, what it
tells on standard error and the exit status. What is sound goes on into `pathjob`, so that the whole chain is tried, from text to
points. Build both programs first, as by `./pathnew examples/bow.txt` and `./pathjob examples/bow.path`; this is no part of the gate.
"""

import random
import re
import subprocess
import sys
from pathlib import Path

from files import CODES, FIELDS, Refused, encoded, on_scale, random_file
from pathjob import expected as job_output

ROOT = Path(__file__).resolve().parent.parent
CRATES = ROOT / "crates"


class Mistake(Exception):
    pass


def whole(word, low, high, what):
    if not re.fullmatch(r"[+-]?[0-9]+", word) or not low <= int(word) <= high or (low == 0 and word[0] == "-"):
        raise Mistake(what)
    return int(word)


def parameter(word):
    if "/" not in word:
        raise Mistake("not a fraction, as 3/8")
    above, below = word.split("/", 1)
    a = whole(above, 0, 65535, "not a whole number from 0 to 65535")
    d = whole(below, 0, 2**32 - 1, "not a power of two below the line")
    if d == 0 or d & (d - 1):
        raise Mistake("not a power of two below the line")
    return d.bit_length() - 1, a


def name_bytes(text):
    out, data = b"", text.encode()
    while data:
        if data[:1] != b"\\":
            out, data = out + data[:1], data[1:]
        elif data[:2] == b"\\\\":
            out, data = out + b"\\", data[2:]
        elif re.match(rb"\\x[0-9a-fA-F]{2}", data):
            out, data = out + bytes([int(data[2:4], 16)]), data[4:]
        else:
            raise Mistake("not \\\\ or \\xHH")
    return out


def take(kind, state, word, rest):
    if word in ("name", "allowance"):
        if state[word] is not None:
            raise Mistake(f"a second {word}")
        state[word] = name_bytes(rest) if word == "name" else whole(rest, 0, 65535, "not a whole number from 0 to 65535")
    elif word == "point":
        if state["workings"]:
            raise Mistake("a point after a working")
        values = [whole(w, -(2**31), 2**31 - 1, "not a whole number of 32 bits") for w in rest.split()]
        if len(values) != len(FIELDS[kind]):
            raise Mistake({"height": "a height has one number", "planar": "a planar point has two numbers, x and y", "sample": "a sample has three numbers, x, y and press"}[kind])
        if kind == "sample":
            if not 0 <= values[2] <= 65535:
                raise Mistake("a press is not negative, and at most 4095")
            if values[2] > 4095:
                raise Refused(8, values[2])
        state["points"].append(tuple(values))
    elif word in ("left", "right"):
        state["workings"].append((word[0].upper(), *parameter(rest)))
    elif word in ("raise", "turn"):
        state["workings"].append(("U" if word == "raise" else "T", 0, 0))
    else:
        raise Mistake("no such word")


def written(kind, state):
    for part in ("name", "allowance"):
        if state[part] is None:
            raise Mistake(f"no {part}")
    workings, points, name = state["workings"], state["points"], state["name"]
    if any(l in "LR" and not on_scale(k, a) for l, k, a in workings):
        raise Refused(1, 0)
    if len(name) > 64:
        raise Refused(12, len(name))
    if len(workings) > 256:
        raise Refused(12, len(workings))
    if not 2 <= len(points) <= 17:
        raise Refused(3, len(points))
    return encoded((kind, state["allowance"], name, points, workings))


def expected(data):
    """The bytes written, what is told, the status."""
    number, kind, state = 0, None, {"name": None, "allowance": None, "points": [], "workings": []}
    try:
        if len(data) > 65535:
            number = 1
            raise Mistake("a description over 65535 bytes")
        try:
            text = data.decode()
        except UnicodeDecodeError:
            number = 1
            raise Mistake("not text in UTF-8")
        lines = text.split("\n")
        for line in lines[:-1] if lines[-1] == "" else lines:
            number += 1
            line = line.strip()
            if not line or line.startswith("#"):
                continue
            word, _, rest = line.partition(" ")
            rest = rest.strip()
            if kind is None:
                if word != "kind" or rest not in CODES:
                    raise Mistake("not 'kind' with height, planar or sample")
                kind = rest
            else:
                take(kind, state, word, rest)
        if kind is None:
            raise Mistake("no kind")
        return written(kind, state), b"", 0
    except Mistake as m:
        return b"", f"line {number}: {m}\n".encode(), 1
    except Refused as r:
        return b"", f"refused {r.number} at {r.place}\n".encode(), 1


def shown(name):
    return "".join(chr(b) if 32 < b < 127 and b != 92 else "\\\\" if b == 92 else f"\\x{b:02x}" for b in name)


def described(file):
    kind, allowance, name, points, workings = file
    lines = [f"kind {kind}", f"name {shown(name)}", f"allowance {allowance}"]
    lines += ["point " + " ".join(str(v) for v in p) for p in points]
    words = {"L": "left", "R": "right", "U": "raise", "T": "turn"}
    return lines + [words[l] + (f" {a}/{2**k}" if l in "LR" else "") for l, k, a in workings]


def damaged(r, lines):
    lines = list(lines)
    at = r.randrange(len(lines))
    what = r.randrange(6)
    if what == 0:
        del lines[at]
    elif what == 1:
        lines.insert(at, lines[r.randrange(len(lines))])
    elif what == 2:
        lines[at] = lines[at].replace(" ", "  ", 1) + r.choice(["", " 7", "x", "/3", "\\", "-"])
    elif what == 3:
        lines.insert(at, r.choice(["", "# note", "left 3/10", "right 1/65536", "left 5/4", "raise", "point", "allowance 65536", "bend 1"]))
    elif what == 4:
        lines += ["turn"] * r.choice([1, 250, 257])
    else:
        lines[at] = lines[at].upper() if r.random() < 0.5 else lines[at][: r.randrange(len(lines[at]) + 1)]
    return lines


def inputs():
    r = random.Random(7)
    for path in sorted((ROOT / "examples").glob("*.txt")):
        yield path.read_bytes()
    yield from (b"", b"\n\n", b"kind planar", b"\xff\n", b"# " + b"x" * 65533, b"# " + b"x" * 65534)
    for i in range(1500):
        lines = described(random_file(r, r.choice(list(CODES))))
        if i % 3:
            lines = damaged(r, lines)
        yield ("\n".join(lines) + r.choice(["", "\n"])).encode()


def main():
    tried = sound = wrong = 0
    for data in inputs():
        run = subprocess.run([CRATES / "pathnew" / "out" / "pathnew"], input=data, capture_output=True)
        got, want = (run.stdout, run.stderr, run.returncode), expected(data)
        tried += 1
        if got != want:
            wrong += 1
            print(f"for {data[:300]!r}\n  got  {got}\n  want {want}")
        elif run.returncode == 0:
            sound += 1
            job = subprocess.run([CRATES / "pathjob" / "out" / "pathjob"], input=run.stdout, capture_output=True)
            if (job.stdout.decode(), job.returncode) != job_output(run.stdout):
                wrong += 1
                print(f"the job differs for {data[:300]!r}")
    print(f"{tried} descriptions, {sound} of them sound and worked, {wrong} differ")
    return 1 if wrong else 0


if __name__ == "__main__":
    sys.exit(main())
