#!/usr/bin/env python3
"""Writes the example path files beside this script.

It knows the file format on its own and shares nothing with the kernel, so
that the kernel's reading is tried against files which it did not write.

A file is four sections, each after a count of two bytes, all big-endian:
head (kind, allowance), name, points, workings. See docs/RULES.md.
"""

from pathlib import Path
from struct import pack

HERE = Path(__file__).resolve().parent

HEIGHT, PLANAR, SAMPLE = 1, 2, 3
# How a point of each kind is packed: i is a signed axis value in four bytes,
# H a press in two.
POINT = {HEIGHT: ">i", PLANAR: ">ii", SAMPLE: ">iiH"}


def left(k, a):
    return b"L" + pack(">BH", k, a)  # the left part at a/2^k


def right(k, a):
    return b"R" + pack(">BH", k, a)  # the right part at a/2^k


RAISE, TURN = b"U", b"T"


def path(kind, name, allowance, points, workings=()):
    head = pack(">HBH", 3, kind, allowance)
    names = pack(">H", len(name)) + name
    body = pack(">H", len(points)) + b"".join(pack(POINT[kind], *p) for p in points)
    tail = pack(">H", len(workings)) + b"".join(workings)
    return head + names + body + tail


LEAST, MOST = -(2**31), 2**31 - 1  # the ends of the axis range

BOW = path(PLANAR, b"bow", 0, [(0, 0), (4, 8), (8, 0)], [left(1, 1)])

# Radius 10 mm is 2,560 units; the handles are 0.5523 of it, 1,413.888, rounded
# to whole units. Allowance 1, half a unit either way, covers that rounding.
QUARTER = [(2560, 0), (2560, 1414), (1414, 2560), (0, 2560)]

FILES = {
    "bow": BOW,
    "line": path(PLANAR, b"line", 0, [(-256, 128), (768, -384)]),
    "quarter": path(PLANAR, b"quarter circle", 1, QUARTER,
                    [left(2, 3), RAISE, right(2, 1), TURN]),
    # 65,533 + 2 is just allowed, so the second left is one too many.
    "worn": path(PLANAR, b"worn", 65533, [(0, 0), (500, 1000), (1000, 0)],
                 [left(1, 1), left(1, 1)]),
    # Degree 16 is the highest, so it cannot be raised.
    "highest": path(PLANAR, b"highest", 0,
                    [(256 * i, 100 * i * (16 - i)) for i in range(17)],
                    [TURN, RAISE]),
    # A name of two accented letters, a backslash, an escape sequence that
    # would clear a terminal, and the bytes 00, 7f and ff.
    "signed": path(PLANAR, "d\u00e9j\u00e0".encode() + b" \\ \x1b[2J\x00\x7f\xff", 7,
                   [(LEAST, MOST), (-1, -2), (MOST, LEAST), (-3, 0)],
                   [right(3, 1), left(1, 1)]),
    "heights": path(HEIGHT, b"ramp", 0, [(0,), (0,), (9,)], [RAISE]),
    "samples": path(SAMPLE, b"press", 2,
                    [(0, 0, 0), (256, 512, 2048), (512, 0, 4095)],
                    [left(1, 1), TURN]),
    # Damaged: none of these opens.
    "cut": BOW[:-1],
    "tail": BOW + b"\x00",
    "letter": BOW.replace(b"L\x01\x00\x01", b"X\x01\x00\x01"),
}

assert len(BOW) == 42

if __name__ == "__main__":
    for name, data in FILES.items():
        (HERE / f"{name}.path").write_bytes(data)
        print(f"{name}.path {len(data)}")
