#!/usr/bin/env python3
"""Writes the table of crates/patchtrials: its standard input, and what it must print.

An implementation of its own of cuts of patches, straight from docs/RULES.md, in exact integers; it shares nothing with
the kernel. The first cases were worked by hand, and this program must agree with them.
"""

import random

from flattening import Bent, pieces
from polygons import levels, mix
from table import AXES, LEAST, MOST, points_of, write

# kind, m, n, allowance, s (a and k), t (a and k), tolerance, places, axis values
BY_HAND = {
    # two rows of three heights
    "height 1 2 0 1 1 0 0 1 6 0 1 2 10 11 12": """
        degree 2 allowance 1 reach 4
         5
         6
         7
        kept 2
        degree 3 allowance 4 reach 4
         5
         6
         6
         7
        kept 2
        point allowance 3: 5
        2 vertices
        0: 5
        4096: 7""",
    # a bilinear patch: column 0 is (0,0), (4,8), column 1 is (10,1), (15,9); halves are rounded up
    "planar 1 1 3 1 1 1 1 0 3 0 0 10 1 4 8 15 9": """
        degree 1 allowance 4 reach 3
         2 4
         13 5
        kept 0
        degree 2 allowance 6 reach 3
         2 4
         5 5
         8 5
        kept 0
        point allowance 5: 8 5
        2 vertices
        0: 2 4
        4096: 13 5""",
    # a biquadratic hill, 8 high in the middle: column 1 is 0, 8, 0, so 4, 4, so 4
    "height 2 2 0 1 1 1 1 1 7 0 0 0 0 8 0 0 0 0": """
        degree 2 allowance 2 reach 5
         0
         4
         0
        kept 2
        degree 3 allowance 5 reach 5
         0
         1
         2
         2
        kept 2
        point allowance 4: 2
        3 vertices
        0: 0
        2048: 2
        4096: 0""",
    # a low one: its cut 0, 1, 0 is bent to tolerance 0
    "height 2 2 0 1 1 1 1 0 5 0 0 0 0 2 0 0 0 0": """
        degree 2 allowance 2 reach 5
         0
         1
         0
        kept 0
        degree 3 allowance 5 reach 5
         0
         1
         1
         1
        kept 0
        point allowance 4: 1
        refused 9 storey 0 place 0""",
    # a biquadratic patch of powers of 2: column 0 is 1, 8, 64, so 5, 36, so 21; exactly 20 1/4
    "height 2 2 5 1 1 0 0 40 5 1 2 4 8 16 32 64 128 256": """
        degree 2 allowance 7 reach 5
         21
         41
         81
        kept 0
        degree 3 allowance 10 reach 5
         21
         28
         36
         46
        kept 0
        point allowance 9: 21
        2 vertices
        0: 21
        4096: 81""",
    # refused: s, then m, then n, then the grid, then the allowance, then t, then the buffer
    "height 0 17 65535 3 1 3 1 0 0": """
        refused 1 storey 0 place 0
        refused 1 storey 0 place 0
        kept 0
        refused 1 storey 2 place 0
        refused 1 storey 2 place 0
        kept 0
        refused 1 storey 0 place 0
        refused 1 storey 0 place 0""",
    "height 0 17 65535 1 1 3 1 0 3 1 2": """
        refused 3 storey 0 place 0
        refused 3 storey 0 place 0
        kept 3
        refused 3 storey 2 place 0
        refused 3 storey 2 place 0
        kept 3
        refused 3 storey 0 place 0
        refused 3 storey 0 place 0""",
    "height 16 17 65535 1 1 3 1 0 3 1 2": """
        refused 3 storey 0 place 17
        refused 3 storey 0 place 17
        kept 3
        refused 3 storey 2 place 17
        refused 3 storey 2 place 17
        kept 3
        refused 3 storey 0 place 17
        refused 3 storey 0 place 17""",
    "height 1 2 65535 1 1 3 1 0 3 1 2 3 4 5": """
        refused 10 storey 0 place 6
        refused 10 storey 0 place 6
        kept 3
        refused 10 storey 2 place 6
        refused 10 storey 2 place 6
        kept 3
        refused 10 storey 0 place 6
        refused 10 storey 0 place 6""",
    "height 1 2 65535 1 1 3 1 0 3 1 2 3 4 5 6": """
        refused 4 storey 0 place 1
        refused 4 storey 0 place 1
        kept 3
        refused 4 storey 2 place 1
        refused 4 storey 2 place 1
        kept 3
        refused 4 storey 0 place 1
        refused 4 storey 0 place 1""",
    "height 1 2 65533 1 1 3 1 0 3 1 2 3 4 5 6": """
        degree 2 allowance 65534 reach 4
        refused 2 storey 0 place 4
        kept 3
        refused 4 storey 1 place 2
        refused 4 storey 1 place 2
        kept 3
        refused 1 storey 0 place 0
        2 vertices
        0: 3
        4096: 5""",
    "height 1 2 65534 1 0 1 0 0 3 1 2 3 4 5 6": """
        degree 2 allowance 65535 reach 4
        refused 2 storey 0 place 4
        kept 3
        refused 4 storey 1 place 2
        refused 4 storey 1 place 2
        kept 3
        refused 2 storey 0 place 4
        2 vertices
        0: 4
        4096: 6""",
}


class Refused(Exception):
    """Number, storey, place."""


def off_scale(a, k):
    return k > 15 or a > 2**k


def cut(points, m, n, e, s):
    """The points of the cut, its allowance and its reach."""
    if off_scale(*s):
        raise Refused(1, 0, 0)
    for degree in (m, n):
        if not 1 <= degree <= 16:
            raise Refused(3, 0, degree)
    if len(points) != (m + 1) * (n + 1):
        raise Refused(10, 0, (m + 1) * (n + 1))
    if e + m > 65535:
        raise Refused(4, 0, m)
    a, k = s
    rows = [points[i * (n + 1) : (i + 1) * (n + 1)] for i in range(m + 1)]
    return [levels(list(column), k, a)[-1][0] for column in zip(*rows)], e + m, n + 1 + m


def piled(points, m, n, e, s):
    """The left part at 1/2 of the cut, raised."""
    try:
        points, e, reach = cut(points, m, n, e, s)
    except Refused as f:
        number, storey, place = f.args
        raise Refused(number, storey + 2, place)
    if e + n > 65535:
        raise Refused(4, 1, n)
    left = [level[0] for level in levels(points, 1, 1)]
    if n == 16:
        raise Refused(3, 0, 17)
    if e + n + 1 > 65535:
        raise Refused(4, 0, 1)
    inner = [mix(i, n + 1, left[i], left[i - 1]) for i in range(1, n + 1)]
    return left[:1] + inner + left[-1:], e + n + 1, max(reach, n + 2)


def roomy(reach, places):
    if places < reach:
        raise Refused(2, 0, reach)


def told(make, places):
    """What survey tells, and what draw does on so many places."""
    try:
        points, e, reach = make()
        yield f"degree {len(points) - 1} allowance {e} reach {reach}"
        roomy(reach, places)
        yield from (" " + " ".join(map(str, p)) for p in points)
        yield f"kept {places - reach}"
    except Refused as f:
        line = "refused {} storey {} place {}".format(*f.args)
        yield from [line] if f.args[0] == 2 else [line, line]
        yield f"kept {places}"


def point(make, t, places):
    points, e, reach = make()
    if off_scale(*t):
        raise Refused(1, 0, 0)
    roomy(reach, places)
    at = levels(points, t[1], t[0])[-1][0]
    yield f"point allowance {e + len(points) - 1}: " + " ".join(map(str, at))


def chords(make, q):
    points, _, _ = make()
    try:
        vertices = [(0, points[0])] + list(pieces(points, q, 0, 0))
    except Bent as b:
        raise Refused(9, 0, b.args[0])
    yield f"{len(vertices)} vertices"
    yield from (f"{t}: " + " ".join(map(str, p)) for t, p in vertices)


def asked(call):
    try:
        yield from list(call)
    except Refused as f:
        yield "refused {} storey {} place {}".format(*f.args)


def worked(line):
    kind, *numbers = line.split()
    m, n, e, sa, sk, ta, tk, q, places, *values = map(int, numbers)
    patch = (points_of(kind, values), m, n, e, (sa, sk))
    yield line
    yield from told(lambda: cut(*patch), places)
    yield from told(lambda: piled(*patch), places)
    yield from asked(point(lambda: cut(*patch), (ta, tk), places))
    yield from asked(chords(lambda: cut(*patch), q))


def axis_values(r, kind, count, reach):
    for _ in range(count):
        yield from (max(LEAST, min(MOST, r.randint(-reach, reach))) for _ in range(min(AXES[kind], 2)))
        yield from [r.choice([0, 4095, r.randint(0, 65535)])] if kind == "sample" else []


def patch_line(r, kind, m, n, reach, q):
    numbers = [m, n, r.choice([0, 3, 65000])]
    for k in (r.randint(0, 15), r.randint(0, 15)):
        numbers += [r.randint(0, 2**k), k]
    numbers += [q, r.choice([n + 1 + m, 40])]
    return " ".join(map(str, [kind] + numbers + list(axis_values(r, kind, (m + 1) * (n + 1), reach))))


def main():
    for line, by_hand in BY_HAND.items():
        lines = [text.removeprefix("        ") for text in by_hand.split("\n")[1:]]
        assert list(worked(line)) == [line] + lines, line
    r = random.Random(3)
    lines = list(BY_HAND)
    lines += [patch_line(r, kind, 16, 16, reach, q) for kind, reach, q in [("height", 9000, 400), ("planar", 2**31, 65535), ("sample", 3000, 500)]]
    for _ in range(60):
        reach = r.choice([3, 40, 5000, 2**31])
        lines.append(patch_line(r, r.choice(list(AXES)), r.randint(1, 7), r.randint(1, 7), reach, min(reach // 3 + 1, 65535)))
    lines.append(patch_line(r, "height", 1, 16, 40, 5))
    lines.append(patch_line(r, "planar", 16, 1, 40, 5))
    # any numbers may be given: degrees and a parameter far off, a point too many, none at all
    lines += ["height 2147483647 2147483647 0 1 1 1 1 0 5 1 2 3", "planar 1 2147483647 0 1 1 1 1 0 5 1 2", "sample 1 1 0 65535 255 1 1 0 5"]
    lines += ["height 1 1 0 0 0 0 0 0 5 1 2 3 4 5", "height 1 1 0 0 0 0 0 0 0 1 2 3 4"]
    write("patchtrials", lines, worked)


if __name__ == "__main__":
    main()
