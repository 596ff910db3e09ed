#!/usr/bin/env python3
"""Writes the table of crates/flattrials: its standard input, and what it must print.

An implementation of its own of flattening, straight from docs/RULES.md, in exact integers; it shares nothing with the kernel.
"""

import random

from table import AXES, LEAST, MOST, points_of, random_values, write
DEPTHS = 12

# kind, tolerance, axis values
CASES = [
    # worked values: a hat to tolerance 1 and 0, the bow
    "height 1 0 1 0",
    "height 0 0 1 0",
    "planar 1 0 0 4 8 8 0",
    # a quarter circle of radius 10 mm to several tolerances
    "planar 256 2560 0 2560 1414 1414 2560 0 2560",
    "planar 16 2560 0 2560 1414 1414 2560 0 2560",
    "planar 1 2560 0 2560 1414 1414 2560 0 2560",
    # an S-curve, a cusp, a loop
    "planar 8 0 0 1024 2048 -1024 -2048 0 4096",
    "planar 2 0 0 512 512 0 512 512 0",
    "planar 4 0 0 3000 1000 -2000 1000 1000 0",
    # a straight line, evenly and unevenly divided; degree 1
    "planar 0 0 0 100 200 200 400 300 600",
    "planar 5 0 0 0 0 0 0 3000 6000",
    "planar 0 -7 9 4000 -4001",
    # degree 16: a hill, and a zigzag that is bent to a small tolerance
    "height 3 0 300 900 1500 2000 2400 2700 2900 3000 2900 2700 2400 2000 1500 900 300 0",
    "planar 40 0 0 256 1500 512 2800 768 3900 1024 4800 1280 5500 1536 6000 1792 6300 2048 6400 2304 6300 2560 6000 2816 5500 3072 4800 3328 3900 3584 2800 3840 1500 4096 0",
    # points at the ends of the axis range, to the largest tolerance and to a small one
    f"planar 65535 {LEAST} {LEAST} {MOST} {LEAST} {MOST} {MOST}",
    f"planar 1 {LEAST} {LEAST} {MOST} {LEAST} {MOST} {MOST}",
    f"height 65535 {LEAST} {MOST} {LEAST} {MOST}",
    # samples: the press alone is off; a stored press over 4,095 counts as 4,095
    "sample 100 0 0 0 10 10 4095 20 20 0",
    "sample 10 0 0 9000 10 10 4095 20 20 60000",
    # refused: one point, none, too many
    "height 5 7",
    "height 5",
    "height 5 " + " ".join(str(i * i) for i in range(18)),
]


def mix(p, q):
    return tuple((2 * (x + y) + 2) // 4 for x, y in zip(p, q))  # by 1/2; // is the floor


def halves(points):
    levels = [points]
    while len(levels[-1]) > 1:
        levels.append([mix(p, q) for p, q in zip(levels[-1], levels[-1][1:])])
    return [level[0] for level in levels], [level[-1] for level in reversed(levels)]


def flat(points, q):
    n = len(points) - 1
    return all(
        abs(n * v - ((n - i) * points[0][a] + i * points[n][a])) <= n * q
        for i, p in enumerate(points)
        for a, v in enumerate(p)
    )


class Bent(Exception):
    pass


def pieces(points, q, depth, start):
    """The ends of the pieces, left first, each with its parameter times 4,096."""
    span = 2 ** (DEPTHS - depth)
    if flat(points, q):
        yield start + span, points[-1]
    elif depth == DEPTHS:
        raise Bent(start)
    else:
        left, right = halves(points)
        yield from pieces(left, q, depth + 1, start)
        yield from pieces(right, q, depth + 1, start + span // 2)


def worked(line):
    kind, *numbers = line.split()
    q, *values = map(int, numbers)
    points = points_of(kind, values)
    yield line
    if not 2 <= len(points) <= 17:
        yield f"refused 3 place {len(points)}"
        return
    try:
        vertices = [(0, points[0])] + list(pieces(points, q, 0, 0))
    except Bent as b:
        yield f"refused 9 place {b.args[0]}"
        return
    yield f"{len(vertices)} vertices"
    for t, p in vertices:
        yield " ".join(map(str, (t,) + p))


def drawn(r):
    kind = r.choice(list(AXES))
    reach = r.choice([3, 40, 5000, 300000])
    values = random_values(r, kind, -reach, reach)
    return " ".join(map(str, [kind, r.choice([1, reach // 20 + 1, min(reach // 3, 65535)])] + values))


def main():
    r = random.Random(2)
    lines = CASES + [drawn(r) for _ in range(120)]
    write("flattrials", lines, worked)


if __name__ == "__main__":
    main()
