#!/usr/bin/env python3
"""Writes the table of crates/polygontrials: its standard input, and what it must print.

This is an implementation of its own of the constructions on control polygons, straight from docs/RULES.md, in exact
integers. It shares nothing with the kernel, so that the kernel is tried against values that it did not compute.
"""

import random

from table import AXES, MOST, points_of, random_values, write

# textbook and extreme polygons: kind, k and a of the parameter, tolerance, axis values
CASES = [
    "height 1 1 0 0 1",
    "height 1 1 0 0 -1",
    "height 1 1 0 0 -2",
    "height 1 1 0 -2147483648 2147483647",
    "height 15 1 65535 2147483647 -2147483648",
    "height 1 1 0 0 0 0 1",
    "height 1 1 3 0 0 9",
    "height 0 0 8 -7 3 12 5",
    "height 0 1 9 -7 3 12 5",
    "height 15 32768 10 -7 3 12 5",
    "height 2 3 2 -10 -1 -5 -2",
    "height 1 1 0 0 1 0",
    "planar 1 1 1 0 0 4 8 8 0",
    "planar 2 1 8 0 0 4 8 8 0",
    "planar 2 3 500 2560 0 2560 1414 1414 2560 0 2560",
    "planar 3 5 4 0 0 10 11 20 40",
    "planar 1 1 65535 -2147483648 2147483647 2147483647 2147483647 2147483647 -2147483648 -2147483648 -2147483648",
    "planar 3 5 0 -2147483648 2147483647 2147483647 -2147483648 -2147483648 2147483647 2147483647 -2147483648 -2147483648 2147483647",
    "height 1 1 63 0 1 4 9 16 25 36 49 64 81 100 121 144 169 196 225 256",
    "planar 15 12345 65535 -2147483648 2147483647 2147483647 -2147483648 -2147483648 2147483647 2147483647 -2147483648 -2147483648 2147483647 2147483647 -2147483648 -2147483648 2147483647 2147483647 -2147483648 -2147483648 2147483647 2147483647 -2147483648 -2147483648 2147483647 2147483647 -2147483648 -2147483648 2147483647 2147483647 -2147483648 -2147483648 2147483647 2147483647 -2147483648 -2147483648 2147483647",
    "planar 4 7 12 0 -11 100 3 200 -6 300 8 400 -1 500 -10 600 4 700 -5 800 9 900 0 1000 -9 1100 5 1200 -4 1300 10 1400 1 1500 -8",
    "sample 1 1 5 0 0 0 256 -512 2048 513 7 4095",
    "sample 1 1 10 0 0 5000 10 -3 0 21 5 65535 30 0 4096",
    "sample 2 1 0 0 0 4095 5 5 4096 10 10 65535",
    "sample 3 3 20 0 0 0 10 10 4095 20 20 4095",
    # refused: too few points, a parameter off scale, both, too many points
    "height 1 1 0 5",
    "planar 1 3 0 0 0 4 8 8 0",
    "height 16 0 0 5",
    "height 0 0 0 " + " ".join(str(i) for i in range(18)),
    "height 1 1 9",
]


class Refused(Exception):
    pass


def mix(w, d, p, q):
    return tuple((2 * ((d - w) * x + w * y) + d) // (2 * d) for x, y in zip(p, q))  # // is the floor


def levels(points, k, a):
    """Level 0, 1, .. at a/2^k."""
    out = [points]
    while len(out[-1]) > 1:
        last = out[-1]
        out.append([mix(a, 2**k, p, q) for p, q in zip(last, last[1:])])
    return out


def sized(points, call):
    if not 2 <= len(points) <= 17:
        raise Refused(f"refused 3 place {len(points)}")
    return call()


def scaled(k, a, points, call):
    if k > 15 or a > 2**k:
        raise Refused("refused 1 place 0")
    return sized(points, call)


def raised(points):
    if not 2 <= len(points) <= 16:
        raise Refused(f"refused 3 place {len(points)}")
    n = len(points)
    return points[:1] + [mix(i, n, points[i], points[i - 1]) for i in range(1, n)] + points[-1:]


def flatness(points, q):
    n = len(points) - 1
    for i, p in enumerate(points):
        for a, v in enumerate(p):
            if abs(n * v - ((n - i) * points[0][a] + i * points[n][a])) > n * q:
                return f"off at point {i} axis {a}"
    return "flat"


def said(label, call):
    try:
        return " ".join([label] + [str(v) for p in call() for v in p])
    except Refused as r:
        return f"{label} {r}"


def worked(line):
    kind, *numbers = line.split()
    k, a, q, *values = map(int, numbers)
    points = points_of(kind, values)
    yield line
    yield said("level", lambda: scaled(k, a, points, lambda: levels(points, k, a)[1] + points[-1:]))
    yield said("left", lambda: scaled(k, a, points, lambda: [v[0] for v in levels(points, k, a)]))
    yield said("right", lambda: scaled(k, a, points, lambda: [v[-1] for v in reversed(levels(points, k, a))]))
    yield said("turn", lambda: sized(points, lambda: points[::-1]))
    try:
        yield sized(points, lambda: flatness(points, q))
    except Refused as r:
        yield f"flatness {r}"
    yield said("raise", lambda: raised(points))


def drawn(r):
    """A random line: small and large values, all degrees, parameters at their ends too."""
    kind = r.choice(list(AXES))
    k = r.randrange(16)
    a = r.choice([0, 2**k, r.randint(0, 2**k)])
    reach = r.choice([3, 40, 5000, MOST])
    values = random_values(r, kind, -reach - 1, reach)
    return " ".join(map(str, [kind, k, a, r.choice([0, 1, reach % 65536])] + values))


def main():
    r = random.Random(1)
    lines = CASES + [drawn(r) for _ in range(400)]
    write("polygontrials", lines, worked)


if __name__ == "__main__":
    main()
