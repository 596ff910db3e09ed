#!/usr/bin/env python3
"""Writes the table of crates/filetrials: its standard input, and what it must print.

This is an implementation of its own of path files, straight from docs/RULES.md: which bytes a file has, how it is opened,
written step by step, worked and compared. It shares nothing with the kernel.
"""

import random

from polygons import levels, raised
from table import LEAST, MOST, write

CODES = {"height": 1, "planar": 2, "sample": 3}
FIELDS = {"height": [4], "planar": [4, 4], "sample": [4, 4, 2]}
SMALLEST_NAMES = [b"", b"bow", bytes(range(64)), bytes(range(192, 256)), b"\\x\n\0"]


class Refused(Exception):
    def __init__(self, number, place):
        self.number, self.place = number, place

    def told(self, call):
        return f"{call} refused {self.number} storey 0 place {self.place}"


def on_scale(k, a):
    return k <= 15 and a <= 2**k


# a file is (kind, allowance, name, points, workings); a working is (letter, k, a)
def head_bytes(kind, allowance, name):
    return b"\0\3" + bytes([CODES[kind]]) + allowance.to_bytes(2, "big") + len(name).to_bytes(2, "big") + name


def point_bytes(kind, points):
    out = len(points).to_bytes(2, "big")
    for p in points:
        for size, v in zip(FIELDS[kind], p):
            out += v.to_bytes(size, "big", signed=size == 4)
    return out


def working_bytes(workings):
    out = len(workings).to_bytes(2, "big")
    for letter, k, a in workings:
        out += letter.encode() + (bytes([k]) + a.to_bytes(2, "big") if letter in "LR" else b"")
    return out


def encoded(file):
    kind, allowance, name, points, workings = file
    return head_bytes(kind, allowance, name) + point_bytes(kind, points) + working_bytes(workings)


class Reader:
    def __init__(self, data):
        self.data, self.at = data, 0

    def field(self, size):
        if self.at + size > len(self.data):
            raise Refused(6, self.at)
        self.at += size
        return self.data[self.at - size : self.at]

    def number(self, size, ok=lambda v: True, refusal=0, signed=False):
        at = self.at
        v = int.from_bytes(self.field(size), "big", signed=signed)
        if not ok(v):
            raise Refused(refusal, at)
        return v


def opened(kind, data):
    if len(data) > 65535:
        raise Refused(12, 0)
    r = Reader(data)
    r.number(2, lambda v: v == 3, 5)
    r.number(1, lambda v: v == CODES[kind], 5)
    allowance = r.number(2)
    name = r.field(r.number(2, lambda v: v <= 64, 12))
    points = []
    for _ in range(r.number(2, lambda v: 2 <= v <= 17, 3)):
        points.append(
            tuple(r.number(4, signed=True) if size == 4 else r.number(2, lambda v: v <= 4095, 8) for size in FIELDS[kind])
        )
    workings = []
    for _ in range(r.number(2, lambda v: v <= 256, 12)):
        letter = chr(r.number(1, lambda v: v in b"LRUT", 11))
        k = a = 0
        if letter in "LR":
            at = r.at
            k, a = r.number(1), r.number(2)
            if not on_scale(k, a):
                raise Refused(1, at)
        workings.append((letter, k, a))
    if r.at < len(data):
        raise Refused(7, r.at)
    return kind, allowance, name, points, workings


def worked(points, allowance, working):
    letter, k, a = working
    n = len(points) - 1
    if letter == "U" and n == 16:
        raise Refused(3, 17)
    charge = {"L": n, "R": n, "U": 1, "T": 0}[letter]
    if allowance + charge > 65535:
        raise Refused(4, charge)
    if letter == "L":
        points = [level[0] for level in levels(points, k, a)]
    elif letter == "R":
        points = [level[-1] for level in reversed(levels(points, k, a))]
    elif letter == "U":
        points = raised(points)
    else:
        points = points[::-1]
    return points, allowance + charge


def job(points, allowance, workings):
    """Points and allowance after the workings that are done, how many they are, and the refusal of the next one, if any."""
    for done, working in enumerate(workings):
        try:
            points, allowance = worked(points, allowance, working)
        except Refused as r:
            return points, allowance, done, r
    return points, allowance, len(workings), None


def listed(label, points):
    return " ".join([label] + [str(v) for p in points for v in p])


def open_lines(kind, length, data):
    data = data + bytes(max(0, length - len(data)))
    try:
        _, allowance, name, points, workings = opened(kind, data)
    except Refused as r:
        return [r.told("open")]
    n = len(points)
    out = [f"opened name {len(name)} workings {len(workings)} degree {n - 1} allowance {allowance} reach {n}"]
    out.append(listed("points", points))
    out.append(f"written {len(data)} same true kept true")
    points, allowance, done, stop = job(points, allowance, workings)
    out.append(f"job degree {len(points) - 1} allowance {allowance} done {done}")
    out.append(listed("points", points))
    return out + ([stop.told("job")] if stop else [])


def same_lines(kind, first, second):
    a, b = opened(kind, first), opened(kind, second)
    same = a[3] == b[3] and [(l, x / 2**k) for l, k, x in a[4]] == [(l, x / 2**k) for l, k, x in b[4]]
    word = "true" if same else "false"
    return [f"same {word} {word}"]


def put(buffer, at, data):
    return buffer[:at] + data + buffer[at + len(data) :]


def step_lines(kind, places, allowance, name, points, workings):
    buffer = b"\xee" * places
    out, end = [], 0
    steps = [("begin", "begun"), ("points", "pointed"), ("close", "buffer")]
    for call, label in steps:
        try:
            if call == "begin":
                if len(name) > 64:
                    raise Refused(12, len(name))
                data = head_bytes(kind, allowance, name)
            elif call == "points":
                if not 2 <= len(points) <= 17:
                    raise Refused(3, len(points))
                data = point_bytes(kind, points)
            else:
                if len(workings) > 256:
                    raise Refused(12, len(workings))
                if any(l in "LR" and not on_scale(k, a) for l, k, a in workings):
                    raise Refused(1, 0)
                data = working_bytes(workings)
            if end + len(data) > places:
                raise Refused(2, end + len(data))
        except Refused as r:
            return out + [r.told(call), f"buffer {buffer.hex()}"]
        buffer = put(buffer, end, data)
        end += len(data)
        if call == "close":
            out.append(f"closed {end}")
        out.append(f"{label} {buffer.hex()}")
    return out


def word(w):
    letter, k, a = w
    return f"{letter}:{k}:{a}" if letter in "LR" else letter


def stored(kind, points):
    """A press above 4,095 counts as 4,095."""
    return [tuple(min(v, 4095) if size == 2 else v for size, v in zip(FIELDS[kind], p)) for p in points]


def steps_line(kind, places, allowance, name, points, workings):
    values = " ".join(str(v) for p in points for v in p)
    line = f"steps {kind} {places} {allowance} {name.hex() or '-'} {values} | " + " ".join(word(w) for w in workings)
    return line, step_lines(kind, places, allowance, name, stored(kind, points), workings)


def open_line(kind, data, length=0):
    return f"open {kind} {length} {data.hex() or '-'}", open_lines(kind, length, data)


def same_line(kind, first, second):
    return f"same {kind} {first.hex()} {second.hex()}", same_lines(kind, first, second)


def random_points(r, kind, count, stored_press=False):
    top = 65535 if stored_press else 4095
    return [tuple(r.choice([0, top, r.randint(0, top)]) if size == 2 else r.choice([LEAST, MOST, r.randint(-3000, 3000)]) for size in FIELDS[kind]) for _ in range(count)]


def random_working(r):
    letter = r.choice("LRUT")
    k = r.randint(0, 15)
    return (letter, k, r.randint(0, 2**k)) if letter in "LR" else (letter, 0, 0)


def random_file(r, kind):
    name = r.choice(SMALLEST_NAMES + [bytes(r.randrange(256) for _ in range(r.randint(1, 64)))])
    count, workings = r.randint(2, 17), [random_working(r) for _ in range(r.choice([0, 1, 2, 5, 30]))]
    return kind, r.choice([0, 1, 65535, r.randint(0, 65535)]), name, random_points(r, kind, count), workings


BOW = ("planar", 0, b"bow", [(0, 0), (4, 8), (8, 0)], [("L", 1, 1)])


# Worked by hand: where a bow that is cut to so many bytes is refused, at the field that is not whole.
CUT_AT = [0, 0, 2, 3, 3, 5, 5, 7, 7, 7, 10, 10] + [12] * 4 + [16] * 4 + [20] * 4 + [24] * 4 + [28] * 4 + [32] * 4 + [36, 36, 38, 39, 40, 40]

# Worked by hand: the bytes that are changed in the bow and where, and the refusal with its place, if any.
CHANGES = [
    (0, [0, 2], (5, 0)), (0, [0, 4], (5, 0)), (0, [1, 3], (5, 0)), (2, [0], (5, 2)), (2, [4], (5, 2)), (3, [255, 255], None),
    (5, [0, 64], (6, 7)), (5, [0, 65], (12, 5)), (5, [0, 35], (6, 42)), (5, [0, 0], (3, 7)), (10, [0, 0], (3, 10)),
    (10, [0, 1], (3, 10)), (10, [0, 2], (7, 30)), (10, [0, 17], (6, 40)), (10, [0, 18], (3, 10)), (36, [0, 0], (7, 38)),
    (36, [0, 2], (6, 42)), (36, [1, 0], (6, 42)), (36, [1, 1], (12, 36)), (38, [108], (11, 38)), (38, [85], (7, 39)),
    (38, [84], (7, 39)), (38, [82], None), (38, [255], (11, 38)), (39, [0], None), (39, [15], None), (39, [16], (1, 39)),
    (39, [255], (1, 39)), (40, [0, 2], None), (40, [0, 3], (1, 39)),
]


def hand_cases(bow):
    for n, place in enumerate(CUT_AT):
        line, out = open_line("planar", bow[:n])
        assert out == [Refused(6, place).told("open")], (n, out)
        yield line, out
    for at, new, refusal in CHANGES:
        line, out = open_line("planar", put(bow, at, bytes(new)))
        assert out[0].startswith("opened") if refusal is None else out == [Refused(*refusal).told("open")], (at, out)
        yield line, out
    pressed = encoded(("sample", 0, b"", [(1, 2, 4095), (-1, -2, 0)], []))
    yield open_line("sample", pressed)
    line, out = open_line("sample", put(pressed, 17, b"\x10"))
    assert out == [Refused(8, 17).told("open")]
    yield line, out


def cases():
    r = random.Random(41)
    bow = encoded(BOW)
    assert len(bow) == 42
    yield open_line("planar", bow)
    yield from hand_cases(bow)
    yield open_line("planar", bow, 65535)
    yield open_line("planar", bow, 65536)
    for kind in CODES:
        yield open_line(kind, bow)
        for _ in range(12):
            yield open_line(kind, encoded(random_file(r, kind)))
        for _ in range(30):
            data = bytearray(encoded(random_file(r, kind)))
            if r.random() < 0.5:
                del data[r.randrange(len(data)) :]
            else:
                for _ in range(r.randint(1, 3)):
                    data[r.randrange(min(len(data), 14) if r.random() < 0.5 else len(data))] = r.choice([0, 1, 255, r.randrange(256)])
            yield open_line(kind, bytes(data))
        most = (kind, 9, bytes(64), random_points(r, kind, 17), [("R", 15, 7)] * 256)
        yield open_line(kind, encoded(most))
    yield from same_cases(r)
    yield from step_cases(r)


def same_cases(r):
    half = ("planar", 0, b"bow", BOW[3], [("L", 2, 2)])
    yield same_line("planar", encoded(BOW), encoded(half))
    yield same_line("planar", encoded(BOW), encoded(("planar", 77, b"", BOW[3], [("L", 15, 2**14)])))
    yield same_line("planar", encoded(BOW), encoded(("planar", 0, b"bow", BOW[3], [("R", 1, 1)])))
    yield same_line("planar", encoded(BOW), encoded(("planar", 0, b"bow", BOW[3], [("L", 2, 1)])))
    yield same_line("planar", encoded(BOW), encoded(("planar", 0, b"bow", BOW[3], [])))
    yield same_line("planar", encoded(BOW), encoded(("planar", 0, b"bow", [(0, 0), (4, 9), (8, 0)], [("L", 1, 1)])))
    yield same_line("planar", encoded(BOW), encoded(("planar", 0, b"bow", BOW[3] + [(8, 0)], [("L", 1, 1)])))
    zero = [("L", 0, 0), ("R", 15, 0)]
    yield same_line("height", encoded(("height", 0, b"", [(1,), (2,)], zero)), encoded(("height", 3, b"z", [(1,), (2,)], [("L", 15, 0), ("R", 0, 0)])))
    for kind in CODES:
        for _ in range(6):
            file = random_file(r, kind)
            points = list(file[3])
            if r.random() < 0.4:
                points[r.randrange(len(points))] = random_points(r, kind, 1)[0]
            finer = [(l, min(15, k + 1), a * 2 if k < 15 else a) if l in "LR" else (l, k, a) for l, k, a in file[4]]
            if r.random() < 0.3 and finer:
                finer[r.randrange(len(finer))] = random_working(r)
            yield same_line(kind, encoded(file), encoded((kind, 5, b"other", points, finer)))


def step_cases(r):
    yield steps_line("planar", 45, 0, b"bow", BOW[3], [("L", 1, 1)])
    for places in (0, 9, 10, 11, 35, 36, 37, 38, 41, 42):
        yield steps_line("planar", places, 0, b"bow", BOW[3], [("L", 1, 1)])
    yield steps_line("height", 200, 1, bytes(65), [(1,), (2,)], [])
    yield steps_line("height", 5, 1, bytes(65), [(1,), (2,)], [])
    yield steps_line("height", 90, 1, bytes(64), [(1,), (2,)], [])
    yield steps_line("height", 40, 1, b"a", [(5,)], [("L", 1, 3)])
    yield steps_line("height", 5, 1, b"", [(5,)], [])
    yield steps_line("sample", 300, 65535, b"s", random_points(r, "sample", 18), [])
    yield steps_line("sample", 300, 65535, b"s", random_points(r, "sample", 17, True), [("T", 0, 0), ("U", 0, 0)])
    yield steps_line("height", 40, 2, b"", [(-1,), (LEAST,)], [("L", 1, 1), ("R", 16, 0), ("L", 1, 3)])
    yield steps_line("height", 20, 2, b"", [(-1,), (MOST,)], [("R", 1, 3)])
    for count, places in ((256, 280), (257, 290), (257, 10)):
        yield steps_line("height", places, 3, b"", [(0,), (1,)], [("T", 0, 0)] * count)
    for kind in CODES:
        for _ in range(5):
            _, allowance, name, _, workings = random_file(r, kind)
            points = random_points(r, kind, r.randint(2, 5), True)
            full = len(encoded((kind, allowance, name, stored(kind, points), workings)))
            yield steps_line(kind, full + r.choice([0, 2, -1]), allowance, name, points, workings)


if __name__ == "__main__":
    table = list(cases())
    answers = {}
    for line, out in table:
        assert answers.setdefault(line, out) == out
    write("filetrials", [line for line, _ in table], lambda line: answers[line])
