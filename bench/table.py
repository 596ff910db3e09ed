"""What the tables of polygons share: kinds, lines of numbers, and writing a program's input and output."""

from pathlib import Path

CRATES = Path(__file__).resolve().parent.parent / "crates"
AXES = {"height": 1, "planar": 2, "sample": 3}
LEAST, MOST = -(2**31), 2**31 - 1


def points_of(kind, values):
    """The points that the axis values are; a press above 4,095 counts as 4,095."""
    if kind == "sample":
        values = [min(v, 4095) if i % 3 == 2 else v for i, v in enumerate(values)]
    width = AXES[kind]
    return [tuple(values[i : i + width]) for i in range(0, len(values), width)]


def random_values(r, kind, low, high):
    """Axis values of 2 to 17 points; a stored press may be above 4,095."""
    values = []
    for _ in range(r.randint(2, 17)):
        values += [max(LEAST, r.randint(low, high)) for _ in range(min(AXES[kind], 2))]
        values += [r.choice([0, 4095, r.randint(0, 65535)])] if kind == "sample" else []
    return values


def write(crate, lines, worked):
    """The program's standard input, and what it must print."""
    (CRATES / crate / "stdin").write_text("".join(line + "\n" for line in lines))
    (CRATES / crate / "stdout").write_text("".join(text + "\n" for line in lines for text in worked(line)))
