#!/usr/bin/env python3
"""Holds the windows of request 6 to figures that are covered point by point: tests/figures.py [--seed S] [--rounds N]

The figures are those of 7.1.2.2, written here from its words, on a grid of quarter units. The windows are those that the second opinion lists (second/), to
which second/compare holds the proved program. A shape is drawn by a call; the points it covers are moved here, by the call's transformations, and not the
shape. Then every covered point has to lie in the window, and on each side of it one; where a slanting box decides a side, the window may be too large by the
larger of its length and width, in half units. At last some wrong windows are tried, which all have to be found out.

Small boxes and flashes are all tried, wires, polygons and lists of shapes by lot. Exit status 1 where a window does not fit, or a wrong one does.
"""
import argparse
import math
import os
import random
import sys

sys.dont_write_bytecode = True
sys.path.insert(0, os.path.join(os.path.dirname(os.path.dirname(os.path.abspath(__file__))), "second"))
import listing  # noqa: E402

QUARTERS = 4  # of a unit: all places below are counted in them
CALLS = ["", "MX", "MY", "R0 1", "R-1 0", "R0 -1", "MXR0 1", "MYR0 7", "T3 -2", "R0 1T-1 4", "MYT2 2R-9 0"]


# ---- figures: whether a shape covers a point. A length is compared by its square, so all is exact


def within(a, b, p, width):
    """Whether p lies within one half-width of the segment from a to b."""
    along, off = (b[0] - a[0], b[1] - a[1]), (p[0] - a[0], p[1] - a[1])
    length = along[0] ** 2 + along[1] ** 2
    part = off[0] * along[0] + off[1] * along[1]
    if part <= 0:  # the end a is nearest; of a segment without length both are
        return 4 * (off[0] ** 2 + off[1] ** 2) <= width ** 2
    if part >= length:
        return 4 * ((p[0] - b[0]) ** 2 + (p[1] - b[1]) ** 2) <= width ** 2
    return 4 * (off[0] * along[1] - off[1] * along[0]) ** 2 <= width ** 2 * length


def angle_sum(points, p):
    """The winding number by the primer's own words: the angles of all edges, as viewed from p, divided by two pi."""
    total = 0.0
    for a, b in zip(points, points[1:] + points[:1]):
        u, v = (a[0] - p[0], a[1] - p[1]), (b[0] - p[0], b[1] - p[1])
        total += math.atan2(u[0] * v[1] - u[1] * v[0], u[0] * v[0] + u[1] * v[1])
    return round(total / (2 * math.pi))


def winding(points, p):
    """The same by edges that cross the ray from p along +x: exact, and the way of crates/figures/specs/Figure.antt. A vertex at p's own height counts as below."""
    total = 0
    for a, b in zip(points, points[1:] + points[:1]):
        if (a[1] > p[1]) != (b[1] > p[1]):
            side = (b[0] - a[0]) * (p[1] - a[1]) - (b[1] - a[1]) * (p[0] - a[0])
            if b[1] > p[1] and side > 0:
                total += 1
            elif b[1] <= p[1] and side < 0:
                total -= 1
    return total


def covers(letter, sizes, points, direction, p):
    """Whether a shape covers p."""
    if letter == "R":
        return within(points[0], points[0], p, sizes[0])
    if letter == "W":
        return any(within(a, b, p, sizes[0]) for a, b in zip(points, points[1:] or points))
    if letter == "P":
        return any(within(a, b, p, 0) for a, b in zip(points, points[1:] + points[:1])) or winding(points, p) != 0
    # "Length is the dimension of the box parallel to the direction, and width is the dimension perpendicular to the direction"
    off, (dx, dy) = (p[0] - points[0][0], p[1] - points[0][1]), direction
    parallel, across, square = off[0] * dx + off[1] * dy, off[0] * dy - off[1] * dx, dx * dx + dy * dy
    return 4 * parallel ** 2 <= sizes[0] ** 2 * square and 4 * across ** 2 <= sizes[1] ** 2 * square


class Shape:
    """A shape of a text, in units: letter, sizes, points and, for a box, its direction."""

    def __init__(self, letter, sizes, points, direction=None):
        self.letter, self.sizes, self.points, self.direction = letter, sizes, points, direction
        self.slanting = direction is not None and 0 not in direction

    def written(self):
        numbers = [*self.sizes, *(n for point in self.points for n in point), *(self.direction or ())]
        return self.letter + " ".join(map(str, numbers))

    def covered(self):
        """The points of the grid that the shape covers; looked for as far as all sizes together go, and a unit farther."""
        sizes, points = [QUARTERS * n for n in self.sizes], [(QUARTERS * x, QUARTERS * y) for x, y in self.points]
        far = sum(sizes) + QUARTERS
        for x in range(min(x for x, _ in points) - far, max(x for x, _ in points) + far + 1):
            for y in range(min(y for _, y in points) - far, max(y for _, y in points) + far + 1):
                if covers(self.letter, sizes, points, self.direction, (x, y)):
                    yield x, y


# ---- transformations of points, by RULES 9


def moved(call, p):
    """A point after the transformations of a call."""
    x, y = p
    while call:
        if call[0] == "M":
            x, y = (-x, y) if call[1] == "X" else (x, -y)
            call = call[2:]
        else:
            end = next((i for i in range(1, len(call)) if call[i] in "TMR"), len(call))
            a, b = map(int, call[1:end].split())
            if call[0] == "T":
                x, y = x + QUARTERS * a, y + QUARTERS * b
            else:
                x, y = (x, y) if a > 0 else (-x, -y) if a < 0 else (-y, x) if b > 0 else (y, -x)
            call = call[end:]
    return x, y


# ---- windows


def listed_window(shapes, call):
    """What the second opinion lists, in quarter units."""
    text = "DS1;LA;%s;DF;C1%s;E" % (";".join(shape.written() for shape in shapes), call)
    fields = listing.listing(text.encode()).decode().split("\n")[-2].split("\t")
    return [QUARTERS // 2 * int(n) for n in fields[1:]]


def unfit(shapes, call, points):
    """What is wrong with the window of shapes that are drawn by a call and cover these points; nothing if it is as it must be."""
    left, bottom, right, top = listed_window(shapes, call)
    points = [moved(call, p) for p in points]
    beyond = [left - min(x for x, _ in points), bottom - min(y for _, y in points), max(x for x, _ in points) - right, max(y for _, y in points) - top]
    most = max((max(shape.sizes) for shape in shapes if shape.slanting), default=0)
    if max(beyond) > 0:
        return "a point lies outside"
    if min(beyond) < -most * QUARTERS // 2:
        return "a side is too far out"
    return None


# ---- shapes


def all_small():
    """Flashes and boxes, all that are small."""
    for diameter in range(1, 7):
        yield Shape("R", [diameter], [(0, 0)])
    for length in range(1, 5):
        for width in range(1, 5):
            for x, y in [(1, 0), (-3, 0), (0, 1), (0, -2), (1, 1), (2, -1), (-1, 3), (-5, -1), (3, 4), (-2, 1)]:
                yield Shape("B", [length, width], [(0, 0)], (x, y))


def by_lot(lot):
    """A shape of any kind."""
    def some(count):
        return [(lot.randint(-2, 2), lot.randint(-2, 2)) for _ in range(count)]

    letter = lot.choice("RWWPPPB")
    if letter == "R":
        return Shape("R", [lot.randint(1, 4)], some(1))
    if letter == "W":
        return Shape("W", [lot.randint(1, 3)], some(lot.randint(1, 4)))
    if letter == "P":
        return Shape("P", [], some(lot.randint(3, 7)))
    return Shape("B", [lot.randint(1, 4), lot.randint(1, 4)], some(1), lot.choice([(1, 0), (0, 1), (-1, 0), (0, -3), (1, 2), (-3, 1)]))


def drawings(lot, rounds):
    """Shapes, the call that draws them and the points that they cover."""
    for shape in all_small():
        yield [shape], lot.choice(CALLS), list(shape.covered())
    for _ in range(rounds):
        shapes = [by_lot(lot) for _ in range(lot.choice([1, 1, 1, 2, 3]))]
        yield shapes, lot.choice(CALLS), [p for shape in shapes for p in shape.covered()]


# ---- windings, and wrong windows


def wrong_windings(lot, polygons):
    """How many points off the boundary were looked at, and how often the two ways to the winding number differ there."""
    tried = wrong = 0
    for _ in range(polygons):
        points = [(QUARTERS * lot.randint(-4, 4), QUARTERS * lot.randint(-4, 4)) for _ in range(lot.randint(3, 7))]
        for p in [(lot.randint(-18, 18), lot.randint(-18, 18)) for _ in range(20)]:
            if not any(within(a, b, p, 0) for a, b in zip(points, points[1:] + points[:1])):
                tried += 1
                wrong += winding(points, p) != angle_sum(points, p)
    return tried, wrong


RIGHT_REACH, RIGHT_WINDOW = listing.reach, listing.window


def reached(letter, numbers, wrong):
    """The reach of a box as `wrong` has it: a function of length, width and direction. Other shapes as they must be."""
    return wrong(numbers[0], numbers[1], numbers[4], numbers[5]) if letter == "B" else RIGHT_REACH(letter, numbers)


def halved(letter, numbers, of):
    x, y = RIGHT_REACH(letter, numbers)
    return (x // 2, y // 2) if letter in of else (x, y)


def at_ends(shapes):
    """The window with the first and the last point of a wire only."""
    return RIGHT_WINDOW((letter, numbers[:3] + numbers[-2:] if letter == "W" else numbers) for letter, numbers in shapes)


WRONG = [
    ("length and width exchanged for a box along y", "reach", lambda *s: reached(*s, lambda l, w, x, y: (l, w) if 0 in (x, y) else (l + w, l + w))),
    ("length and width exchanged for every box", "reach", lambda *s: reached(*s, lambda l, w, x, y: (w, l) if y == 0 else (l, w) if x == 0 else (l + w, l + w))),
    ("a slanting box by its length alone", "reach", lambda *s: reached(*s, lambda l, w, x, y: RIGHT_REACH("B", [l, w, 0, 0, x, y]) if 0 in (x, y) else (l, l))),
    ("a slanting box by half of length plus width", "reach", lambda *s: reached(*s, lambda l, w, x, y: RIGHT_REACH("B", [l, w, 0, 0, x, y]) if 0 in (x, y) else ((l + w) // 2,) * 2)),
    ("every box as if slanting", "reach", lambda *s: reached(*s, lambda l, w, x, y: (l + w, l + w))),
    ("a box by twice its sizes", "reach", lambda *s: reached(*s, lambda l, w, x, y: tuple(2 * n for n in RIGHT_REACH("B", [l, w, 0, 0, x, y])))),
    ("half the width of a wire", "reach", lambda *s: halved(*s, "W")),
    ("half the diameter of a flash", "reach", lambda *s: halved(*s, "R")),
    ("a polygon half a unit larger", "reach", lambda letter, numbers: (1, 1) if letter == "P" else RIGHT_REACH(letter, numbers)),
    ("only the first and last point of a wire", "window", at_ends),
]


def told(name, wrong, cases):
    """Whether the cases find out a wrong reach or window of the second opinion."""
    right = getattr(listing, name)
    setattr(listing, name, wrong)
    try:
        return any(unfit(*case) for case in cases)
    finally:
        setattr(listing, name, right)


def main():
    a = argparse.ArgumentParser(description=__doc__, formatter_class=argparse.RawDescriptionHelpFormatter)
    a.add_argument("--seed", default="6")
    a.add_argument("--rounds", type=int, default=400, help="lists of shapes by lot (400)")
    o = a.parse_args()
    lot, faults = random.Random(o.seed), 0
    cases = list(drawings(lot, o.rounds))
    for shapes, call, points in cases:
        fault = unfit(shapes, call, points)
        if fault:
            faults += 1
            print("%s: %s, called with %s" % (fault, "; ".join(shape.written() for shape in shapes), call or "nothing"))
    windings, wrong = wrong_windings(lot, 1500)
    missed = [what for what, name, function in WRONG if not told(name, function, cases)]
    for what in missed:
        print("not found out:", what)
    print("figures: %d drawings and %d points that they cover, %d windows wrong; %d winding numbers, %d wrong; %d wrong windows, %d not found out (seed %s)" % (
        len(cases), sum(len(points) for _, _, points in cases), faults, windings, wrong, len(WRONG), len(missed), o.seed))
    return 1 if faults or wrong or missed else 0


if __name__ == "__main__":
    sys.exit(main())
