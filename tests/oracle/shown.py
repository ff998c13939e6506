#!/usr/bin/env python3
"""One small part file for each cause of a disagreement between the unpatched Rust and the patched one: docs/DIFFERENCES.md tells of them.

usage: tests/oracle/shown.py [NAME]      with a name, writes that part file to standard output

Prints both answers of each, the unpatched one from several runs, and ends non-zero if a file no longer shows its cause.
"""
import math
import sys

from differences import framed, run
from parts import CYLINDER, FDM, SLA, SLS, job, part

RUNS = 40


def corner(xs, covered):
    """An inside corner of two polygons along x, its edge cut at xs, and a slanted third over the part from covered[0] to covered[1]."""
    edge = [(x, 4.0, 0.0) for x in xs]
    middle = (xs[0] + xs[-1]) / 2
    (lo, hi) = covered
    cover = [(lo, -1.0, -0.5), (lo, 5.0, 5.5), (hi, 5.0, 5.5), (hi, -1.0, -0.5)]
    return part([(1, 0, [(middle, 0.0, 0.0)] + edge[::-1]), (1, 1, edge + [(middle, 4.0, 4.0)]), (1, 2, cover)], job())


def tie():
    """A step over a bottom that stands twice, under two names, among others that lie apart and make the tree split."""
    bottom = [(0.0, 0.0, 0.0), (9.0, 9.0, 0.0), (9.0, 0.0, 0.0)]
    top = [(8.0, 1.0, 0.5), (9.0, 1.0, 0.5), (9.0, 2.0, 0.5)]
    apart = [(3, i, [(x, 50.0, 0.0), (x + 1.0, 50.0, 0.0), (x, 51.0, 0.0)]) for i, x in enumerate([-20.0, -10.0, 0.0, 10.0, 20.0, 30.0])]
    return part([(1, 0, bottom), (1, 1, bottom), (2, 0, top)] + apart, job())


def short_sides():
    """Sides of a thousandth: a ray that starts 2e-9 beside a polygon is inside by the side test's margin, and outside by its box's."""
    h = 0.000999998
    return part(
        [
            (1, 0, [(1.001, 0.5, 0.0), (1.001, 0.501, 0.0), (1.0, 0.501, 0.0), (1.0, 0.5, 0.0)]),
            (1, 1, [(1.0, 0.501, h), (1.001, 0.501, h), (1.001, 0.5, h), (1.0, 0.5, h)]),
            (1, 2, [(1.001, 0.5, h), (1.001, 0.501, h), (1.001, 0.501, 0.0), (1.001, 0.5, 0.0)]),
            (1, 3, [(1.0, 0.501, h), (1.0, 0.5, h), (1.0, 0.5, 0.0), (1.0, 0.501, 0.0)]),
        ],
        job(),
    )


def open_bore(gap, facets=31):
    """One polygon round a bore, open over an angle: of its corners all but one lie at the bottom, so it is as long as that one is high."""
    angles = [(2 * math.pi - gap) * i / facets for i in range(facets + 1)]
    points = [(math.cos(t), math.sin(t), 9.0 if i == facets // 2 else 0.0) for i, t in enumerate(angles)]
    return part([(1, 0, points, CYLINDER, (0.0, 0.0, 0.0, 0.0, 0.0, 1.0, 1.0))], job())


def drill_point(off=0.0):
    """The same about +y, from which directions are counted, with its tip on the axis in the same polygon, or so far beside it."""
    gap, facets = 0.395, 30
    angles = [math.pi / 2 + gap / 2 + (2 * math.pi - gap) * i / facets for i in range(facets + 1)]
    points = [(math.cos(t), math.sin(t), 9.0 if i == facets // 2 else 0.0) for i, t in enumerate(angles)]
    return part([(1, 0, points + [(0.0, off, 0.0)], CYLINDER, (0.0, 0.0, 0.0, 0.0, 0.0, 1.0, 1.0))], job())


def leaning():
    """A triangle whose lean has a sine of 1e-9 above that of 45 degrees, between what `sin` and the table allow."""
    up = (0.7071067811865475, 0.0, 0.7071067831865475)
    return part([(1, 0, [(0.0, 0.0, 0.0), (0.0, 9.0, 0.0), (9.0, 0.0, 0.0)])], job(process=FDM, flags=4, tenths=450, up=up))


def tetrahedron(move=(0.0, 0.0, 0.0), flipped=False):
    """Closed, but for one corner of its last triangle, which is moved, or for that triangle's turn, which is the other one."""
    a, b, c, d = (0.0, 0.0, 0.0), (9.0, 0.0, 0.0), (0.0, 9.0, 0.0), (0.0, 0.0, 9.0)
    last = [b, c, tuple(x + y for x, y in zip(d, move))]
    return part([(1, 0, [a, c, b]), (1, 1, [a, b, d]), (1, 2, [a, d, c]), (1, 3, last[::-1] if flipped else last)], job(process=FDM, layer=0.001))


def thrice():
    """One triangle three times: each of its keys has three sides."""
    corners = [(0.0, 0.0, 0.0), (0.0, 9.0, 0.0), (9.0, 0.0, 0.0)]
    return part([(1, i, corners) for i in range(3)], job(process=FDM))


def short_side():
    """A side of 0.00003 mm, whose two ends have one key of 1e4 and two of 1e5."""
    return part([(1, 0, [(0.0, 0.0, 0.0), (0.0, 9.0, 0.0), (9.0, 0.0, 0.0), (0.00003, 0.0, 0.0)])], job(process=FDM))


def between_keys():
    """Two corners 0.000002 mm apart that have one key of 1e5, with a border of keys of 1e4 between them."""
    a, b, c, d = (0.0, 0.0, 0.000049), (9.0, 0.0, 0.0), (0.0, 9.0, 0.0), (0.0, 0.0, 9.0)
    other = (0.0, 0.0, 0.000051)
    return part([(1, 0, [a, c, b]), (1, 1, [a, b, d]), (1, 2, [other, d, c]), (1, 3, [b, c, d])], job(process=FDM, layer=0.001))


def two_hollows():
    """Hollow 1 is polygons 0, 2 and 3, of which 0 and 2 touch 3 alone; hollow 2 is polygon 1."""
    bottom = [(1.0, 1.0, 1.0), (2.0, 2.0, 1.0), (1.0, 2.0, 1.0)]
    top = [(1.0, 1.0, 9.0), (1.0, 2.0, 9.0), (2.0, 2.0, 9.0)]
    side = [(1.0, 1.0, 1.0), (2.0, 2.0, 9.0), (1.0, 1.0, 9.0)]
    other = [(9.0, 5.0, 5.0), (5.0, 5.0, 0.0), (5.0, 0.0, 5.0)]
    return part([(1, 0, bottom), (2, 0, other), (1, 1, top), (1, 2, side)], job(process=SLS))


def warped():
    """A square of which one corner is lifted, and a triangle under the corner across: the square's plane lies 0.1 under its box there."""
    square = [(0.0, 0.0, 0.0), (1.0, 0.0, 0.0), (1.0, 1.0, 0.0), (0.0, 1.0, 1.0)]
    under = [(0.8, 0.1, -0.6), (0.85, 0.25, -0.6), (0.9, 0.1, -0.6)]
    return part([(1, 0, square), (1, 1, under)], job())


def two_layers():
    """Two roofs over two floors, 0.025 and 0.03 mm thick, of a resin print."""
    polygons = []
    for i, thick in enumerate((0.025, 0.03)):
        x = 9.0 * i
        polygons.append((1, 2 * i, [(x, 0.0, 0.0), (x + 4.0, 0.0, 0.0), (x, 0.0, 4.0)]))
        polygons.append((1, 2 * i + 1, [(x, thick, 0.0), (x, thick, 4.0), (x + 4.0, thick, 0.0)]))
    return part(polygons, job(process=SLA, layer=0.05))


SHOWN = {
    "corner": corner([0.0, 10.0, 20.0], (0.0, 10.0)),
    "sums": corner([0.0, 0.03, 0.08, 0.375], (-1.0, 2.0)),
    "tie": tie(),
    "short_sides": short_sides(),
    "open_bore": open_bore(0.2 - 2e-7),
    "drill_point": drill_point(),
    "leaning": leaning(),
    "flipped": tetrahedron(flipped=True),
    "thrice": thrice(),
    "short_side": short_side(),
    "corner_moved": tetrahedron(move=(0.00003, 0.0, 0.0)),
    "between_keys": between_keys(),
    "two_hollows": two_hollows(),
    "warped": warped(),
    "two_layers": two_layers(),
}


def main():
    if sys.argv[1:]:
        sys.stdout.buffer.write(SHOWN[sys.argv[1]])
        return
    stream = framed(SHOWN.values())
    patched = run("patched", stream)
    unpatched = [run("unpatched", stream) for _ in range(RUNS)]
    silent = 0
    for i, name in enumerate(SHOWN):
        answers = [r[i] for r in unpatched]
        print("== %s, %d bytes\npatched:\n%s" % (name, len(SHOWN[name]), patched[i].decode()), end="")
        for answer in sorted(set(answers)):
            print("unpatched, %d of %d runs:\n%s" % (answers.count(answer), RUNS, answer.decode()), end="")
        silent += set(answers) == {patched[i]}
    print("shown: %d files, %d without a disagreement" % (len(SHOWN), silent))
    sys.exit(silent != 0)


if __name__ == "__main__":
    main()
