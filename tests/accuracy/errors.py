#!/usr/bin/env python3
"""tests/accuracy/errors.py [--quick] < RECORDS: how far each thickness reading is off, in whole numbers alone (item 11 of document 02).

The records are those of tests/accuracy/test.rs. The exact distance along the ray is (w - normal . start) / (normal . direction), each f64 taken as the
whole number of 2^-1074 that it is. Prints the largest error by the size of the dot product, and ends non-zero where a bound is broken: 1e-7 where the
dot product is at least 0.02 in size; 1e-9, and a dot product of at least 1/3, for each reading that the check keeps. One reading in a hundred is tried
once more with 2e-7 added, which has to break the bounds.
"""
import struct
import sys

SCALE = 1 << 1074
RECORD = struct.Struct("<Q11d")
SMALL = struct.unpack("<d", struct.pack("<Q", 0x3EB0C6F7A0B5ED8D))[0]  # the f64 1e-6
# sizes of the dot product, from the smallest on; the first is not covered
BOUNDS = [(0, 1), (1, 50), (1, 20), (1, 10), (1, 5), (1, 3), (1, 2), (9, 10)]


def exact(x):
    """x times 2^1074."""
    above, below = x.as_integer_ratio()
    return above * (SCALE // below)


def dot(a, b):
    return sum(exact(x) * exact(y) for x, y in zip(a, b))


def error(normal, w, start, direction, reading):
    """|reading - 1e-6 - exact distance| as a fraction of whole numbers, and the exact dot product times 2^2148."""
    below = dot(normal, direction)
    above = exact(w) * SCALE - dot(normal, start)
    return abs((exact(reading) - exact(SMALL)) * below - above * SCALE), abs(below) * SCALE, abs(below)


def is_broken(kept, far, of, size):
    """A bound that holds of this reading is broken."""
    asked = 50 * size >= SCALE * SCALE and far * 10**7 >= of
    return asked or (kept and (3 * size < SCALE * SCALE or far * 10**9 >= of))


def place(size):
    """The last of the sizes that the dot product has."""
    return max(k for k, (above, below) in enumerate(BOUNDS) if size * below >= above * SCALE * SCALE)


def main():
    data = sys.stdin.buffer.read()
    wanted = 1_000 if "--quick" in sys.argv else 100_000
    kept_all = broken = missed = 0
    counts = [[0, 0] for _ in BOUNDS]
    worst = [[0.0, 0.0] for _ in BOUNDS]
    for number, record in enumerate(RECORD.iter_unpack(data)):
        kept, normal, w, start, direction, reading = record[0], record[1:4], record[4], record[5:8], record[8:11], record[11]
        far, of, size = error(normal, w, start, direction, reading)
        if of == 0:
            sys.exit("accuracy: a polygon is struck along its plane")
        broken += is_broken(kept, far, of, size)
        at = place(size)
        counts[at][kept] += 1
        worst[at][kept] = max(worst[at][kept], far / of)
        kept_all += kept
        if number % 100 == 0 and (kept or at > 0):
            missed += not is_broken(kept, *error(normal, w, start, direction, reading + 2e-7))
    for k, (above, below) in enumerate(BOUNDS):
        least = "%g" % (above / below)
        print("accuracy: dot product from %-4s %8d kept, off by at most %.2g; %8d others, %.2g" % (
            least, counts[k][1], worst[k][1], counts[k][0], worst[k][0]))
    struck = sum(map(sum, counts))
    print("accuracy: %d readings kept of %d strikes, the largest error of a kept one %.3g mm, %d bounds broken" % (
        kept_all, struck, max(w[1] for w in worst), broken))
    few = kept_all < wanted or any(n[0] == 0 for n in counts[1:5])
    if few or missed:
        sys.exit("accuracy: %d errors not seen; readings of each size: %s" % (missed, counts))
    sys.exit(broken != 0)


main()
