#!/usr/bin/env python3
"""The fixed list of part files that the program replay_verdicts replays, each with the refusal from 1 to 7 that it meets, 0 for none.

usage: tests/part/list.py make | check | show

crates/replay_verdicts/stdin holds the files packed as in tests/oracle/fixed_list.py, each after its length, stdout a number a line. Each case here says the number that
document 01 gives it; the oracle's reader has to say the same, or nothing is written. `make` writes both files, `check` compares, `show` prints
what each line of stdout is the answer to.
"""
import collections
import math
import os
import random
import struct
import sys

HERE = os.path.dirname(os.path.abspath(__file__))
FOLDER = os.path.join(HERE, "..", "..", "crates", "replay_verdicts")
sys.path.insert(0, os.path.join(HERE, "..", "oracle"))
from differences import framed, run
from fixed_list import packed
from parts import CYLINDER, OTHER, PLANE, REVOLVED, SLS, entry, job, part, trailer

INF = math.inf
NAN = [0x7FF0000000000001, 0x7FF8000000000000, 0x7FFFFFFFFFFFFFFF, 0xFFF0000000000001, 0xFFF8000000000000, 0xFFFFFFFFFFFFFFFF]
MINUS_ZERO = 1 << 63
# each flagged field set
ALL = dict(flags=15, nozzle=0.4, tenths=450, cls=1, ratio=1500, name=b"Steel", wall=0.5)
TRIANGLE = [(0.0, 0.0, 0.0), (1.0, 0.0, 0.0), (0.0, 1.0, 0.0)]
AXIS = (3.0, 0.0, 0.0, 0.0, 0.0, 1.0)
RADIUS = 2.5


def up(x):
    return math.nextafter(x, INF)


def down(x):
    return math.nextafter(x, -INF)


def bits(x):
    return struct.unpack("<Q", struct.pack("<d", x))[0]


def with_bits(data, at, pattern):
    return data[:at] + struct.pack("<Q", pattern) + data[at + 8 :]


def with_word(data, at, n):
    return data[:at] + struct.pack("<I", n) + data[at + 4 :]


def only_job(job_bytes, *rest, **more):
    """A file without polygons: 144 bytes, its job first."""
    return job_bytes + trailer(0, 0, *rest, **more)


def small():
    """A polygon of each kind, 12 vertices; and where its entries begin."""
    kinds = [(PLANE, (0.0,) * 7), (CYLINDER, AXIS + (RADIUS,)), (REVOLVED, AXIS + (0.0,)), (OTHER, (0.0,) * 7)]
    data = part([(1, i, TRIANGLE, kind, axis) for i, (kind, axis) in enumerate(kinds)], job())
    return data, [24 * 12 + 80 * i for i in range(4)]


def spaced(counts, first=None, vertices=None):
    """Polygons of these counts over vertices of zeros, whose normals are none: that is refusal 8, and none of 1 to 7."""
    starts = [sum(counts[:i]) for i in range(len(counts))] if first is None else first
    v = sum(counts) if vertices is None else vertices
    entries = b"".join(entry(1, i, s, n) for i, (s, n) in enumerate(zip(starts, counts)))
    return bytes(24 * v) + entries + job() + trailer(v, len(counts))


def real_range(what, data, at, lo, hi, number):
    """The ends of an f64's range, a step past each, and what is no number in a range."""
    for x in (lo, hi):
        yield "%s %r" % (what, x), with_bits(data, at, bits(x)), 0
    for x in (down(lo), up(hi), INF, -INF):
        yield "%s %r" % (what, x), with_bits(data, at, bits(x)), number
    for pattern in NAN:
        yield "%s %x" % (what, pattern), with_bits(data, at, pattern), number
    if lo <= 0:
        for x in (-0.0, 5e-324):
            yield "%s %r" % (what, x), with_bits(data, at, bits(x)), 0


def word_range(what, data, at, lo, hi, number):
    for n in (lo, hi):
        yield "%s %d" % (what, n), with_word(data, at, n), 0
    for n in {hi + 1, (lo - 1) % 2**32, 2**31, 2**32 - 1} - set(range(lo, hi + 1)):
        yield "%s %d" % (what, n), with_word(data, at, n), number


def length_sq(v):
    return v[0] * v[0] + v[1] * v[1] + v[2] * v[2]


def directions(what, data, at, number):
    """Components, and squared lengths as `length_sq` rounds them: x, y, z in this order."""

    def case(v, number):
        new = data
        for k in range(3):
            new = with_bits(new, at + 8 * k, bits(v[k]))
        return "%s %r %r %r" % ((what,) + v), new, number

    for axis in range(3):
        for x in (0.5, -0.5, 2.0, -2.0):
            yield case(tuple(x if k == axis else -0.0 for k in range(3)), 0)
        for x in (down(0.5), up(-0.5), up(2.0), down(-2.0), 0.0):
            yield case(tuple(x if k == axis else 0.0 for k in range(3)), number)
        for pattern in NAN + [bits(INF), bits(-INF)]:
            yield "%s %d %x" % (what, axis, pattern), with_bits(data, at + 8 * axis, pattern), number
    yield case((2.0, 2.0**-27, 0.0), 0)
    yield case((2.0, 2.0**-25, 0.0), number)
    # those for which another order of the sum falls on the other side
    draw = random.Random(1)
    for limit in (0.25, 4.0):
        found = set()
        while len(found) < 2:
            x, y = (draw.uniform(0.1, 0.5) * math.sqrt(limit) * 1.4 for _ in range(2))
            if x * x + y * y >= limit:
                continue
            v = (x, y, math.sqrt(limit - x * x - y * y))
            good = 0.25 <= length_sq(v) <= 4.0
            if good != (0.25 <= x * x + (y * y + v[2] * v[2]) <= 4.0) and good not in found:
                found.add(good)
                yield case(v, 0 if good else number)


def table():
    """Each row of document 01's table: its example, and a step inside."""
    good = only_job(job())
    yield "nothing", b"", 1
    yield "143 bytes", good[1:], 1
    yield "144 bytes", good, 0
    yield "edition 2", only_job(job(), edition=2), 2
    yield "edition 0", only_job(job(), edition=0), 2
    yield "edition 1 and a high byte", only_job(job(), edition=0x01000001), 2
    yield "V = 16,385", only_job(job())[:128] + trailer(16385, 0), 3
    yield "V = 16,384, too short for it", only_job(job())[:128] + trailer(16384, 0), 4
    yield "P = 4,097", job() + trailer(0, 4097), 3
    yield "P = 4,096, too short for it", job() + trailer(0, 4096), 4
    yield "V = 2^29, whose length is right in 32 bits", job() + trailer(2**29, 0), 3
    yield "P = 2^28, whose length is right in 32 bits", job() + trailer(0, 2**28, back=144), 3
    yield "145 bytes, V = P = 0", b"\0" + good, 4
    yield "145 bytes, at the end", good[:128] + b"\0" + good[128:], 4
    for back in (143, 145, 64, 224, 144 + 2**31):
        yield "back %d" % back, only_job(job(), back=back), 4
    yield "process 5", only_job(job(process=5)), 5
    yield "process 4", only_job(job(process=SLS)), 0
    data, _ = small()
    yield "a small file", data, 0
    yield "one byte less", data[1:], 4
    yield "one byte more", b"\0" + data, 4
    yield "an infinity", with_bits(data, 0, bits(INF)), 6
    yield "the greatest in range", with_bits(data, 0, bits(1e4)), 0
    yield "2 vertices", spaced([2]), 7
    yield "3 vertices", spaced([3]), 0
    yield "three equal vertices", part([(1, 0, [(1.0, 2.0, 3.0)] * 3)], job()), 0


def job_fields():
    data = only_job(job(**ALL))
    yield "all flags", data, 0
    yield from word_range("process", data, 0, 0, 4, 5)
    yield from directions("up", data, 8, 5)
    yield from real_range("layer", data, 32, 0.001, 1e3, 5)
    yield from real_range("nozzle", data, 40, 0.0, 1e3, 5)
    yield from real_range("min_wall", data, 48, 0.0, 1e4, 5)
    yield from real_range("min_hole", data, 56, 0.0, 1e4, 5)
    yield from word_range("tenths", data, 64, 0, 900, 5)
    yield from word_range("class", data, 68, 0, 1, 5)
    yield from word_range("ratio", data, 72, 0, 100000, 5)
    yield from real_range("material min_wall", data, 80, -1e4, 1e4, 5)


def names():
    for n in (1, 40):
        yield "a name of %d" % n, only_job(job(flags=1, name=b"~" * n)), 0
    yield "a name of 0", only_job(job(flags=1)), 5
    for n in (41, 2**31, 2**32 - 1):
        yield "a name of %d" % n, only_job(job(flags=1, name=b" " * 40, length=n)), 5
    for c in (0x20, 0x7E):
        yield "name byte %x" % c, only_job(job(flags=1, name=b"ab" + bytes([c]))), 0
    for c in (0, 0x1F, 0x7F, 0x80, 0xFF):
        for name in (bytes([c]) + b"bc", b"ab" + bytes([c])):
            yield "name %r" % name, only_job(job(flags=1, name=name)), 5
    yield "a byte right past the name", only_job(job(flags=1, name=b"abc ", length=3)), 5
    yield "the last byte past the name", only_job(job(flags=1, name=b"abc" + bytes(36) + b" ", length=3)), 5
    yield "a name too long by its zero", only_job(job(flags=1, name=b"abc", length=4)), 5
    yield "a name without material", only_job(job(name=b"a", length=0)), 5


def flags():
    """All 16, and what each leaves unset."""
    fields = dict(nozzle=(2, 40, 8), tenths=(4, 64, 4), cls=(1, 68, 4), ratio=(8, 72, 4), length=(1, 76, 4), wall=(1, 80, 8))
    for n in range(16):
        set_fields = {k: v for k, v in ALL.items() if k != "flags" and n & (1 if k == "name" else fields[k][0])}
        data = only_job(job(flags=n, **set_fields))
        right = 5 if n & 9 == 8 else 0
        yield "flags %d" % n, data, right
        for name, (flag, at, size) in fields.items():
            if not n & flag:
                yield "flags %d, %s set" % (n, name), data[:at] + b"\1" + data[at + 1 :], 5
                yield "flags %d, %s high" % (n, name), data[: at + size - 1] + b"\x80" + data[at + size :], 5
        if not n & 1:
            yield "flags %d, a name byte" % n, data[:88] + b"a" + data[89:], 5
    for n in (16, 31, 2**8, 2**31, 2**32 - 1):
        yield "flags %d" % n, only_job(job(**{**ALL, "flags": n})), 5


def vertices():
    data, _ = small()
    for at in (0, 8, 16, 24 * 12 - 24, 24 * 12 - 8):
        yield from real_range("coordinate at %d" % at, data, at, -1e4, 1e4, 6)


def entries():
    data, at = small()
    plane, cylinder, revolved, other = at
    for n in (0, 2**32 - 1):
        yield "feature %d" % n, with_word(data, plane, n), 0
        yield "index %d" % n, with_word(data, plane + 4, n), 0
    for n in (4, 5, 2**8, 2**31, 2**32 - 1):
        yield "kind %d" % n, with_word(data, plane + 16, n), 7
    for where, name in ((plane, "plane"), (cylinder, "cylinder"), (revolved, "revolved"), (other, "other")):
        for n in (1, 2**31):
            yield "%s, zero is %d" % (name, n), with_word(data, where + 20, n), 7
    for where, name in ((plane, "plane"), (other, "other")):
        for k in range(7):
            for pattern in (1, MINUS_ZERO):
                yield "%s, field %d is %x" % (name, k, pattern), with_bits(data, where + 24 + 8 * k, pattern), 7
    for pattern in (1, MINUS_ZERO, bits(1.0)):
        yield "revolved, radius %x" % pattern, with_bits(data, revolved + 72, pattern), 7
    for where, name in ((cylinder, "cylinder"), (revolved, "revolved")):
        for k in range(3):
            yield from real_range("%s, origin %d" % (name, k), data, where + 24 + 8 * k, -1e4, 1e4, 7)
        yield from directions("%s, direction" % name, data, where + 48, 7)
    yield from real_range("radius", data, cylinder + 72, 0.001, 1e4, 7)
    for number, (name, other_name) in {1: ("plane", "cylinder"), 2: ("plane", "revolved"), 3: ("plane", "other")}.items():
        yield "a %s as a %s" % (name, other_name), with_word(data, plane + 16, number), 0 if number == 3 else 7
    yield "a cylinder as revolved", with_word(data, cylinder + 16, 2), 7
    yield "a revolved face as a cylinder", with_word(data, revolved + 16, 1), 7


def runs():
    for n in (0, 1, 2, 65):
        yield "a run of %d" % n, spaced([n]), 7
        yield "a run of 3, then one of %d" % n, spaced([3, n]), 7
    yield "a run of 64", spaced([64]), 0
    yield "runs of 3 and 64", spaced([3, 64]), 0
    yield "a run of 2^32 - 1", spaced([2**32 - 1], vertices=3), 7
    yield "the second run of 2^32 - 3", spaced([3, 2**32 - 3], first=[0, 3], vertices=3), 7
    yield "a run from 1 on", spaced([3], first=[1]), 7
    yield "a run from 1 on, and a vertex for it", spaced([3], first=[1], vertices=4), 7
    yield "a gap of one vertex", spaced([3, 3], first=[0, 4], vertices=7), 7
    yield "runs that overlap", spaced([3, 3], first=[0, 2], vertices=5), 7
    yield "the same run twice", spaced([3, 3], first=[0, 0], vertices=3), 7
    yield "runs the other way round", spaced([3, 3], first=[3, 0]), 7
    yield "a run past the last vertex", spaced([3, 4], vertices=6), 7
    yield "a vertex left over", spaced([3, 3], vertices=7), 7
    yield "a vertex left over after a full run", spaced([64], vertices=65), 7
    yield "V = 1 and P = 0", spaced([], vertices=1), 7
    yield "V = 3 and P = 0", spaced([], vertices=3), 7
    yield "V = 0 and P = 1", spaced([3], vertices=0), 7
    yield "V = P = 0", spaced([]), 0


def order():
    """Several things wrong: the lowest number is told, over all vertices before any polygon."""
    data, at = small()
    bad_vertex = with_bits(data, 24 * 12 - 8, NAN[1])
    bad_entry = with_word(data, at[0] + 20, 1)
    job_at, end = at[3] + 80, len(data)

    def wrong_job(d):
        return with_word(d, job_at, 5)

    yield "the last vertex and the first entry", with_word(bad_vertex, at[0] + 20, 1), 6
    yield "job and last vertex", wrong_job(bad_vertex), 5
    yield "job and first entry", wrong_job(bad_entry), 5
    yield "job, vertex and entry", wrong_job(with_word(bad_vertex, at[0] + 20, 1)), 5
    yield "length and job", b"\0" + wrong_job(data), 4
    yield "back, job and vertex", with_word(wrong_job(bad_vertex), end - 4, 0), 4
    yield "V over its end, length and job", with_word(wrong_job(data), end - 12, 16385), 3
    yield "P over its end, back and job", with_word(wrong_job(data), end - 8, 4097), 3
    yield "edition and V", with_word(with_word(data, end - 12, 16385), end - 16, 0), 2
    yield "everything, 144 bytes", b"\xff" * 144, 2
    yield "everything, 143 bytes", b"\xff" * 143, 1
    yield "the first and the last entry", with_word(bad_entry, at[3] + 20, 1), 7
    yield "the last entry", with_word(data, at[3] + 20, 1), 7
    yield "no polygon, a bad vertex", bytes(8) + struct.pack("<2d", INF, 0.0) + job() + trailer(1, 0), 6


def large():
    """At the most vertices and polygons, and past it, with the right length: mostly zeros, which pack well."""

    def zeros(v, p):
        return bytes(24 * v + 80 * p) + job() + trailer(v, p)

    yield "V = 16,385", zeros(16385, 0), 3
    yield "V = 16,384, all left over", zeros(16384, 0), 7
    yield "V = 16,384 in 256 runs", spaced([64] * 256), 0
    yield "the same, the last vertex bad", with_bits(spaced([64] * 256), 24 * 16384 - 8, bits(up(1e4))), 6
    yield "the same, the last entry bad", with_word(spaced([64] * 256), 24 * 16384 + 80 * 255 + 20, 1), 7
    yield "V = 16,385 in 257 runs", spaced([64] * 255 + [62, 3]), 3
    yield "P = 4,097", zeros(0, 4097), 3
    yield "P = 4,096, all runs empty", zeros(0, 4096), 7
    yield "V = 16,384 and P = 4,096", spaced([4] * 4096), 0
    yield "V = 16,385 and P = 4,096", zeros(16385, 4096), 3
    yield "V = 16,384 and P = 4,097", zeros(16384, 4097), 3


def cases():
    for group in (table, job_fields, names, flags, vertices, entries, runs, order, large):
        for what, data, number in group():
            yield group.__name__ + ": " + what, data, number


def main():
    if sys.argv[1:] not in (["make"], ["check"], ["show"]):
        sys.exit(__doc__)
    every = list(cases())
    for (what, _, number), answer in zip(every, run("patched", framed([data for _, data, _ in every]))):
        refused = int(answer.split()[1]) if answer.startswith(b"refused") else 0
        if number != (refused if refused <= 7 else 0):
            sys.exit("list: %s: %d here, the oracle's refusal %d" % (what, number, refused))
    numbers = [number for _, _, number in every]
    written = {"stdin": framed([packed(data) for _, data, _ in every]), "stdout": b"".join(b"%d\n" % n for n in numbers)}
    for name, data in written.items():
        path = os.path.join(FOLDER, name)
        if sys.argv[1] == "make":
            open(path, "wb").write(data)
        elif sys.argv[1] == "check" and open(path, "rb").read() != data:
            sys.exit("list: crates/replay_verdicts/%s is another" % name)
    if sys.argv[1] == "show":
        for line, (what, data, number) in enumerate(every, 1):
            print("%d: %d for %s (%d bytes)" % (line, number, what, len(data)))
    count = collections.Counter(numbers)
    print("part list: %d part files, %d bytes packed; answers 0 to 7: %s" % (len(every), len(written["stdin"]), [count[n] for n in range(8)]))


if __name__ == "__main__":
    main()
