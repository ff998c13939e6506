#!/usr/bin/env python3
"""The program dfm_main beside the patched Rust: a part file on standard input, the report, `refused N` or `too long` on standard output.

usage: tests/check/programs.py [--quick] [PROGRAM]      crates/dfm_main/out/dfm_main if none is named

On files of every length about its limits, document 01's examples, those of docs/DIFFERENCES.md, generated ones, and a part of more faults than it
lends rows for. The file comes whole or in pieces. `corner` gives one answer in 1,000 runs.
"""
import math
import os
import random
import subprocess
import sys
import time

HERE = os.path.dirname(os.path.abspath(__file__))
sys.path.insert(0, os.path.join(HERE, "..", "oracle"))

import examples
import shown
from differences import OUT, frames, framed, run
from fixed_list import LENT, LONGEST
from parts import CYLINDER, SHEET, box, job, part

PROGRAM = os.path.join(HERE, "..", "..", "crates", "dfm_main", "out", "dfm_main")
GENERATED, SEED = 3000, 21


def lent():
    return [word for option, number in LENT.items() for word in (option, str(number))]


def expected(files):
    """The oracle's answers, lent what the program lends."""
    kept = [f for f in files if len(f) <= LONGEST]
    answers = iter(run("patched", framed(kept), lent()))
    return [next(answers) if len(f) <= LONGEST else b"too long\n" for f in files]


def full(polygons):
    """A part of just 16,384 bytes: so many polygons, their vertices on circles above one another."""
    vertices = (LONGEST - 144 - 80 * polygons) // 24
    assert 24 * vertices + 80 * polygons + 144 == LONGEST and 3 * polygons <= vertices <= 64 * polygons
    counts = [vertices // polygons + (k < vertices % polygons) for k in range(polygons)]
    turn = lambda i, n: 2 * math.pi * i / n
    ring = lambda n, z: [(math.cos(turn(i, n)), math.sin(turn(i, n)), z) for i in range(n)]
    return part([(1, k, ring(n, 0.3 * k)[:: -1 if k % 2 else 1]) for k, n in enumerate(counts)], job())


def many_flanges(insides, flaps):
    """Every flap on the outside of a bend is a short flange of every inside: more faults than 512 in less than 16,384 bytes."""
    axis = lambda radius: (0.0, 0.0, 0.0, 0.0, 0.0, 1.0, radius)
    at = lambda k: (-3.0, 0.0, float(k))
    polygons = box((100.0, 0.0, 0.0), (300.0, 200.0, 2.0))
    for k in range(insides):
        polygons.append((2, k, [(1.0, 0.0, 3.0 * k), (1.0, 0.0, 3.0 * k + 1), (1.0, 1.0, 3.0 * k)], CYLINDER, axis(2.05)))
    edge = [at(k) for k in range(flaps + 1)]
    polygons.append((3, 0, edge[::-1] + [(-3.0, -2.0, 0.0), (-3.0, -2.0, float(flaps))], CYLINDER, axis(4.0)))
    for k in range(flaps):
        lean = 0.2 * (k + 1)
        polygons.append((4, k, [at(k), at(k + 1), (-3.0 - math.cos(lean), math.sin(lean), float(k))]))
    return part(polygons, job(process=SHEET))


def files():
    """Names and part files."""
    for name, data, _, _ in examples.cases():
        yield name, data
    yield from shown.SHOWN.items()
    whole = full(11)
    for n in [0, 1, 15, 16, 143, 144, 145, LONGEST - 1]:
        yield "the last %d bytes of a part" % n, whole[len(whole) - n :]
        yield "%d zeros" % n, bytes(n)
    for polygons in [11, 50, 101, 104]:
        yield "16,384 bytes, %d polygons" % polygons, full(polygons)
    for more in [1, 2, 16, LONGEST, 1 << 20]:
        yield "%d bytes too many in front" % more, bytes(more) + whole
        yield "%d bytes too many at the end" % more, whole + bytes(more)
    for insides, flaps in [(64, 8), (73, 7), (57, 9), (65, 8)]:
        yield "%d insides, %d flaps" % (insides, flaps), many_flanges(insides, flaps)


def generated():
    stream = subprocess.run([os.path.join(OUT, "generate"), str(GENERATED), str(SEED)], check=True, capture_output=True).stdout
    return [("generated file %d" % i, f) for i, f in enumerate(frames(stream))]


def answer(program, data):
    """What the program prints; nothing else may come of it."""
    ended = subprocess.run([program], input=data, capture_output=True)
    # one that stops reading before the end is fine
    assert ended.returncode == 0 and ended.stderr == b"", (ended.returncode, ended.stderr)
    return ended.stdout


def in_pieces(program, data, source):
    """The same where the file comes in pieces."""
    child = subprocess.Popen([program], stdin=subprocess.PIPE, stdout=subprocess.PIPE)
    at = 0
    while at < len(data):
        n = source.choice([1, 7, 4096, 5000])
        try:
            child.stdin.write(data[at : at + n])
            child.stdin.flush()
        except BrokenPipeError:
            break
        at += n
        time.sleep(0.001)
    return child.communicate()[0]


def main():
    words = sys.argv[1:]
    quick = "--quick" in words
    program = next((w for w in words if not w.startswith("--")), PROGRAM)
    named = list(files()) + (generated()[:100] if quick else generated())
    wanted = expected([data for _, data in named])
    source = random.Random(1)
    wrong, pieces, seen = 0, 0, set()
    for i, ((name, data), want) in enumerate(zip(named, wanted)):
        got = {answer(program, data)}
        if i % 10 == 0 and len(data) < 100000:
            got.add(in_pieces(program, data, source))
            pieces += 1
        seen.add(want if want[:1] in b"rt" else b"report")
        if got != {want}:
            wrong += 1
            print("%s, %d bytes: %r for %r" % (name, len(data), got, want))
    runs = 100 if quick else 1000
    answers = {answer(program, shown.SHOWN["corner"]) for _ in range(runs)}
    print("program: %d files, %d of them in pieces too, %d wrong; `corner` has %d answer in %d runs" % (len(named), pieces, wrong, len(answers), runs))
    # no part of 1,025 faces is so short, and no report of 512 faults so long
    missing = {b"report", b"too long\n"} | {b"refused %d\n" % k for k in range(1, 9)} | {b"refused 11\n"}
    missing -= seen
    if missing:
        print("program: never seen: %s" % sorted(missing))
    sys.exit(wrong != 0 or len(answers) != 1 or bool(missing))


if __name__ == "__main__":
    main()
