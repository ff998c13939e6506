#!/usr/bin/env python3
"""The plate of document 01 byte for byte, the example of each refusal, and one step inside each limit, on both programs."""
import math
import os
import struct
import subprocess
import sys

from parts import SHEET, SLS, bore, box, job, part, plate, trailer

HERE = os.path.dirname(os.path.abspath(__file__))
PROGRAMS = [os.path.join(HERE, "..", "..", "target", "tests", "oracle", name) for name in ("patched", "unpatched")]
PLATE = (
    "1 - 0 -\n"
    "Warning|Thin wall|1|1:0,1:1|Wall is 0.50 mm thick; a machined part needs at least 0.80 mm to machine without chatter or breaking.\n"
)
NONE = "0 - 0 -\n"
ABOVE = math.nextafter(1e4, math.inf)


def triangle(face, at=0.0):
    return (1, face, [(at, 0.0, 0.0), (at + 1.0, 0.0, 0.0), (at, 1.0, 0.0)])


def ring(count):
    return [(math.cos(i * 2 * math.pi / count), math.sin(i * 2 * math.pi / count), 0.0) for i in range(count)]


def with_x(x):
    return part([(1, 0, [(x, 0.0, 0.0), (0.0, 1.0, 0.0), (0.0, 0.0, 0.0)])], job())


def cases():
    empty, thin = part([], job()), part(plate(), job())
    scratch = ["--reals", str(24 * 6 + 8 * 24 + 2048), "--words", str(12 * 6 + 8 * 24 + 1024)]
    less = lambda i: scratch[:i] + [str(int(scratch[i]) - 1)] + scratch[i + 1 :]
    yield "the plate", thin, [], PLATE
    yield "143 bytes", empty[1:], [], 1
    yield "144 bytes", empty, [], NONE
    yield "edition 2", job() + trailer(0, 0, edition=2), [], 2
    yield "V = 16,385", job() + trailer(16385, 0), [], 3
    yield "V = 16,384", part([(1, 0, ring(64))] * 256, job()), [], None
    yield "P = 4,097", job() + trailer(0, 4097), [], 3
    yield "P = 4,096", part([triangle(0)] * 4096, job(process=SHEET)), [], None
    yield "145 bytes", b"\0" + empty, [], 4
    yield "back wrong", job() + trailer(0, 0, back=145), [], 4
    yield "process 5", part([], job(process=5)), [], 5
    yield "process 4", part([], job(process=SLS)), [], NONE
    yield "tenths 901", part([], job(flags=4, tenths=901)), [], 5
    yield "tenths 900", part([], job(flags=4, tenths=900)), [], NONE
    yield "tenths without their flag", part([], job(tenths=1)), [], 5
    yield "bend ratio without material", part([], job(flags=8)), [], 5
    yield "name of 40 bytes", part([], job(flags=1, name=b"n" * 40)), [], NONE
    yield "name of 41 bytes", part([], job(flags=1, name=b"n" * 40, length=41)), [], 5
    yield "a minus zero that is not used", part([], job(nozzle=-0.0)), [], 5
    yield "a minus zero that is", part([], job(flags=2, nozzle=-0.0)), [], NONE
    yield "an infinity", with_x(math.inf), [], 6
    yield "beyond 1e4", with_x(ABOVE), [], 6
    yield "at 1e4", with_x(1e4), [], None
    yield "2 vertices", part([(1, 0, ring(2))], job()), [], 7
    yield "3 vertices", part([(1, 0, ring(3))], job()), [], None
    yield "64 vertices", part([(1, 0, ring(64))], job()), [], None
    yield "65 vertices", part([(1, 0, ring(65))], job()), [], 7
    yield "vertices left", struct.pack("<9d", *range(9)) + job() + trailer(3, 0), [], 7
    yield "three equal vertices", part([(1, 0, [(1.0, 1.0, 1.0)] * 3)], job()), [], 8
    yield "1,025 faces", part([triangle(i) for i in range(1025)], job()), [], 9
    yield "1,024 faces", part([triangle(i) for i in range(1024)], job()), [], None
    yield "no scratch", thin, ["--reals", "0", "--words", "0"], 10
    yield "an f64 too few", thin, less(1), 10
    yield "a u32 too few", thin, less(3), 10
    yield "scratch just enough", thin, scratch, PLATE
    yield "0 rows", thin, ["--rows", "0"], 11
    yield "1 row", thin, ["--rows", "1"], PLATE
    yield "1 byte", thin, ["--report", "1"], 12
    yield "a byte too few", thin, ["--report", str(len(PLATE) - 1)], 12
    yield "just long enough", thin, ["--report", str(len(PLATE))], PLATE
    # the readings at the edge that the whole check shows: what the first finding's line starts with
    wall = lambda t, **kw: part(box((0.0, 0.0, 0.0), (20.0, 20.0, t)), job(**kw))
    below = lambda x: math.nextafter(x, 0.0)
    above = lambda x: math.nextafter(x, math.inf)
    yield "wall of 0.4", wall(0.4), [], ("Warning|Thin wall|",)
    yield "wall below 0.4", wall(below(0.4)), [], ("Error|Thin wall|",)
    yield "wall of 0.8", wall(0.8), [], NONE
    yield "wall below 0.8", wall(below(0.8)), [], ("Warning|Thin wall|",)
    yield "material min_wall 0, 0.8", wall(0.8, flags=1, name=b"Zero"), [], NONE
    yield "material min_wall 0, below", wall(below(0.8), flags=1, name=b"Zero"), [], ("Warning|Thin wall|",)
    yield "hole of 4 diameters", part(bore(0.5, 4.0), job()), [], NONE
    yield "a little deeper", part(bore(0.5, above(4.0)), job()), [], ("Note|Deep hole|",)
    yield "hole of 10 diameters", part(bore(0.5, 10.0), job()), [], ("Note|Deep hole|",)
    yield "a little deeper than 10", part(bore(0.5, above(10.0)), job()), [], ("Warning|Deep hole|",)
    yield "hole of 1.0 mm", part(bore(0.5, 1.0), job()), [], NONE
    yield "a smaller hole", part(bore(below(0.5), 1.0), job()), [], ("Warning|Small hole|",)
    yield "inside radius 0.5", part(bore(0.5, 1.0)[:20], job()), [], NONE
    yield "a smaller radius", part(bore(below(0.5), 1.0)[:20], job()), [], ("Warning|Tight inside radius|",)
    hollow = lambda h: part(
        box((-5.0, -5.0, -5.0), (5.0, 5.0, 5.0)) + box((0.0, 0.0, 0.0), (1e-3, 1e-3, h), feature=3, inward=True), job(process=SLS)
    )
    yield "hollow of 1e-9", hollow(1e-3), [], ()
    yield "a larger hollow", hollow(above(1e-3)), [], ("Error|Enclosed hollow|",)


def is_as_expected(got, want):
    """A text or a refusal's number: just that; None: no refusal; a tuple: the starts of the lines after the first, and no others."""
    if want is None:
        return not got.startswith("refused")
    if isinstance(want, tuple):
        lines = got.split("\n")[1:-1]
        return len(lines) == len(want) and all(line.startswith(w) for line, w in zip(lines, want))
    return got == ("refused %d\n" % want if isinstance(want, int) else want)


def main():
    wrong = count = 0
    for name, data, options, want in cases():
        for program in PROGRAMS:
            got = subprocess.run([program] + options, input=data, capture_output=True, check=True).stdout.decode()
            count += 1
            if not is_as_expected(got, want):
                wrong += 1
                print("%s, %s: %r" % (os.path.basename(program), name, got))
    print("examples: %d answers, %d wrong" % (count, wrong))
    sys.exit(wrong != 0)


if __name__ == "__main__":
    main()
