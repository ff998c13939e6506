#!/usr/bin/env python3
"""tests/check/plot.py LINES SVG: the time of a check against the number of polygons, ours, the Rust's with the replacements and as published, from the lines that
the benchmark of the check printed. Each part is a point; a line runs through the middle of the parts of a size."""
import math
import re
import sys

LINE = re.compile(r"^check, .* \((\d+) polygons; .*\): ([\d.]+) µs; the Rust's ([\d.]+) µs with the replacements, ([\d.]+) µs as published")
# colours that are told apart without red and green
SERIES = [('Gablemadder', '#0b5394', 0), ("the Rust with the replacements", '#b45f06', 1), ('the Rust as published', '#777777', 2)]
LEFT, TOP, WIDE, HIGH = 70, 20, 560, 340
LEAST_P, MOST_P, LEAST_T, MOST_T = 4, 6000, 1.0, 100_000.0


def read(path):
    with open(path) as f:
        found = [LINE.match(line) for line in f]
    return [(int(m.group(1)), [float(m.group(k)) for k in (2, 3, 4)]) for m in found if m]


def x_of(polygons):
    return LEFT + WIDE * math.log(polygons / LEAST_P) / math.log(MOST_P / LEAST_P)


def y_of(time):
    return TOP + HIGH * (1 - math.log(time / LEAST_T) / math.log(MOST_T / LEAST_T))


def middle(numbers):
    return math.exp(sum(math.log(n) for n in numbers) / len(numbers))


def sizes(parts):
    """The parts in groups of like size: none has half as many polygons again as the first of its group."""
    groups = []
    for part in sorted(parts):
        if groups and part[0] <= groups[-1][0][0] * 1.5:
            groups[-1].append(part)
        else:
            groups.append([part])
    return groups


def svg(parts):
    out = ['<svg xmlns="http://www.w3.org/2000/svg" viewBox="0 0 660 420" font-family="sans-serif" font-size="12" fill="#333333">']
    out.append('<rect width="660" height="420" fill="#ffffff"/>')
    for power in range(0, 6):
        time = 10.0 ** power
        label = '%g µs' % time if time < 1000 else '%g ms' % (time / 1000)
        out.append('<line x1="%d" y1="%.1f" x2="%d" y2="%.1f" stroke="#e0e0e0"/>' % (LEFT, y_of(time), LEFT + WIDE, y_of(time)))
        out.append('<text x="%d" y="%.1f" text-anchor="end">%s</text>' % (LEFT - 8, y_of(time) + 4, label))
    for polygons in (6, 50, 200, 800, 3200):
        out.append('<line x1="%.1f" y1="%d" x2="%.1f" y2="%d" stroke="#e0e0e0"/>' % (x_of(polygons), TOP, x_of(polygons), TOP + HIGH))
        out.append('<text x="%.1f" y="%d" text-anchor="middle">%s</text>' % (x_of(polygons), TOP + HIGH + 18, format(polygons, ',')))
    out.append('<text x="%d" y="%d" text-anchor="middle">polygons</text>' % (LEFT + WIDE // 2, TOP + HIGH + 40))
    for name, colour, k in reversed(SERIES):
        points = ['%.1f,%.1f' % (x_of(middle([p for p, _ in g])), y_of(middle([t[k] for _, t in g]))) for g in sizes(parts)]
        out.append('<polyline points="%s" fill="none" stroke="%s" stroke-width="2"/>' % (' '.join(points), colour))
        for polygons, times in parts:
            out.append('<circle cx="%.1f" cy="%.1f" r="2.5" fill="%s" fill-opacity="0.6"/>' % (x_of(polygons), y_of(times[k]), colour))
    for i, (name, colour, _) in enumerate(SERIES):
        y = TOP + 16 + 20 * i
        out.append('<line x1="%d" y1="%d" x2="%d" y2="%d" stroke="%s" stroke-width="2"/>' % (LEFT + 14, y - 4, LEFT + 40, y - 4, colour))
        out.append('<text x="%d" y="%d">%s</text>' % (LEFT + 48, y, name))
    out.append('</svg>')
    return '\n'.join(out) + '\n'


def main():
    parts = read(sys.argv[1])
    if not parts:
        sys.exit('tests/check/plot.py: no line of the benchmark in %s' % sys.argv[1])
    with open(sys.argv[2], 'w') as f:
        f.write(svg(parts))
    print('plot: %d parts' % len(parts))


main()
