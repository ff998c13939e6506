#!/usr/bin/env python3
"""tests/check/table.py LINES: the rows of README's and of docs/SPEED.md's table of the check, and those of merging, from the lines that the benchmark of the
check printed (target/tests/check_times)."""
import re
import sys

CHECK = re.compile(r"^check, (\w+), .* \((\d+) polygons; .*\): ([\d.]+) µs; the Rust's ([\d.]+) µs with the replacements, ([\d.]+) µs as published")
MERGE = re.compile(r"^merging and printing, .*, (\d+) lines, .* are ([\d.]+) µs; the Rust's ([\d.]+) µs: ([\d.]+) times")
# sizes up to so many polygons make a row
ROWS = (10, 400, 1000, 1500, 3600, 4096)
PROCESSES = {"CNC": ("CNC",), "sheet metal": ("sheet",), "FDM": ("FDM",), "SLA and SLS": ("SLA", "SLS")}


def plain(micros):
    """As the tables have times."""
    if micros >= 1000:
        return ("%.0f" if micros >= 9950 else "%.1f") % (micros / 1000), "ms"
    return ("%.0f" if micros >= 100 else "%.1f") % micros, "µs"


def span(numbers):
    (low, least), (high, most) = plain(min(numbers)), plain(max(numbers))
    if (low, least) == (high, most):
        return "%s %s" % (low, least)
    return "%s%s to %s %s" % (low, "" if least == most else " " + least, high, most)


def ratios(numbers):
    low, high = "%.2f" % min(numbers), "%.2f" % max(numbers)
    return low if low == high else "%s to %s" % (low, high)


def polygons(parts):
    low, high = ("{:,}".format(f(part[1] for part in parts)) for f in (min, max))
    return low if low == high else "%s to %s" % (low, high)


def sizes(parts):
    """The parts of each row."""
    floor = 0
    for most in ROWS:
        row = [part for part in parts if floor < part[1] <= most]
        floor = most
        if row:
            yield row


def main():
    with open(sys.argv[1]) as f:
        lines = f.read().split("\n")
    parts = [(m[1], int(m[2]), float(m[3]), float(m[4]), float(m[5])) for m in map(CHECK.match, lines) if m]
    print("README:\n")
    for row in sizes(parts):
        print("| %s | %s | %s | %s |" % (polygons(row), span([p[2] for p in row]), ratios([p[2] / p[3] for p in row]), ratios([p[2] / p[4] for p in row])))
    print("\ndocs/SPEED.md:\n")
    for name, processes in PROCESSES.items():
        for row in sizes([p for p in parts if p[0] in processes]):
            ours, theirs, published = ([p[k] for p in row] for k in (2, 3, 4))
            print(
                "| **the check**, %s, %s polygons (%d part%s) | %s | the Rust with the replacements, %s; as published %s | %s times its time; %s |"
                % (
                    name, polygons(row), len(row), "s" * (len(row) > 1), span(ours), span(theirs), span(published),
                    ratios([p[2] / p[3] for p in row]), ratios([p[2] / p[4] for p in row]),
                )
            )
    print("\nmerging and printing, lines: ours, the Rust's, times:\n")
    for m in filter(None, map(MERGE.match, lines)):
        print("%s: %s, %s, %s" % (m[1], span([float(m[2])]), span([float(m[3])]), m[4]))


if __name__ == "__main__":
    main()
