#!/usr/bin/env python3
"""The sine table of document 01, replacement 4: entry k, for k from 0 to 900, is the whole number nearest to
2^50 times the sine of k tenths of a degree.

usage: sine_table.py src            print the entries as crates/num_sine/src/table.rt has them
       sine_table.py specs          print the entries as crates/num_sine/specs/Table.antt has them
       sine_table.py --check FILE.. see that each of these files holds exactly this table

Only whole numbers are used: a fraction is counted in units of 2^-200, and its error is some hundred units at most.
"""
import re
import sys

BITS = 200
ONE = 1 << BITS
ENTRIES = 901


def arctan_of_inverse(n):
    """arctan(1/n), by its series."""
    total, power, k = 0, ONE // n, 1
    while power:
        total += power // k if k % 4 == 1 else -(power // k)
        power //= n * n
        k += 2
    return total


def sine(angle):
    """The sine of an angle in radians, by its series."""
    total, term, k = 0, angle, 1
    while term:
        total += term if k % 4 == 1 else -term
        term = term * angle * angle // (ONE * ONE * (k + 1) * (k + 2))
        k += 2
    return total


def table():
    pi = 4 * (4 * arctan_of_inverse(5) - arctan_of_inverse(239))
    unit = ONE >> 50
    entries = []
    for k in range(ENTRIES):
        value = sine(pi * k // 1800)
        nearest = (value + unit // 2) // unit
        # The error is far too small to decide which whole number is nearest.
        assert abs(abs(value - nearest * unit) - unit // 2) > ONE >> 100, k
        entries.append(nearest)
    return entries


def src(entries):
    return "".join("    %d,\n" % n for n in entries)


def specs(entries):
    rows = [entries[i : i + 5] for i in range(0, len(entries), 5)]
    return "\n".join("    " + " ".join("%d ∷" % n for n in row) for row in rows) + " []\n"


def entries_of(text):
    """The entries in a source file: the numbers between the table's name with `=` and the bracket that ends the table."""
    start = re.search(r"(SINE: \[u64; \d+\] = \[|sine_table =)", text).end()
    end = text.index("]", start)
    return [int(n) for n in re.findall(r"\d+", text[start:end])]


def main():
    entries = table()
    if sys.argv[1:] == ["src"]:
        print(src(entries), end="")
    elif sys.argv[1:] == ["specs"]:
        print(specs(entries), end="")
    elif len(sys.argv) > 2 and sys.argv[1] == "--check":
        for path in sys.argv[2:]:
            if entries_of(open(path, encoding="utf-8").read()) != entries:
                sys.exit("%s: another table" % path)
            print("%s: the table of %d entries" % (path, len(entries)))
    else:
        sys.exit(__doc__)


if __name__ == "__main__":
    main()
