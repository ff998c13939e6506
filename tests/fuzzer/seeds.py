#!/usr/bin/env python3
"""What the fuzzer starts from.

usage: tests/fuzzer/seeds.py unpack FOLDER      the files of the fixed list and some of the generator's
       tests/fuzzer/seeds.py kept FOLDER        those that earlier runs found
       tests/fuzzer/seeds.py words FILE         the dictionary
       tests/fuzzer/seeds.py pack FOLDER        keeps the files of a folder, smallest first, as long as there is room
"""
import glob
import gzip
import hashlib
import os
import struct
import subprocess
import sys

HERE = os.path.dirname(os.path.abspath(__file__))
sys.path.insert(0, os.path.join(HERE, "..", "oracle"))
from differences import OUT, framed, frames  # noqa: E402
from fixed_list import chosen, lending  # noqa: E402

KEPT = os.path.join(HERE, "corpus.gz")
# bytes of corpus.gz
ROOM = 250_000
# larger files are slow, and show what smaller ones do
LONGEST = 5000
GENERATED, SEED = 4000, 31

NUMBERS = [0.8, 0.4, 0.5, 1.0, 2.0, 4.0, 10.0, 0.1, 0.05, 0.2, 6.0, 0.99, 2.5, 1.5, 1.2, 0.94, 0.6, 0.15, 0.03, 0.01, 1e-3, 1e-4, 1e-5, 5e-5, 5e-6]
NUMBERS += [1e-9, 1e-12, 1e-14, 0.25, 1e3, 1e4, -1e4, 1e4 + 1e-9, float("inf"), float("nan"), -0.0, 5e-324]
WORDS = [0, 1, 2, 3, 4, 5, 6, 7, 9, 11, 13, 15, 40, 41, 64, 65, 144, 224, 900, 901, 1500, 4096, 4097, 16384, 16385, 100_000, 100_001, 1 << 31, (1 << 32) - 1]
NAMES = [b"Steel", b"Aluminium", b"PLA", b"ABS", b"|", b"\x7e", b"\x7f"]


def generated():
    generate = [os.path.join(OUT, "generate"), str(GENERATED), str(SEED)]
    return frames(subprocess.run(generate, capture_output=True, check=True).stdout)


def put(folder, files):
    os.makedirs(folder, exist_ok=True)
    for data in files:
        open(os.path.join(folder, hashlib.sha1(data).hexdigest()), "wb").write(data)
    print("seeds: %d files in %s" % (len(files), folder))


def unpack(folder):
    put(folder, [f for f in chosen() + [f for f, _ in lending()] + generated() if len(f) <= LONGEST])


def kept(folder):
    put(folder, frames(gzip.open(KEPT).read()) if os.path.exists(KEPT) else [])


def words(path):
    """Numbers, words and names, each as bytes."""
    values = [struct.pack("<d", x) for x in NUMBERS] + [struct.pack("<I", n) for n in WORDS] + NAMES
    open(path, "w").write("".join('"%s"\n' % "".join("\\x%02x" % b for b in value) for value in values))


def pack(folder):
    files = sorted((open(path, "rb").read() for path in glob.glob(os.path.join(folder, "*"))), key=lambda f: (len(f), f))
    few, many = 0, len(files)
    while few < many:
        middle = (few + many + 1) // 2
        fits = len(gzip.compress(framed(files[:middle]), 9, mtime=0)) <= ROOM
        few, many = (middle, many) if fits else (few, middle - 1)
    open(KEPT, "wb").write(gzip.compress(framed(files[:few]), 9, mtime=0))
    print("seeds: %d of %d files kept, %d bytes" % (few, len(files), os.path.getsize(KEPT)))


if __name__ == "__main__":
    commands = {"unpack": unpack, "kept": kept, "words": words, "pack": pack}
    if len(sys.argv) != 3 or sys.argv[1] not in commands:
        sys.exit(__doc__)
    commands[sys.argv[1]](sys.argv[2])
