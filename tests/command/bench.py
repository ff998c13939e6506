#!/usr/bin/env python3
"""Times `gablemadder check` of 1,000 files of about 200 polygons beside the Rust as published, each as one process, files read and reports printed.

usage: tests/command/bench.py GABLEMADDER PEER GENERATE

The files are those of the generator's that have 180 to 220 polygons and are accepted, again and again until there are 1,000. Each time is the best
of 15, taken in turn.
"""
import os
import struct
import subprocess
import sys
import time

FOLDER = os.path.join("target", "tests", "command", "parts")
FILES, DRAWN, SEED, ROUNDS = 1000, 20000, 41, 15


def frames(stream):
    while head := stream.read(4):
        yield stream.read(struct.unpack("<I", head)[0])


def polygons(file):
    if len(file) < 144:
        return 0
    edition, vertices, count, _ = struct.unpack("<4I", file[-16:])
    return count if edition == 1 and len(file) == 24 * vertices + 80 * count + 144 else 0


def write(command, generate):
    """The names of the files."""
    os.makedirs(FOLDER, exist_ok=True)
    drawn = subprocess.Popen([generate, str(DRAWN), str(SEED)], stdout=subprocess.PIPE)
    good = [file for file in frames(drawn.stdout) if 180 <= polygons(file) <= 220 and accepted(command, file)]
    drawn.wait()
    names = [os.path.join(FOLDER, "%03d.part" % i) for i in range(FILES)]
    for i, name in enumerate(names):
        with open(name, "wb") as out:
            out.write(good[i % len(good)])
    print("command: %d files, %d of them different, %.0f polygons on average" % (FILES, len(good), sum(map(polygons, good)) / len(good)))
    return names


def accepted(command, file):
    return subprocess.run([command, "check", "-"], input=file, capture_output=True).returncode != 2


def timed(words):
    start = time.perf_counter()
    subprocess.run(words, stdout=subprocess.DEVNULL)
    return time.perf_counter() - start


def main():
    command, peer, generate = sys.argv[1:]
    names = write(command, generate)
    ours = theirs = float("inf")
    for _ in range(ROUNDS):
        ours = min(ours, timed([command, "check", *names]))
        theirs = min(theirs, timed([peer, *names]))
    print("command: %d files in %.0f ms, the Rust as published in %.0f ms: %.2f times its time" % (FILES, 1e3 * ours, 1e3 * theirs, ours / theirs))
    sys.exit(ours > theirs)


if __name__ == "__main__":
    main()
