#!/usr/bin/env python3
"""Where the unpatched Rust and the patched one disagree, how often, and by which of the six replacements or of the rules of later requests.

usage: tests/oracle/differences.py COUNT [SEED] [--keep DIR]

Runs the generator's files through the patched program once, through the unpatched one and through the one without replacement 1 several times
(their hash maps are seeded anew in each run), and through each other one that lacks one edit. A disagreement has number K for a
cause where the program without K alone disagrees with the patched one. With --keep the smallest file of each cause is cut down, polygon by
polygon, as long as the disagreement stays, and written to DIR with both answers.
"""
import collections
import concurrent.futures
import math
import os
import re
import struct
import subprocess
import sys

HERE = os.path.dirname(os.path.abspath(__file__))
OUT = os.path.join(HERE, "..", "..", "target", "tests", "oracle")
RUNS = 4
CHUNK = 2000
NUMBER = re.compile(r"\d+\.\d+")
CAUSES = {
    1: "order of shared segments",
    2: "tree",
    3: "hole test",
    4: "sine",
    5: "Not closed",
    6: "order of hollows",
    7: "own boxes",
    8: "thin lengths",
}


def frames(stream):
    at, found = 0, []
    while at < len(stream):
        (n,) = struct.unpack_from("<I", stream, at)
        found.append(stream[at + 4 : at + 4 + n])
        at += 4 + n
    return found


def run(program, stream, options=()):
    return frames(subprocess.run([os.path.join(OUT, program), "--batch", *options], input=stream, capture_output=True, check=True).stdout)


def framed(files):
    return b"".join(struct.pack("<I", len(f)) + f for f in files)


def kind_of_order(a, b):
    """Of two answers that the order of segments tells apart: only digits of a length, or more."""
    same = NUMBER.sub("#", a.decode()) == NUMBER.sub("#", b.decode())
    return "order of sums" if same else CAUSES[1]


def kind_of_tree(a, b):
    """Of two answers that the tree tells apart: only which faces are named, or more."""
    faces = re.compile(r"\|(\d+:\d+,?)+\|")
    same = faces.sub("|", a.decode()) == faces.sub("|", b.decode())
    return "tree: a tie" if same else "tree: a box missed"


def sides(data, scale):
    """Of each side key at this scale how many sides have it, and how many more of them run one way than the other."""
    vertices, polygons = struct.unpack_from("<2I", data, len(data) - 12)
    found = {}
    for p in range(polygons):
        first, count = struct.unpack_from("<2I", data, 24 * vertices + 80 * p + 8)
        points = struct.iter_unpack("<3d", data[24 * first : 24 * (first + count)])
        keys = [tuple(int(math.copysign(math.floor(abs(c * scale) + 0.5), c)) for c in point) for point in points]
        for i, a in enumerate(keys):
            b = keys[(i + 1) % count]
            if a != b:
                n, sum = found.get((min(a, b), max(a, b)), (0, 0))
                found[min(a, b), max(a, b)] = (n + 1, sum + (1 if a < b else -1))
    return found


def kinds_of_open(data):
    """Of a file that counts of open edges tell apart: the sides that do."""
    coarse, fine = sides(data, 1e4), sides(data, 1e5)
    found = set()
    if any(n == 2 and sum for n, sum in coarse.values()):
        found.add("Not closed: two sides that run the same way")
    if any(n > 2 and sum for n, sum in coarse.values()):
        found.add("Not closed: a key of three sides or more")
    if sum(s != 0 for n, s in coarse.values()) != sum(s != 0 for n, s in fine.values()):
        found.add("Not closed: another key")
    return found or {CAUSES[5]}


def causes(k, a, b, data):
    return kinds_of_open(data) if k == 5 else {kind_of_order(a, b) if k == 1 else kind_of_tree(a, b) if k == 2 else CAUSES[k]}


def causes_of(files):
    """For each file whether the answers disagree, whether the unpatched ones do among themselves, and the causes."""
    stream = framed(files)
    patched = run("patched", stream)
    unpatched = [run("unpatched", stream) for _ in range(RUNS)]
    lacking = {k: [run("without_%d" % k, stream) for _ in range(RUNS if k == 1 else 1)] for k in CAUSES}
    rows = []
    for i, answer in enumerate(patched):
        found = set()
        for k, runs in lacking.items():
            for other in {r[i] for r in runs} - {answer}:
                found |= causes(k, answer, other, files[i])
        answers = [r[i] for r in unpatched]
        rows.append((any(a != answer for a in answers), len(set(answers)) > 1, found, answer, answers))
    return rows


def without_polygon(data, which):
    """The part file without one polygon and its vertices."""
    vertices, polygons = struct.unpack_from("<2I", data, len(data) - 12)
    base = 24 * vertices
    kept_vertices, entries, first = b"", b"", 0
    for p in range(polygons):
        entry = data[base + 80 * p : base + 80 * p + 80]
        start, count = struct.unpack_from("<2I", entry, 8)
        if p == which:
            continue
        kept_vertices += data[24 * start : 24 * (start + count)]
        entries += entry[:8] + struct.pack("<2I", first, count) + entry[16:]
        first += count
    job = data[base + 80 * polygons : base + 80 * polygons + 128]
    return kept_vertices + entries + job + struct.pack("<4I", 1, first, polygons - 1, 80 * (polygons - 1) + 144)


def cut_down(data, cause):
    """Fewer polygons, as long as the cause stays."""
    while True:
        (polygons,) = struct.unpack_from("<I", data, len(data) - 8)
        candidates = [without_polygon(data, p) for p in range(polygons)] if polygons > 1 else []
        for candidate, row in zip(candidates, causes_of(candidates)):
            if row[0] and (cause in row[2] or (cause == "flips" and row[1])):
                data = candidate
                break
        else:
            return data


def keep(folder, smallest):
    os.makedirs(folder, exist_ok=True)
    for cause, data in sorted(smallest.items()):
        data = cut_down(data, cause)
        (row,) = causes_of([data])
        name = os.path.join(folder, cause.replace(" ", "_"))
        open(name + ".part", "wb").write(data)
        with open(name + ".txt", "wb") as out:
            out.write(b"patched:\n" + row[3])
            for answer in sorted(set(row[4])):
                out.write(b"unpatched, %d of %d runs:\n" % (row[4].count(answer), RUNS) + answer)


def main():
    words = [w for w in sys.argv[1:] if not w.startswith("--")]
    folder = words.pop() if "--keep" in sys.argv else None
    count, seed = int(words[0]), int(words[1]) if len(words) > 1 else 1
    stream = subprocess.run([os.path.join(OUT, "generate"), str(count), str(seed)], capture_output=True, check=True).stdout
    files = frames(stream)
    chunks = [files[i : i + CHUNK] for i in range(0, count, CHUNK)]
    total = collections.Counter()
    smallest = {}
    with concurrent.futures.ThreadPoolExecutor(os.cpu_count()) as pool:
        for chunk, rows in zip(chunks, pool.map(causes_of, chunks)):
            for data, (differs, flips, found, _, _) in zip(chunk, rows):
                total["files that disagree"] += differs
                total["files whose unpatched answer changes from run to run"] += flips
                if differs and not found:
                    total["several causes together"] += 1
                total.update(found)
                for cause in found | ({"flips"} if flips else set()):
                    if len(data) < len(smallest.get(cause, data + b"+")):
                        smallest[cause] = data
    for cause, n in total.most_common():
        print("%8d  1 in %-8.0f %s" % (n, count / n if n else 0, cause))
    if folder:
        keep(folder, smallest)
    print("differences: %d files, %d runs each, %d disagree" % (count, RUNS, total["files that disagree"]))


if __name__ == "__main__":
    main()
