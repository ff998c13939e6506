#!/usr/bin/env python3
"""The fixed list of the patched oracle's answers, which the program replay_check of the gate replays.

usage: tests/oracle/fixed_list.py make | check

crates/replay_check/stdin holds the part files as the program reads them: five u32 (little-endian), the length of what follows and how many u32 and
f64 of scratch, fault rows and report bytes are lent; then the file with each run of zero bytes as a zero and the run's length (1 to 255). Its stdout
holds the answers one after the other, each a report or a refusal's line. `make` writes both again, byte by byte the same; `check` compares.
The files are document 01's examples, every row of its table of refusals among them, the readings at the edge, and of the generator's files, smallest
first, as many as it takes for each rule and severity, merged line, refusal, process and shape to stand in several.
"""
import collections
import math
import os
import re
import struct
import subprocess
import sys

import examples
import shown
from differences import OUT, frames, framed, run
from parts import FDM, SHEET, SLA, SLS, bore, box, holed_plate, job, part
from shown import drill_point

HERE = os.path.dirname(os.path.abspath(__file__))
CRATES = os.path.join(HERE, "..", "..", "crates")
# no file is longer, but that of 1,025 faces, which nothing is lent for
LONGEST, LONGEST_OF_ALL = 16384, 155944
# what the program lends, in the order of its numbers
LENT = {"--words": 6432, "--reals": 7456, "--rows": 512, "--report": 65536}
# the programs have these fault rows and no others
ROWS = (0, 512)
FROM_GENERATOR, SEED = 15000, 20
QUOTA = 4
# 26 texts of rules by severity, 14 rules that merge, refusals 1 to 12
KNOWN = 52
# what tells apart the texts of one rule
KINDS = ["to machine", "to print", "micro drills", "punch poorly", "undersized", "gun drilling", "standard drills", "from an edge", "from a bend", "powder", "resin"]


def around(x):
    """x, and one f64 and two to each side."""
    down, up = math.nextafter(x, -math.inf), math.nextafter(x, math.inf)
    return [math.nextafter(down, -math.inf), down, x, up, math.nextafter(up, math.inf)]


def edges():
    """The readings at the edge, through the whole check."""
    size = (20.0, 20.0)
    for thickness in around(0.4) + around(0.8):
        wall = box((0.0, 0.0, 0.0), size + (thickness,))
        yield part(wall, job())
        yield part(wall, job(flags=1, name=b"Zero", wall=0.0))
    for length in around(4.0) + around(10.0):
        yield part(bore(0.5, length), job())
    for radius in around(0.5):
        yield part(bore(radius, 1.0), job())
        yield part(bore(radius, 1.0)[:20], job())
    for off in [0.0] + around(1e-6):
        yield drill_point(off)
    side = 1e-3
    for height in around(1e-3):
        hollow = box((0.0, 0.0, 0.0), (side, side, height), feature=3, inward=True)
        yield part(box((-5.0, -5.0, -5.0), (5.0, 5.0, 5.0)) + hollow, job(process=SLS))
    for layer in around(0.2):
        yield part(box((0.0, 0.0, 0.0), (20.0, 0.2, 20.0)), job(process=FDM, layer=layer))
        yield part(box((0.0, 0.0, 0.0), (20.0, 0.4, 20.0)), job(process=SLA, layer=layer))
    for height in around(0.1):
        yield part(box((0.0, 0.0, 0.0), (20.0, height, 20.0)), job(process=SLA, layer=0.3))
        yield part(box((0.0, 0.0, 0.0), size + (height,)), job())
    for layer in (0.025, 0.03, 0.1):
        yield part(box((0.0, 0.0, 0.0), (20.0, 0.04, 20.0)), job(process=SLA, layer=layer))
    yield shown.SHOWN["two_layers"]
    for nozzle in around(0.4):
        yield part(box((0.0, 0.0, 0.0), (0.4, 20.0, 20.0)), job(process=FDM, flags=2, nozzle=nozzle))


def pairs():
    """Two holes that merge into one line: the generator's are longer than a file of the list may be."""
    sheet = job(process=SHEET, flags=9, ratio=1000, name=b"Steel", wall=0.8)
    for y in (5.0, 6.0, 7.0, 8.0):
        yield part(holed_plate([(2.5, y), (2.5, y + 8.0)]), sheet)
    for radius, length in ((0.25, 3.0), (0.25, 6.0), (0.375, 4.0), (0.375, 9.0)):
        yield part(bore(radius, length) + bore(radius, length, feature=3), job())


def features(answer, shape):
    """What an answer has that the list is to hold several of."""
    lines = answer.decode().split("\n")
    if lines[0].startswith("refused"):
        return {lines[0]}
    _, thickness, bends, height = lines[0].split()
    found = {"shape " + shape, "thickness" if thickness != "-" else "", "bends" if bends != "0" else "", "height" if height != "-" else ""}
    for line in lines[1:-1]:
        severity, rule, count, _, text = line.split("|", 4)
        kind = next((k for k in KINDS if k in text), "")
        found |= {"%s %s %s" % (severity, rule, kind), "merged %s" % rule if int(count) > 1 else ""}
    return found - {""}


def lent_by(options):
    """What is lent, by options of the oracle."""
    lent = dict(LENT)
    lent.update(zip(options[::2], map(int, options[1::2])))
    return [lent[name] for name in LENT]


def lending():
    """Examples that turn on what is lent, or on one face too many: each file with what is lent for it."""
    for _, data, options, want in examples.cases():
        if options or want == 9:
            assert len(data) <= LONGEST_OF_ALL
            lent = lent_by(options)
            if lent[2] in ROWS:
                yield data, lent


def chosen():
    files = []
    for _, data, options, _ in examples.cases():
        if not options and len(data) <= LONGEST:
            files.append(data)
    files += [*edges(), *pairs()]
    generate = [os.path.join(OUT, "generate"), str(FROM_GENERATOR), str(SEED)]
    made = frames(subprocess.run(generate, capture_output=True, check=True).stdout)
    names = subprocess.run([generate[0], "--names"] + generate[1:], capture_output=True, check=True, text=True).stdout.splitlines()
    answers = run("patched", framed(made))
    count = collections.Counter()
    for i in sorted(range(len(made)), key=lambda i: (len(made[i]), i)):
        found = features(answers[i], names[i].split("\t")[1])
        if len(made[i]) <= LONGEST and any(count[f] < QUOTA for f in found):
            files.append(made[i])
            count.update(found)
    return files


def packed(data):
    """Each run of zeros as a zero and its length."""
    return re.sub(rb"\0{1,255}", lambda run: bytes([0, len(run.group())]), data)


def answered(data, lent):
    """The oracle's answer where so much is lent."""
    options = [word for name, count in zip(LENT, lent) for word in (name, str(count))]
    return subprocess.run([os.path.join(OUT, "patched")] + options, input=data, capture_output=True, check=True).stdout


def head(data, lent):
    words, reals, rows, report = lent
    return struct.pack("<5I", len(data), words, reals, rows, report) + data


def main():
    files = [(data, lent_by([])) for data in chosen()] + list(lending())
    answers = [answered(data, lent) for data, lent in files]
    written = {
        "replay_check/stdin": b"".join(head(packed(data), lent) for data, lent in files),
        "replay_check/stdout": b"".join(answers),
        # the program's own: document 01's plate
        "dfm_main/stdin": files[0][0],
        "dfm_main/stdout": answers[0],
    }
    if sys.argv[1:] == ["make"]:
        for name, data in written.items():
            open(os.path.join(CRATES, name), "wb").write(data)
    elif sys.argv[1:] != ["check"]:
        sys.exit(__doc__)
    count = collections.Counter()
    for answer in answers:
        count.update(f for f in features(answer, "") if f.split()[0] in ("Error", "Warning", "Note", "merged", "refused"))
    # an example each is all there is of 9
    least = min(n for what, n in count.items() if what not in ("refused 9", "refused 10", "refused 11", "refused 12"))
    if least < 3 or len(count) < KNOWN:
        sys.exit("fixed_list: %d rules, merged lines and refusals, the rarest %d times" % (len(count), least))
    for name, data in written.items():
        if open(os.path.join(CRATES, name), "rb").read() != data:
            sys.exit("fixed_list: %s is another" % name)
    print("fixed list: %d part files, %d bytes, %d bytes of answers; %d rules, merged lines and refusals, each at least %d times" % (len(files), len(written["replay_check/stdin"]), len(written["replay_check/stdout"]), len(count), least))


if __name__ == "__main__":
    main()
