#!/usr/bin/env python3
"""Compares `gablemadder check` of many files in one run with the patched oracle: each report byte for byte, each refusal by its number.

usage: tests/command/compare.py GABLEMADDER GENERATE PATCHED COUNT
"""
import os
import re
import struct
import subprocess
import sys

FOLDER = os.path.join("target", "tests", "command", "compared")
SEED = 42


def frames(data):
    at = 0
    while at < len(data):
        (length,) = struct.unpack_from("<I", data, at)
        yield data[at + 4 : at + 4 + length]
        at += 4 + length


def main():
    command, generate, patched, count = sys.argv[1:]
    stream = subprocess.run([generate, count, str(SEED)], capture_output=True, check=True).stdout
    answers = list(frames(subprocess.run([patched, "--batch", "--rows", "2048"], input=stream, capture_output=True, check=True).stdout))
    os.makedirs(FOLDER, exist_ok=True)
    names = [os.path.join(FOLDER, "%05d.part" % i) for i in range(len(answers))]
    for name, file in zip(names, frames(stream)):
        with open(name, "wb") as out:
            out.write(file)
    reports, refusals, status = b"", [], 0
    for name, answer in zip(names, answers):
        if answer.startswith(b"refused"):
            refusals.append("%s: %s" % (name, answer.decode().strip()))
        else:
            reports += b"== %s\n%s" % (name.encode(), answer)
            status = max(status, 1 if b"\nError|" in answer else 0)
    run = subprocess.run([command, "check", *names], capture_output=True)
    told = [re.match(r"\S+: refused \d+", line) for line in run.stderr.decode().splitlines()]
    assert run.stdout == reports, "a report is another"
    assert [line and line.group() for line in told] == refusals, "a refusal is another"
    assert run.returncode == (2 if refusals else status), "the status is %d" % run.returncode
    print("command: %d files in one run, %d reports and %d refusals as the oracle's" % (len(names), len(names) - len(refusals), len(refusals)))


if __name__ == "__main__":
    main()
