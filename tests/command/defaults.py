#!/usr/bin/env python3
"""Compares the job that `gablemadder obj` makes where nothing is asked for with `PrintSettings::defaults` of crates/file_job, for each process.

usage: tests/command/defaults.py GABLEMADDER

The source is crates/file_job/src/lib.rt, which is proved to be the scope's. Nozzle and overhang limit are left out for the processes that have no use
for them: CNC, sheet metal and SLS have neither, SLA has no nozzle.
"""
import os
import re
import struct
import subprocess
import sys

ROOT = os.path.dirname(os.path.dirname(os.path.dirname(os.path.abspath(__file__))))
# by the number in the file: the command's name, the source's, and whether it has a use for a nozzle and for an overhang limit
PROCESSES = [
    ("CNC", "CncMachining", False, False),
    ("sheet", "SheetMetal", False, False),
    ("FDM", "Fdm", True, True),
    ("SLA", "Sla", False, True),
    ("SLS", "Sls", False, False),
]
UP = {"Vec3::X": (1.0, 0.0, 0.0), "Vec3::Y": (0.0, 1.0, 0.0), "Vec3::Z": (0.0, 0.0, 1.0)}


def defaults():
    """The fields of each arm of the function, by the process's name or `_`."""
    text = open(os.path.join(ROOT, "crates/file_job/src/lib.rt")).read()
    body = re.search(r"pub fn defaults\(.*?\n    \}\n", text, re.S).group(0)
    arms = re.findall(r"(?:Process::(\w+)|_) => PrintSettings \{(.*?)\}", body, re.S)
    return {name or "_": dict(re.findall(r"(\w+): ([^,\n]+),", fields)) for name, fields in arms}


def job(command, process):
    """The numbers of the job, as the part file has them: process, flags, up, layer, nozzle, min_wall, min_hole, overhang."""
    obj = os.path.join(ROOT, "examples/parts/angle.obj")
    file = subprocess.run([command, "obj", "--process", process, obj], check=True, capture_output=True).stdout
    return struct.unpack_from("<2I7dI", file, len(file) - 144)


def main():
    arms, wrong = defaults(), 0
    for number, (name, source, nozzle, overhang) in enumerate(PROCESSES):
        fields = arms.get(source, arms["_"])
        nozzle, overhang = nozzle and fields["has_nozzle"] == "true", overhang and fields["has_overhang"] == "true"
        wanted = (number, 2 * nozzle + 4 * overhang, *UP[fields["up"]], float(fields["layer"]), float(fields["nozzle"]) * nozzle)
        wanted += (float(fields["min_wall"]), float(fields["min_hole"]), int(fields["overhang"]) * overhang)
        found = job(sys.argv[1], name)
        if found != wanted:
            wrong += 1
            print("command: %s: the job is %s, the defaults are %s" % (name, found, wanted))
    print("command: defaults of %d processes, %d differences" % (len(PROCESSES), wrong))
    sys.exit(wrong != 0)


main()
