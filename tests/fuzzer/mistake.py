#!/usr/bin/env python3
"""A copy of the oracle's source with a mistake in it.

usage: tests/fuzzer/mistake.py EDIT SOURCE FOLDER     the edit is written as those of tests/oracle/edits
"""
import os
import re
import shutil
import sys

edit, source, folder = sys.argv[1:]
shutil.rmtree(folder, ignore_errors=True)
shutil.copytree(source, folder)
text = open(edit).read()
path = os.path.join(folder, re.search(r"^file: (\S+)$", text, re.M).group(1))
for old, new in re.findall(r"^<<<<\n(.*?)\n====\n(.*?)\n>>>>$", text, re.M | re.S):
    before = open(path).read()
    if before.count(old) != 1:
        sys.exit("mistake: %s: its place is found %d times" % (edit, before.count(old)))
    open(path, "w").write(before.replace(old, new))
