"""Compares two files, and prints where they differ first: compare.py WANTED GOT. The status is 0 where they are the same."""

import difflib
import sys

wanted, got = (open(file, "rb").read() for file in sys.argv[1:])
if wanted != got:
    lines = ([repr(line)[2:-1] for line in it.splitlines(keepends=True)] for it in (wanted, got))
    told = list(difflib.unified_diff(*lines, lineterm="", n=0))[3:9]
    sys.exit("\n".join(["the wanted (-) and what was written (+):", *told]))
