#!/usr/bin/env python3
"""Whether each clause can be read in one glance: no line of one has more than 100 columns.

A clause is what stands after `requires`, `ensures` or `ghost NAME` in a source file, up to its closing brace. A longer line
hides a definition that wants a name, or an implication whose premises want a line each.

Usage: python3 tests/clauses.py

It prints the longer ones, the longest first. The last line is 'N passed, M failed'.
"""

import glob
import os
import re
import sys

sys.dont_write_bytecode = True
from harness import HOME  # noqa: E402
COLUMNS = 100
BEGINS = re.compile(r"\s*(requires|ensures|ghost (?!use\b)\w)")


def clauses(path):
    """The clauses of a file: the number of the first line of each, and its lines."""
    with open(path, encoding="utf-8") as file:
        lines = file.read().split("\n")
    at = 0
    while at < len(lines):
        first, depth = at, 0
        at += 1
        if not BEGINS.match(lines[first]):
            continue
        for line in lines[first:]:
            depth += line.count("{") - line.count("}")
            if depth <= 0:
                break
            at += 1
        yield first + 1, lines[first:at]


def main():
    passed, failed = 0, []
    for path in glob.glob(f"{HOME}/crates/*/src/**/*.rt", recursive=True):
        for number, lines in clauses(path):
            widest = max(lines, key=len)
            if len(widest) <= COLUMNS:
                passed += 1
            else:
                failed.append((len(widest), f"{os.path.relpath(path, HOME)}:{number}", widest.strip()))
    for width, place, line in sorted(failed, reverse=True):
        print(f"{place}: {width} columns: {line}")
    print(f"{passed} passed, {len(failed)} failed")
    return 1 if failed else 0


sys.exit(main())
