#!/usr/bin/env python3
"""Compares what docs/CONTRIBUTING.md quotes with the files that it quotes from.

The line before each block between fences ends with the name of a file in backquotes; the block must be in that file, word for
word. The blocks of crates/spt_example/stdout, which the merge gate compares with what the program prints, must be that whole
file, one after the other. The page must name each file of the example's code.

Usage: python3 tests/document_library.py

The last line is 'N passed, M failed'.
"""

import glob
import os
import re
import sys

sys.dont_write_bytecode = True
from harness import HOME  # noqa: E402

PAGE = "docs/CONTRIBUTING.md"
OUTPUT = "crates/spt_example/stdout"
CODE = "crates/spt_example/src/*.rt"
# A line of text, blank lines, and a block between fences.
QUOTE = re.compile(r"^([^\n]*)\n+```\w*\n(.*?)^```$", re.M | re.S)


def read(path):
    """The text of a file, or nothing if there is none."""
    try:
        with open(f"{HOME}/{path}", encoding="utf-8") as file:
            return file.read()
    except FileNotFoundError:
        return ""


def quotes(page):
    """The file that the page says each block is from, or None if it names none, and the block."""
    for line, block in QUOTE.findall(page):
        named = re.findall(r"`([^`]*)`", line)
        yield named[-1] if named else None, block


def faults(page, blocks):
    """What is wrong, or None, for each block, for the output and for each file of code."""
    for path, block in blocks:
        is_there = path is not None and block and f"\n{block}" in f"\n{read(path)}"
        yield None if is_there else f"{path}: this isn't in the file:\n{block}"
    shown = "".join(block for path, block in blocks if path == OUTPUT)
    yield None if shown == read(OUTPUT) != "" else f"{OUTPUT}: the page doesn't show exactly this file"
    for path in sorted(glob.glob(f"{HOME}/{CODE}")):
        name = os.path.basename(path)
        yield None if f"`{name}`" in page or f"/{name}`" in page else f"{name}: the page doesn't name it"


def main():
    page = read(PAGE)
    blocks = list(quotes(page))
    told = list(faults(page, blocks))
    if 2 * len(blocks) != len(re.findall(r"^```", page, re.M)):
        told.append(f"{PAGE}: a fence without its file or its end")
    failed = [fault for fault in told if fault]
    print("\n".join(failed + [f"{len(told) - len(failed)} passed, {len(failed)} failed"]))
    return 1 if failed or not blocks else 0


if __name__ == "__main__":
    sys.exit(main())
