#!/usr/bin/env python3
"""Runs ./spt as a user starts it, on the examples, for its help and on words and files that are wrong, in a folder whose path holds blanks.

Usage: python3 tests/examples.py [--cases FOLDER]

--cases runs nothing, and makes a folder of cases for `rt try --cases`, which runs a program that isn't proved: the examples, and the help.
The examples are those of examples/, the texts of help those of tests/help. The last line is 'N passed, M failed'.
"""

import argparse
import collections
import glob
import os
import re
import shutil
import subprocess
import sys
import tempfile

sys.dont_write_bytecode = True
from harness import HOME, Count, put, read, run  # noqa: E402

EXAMPLES = f"{HOME}/examples"
NEEDED = ["diamond.gr", "diamond.ss", "diamond.tree", "offers.off"]
# A case: its name, the words, what they give on standard output and on standard error, the status, and standard input.
Case = collections.namedtuple("Case", "name words out err status given", defaults=["", 0, b""])


def name_of(path):
    return os.path.splitext(os.path.basename(path))[0]


def help_words(name):
    """The words that ask for the help of a file of tests/help: those of a command, in short, or of the program."""
    if name == "spt":
        return ["--help"]
    return [name.removesuffix("_short"), "-h" if name.endswith("_short") else "--help"]


def runs():
    """Reports of runs, and the trees, the verdict and the words of the other examples."""
    for path in sorted(glob.glob(f"{EXAMPLES}/*.rep")):
        yield Case(f"example {name_of(path)}", ["replay", os.path.basename(path)], read(f"{path.removesuffix('.rep')}.report"))
    tree, files = read(f"{EXAMPLES}/diamond.tree"), ["diamond.gr", "diamond.ss"]
    for delta in (1, 2, 100):
        for workers in (1, 2, 64):
            words = ["tree", *files, "--delta", str(delta), "--workers", str(workers)]
            yield Case(f"example tree, delta {delta}, {workers} workers", words, tree)
    for place, what in enumerate(("graph", "sources")):
        words = [*files[:place], "-", *files[place + 1 :]]
        yield Case(f"example tree, {what} on standard input", ["tree", *words, "--delta", "3"], tree, given=read(f"{EXAMPLES}/{files[place]}").encode())
    yield Case("example check", ["check", "diamond.gr", "diamond.tree"], "yes\n")
    yield Case("a wrong tree", ["check", "diamond.gr", "wrong.tree"], "no 4 3\n", "", 3)
    yield Case("example offers", ["offers", "offers.off"], read(f"{EXAMPLES}/offers.words"))


def helps():
    """Each text of help, and the other words that ask for it."""
    for path in sorted(glob.glob(f"{HOME}/tests/help/*.txt")):
        yield Case(f"help in {os.path.basename(path)}", help_words(name_of(path)), read(path))
    whole = read(f"{HOME}/tests/help/spt.txt")
    yield Case("help in short", ["-h"], whole)
    yield Case("help by its command", ["help"], whole)
    yield Case("help of a command", ["help", "replay"], read(f"{HOME}/tests/help/replay.txt"))
    yield Case("no command", [], "", whole, 1)


def faults(folder):
    """Words and files that are refused, each with its lines on standard error."""
    none = f"{folder}/no such file"
    missing = f"cannot open\nspt: {none}: No such file or directory (os error 2)\n"
    yield Case("a missing file", ["replay", none], "", f"spt: replay: {missing}", 6)
    yield Case("a folder", ["replay", folder], "", f"spt: replay: line 1: 9 Read\nspt: {folder}: Is a directory (os error 21)\n", 6)
    yield Case("a missing graph", ["tree", none, f"{folder}/diamond.ss", "--delta", "3"], "", f"spt: gr: {missing}", 6)
    yield Case("a missing tree", ["check", f"{folder}/diamond.gr", none], "", f"spt: tree: {missing}", 6)
    farthest = "--pred-bits 20 allows up to 17592186044414"
    told = f"spt: delta out of range\nspt: delta is from 1 to 68719476734 with --pred-bits 28, or mean; {farthest}\n"
    yield Case("a delta out of range", ["tree", "none.gr", "none.ss", "--delta", "68719476735"], "", told, 1)


def fill_device(count):
    with open("/dev/full", "w") as full:
        done = subprocess.run([f"{HOME}/spt", "replay", f"{EXAMPLES}/kept.rep"], stdout=full, stderr=subprocess.PIPE, text=True)
    told = "spt: write failed\nspt: standard output: No space left on device (os error 28)\n"
    count.of(f"a full device: {done}", (done.returncode, done.stderr) == (6, told))


def put_cases(folder):
    """The cases for `rt try`: its program is called `program`, and has many checks in it, so that one tree is enough."""
    for case in [*runs(), *helps()]:
        if case.status or case.given or "--workers" in case.words and case.words[-3:] != ["2", "--workers", "2"]:
            continue
        name = f"{folder}/{re.sub(r'[^a-z0-9]+', '_', case.name.lower())}"
        put(name, "\n")
        put(f"{name}.args", "".join(f"{word}\n" for word in case.words))
        put(f"{name}.stdout", re.sub("^Usage: spt", "Usage: program", case.out, flags=re.M))


def main():
    options = argparse.ArgumentParser(description=__doc__, formatter_class=argparse.RawDescriptionHelpFormatter)
    options.add_argument("--cases", metavar="FOLDER")
    chosen = options.parse_args()
    if chosen.cases:
        return put_cases(chosen.cases)
    count = Count()
    with tempfile.TemporaryDirectory(prefix="spt test.") as folder:
        for path in [f"{EXAMPLES}/{name}" for name in NEEDED] + glob.glob(f"{EXAMPLES}/*.rep"):
            shutil.copy(path, folder)
        put(f"{folder}/wrong.tree", re.sub("^v 4 5 2$", "v 4 5 3", read(f"{EXAMPLES}/diamond.tree"), flags=re.M))
        for case in [*runs(), *helps(), *faults(folder)]:
            told = run(f"{HOME}/spt", *case.words, cwd=folder, given=case.given)
            count.of(f"{case.name}: {told}", told == (case.status, case.out, case.err))
    fill_device(count)
    return count.end()


if __name__ == "__main__":
    sys.exit(main())
