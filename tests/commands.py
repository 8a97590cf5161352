#!/usr/bin/env python3
"""Runs the program on the cases of tests/cases, tables by command, and compares what it writes and its status.

Usage: python3 tests/commands.py [--program PROGRAM]

They are the worked examples of the formats, each kind of fault of each file with its line, the ends of what each layout holds,
command lines that are no order, and by tables that must have all that the sources have, which options exclude one another, their ranges and
their defaults. The same trees and pairs are asked for with several deltas and numbers of workers. The last line is
'N passed, M failed'.
"""

import concurrent.futures
import os
import shutil
import subprocess
import sys
import tempfile

sys.dont_write_bytecode = True
from cases import check, matrix, nearest, offers, options, packed, pairs, replay, routes, shared, tree, words  # noqa: E402
from harness import try_all  # noqa: E402

SECONDS = 120


def run(program, folder, case):
    """Status, output and errors of the program on a case, in a folder of its own."""
    inner = tempfile.mkdtemp(dir=folder)
    for name, text in case.files.items():
        if name != "-":
            with open(os.path.join(inner, name), "wb") as it:
                it.write(text.encode("latin-1"))
    given = case.files.get("-", "").encode("latin-1")
    done = subprocess.run([program, *case.line.split(" ")], cwd=inner, input=given, capture_output=True, timeout=SECONDS)
    shutil.rmtree(inner)
    return done.returncode, done.stdout.decode("latin-1"), done.stderr.decode("latin-1")


def is_met(case, told):
    """Whether the program did what the case asks for."""
    status, out, err = told
    if status != case.status:
        return False
    if case.status in shared.DONE:
        return (out, err) == (case.text, "")
    if case.text is None:
        return out == "" and err != ""
    if case.is_whole:
        return (out, err) == ("", case.text)
    if case.is_begun:
        return out == "" and err.startswith(case.text)
    return out == "" and err.split("\n")[0] == f"spt: {case.text}" and err.endswith("\n")


def tables(count, program, folder):
    with concurrent.futures.ThreadPoolExecutor(os.cpu_count()) as pool:
        for table in (tree, pairs, routes, matrix, nearest, check, packed, offers, replay, words, options):
            cases = table.cases()
            for case, told in zip(cases, pool.map(lambda case: run(program, folder, case), cases)):
                name = table.__name__.split(".")[-1]
                count.of(f"{name}, {case.name}, `spt {case.line}` on {str(case.files)[:200]}: {str(told)[:200]}", is_met(case, told))


def complete(count, program, folder):
    """The tables of options have what the sources have: each pair that excludes one another, each range, each default."""
    told = options.lacking()
    for line in told:
        count.of(line, False)
    count.of("the tables of options are those of the sources", told == [])


def without_words(count, program, folder):
    """The program without a command prints its help on standard error."""
    asked = subprocess.run([program, "--help"], capture_output=True, timeout=SECONDS)
    told = subprocess.run([program], capture_output=True, timeout=SECONDS)
    count.of(f"no command: {told}", (told.returncode, told.stdout, told.stderr) == (1, b"", asked.stdout))


if __name__ == "__main__":
    sys.exit(try_all(__doc__, (tables, complete, without_words)))
