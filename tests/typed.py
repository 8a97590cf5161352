#!/usr/bin/env python3
"""Checks the types of the Python package by mypy, by its strict rules, and what the types tell a program that uses it.

Usage: python3 tests/typed.py

What is checked stands in python/pyproject.toml, so that `mypy` in that folder does the same; it is checked for the oldest Python that
the package takes, too. A program that misuses the package must get mypy's errors, and one that uses it well must get none. What share of
the expressions may be anything is printed. Where mypy or NumPy isn't installed (Debian: mypy, python3-numpy), all is left out, and said
so; with SPT_ALL=1 that counts as failed. The last line is 'N passed, M failed'.
"""

import os
import re
import shutil
import subprocess
import sys
import tempfile

sys.dont_write_bytecode = True
from harness import HOME, Count, put, read  # noqa: E402

OLDEST = "3.9"
SECONDS = 300
# the greatest share, in a hundred, of expressions that may be anything: names of vertices are, and what NumPy and pandas return
MOST_ANY = 13

# lines of a program, each with what mypy must find wrong with it, if anything
LINES = {
    "graph = spt.Graph(3, [(1, 2, 7), (2, 3, 1)], unit=0.5)": "",
    "tree: spt.Tree = graph.tree(1, within=2.5)": "",
    "vertices: memoryview = tree.part(nearest_first=True).vertices": "",
    "for each in graph.trees([1, 2], workers='all', progress=print): each.path(3)": "",
    "pair = graph.pair(1, 3)": "",
    "farthest: float = float(tree.lengths.max())": "",
    "tree.lengths.walk": 'has no attribute "walk"',
    "length: float = pair.length if pair else 0.0": "",
    "route = graph.route(1, 3)": "",
    "arcs: list[int] = route.arcs if route else []": "",
    "routes: list[spt.Route | None] = graph.routes([(1, 3)], workers=2)": "",
    "told: str = repr(graph.nearest([1]).source(3))": "",
    "pair.length": 'Item "None" of "Optional[Pair]" has no attribute "length"',
    "route.vertices": 'Item "None" of "Optional[Route]" has no attribute "vertices"',
    "len(graph.path(1, 3))": 'expected "Sized"',
    "graph.trees([1], workers='many')": 'expected "Union[int, Literal[\'all\']]"',
    "graph.tree(1, within='far')": 'expected "Optional[float]"',
    "graph.tree(1, 2.5)": 'Too many positional arguments for "tree" of "Graph"',
    "graph.names = ()": 'Property "names" defined in "Graph" is read-only',
    "tree.walk": '"Tree" has no attribute "walk"',
}


def mypy(folder, *words):
    """The status and the lines of mypy, which keeps nothing in the checkout."""
    words = ["mypy", "--strict", "--config-file", f"{HOME}/python/pyproject.toml", "--cache-dir", f"{folder}/cache", *words]
    known = {**os.environ, "MYPYPATH": f"{HOME}/python"}
    done = subprocess.run(words, cwd=f"{HOME}/python", env=known, capture_output=True, text=True, timeout=SECONDS)
    return done.returncode, done.stdout + done.stderr


def add_package(count, folder):
    """Checks the package for this Python's version and the oldest. Returns whether that could be done."""
    status, text = mypy(folder, "--any-exprs-report", f"{folder}/any")
    if 'module named "numpy"' in text:
        return False
    count.of(f"the package:\n{text}", status == 0)
    of_oldest = mypy(folder, "--python-version", OLDEST)
    count.of(f"the package for Python {OLDEST}:\n{of_oldest[1]}", of_oldest[0] == 0)
    anys, expressions = map(int, re.search(r"^ *Total +(\d+) +(\d+)", read(f"{folder}/any/any-exprs.txt"), re.M).groups())
    print(f"{anys:,} of {expressions:,} expressions may be anything")
    count.of(f"more than {MOST_ANY} of 100 expressions may be anything", 100 * anys <= MOST_ANY * expressions)
    return True


def add_program(count, folder):
    """Compares what mypy finds in a program with what it must find."""
    path = put(f"{folder}/program.py", "\n".join(["import spt", *LINES, ""]))
    text = mypy(folder, "--no-pretty", path)[1]
    for number, (line, wanted) in enumerate(LINES.items(), 2):
        found = "\n".join(re.findall(rf"program\.py:{number}: error: (.*)", text))
        count.of(f"{line}: {found or 'no error'}", wanted in found if wanted else not found)


def main():
    count, can_check = Count(), bool(shutil.which("mypy"))
    with tempfile.TemporaryDirectory() as folder:
        can_check = can_check and add_package(count, folder)
        if can_check:
            add_program(count, folder)
    if not can_check:
        print("left out: mypy, or NumPy for it, isn't installed (Debian: mypy, python3-numpy)")
        count.failed += os.environ.get("SPT_ALL") == "1"
    return count.end()


if __name__ == "__main__":
    sys.exit(main())
