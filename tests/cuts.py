#!/usr/bin/env python3
"""Reads graphs whose texts are so long that several workers read them in parts, and sees that no cut between parts is noticed.

Usage: python3 tests/cuts.py [--program PROGRAM] [--places K] [--seed S]

A comment before the text moves it on byte by byte, so that the places at which it is cut fall on each place of a line. What is
compared is the tree of a plain Dijkstra; and, where a line has a fault, that fault at its line, wherever in the text it stands:
with lines in the usual spelling, and with lines in every other one. The last line is 'N passed, M failed'.
"""

import random
import sys
import tempfile

sys.dont_write_bytecode = True
from harness import Count, options_of, program, put, run  # noqa: E402
from trees import block, dijkstra  # noqa: E402

WORKERS = (1, 2, 4, 64)
VERTICES = 2_000
ARCS = 120_000
LONGEST_COMMENT = 64


def usual(tail, head, length, draw):
    return f"a {tail} {head} {length}\n"


def unusual(tail, head, length, draw):
    """The same arc, its fields parted in some other way, or behind lines that spell nothing."""
    return draw.choice([
        f"a {tail} {head} {length}\n",
        f"a  {tail} {head}\t{length}\n",
        f" a {tail} {head} {length} \n",
        f"a {tail} {head} {length}\r\n",
        f"\na {tail} {head} {length}\n",
        f"c {'x' * draw.randrange(1023)}\na {tail} {head} {length}\n",
        f" \t \r\na {tail} {head} {length}\n",
        f"c a 1 2 3\na {tail} {head} {length}\n",
    ])


class Sample:
    """A graph, each of its arcs as a line, and the bytes of its tree."""

    def __init__(self, spell, seed):
        draw = random.Random(seed)
        lengths = (9, 99, 999, 4_294_967_295)
        arcs = [(draw.randint(1, VERTICES), draw.randint(1, VERTICES), draw.randint(1, draw.choice(lengths))) for _ in range(ARCS)]
        self.lines = [spell(*arc, draw) for arc in arcs]
        rows = {vertex: [] for vertex in range(1, VERTICES + 1)}
        for tail, head, length in arcs:
            rows[tail].append((head, length))
        self.tree = block(VERTICES, 1, *dijkstra(rows, 1))

    def text(self, moved=0, announced=ARCS, lines=None):
        """The text, moved on by a comment of so many bytes in all."""
        comment = "" if moved < 3 else f"c{' ' * (moved - 2)}\n"
        return f"{comment}p sp {VERTICES} {announced}\n{''.join(self.lines if lines is None else lines)}"


def tree_of(tried, path, workers):
    return run(tried, "tree", path, "--source", "1", "--delta", "mean", "--workers", str(workers))


def compare_trees(count, tried, folder, name, sample):
    for moved in range(3, 3 + LONGEST_COMMENT):
        path = put(f"{folder}/moved.gr", sample.text(moved))
        workers = WORKERS[moved % len(WORKERS)]
        count.of(f"{name} lines, moved by {moved}, {workers} workers", tree_of(tried, path, workers) == (0, sample.tree, ""))


def compare_streams(count, tried, name, sample):
    """The text on standard input, where it comes in pieces as they are written."""
    for moved in (3, 20, 41):
        for workers in WORKERS:
            words = ("tree", "-", "--source", "1", "--delta", "mean", "--workers", str(workers))
            told = run(tried, *words, given=sample.text(moved).encode())
            count.of(f"{name} lines on standard input, moved by {moved}, {workers} workers", told == (0, sample.tree, ""))


def compare_ends(count, tried, folder, name, sample):
    """A text whose last line has no LF, one that lacks an arc, and one that has an arc too many."""
    last = sum(line.count("\n") for line in sample.lines) + 1
    for workers in WORKERS:
        path = put(f"{folder}/open.gr", sample.text()[:-1])
        count.of(f"{name} lines without the last LF, {workers} workers", tree_of(tried, path, workers) == (0, sample.tree, ""))
        for announced, line, kind in ((ARCS + 1, last + 1, "7 TooFew"), (ARCS - 1, last, "6 TooMany")):
            path = put(f"{folder}/count.gr", sample.text(announced=announced))
            status, text, errors = tree_of(tried, path, workers)
            told = errors.startswith(f"spt: gr: line {line}: {kind}\n")
            count.of(f"{name} lines, {announced} announced, {workers} workers: {errors}", (status, text, told) == (2, "", True))


FAULTS = (
    ("a 1 2 03\n", "2 BadLine"),
    ("b 1 2 3\n", "2 BadLine"),
    (f"a {VERTICES + 1} 2 3\n", "5 OutOfRange U"),
    ("a 1 0 3\n", "5 OutOfRange V"),
    ("a 1 2 0\n", "5 OutOfRange W"),
    ("a 1 2 4294967296\n", "5 OutOfRange W"),
    ("p sp 1 0\n", "4 SecondProblem"),
    (f"c {'x' * 1023}\n", "1 LongLine"),
    (f"{'x' * 70_000}\n", "1 LongLine"),
)


def compare_faults(count, tried, folder, name, sample, chosen):
    """A line with a fault at some places of the text, and another one behind it, which isn't told."""
    draw = random.Random(chosen.seed)
    for number in range(chosen.places):
        fault, kind = FAULTS[number % len(FAULTS)]
        place = draw.randrange(ARCS)
        later = draw.randrange(place, ARCS)
        lines = [*sample.lines[:place], fault, *sample.lines[place:later], draw.choice(FAULTS)[0], *sample.lines[later:]]
        line = sum(it.count("\n") for it in sample.lines[:place]) + 2
        path = put(f"{folder}/fault.gr", sample.text(lines=lines))
        workers = WORKERS[number % len(WORKERS)]
        status, text, errors = tree_of(tried, path, workers)
        told = errors.startswith(f"spt: gr: line {line}: {kind}\n")
        count.of(f"{kind} at line {line} of {name} lines, {workers} workers: {errors[:80]}", (status, text, told) == (2, "", True))


def main():
    options = options_of(__doc__)
    options.add_argument("--places", type=int, default=72)
    options.add_argument("--seed", type=int, default=1)
    chosen = options.parse_args()
    tried, count = program(chosen), Count()
    with tempfile.TemporaryDirectory() as folder:
        for name, spell in (("usual", usual), ("other", unusual)):
            sample = Sample(spell, chosen.seed)
            compare_trees(count, tried, folder, name, sample)
            compare_streams(count, tried, name, sample)
            compare_ends(count, tried, folder, name, sample)
            compare_faults(count, tried, folder, name, sample, chosen)
    return count.end()


if __name__ == "__main__":
    sys.exit(main())
