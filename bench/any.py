#!/usr/bin/env python3
"""Whether any graph is solved at the pace of an easy one: relaxations a reached vertex, and the time of the whole job as a multiple of a plain
Dijkstra's (`bench/dijkstra.cpp`), on graphs that are hostile to a schedule, for widths of buckets that are far apart.

The job is that of `crates/bench_engine` (its command `whole`), which counts relaxations. The programs run in turn, several times; the
median of each counts, and the trees are compared byte for byte each time.

Usage: python3 bench/any.py [--vertices N] [--runs K] [--only KIND..] [--keep FOLDER] [--built PROGRAM]

KIND is one of those of bench/graphs.py. Each row of the table is a graph and a number of workers; each further column is a delta, with the
relaxations a vertex and the multiple of the time. The last line counts the aims met: at most 1.3 relaxations a vertex by one worker
and 2 by four, and at most 1.5 times the plain program's time.
"""

import argparse
import collections
import os
import statistics
import sys
import tempfile

sys.dont_write_bytecode = True
import parts  # noqa: E402
import whole  # noqa: E402

KINDS = ["roads", "random", "ladder", "closed", "lognormal", "star", "path", "late"]
# relaxations a vertex, by the number of workers
MOST_RELAXED = {1: 1.3, 4: 2.0}
LONGEST = 1.5
Measure = collections.namedtuple("Measure", "relaxed whole")


def deltas_of(gr):
    """The widths that are tried on a graph, by their names."""
    with open(gr) as file:
        lengths = [int(line.rsplit(" ", 1)[1]) for line in file if line.startswith("a ")]
    mean = sum(lengths) // len(lengths)
    shares = {"a third": mean / 3, "mean": mean, "3 means": 3 * mean, "30 means": 30 * mean}
    named = {"1": 1, **shares, "median": statistics.median_low(lengths), "greatest": max(lengths)}
    return {name: max(1, int(delta)) for name, delta in named.items()}


def run_ours(programs, files, delta, workers):
    whole.remove(files.trees)
    told = whole.run_telling([programs.bench, "whole", files.gr, files.ss, str(delta), str(workers), files.trees])
    whole.same(files, files.trees, f"{files.gr}, delta {delta}, {workers} workers")
    return Measure(told["relaxed"], told["whole"])


def measure(programs, files, deltas, runs):
    """What the plain program takes, in milliseconds, and what ours does, by the number of workers and the name of delta."""
    plain, ours = [], collections.defaultdict(list)
    for _ in range(runs):
        plain.append(whole.run_plain(programs, files)["whole"])
        for workers in MOST_RELAXED:
            for name, delta in deltas.items():
                ours[workers, name].append(run_ours(programs, files, delta, workers))
    return statistics.median(plain), {key: Measure(*map(statistics.median, zip(*its))) for key, its in ours.items()}


def print_rows(kind, deltas, plain, found):
    """Prints the rows of a graph, and tells of each aim whether it was met."""
    met = []
    for workers, most in MOST_RELAXED.items():
        cells = []
        for name in deltas:
            one = found[workers, name]
            ratio = one.whole / plain
            met += [one.relaxed <= most, ratio <= LONGEST]
            cells.append(f"{one.relaxed:.2f}, {ratio:.2f}")
        print(f"| {kind} | {plain:,.0f} | {whole.named(workers)} | {' | '.join(cells)} |", flush=True)
    return met


def main():
    options = argparse.ArgumentParser(description=__doc__, formatter_class=argparse.RawDescriptionHelpFormatter)
    options.add_argument("--vertices", type=int, default=100_000)
    options.add_argument("--runs", type=int, default=3, help="how often each program runs")
    options.add_argument("--only", nargs="+", choices=KINDS, default=KINDS, metavar="KIND", help="these graphs alone")
    options.add_argument("--keep", metavar="FOLDER", type=os.path.abspath, help="where graphs stay")
    options.add_argument("--built", metavar="PROGRAM", type=os.path.abspath, help="this bench_engine, as it is, in place of a build")
    chosen = options.parse_args()
    met, heads = [], None
    with tempfile.TemporaryDirectory() as folder:
        plain = parts.build_plain(folder, "dijkstra") or sys.exit("any: no C++ compiler")
        programs = whole.Programs(plain, None, chosen.built or parts.build_ours())
        kept = chosen.keep or folder
        os.makedirs(kept, exist_ok=True)
        for kind in chosen.only:
            files, _ = whole.files_of(kept, folder, kind, chosen.vertices, 1)
            deltas = deltas_of(files.gr)
            if heads is None:
                heads = ["graph", "C++, ms", "workers", *deltas]
                print(f"| {' | '.join(heads)} |\n{'|---' * len(heads)}|")
            met += print_rows(kind, deltas, *measure(programs, files, deltas, chosen.runs))
    print(f"{sum(met)} of {len(met)} aims met")


if __name__ == "__main__":
    main()
