#!/usr/bin/env python3
"""Compares `spt matrix` with a plain Dijkstra, on graphs of each kind of bench/graphs.py.

Usage: python3 tests/matrix.py [--vertices N] [--sources S] [--targets T] [--seed S]

For each kind S sources and T targets are drawn, in no order, some twice. For each number of workers, and for a share of the sources, the
program must write the lines that Dijkstra's algorithm gives. The last line is 'N passed, M failed'.
"""

import random
import sys

sys.dont_write_bytecode = True
from harness import arcs_by_tail, compare_kinds, drawn, graphs, write_list  # noqa: E402
from trees import dijkstra, line_of_pair, run_spt  # noqa: E402

WORKERS = ("1", "4", "64", "all")


def compare(count, kind, chosen, folder):
    graph, sources_of, targets_of = (f"{folder}/{kind}.{ending}" for ending in ("gr", "ss", "targets"))
    graphs.write_graph(graph, kind, chosen.vertices, chosen.seed)
    draw = random.Random(chosen.seed)
    sources, targets = drawn(draw, chosen.sources, chosen.vertices), drawn(draw, chosen.targets, chosen.vertices)
    write_list(sources_of, sources)
    write_list(targets_of, targets)
    rows = arcs_by_tail(graph, chosen.vertices)
    answers = {source: dijkstra(rows, source) for source in set(sources)}
    lines = ["".join(line_of_pair(source, target, *answers[source]) for target in targets) for source in sources]

    def status_of(text):
        return 4 if "x " in text else 0

    for workers in WORKERS:
        wanted = "".join(lines)
        told = run_spt("matrix", graph, sources_of, targets_of, "--workers", workers)
        count.of(f"matrix of {kind}, {workers} workers", told == (status_of(wanted), wanted, ""))
        wanted = "".join(lines[1:4])
        told = run_spt("matrix", graph, sources_of, targets_of, "--workers", workers, "--sources", "2-4")
        count.of(f"rows 2 to 4 of the matrix of {kind}, {workers} workers", told == (status_of(wanted), wanted, ""))


def main():
    return compare_kinds(__doc__, compare, sources=20, targets=30)


if __name__ == "__main__":
    sys.exit(main())
