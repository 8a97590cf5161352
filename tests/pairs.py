#!/usr/bin/env python3
"""Compares `spt pairs` with a plain Dijkstra, on graphs of each kind of bench/graphs.py.

Usage: python3 tests/pairs.py [--vertices N] [--pairs K] [--sources S] [--seed S]

For each kind K pairs of S sources are drawn, in no order. For each width of a bucket and each number of workers the program
must write the lines that Dijkstra's algorithm gives; so must it, for near pairs, on a graph whose words don't lie in a core's own
cache. The last line is 'N passed, M failed'.
"""

import random
import sys

sys.dont_write_bytecode = True
from harness import arcs_by_tail, compare_kinds, graphs  # noqa: E402
from trees import MAX, dijkstra, line_of_pair, run_spt  # noqa: E402

WORKERS = (1, 4, 64)
# vertices of the graph of near pairs
MANY = 140_000


def drawn_pairs(chosen):
    """Pairs of some sources in no order, some twice, some of a vertex and itself."""
    draw = random.Random(chosen.seed)
    sources = [draw.randint(1, chosen.vertices) for _ in range(chosen.sources)]
    pairs = [(draw.choice(sources), draw.randint(1, chosen.vertices)) for _ in range(chosen.pairs)]
    pairs[len(pairs) // 3] = (sources[0], sources[0])
    pairs[len(pairs) // 2] = pairs[0]
    return pairs


def compare(count, kind, chosen, folder):
    graph, list_of_pairs = f"{folder}/{kind}.gr", f"{folder}/{kind}.pairs"
    _, mean = graphs.write_graph(graph, kind, chosen.vertices, chosen.seed)
    pairs = drawn_pairs(chosen)
    with open(list_of_pairs, "w") as it:
        it.write(f"p pairs {len(pairs)}\n")
        it.writelines(f"q {source} {target}\n" for source, target in pairs)
    rows = arcs_by_tail(graph, chosen.vertices)
    answers = {source: dijkstra(rows, source) for source in {source for source, _ in pairs}}
    wanted = "".join(line_of_pair(source, target, *answers[source]) for source, target in pairs)
    status = 4 if "x " in wanted else 0
    mean = min(mean, MAX // 3)
    for delta in (max(1, mean // 3), mean, 3 * mean, MAX):
        for workers in WORKERS:
            told = run_spt("pairs", graph, list_of_pairs, "--delta", str(delta), "--workers", str(workers))
            count.of(f"pairs of {kind}, delta {delta}, {workers} workers", told == (status, wanted, ""))


def compare_near(count, chosen, folder):
    """Pairs whose targets are among the nearest 1,000 of their sources, on a road-like graph."""
    graph, list_of_pairs = f"{folder}/many.gr", f"{folder}/many.pairs"
    graphs.write_graph(graph, "roads", MANY, chosen.seed)
    rows = arcs_by_tail(graph, MANY)
    draw = random.Random(chosen.seed)
    wanted = ""
    with open(list_of_pairs, "w") as it:
        it.write("p pairs 12\n")
        for source in (draw.randint(1, MANY) for _ in range(3)):
            answers = dijkstra(rows, source)
            nearest = sorted((word[0], vertex) for vertex, word in answers[0].items())[:1000]
            for _, target in draw.sample(nearest, 4):
                it.write(f"q {source} {target}\n")
                wanted += line_of_pair(source, target, *answers)
    for workers in WORKERS:
        told = run_spt("pairs", graph, list_of_pairs, "--delta", "mean", "--workers", str(workers))
        count.of(f"near pairs of {MANY} vertices, {workers} workers", told == (0, wanted, ""))


def main():
    return compare_kinds(__doc__, compare, compare_near, pairs=200, sources=20)


if __name__ == "__main__":
    sys.exit(main())
