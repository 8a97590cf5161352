#!/usr/bin/env python3
"""Compares `spt nearest`, also within a distance, with a plain Dijkstra from several sources, on graphs of each kind of bench/graphs.py.

Usage: python3 tests/nearest.py [--vertices N] [--sources S] [--seed S]

For each kind S sources are drawn, in no order, one of them twice. For each width of a bucket and each number of workers the program must
write the block that Dijkstra's algorithm gives, and with a limit that of its words up to that distance. The last line is
'N passed, M failed'.
"""

import heapq
import random
import sys

sys.dont_write_bytecode = True
from harness import arcs_by_tail, compare_kinds, drawn, graphs, write_list  # noqa: E402
from trees import MAX, halfway, part, run_spt  # noqa: E402

WORKERS = ("1", "2", "4", "64")


def forest(rows, sources):
    """The least distance from any source and the smallest-numbered predecessor of each reached vertex, and the least vertex that is too far."""
    words, queue, far = {source: (0, 0) for source in sources}, [(0, source) for source in sources], None
    heapq.heapify(queue)
    while queue:
        distance, tail = heapq.heappop(queue)
        if distance > words[tail][0]:
            continue
        for head, length in rows[tail]:
            offer = (distance + length, tail)
            if offer[0] <= MAX and (head not in words or offer < words[head]):
                words[head] = offer
                heapq.heappush(queue, (offer[0], head))
    for tail, (distance, _) in words.items():
        for head, length in rows[tail]:
            if head not in words and distance + length > MAX:
                far = head if far is None else min(far, head)
    return words, far


def roots(words):
    """The root of each vertex of a forest: of a source itself, else that of its predecessor, which is nearer."""
    found = {}
    for vertex, (_, tail) in sorted(words.items(), key=lambda it: it[1][0]):
        found[vertex] = vertex if tail == 0 else found[tail]
    return found


def block(n, words, far):
    if far is not None:
        return f"x {far}\n"
    root, count = roots(words), sum(tail == 0 for _, tail in words.values())
    rows = "".join(f"v {vertex} {distance} {tail} {root[vertex]}\n" for vertex, (distance, tail) in sorted(words.items()))
    return f"p near {n} {count}\n{rows}e {len(words)}\n"


def compare(count, kind, chosen, folder):
    graph, sources_of, n = f"{folder}/{kind}.gr", f"{folder}/{kind}.ss", chosen.vertices
    _, mean = graphs.write_graph(graph, kind, n, chosen.seed)
    sources = drawn(random.Random(chosen.seed), chosen.sources, n)
    write_list(sources_of, sources)
    rows = arcs_by_tail(graph, n)
    words, far = forest(rows, sources)
    limit, _ = halfway(words)
    for workers in WORKERS:
        for delta in (max(1, mean // 3), mean, MAX):
            told = run_spt("nearest", graph, sources_of, "--delta", str(delta), "--workers", workers)
            count.of(f"forest of {kind}, delta {delta}, {workers} workers", told == (0 if far is None else 4, block(n, words, far), ""))
        for most in (0, max(0, limit - 1), limit, MAX):
            told = run_spt("nearest", graph, sources_of, "--within", str(most), "--workers", workers)
            count.of(f"forest of {kind} within {most}, {workers} workers", told == (0, block(n, part(words, most), None), ""))
        told = run_spt("nearest", graph, sources_of, "--sources", "2-4", "--workers", workers)
        some, beyond = forest(rows, sources[1:4])
        count.of(f"forest of sources 2 to 4 of {kind}, {workers} workers", told == (0 if beyond is None else 4, block(n, some, beyond), ""))


def main():
    return compare_kinds(__doc__, compare, sources=20)


if __name__ == "__main__":
    sys.exit(main())
