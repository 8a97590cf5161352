#!/usr/bin/env python3
"""Compares `spt pairs --routes` with a plain Dijkstra that goes back by smallest predecessors, on small random graphs with many ties.

Usage: python3 tests/routes.py [--graphs N] [--seed S] [--program PROGRAM]

Each graph is asked in each direction, as lines and packed, by 1, 2 and 64 workers, for all pairs of some of its vertices. The last
line is 'N passed, M failed'.
"""

import itertools
import os
import random
import sys
import tempfile

sys.dont_write_bytecode = True
from harness import Count, options_of, program, put, run  # noqa: E402
from trees import dijkstra  # noqa: E402

DIRECTIONS = ("", "--towards", "--both-ways")
WORKERS = (1, 2, 64)
DELTAS = (1, 2, 7, 4294967294)


def drawn_graph(draw):
    """The number of vertices and the arcs of a small graph; short lengths, so that many paths have the same length."""
    n = draw.randint(1, 24)
    longest = draw.choice((1, 2, 3, 9, 4294967295))
    count = draw.randint(0, 4 * n)
    return n, [(draw.randint(1, n), draw.randint(1, n), draw.randint(1, longest)) for _ in range(count)]


def rows_of(n, arcs, direction):
    """Heads and lengths by tail, of the arcs in a direction."""
    rows = [[] for _ in range(n + 1)]
    for tail, head, length in arcs:
        if direction != "--towards":
            rows[tail].append((head, length))
        if direction:
            rows[head].append((tail, length))
    return rows


def route(words, source, target):
    """The vertices from the source to the target."""
    back = [target]
    while back[-1] != source:
        back.append(words[back[-1]][1])
    return back[::-1]


def line_of_route(source, target, words, far):
    if target in words:
        return f"r {source} {target} {words[target][0]} {' '.join(map(str, route(words, source, target)))}\n"
    return f"n {source} {target}\n" if far is None else f"x {source} {far}\n"


def compare(count, tried, draw, number, folder):
    n, arcs = drawn_graph(draw)
    sources = [draw.randint(1, n) for _ in range(3)]
    pairs = [(draw.choice(sources), draw.randint(1, n)) for _ in range(draw.randint(1, 12))]
    lines, packed, list_of_pairs = (os.path.join(folder, f"{number}.{kind}") for kind in ("gr", "packed", "pairs"))
    put(lines, f"p sp {n} {len(arcs)}\n" + "".join(f"a {tail} {head} {length}\n" for tail, head, length in arcs))
    put(list_of_pairs, f"p pairs {len(pairs)}\n" + "".join(f"q {source} {target}\n" for source, target in pairs))
    run(tried, "pack", lines, "-o", packed)
    for direction in DIRECTIONS:
        rows = rows_of(n, arcs, direction)
        answers = {source: dijkstra(rows, source) for source, _ in pairs}
        wanted = "".join(line_of_route(source, target, *answers[source]) for source, target in pairs)
        status = 4 if "x " in wanted else 0
        for graph, workers in itertools.product((lines, packed), WORKERS):
            words = ("--routes", "--delta", str(draw.choice(DELTAS)), "--workers", str(workers), *direction.split())
            told = run(tried, "pairs", graph, list_of_pairs, *words)
            count.of(f"graph {number}, {graph}, {' '.join(words)}: {told}", told == (status, wanted, ""))


def main():
    options = options_of(__doc__)
    options.add_argument("--graphs", type=int, default=150)
    options.add_argument("--seed", type=int, default=1)
    chosen = options.parse_args()
    tried, draw, count = program(chosen), random.Random(chosen.seed), Count()
    with tempfile.TemporaryDirectory() as folder:
        for number in range(chosen.graphs):
            compare(count, tried, draw, number, folder)
    return count.end()


if __name__ == "__main__":
    sys.exit(main())
