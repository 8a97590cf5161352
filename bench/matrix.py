#!/usr/bin/env python3
"""Times `spt matrix` by one worker and by several, its memory, and beside it SciPy's rows of the same sources.

Usage: python3 bench/matrix.py [--vertices N] [--side K] [--workers W] [--runs R] [--rows S] [--program PROGRAM]

On a road-like graph, K sources and K targets in a square of it that has one tenth of its vertices, all of which roads lead to: where no walk leads to a
target, a run can't end before all is final. The program goes from files to a file, by 1 and by W workers
in turn, R times; the graph alone (no source) is timed too, so that the table tells what the rows take. SciPy's `dijkstra`, where it is
installed, finds S of the rows in memory, each of the whole graph, since it can't end at targets; its distances are compared. The last
row is the memory of a matrix of 10 K by K beside that of K by K.
"""

import argparse
import math
import os
import random
import statistics
import subprocess
import sys
import tempfile
import time

sys.dont_write_bytecode = True
import graphs  # noqa: E402
import parts  # noqa: E402

SEED = 1


def write_list(path, vertices):
    with open(path, "w") as file:
        file.write(f"p aux sp ss {len(vertices)}\n")
        file.writelines(f"s {vertex}\n" for vertex in vertices)


def asked(program, graph, sources, targets, out, workers):
    """Seconds and kilobytes of a matrix."""
    return asked_words([program, "matrix", graph, sources, targets, "--workers", str(workers), "-o", out])


def asked_words(words):
    """Seconds and kilobytes of a whole job."""
    begun = time.perf_counter()
    process = subprocess.Popen(words)
    _, status, used = os.wait4(process.pid, 0)
    if status:
        sys.exit(f"{words[1]}: status {status}")
    return time.perf_counter() - begun, used.ru_maxrss


def median_of(runs, ask):
    """The medians of seconds, of calls in turn."""
    took = [[one() for one in ask] for _ in range(runs)]
    return [statistics.median(it[k] for it in took) for k in range(len(ask))]


def by_scipy(graph, n, sources, targets, lines):
    """Seconds a row, or None where it isn't installed; distances are compared with those of lines."""
    try:
        from scipy.sparse import csr_matrix
        from scipy.sparse.csgraph import dijkstra
    except ImportError:
        return None
    least = {}
    with open(graph) as file:
        for tail, head, length in (map(int, line.split()[1:]) for line in file if line.startswith("a ")):
            least[tail - 1, head - 1] = min(least.get((tail - 1, head - 1), length), length)
    tails, heads = zip(*least)
    made = csr_matrix((list(least.values()), (tails, heads)), shape=(n, n))
    begun = time.perf_counter()
    rows = dijkstra(made, indices=[it - 1 for it in sources])
    took = (time.perf_counter() - begun) / len(sources)
    told = {tuple(map(int, line.split()[1:3])): line.split() for line in lines}
    for source, row in zip(sources, rows):
        for target in targets:
            line = told[source, target]
            if (line[0] == "d") != (row[target - 1] != float("inf")) or line[0] == "d" and int(line[3]) != int(row[target - 1]):
                sys.exit(f"matrix: SciPy differs at {source}, {target}")
    return took


def reached_of(program, graph, middle, out):
    """The vertices that a tree reaches which has more than half of them, from one near the middle."""
    while True:
        asked_words([program, "tree", graph, "--source", str(middle), "--delta", "mean", "-o", out])
        with open(out) as file:
            n = int(next(file).split()[2])
            reached = [int(line.split()[1]) for line in file if line.startswith("v ")]
        if 2 * len(reached) > n:
            return reached
        middle += 1


def measure(chosen, folder):
    program, draw = chosen.program or parts.program(), random.Random(SEED)
    graph, none, sources, more, targets, out = (f"{folder}/{name}" for name in ("g.gr", "none.ss", "s.ss", "more.ss", "t.ss", "out"))
    graphs.write_graph(graph, "roads", chosen.vertices, SEED)
    width, square = math.isqrt(chosen.vertices), math.isqrt(chosen.vertices // 10)

    reached = reached_of(program, graph, chosen.vertices // 2, out)
    inside = [vertex for vertex in reached if (vertex - 1) // width < square and (vertex - 1) % width < square]
    rows, ends = ([draw.choice(inside) for _ in range(chosen.side)] for _ in range(2))
    write_list(none, [])
    write_list(sources, rows)
    write_list(more, 10 * rows)
    write_list(targets, ends)

    def job(list_of_sources, workers):
        return lambda: asked(program, graph, list_of_sources, targets, out, workers)[0]

    read, alone, several = median_of(chosen.runs, [job(none, 1), job(sources, 1), job(sources, chosen.workers)])
    # (the lines that are compared with SciPy's are those of the last of these)
    of_more, of_few = (asked(program, graph, it, targets, out, chosen.workers)[1] for it in (more, sources))
    with open(out) as file:
        theirs = by_scipy(graph, chosen.vertices, rows[: chosen.rows], ends, file)
    print(f"{chosen.vertices:,} vertices, a matrix of {chosen.side} by {chosen.side} in a tenth of them; medians of {chosen.runs} in turn\n")
    print("| | seconds | of one worker's rows |\n|---|---|---|")
    print(f"| graph alone | {read:.2f} | |")
    print(f"| 1 worker | {alone:.2f} | 1 |")
    print(f"| {chosen.workers} workers | {several:.2f} | {(several - read) / (alone - read):.2f} |")
    if theirs is not None:
        print(f"| SciPy, as many rows | {theirs * chosen.side:.2f} | {theirs * chosen.side / (alone - read):.2f} |")
    print(f"\nMemory with ten times as many rows: {of_more / of_few:.2f} of that of {chosen.side} ({of_few // 1024} MB)")


def main():
    options = argparse.ArgumentParser(description=__doc__, formatter_class=argparse.RawDescriptionHelpFormatter)
    options.add_argument("--vertices", type=int, default=1_000_000)
    options.add_argument("--side", type=int, default=300)
    options.add_argument("--workers", type=int, default=4)
    options.add_argument("--runs", type=int, default=3)
    options.add_argument("--rows", type=int, default=5)
    options.add_argument("--program", type=os.path.abspath, help="this program in place of the one that ./spt runs")
    chosen = options.parse_args()
    with tempfile.TemporaryDirectory() as folder:
        measure(chosen, folder)


if __name__ == "__main__":
    main()
