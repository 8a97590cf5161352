#!/usr/bin/env python3
"""Times small questions on a large graph: near pairs, a matrix of the same, small parts of trees, and small forests.

Usage: python3 bench/small.py [--vertices N] [--sources K] [--targets T] [--runs R] [--program PROGRAM] [--before PROGRAM]

On a road-like graph of N vertices: a matrix of K sources by T targets in a square of 40 by 40 vertices, the same as pairs, the parts of
the K trees within a short distance, and K sources' forest within it. Each is told in milliseconds of processor time by one worker, least of R
runs in turn, less that of the graph alone; with --before also by another program.
"""

import argparse
import math
import os
import random
import sys
import tempfile

sys.dont_write_bytecode = True
import graphs  # noqa: E402
import parts  # noqa: E402
from matrix import reached_of, write_list  # noqa: E402

SEED = 1
SIDE = 40
LIMIT = 3000


def processor_time(words):
    """Milliseconds of a whole job."""
    process = os.posix_spawn(words[0], words, os.environ)
    _, status, used = os.wait4(process, 0)
    if status:
        sys.exit(f"{' '.join(words)}: status {status}")
    return (used.ru_utime + used.ru_stime) * 1000


def questions(folder, chosen, reached):
    """The words of each question, by its name; the graph alone comes first."""
    draw, width = random.Random(SEED), math.isqrt(chosen.vertices)
    middle = reached[len(reached) // 2]
    near = [it for it in reached if 0 <= it // width - middle // width < SIDE and 0 <= it % width - middle % width < SIDE]
    rows, ends = ([draw.choice(near) for _ in range(count)] for count in (chosen.sources, chosen.targets))
    write_list(f"{folder}/none.ss", [])
    write_list(f"{folder}/rows.ss", rows)
    write_list(f"{folder}/ends.ss", ends)
    with open(f"{folder}/both.pairs", "w") as file:
        file.write(f"p pairs {len(rows) * len(ends)}\n")
        file.writelines(f"q {source} {target}\n" for source in rows for target in ends)
    graph, lists = f"{folder}/g.gr", {name: f"{folder}/{name}" for name in ("none.ss", "rows.ss", "ends.ss", "both.pairs")}
    return {
        "the graph alone": ["tree", graph, lists["none.ss"], "--delta", "mean"],
        "pairs": ["pairs", graph, lists["both.pairs"], "--delta", "mean"],
        "matrix": ["matrix", graph, lists["rows.ss"], lists["ends.ss"]],
        "parts": ["tree", graph, lists["rows.ss"], "--delta", "mean", "--within", str(LIMIT)],
        "forest": ["nearest", graph, lists["rows.ss"], "--within", str(LIMIT)],
    }


def measure(chosen, folder):
    programs = [chosen.program or parts.program(), *([chosen.before] if chosen.before else [])]
    graphs.write_graph(f"{folder}/g.gr", "roads", chosen.vertices, SEED)
    reached = sorted(reached_of(programs[0], f"{folder}/g.gr", chosen.vertices // 2, f"{folder}/out"))
    asked = questions(folder, chosen, reached)
    least = {}
    for _ in range(chosen.runs):
        for what, words in asked.items():
            for program in programs:
                took = processor_time([program, *words, "-o", f"{folder}/out"])
                least[what, program] = min(took, least.get((what, program), took))
    print(f"{chosen.vertices:,} vertices, {chosen.sources} sources, {chosen.targets} targets, within {LIMIT}; least of {chosen.runs}\n")
    print(f"| what | ms of a processor |{' before |' if chosen.before else ''}\n|---|---|{'---|' if chosen.before else ''}")
    for what in asked:
        alone = 0 if what == "the graph alone" else 1
        times = [least[what, it] - alone * least["the graph alone", it] for it in programs]
        print(f"| {what} | {' | '.join(f'{it:.0f}' for it in times)} |")


def main():
    options = argparse.ArgumentParser(description=__doc__, formatter_class=argparse.RawDescriptionHelpFormatter)
    options.add_argument("--vertices", type=int, default=1_000_000)
    options.add_argument("--sources", type=int, default=100)
    options.add_argument("--targets", type=int, default=20)
    options.add_argument("--runs", type=int, default=5)
    options.add_argument("--program", type=os.path.abspath, help="this program in place of the one that ./spt runs")
    options.add_argument("--before", type=os.path.abspath, help="another program beside it")
    chosen = options.parse_args()
    with tempfile.TemporaryDirectory() as folder:
        measure(chosen, folder)


if __name__ == "__main__":
    main()
