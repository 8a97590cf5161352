#!/usr/bin/env python3
"""Times pairs beside whole trees, and beside a plain Dijkstra in C++ on one thread that stops at its target.

On a road-like graph: the solve of a whole tree from one source; a pair whose target is the farthest of the nearest 1 %, by a run of the team
(`crates/bench_engine`); 1,000 pairs of that source, drawn at random; a hundred pairs of a hundred sources. The programs run in turn, several
times; the median of each solve counts (reading and rows are left out). The lines that `spt pairs` writes are compared with those of the plain program.

What a near pair takes of the program itself stands in a table of its own: two hundred pairs of as many sources, each target the farthest of
the nearest 1 %, by whole commands; from the time of each that of a command with the first pair alone is taken away.

Usage: python3 bench/pairs.py [--vertices N] [--runs K] [--only NAME..] [--keep FOLDER] [--built-spt PROGRAM] [--built PROGRAM]
"""

import argparse
import collections
import filecmp
import heapq
import os
import random
import statistics
import subprocess
import sys
import tempfile
import time

sys.dont_write_bytecode = True
import graphs  # noqa: E402
import parts  # noqa: E402
import whole  # noqa: E402

SEED = 1
WORKERS = (1, 2, 4)
# how many near pairs the program answers in the table of its own, and at most which multiple of the plain program's time a pair may take
AROUND = 200
AROUND_BOUND = 1.5

# What is asked, and at most how many times the solve of a whole tree by as many workers it may take, if there is an aim.
Job = collections.namedtuple("Job", "title name bound", defaults=[None])
JOBS = [
    Job("a pair among the nearest 1 %", "near", 0.25),
    Job("1,000 pairs of one source", "many", 1.3),
    Job("100 pairs of 100 sources", "hundred"),
]


def solve(program, *words):
    return whole.run_telling([program, *map(str, words)])["solve"]


def distances(path):
    """The vertices of a tree by rising distance."""
    with open(path) as file:
        rows = [tuple(map(int, row.split()[1:3])) for row in file if row.startswith("v ")]
    return [vertex for vertex, _ in sorted(rows, key=lambda row: row[1])]


def heads_by_tail(gr, n):
    """The arcs of a graph, as lists of heads and lengths by tail."""
    rows = [[] for _ in range(n + 1)]
    with open(gr) as file:
        for line in file:
            if line.startswith("a "):
                _, tail, head, length = line.split()
                rows[int(tail)].append((int(head), int(length)))
    return rows


def farthest_of_nearest(rows, source, count):
    """The farthest of so many vertices that are nearest to the source."""
    least, done, heap = {source: 0}, set(), [(0, source)]
    while heap and len(done) < count:
        dist, vertex = heapq.heappop(heap)
        if vertex in done:
            continue
        done.add(vertex)
        farthest = vertex
        for head, length in rows[vertex]:
            if dist + length < least.get(head, dist + length + 1):
                least[head] = dist + length
                heapq.heappush(heap, (dist + length, head))
    return farthest


def write_pairs(path, pairs):
    with open(path, "w") as file:
        file.write(f"p pairs {len(pairs)}\n")
        file.writelines(f"q {source} {target}\n" for source, target in pairs)


def make_files(chosen, folder, plain):
    """The graph, a list of one source, and a file of pairs for each job; the mean length of an arc."""
    gr, ss, tree = (os.path.join(folder, name) for name in ("roads.gr", "one.ss", "tree"))
    _, mean = graphs.write_graph(gr, "roads", chosen.vertices, SEED)
    graphs.write_sources(ss, chosen.vertices, 1, SEED)
    subprocess.run([plain, gr, ss, tree], check=True, stdout=subprocess.DEVNULL)
    by_distance = distances(tree)
    draw = random.Random(SEED)
    source = by_distance[0]
    lists = {
        "near": [(source, by_distance[len(by_distance) // 100])],
        "many": [(source, draw.randint(1, chosen.vertices)) for _ in range(1000)],
        "hundred": [(draw.randint(1, chosen.vertices), draw.randint(1, chosen.vertices)) for _ in range(100)],
    }
    if not chosen.only or "around" in chosen.only:
        rows = heads_by_tail(gr, chosen.vertices)
        sources = [draw.randint(1, chosen.vertices) for _ in range(AROUND)]
        lists["around"] = [(it, farthest_of_nearest(rows, it, chosen.vertices // 100)) for it in sources]
        lists["first"] = lists["around"][:1]
    for name, pairs in lists.items():
        write_pairs(os.path.join(folder, f"{name}.pairs"), pairs)
    return gr, ss, mean


def same_lines(programs, gr, pairs, delta, folder):
    """Whether the program writes what the plain one does."""
    ours, theirs = os.path.join(folder, "ours"), os.path.join(folder, "theirs")
    subprocess.run([programs.plain, "pairs", gr, pairs, theirs], check=True, stdout=subprocess.DEVNULL)
    with open(ours, "wb") as file:
        subprocess.run([programs.spt, "pairs", gr, pairs, "--delta", str(delta), "--workers", "4"], check=True, stdout=file)
    if not filecmp.cmp(ours, theirs, shallow=False):
        sys.exit(f"pairs: other lines for {pairs}")


def time_all(programs, gr, ss, delta, folder, runs, jobs):
    """The times of each program, by job and workers; those of the plain program by job and 0."""
    found = collections.defaultdict(list)
    for _ in range(runs):
        for workers in WORKERS:
            trees = os.path.join(folder, "trees")
            found["whole", workers].append(solve(programs.bench, "whole", gr, ss, delta, workers, trees))
            for job in jobs:
                pairs = os.path.join(folder, f"{job.name}.pairs")
                found[job.name, workers].append(solve(programs.bench, "pairs", gr, pairs, delta, workers))
        for job in jobs:
            if job.name != "many":
                pairs, lines = os.path.join(folder, f"{job.name}.pairs"), os.path.join(folder, "lines")
                found[job.name, 0].append(solve(programs.plain, "pairs", gr, pairs, lines))
    return {key: statistics.median(times) for key, times in found.items()}


def print_rows(found, jobs):
    """A row for each job and number of workers, and whether each aim was met."""
    met = []
    print("| asked | workers | solve, ms | of a whole tree's | aim, at most | C++, ms | of C++ |\n|---|---|---|---|---|---|---|")
    for workers in WORKERS:
        print(f"| a whole tree | {workers} | {found['whole', workers]:.1f} | 1.00 |  |  |  |")
    for job in jobs:
        for workers in WORKERS:
            taken = found[job.name, workers]
            share = taken / found["whole", workers]
            cells = [job.title, str(workers), f"{taken:.1f}", f"{share:.2f}", f"{job.bound or ''}"]
            plain = found.get((job.name, 0))
            cells += [f"{plain:.1f}", f"{taken / plain:.2f}"] if plain else ["", ""]
            print(f"| {' | '.join(cells)} |")
            if job.bound:
                met.append(share <= job.bound)
    print(f"\n{sum(met)} of {len(met)} aims met")


def milliseconds_of(programs, gr, pairs, delta, workers):
    """What a whole command takes, as ./spt runs it."""
    words = ["pairs", gr, pairs, "--delta", str(delta), "--workers", str(workers)]
    start = time.monotonic()
    subprocess.run(parts.as_users_run(programs.spt, words), check=True, stdout=subprocess.DEVNULL)
    return (time.monotonic() - start) * 1000


def print_around(programs, gr, delta, folder, runs):
    """What a near pair takes of the program, beside the plain one."""
    around, first, lines = (os.path.join(folder, name) for name in ("around.pairs", "first.pairs", "lines"))
    found = collections.defaultdict(list)
    for _ in range(runs):
        for workers in WORKERS:
            both = [milliseconds_of(programs, gr, pairs, delta, workers) for pairs in (around, first)]
            found[workers].append((both[0] - both[1]) / (AROUND - 1))
        found[0].append(solve(programs.plain, "pairs", gr, around, lines) / AROUND)
    plain = statistics.median(found[0])
    print(f"\n| {AROUND} pairs, each among the nearest 1 % of a source of its own | ms a pair | C++, ms | of C++ | aim, at most |\n|---|---|---|---|---|")
    for workers in WORKERS:
        taken = statistics.median(found[workers])
        print(f"| {whole.named(workers)} | {taken:.2f} | {plain:.2f} | {taken / plain:.2f} | {AROUND_BOUND} |")


def main():
    options = argparse.ArgumentParser(description=__doc__, formatter_class=argparse.RawDescriptionHelpFormatter)
    options.add_argument("--vertices", type=int, default=1_000_000)
    options.add_argument("--runs", type=int, default=5, help="how often each program runs")
    options.add_argument("--only", nargs="+", choices=[*(job.name for job in JOBS), "around"], help="these jobs alone, beside the whole tree; around is the table of the program")
    options.add_argument("--keep", metavar="FOLDER", type=os.path.abspath, help="where graphs stay")
    options.add_argument("--built-spt", metavar="PROGRAM", type=os.path.abspath, help="this spt, as it is, in place of a build")
    options.add_argument("--built", metavar="PROGRAM", type=os.path.abspath, help="this bench_engine, as it is, in place of a build")
    chosen = options.parse_args()
    chosen.plain = chosen.no_parts = False
    with tempfile.TemporaryDirectory() as folder:
        programs = whole.programs_of(chosen, folder)
        if chosen.keep:
            os.makedirs(chosen.keep, exist_ok=True)
        place = chosen.keep or folder
        gr, ss, mean = make_files(chosen, place, programs.plain)
        delta = 3 * mean
        jobs = [job for job in JOBS if job.name in (chosen.only or [job.name])]
        for job in jobs:
            same_lines(programs, gr, os.path.join(place, f"{job.name}.pairs"), delta, folder)
        print(f"{chosen.vertices:,} vertices, road-like, delta of 3 mean lengths; medians of {chosen.runs} runs in turn\n")
        if jobs:
            print_rows(time_all(programs, gr, ss, delta, place, chosen.runs, jobs), jobs)
        if not chosen.only or "around" in chosen.only:
            same_lines(programs, gr, os.path.join(place, "around.pairs"), delta, folder)
            print_around(programs, gr, delta, place, chosen.runs)


if __name__ == "__main__":
    main()
