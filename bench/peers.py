#!/usr/bin/env python3
"""Times spt beside the shortest-path programs that others use, each on one thread, and compares all distances.

Usage: python3 bench/peers.py [--size N] [--sources K] [--workers W] [--library LIBRARY] [--program PROGRAM]
                             [--figure FILE]

The graphs are a road-like grid of about N vertices and a random graph of N arcs (bench/graphs.py; N is 300000 where none is given),
each with K randomly chosen sources. A row of the table is a program:

  solve    seconds a source, the median of the sources: the graph stands in the program's own form before
  whole    seconds of the whole job: the .gr file is read, all sources are solved, what was found is written to a file
  spt's    what spt takes as a multiple of the program's time, below 1 where spt is faster: `solve` by its Python package, `whole` by
           its program with one worker

spt, SciPy, Boost and LEMON find predecessors too; igraph and NetworkX find distances alone. spt writes trees as text, Boost and LEMON
distances in binary. igraph, NetworkX and SciPy are taken where this Python can import them (Debian: python3-igraph,
python3-networkx, python3-scipy), Boost and LEMON where a C++ compiler finds their headers (libboost-dev, liblemon-dev). What isn't
installed is printed below the table, and so is any program whose distances differ from spt's; then the status is 1. --figure draws the
road-like rows as bars, into a picture (SVG).
"""

import argparse
import array
import collections
import importlib
import os
import random
import shutil
import statistics
import subprocess
import sys
import tempfile
import time

sys.dont_write_bytecode = True
import figure  # noqa: E402
import graphs  # noqa: E402
import parts  # noqa: E402

HOME = parts.HOME
SEED = 1
UNREACHED = 2**64 - 1
# NetworkX has some objects of Python for each arc: it is left out where there are more vertices.
MOST_OF_NETWORKX = 100_000
# The names beside bars.
SHORT = {"spt, its Python package": "spt", "spt, the program": "spt", "spt, the program, 4 workers": "spt, 4 threads"}
NATIVE = {"Boost": ("boost/graph/dijkstra_shortest_paths.hpp", "peer_boost"), "LEMON": ("lemon/dijkstra.h", "peer_lemon")}

# A graph: its number of vertices, tails, heads and lengths, and its file; what is asked, and a folder for files.
Job = collections.namedtuple("Job", "n tails heads lengths gr sources folder")
# What a peer took, and the distances from each source. What it doesn't tell is None.
Taken = collections.namedtuple("Taken", "solve whole distances")


class LeftOut(Exception):
    """Why a peer isn't timed."""


def imported(name):
    try:
        return importlib.import_module(name)
    except ImportError:
        raise LeftOut("isn't installed for this Python") from None


def whole_numbers(distances):
    """Distances as whole numbers, those of vertices that no walk leads to as UNREACHED."""
    return array.array("Q", [UNREACHED if it == float("inf") else int(it) for it in distances])


# ## Peers in this process


def solved(job, solve, told):
    """The median time of `solve`, source by source, and what `told` makes of its answers."""
    seconds, distances = [], []
    for source in job.sources:
        start = time.perf_counter()
        answer = solve(source)
        seconds.append(time.perf_counter() - start)
        distances.append(told(answer))
    return Taken(statistics.median(seconds), None, distances)


def package(job):
    spt = imported("spt")
    numbers = [it for arc in zip(job.tails, job.heads, job.lengths) for it in arc]
    graph = spt.Graph(job.n, array.array("I", numbers))
    return solved(job, graph.tree, lambda tree: array.array("Q", tree.distances))


def scipy(job):
    sparse = imported("scipy.sparse")
    dijkstra = imported("scipy.sparse.csgraph").dijkstra
    least = collections.defaultdict(lambda: UNREACHED)
    for tail, head, length in zip(job.tails, job.heads, job.lengths):
        least[tail - 1, head - 1] = min(least[tail - 1, head - 1], length)
    tails, heads = zip(*least)
    matrix = sparse.csr_matrix((list(least.values()), (tails, heads)), shape=(job.n, job.n))

    def solve(source):
        return dijkstra(matrix, indices=source - 1, return_predecessors=True)

    return solved(job, solve, lambda told: whole_numbers(told[0]))


def igraph(job):
    ends = [(tail - 1, head - 1) for tail, head in zip(job.tails, job.heads)]
    graph = imported("igraph").Graph(job.n, ends, directed=True)
    return solved(job, lambda source: graph.distances(source - 1, weights=job.lengths)[0], whole_numbers)


def networkx(job):
    module = imported("networkx")
    if job.n > MOST_OF_NETWORKX:
        raise LeftOut(f"is left out above {MOST_OF_NETWORKX:,} vertices")
    graph = module.MultiDiGraph()
    graph.add_nodes_from(range(1, job.n + 1))
    graph.add_weighted_edges_from(zip(job.tails, job.heads, job.lengths))

    def solve(source):
        return module.single_source_dijkstra_path_length(graph, source)

    return solved(job, solve, lambda told: whole_numbers(told.get(v, float("inf")) for v in graph))


# ## Programs


def timed(words, output=subprocess.DEVNULL):
    start = time.perf_counter()
    subprocess.run(list(map(str, words)), check=True, stdout=output)
    return time.perf_counter() - start


def native(header, name):
    """A peer that is a C++ program of this folder, on the header of a library."""

    def peer(job):
        program, answers, told = (f"{job.folder}/{name}{ending}" for ending in ("", ".distances", ".seconds"))
        compiler = shutil.which("g++") or shutil.which("c++")
        probe = [compiler, "-fsyntax-only", "-x", "c++", "-include", header, "/dev/null"]
        if compiler is None or subprocess.run(probe, stderr=subprocess.DEVNULL).returncode != 0:
            raise LeftOut("isn't installed, or there is no C++ compiler")
        if not os.path.exists(program):
            parts.build_plain(job.folder, name)
        with open(told, "w") as file:
            whole = timed([program, job.gr, answers, *job.sources], file)
        with open(told) as file:
            solve = statistics.median(map(float, file))
        distances = [array.array("Q") for _ in job.sources]
        with open(answers, "rb") as file:
            for row in distances:
                row.fromfile(file, job.n)
        return Taken(solve, whole, distances)

    return peer


def command(program, workers):
    """The program spt, with this number of workers."""

    def peer(job):
        trees = f"{job.folder}/trees"
        asked = [word for source in job.sources for word in ("--source", source)]
        words = [program, "tree", job.gr, *asked, "--delta", "mean", "--workers", workers, "-o", trees]
        whole = timed(words)
        distances = []
        with open(trees) as file:
            for line in file:
                kind, *numbers = line.split()
                if kind == "p":
                    distances.append(array.array("Q", [UNREACHED]) * job.n)
                elif kind == "v":
                    distances[-1][int(numbers[0]) - 1] = int(numbers[1])
        return Taken(None, whole, distances)

    return peer


# ## The table


def read_job(kind, n, count, folder):
    gr = f"{folder}/{kind}.gr"
    graphs.write_graph(gr, kind, n, SEED)
    tails, heads, lengths = [], [], []
    with open(gr) as file:
        for line in file:
            if line.startswith("a "):
                for numbers, word in zip((tails, heads, lengths), line.split()[1:]):
                    numbers.append(int(word))
    draw = random.Random(SEED)
    return Job(n, tails, heads, lengths, gr, [draw.randint(1, n) for _ in range(count)], folder)


def cells(seconds, ours):
    return ["", ""] if seconds is None else [f"{seconds:.4f}", f"{ours / seconds:.2f}"]


def panels(rows, count):
    """The bars of a graph: one tree of a graph in memory, and the whole job."""
    for asked, field in (("One tree, graph in memory", "solve"), (f"{count} trees, from file to file", "whole")):
        bars = [(SHORT.get(name, name), getattr(taken, field)) for name, taken in rows if getattr(taken, field) is not None]
        yield asked, bars


def compare(title, job, peers):
    """Prints the rows of a graph, and answers its panels of bars and what else is to be told of its peers."""
    rows, remarks = [], []
    for name, peer in peers.items():
        try:
            rows.append((name, peer(job)))
        except LeftOut as reason:
            remarks.append(f"{name} {reason}")
    solve = rows[0][1].solve
    whole = rows[1][1].whole
    for name, taken in rows:
        print(f"| {' | '.join([title, name, *cells(taken.solve, solve), *cells(taken.whole, whole)])} |", flush=True)
        if taken.distances != rows[0][1].distances:
            remarks.append(f"{name} DISAGREES on the graph `{title}`")
    return list(panels(rows, len(job.sources))), remarks


def measure(chosen, folder):
    program = chosen.program or parts.program()
    peers = {"spt, its Python package": package, "spt, the program": command(program, 1)}
    if chosen.workers > 1:
        peers[f"spt, the program, {chosen.workers} workers"] = command(program, chosen.workers)
    peers.update({"SciPy": scipy, "igraph": igraph, "NetworkX": networkx})
    peers.update({name: native(*words) for name, words in NATIVE.items()})
    print(f"{chosen.sources} sources a graph, every program once, on one thread where no workers are named\n")
    print("| graph | program | solve, s | spt's multiple | whole, s | spt's multiple |\n|---|---|---|---|---|---|")
    remarks, bars = [], []
    for kind, n in (("roads", chosen.size), ("random", max(1, chosen.size // 4))):
        job = read_job(kind, n, chosen.sources, folder)
        its_bars, its_remarks = compare(f"{kind}, {n:,} vertices, {len(job.tails):,} arcs", job, peers)
        bars += its_bars if kind == "roads" else []
        remarks += its_remarks
    if chosen.figure:
        with open(chosen.figure, "w") as file:
            file.write(figure.drawn(f"A road-like grid of {chosen.size:,} vertices: time taken", bars))
    print("\n" + "\n".join(dict.fromkeys(remarks)) if remarks else "\nAll distances agree.")
    return 1 if any("DISAGREES" in it for it in remarks) else 0


def main():
    options = argparse.ArgumentParser(description=__doc__, formatter_class=argparse.RawDescriptionHelpFormatter)
    options.add_argument("--size", type=int, default=300_000)
    options.add_argument("--sources", type=int, default=3)
    options.add_argument("--workers", type=int, default=4, help="a further row of the program with this number; 1 leaves it out")
    options.add_argument("--library", type=os.path.abspath, help="this libspt.so in place of one that build/libraries puts down")
    options.add_argument("--program", type=os.path.abspath, help="this program in place of the one that ./spt runs")
    options.add_argument("--figure", help="a file for a picture of the table, as SVG")
    chosen = options.parse_args()
    sys.path.insert(0, f"{HOME}/python")
    with tempfile.TemporaryDirectory() as folder:
        if chosen.library is None:
            subprocess.run([f"{HOME}/build/libraries", folder], check=True)
        os.environ["SPT_LIBRARY"] = chosen.library or f"{folder}/lib/libspt.so"
        return measure(chosen, folder)


if __name__ == "__main__":
    sys.exit(main())
