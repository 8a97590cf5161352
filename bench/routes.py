#!/usr/bin/env python3
"""Times routes beside what tells distances alone: `spt pairs --routes` beside `spt pairs`, C's spt_graph_route beside spt_graph_pair,
`graph.path` beside `graph.tree`, and `graph.routes` for many pairs of a town.

Usage: python3 bench/routes.py [--vertices N] [--runs K] [--near N] [--far N] [--many N] [--side N] [--program PROGRAM] [--library LIBRARY]
                               [--only program|memory|library|town]

The program answers near pairs (each target is one of the nearest 1,000 of its source) and far ones (drawn at random) of a packed road-like
graph, with and without routes in turn; medians of whole commands. Each route is checked: its vertices begin at the source and end at
the target, and its arcs sum up to the distance that the command without routes tells. Memory is the peak of one command with and without
routes, for many near pairs. The last table is of a randomly generated town in OSMnx's form, N blocks wide, as a planner asks.
"""

import argparse
import ctypes
import importlib.util
import os
import random
import statistics
import subprocess
import sys
import tempfile
import time

sys.dont_write_bytecode = True
import graphs  # noqa: E402
import memory  # noqa: E402
import parts  # noqa: E402

HOME = os.path.dirname(os.path.dirname(os.path.realpath(__file__)))
READY = os.path.join(HOME, "dist", "library", "libspt.so")
SEED, NEAREST = 1, 1000


def write_pairs(path, pairs):
    with open(path, "w") as file:
        file.write(f"p pairs {len(pairs)}\n")
        file.writelines(f"q {source} {target}\n" for source, target in pairs)


def near_pairs(graph, count, draw):
    """Pairs whose targets are among the nearest of their sources; ten of a source."""
    pairs = []
    while len(pairs) < count:
        source = draw.randint(1, graph.n)
        limit = 1000
        while len(graph.tree(source, within=limit).part().vertices) < NEAREST and limit < 10**9:
            limit *= 2
        nearest = graph.tree(source, within=limit).part(nearest_first=True).vertices[:NEAREST]
        pairs += [(source, draw.choice(nearest)) for _ in range(10)]
    return pairs[:count]


def least_lengths(arcs):
    """The least length of the arcs between two vertices, by both."""
    least = {}
    for place in range(0, len(arcs), 3):
        tail, head, length = arcs[place : place + 3]
        if length < least.get((tail, head), 2**32):
            least[tail, head] = length
    return least


def check(lines, distances, least):
    """Stops where a line of a route isn't a way of the distance that the other command tells."""
    for line, told in zip(lines, distances):
        fields, wanted = line.split(), told.split()
        if fields[0] != "r":
            if fields != wanted:
                sys.exit(f"routes: {line} and {told}")
            continue
        source, target, distance, *route = map(int, fields[1:])
        length = sum(least[step] for step in zip(route, route[1:]))
        if (route[0], route[-1], length) != (source, target, distance) or wanted[:4] != ["d", *fields[1:4]]:
            sys.exit(f"routes: {line} and {told}")


def seconds(program, *words):
    start = time.perf_counter()
    status = subprocess.run(parts.as_users_run(program, words)).returncode
    if status not in (0, 4):
        sys.exit(f"routes: {' '.join(words)}: status {status}")
    return time.perf_counter() - start


def by_program(chosen, program, graph, gr, folder):
    """The table of whole commands."""
    least, draw = least_lengths(graph.arcs), random.Random(SEED)
    far = [(draw.randint(1, graph.n), draw.randint(1, graph.n)) for _ in range(chosen.far)]
    print("| pairs | workers | without routes, ms | with routes, ms | of those without |\n|---|---|---|---|---|")
    for name, pairs in ((f"{chosen.near:,} near", near_pairs(graph, chosen.near, draw)), (f"{chosen.far:,} far", far)):
        file, outs = f"{folder}/asked.pairs", [f"{folder}/plain", f"{folder}/routes"]
        write_pairs(file, pairs)
        for workers in ("1", "2"):
            took = []
            for _ in range(chosen.runs):
                words = ("pairs", gr, file, "--delta", "mean", "--workers", workers, "-o")
                took.append([seconds(program, *words, outs[0]), seconds(program, *words, outs[1], "--routes")])
            with open(outs[1]) as routes, open(outs[0]) as plain:
                check(routes, plain, least)
            without, routes = (1000 * statistics.median(it) for it in zip(*took))
            print(f"| {name} | {workers} | {without:.0f} | {routes:.0f} | {routes / without:.3f} |", flush=True)


def of_memory(chosen, program, graph, gr, folder):
    """The peaks for many near pairs, a source and one neighbour's neighbourhood each."""
    draw, file = random.Random(SEED), f"{folder}/many.pairs"
    some = near_pairs(graph, min(chosen.many, 20_000), draw)
    pairs = [some[place % len(some)] for place in range(chosen.many)]
    write_pairs(file, pairs)
    write_pairs(f"{folder}/one.pairs", pairs[:1])
    words = ("--delta", "mean", "--workers", "1")
    alone = memory.peak(program, "pairs", gr, f"{folder}/one.pairs", *words)
    print(f"\n| {chosen.many:,} near pairs | peak beyond that of one pair, bytes a pair |\n|---|---|")
    for name, more in (("without routes", ()), ("with routes", ("--routes",))):
        most = memory.peak(program, "pairs", gr, file, *words, *more)
        print(f"| {name} | {(most - alone) / chosen.many:.0f} |", flush=True)
    done = subprocess.run(parts.as_users_run(program, ("pairs", gr, file, *words, "--routes")), capture_output=True, text=True)
    vertices = sum(len(line.split()) - 4 for line in done.stdout.splitlines() if line.startswith("r"))
    print(f"\n{vertices / chosen.many:.1f} vertices a route")


def by_library(chosen, spt, graph):
    """The table of calls of C by ctypes, and of the Python package."""
    from spt import _library
    from spt._buffers import address, words, zeros

    draw, library, place = random.Random(SEED), _library.library, _library.Place()
    library.spt_graph_share(ctypes.byref(graph._kept._place), ctypes.byref(place))
    at, room = ctypes.byref(place), zeros("I", graph.n)
    pairs = near_pairs(graph, 200, draw)
    took = []
    for _ in range(chosen.runs):
        turn = []
        for call in (lambda a, b: library.spt_graph_pair(at, a, b, 0), lambda a, b: library.spt_graph_route(at, a, b, address(room), graph.n)):
            start = time.perf_counter()
            for pair in pairs:
                call(*pair)
            turn.append(time.perf_counter() - start)
        took.append(turn)
    pair, route = (1000 * statistics.median(it) / len(pairs) for it in zip(*took))
    print(f"\n| a kept graph of {graph.n:,} | ms | of |\n|---|---|---|")
    print(f"| C: a near pair | {pair:.4f} | |\n| C: a near route | {route:.4f} | {route / pair:.3f} of the pair |")
    took = []
    for _ in range(chosen.runs):
        source, target = draw.randint(1, graph.n), draw.randint(1, graph.n)
        first = time.perf_counter()
        graph.tree(source)
        second = time.perf_counter()
        graph.path(source, target)
        took.append([second - first, time.perf_counter() - second])
    tree, path = (1000 * statistics.median(it) for it in zip(*took))
    print(f"| Python: a tree | {tree:.1f} | |\n| Python: a path between two random vertices | {path:.1f} | {path / tree:.3f} of the tree |")


def in_a_town(chosen, spt):
    """10,000 routes of a town, by the package."""
    # the frame of bench/streets.py, whose town is that of examples/streets.py
    sys.path.insert(0, os.path.join(HOME, "examples"))
    made = importlib.util.spec_from_file_location("street_bench", os.path.join(HOME, "bench", "streets.py"))
    street_bench = importlib.util.module_from_spec(made)
    made.loader.exec_module(street_bench)
    edges, places, _ = street_bench.street_map(chosen.side)
    graph, draw = spt.Graph.from_frame(edges, "u", "v", "travel_time", unit=street_bench.UNIT), random.Random(SEED)
    junctions = list(places.index)
    pairs = [(draw.choice(junctions), draw.choice(junctions)) for _ in range(10_000)]
    print(f"\n| 10,000 routes of a town of {len(edges):,} streets | s |\n|---|---|")
    for workers in (1, 2):
        start = time.perf_counter()
        routes = graph.routes(pairs, workers=workers)
        print(f"| `graph.routes`, {workers} workers | {time.perf_counter() - start:.1f} |", flush=True)
    start = time.perf_counter()
    each = [graph.path(*pair) for pair in pairs[:200]]
    print(f"| 200 calls of `graph.path` | {time.perf_counter() - start:.2f} |")
    if each != [None if it is None else list(it.vertices) for it in routes[:200]]:
        sys.exit("routes: graph.routes and graph.path differ")


def main():
    options = argparse.ArgumentParser(description=__doc__, formatter_class=argparse.RawDescriptionHelpFormatter)
    options.add_argument("--vertices", type=int, default=1_000_000)
    options.add_argument("--runs", type=int, default=5)
    options.add_argument("--near", type=int, default=10_000)
    options.add_argument("--far", type=int, default=20)
    options.add_argument("--many", type=int, default=1_000_000)
    options.add_argument("--side", type=int, default=316)
    options.add_argument("--program", type=os.path.abspath, default=None, help="this spt in place of the built one")
    options.add_argument("--library", type=os.path.abspath, default=READY, help="this library in place of that of dist/")
    options.add_argument("--only", choices=("program", "memory", "library", "town"))
    chosen = options.parse_args()
    os.environ["SPT_LIBRARY"] = chosen.library
    sys.path.insert(0, os.path.join(HOME, "python"))
    import spt

    program = chosen.program or parts.program()
    with tempfile.TemporaryDirectory() as folder:
        graphs.write_graph(f"{folder}/g.gr", "roads", chosen.vertices, SEED)
        subprocess.run([*parts.as_users_run(program, ("pack", f"{folder}/g.gr", "-o", f"{folder}/g.packed"))], check=True)
        graph = spt.Graph.load(f"{folder}/g.packed")
        if chosen.only in (None, "program"):
            by_program(chosen, program, graph, f"{folder}/g.packed", folder)
        if chosen.only in (None, "memory"):
            of_memory(chosen, program, graph, f"{folder}/g.packed", folder)
        if chosen.only in (None, "library"):
            by_library(chosen, spt, graph)
    if chosen.only in (None, "town"):
        in_a_town(chosen, spt)


if __name__ == "__main__":
    main()
