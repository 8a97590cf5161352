#!/usr/bin/env python3
"""Times the backend of NetworkX (python/spt/_networkx) beside NetworkX itself, call by call.

Usage: python3 bench/backend.py [--edges N [N ..]] [--turns K] [--pairs P] [--library LIBRARY]

The graphs are randomly generated towns in OSMnx's form (examples/streets.py) of about N edges, their largest strongly connected parts, with times in
seconds as floats. Both sides take turns at the same call, spt over the graph that it has read before; the median of the turns is printed, as
the table of docs/BENCHMARKS.md has it: once in seconds of the processor, once in seconds that passed. Each answer must be NetworkX's, with
`==` on floats, and a path between two nodes as long. One thread each. With Debian 12's versions it takes some minutes. A Python with NumPy and
NetworkX is needed (Debian: python3-networkx); where this one lacks them, the system's is taken.
"""

import argparse
import gc
import importlib.util
import os
import random
import statistics
import subprocess
import sys
import tempfile
import time
import typing

sys.dont_write_bytecode = True
HOME = os.path.dirname(os.path.dirname(os.path.realpath(__file__)))
SYSTEM = "/usr/bin/python3"
SEED, CENTRES, CUTOFF, WEIGHT = 1, 20, 120, "travel_time"
# edges of a town per junction of its grid, about
EDGES_EACH = 1.9
# how many of the paths of a tree are looked at, where not all are
SOME = 100
CLOCKS = (("Seconds of the processor", time.process_time), ("Seconds passed", time.perf_counter))


class Row(typing.NamedTuple):
    """A row of the table: a function, what is given to each of its calls behind the graph, and what is made of each answer."""

    title: str
    name: str
    calls: list
    made: typing.Callable = lambda answer: answer
    given: dict = {"weight": WEIGHT}

    def asked_of(self, side, graph):
        return [self.made(getattr(side, self.name)(graph, *args, **self.given)) for args in self.calls]


def streets_of(edges):
    """The largest strongly connected part of a town of about so many edges."""
    import networkx
    from streets import town

    streets = town(round((edges / EDGES_EACH) ** 0.5))
    part = max(networkx.strongly_connected_components(streets), key=len)
    return streets.subgraph(part).copy()


def rows_of(streets, pairs):
    """The rows of the table."""
    draw, nodes = random.Random(SEED), list(streets)
    x, y = (statistics.mean(at[axis] for _, at in streets.nodes(data=True)) for axis in "xy")
    depot = min(nodes, key=lambda node: (streets.nodes[node]["x"] - x) ** 2 + (streets.nodes[node]["y"] - y) ** 2)
    some, centres = draw.sample(nodes, SOME), set(draw.sample(nodes, CENTRES))
    ends = [tuple(draw.sample(nodes, 2)) for _ in range(pairs)]
    return [
        Row("`single_source_dijkstra_path_length`", "single_source_dijkstra_path_length", [(depot,)]),
        Row(f"`single_source_dijkstra`, {SOME} paths looked at", "single_source_dijkstra", [(depot,)], lambda it: list(map(it[1].get, some))),
        Row("`single_source_dijkstra`, all paths looked at", "single_source_dijkstra", [(depot,)], lambda it: dict(it[1].items())),
        Row(f"`voronoi_cells`, {CENTRES} centres", "voronoi_cells", [(centres,)]),
        Row(f"`shortest_path`, {pairs} pairs", "shortest_path", ends),
        Row("`single_source_shortest_path_length`, hops", "single_source_shortest_path_length", [(depot,)], given={}),
        Row(f"within {CUTOFF} s", "single_source_dijkstra_path_length", [(depot,)], given={"weight": WEIGHT, "cutoff": CUTOFF}),
    ]


def timed(call):
    """The seconds of a call by each clock, and its answer."""
    gc.collect()
    begin = [clock() for _, clock in CLOCKS]
    answer = call()
    return [clock() - start for (_, clock), start in zip(CLOCKS, begin)], answer


def length_of(streets, path):
    """The sum of the least times along a path."""
    return sum(min(edge[WEIGHT] for edge in streets[tail][head].values()) for tail, head in zip(path, path[1:]))


def agree(streets, row, ours, theirs):
    """Whether answers are the same; of paths between two nodes, whether they are as short."""
    if row.name != "shortest_path":
        return ours == theirs
    ends = [[(path[0], path[-1]) for path in paths] for paths in (ours, theirs)]
    lengths = zip(*([length_of(streets, path) for path in paths] for paths in (ours, theirs)))
    return ends[0] == ends[1] and all(abs(mine - its) <= 1e-9 * its for mine, its in lengths)


def measure(edges, chosen, rows):
    """Adds to each row the medians of a graph of so many edges: of spt and of NetworkX, by each clock. The number of its edges."""
    import networkx
    import spt._networkx as backend

    streets, taken = streets_of(edges), {}
    asked = rows_of(streets, chosen.pairs)
    for _ in range(chosen.turns):
        seconds, graph = timed(lambda: backend.convert_from_nx(streets, edge_attrs={WEIGHT: 1}))
        taken.setdefault("reading the graph, once", ([], []))[0].append(seconds)
        for row in asked:
            ours, mine = timed(lambda: row.asked_of(backend, graph))
            theirs, its = timed(lambda: row.asked_of(networkx, streets))
            if not agree(streets, row, mine, its):
                sys.exit(f"backend: {row.title}: the answers differ")
            for seconds, side in zip((ours, theirs), taken.setdefault(row.title, ([], []))):
                side.append(seconds)
    for title, sides in taken.items():
        rows.setdefault(title, []).append([[statistics.median(it) for it in zip(*side)] for side in sides])
    return streets.number_of_edges()


def cells_of(sides, clock):
    """The cells of a row for a graph: spt's seconds, NetworkX's, and the ratio."""
    ours, *theirs = (side[clock] for side in sides if side)
    return [shown(ours), *([shown(theirs[0]), f"{ours / theirs[0]:.2f}"] if theirs else ["", ""])]


def shown(seconds):
    """Seconds with two or three digits that count."""
    return f"{seconds:.4f}" if seconds < 0.01 else f"{seconds:.3f}" if seconds < 1 else f"{seconds:.2f}" if seconds < 10 else f"{seconds:.1f}"


def main():
    options = argparse.ArgumentParser(description=__doc__, formatter_class=argparse.RawDescriptionHelpFormatter)
    options.add_argument("--edges", type=int, nargs="+", default=[100_000, 500_000])
    options.add_argument("--turns", type=int, default=3)
    options.add_argument("--pairs", type=int, default=20)
    options.add_argument("--library", type=os.path.abspath, help="this libspt.so in place of one that build/libraries puts down")
    chosen = options.parse_args()
    if not all(map(importlib.util.find_spec, ("numpy", "networkx"))) and os.path.realpath(sys.executable) != os.path.realpath(SYSTEM):
        os.execv(SYSTEM, [SYSTEM, *sys.argv])
    with tempfile.TemporaryDirectory() as prefix:
        if chosen.library is None:
            subprocess.run([f"{HOME}/build/libraries", prefix], check=True, stdout=sys.stderr)
        os.environ["SPT_LIBRARY"] = chosen.library or f"{prefix}/lib/libspt.so"
        sys.path[:0] = [f"{HOME}/python", f"{HOME}/examples"]
        rows = {}
        sizes = [measure(edges, chosen, rows) for edges in chosen.edges]
    import networkx

    print(f"NetworkX {networkx.__version__}, medians of {chosen.turns} turns, all answers equal")
    for clock, (title, _) in enumerate(CLOCKS):
        heads = [f"{size:,} edges: spt | NetworkX | ratio" for size in sizes]
        print(f"\n{title}:\n\n| | {' | '.join(heads)} |\n|---|{'---|---|---|' * len(sizes)}")
        for row, found in rows.items():
            cells = [row, *(cell for sides in found for cell in cells_of(sides, clock))]
            print("|" + "|".join(f" {cell} " if cell else " " for cell in cells) + "|")


if __name__ == "__main__":
    main()
