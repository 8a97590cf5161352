#!/usr/bin/env python3
"""Times questions about a graph that C or Python keeps: a near pair, small parts, the trees of ten sources, the nearest of them.

Usage: python3 bench/kept.py [--vertices N] [--runs R] [--limit L] [--library LIBRARY] [--before LIBRARY]

A road-like graph of N vertices is kept once, and each question is asked R times in turn, by ctypes as C does and by the Python package;
the least time of each is told in milliseconds. With --before, also by another library: each has a process of its own, and a question that
a library doesn't know is left out. The limit L is chosen so that some 58 vertices lie within it.
"""

import argparse
import ctypes
import json
import os
import subprocess
import sys
import tempfile
import time

sys.dont_write_bytecode = True
import graphs  # noqa: E402

HOME = os.path.dirname(os.path.dirname(os.path.realpath(__file__)))
READY = os.path.join(HOME, "dist", "library", "libspt.so")
SEED, SOURCES = 1, 10


def questions(spt, graph, limit):
    """Each question by its name, and a call that asks it; and the lists that the calls write."""
    from spt import _library
    from spt._buffers import address, words, zeros

    n, library = graph.n, _library.library
    place, middle = _library.Place(), n // 2
    library.spt_graph_share(ctypes.byref(graph._kept._place), ctypes.byref(place))
    # the farthest vertex of the small part
    told = graph.tree(middle, within=limit).distances
    near = max((dist, vertex) for vertex, dist in enumerate(told, 1) if dist != spt.UNREACHED)[1]
    sources = words([middle + step * (n // (3 * SOURCES)) for step in range(SOURCES)])
    lists = zeros("Q", SOURCES * n), zeros("I", SOURCES * n), zeros("I", n), zeros("I", n)
    dist, pred, root, vertex = (address(it) for it in lists)
    at, first = ctypes.byref(place), address(sources)

    def checked(told):
        if told.status:
            sys.exit(f"kept: status {told.status}")

    calls = {
        "pair": lambda: checked(library.spt_graph_pair(at, middle, near, 0)),
        "within": lambda: checked(library.spt_graph_within(at, middle, limit, 0, dist, n, pred, n)),
        "ten trees": lambda: checked(library.spt_graph_trees(at, first, SOURCES, 0, dist, SOURCES * n, pred, SOURCES * n)),
        "nearest": lambda: checked(library.spt_graph_nearest(at, first, SOURCES, 2**64 - 1, 0, dist, n, pred, n, root, n)),
        "nearest within": lambda: checked(library.spt_graph_nearest(at, first, SOURCES, limit, 0, dist, n, pred, n, root, n)),
        "Python: pair": lambda: graph.pair(middle, near),
        "Python: tree(within)": lambda: graph.tree(middle, within=limit),
    }
    if hasattr(library, "spt_graph_part"):
        calls["part"] = lambda: checked(library.spt_graph_part(at, middle, limit, vertex, n, dist, n, pred, n))
    return calls, (lists, sources)


def measure(file, limit, runs):
    """The least times, and how many vertices lie within the limit, as a line for the process that asked."""
    sys.path.insert(0, os.path.join(HOME, "python"))
    import spt

    graph, least = spt.Graph.read(file), {}
    calls, _lists = questions(spt, graph, limit)
    for _ in range(runs):
        for name, call in calls.items():
            # a short question a few times, since the first search of a place makes its words
            for _ in range(1 if name in ("nearest", "ten trees") else 20):
                start = time.perf_counter()
                call()
                least[name] = min((time.perf_counter() - start) * 1000, least.get(name, float("inf")))
    part = sum(it != spt.UNREACHED for it in graph.tree(graph.n // 2, within=limit).distances)
    print(json.dumps([least, part]))


def main():
    options = argparse.ArgumentParser(description=__doc__, formatter_class=argparse.RawDescriptionHelpFormatter)
    options.add_argument("--vertices", type=int, default=1_000_000)
    options.add_argument("--runs", type=int, default=5)
    options.add_argument("--limit", type=int, default=8000)
    options.add_argument("--library", type=os.path.abspath, default=READY, help="this library in place of that of dist/")
    options.add_argument("--before", type=os.path.abspath, help="another library beside it")
    options.add_argument("--of", help=argparse.SUPPRESS)
    chosen = options.parse_args()
    if chosen.of:
        return measure(chosen.of, chosen.limit, chosen.runs)
    found = []
    with tempfile.TemporaryDirectory() as folder:
        graphs.write_graph(f"{folder}/g.gr", "roads", chosen.vertices, SEED)
        for library in (chosen.library, *([chosen.before] if chosen.before else [])):
            words = [sys.executable, __file__, "--of", f"{folder}/g.gr", "--limit", str(chosen.limit), "--runs", str(chosen.runs)]
            done = subprocess.run(words, env=dict(os.environ, SPT_LIBRARY=library), check=True, capture_output=True, text=True)
            found.append(json.loads(done.stdout))
    print(f"{chosen.vertices:,} vertices, {found[0][1]} of them within {chosen.limit}, {SOURCES} sources; least of {chosen.runs}\n")
    print(f"| what | ms |{' before |' if chosen.before else ''}\n|---|---|{'---|' if chosen.before else ''}")
    for name in found[0][0]:
        print(f"| {name} | {' | '.join(f'{it[name]:.3f}' if name in it else '' for it, _ in found)} |")


if __name__ == "__main__":
    main()
