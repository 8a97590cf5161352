#!/usr/bin/env python3
"""Times the way from a street map to a picture of travel times, beside NetworkX.

Usage: python3 bench/streets.py [--side N] [--runs K] [--picture FILE] [--library LIBRARY]

The map is a randomly generated town in OSMnx's form (examples/streets.py) N blocks wide: a frame of pandas whose edges have two ends
with numbers beyond 32 bits and a time in seconds that is a fraction. Each side makes its graph of the frame, finds the time from a junction
in the middle to every other, and makes a frame of these times; the picture (docs/PYTHON.md) is the same for both, and drawn once. Medians of some
runs are printed. Each time must be NetworkX's up to half a thousandth of a second for each street of the way. A Python with pandas, NetworkX
and matplotlib is needed (Debian: python3-pandas, python3-networkx, python3-matplotlib).
"""

import argparse
import os
import statistics
import subprocess
import sys
import tempfile
import time

HOME = os.path.dirname(os.path.dirname(os.path.realpath(__file__)))
sys.dont_write_bytecode = True
# OpenStreetMap's own numbers of junctions are beyond 2^33 by now
BEYOND = 9_000_000_000
UNIT = 0.001
STEPS = ["a graph of the frame", "times from a junction", "a frame of the times"]


def street_map(side):
    """The edges of a town as a frame, its junctions with their coordinates, and the junction in the middle."""
    import pandas
    from streets import SPEEDS, town

    streets = town(side)
    rows = [(tail + BEYOND, head + BEYOND, edge["length"] / (SPEEDS[edge["highway"]] / 3.6)) for tail, head, edge in streets.edges(data=True)]
    edges = pandas.DataFrame(rows, columns=["u", "v", "travel_time"])
    places = pandas.DataFrame.from_dict({node + BEYOND: its for node, its in streets.nodes(data=True)}, orient="index")
    return edges, places, 500_000_000 + BEYOND + side * (side // 2) + side // 2


def by_spt(edges, depot):
    """What each step answers, by spt, one step a turn; the last is the frame."""
    import spt

    graph = spt.Graph.from_frame(edges, "u", "v", "travel_time", unit=UNIT)
    yield graph
    tree = graph.tree(depot)
    yield tree
    yield tree.frame()["distance"]


def by_networkx(edges, depot):
    """The same by NetworkX."""
    import networkx
    import pandas

    graph = networkx.from_pandas_edgelist(edges, "u", "v", "travel_time", create_using=networkx.MultiDiGraph)
    yield graph
    times = networkx.single_source_dijkstra_path_length(graph, depot, weight="travel_time")
    yield times
    yield pandas.Series(times, name="distance")


def timed(steps):
    """The seconds of each step, and what the last answers."""
    seconds, answer = [], None
    while True:
        start = time.perf_counter()
        try:
            answer = next(steps)
        except StopIteration:
            return seconds, answer
        seconds.append(time.perf_counter() - start)


def agree(times, others, junctions):
    """Whether two frames of times have the same junctions, and times that differ by no more than rounding may change."""
    finite = times[times != float("inf")]
    bound = UNIT / 2 * junctions + 1e-6
    return finite.index.sort_values().equals(others.index.sort_values()) and float((finite - others).abs().max()) <= bound


def drawn(edges, places, times, depot, path):
    """Draws the map of docs/PYTHON.md, and returns the seconds that it takes."""
    import matplotlib
    import numpy

    matplotlib.use("Agg")
    import matplotlib.pyplot as plt
    from matplotlib.collections import LineCollection

    start = time.perf_counter()
    minutes = times[times != float("inf")] / 60
    points = places.loc[minutes.index]
    figure, axes = plt.subplots(figsize=(6.4, 5.4), constrained_layout=True)
    lines = numpy.stack([places.loc[edges[end], ["x", "y"]].to_numpy(float) for end in ("u", "v")], axis=1)
    axes.add_collection(LineCollection(lines, colors="white", linewidths=0.2, zorder=2))
    areas = axes.tricontourf(points["x"].astype(float), points["y"].astype(float), minutes, levels=12, cmap="viridis_r", zorder=1)
    axes.plot(places.loc[depot, "x"], places.loc[depot, "y"], "o", color="black", zorder=3)
    axes.set_aspect(1 / numpy.cos(numpy.radians(points["y"].astype(float).mean())))
    axes.set(title="Minutes from the middle", xticks=[], yticks=[])
    figure.colorbar(areas, label="minutes")
    figure.savefig(path, dpi=110)
    return time.perf_counter() - start


def measure(chosen, path):
    edges, places, depot = street_map(chosen.side)
    print(f"{len(edges)} edges between {len(places)} junctions\n\n| step | spt, s | NetworkX, s |\n|---|---|---|")
    runs = {by_spt: [], by_networkx: []}
    for _ in range(chosen.runs):
        told = {}
        for side, taken in runs.items():
            seconds, told[side] = timed(side(edges, depot))
            taken.append(seconds)
        if not agree(told[by_spt], told[by_networkx], len(places)):
            print("the times differ by more than rounding may change")
            return 1
    ours, theirs = ([statistics.median(it) for it in zip(*taken)] for taken in runs.values())
    for step, mine, its in zip(STEPS, ours, theirs):
        print(f"| {step} | {mine:.3f} | {its:.3f} |")
    print(f"| all of these | {sum(ours):.3f} | {sum(theirs):.3f} |")
    picture = drawn(edges, places, told[by_spt], depot, path)
    print(f"| a picture of the frame | {picture:.1f} | the same |")
    return 0


def main():
    options = argparse.ArgumentParser(description=__doc__, formatter_class=argparse.RawDescriptionHelpFormatter)
    options.add_argument("--side", type=int, default=190)
    options.add_argument("--runs", type=int, default=5)
    options.add_argument("--picture", help="where the picture is to stay")
    options.add_argument("--library", help="the path of libspt.so in place of the one that build/libraries makes")
    chosen = options.parse_args()
    with tempfile.TemporaryDirectory() as prefix:
        if not chosen.library:
            subprocess.run([f"{HOME}/build/libraries", prefix], check=True, stdout=sys.stderr)
        os.environ["SPT_LIBRARY"] = chosen.library or f"{prefix}/lib/libspt.so"
        sys.path[:0] = [f"{HOME}/python", f"{HOME}/examples"]
        return measure(chosen, chosen.picture or f"{prefix}/times.png")


if __name__ == "__main__":
    sys.exit(main())
