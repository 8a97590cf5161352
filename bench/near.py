#!/usr/bin/env python3
"""Times spt_graph_pair of the C library beside the whole tree of the same source, and prints the ratio of their medians.

Usage: python3 bench/near.py [--vertices N] [--runs K] [--library LIBRARY]

On a road-like graph that the library keeps: targets that are the farthest of the nearest 1 %, 10 %, 50 % and of all, by distance
from the source. Pair and tree are asked in turn, several times, in one thread, and their answers are compared each time.
"""

import argparse
import ctypes
import os
import statistics
import subprocess
import sys
import tempfile
import time

sys.dont_write_bytecode = True
import graphs  # noqa: E402

HOME = os.path.dirname(os.path.dirname(os.path.realpath(__file__)))
SEED = 1
PARTS = (0.01, 0.1, 0.5, 1)
u32, u64, size = ctypes.c_uint32, ctypes.c_uint64, ctypes.c_size_t


class Place(ctypes.Structure):
    """spt_graph"""
    _fields_ = [("at", ctypes.c_void_p), ("state", ctypes.c_uint64)]


class Answer(ctypes.Structure):
    """spt_answer"""
    _fields_ = [("status", u32), ("vertex", u32), ("index", u64)]


class Batch(ctypes.Structure):
    """spt_batch"""
    _fields_ = [("status", u32), ("vertex", u32), ("index", u64), ("done", u64)]


class Found(ctypes.Structure):
    """spt_found"""
    _fields_ = [("status", u32), ("pred", u32), ("dist", u64), ("index", u64)]


def read_arcs(path):
    """The arcs of a .gr file, three numbers an arc in one list."""
    with open(path) as file:
        fields = [int(it) for line in file if line.startswith("a ") for it in line.split()[1:]]
    return (u32 * len(fields))(*fields)


class Library:
    """A graph that is kept, with lists for its trees."""

    def __init__(self, path, arcs, n):
        self.calls = ctypes.CDLL(path)
        self.calls.spt_graph_new.restype = Answer
        self.calls.spt_graph_trees.restype = Batch
        self.calls.spt_graph_pair.restype = Found
        self.place, self.n = Place(), n
        self.dist, self.pred = (u64 * n)(), (u32 * n)()
        told = self.calls.spt_graph_new(arcs, size(len(arcs) // 3), u32(n), ctypes.byref(self.place))
        if told.status:
            sys.exit(f"near: status {told.status}")

    def tree(self, source, delta):
        """Milliseconds."""
        asked = (u32 * 1)(source)
        start = time.perf_counter()
        told = self.calls.spt_graph_trees(ctypes.byref(self.place), asked, size(1), u64(delta),
                                          self.dist, size(self.n), self.pred, size(self.n))
        took = (time.perf_counter() - start) * 1000
        if told.done != 1:
            sys.exit(f"near: status {told.status}")
        return took

    def pair(self, source, target, delta):
        """Milliseconds."""
        start = time.perf_counter()
        told = self.calls.spt_graph_pair(ctypes.byref(self.place), u32(source), u32(target), u64(delta))
        took = (time.perf_counter() - start) * 1000
        if told.status or (told.dist, told.pred) != (self.dist[target - 1], self.pred[target - 1]):
            sys.exit("near: pair and tree differ")
        return took


def measure(chosen, path, folder):
    gr = os.path.join(folder, "roads.gr")
    _, mean = graphs.write_graph(gr, "roads", chosen.vertices, SEED)
    arcs = read_arcs(gr)
    library = Library(path, arcs, chosen.vertices)
    source = chosen.vertices // 2
    library.tree(source, mean)
    near = sorted(range(1, chosen.vertices + 1), key=lambda v: library.dist[v - 1])
    print(f"{chosen.vertices:,} vertices, {len(arcs) // 3:,} arcs; medians of {chosen.runs} in turn\n")
    print("| target: farthest of the nearest | pair, ms | tree, ms | of the tree |\n|---|---|---|---|")
    for part in PARTS:
        target = near[int(part * chosen.vertices) - 1]
        took = [(library.pair(source, target, mean), library.tree(source, mean)) for _ in range(chosen.runs)]
        pair, tree = (statistics.median(it) for it in zip(*took))
        print(f"| {part:.0%} | {pair:.2f} | {tree:.2f} | {pair / tree:.3f} |", flush=True)


def main():
    options = argparse.ArgumentParser(description=__doc__, formatter_class=argparse.RawDescriptionHelpFormatter)
    options.add_argument("--vertices", type=int, default=262_144)
    options.add_argument("--runs", type=int, default=7)
    options.add_argument("--library", type=os.path.abspath, help="this libspt.so in place of one that build/libraries makes")
    chosen = options.parse_args()
    with tempfile.TemporaryDirectory() as folder:
        if chosen.library is None:
            subprocess.run([f"{HOME}/build/libraries", folder], check=True)
        measure(chosen, chosen.library or f"{folder}/lib/libspt.so", folder)


if __name__ == "__main__":
    main()
