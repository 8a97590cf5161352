"""The example, randomly generated graphs, and the modules that may be missing."""

import array
import heapq
import importlib
import os
import random


HOME = os.path.dirname(os.path.dirname(os.path.dirname(os.path.realpath(__file__))))
DIAMOND = [(1, 2, 3), (1, 3, 3), (2, 4, 2), (3, 4, 2), (1, 4, 6)]
LONGEST = 2**32 - 1


def optional(name, *parts):
    """This module, with these of its modules; None if one isn't installed."""
    try:
        for part in parts:
            importlib.import_module(f"{name}.{part}")
        return importlib.import_module(name)
    except ImportError:
        return None


numpy, pandas, networkx, tqdm = map(optional, ("numpy", "pandas", "networkx", "tqdm"))
scipy = optional("scipy", "sparse")
# with NumPy, where it is, and as if it weren't
WAYS = ({}, {"numpy": None}) if numpy else ({},)


def read(page):
    """The text of a file of the repository."""
    with open(f"{HOME}/{page}") as it:
        return it.read()


def by_lot(n, m, seed, longest=1000):
    """The numbers of m arcs between n vertices, three for each."""
    draw = random.Random(seed)
    return array.array("I", (draw.randint(1, most) for _ in range(m) for most in (n, n, longest)))


def triples(numbers):
    return list(zip(numbers[::3], numbers[1::3], numbers[2::3]))


def distances_from(arcs, n, source):
    """The distance of each vertex by a plain Dijkstra."""
    rows = [[] for _ in range(n + 1)]
    for tail, head, length in arcs:
        rows[tail].append((head, length))
    distances, waiting = [2**64 - 1] * n, [(0, source)]
    distances[source - 1] = 0
    while waiting:
        dist, tail = heapq.heappop(waiting)
        if dist != distances[tail - 1]:
            continue
        for head, length in rows[tail]:
            if dist + length < distances[head - 1]:
                distances[head - 1] = dist + length
                heapq.heappush(waiting, (dist + length, head))
    return distances


def smallest_predecessors(arcs, source, distances):
    """The predecessor of each vertex by its definition, from the distances alone."""
    unreached, before = 2**64 - 1, [0] * len(distances)
    for tail, head, length in arcs:
        tight = distances[tail - 1] != unreached and distances[tail - 1] + length == distances[head - 1]
        if tight and head != source and (before[head - 1] == 0 or tail < before[head - 1]):
            before[head - 1] = tail
    return before
