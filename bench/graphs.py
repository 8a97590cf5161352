#!/usr/bin/env python3
"""Makes `.gr` graphs and `.ss` lists of sources, for benchmarks and for trying the program.

Usage: python3 bench/graphs.py KIND N [--seed S] [--sources K] [--shuffled] GR SS

KIND is one of
  roads     a road-like grid: short streets both ways, some missing, and a few long ones; about 2.6 arcs a vertex
  random    four arcs a vertex between vertices drawn at random, lengths from 1 to 1,000
  ties      a grid whose arcs all have length 1, so that most vertices have several shortest walks
  parts     several grids without an arc between them, so that most vertices are unreachable
  parallel  a grid in which arcs stand several times with other lengths, and vertices have loops
  far       a line of arcs of the greatest length, whose end is too far for a word with 28 bits of predecessor
  path      a line of arcs of length 1
  star      arcs from one vertex to all others, and back
and of those whose lengths differ much, which are hostile to a schedule that goes by one width:
  ladder    two lines of short streets with rungs between them, of which one in fifty is closed: its length is 1,000,000,000
  closed    the roads, of which one in fifty is closed
  lognormal a grid of lengths that are log-normal, from 1 to 100,000,000, most of them near 1,000
  late      a chain of gadgets in which whoever takes the newest entry first corrects each distance many times over

The same arguments make the same files.
"""

import argparse
import math
import random

LONGEST = 4294967295


def grid(n, draw, length, keep=1.0):
    """Arcs both ways between neighbours on a square grid of n vertices, each pair kept with this probability."""
    side = max(1, math.isqrt(n))
    for vertex in range(1, n + 1):
        for step in (1, side):
            other = vertex + step
            if other > n or (step == 1 and vertex % side == 0) or draw.random() >= keep:
                continue
            yield vertex, other, length()
            yield other, vertex, length()


def roads(n, draw):
    yield from grid(n, draw, lambda: draw.randint(50, 1500), 0.64)
    for _ in range(n // 100):
        tail, head, length = draw.randint(1, n), draw.randint(1, n), draw.randint(5000, 50000)
        yield tail, head, length
        yield head, tail, length


def at_random(n, draw):
    for tail in range(1, n + 1):
        for _ in range(4):
            yield tail, draw.randint(1, n), draw.randint(1, 1000)


def ties(n, draw):
    yield from grid(n, draw, lambda: 1)


def parts(n, draw):
    for tail, head, length in grid(n, draw, lambda: draw.randint(1, 100)):
        if (tail - 1) * 7 // n == (head - 1) * 7 // n:
            yield tail, head, length


def parallel(n, draw):
    for tail, head, length in grid(n, draw, lambda: draw.randint(1, 100), 0.7):
        for _ in range(draw.randint(1, 3)):
            yield tail, head, length + draw.randint(0, 3)
    for vertex in range(1, n + 1, 3):
        yield vertex, vertex, draw.randint(1, 100)


def far(n, _draw):
    for vertex in range(1, n):
        yield vertex, vertex + 1, LONGEST


CLOSED = 1_000_000_000


def path(n, _draw):
    for vertex in range(1, n):
        yield vertex, vertex + 1, 1


def star(n, draw):
    for vertex in range(2, n + 1):
        length = draw.randint(1, 1000)
        yield 1, vertex, length
        yield vertex, 1, length


def ladder(n, draw):
    half = n // 2
    for vertex in range(1, n + 1):
        for other in (vertex + 1, vertex + half):
            if other > n or vertex == half:
                continue
            length = CLOSED if draw.random() < 0.02 else draw.randint(1, 100)
            yield vertex, other, length
            yield other, vertex, length


def closed(n, draw):
    for tail, head, length in roads(n, draw):
        yield tail, head, CLOSED if draw.random() < 0.02 else length


def lognormal(n, draw):
    yield from grid(n, draw, lambda: min(100_000_000, max(1, int(draw.lognormvariate(7, 3)))))


# The arcs of a gadget of 2k + 1 vertices: over its step i one may go at once, at a cost of 2^(k-i), or by a vertex beside, for 2.
# The dear way is tried first, so each later one is found shorter when the steps behind it were done already.
def late(n, _draw):
    steps = 20
    for first in range(1, n - 2 * steps, 2 * steps):
        for step in range(steps):
            vertex = first + 2 * step
            yield vertex, vertex + 2, 2 + 2 ** (steps - step)
            yield vertex, vertex + 1, 1
            yield vertex + 1, vertex + 2, 1


KINDS = {"roads": roads, "random": at_random, "ties": ties, "parts": parts, "parallel": parallel, "far": far}
KINDS.update(path=path, star=star, ladder=ladder, closed=closed, lognormal=lognormal, late=late)


def write_graph(path, kind, n, seed, shuffled=False):
    """Writes the graph, and tells its number of arcs and their mean length. Arcs are made twice rather than kept, unless they are shuffled."""

    def make():
        return KINDS[kind](n, random.Random(seed))

    if shuffled:
        kept = list(make())
        random.Random(seed + 2).shuffle(kept)
    count, total = 0, 0
    for _, _, length in make():
        count += 1
        total += length
    with open(path, "w") as file:
        file.write(f"c {kind}, seed {seed}\np sp {n} {count}\n")
        file.writelines(f"a {tail} {head} {length}\n" for tail, head, length in (kept if shuffled else make()))
    return count, max(1, total // max(1, count))


def write_sources(path, n, count, seed):
    draw = random.Random(seed + 1)
    with open(path, "w") as file:
        file.write(f"p aux sp ss {count}\n")
        file.writelines(f"s {draw.randint(1, n)}\n" for _ in range(count))


def main():
    options = argparse.ArgumentParser(description=__doc__, formatter_class=argparse.RawDescriptionHelpFormatter)
    options.add_argument("kind", choices=sorted(KINDS))
    options.add_argument("n", type=int)
    options.add_argument("gr")
    options.add_argument("ss")
    options.add_argument("--seed", type=int, default=1)
    options.add_argument("--sources", type=int, default=3)
    options.add_argument("--shuffled", action="store_true", help="the same arcs in an order drawn at random")
    chosen = options.parse_args()
    count, mean = write_graph(chosen.gr, chosen.kind, chosen.n, chosen.seed, chosen.shuffled)
    write_sources(chosen.ss, chosen.n, chosen.sources, chosen.seed)
    print(f"{chosen.n} vertices, {count} arcs of mean length {mean}, {chosen.sources} sources")


if __name__ == "__main__":
    main()
