#!/usr/bin/env python3
"""Measures how much memory the program takes at its peak for a vertex, an arc, a source, a pair and a worker, as `./spt` runs it.

Usage: python3 bench/memory.py [--program PROGRAM]

Each figure is the difference of two peaks of whole commands, of which one has more of the one kind, over the difference of
their numbers. The figures of arcs are those of a graph that has many more arcs than vertices.
"""

import argparse
import itertools
import random
import re
import subprocess
import sys
import tempfile
import time

sys.dont_write_bytecode = True
import graphs  # noqa: E402
import parts  # noqa: E402

MILLION = 1_000_000


def most_resident(process):
    """Bytes of resident memory at the peak so far, None where the process has ended."""
    try:
        with open(f"/proc/{process}/status") as it:
            found = re.search(r"VmHWM:\s+(\d+) kB", it.read())
        return int(found[1]) * 1024 if found else None
    except FileNotFoundError:
        return None


def peak(program, *words):
    """Bytes of resident memory at the peak of a command that must be done, looked at every millisecond."""
    most = 0
    process = subprocess.Popen(parts.as_users_run(program, words), stdout=subprocess.DEVNULL)
    while process.poll() is None:
        most = max(most, most_resident(process.pid) or 0)
        time.sleep(0.001)
    if process.returncode != 0:
        sys.exit(f"memory: {' '.join(words)}: status {process.returncode}")
    return most


def put(folder, name, *lines):
    """A file of these lines."""
    with open(f"{folder}/{name}", "w") as it:
        it.writelines(f"{line}\n" for line in itertools.chain(*lines))
    return f"{folder}/{name}"


def graph(folder, vertices, arcs):
    """A graph of arcs drawn at random."""
    draw = random.Random(1)
    lines = (f"a {draw.randint(1, vertices)} {draw.randint(1, vertices)} {draw.randint(1, 999)}" for _ in range(arcs))
    return put(folder, f"{vertices}_{arcs}.gr", [f"p sp {vertices} {arcs}"], lines)


def sources(folder, count, vertices=1):
    return put(folder, f"{count}_{vertices}.ss", [f"p aux sp ss {count}"], (f"s {1 + it * 997 % vertices}" for it in range(count)))


def pairs(folder, count, vertices):
    return put(folder, f"{count}.pairs", [f"p pairs {count}"], (f"q 1 {1 + it % vertices}" for it in range(count)))


def figures(program, folder):
    """Each figure with its name."""
    tree = ("--delta", "500")
    one = sources(folder, 1)
    alone, many = graph(folder, MILLION, 0), graph(folder, 5 * MILLION, 0)

    def slope(more, less, count):
        return (peak(program, *more) - peak(program, *less)) / count

    yield "a vertex", slope(("tree", many, one, *tree), ("tree", alone, one, *tree), 4 * MILLION)
    few, great = graph(folder, 1000, MILLION), graph(folder, 1000, 4 * MILLION)
    yield "an arc", slope(("tree", great, one, *tree), ("tree", few, one, *tree), 3 * MILLION)
    point = graph(folder, 1, 0)
    list_of_sources = sources(folder, MILLION)
    yield "a source", slope(("tree", point, list_of_sources, *tree), ("tree", point, one, *tree), MILLION)
    # (no walk leads to the one target, so that a run is made for it too)
    asked, short = pairs(folder, MILLION, MILLION), put(folder, "far.pairs", ["p pairs 1", "q 1 2"])
    for name, more in (("a pair", tree), ("a pair with `--routes`", (*tree, "--routes"))):
        yield name, slope(("pairs", alone, asked, *more), ("pairs", alone, short, *more), MILLION)
    roads = f"{folder}/roads.gr"
    graphs.write_graph(roads, "roads", MILLION, 1)
    one_worker = ("tree", roads, one, *tree, "--workers", "1")
    for workers in (2, 4):
        more = ("tree", roads, one, *tree, "--workers", str(workers))
        yield f"a worker of {workers} on one source, a vertex", slope(more, one_worker, (workers - 1) * MILLION)
    several = sources(folder, 16, MILLION)
    for workers in (1, 2, 4):
        more = ("tree", roads, several, *tree, "--workers", str(workers))
        yield f"{workers} workers on 16 sources, a vertex, beside one source", slope(more, one_worker, MILLION)
    words = f"{folder}/roads.tree"
    with open(words, "wb") as out:
        subprocess.run([program, *one_worker], stdout=out, check=True)
    yield "a vertex of `check`, beside `tree`", slope(("check", roads, words), one_worker, MILLION)
    # each vertex reached by one source, with as few arcs as that takes; and then each of them a source, with no arc at all
    star = put(folder, "star.gr", [f"p sp {MILLION} {MILLION - 1}"], (f"a 1 {head} {1 + head % 999}" for head in range(2, MILLION + 1)))
    all_of_star, one_alone = ("tree", star, one, *tree, "--workers", "1"), ("tree", alone, one, *tree, "--workers", "1")
    yield "a vertex of `nearest` with one source, beside `tree`", slope(("nearest", star, one, *tree, "--workers", "1"), all_of_star, MILLION)
    every = sources(folder, MILLION, MILLION)
    forest = ("nearest", alone, every, *tree, "--workers", "1")
    yield "a vertex of `nearest` that is a source, beside `tree`", slope(forest, one_alone, MILLION)
    with open(words, "wb") as out:
        subprocess.run([program, *forest], stdout=out, check=True)
    yield "a vertex of `check` of that forest, beside `tree`", slope(("check", alone, words), one_alone, MILLION)
    yield "a target of `matrix`, beside `tree`", slope(("matrix", star, one, every, *tree, "--workers", "1"), all_of_star, MILLION)


def main():
    options = argparse.ArgumentParser(description=__doc__, formatter_class=argparse.RawDescriptionHelpFormatter)
    options.add_argument("--program", help="this spt, as it is, in place of a build")
    chosen = options.parse_args()
    print("| memory of | bytes |\n|---|---|")
    with tempfile.TemporaryDirectory() as folder:
        for name, amount in figures(chosen.program or parts.program(), folder):
            print(f"| {name} | {amount:.1f} |", flush=True)


if __name__ == "__main__":
    main()
