#!/usr/bin/env python3
"""Compares `spt tree`, also within a distance, and `spt check` with a plain Dijkstra and a plain checker, on graphs of each kind of bench/graphs.py.

Usage: python3 tests/trees.py [--vertices N] [--sources K] [--seed S]

For each kind, each width of a bucket and each number of workers the program must write the bytes that Dijkstra's
algorithm gives, and with a limit those of its words up to that distance. For each block that it writes, `spt check` must say yes, and no with the least vertex and rule once
a digit is edited; `spt check --all` must say so of all blocks in one file. On a greater graph several workers must be seen at work, for one source and for several, and one
alone where one is asked for. The last line is 'N passed, M failed'.
"""

import argparse
import heapq
import os
import random
import subprocess
import sys
import tempfile
import threading

sys.dont_write_bytecode = True
from harness import HOME, Count, graphs, run  # noqa: E402

# the greatest distance of a word with 28 bits of predecessor, as --pred-bits is where it isn't given
MAX = 2**36 - 2
WORKERS = (1, 2, 4, 64)
EDITS = 5


def dijkstra(rows, source):
    """The least distance and smallest-numbered predecessor of each reached vertex, and the least vertex that is too far."""
    words, far, queue = {source: (0, 0)}, None, [(0, source)]
    while queue:
        distance, tail = heapq.heappop(queue)
        if distance > words[tail][0]:
            continue
        for head, length in rows[tail]:
            offer = (distance + length, tail)
            if offer[0] > MAX:
                continue
            if head not in words or offer < words[head]:
                if head not in words or offer[0] < words[head][0]:
                    heapq.heappush(queue, (offer[0], head))
                words[head] = offer
    for tail, word in words.items():
        for head, length in rows[tail]:
            if head not in words and word[0] + length > MAX:
                far = head if far is None else min(far, head)
    return words, far


def line_of_pair(source, target, words, far):
    """The line of a pair, by the words from its source and the vertex that is too far."""
    if target in words:
        distance, tail = words[target]
        return f"d {source} {target} {distance} {tail}\n"
    return f"n {source} {target}\n" if far is None else f"x {source} {far}\n"


def block(n, source, words, far):
    if far is not None:
        return f"x {source} {far}\n"
    rows = "".join(f"v {vertex} {distance} {tail}\n" for vertex, (distance, tail) in sorted(words.items()))
    return f"p spt {n} {source}\n{rows}e {len(words)}\n"


def part(words, limit):
    """The words at distances up to the limit."""
    return {vertex: word for vertex, word in words.items() if word[0] <= limit}


def halfway(words):
    """The distance that half of the vertices are at or within, and their words."""
    distances = sorted(distance for distance, _ in words.values())
    limit = distances[(len(distances) - 1) // 2]
    return limit, part(words, limit)


def fault(arcs, source, words):
    """The lowest vertex at which a rule of the checker fails, and its lowest such rule."""
    faults, held = [], {}
    if words.get(source) != (0, 0):
        faults.append((source, 2))
    for tail, head, length in arcs:
        if tail not in words:
            continue
        total = words[tail][0] + length
        if total <= MAX and (head not in words or (total, tail) < words[head]):
            faults.append((head, 3))
        if head in words and words[head] == (total, tail):
            held[head] = True
        if head not in words and total > MAX:
            faults.append((head, 5))
    faults += [(vertex, 4) for vertex in words if vertex != source and vertex not in held]
    return min(faults, default=None)


def edited(words, draw):
    """The words with one digit of one row changed, of a row with a predecessor."""
    vertex = draw.choice(sorted(words))
    distance, tail = words[vertex]
    if draw.random() < 0.5:
        distance = with_another_digit(distance, draw)
    else:
        tail = with_another_digit(tail, draw)
    return {**words, vertex: (distance, tail)}


def with_another_digit(number, draw):
    """Another number of as many digits, canonical and no greater than a vertex may be."""
    digits = list(str(number))
    place = draw.randrange(len(digits))
    digit = draw.choice([it for it in "0123456789" if it != digits[place] and (it != "0" or len(digits) == 1 or place > 0)])
    return int("".join([*digits[:place], digit, *digits[place + 1 :]]))


def run_spt(*words):
    return run(f"{HOME}/spt", *words, timeout=None)


def compare_trees(count, kind, files, mean, wanted, status):
    for delta in (max(1, mean // 3), mean, 3 * mean, MAX):
        for workers in WORKERS:
            told = run_spt("tree", *files, "--delta", str(delta), "--workers", str(workers))
            count.of(f"tree of {kind}, delta {delta}, {workers} workers", told == (status, wanted, ""))


def compare_parts(count, kind, files, mean, n, trees):
    """The parts of the trees within nothing, half of the first tree, one less, and every distance of a word."""
    limit, _ = halfway(trees[0][1])
    for most in (0, max(0, limit - 1), limit, MAX):
        wanted = "".join(block(n, source, part(words, most), None) for source, words, _ in trees)
        for workers in WORKERS:
            told = run_spt("tree", *files, "--within", str(most), "--delta", str(mean), "--workers", str(workers))
            count.of(f"tree of {kind} within {most}, {workers} workers", told == (0, wanted, ""))


def compare_checks(count, kind, folder, graph, arcs, n, source, words, draw):
    file = f"{folder}/tree"

    def said(rows):
        with open(file, "w") as it:
            it.write(block(n, source, rows, None))
        return run_spt("check", graph, file)

    count.of(f"check of {kind}, source {source}", said(words) == (0, "yes\n", ""))
    for _ in range(EDITS):
        wrong = edited(words, draw)
        if any(distance > MAX or tail > n for distance, tail in wrong.values()):
            continue
        vertex, rule = fault(arcs, source, wrong)
        count.of(f"check of {kind}, source {source}, an edited digit", said(wrong) == (3, f"no {vertex} {rule}\n", ""))


def compare_blocks(count, kind, folder, graph, arcs, n, trees, draw):
    """`check --all` on the blocks of several sources, right and with a digit of one of them changed."""
    file = f"{folder}/trees"

    def said(blocks):
        with open(file, "w") as it:
            it.write("".join(block(n, source, words, None) for source, words in blocks))
        return run_spt("check", "--all", graph, file)

    count.of(f"check --all of {kind}", said(trees) == (0, "yes\n" * len(trees), ""))
    for _ in range(EDITS):
        place = draw.randrange(len(trees))
        source, words = trees[place]
        wrong = edited(words, draw)
        if any(distance > MAX or tail > n for distance, tail in wrong.values()):
            continue
        vertex, rule = fault(arcs, source, wrong)
        answers = ["yes\n"] * len(trees)
        answers[place] = f"no {source} {vertex} {rule}\n"
        told = said([*trees[:place], (source, wrong), *trees[place + 1 :]])
        count.of(f"check --all of {kind}, an edited digit in block {place + 1}", told == (3, "".join(answers), ""))


def compare(count, kind, chosen, folder):
    graph, list_of_sources = f"{folder}/{kind}.gr", f"{folder}/{kind}.ss"
    _, mean = graphs.write_graph(graph, kind, chosen.vertices, chosen.seed)
    graphs.write_sources(list_of_sources, chosen.vertices, chosen.sources, chosen.seed)
    with open(graph) as it:
        arcs = [tuple(map(int, line.split()[1:])) for line in it if line.startswith("a ")]
    with open(list_of_sources) as it:
        sources = [int(line.split()[1]) for line in it if line.startswith("s ")]
    rows = {vertex: [] for vertex in range(1, chosen.vertices + 1)}
    for tail, head, length in arcs:
        rows[tail].append((head, length))
    trees = [(source, *dijkstra(rows, source)) for source in sources]
    wanted = "".join(block(chosen.vertices, source, words, far) for source, words, far in trees)
    status = 4 if any(far for _, _, far in trees) else 0
    compare_trees(count, kind, (graph, list_of_sources), min(mean, MAX // 3), wanted, status)
    compare_parts(count, kind, (graph, list_of_sources), min(mean, MAX // 3), chosen.vertices, trees)
    draw = random.Random(chosen.seed)
    for source, words, far in trees:
        if far is None:
            compare_checks(count, kind, folder, graph, arcs, chosen.vertices, source, words, draw)
    near = [(source, words) for source, words, far in trees if far is None]
    if near:
        compare_blocks(count, kind, folder, graph, arcs, chosen.vertices, near, draw)


def most_threads(*words):
    """The greatest number of threads that was seen in one run, looked for all the time, and its status and output."""
    most = 0
    process = subprocess.Popen([f"{HOME}/spt", *words], stdout=subprocess.PIPE, stderr=subprocess.DEVNULL)
    reader = threading.Thread(target=process.stdout.read)
    reader.start()
    while process.poll() is None:
        try:
            most = max(most, len(os.listdir(f"/proc/{process.pid}/task")))
        except FileNotFoundError:
            break
    reader.join()
    return most, process.wait()


def see_workers(count, folder, seed):
    """Several workers are started for one source of a great graph, and for several, and none where one is asked for."""
    if len(os.sched_getaffinity(0)) < 2:
        return
    graph, one, several = f"{folder}/great.gr", f"{folder}/one.ss", f"{folder}/several.ss"
    _, mean = graphs.write_graph(graph, "roads", 100_000, seed)
    graphs.write_sources(one, 100_000, 1, seed)
    graphs.write_sources(several, 100_000, 4, seed)
    for name, sources in (("one source", one), ("several sources", several)):
        for workers in WORKERS:
            words = ("tree", graph, sources, "--delta", str(mean), "--workers", str(workers))
            seen = [most_threads(*words) for _ in range(3)]
            holds = all(status == 0 for _, status in seen)
            most = max(threads for threads, _ in seen)
            count.of(f"threads for {name}, {workers} workers", holds and (most == 1 if workers == 1 else most > 1))


def main():
    options = argparse.ArgumentParser(description=__doc__, formatter_class=argparse.RawDescriptionHelpFormatter)
    options.add_argument("--vertices", type=int, default=10000)
    options.add_argument("--sources", type=int, default=3)
    options.add_argument("--seed", type=int, default=1)
    chosen = options.parse_args()
    count = Count()
    with tempfile.TemporaryDirectory() as folder:
        for kind in sorted(graphs.KINDS):
            compare(count, kind, chosen, folder)
        see_workers(count, folder, chosen.seed)
    return count.end()


if __name__ == "__main__":
    sys.exit(main())
