#!/usr/bin/env python3
"""Compares `spt check` of forests with a plain checker, and `spt nearest` of one source and of none, on graphs of each kind of bench/graphs.py.

Usage: python3 tests/forests.py [--vertices N] [--sources K] [--seed S]

For each kind K sources are drawn, in no order, one of them twice; one source and none are tried too. With no limit, with the least distance of
the middle vertex, with 0 and with the greatest distance, the program must write the block that Dijkstra's algorithm gives from all sources at once; `spt
check` must say yes to it, and no with the least vertex and rule once the number of sources or a digit is edited. The last line is
'N passed, M failed'.
"""

import random
import sys

sys.dont_write_bytecode = True
from harness import compare_kinds, drawn, graphs, put, write_list  # noqa: E402
from nearest import block, forest, roots  # noqa: E402
from trees import MAX, halfway, part, run_spt, with_another_digit  # noqa: E402

EDITS = 6


def text_of(n, count, rows):
    """The file of these rows, each of a distance, a predecessor and a root, whatever they are."""
    lines = "".join(f"v {vertex} {distance} {tail} {root}\n" for vertex, (distance, tail, root) in sorted(rows.items()))
    return f"p near {n} {count}\n{lines}e {len(rows)}\n"


def fault(arcs, count, limit, rows):
    """The lowest vertex at which a rule of the checker fails, and its lowest such rule."""
    starts = {vertex for vertex, row in rows.items() if row[1] == 0}
    if len(starts) != count:
        return 0, 1
    most = MAX if limit is None else limit
    faults, held = [(vertex, 2) for vertex in starts if rows[vertex] != (0, 0, vertex)], set()
    for tail, head, length in arcs:
        if tail not in rows:
            continue
        total = rows[tail][0] + length
        if total <= most and (head not in rows or (total, tail) < rows[head][:2]):
            faults.append((head, 3))
        if head in rows and rows[head][:2] == (total, tail):
            held.add(head)
        if limit is None and head not in rows and total > MAX:
            faults.append((head, 5))
    for vertex, (distance, tail, root) in rows.items():
        if vertex not in starts and vertex not in held:
            faults.append((vertex, 4))
        if distance > most:
            faults.append((vertex, 6))
        if vertex not in starts and tail in rows and root != rows[tail][2]:
            faults.append((vertex, 7))
    return min(faults, default=None)


def edited(rows, draw):
    """The rows with one digit of one of them changed."""
    vertex = draw.choice(sorted(rows))
    row, place = list(rows[vertex]), draw.randrange(3)
    row[place] = with_another_digit(row[place], draw)
    return {**rows, vertex: tuple(row)}


def is_in_range(rows, n):
    return all(distance <= MAX and tail <= n and 1 <= root <= n for distance, tail, root in rows.values())


def compare_checks(count, name, said, arcs, n, starts, limit, rows, draw):
    count.of(f"check of {name}", said(text_of(n, starts, rows)) == (0, "yes\n", ""))
    if starts < n:
        count.of(f"check of {name}, a source more", said(text_of(n, starts + 1, rows)) == (3, "no 0 1\n", ""))
    for _ in range(EDITS if rows else 0):
        wrong = edited(rows, draw)
        if is_in_range(wrong, n):
            vertex, rule = fault(arcs, starts, limit, wrong)
            count.of(f"check of {name}, an edited digit", said(text_of(n, starts, wrong)) == (3, f"no {vertex} {rule}\n", ""))


def compare(count, kind, chosen, folder):
    graph, sources_of, file = (f"{folder}/{kind}.{ending}" for ending in ("gr", "ss", "near"))
    n, draw = chosen.vertices, random.Random(chosen.seed)
    graphs.write_graph(graph, kind, n, chosen.seed)
    with open(graph) as it:
        arcs = [tuple(map(int, line.split()[1:])) for line in it if line.startswith("a ")]
    rows = {vertex: [] for vertex in range(1, n + 1)}
    for tail, head, length in arcs:
        rows[tail].append((head, length))
    some = drawn(draw, chosen.sources, n)
    for sources in (some, some[:1], []):
        write_list(sources_of, sources)
        words, far = forest(rows, sources)
        for limit in (None, halfway(words)[0] if words else 1, 0, MAX):
            told = far is not None and limit is None
            found = words if limit is None else part(words, limit)
            option = () if limit is None else ("--within", str(limit))
            name = f"the forest of {kind}, {len(sources)} sources, limit {limit}"
            wanted = block(n, found, far if told else None)
            count.of(name, run_spt("nearest", graph, sources_of, *option, "--workers", "2") == (4 if told else 0, wanted, ""))
            if not told:
                root = roots(found)
                rooted = {vertex: (*word, root[vertex]) for vertex, word in found.items()}

                def said(text):
                    return run_spt("check", graph, put(file, text), *option)

                compare_checks(count, name, said, arcs, n, len(set(sources)), limit, rooted, draw)


def main():
    return compare_kinds(__doc__, compare, sources=20)


if __name__ == "__main__":
    sys.exit(main())
