#!/usr/bin/env python3
"""Times a small tree of a graph that comes packed, `zcat GR | spt tree -`, beside `zcat` alone: the program should keep pace with what
unpacks.

Usage: python3 bench/pipe.py [--vertices N] [--within L] [--runs K] [--keep FOLDER] [--built-spt PROGRAM]

The graph is road-like, the tree the part within L of vertex 1. The commands run in turn, K times, and medians count. The last line counts the
aims met: at most 1.2 times what `zcat` takes into /dev/null. `zcat` into `cat` tells what a pipe alone takes.
"""

import argparse
import os
import statistics
import subprocess
import sys
import tempfile
import time

sys.dont_write_bytecode = True
import parts  # noqa: E402
import whole  # noqa: E402

WORKERS = (1, 2, 4)
LONGEST = 1.2


def pack(gr):
    packed = f"{gr}.gz"
    if not os.path.exists(packed):
        subprocess.run(["gzip", "--keep", gr], check=True)
    return packed


def run(packed, words):
    """The milliseconds until `zcat`, and the command that reads what it writes, if there is one, have ended."""
    start = time.monotonic()
    unpacking = subprocess.Popen(["zcat", packed], stdout=subprocess.PIPE if words else subprocess.DEVNULL)
    reading = subprocess.Popen(words, stdin=unpacking.stdout, stdout=subprocess.DEVNULL) if words else None
    if reading:
        unpacking.stdout.close()
    for process in (unpacking, reading):
        if process and process.wait() != 0:
            sys.exit(f"pipe: {' '.join(process.args)} ended with status {process.returncode}")
    return (time.monotonic() - start) * 1000


def commands(spt, within):
    """Name and words of each command, zcat alone first."""
    words = ["tree", "-", "--source", "1", "--within", str(within), "--delta", "mean", "--workers"]
    of_spt = [(whole.named(workers), parts.as_users_run(spt, [*words, str(workers)])) for workers in WORKERS]
    return [("`zcat` alone", None), ("into `cat`", ["cat"]), *of_spt]


def options_of():
    options = argparse.ArgumentParser(description=__doc__, formatter_class=argparse.RawDescriptionHelpFormatter)
    options.add_argument("--vertices", type=int, default=1_000_000)
    options.add_argument("--within", type=int, default=20_000, metavar="L")
    options.add_argument("--runs", type=int, default=7, help="how often each command runs")
    options.add_argument("--keep", metavar="FOLDER", type=os.path.abspath, help="where graphs stay")
    options.add_argument("--built-spt", metavar="PROGRAM", type=os.path.abspath, help="this spt, as it is, in place of a build")
    return options.parse_args()


def main():
    chosen = options_of()
    spt, met = chosen.built_spt or parts.program(), []
    with tempfile.TemporaryDirectory() as folder:
        gr, told = whole.make_graph(chosen.keep or folder, "roads", chosen.vertices)
        packed, asked = pack(gr), commands(spt, chosen.within)
        found = {name: [] for name, _ in asked}
        for _ in range(chosen.runs):
            for name, words in asked:
                found[name].append(run(packed, words))
    alone = statistics.median(found["`zcat` alone"])
    print(f"{told.rsplit(', ', 1)[0]}; within {chosen.within:,}; medians of {chosen.runs} in turn\n")
    print("| command | ms | least, ms | of `zcat` alone |\n|---|---|---|---|")
    for name, words in asked:
        ratio = statistics.median(found[name]) / alone
        print(f"| {name} | {ratio * alone:,.0f} | {min(found[name]):,.0f} | {ratio:.2f} |")
        if name.endswith(("worker", "workers")):
            met.append(ratio <= LONGEST)
    print(f"\n{sum(met)} of {len(met)} aims met")


if __name__ == "__main__":
    main()
