#!/usr/bin/env python3
"""Runs random graphs by teams of workers, first alone and then while other processes keep every core busy.

`crates/bench_engine` runs them (its command `fire GRAPHS SEED`, whose last line is 'N passed, M failed') and compares each with
the plain program. What it prints is passed on. A run that ends without that line, with another status or not within the
time has failed.

Usage: python3 bench/fire.py [--graphs N] [--seed S] [--seconds T] [--built PROGRAM]

The last line is 'N passed, M failed', of both runs.
"""

import argparse
import contextlib
import os
import re
import subprocess
import sys

sys.dont_write_bytecode = True
import parts  # noqa: E402

# counts until it is ended, or the process that started it is gone
BUSY = "import os\nparent = os.getppid()\nwhile os.getppid() == parent:\n    sum(range(100000))"


@contextlib.contextmanager
def busy(count):
    """As many processes that do nothing but count, which are ended afterwards."""
    others = []
    try:
        for _ in range(count):
            others.append(subprocess.Popen([sys.executable, "-c", BUSY]))
        yield
    finally:
        for other in others:
            other.kill()
            other.wait()


def fire(words, seconds):
    """What one run passed and failed."""
    try:
        done = subprocess.run(words, stdout=subprocess.PIPE, stderr=subprocess.STDOUT, text=True, timeout=seconds)
    except subprocess.TimeoutExpired:
        print(f"failed: not done after {seconds} seconds", flush=True)
        return 0, 1
    *others, last = done.stdout.splitlines() or [""]
    counts = re.fullmatch(r"(\d+) passed, (\d+) failed", last)
    print("\n".join(others if counts else [*others, last]), flush=True)
    passed, failed = map(int, counts.groups()) if counts else (0, 0)
    if not counts or (done.returncode != 0 and failed == 0):
        print(f"failed: ended with status {done.returncode}", flush=True)
        failed += 1
    return passed, failed


def main():
    options = argparse.ArgumentParser(description=__doc__, formatter_class=argparse.RawDescriptionHelpFormatter)
    options.add_argument("--graphs", type=int, default=1000)
    options.add_argument("--seed", type=int, default=1)
    options.add_argument("--seconds", type=int, default=3600, help="how long a run may take")
    options.add_argument("--built", metavar="PROGRAM", type=os.path.abspath, help="this bench_engine, as it is, in place of a build")
    chosen = options.parse_args()
    words = [chosen.built or parts.build_ours(), "fire", str(chosen.graphs), str(chosen.seed)]
    counts = []
    for count in (0, len(os.sched_getaffinity(0))):
        print(f"{count} busy processes beside it:" if count else "alone:", flush=True)
        with busy(count):
            counts.append(fire(words, chosen.seconds))
    passed, failed = map(sum, zip(*counts))
    print(f"{passed} passed, {failed} failed")
    return 1 if failed or not passed else 0


if __name__ == "__main__":
    sys.exit(main())
