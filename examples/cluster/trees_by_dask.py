#!/usr/bin/env python3
"""The trees of a long list of sources by several processes, or on several machines, by Dask: the bytes of one `spt tree`.

    trees_by_dask.py GR SS TREES [--share 16] [--delta mean] [--towards | --both-ways] [--processes 2 | --scheduler tcp://host:8786]
                     [--program spt]

Each task answers a share of the sources of the file SS. A share whose worker is lost is answered again by another one. Workers have
the program and both files at the same paths. GR may be packed. With --towards the trees are those towards the sources, with --both-ways
those where each arc leads both ways. The blocks are written in the order of the sources, as they come, to a new file that
takes the name TREES once all are there; else TREES stays as it was.

The status is 0 where all trees were written, 2 for a wrong word or a file of sources that isn't one, that of a share where one fails,
and 1 for what else goes wrong.
"""

import argparse
import collections
import contextlib
import os
import re
import subprocess
import sys
import tempfile

import dask.distributed

# Shares that are under way for each worker, so that few answers wait in memory.
AHEAD = 4


def count_of(path):
    """How many sources the file has, as its first line says that is no comment. None: it is no file of sources."""
    with open(path, encoding="latin-1", newline="\n") as lines:
        for line in lines:
            fields = re.findall(r"[^ \t]+", re.sub(r"\r?\n?\Z", "", line))
            if fields and fields[0] != "c":
                told = re.fullmatch(r"p aux sp ss (0|[1-9][0-9]{0,6})", " ".join(fields))
                return int(told[1]) if told else None
    return None


def trees_of(places, program, graph, sources, options):
    """The blocks of the sources at these places of the file. A vertex that is too far is no failure here: its line stands there."""
    words = [program, "tree", graph, sources, *options, "--far-ok", "--sources", places]
    return subprocess.run(words, stdout=subprocess.PIPE, check=True).stdout


def answers(client, shares, *given):
    """The answer to each share, in order. A few shares are given out ahead."""
    ahead = AHEAD * max(1, len(client.scheduler_info()["workers"]))
    waiting = collections.deque()
    for share in shares:
        # (not pure: a file may have changed since another run read it)
        waiting.append(client.submit(trees_of, share, *given, pure=False))
        if len(waiting) == ahead:
            yield waiting.popleft().result()
    while waiting:
        yield waiting.popleft().result()


@contextlib.contextmanager
def replacing(path):
    """A file to write to. It takes the path at the end, or is removed where that isn't reached; devices and pipes are written to."""
    place = os.path.realpath(path)
    if os.path.exists(place) and not os.path.isfile(place):
        with open(place, "wb") as out:
            yield out
        return
    mode = os.stat(place).st_mode if os.path.exists(place) else None
    with tempfile.NamedTemporaryFile(dir=os.path.dirname(place), prefix=".trees-", delete=False) as out:
        try:
            yield out
            out.flush()
            os.fchmod(out.fileno(), 0o666 & ~own_mask() if mode is None else mode & 0o7777)
            os.fsync(out.fileno())
            os.replace(out.name, place)
        except BaseException:
            os.unlink(out.name)
            raise


def own_mask():
    mask = os.umask(0o077)
    os.umask(mask)
    return mask


def positive(text):
    """A number from 1, of words of the command line."""
    if not re.fullmatch(r"[1-9][0-9]{0,6}", text):
        raise argparse.ArgumentTypeError(f"a number from 1 to 9999999, not '{text}'")
    return int(text)


def chosen():
    words = argparse.ArgumentParser(description=__doc__, formatter_class=argparse.RawDescriptionHelpFormatter)
    words.add_argument("graph")
    words.add_argument("sources")
    words.add_argument("trees")
    words.add_argument("--share", type=positive, default=16)
    words.add_argument("--delta", default="mean")
    direction = words.add_mutually_exclusive_group()
    for flag in ("--towards", "--both-ways"):
        direction.add_argument(flag, dest="direction", action="append_const", const=flag, default=[])
    words.add_argument("--processes", type=positive, default=2)
    words.add_argument("--scheduler")
    words.add_argument("--program", default="spt")
    return words.parse_args()


def run(given, count):
    # of a list without a source one share, so that both files are read
    shares = [f"{first}-{first + given.share - 1}" for first in range(1, max(count, 1) + 1, given.share)]
    if given.scheduler:
        where = {"address": given.scheduler}
    else:
        where = {"n_workers": given.processes, "threads_per_worker": 1, "processes": True, "dashboard_address": None}
    options = ["--delta", given.delta, *given.direction]
    with replacing(given.trees) as out, dask.distributed.Client(**where) as client:
        for blocks in answers(client, shares, given.program, given.graph, given.sources, options):
            out.write(blocks)


def main():
    given = chosen()
    if "-" in (given.graph, given.sources):
        return refused("each process reads GR and SS, so neither can be standard input", 2)
    try:
        count = count_of(given.sources)
    except OSError as error:
        return refused(error, 2)
    if count is None:
        return refused(f"{given.sources}: no file of sources, which begins with p aux sp ss K", 2)
    try:
        run(given, count)
    except subprocess.CalledProcessError as error:
        return refused(error, error.returncode if error.returncode > 0 else 1)
    except (OSError, dask.distributed.scheduler.KilledWorker) as error:
        return refused(error, 1)
    return 0


def refused(why, status):
    print(f"trees_by_dask.py: {why}", file=sys.stderr)
    return status


if __name__ == "__main__":
    sys.exit(main())
