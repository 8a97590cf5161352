#!/usr/bin/env python3
"""Times packed graphs beside texts: reading, `spt pack` itself, and questions of the turned graph beside the plain ones.

On a road-like graph whole commands run in turn, as ./spt runs them, several times; of each the median of the time that passed counts, and
that of the processors' time. (A peak counts what this program took before the start, some 20 MiB.) A list without pairs takes nothing but the
start and reading; a pair of neighbours the room for pairs too; `pack` into no file the writing. In the same turns a plain Dijkstra in C++ (`bench/dijkstra.cpp`) answers the
same pair from the text, on one thread. Where a folder has the yardsticks `radix.cpp` and `limit.cpp`, the time in which each of these
reads the text is told too. What is compared must be the same bytes: the packed graph by any number of workers, from the text and from
itself, and the answers from both forms.

Usage: python3 bench/packed.py [--vertices N] [--runs K] [--keep FOLDER] [--built-spt PROGRAM] [--anchors FOLDER]
"""

import argparse
import collections
import hashlib
import os
import re
import shutil
import statistics
import subprocess
import sys
import tempfile
import time

sys.dont_write_bytecode = True
import pairs  # noqa: E402
import parts  # noqa: E402
import whole  # noqa: E402

WORKERS = (1, 4)
ANCHORS = os.path.join(parts.HOME, "..", "shared", "anchors")

# jobs whose answers are the same
SAME = [("text", "packed"), ("text towards", "packed towards"), ("tree", "packed tree"), ("tree towards", "packed tree towards")]

# What is timed: its words, its number of workers, and the name of the job, by as many workers, whose time is 1, if it isn't its own.
Job = collections.namedtuple("Job", "title name words than")
# the milliseconds that pass, those of all processors, and the MiB at the peak
Taken = collections.namedtuple("Taken", "passed processors peak")
Files = collections.namedtuple("Files", "gr packed none near ss lines")


def jobs_of(files, delta):
    near, tree = ["--delta", str(delta)], [files.ss, "--delta", str(delta)]
    return [
        Job("no pair, of the text", "read", ["pairs", files.gr, files.none, *near], "read"),
        Job("no pair, packed", "packed read", ["pairs", files.packed, files.none, *near], "read"),
        Job("a near pair, of the text", "text", ["pairs", files.gr, files.near, *near], "text"),
        Job("a near pair, packed", "packed", ["pairs", files.packed, files.near, *near], "text"),
        Job("`pack` of the text", "pack", ["pack", files.gr], "text"),
        Job("`pack` of the packed graph", "again", ["pack", files.packed], "packed"),
        Job("a near pair `--towards`, of the text", "text towards", ["pairs", files.gr, files.near, *near, "--towards"], "text"),
        Job("a near pair `--towards`, packed", "packed towards", ["pairs", files.packed, files.near, *near, "--towards"], "packed"),
        Job("a near pair `--both-ways`, packed", "packed both", ["pairs", files.packed, files.near, *near, "--both-ways"], "packed"),
        Job("a tree, of the text", "tree", ["tree", files.gr, *tree], "tree"),
        Job("a tree, packed", "packed tree", ["tree", files.packed, *tree], "tree"),
        Job("a tree `--towards`, of the text", "tree towards", ["tree", files.gr, *tree, "--towards"], "tree"),
        Job("a tree `--towards`, packed", "packed tree towards", ["tree", files.packed, *tree, "--towards"], "packed tree"),
    ]


# ## Files


def first_arc(gr):
    """Two neighbours."""
    with open(gr) as file:
        return next(tuple(map(int, line.split()[1:3])) for line in file if line.startswith("a "))


def make_files(programs, kept, folder, vertices):
    """The files, and what is told of the graph."""
    made, told = whole.files_of(kept, folder, "roads", vertices, 1)
    files = Files(made.gr, *(os.path.join(folder, name) for name in ("roads.packed", "none.pairs", "near.pairs")), made.ss, os.path.join(folder, "lines"))
    pairs.write_pairs(files.none, [])
    pairs.write_pairs(files.near, [first_arc(files.gr)])
    with open(files.packed, "wb") as out:
        subprocess.run(parts.as_users_run(programs.spt, ["pack", files.gr]), check=True, stdout=out)
    return files, told


def digest(file):
    """A sum of what comes of a file. (What this program held of it would count in the peaks of those that it runs.)"""
    found = hashlib.sha256()
    for piece in iter(lambda: file.read(1 << 16), b""):
        found.update(piece)
    return found.hexdigest()


def digest_at(path):
    with open(path, "rb") as file:
        return digest(file)


def answer(spt, words):
    """A sum of what a command writes."""
    with subprocess.Popen(parts.as_users_run(spt, words), stdout=subprocess.PIPE) as process:
        found = digest(process.stdout)
    if process.returncode != 0:
        sys.exit(f"packed: {' '.join(words)} ended with status {process.returncode}")
    return found


def compare(programs, files, jobs):
    """That answers are those of the other form, and packed graphs the one that there is."""
    packed = digest_at(files.packed)
    by_name = {job.name: job for job in jobs}
    for workers in WORKERS:
        crew = ["--workers", str(workers)]
        for name in ("pack", "again"):
            if answer(programs.spt, [*by_name[name].words, *crew]) != packed:
                sys.exit(f"packed: other bytes: {by_name[name].title}, {whole.named(workers)}")
        for one, other in SAME:
            if answer(programs.spt, [*by_name[one].words, *crew]) != answer(programs.spt, [*by_name[other].words, *crew]):
                sys.exit(f"packed: other answers: {by_name[other].title}, {whole.named(workers)}")
    subprocess.run([programs.plain, "pairs", files.gr, files.near, files.lines], check=True, stdout=subprocess.DEVNULL)
    if digest_at(files.lines) != answer(programs.spt, by_name["text"].words):
        sys.exit("packed: other lines than those of the plain program")


# ## Running


def taken_by(words):
    """What a whole command takes, its output into nothing."""
    start = time.monotonic()
    process = subprocess.Popen(words, stdout=subprocess.DEVNULL)
    _, status, usage = os.wait4(process.pid, 0)
    passed = time.monotonic() - start
    process.returncode = os.waitstatus_to_exitcode(status)
    if process.returncode != 0:
        sys.exit(f"packed: {' '.join(words)} ended with status {process.returncode}")
    return Taken(passed * 1000, (usage.ru_utime + usage.ru_stime) * 1000, usage.ru_maxrss / 1024)


def median(runs):
    return Taken(*map(statistics.median, zip(*runs)))


def build_anchors(place, folder):
    """The yardsticks of a folder by their names, none where there is no such folder."""
    compiler, built = shutil.which("g++") or shutil.which("c++"), {}
    for name, words in (("radix", ["-O3", "-march=x86-64-v2"]), ("limit", ["-O2"])):
        source = os.path.join(place, f"{name}.cpp")
        if os.path.exists(source):
            program = os.path.join(folder, name)
            subprocess.run([compiler, *words, "-std=c++17", "-pthread", "-o", program, source], check=True)
            built[name] = program
    return built


def anchor_jobs(anchors, files):
    """The words of each yardstick, by its name and its number of threads."""
    if "radix" in anchors:
        yield "radix", 1, [anchors["radix"], files.gr, files.ss]
    for workers in WORKERS if "limit" in anchors else ():
        yield "limit", workers, [anchors["limit"], files.gr, files.ss, "/dev/null", str(workers)]


def read_by(words):
    """The milliseconds in which a yardstick reads its text."""
    done = subprocess.run(words, stdout=subprocess.DEVNULL, stderr=subprocess.PIPE, text=True)
    found = re.search(r"^phases read (\S+)", done.stderr, re.M)
    if done.returncode != 0 or not found:
        sys.exit(f"packed: {' '.join(words)} ended with status {done.returncode}")
    return float(found[1]) * 1000


def run_in_turn(programs, anchors, files, jobs, runs):
    """The medians of each job by its name and workers, and of each yardstick's reading by its name and threads."""
    found, reads = collections.defaultdict(list), collections.defaultdict(list)
    for _ in range(runs):
        found["C++", 1].append(taken_by([programs.plain, "pairs", files.gr, files.near, files.lines]))
        for name, workers, words in anchor_jobs(anchors, files):
            reads[name, workers].append(read_by(words))
        for job in jobs:
            for workers in WORKERS:
                words = parts.as_users_run(programs.spt, [*job.words, "--workers", str(workers)])
                found[job.name, workers].append(taken_by(words))
    return {key: median(its) for key, its in found.items()}, {key: statistics.median(its) for key, its in reads.items()}


# ## Tables


def ratio(one, other):
    """Of the time that passed, and of the processors' time."""
    return f"{one.passed / other.passed:.2f}, {one.processors / other.processors:.2f}"


def cells_of(taken):
    return [f"{number:.0f}" for number in taken]


def print_rows(found, jobs):
    titles, plain = {job.name: job.title for job in jobs}, found["C++", 1]
    heads = ["command", "workers", "passed, ms", "processors, ms", "peak, MiB", "beside", "of that: passed, processors"]
    heads.append("of C++: passed, processors")
    print(f"| {' | '.join(heads)} |\n{'|---' * len(heads)}|")
    print(f"| a near pair, of the text, C++ | 1 | {' | '.join(cells_of(plain))} |  |  | {ratio(plain, plain)} |")
    for job in jobs:
        for workers in WORKERS:
            taken, base = found[job.name, workers], found[job.than, workers]
            beside = [titles[job.than], ratio(taken, base)] if job.than != job.name else ["", ""]
            of_plain = ratio(taken, plain) if job.words[0] != "tree" else ""
            print(f"| {' | '.join([job.title, str(workers), *cells_of(taken), *beside, of_plain])} |")


def print_anchors(found, reads):
    if not reads:
        return
    print("\n| yardstick, its reading of the text | threads | ms | our command, of the text | packed |\n|---|---|---|---|---|")
    for (name, workers), taken in reads.items():
        ours = [f"{found[job, workers].passed / taken:.2f}" for job in ("read", "packed read")]
        print(f"| {name} | {workers} | {taken:.0f} | {' | '.join(ours)} |")


def main():
    options = argparse.ArgumentParser(description=__doc__, formatter_class=argparse.RawDescriptionHelpFormatter)
    options.add_argument("--vertices", type=int, default=1_000_000)
    options.add_argument("--runs", type=int, default=5, help="how often each program runs")
    options.add_argument("--keep", metavar="FOLDER", type=os.path.abspath, help="where the graph stays")
    options.add_argument("--built-spt", metavar="PROGRAM", type=os.path.abspath, help="this spt, as it is, in place of a build")
    options.add_argument("--anchors", metavar="FOLDER", type=os.path.abspath, default=ANCHORS, help="where yardsticks in C++ are")
    chosen = options.parse_args()
    chosen.plain, chosen.no_parts = False, True
    with tempfile.TemporaryDirectory() as folder:
        if chosen.keep:
            os.makedirs(chosen.keep, exist_ok=True)
        programs = whole.programs_of(chosen, folder)
        anchors = build_anchors(chosen.anchors, folder)
        files, told = make_files(programs, chosen.keep or folder, folder, chosen.vertices)
        jobs = jobs_of(files, 3 * whole.mean_of(told))
        compare(programs, files, jobs)
        sizes = [f"{os.path.getsize(path) / 2**20:.1f} MiB {form}" for path, form in ((files.gr, "as a text"), (files.packed, "packed"))]
        print(f"{told}; {', '.join(sizes)}; medians of {chosen.runs} runs in turn\n")
        found, reads = run_in_turn(programs, anchors, files, jobs, chosen.runs)
        print_rows(found, jobs)
        print_anchors(found, reads)


if __name__ == "__main__":
    main()
