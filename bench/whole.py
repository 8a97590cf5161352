#!/usr/bin/env python3
"""Compares the whole job with a plain Dijkstra in C++ on one thread (`bench/dijkstra.cpp`), and prints multiples of its time.

Whole times and peaks are of the program that users run (`spt tree GR SS --delta D --workers W`, its trees into a file), the
parts (read, rows, solve, write) of `crates/bench_engine` (its command `whole`). The programs of a comparison run in turn,
several times; the median of each counts, and the least stands beside it. Each time the trees are compared byte for byte. Below a table stands
the control: what threads that only sum the bytes of the graph's file took of one thread's time, in turn with the runs. It tells what the
machine's cores gave: aims of several workers mean something where four threads take at most a third.

Usage: python3 bench/whole.py [--vertices N] [--runs K] [--only NAME..] [--random-delta SHARE] [--plain] [--no-parts]
                              [--keep FOLDER] [--built-spt PROGRAM] [--built PROGRAM]

NAME is one of
  roads     1, 2, 4 and 64 workers on a road-like graph, delta of 3 mean lengths
  deltas    deltas of 0.3 to 30 mean lengths on that graph, 1 and 4 workers
  random    1, 2 and 4 workers on a graph drawn at random with four arcs a vertex, three deltas
  sources   ten sources on the road-like graph, 1 and 4 workers
  cores     2 and 4 workers beside a C++ program that does every part by as many threads (`bench/whole.cpp`)
  together  two commands at once on the road-like graph, with 4 workers each and with 2 each
  busy      1, 2 and 4 workers on the road-like graph, while another program keeps two processors busy
  memory    the peaks on both graphs (a peak counts what this program took before the start, some 20 MiB)

`--plain` times the C++ program alone, on `roads`, `random` and `sources`. Without `--built-spt` the program is built by
`./spt`, without `--built` that of the parts by the Rattle kit; `--no-parts` leaves the parts out. Graphs are found or made
in the folder that `--keep` names, and stay there.
"""

import argparse
import collections
import contextlib
import filecmp
import os
import re
import subprocess
import sys
import tempfile
import time

sys.dont_write_bytecode = True
import graphs  # noqa: E402
import parts  # noqa: E402

HOME = parts.HOME
PARTS = ["read", "rows", "solve", "write"]
SEED = 1
PLAIN = "C++"
# how many threads the program by all threads has, and the control
THREADS = (2, 4)

# A job of ours: delta in mean lengths, and the aim: at most `bound` times the least of the jobs `than`.
Job = collections.namedtuple("Job", "name share workers bound than at_once", defaults=[None, (PLAIN,), 1])
# Jobs on one graph. `measure` is what the aims speak of: whole or peak; `busy` how many processors another program keeps busy meanwhile.
Comparison = collections.namedtuple("Comparison", "title kind sources jobs measure by_threads busy", defaults=["whole", False, 0])
Programs = collections.namedtuple("Programs", "plain spt bench threads", defaults=[None])
Files = collections.namedtuple("Files", "gr ss expected trees")


# ## What is compared


def named(workers):
    return "1 worker" if workers == 1 else f"{workers} workers"


def lengths(share):
    return f"{share:g} mean length" + ("" if share == 1 else "s")


def roads(_chosen):
    jobs = [Job(named(workers), 3, workers, bound) for workers, bound in ((1, 0.8), (2, 0.6), (4, 0.45))]
    jobs.append(Job(named(64), 3, 64, 1.5, (named(4),)))
    return [Comparison(f"roads, one source, delta of {lengths(3)}", "roads", 1, jobs)]


def deltas(_chosen):
    shares = (0.3, 1, 3, 10, 30)
    jobs = []
    for workers in (1, 4):
        names = [f"{named(workers)}, {lengths(share)}" for share in shares]
        jobs += [Job(name, share, workers, 1.5, tuple(names)) for name, share in zip(names, shares)]
    return [Comparison("roads, one source, by delta", "roads", 1, jobs)]


def at_random(chosen):
    jobs = []
    for share in sorted({0.3, 1, 3, chosen.random_delta}):
        for workers, bound in ((1, 0.65), (2, 0.45), (4, 0.35)):
            aim = bound if share == chosen.random_delta else None
            jobs.append(Job(f"{named(workers)}, {lengths(share)}", share, workers, aim))
    return [Comparison("random, one source", "random", 1, jobs)]


def sources(_chosen):
    jobs = [Job(named(1), 3, 1), Job(named(4), 3, 4, 0.33, (named(1),))]
    return [Comparison(f"roads, ten sources, delta of {lengths(3)}", "roads", 10, jobs)]


def by_threads(threads):
    return f"C++, {threads} threads"


def cores(_chosen):
    jobs = [Job(named(threads), 3, threads, 1.2, (by_threads(threads),)) for threads in THREADS]
    return [Comparison(f"roads, one source, every part by all threads, delta of {lengths(3)}", "roads", 1, jobs, by_threads=True)]


def together(_chosen):
    name = "two at once, {} workers each".format
    jobs = [Job(name(2), 3, 2, at_once=2), Job(name(4), 3, 4, 1.3, (name(2),), at_once=2)]
    return [Comparison(f"roads, two commands at once, delta of {lengths(3)}", "roads", 1, jobs)]


def busy(_chosen):
    jobs = [Job(named(1), 3, 1), *(Job(named(workers), 3, workers, 1.1, (named(1),)) for workers in THREADS)]
    return [Comparison(f"roads, one source, beside a program that keeps two processors busy, delta of {lengths(3)}", "roads", 1, jobs, busy=2)]


def memory(chosen):
    found = []
    for kind, share in (("roads", 3), ("random", chosen.random_delta)):
        jobs = [Job(named(workers), share, workers, 1.1) for workers in (1, 4, 64)]
        found.append(Comparison(f"memory, {kind}, one source, delta of {lengths(share)}", kind, 1, jobs, "peak"))
    return found


COMPARISONS = {
    "roads": roads,
    "deltas": deltas,
    "random": at_random,
    "sources": sources,
    "cores": cores,
    "together": together,
    "busy": busy,
    "memory": memory,
}
OF_PLAIN = ["roads", "random", "sources"]


# ## Graphs


def make_graph(folder, kind, vertices):
    """The path of a graph, and what graphs.py told of it. It is made by a process of its own, so that this one stays small."""
    gr, told = os.path.join(folder, f"{kind}.gr"), os.path.join(folder, f"{kind}.told")
    if os.path.exists(gr) and os.path.exists(told):
        with open(told) as file:
            line = file.readline().strip()
        if line.startswith(f"{vertices} vertices, "):
            return gr, line
    with tempfile.TemporaryDirectory() as other:
        words = [os.path.join(HOME, "bench", "graphs.py"), kind, str(vertices), gr, os.path.join(other, "ss")]
        line = subprocess.run([sys.executable, *words, "--seed", str(SEED)], stdout=subprocess.PIPE, text=True, check=True).stdout
    with open(told, "w") as file:
        file.write(line)
    return gr, line.strip()


def mean_of(told):
    return int(re.search(r"mean length (\d+)", told).group(1))


def files_of(kept, folder, kind, vertices, count):
    """The files of a comparison, all but the graph in the second folder, and what is told of the graph."""
    gr, told = make_graph(kept, kind, vertices)
    files = Files(gr, *(os.path.join(folder, name) for name in ("sources.ss", "expected", "trees")))
    graphs.write_sources(files.ss, vertices, count, SEED)
    return files, told.rsplit(", ", 1)[0]


# ## Running


def remove(*paths):
    """No run has to cut a file that another left."""
    for path in paths:
        if os.path.exists(path):
            os.remove(path)


def peak_of(process):
    """Waits for a process, and tells the MiB that it took at most."""
    _, status, usage = os.wait4(process.pid, 0)
    process.returncode = os.waitstatus_to_exitcode(status)
    if process.returncode != 0:
        sys.exit(f"whole: {' '.join(process.args)} ended with status {process.returncode}")
    return usage.ru_maxrss / 1024


def run_telling(words):
    """One run of a program that tells its parts: the milliseconds of each, and whole and peak."""
    start = time.monotonic()
    process = subprocess.Popen(words, stdout=subprocess.PIPE, text=True)
    told = process.stdout.read()
    peak = peak_of(process)
    whole = (time.monotonic() - start) * 1000
    process.stdout.close()
    return {**{line.split()[0]: float(line.split()[1]) for line in told.splitlines()}, "whole": whole, "peak": peak}


def start_spt(spt, files, delta, workers, trees):
    words = parts.as_users_run(spt, ["tree", files.gr, files.ss, "--delta", str(delta), "--workers", str(workers)])
    with open(trees, "wb") as out:
        return subprocess.Popen(words, stdout=out)


def same(files, trees, name):
    if not filecmp.cmp(files.expected, trees, shallow=False):
        sys.exit(f"whole: the trees differ: {name}")


def run_plain(programs, files):
    remove(files.expected)
    return run_telling([programs.plain, files.gr, files.ss, files.expected])


def run_spt(programs, files, delta, job):
    """The milliseconds until each of the commands at once has ended, and the greatest peak."""
    outs = [f"{files.trees}{k}" for k in range(job.at_once)]
    remove(*outs)
    start = time.monotonic()
    processes = [start_spt(programs.spt, files, delta, job.workers, trees) for trees in outs]
    peak = max([peak_of(process) for process in processes])
    whole = (time.monotonic() - start) * 1000
    for trees in outs:
        same(files, trees, job.name)
    return {"whole": whole, "peak": peak}


def run_parts(programs, files, delta, job):
    """The milliseconds of each part, where a job is one command and its time is asked."""
    remove(files.trees)
    told = run_telling([programs.bench, "whole", files.gr, files.ss, str(delta), str(job.workers), files.trees])
    same(files, files.trees, f"parts of {job.name}")
    return {part: told[part] for part in PARTS}


def run_by_threads(programs, files, mean, threads):
    remove(files.trees)
    told = run_telling([programs.threads, files.gr, files.ss, str(3 * mean), str(threads), files.trees])
    same(files, files.trees, by_threads(threads))
    return told


def control(programs, files):
    """The milliseconds in which one thread and several sum the bytes of a graph's file, by their number."""
    return {threads: run_telling([programs.threads, "control", files.gr, str(threads)])["sum"] for threads in (1, *THREADS)}


@contextlib.contextmanager
def kept_busy(processors):
    """Keeps so many processors busy until the end of the block."""
    processes = [subprocess.Popen([sys.executable, "-c", "while True: pass"]) for _ in range(processors)]
    try:
        yield
    finally:
        for process in processes:
            process.kill()
            process.wait()


def run_in_turn(programs, comparison, files, mean, runs):
    """What each run of each program took, by the names of the jobs."""
    found = collections.defaultdict(list)
    for _ in range(runs):
        found[PLAIN].append(run_plain(programs, files))
        found["control"].append(control(programs, files))
        for threads in THREADS if comparison.by_threads else []:
            found[by_threads(threads)].append(run_by_threads(programs, files, mean, threads))
        for job in comparison.jobs if programs.spt else []:
            delta = max(1, round(job.share * mean))
            one = run_spt(programs, files, delta, job)
            if programs.bench and job.at_once == 1 and comparison.measure == "whole":
                one.update(run_parts(programs, files, delta, job))
            found[job.name].append(one)
    return found


# ## Tables


def median(runs, measure):
    values = sorted(one[measure] for one in runs)
    return (values[(len(values) - 1) // 2] + values[len(values) // 2]) / 2


def aim_of(comparison, job, found):
    """The aim of a job, the ratio that it reached, and whether that meets it; None where it has no aim."""
    if job is None or job.bound is None:
        return None
    base = min(median(found[name], comparison.measure) for name in job.than)
    ratio = median(found[job.name], comparison.measure) / base
    of = job.than[0] if len(job.than) == 1 else "the best"
    return f"{job.bound:g} of {of}", f"{ratio:.2f}", ratio <= job.bound


def print_row(comparison, name, job, found):
    runs, plain = found[name], found[PLAIN]
    whole, peak = median(runs, "whole"), median(runs, "peak")
    cells = [f"{median(runs, part):,.0f}" if part in runs[0] else "" for part in PARTS]
    cells += [f"{whole:,.0f}", f"{min(one['whole'] for one in runs):,.0f}", f"{whole / median(plain, 'whole'):.2f}"]
    cells += [f"{peak:,.0f}", f"{peak / median(plain, 'peak'):.2f}"]
    aim = aim_of(comparison, job, found)
    cells += [aim[0], f"{aim[1]}, {'met' if aim[2] else 'missed'}"] if aim else ["", ""]
    print(f"| {name} | {' | '.join(cells)} |", flush=True)


def print_table(comparison, told, runs, found):
    """Prints a table, and tells of each aim whether it was met."""
    print(f"**{comparison.title}** ({told}; medians of {runs} in turn; aims of the {comparison.measure})\n")
    heads = ["program", *(f"{part}, ms" for part in PARTS)]
    heads += ["whole, ms", "least, ms", "of C++", "peak, MiB", "of C++", "aim, at most", "reached"]
    print(f"| {' | '.join(heads)} |\n{'|---' * len(heads)}|")
    for name in [PLAIN, *(by_threads(threads) for threads in THREADS if comparison.by_threads)]:
        print_row(comparison, name, None, found)
    jobs = [job for job in comparison.jobs if job.name in found]
    for job in jobs:
        print_row(comparison, job.name, job, found)
    one = median(found["control"], 1)
    shares = [f"{threads} threads {median(found['control'], threads) / one:.2f}" for threads in THREADS]
    print(f"\nControl, of one thread's time: {', '.join(shares)}\n", flush=True)
    aims = [aim_of(comparison, job, found) for job in jobs]
    return [aim[2] for aim in aims if aim]


def programs_of(chosen, folder):
    plain = parts.build_plain(folder, "dijkstra")
    if plain is None:
        sys.exit("whole: no C++ compiler")
    threads = parts.build_plain(folder, "whole")
    if chosen.plain:
        return Programs(plain, None, None, threads)
    spt = chosen.built_spt or parts.program()
    return Programs(plain, spt, None if chosen.no_parts else chosen.built or parts.build_ours(), threads)


def compare(chosen, folder):
    programs = programs_of(chosen, folder)
    met = []
    for name in chosen.only or (OF_PLAIN if chosen.plain else COMPARISONS):
        for comparison in COMPARISONS[name](chosen):
            files, told = files_of(chosen.keep or folder, folder, comparison.kind, chosen.vertices, comparison.sources)
            with kept_busy(comparison.busy):
                found = run_in_turn(programs, comparison, files, mean_of(told), chosen.runs)
            met += print_table(comparison, told, chosen.runs, found)
    if not chosen.plain:
        print(f"{sum(met)} of {len(met)} aims met")


def options_of():
    options = argparse.ArgumentParser(description=__doc__, formatter_class=argparse.RawDescriptionHelpFormatter)
    options.add_argument("--vertices", type=int, default=1_000_000)
    options.add_argument("--runs", type=int, default=5, help="how often each program runs")
    options.add_argument("--only", nargs="+", choices=sorted(COMPARISONS), metavar="NAME", help="these comparisons alone")
    options.add_argument("--random-delta", type=float, default=1, metavar="SHARE", help="mean lengths that the aims of `random` are for")
    options.add_argument("--plain", action="store_true", help="the C++ program alone")
    options.add_argument("--no-parts", action="store_true", help="without the parts of bench_engine")
    options.add_argument("--keep", metavar="FOLDER", type=os.path.abspath, help="where graphs stay")
    options.add_argument("--built-spt", metavar="PROGRAM", type=os.path.abspath, help="this spt, as it is, in place of a build")
    options.add_argument("--built", metavar="PROGRAM", type=os.path.abspath, help="this bench_engine, as it is, in place of a build")
    return options.parse_args()


def main():
    chosen = options_of()
    if chosen.keep:
        os.makedirs(chosen.keep, exist_ok=True)
    with tempfile.TemporaryDirectory() as folder:
        compare(chosen, folder)


if __name__ == "__main__":
    main()
