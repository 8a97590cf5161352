#!/usr/bin/env python3
"""Shares of a list of sources by GNU parallel and by Dask (examples/cluster): the bytes of one run, also where a process is lost.

Usage: python3 tests/cluster.py

Both directions, and packed graphs, go with them. A share of 0 or of no number, and a file of sources that is missing or isn't one, end at once, with a line and status 1 or 2, and write
nothing.

What isn't installed (Debian: parallel, python3-distributed) is left out, and said so; with SPT_ALL=1 it counts as failed. The last
line is 'N passed, M failed'.
"""

import functools
import os
import re
import shutil
import subprocess
import sys
import tempfile

sys.dont_write_bytecode = True
from harness import HOME, Count, put, read  # noqa: E402

SPT = os.path.join(HOME, "spt")
CLUSTER = os.path.join(HOME, "examples", "cluster")
GRAPH, SOURCES = "a graph.gr", "sources.ss"
COUNT, SHARE = 20, 6
SECONDS = 120

# A program that is spt, but that once, where no folder `lost` is there yet, does this after a beginning of its output.
LOSSY = """#!/bin/sh
if mkdir '{folder}/lost' 2> /dev/null; then
    '{spt}' "$@" | head -c 1000
    {deed}
fi
exec '{spt}' "$@"
"""


def run(words, folder, **known):
    """Status, output and errors; no status where it doesn't end."""
    try:
        done = subprocess.run(words, cwd=folder, env=dict(os.environ, **known), capture_output=True, timeout=SECONDS)
    except subprocess.TimeoutExpired:
        return None, b"", b""
    return done.returncode, done.stdout, done.stderr.decode()


def by_parallel(folder, program, graph=GRAPH, sources=SOURCES, share=SHARE, direction=""):
    """The trees by GNU parallel, the status, and errors."""
    words = [os.path.join(CLUSTER, "trees_by_parallel.sh"), graph, sources, str(share), "--jobs", "2"]
    status, trees, errors = run(words, folder, SPT=program, DIRECTION=direction)
    return trees, status, errors


def by_dask(python, folder, program, graph=GRAPH, sources=SOURCES, share=SHARE, direction=""):
    """The trees by Dask, the status, and errors."""
    words = [python, os.path.join(CLUSTER, "trees_by_dask.py"), graph, sources, "trees", f"--share={share}", "--program", program]
    status, _, errors = run(words + ([f"--{direction}"] if direction else []), folder)
    path = os.path.join(folder, "trees")
    if not os.path.exists(path):
        return b"", status, errors
    with open(path, "rb") as file:
        return file.read(), status, errors


def python_with_dask():
    """A Python that has Dask, if there is one."""
    for python in (sys.executable, "/usr/bin/python3"):
        if os.path.exists(python):
            tried = subprocess.run([python, "-c", "import dask.distributed"], stdout=subprocess.DEVNULL, stderr=subprocess.DEVNULL)
            if tried.returncode == 0:
                return python
    return None


def tools():
    """What answers shares, by name, with the deed that loses a process of it; None for what isn't installed."""
    python = python_with_dask()
    return {
        "GNU parallel": (by_parallel if shutil.which("parallel") else None, "kill -9 $$"),
        "Dask": (python and functools.partial(by_dask, python), "kill -9 $PPID; exit 1"),
    }


def one_run(folder, *words):
    """What one run writes."""
    return subprocess.run([SPT, *words], cwd=folder, stdout=subprocess.PIPE, check=True).stdout


def directions(folder, run):
    """Each direction, of the text and of the packed graph, with whether it has the bytes of one run."""
    one_run(folder, "pack", GRAPH, "-o", "packed.spt")
    for direction in ("", "towards", "both-ways"):
        wanted = one_run(folder, "tree", GRAPH, SOURCES, "--delta", "mean", *([f"--{direction}"] if direction else []))
        for graph in (GRAPH, "packed.spt"):
            yield f"{graph} {direction}", run(folder, SPT, graph=graph, direction=direction)[:2] == (wanted, 0)
    _, status, errors = run(folder, SPT, direction="backwards")
    yield f"no such direction: {status}, {errors}", status in (1, 2) and "trees_by_" in errors


def cases(folder, run, deed, wanted):
    """The name of each case, and whether it holds."""
    names = set(os.listdir(folder))
    yield from refusals(folder, run)
    yield f"nothing is left of what is refused: {os.listdir(folder)}", set(os.listdir(folder)) == names | set(FILES)
    yield "the bytes of one run", run(folder, SPT)[:2] == (wanted, 0)
    lossy = put(f"{folder}/lossy", LOSSY.format(folder=folder, spt=SPT, deed=deed), 0o755)
    yield "the same where a process is lost", run(folder, lossy)[:2] == (wanted, 0)
    yield "a process was lost", os.path.isdir(os.path.join(folder, "lost"))
    trees, status, _ = run(folder, put(f"{folder}/failing", "#!/bin/sh\nexit 2\n", 0o755))
    yield "a program that fails is told", status == 2 and trees in (b"", wanted)
    yield "a list of no source has no tree", run(folder, SPT, sources="empty.ss")[:2] == (b"", 0)
    yield from directions(folder, run)


# files that aren't lists of sources, but for the last
FILES = {
    "nothing.ss": "",
    "comments.ss": "c p aux sp ss 3\n",
    "other.ss": "p spp ss x 3\n",
    "sign.ss": "p aux sp ss -3\n",
    "many.ss": "p aux sp ss 99999999999999999999\n",
    "empty.ss": "c none\n\n p  aux sp\tss 0 \r\n",
}


def refusals(folder, run):
    """Wrong shares and files, each with whether it is told, at once and without output."""
    for name, text in FILES.items():
        put(f"{folder}/{name}", text)
    shares = [dict(share=share) for share in ("0", "-1", "", "x", "00", "1.5", "0x10", "99999999999999999999")]
    files = [dict(sources=name) for name in ["none.ss", ".", GRAPH, "-", *FILES] if name != "empty.ss"]
    for given in shares + files:
        trees, status, errors = run(folder, SPT, **given)
        yield f"{given}: {status}, {errors}", trees == b"" and status in (1, 2) and "trees_by_" in errors and "Traceback" not in errors


def tell_program(count):
    """docs/USAGE.md says how to name the program for each script, as the script itself does."""
    page = read(f"{HOME}/docs/USAGE.md")
    page = re.search(r"^## Several processes, several machines$.*?(?=^## )", page, re.M | re.S)[0]
    for script, named, told in (("trees_by_parallel.sh", "${SPT:-spt}", "SPT=$PWD/spt"), ("trees_by_dask.py", '"--program", default="spt"', "--program $PWD/spt")):
        known = named in read(f"{HOME}/examples/cluster/{script}") and f"`{told}`" in page
        count.of(f"docs/USAGE.md says which program {script} runs: {told}", known and script in page)


def main():
    count = Count()
    tell_program(count)
    for name, (run, deed) in tools().items():
        if run is None:
            count.failed += os.environ.get("SPT_ALL") == "1"
            print(f"left out: {name} isn't installed")
            continue
        with tempfile.TemporaryDirectory(prefix="spt cluster.") as folder:
            maker = [sys.executable, os.path.join(HOME, "bench", "graphs.py"), "roads", "5000", "--sources", str(COUNT), GRAPH, SOURCES]
            subprocess.run(maker, cwd=folder, check=True, stdout=subprocess.DEVNULL)
            one = subprocess.run([SPT, "tree", GRAPH, SOURCES, "--delta", "mean"], cwd=folder, stdout=subprocess.PIPE, check=True)
            for case, holds in cases(folder, run, deed, one.stdout):
                count.of(f"{name}: {case}", holds)
    return count.end()


if __name__ == "__main__":
    sys.exit(main())
