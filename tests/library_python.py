#!/usr/bin/env python3
"""Runs tests/python and the examples of the package, of README.md and of docs/PYTHON.md, by this Python and by the system's.

Usage: python3 tests/library_python.py [--archive ARCHIVE]

build/libraries makes the library. pytest also runs the tests of Dijkstra's algorithm that SciPy and NetworkX ship against the package
(tests/python/theirs.py), and prints which are left out, and why. Tests that need something that isn't installed are left out and named (Debian:
python3-scipy, python3-networkx, python3-pandas, python3-tqdm, python3-pytest, python3-hypothesis); with SPT_ALL=1, what no Python ran counts as
failed. Where one Python has NetworkX 3.4 or later and another has NumPy, the other takes its NetworkX too: then NetworkX itself calls the
backend, and its own tests run on it by its switch. The last line is 'N passed, M failed'.
"""

import argparse
import os
import re
import subprocess
import sys
import tempfile

sys.dont_write_bytecode = True
from harness import HOME, Count, link_networkx  # noqa: E402

SYSTEM = "/usr/bin/python3"
SECONDS = 900

EXAMPLES = """
import doctest, sys
import spt, spt._graph, spt._library, spt._names, spt._trees
told = [doctest.testmod(module) for module in (spt, spt._graph, spt._library, spt._names, spt._trees)]
told += [doctest.testfile(page, module_relative=False) for page in sys.argv[1:]]
print(sum(one.attempted - one.failed for one in told), "passed,", sum(one.failed for one in told), "failed")
"""


def run(python, prefix, *words, path=()):
    """The output and the errors of a Python with the package, and with these folders before it."""
    known = {**os.environ, "PYTHONPATH": ":".join([*path, f"{HOME}/python"]), "PYTHONDONTWRITEBYTECODE": "1"}
    known["SPT_LIBRARY"] = f"{prefix}/lib/libspt.so"
    told = {"stdout": subprocess.PIPE, "stderr": subprocess.STDOUT, "text": True}
    return subprocess.run([python, *words], cwd=f"{HOME}/tests/python", env=known, timeout=SECONDS, **told).stdout


def add_tests(count, python, prefix, file=None, path=()):
    """Counts the tests, or those of a file alone. Returns those that were left out and those that weren't."""
    text = run(python, prefix, "-m", "unittest", file or "discover", "-v", path=path)
    told = re.findall(r"^(\w+) \((\w+)\.(\w+)[\w.]*\) \.\.\. (.*)$", text, re.M)
    # (a file that is left out is reported as a test of unittest's loader)
    outcomes = [(f"all of {name}" if module == "unittest" else f"{kind}.{name}", outcome) for name, module, kind, outcome in told]
    for name, outcome in outcomes:
        if not outcome.startswith("skipped"):
            count.of(f"{name}, by {python}", outcome == "ok")
    left_out = {name: outcome for name, outcome in outcomes if outcome.startswith("skipped")}
    for outcome in sorted(set(left_out.values())):
        print(f"left out by {python}: {outcome}: {', '.join(name for name in left_out if left_out[name] == outcome)}")
    whole = re.search(r"^Ran (\d+) tests", text, re.M)
    # (some versions of unittest don't count those of a class that is left out)
    counts = (len(outcomes), len(outcomes) - len(left_out))
    if not whole or int(whole[1]) not in counts or not re.search(r"^OK\b", text, re.M):
        count.of(f"tests/python by {python}:\n{text}", False)
    files = {f"all of {module}" for _, module, _, _ in told}
    return set(left_out), ({name for name, _ in outcomes} | files) - set(left_out)


def add_last_line(count, text):
    """Adds the counts of a text's last line. Returns how many passed; None if it has no such line."""
    last = re.search(r"^(\d+) passed, (\d+) failed\n\Z", text, re.M)
    if last:
        count.passed, count.failed = count.passed + int(last[1]), count.failed + int(last[2])
    if not last or int(last[2]):
        print(text)
    return int(last[1]) if last else None


def add_examples(count, python, prefix):
    pages = [f"{HOME}/{page}" for page in ("README.md", "python/README.md", "docs/PYTHON.md")]
    text = run(python, prefix, "-c", EXAMPLES, *pages)
    count.of(f"examples by {python}", bool(add_last_line(count, text)))


def add_newer(count, pythons, prefix):
    """Counts the tests of the backend where NetworkX calls it itself, and NetworkX's own by its switch. Returns those that were run."""
    with tempfile.TemporaryDirectory() as folder:
        look = ["-c", "import networkx, numpy; networkx.config.backends.spt, print('taken')"]
        takes = pythons if link_networkx(folder) else []
        python = next((it for it in takes if run(it, "", *look, path=[folder]) == "taken\n"), None)
        if python is None:
            print("left out: no Python has NetworkX 3.4 or later that one with NumPy takes")
            return set()
        done = add_tests(count, python, prefix, "test_networkx", [folder])[1]
        text = run(python, prefix, "theirs.py", "switch", path=[folder])
        count.of(f"NetworkX's own tests by {python}", bool(add_last_line(count, text)))
        print(f"NetworkX's own tests by {python}:\n{text[: text.rstrip().rfind(chr(10))]}")
        return done


def add_theirs(count, python, prefix):
    """Counts the tests that SciPy and NetworkX ship. Returns whose weren't run and whose were."""
    text = run(python, prefix, "theirs.py")
    count.of(f"tests that others ship, by {python}", add_last_line(count, text) is not None)
    counts = re.findall(r"^tests of (\w+) [\d.]+\w*: (\d+) ran", text, re.M)
    ran = {f"tests that {name} ships" for name, of in counts if int(of)}
    print(f"tests that others ship, by {python}:\n{text[: text.rstrip().rfind(chr(10))]}")
    return {f"tests that {name} ships" for name in ("SciPy", "NetworkX")} - ran, ran


def main():
    options = argparse.ArgumentParser(description=__doc__, formatter_class=argparse.RawDescriptionHelpFormatter)
    options.add_argument("--archive", type=os.path.abspath, help="this static library in place of the one of crates/spt_c")
    chosen = options.parse_args()
    count = Count()
    with tempfile.TemporaryDirectory() as prefix:
        words = [f"{HOME}/build/libraries", prefix] + ([chosen.archive] if chosen.archive else [])
        made = subprocess.run(words, capture_output=True, text=True)
        count.of(f"the library: {made.stderr}", made.returncode == 0)
        pythons = {os.path.realpath(it): it for it in (sys.executable, SYSTEM) if os.path.exists(it)}
        missing, ran = set(), set()
        for python in pythons.values() if made.returncode == 0 else ():
            for add in (add_tests, add_theirs):
                skipped, done = add(count, python, prefix)
                missing, ran = missing | skipped, ran | done
            add_examples(count, python, prefix)
        if made.returncode == 0:
            ran |= add_newer(count, list(pythons.values()), prefix)
        if os.environ.get("SPT_ALL") == "1":
            count.of(f"run by no Python: {', '.join(missing - ran)}", missing <= ran)
    return count.end() or not count.passed


if __name__ == "__main__":
    sys.exit(main())
