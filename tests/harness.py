"""What the scripts of tests/ share: the count of what passed, the program that they try, runs of a program, and files.

A script says what failed, a line each, and its last line is 'N passed, M failed', which ./test adds up. `graphs` and `parts` are those of bench/.
"""

import argparse
import os
import subprocess
import sys
import tempfile

HOME = os.path.dirname(os.path.dirname(os.path.realpath(__file__)))
SECONDS = 120

sys.path.insert(0, f"{HOME}/bench")
import graphs  # noqa: E402, F401
import parts  # noqa: E402


# what prints where a NetworkX is that leaves calls to backends, as it does from 3.4 on
NEWER = """
import importlib.metadata, networkx
if tuple(map(int, networkx.__version__.split(".")[:2])) >= (3, 4):
    print(networkx.__path__[0], importlib.metadata.distribution("networkx")._path, sep="\\n")
"""


class Count:
    """How many tests passed, and how many failed."""

    def __init__(self):
        self.passed = self.failed = 0

    def of(self, name, holds):
        self.passed += holds
        self.failed += not holds
        if not holds:
            print(f"failed: {name}")

    def end(self):
        """Prints the last line. The exit status."""
        print(f"{self.passed} passed, {self.failed} failed")
        return 1 if self.failed else 0


def options_of(description):
    """The options of a script that tries the program."""
    options = argparse.ArgumentParser(description=description, formatter_class=argparse.RawDescriptionHelpFormatter)
    options.add_argument("--program", type=os.path.abspath, help="this spt, as it is, in place of a build")
    return options


def program(chosen=None):
    """The program to try: the one that an option names, else the one that ./spt runs, which is built first where there is none."""
    return chosen and chosen.program or parts.program()


def try_all(description, tests):
    """Runs tests of the program, each with a count, the program and a folder. The exit status."""
    tried, count = program(options_of(description).parse_args()), Count()
    with tempfile.TemporaryDirectory() as folder:
        for test in tests:
            test(count, tried, folder)
    return count.end()


def run(program, *words, given=b"", **more):
    """Status, output and errors of a program, which is given these bytes, within two minutes."""
    done = subprocess.run([program, *words], input=given, capture_output=True, **{"timeout": SECONDS, **more})
    return done.returncode, done.stdout.decode(), done.stderr.decode()


def read(path):
    """The text of a file."""
    with open(path) as it:
        return it.read()


def read_bytes(path):
    with open(path, "rb") as it:
        return it.read()


def put(path, data, mode=None):
    """Writes a text, or bytes, to a file, which gets its folder and this mode, if any. Its path."""
    os.makedirs(os.path.dirname(os.path.abspath(path)), exist_ok=True)
    with open(path, "wb" if isinstance(data, bytes) else "w") as it:
        it.write(data)
    if mode is not None:
        os.chmod(path, mode)
    return path


def link_networkx(folder):
    """Puts links to a NetworkX that has backends, of this Python or the system's, into a folder for other Pythons. Whether there is one."""
    for python in (sys.executable, "/usr/bin/python3"):
        found = subprocess.run([python, "-c", NEWER], capture_output=True, text=True).stdout.split() if os.path.exists(python) else []
        if found and all(map(os.path.isdir, found)):
            for each in found:
                os.symlink(each, f"{folder}/{os.path.basename(each)}")
            return True
    return False


def drawn(draw, count, vertices):
    """Vertices in no order, one of them twice."""
    found = [draw.randint(1, vertices) for _ in range(count - 1)]
    return [*found, found[0]]


def write_list(path, vertices):
    """Writes a list of sources or of targets."""
    with open(path, "w") as it:
        it.write(f"p aux sp ss {len(vertices)}\n")
        it.writelines(f"s {vertex}\n" for vertex in vertices)


def arcs_by_tail(path, vertices):
    """Of each vertex of a graph's file the heads and lengths of its arcs."""
    rows = {vertex: [] for vertex in range(1, vertices + 1)}
    with open(path) as it:
        for tail, head, length in (map(int, line.split()[1:]) for line in it if line.startswith("a ")):
            rows[tail].append((head, length))
    return rows


def compare_kinds(description, compare, once=None, **numbers):
    """Compares on a graph of each kind, and once more, with numbers that options may change: 10,000 vertices, a seed, and these. The exit status."""
    options = argparse.ArgumentParser(description=description, formatter_class=argparse.RawDescriptionHelpFormatter)
    for name, number in {"vertices": 10000, **numbers, "seed": 1}.items():
        options.add_argument(f"--{name}", type=int, default=number)
    chosen, count = options.parse_args(), Count()
    with tempfile.TemporaryDirectory() as folder:
        for kind in sorted(graphs.KINDS):
            compare(count, kind, chosen, folder)
        if once:
            once(count, chosen, folder)
    return count.end()
