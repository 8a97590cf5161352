#!/usr/bin/env python3
"""Runs, by pytest, the tests of Dijkstra's algorithm that SciPy and NetworkX ship, with this package in the place of theirs.

Usage: python3 theirs.py [SciPy] [NetworkX] [switch]     these alone; the last is NetworkX's by its own switch for backends

SciPy's functions are called as spt.dijkstra, NetworkX's as its backend is, which NetworkX 3.4 does by itself too. Lengths of SciPy's
that are fractions are told in a unit. A test is left out, by name, where it never asks the package, and where it fails and the
package has refused a length of its graph (0, or below). A test of SciPy's that fails is run again with SciPy's predecessors, once it
is shown that each of them that differs ends a walk as short as ours does, and has the greater number: then it passes but for ties.
Tests of several sources and Voronoi cells must ask `nearest`, and those with a limit `within`. The last line is 'N passed, M failed'.
"""

import importlib
import os
import re
import subprocess
import sys

try:
    import pytest
except ImportError:
    pytest = None

from asked import Asked

try:
    # (before pytest looks for the modules of SciPy in a folder that may have another NetworkX)
    import networkx  # noqa: F401
except ImportError:
    pass

SCIPY = ["scipy.sparse.csgraph.tests.test_shortest_path"]
NETWORKX = [
    "shortest_paths.tests.test_weighted", "shortest_paths.tests.test_generic", "shortest_paths.tests.test_unweighted", "tests.test_voronoi",
    "tests.test_distance_measures", "tests.test_efficiency", "tests.test_wiener",
    "centrality.tests.test_closeness_centrality", "centrality.tests.test_harmonic_centrality",
]
# of a test that newer versions of NetworkX run 500 times, half a second each, the last graphs
FEW = "not test_use_bounds_on_off_consistency or 0.8-19"
# tests of older versions of NetworkX, which has other words since
OLDER = re.compile("test_bidirectional_shortest_path_src_tgt_not_in_graph")
# what a test whose name, or that of its class, has these words must ask the package for
MUST_ASK = {
    "min_only|MultiSource.*two_sources|Voronoi": "nearest",
    "dijkstra_limit|dijkstra_predecessor3|single_source_dijkstra_path_length$": "within",
}


class Theirs:
    """What became of each test, as a plugin of pytest."""

    def __init__(self, is_old):
        self.is_old = is_old
        self.found, self.asked, self.told = {}, {}, []

    def pytest_pyfunc_call(self, pyfuncitem):
        """Calls a test; again where it may have failed for ties alone, and leaves it out where it failed for a refused length."""
        given = {name: pyfuncitem.funcargs[name] for name in pyfuncitem._fixtureinfo.argnames}
        Asked.begin()
        try:
            pyfuncitem.obj(**given)
        except Exception:
            if Asked.refused:
                pytest.skip(Asked.refused)
            if self.is_old and OLDER.match(pyfuncitem.name):
                pytest.skip("newer versions of NetworkX have other words")
            if not Asked.ours:
                raise
            asked = set(Asked.ours)
            Asked.begin(has_ties=True)
            pyfuncitem.obj(**given)
            Asked.ours |= asked
            self.told.append(f"passed but for ties: {pyfuncitem.name}")
        self.asked[self.name(pyfuncitem.nodeid)] = set(Asked.ours)
        if not Asked.ours:
            pytest.skip("Dijkstra's algorithm isn't asked for")
        return True

    @staticmethod
    def name(node):
        return node.split("::", 1)[1].replace("::", ".") if "::" in node else node

    def pytest_runtest_logreport(self, report):
        name = self.name(report.nodeid)
        if report.skipped:
            told = report.longrepr[2] if isinstance(report.longrepr, tuple) else str(report.longrepr)
            self.found[name] = re.sub("^Skipped: ", "", told)
        elif report.failed:
            self.found[name] = False
            self.told.append(f"failed: {name}\n{report.longrepr}")
        elif report.when == "call":
            self.found[name] = True

    def pytest_collectreport(self, report):
        if report.failed:
            self.found[report.nodeid] = False
            self.told.append(f"failed: {report.nodeid}\n{report.longrepr}")


def is_before_backends(networkx):
    """Whether it is older than 3.4."""
    return tuple(map(int, networkx.__version__.split(".")[:2])) < (3, 4)


def run(title, modules, is_old=False):
    """Prints what became of the tests of the modules; how many passed, and how many failed."""
    plugin = Theirs(is_old)
    pytest.main(["-p", "no:cacheprovider", "-p", "no:terminal", "--pyargs", *modules], plugins=[plugin])
    print(*plugin.told, sep="\n")
    found = plugin.found
    for words, wanted in MUST_ASK.items():
        for name in (it for it in found if found[it] is True and re.search(words, it)):
            if wanted not in plugin.asked[name]:
                found[name] = False
                print(f"failed: {name} asks for {sorted(plugin.asked[name])}, and not for {wanted}")
    passed, failed = (sum(told is it for told in found.values()) for it in (True, False))
    reasons = {told: [name for name in found if found[name] == told] for told in found.values() if isinstance(told, str)}
    asked = {kind: sum(kind in plugin.asked[name] for name in found if found[name] is True) for kind in ("nearest", "within")}
    ways = f"{asked['nearest']} by nearest, {asked['within']} within a limit"
    print(f"{title}: {passed + failed} ran, {passed} passed, {ways}, {len(found) - passed - failed} left out")
    for reason in sorted(reasons):
        print(f"  left out, {len(reasons[reason])} for {reason}: {', '.join(reasons[reason])}")
    return passed, failed or not found


def of_scipy():
    csgraph, ours = importlib.import_module("scipy.sparse.csgraph"), importlib.import_module("as_scipy")
    # (before the tests are imported, which keep these functions)
    csgraph.dijkstra, csgraph.shortest_path = ours.dijkstra, ours.shortest_path
    return run(f"tests of SciPy {importlib.import_module('scipy').__version__}", SCIPY)


def of_networkx():
    networkx = importlib.import_module("networkx")
    ours = importlib.import_module("as_networkx")
    ours.watch()
    for name, function in ours.functions().items():
        setattr(networkx, name, function)
    modules = [f"networkx.algorithms.{it}" for it in NETWORKX]
    told = run(f"tests of NetworkX {networkx.__version__}", modules, is_before_backends(networkx))
    print(f"  calls: {sum(ours.Calls.ran.values())} of {len(ours.Calls.ran)} functions ran on spt, {sum(ours.Calls.left.values())} on NetworkX:")
    for why, times in ours.Calls.left.most_common():
        print(f"    {times} for {why}")
    return told


def by_its_own_switch():
    """Runs NetworkX's tests by the switch that it has for backends, from 3.4 on."""
    networkx = importlib.import_module("networkx")
    if is_before_backends(networkx):
        raise ImportError(f"NetworkX {networkx.__version__} has no switch for backends, which 3.4 and later have")
    known = {**os.environ, "PYTHONPATH": f"{os.environ.get('PYTHONPATH', '')}:{os.path.dirname(os.path.abspath(__file__))}", "NETWORKX_TEST_BACKEND": "spt", "NETWORKX_FALLBACK_TO_NX": "True"}
    words = [sys.executable, "-m", "pytest", "-q", "-p", "no:cacheprovider", "-p", "by_switch", "-k", FEW, "--pyargs"]
    words += [f"networkx.algorithms.{it}" for it in NETWORKX]
    text = subprocess.run(words, env=known, stdout=subprocess.PIPE, stderr=subprocess.STDOUT, text=True).stdout
    last = text.strip().splitlines()[-1]
    print(f"tests of NetworkX {networkx.__version__} by its own switch: {last}")
    print(*(f"  {line}" for line in re.findall("^spt: (.*)$", text, re.M)), sep="\n")
    passed, failed = (sum(map(int, re.findall(rf"(\d+) {word}", last))) for word in ("passed", "(?:failed|error)"))
    if failed or not passed:
        print(text)
    return passed, failed or not passed


def main(chosen):
    counts = [0, 0]
    for word, name, tests in (
        ("SciPy", "SciPy", of_scipy), ("NetworkX", "NetworkX", of_networkx), ("switch", "NetworkX by its own switch", by_its_own_switch),
    ):
        if chosen and word not in chosen:
            continue
        try:
            if pytest is None:
                raise ImportError("pytest isn't installed")
            counts = [sum(both) for both in zip(counts, tests())]
        except ImportError as error:
            print(f"tests of {name}: left out: {error}")
    print(f"{counts[0]} passed, {counts[1]} failed")
    return 1 if counts[1] else 0


if __name__ == "__main__":
    sys.exit(main(sys.argv[1:]))
