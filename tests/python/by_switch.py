"""A plugin of pytest that counts what NetworkX's own tests leave to spt, where NetworkX's switch for backends runs them on it."""

import collections
import logging

import pytest
import scipy.sparse
import spt._networkx as backend

from _spt_networkx import FUNCTIONS

if not hasattr(scipy.sparse, "sparray"):
    # (NetworkX's switch asks for this class, which SciPy has had by this name since 1.11)
    scipy.sparse.sparray = scipy.sparse._arrays._sparray


class Log(logging.Handler):
    """Counts, by NetworkX's log, the calls of the backend's functions that ran on spt, and those that fell back and why."""

    def __init__(self):
        super().__init__()
        self.ran, self.left = collections.Counter(), collections.Counter()
        # of each test whether some call ran on spt, and whether one fell back
        self.tests, self.test = {}, None

    def emit(self, record):
        said, args = record.msg, record.args
        if not (isinstance(args, tuple) and len(args) > 1 and args[0] == "spt" and args[1] in FUNCTIONS):
            return
        if said.startswith("Using backend"):
            self.note(self.ran, args[1], True)
        elif said.startswith("Backend '%s' can't run"):
            self.note(self.left, str(args[3]).replace(", because: ", ""), False)
        elif said.startswith("Backend '%s' raised"):
            self.ran[args[1]] -= 1
            self.note(self.left, str(args[2]), False)

    def note(self, counter, what, is_spt):
        counter[what] += 1
        self.tests.setdefault(self.test, set()).add(is_spt)


LOG = Log()


def convert_from_nx(graph, convert=backend.convert_from_nx, **given):
    """Reads a graph, and notes why it can't."""
    try:
        return convert(graph, **given)
    except NotImplementedError as why:
        LOG.note(LOG.left, str(why), False)
        raise


def pytest_configure(config):
    logger = logging.getLogger("networkx.utils.backends")
    logger.setLevel(logging.DEBUG)
    logger.addHandler(LOG)
    backend.convert_from_nx = convert_from_nx


@pytest.hookimpl(hookwrapper=True)
def pytest_runtest_protocol(item):
    LOG.test = item.nodeid
    yield
    LOG.test = None


def pytest_terminal_summary(terminalreporter):
    found = collections.Counter()
    for kind, reports in terminalreporter.stats.items():
        for report in reports if kind in ("passed", "failed", "xfailed", "xpassed") else ():
            found[kind, frozenset(LOG.tests.get(report.nodeid, ()))] += 1
    told = {frozenset([True]): "on spt alone", frozenset([True, False]): "on both", frozenset([False]): "by falling back", frozenset(): "without a call"}
    for (kind, ways), tests in sorted(found.items(), key=str):
        terminalreporter.write_line(f"spt: {tests} {kind} {told[ways]}")
    terminalreporter.write_line(f"spt: {sum(LOG.ran.values())} calls of {len(LOG.ran)} functions ran on spt, {sum(LOG.left.values())} fell back:")
    for why, calls in LOG.left.most_common():
        terminalreporter.write_line(f"spt:   {calls} for {why}")
