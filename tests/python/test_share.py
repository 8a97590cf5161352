"""Rows that threads find in short calls: their order, how far they are, and how soon an interrupt ends them."""

import contextlib
import io
import os
import re
import signal
import subprocess
import sys
import threading
import time
import unittest

from unittest import mock

import samples
import spt

from samples import tqdm
from spt._kept import failure
from spt._library import OK
from spt._share import Pace, in_order

# what would take some 20 seconds of a processor, and says when it is under way, what it raised, and when
LONG = """
import itertools
import time
import samples, spt

n = 20_000
graph = spt.Graph(n, samples.by_lot(n, 3 * n, 1))
sources = [1 + at % n for at in range(4000)]

def progress(done, total):
    if done < 40:
        print("begun", flush=True)

try:
    CALL
except KeyboardInterrupt:
    print("interrupted", time.time(), flush=True)
"""
CALLS = {
    "a matrix by one thread": "graph.matrix(sources, sources[::9], progress=progress)",
    "a matrix by two": "graph.matrix(sources, sources[::9], workers=2, progress=progress)",
    "trees": "sum(tree.source for tree in graph.trees(sources, workers=2, progress=progress))",
    "parts of trees": "sum(tree.source for tree in graph.trees(sources, within=10**6, progress=progress))",
    "routes": "graph.routes(itertools.product(sources, sources[:2]), progress=progress)",
    "routes by two threads": "graph.routes(zip(sources, sources[::-1]), 2, progress=progress)",
}
# what the library writes into a place while a call uses it
IN_USE_STATE = 2
# an end within 0.2 s on a quiet machine; others may have its processors
SECONDS = 2
PATIENCE = 60


class Blocks(unittest.TestCase):
    def test_pace(self):
        pace, told = Pace(1000), []
        for seconds in (0, 1e-6, 0.05, 0.1, 10.0, 1e-9, 0.05, 0.5, 5e-6, 5e-6, 5e-6, 5e-6):
            told.append(pace.rows)
            pace.took(pace.rows, seconds)
        self.assertEqual(told, [1, 8, 64, 64, 32, 1, 8, 8, 1, 8, 64, 512])
        self.assertEqual(pace.rows, 1000)
        self.assertEqual(Pace(0).rows, 1)

    def test_order(self):
        def call(begin, end):
            time.sleep(0.001 * (begin % 3))
            return list(range(begin, end))

        for total in (0, 1, 7, 500):
            for workers in (1, 3, 64):
                told = list(in_order(total, workers, Pace(100), call, None))
                self.assertEqual([at for rows in told for at in rows], list(range(total)))

    def test_no_more_than_asked(self):
        begun = []
        blocks = in_order(10**9, 2, Pace(1), lambda begin, end: begun.append(begin), None)
        self.assertEqual(begun, [])
        next(blocks)
        blocks.close()
        time.sleep(0.05)
        self.assertLessEqual(len(begun), 4)

    def test_refusals_end_it(self):
        begun = []

        def call(begin, end):
            begun.append(begin)
            raise MemoryError(begin)

        with self.assertRaises(MemoryError) as told:
            list(in_order(1000, 2, Pace(1), call, None))
        time.sleep(0.05)
        self.assertEqual((told.exception.args, len(begun) <= 5), ((0,), True))


class Far(unittest.TestCase):
    def setUp(self):
        self.graph = spt.Graph(500, samples.by_lot(500, 2000, 1))
        self.told = []

    def progress(self, done, total):
        self.told.append((done, total, threading.current_thread()))

    def assertFar(self, total):
        self.assertEqual({it[1:] for it in self.told}, {(total, threading.current_thread())})
        done = [it[0] for it in self.told]
        self.assertEqual((done, done[-1]), (sorted(set(done)), total))
        self.told.clear()

    def test_progress(self):
        sources = list(range(1, 301))
        for workers in (1, 3):
            told = self.graph.matrix(sources, [4, 5], workers=workers, progress=self.progress).tolist()
            self.assertFar(300)
            self.assertEqual(told, self.graph.matrix(sources, [4, 5]).tolist())
            for within in (None, 1000):
                trees = list(self.graph.trees(sources, within=within, workers=workers, progress=self.progress))
                self.assertFar(300)
                self.assertEqual(trees, [self.graph.tree(source, within=within) for source in sources])
        self.graph.matrix([], [1], progress=self.progress)
        self.assertEqual((list(self.graph.trees([], progress=self.progress)), self.told), ([], []))

    @unittest.skipIf(tqdm is None, "tqdm isn't installed")
    def test_tqdm(self):
        text = re.search(r"^with tqdm\(.*?(?=^\w)", samples.read("docs/PYTHON.md"), re.M | re.S)[0]
        known, drawn = {"graph": self.graph, "shops": range(1, 301), "homes": [1, 2], "tqdm": tqdm.tqdm}, io.StringIO()
        with contextlib.redirect_stderr(drawn):
            exec(text, known)
        self.assertEqual((known["bar"].n, known["matrix"].tolist()), (300, self.graph.matrix(range(1, 301), [1, 2]).tolist()))
        self.assertIn("300/300", drawn.getvalue())

    def test_progress_may_stop_it(self):
        class Enough(Exception):
            pass

        progress = mock.Mock(side_effect=[None, None, Enough])
        for call in (lambda: self.graph.matrix(range(1, 501), [1], progress=progress), lambda: list(self.graph.trees(range(1, 501), progress=progress))):
            with self.assertRaises(Enough):
                call()
            progress.side_effect = [None, None, Enough]

    def test_calls_are_short(self):
        rows = []
        matrix = self.graph._kept.matrix

        def slow(sources, *given):
            rows.append(len(sources))
            time.sleep(0.02 * len(sources))
            return matrix(sources, *given)

        with mock.patch.object(self.graph._kept, "matrix", slow):
            self.graph.matrix(range(1, 31), [1])
        self.assertEqual(sum(rows), 30)
        self.assertLessEqual(max(rows), 2)


class OneGraph(unittest.TestCase):
    """A graph that several threads query at once, each kind of call in each thread; nothing has been asked of it before."""

    CALLS = (
        lambda graph: graph.tree(5),
        lambda graph: graph.tree(5, within=300),
        lambda graph: graph.pair(1, 77),
        lambda graph: list(graph.trees([3, 4, 5], workers=2)),
        lambda graph: graph.matrix([1, 2, 3], [9, 8], workers=2).tolist(),
        lambda graph: [route and route.arcs for route in graph.routes([(1, 77), (1, 500), (9, 1)], workers=2)],
        lambda graph: graph.path(5, 77),
        lambda graph: graph.nearest([1, 500]),
        lambda graph: bytes(graph.arcs),
        lambda graph: (graph.n, graph.m),
    )

    def test_all_calls_at_once(self):
        arcs = samples.by_lot(500, 2000, 1)
        wanted = [call(spt.Graph(500, arcs)) for call in self.CALLS]
        for _ in range(5):
            graph, found = spt.Graph(500, arcs), []

            def ask(first):
                for at in range(2 * len(self.CALLS)):
                    number = (first + at) % len(self.CALLS)
                    found.append(self.CALLS[number](graph) == wanted[number])

            threads = [threading.Thread(target=ask, args=(first,)) for first in range(len(self.CALLS))]
            for thread in threads:
                thread.start()
            for thread in threads:
                thread.join()
            self.assertEqual((len(found), all(found)), (2 * len(self.CALLS) ** 2, True))

    def test_a_place_in_use(self):
        # what the package never does: it gives each call a place of its own
        kept = spt.Graph(500, samples.by_lot(500, 2000, 1))._kept
        kept._place.state = IN_USE_STATE
        with self.assertRaisesRegex(spt.SptError, "another call of the library is using"):
            raise failure(kept.pair(1, 2).status)
        kept._place.state = 1
        self.assertEqual(kept.pair(1, 1).status, OK)


class Interrupts(unittest.TestCase):
    def test_interrupts(self):
        known = {**os.environ, "PYTHONPATH": os.pathsep.join(sys.path)}
        for name, call in CALLS.items():
            words = [sys.executable, "-c", LONG.replace("CALL", call)]
            with subprocess.Popen(words, env=known, stdout=subprocess.PIPE, stderr=subprocess.STDOUT, text=True) as job:
                self.assertEqual(job.stdout.readline(), "begun\n", name)
                time.sleep(0.3)
                sent = time.time()
                job.send_signal(signal.SIGINT)
                text = job.communicate(timeout=PATIENCE)[0]
                ended = time.time()
            *_, last = text.splitlines()
            self.assertTrue(last.startswith("interrupted "), (name, text))
            self.assertLess(float(last.split()[1]) - sent, SECONDS, name)
            self.assertLess(ended - sent, SECONDS, name)
            self.assertEqual(job.returncode, 0, name)

    def test_nothing_waits_for_a_long_call(self):
        text = "import time, spt._share as it\nnext(it.in_order(9, 2, it.Pace(1), lambda at, end: at and time.sleep(60), None))"
        known = {**os.environ, "PYTHONPATH": os.pathsep.join(sys.path)}
        begun = time.time()
        done = subprocess.run([sys.executable, "-c", text], env=known, capture_output=True, text=True, timeout=PATIENCE)
        self.assertEqual((done.returncode, done.stderr, time.time() - begun < 30), (0, "", True))

    def test_the_process_ends(self):
        # in the midst of calls, which nothing waits for
        known = {**os.environ, "PYTHONPATH": os.pathsep.join(sys.path)}
        for _ in range(5):
            words = [sys.executable, "-c", LONG.replace("CALL", "next(graph.trees(sources, workers=4))")]
            done = subprocess.run(words, env=known, capture_output=True, text=True, timeout=PATIENCE)
            self.assertEqual((done.returncode, done.stderr), (0, ""))


if __name__ == "__main__":
    unittest.main()
