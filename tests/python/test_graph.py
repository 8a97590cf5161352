"""The calls of the package, with nothing else installed."""

import array
import copy
import gzip
import io
import os
import pickle
import signal
import subprocess
import sys
import tempfile
import threading
import types
import unittest

from unittest import mock

import samples
import spt


def example_rows():
    """The rows of examples/diamond.tree, by vertex."""
    with open(f"{samples.HOME}/examples/diamond.tree") as it:
        return {int(v): (int(d), int(p)) for v, d, p in (line.split()[1:] for line in it if line.startswith("v "))}


# what a Pool gives back of each refusal: its class, its text and its fields
POOL = """
import multiprocessing, sys
import spt

def refused(number):
    n = 4201
    graph = spt.Graph(n, [(tail, tail + 1, 2**32 - 1) for tail in range(1, n)])
    calls = [lambda: spt.Graph(2, [(1, 3, 1)]), lambda: graph.tree(0), lambda: graph.tree(1, delta=2**64), lambda: graph.tree(1)]
    return calls[number]()

if __name__ == "__main__":
    with multiprocessing.get_context(sys.argv[1]).Pool(2) as pool:
        for number in range(4):
            try:
                pool.map(refused, [number])
            except spt.SptError as told:
                print(type(told).__name__, told, sorted(vars(told)))
"""
FROM_POOL = """BadArc arc 0 (row 1): 3 is not a vertex of a graph with 2 vertices ['arc', 'index']
NoSuchVertex 0 is not a vertex of a graph with 4201 vertices: vertices are numbered from 1 ['vertex']
BadDelta delta 18446744073709551616 is out of range: in a graph of 4201 vertices it is from 1 to 17592186044414 ['delta']
TooFar from 1, vertex 4098 is too far ['source', 'vertex']
"""
# a Pool that can't take an exception back waits for ever
SECONDS = 60


class Trees(unittest.TestCase):
    def setUp(self):
        self.graph = spt.Graph(4, samples.DIAMOND)

    def test_the_example(self):
        tree = self.graph.tree(1)
        rows = {v: (tree.distances[v - 1], tree.predecessors[v - 1]) for v in range(1, 5)}
        self.assertEqual(rows, example_rows())
        self.assertEqual((self.graph.n, self.graph.m, repr(self.graph)), (4, 5, "Graph of 4 vertices and 5 arcs"))

    def test_what_no_walk_leads_to(self):
        tree = self.graph.tree(4)
        self.assertEqual(list(tree.distances), [spt.UNREACHED] * 3 + [0])
        self.assertEqual(list(tree.predecessors), [0] * 4)
        self.assertIsNone(tree.path(1))
        self.assertIsNone(self.graph.pair(4, 1))
        self.assertIsNone(self.graph.path(4, 1))

    def test_pairs_and_paths(self):
        self.assertEqual(self.graph.pair(1, 4), spt.Pair(5, 2))
        self.assertEqual(self.graph.pair(1, 1), (0, 0))
        self.assertEqual(self.graph.path(1, 4), [1, 2, 4])
        self.assertEqual(self.graph.path(3, 3), [3])

    def test_any_delta(self):
        for delta in (1, 2, 100, spt.reach(4)):
            self.assertEqual(self.graph.tree(1, delta=delta), self.graph.tree(1))

    def test_several_sources(self):
        graph = spt.Graph(500, samples.by_lot(500, 2000, 1))
        sources = [7, 1, 500, 7, 33] * 5
        one_by_one = [graph.tree(source) for source in sources]
        for workers in (1, 2, 4, 64):
            self.assertEqual(list(graph.trees(iter(sources), workers=workers)), one_by_one)
        self.assertEqual(list(graph.trees([])), [])

    def test_a_graph_is_kept(self):
        arcs = array.array("I", sum(samples.DIAMOND, ()))
        graph = spt.Graph(4, arcs)
        tree, twin = graph.tree(1), copy.copy(graph)
        arcs[2] = 100
        self.assertEqual(graph.tree(1), tree)
        del graph
        self.assertEqual(list(twin.trees([1, 4], workers=2))[0], tree)

    def test_threads_share_a_graph(self):
        graph = spt.Graph(2000, samples.by_lot(2000, 8000, 2))
        wanted, found = graph.tree(5), []
        threads = [threading.Thread(target=lambda: found.append(graph.tree(5))) for _ in range(4)]
        for thread in threads:
            thread.start()
        for thread in threads:
            thread.join()
        self.assertEqual(found, [wanted] * 4)

    def test_predecessors_are_the_smallest(self):
        arcs = samples.by_lot(300, 3000, 3, longest=3)
        tree = spt.Graph(300, arcs).tree(9)
        self.assertEqual(list(tree.predecessors), samples.smallest_predecessors(samples.triples(arcs), 9, tree.distances))

    def test_many_vertices(self):
        # more words than lie in a core's own cache, and a row that is longer than what is worked off at once
        n = 140_000
        arcs = samples.triples(samples.by_lot(n, 3 * n, 1)) + [(7, head, 900) for head in range(1, 2001)]
        tree = spt.Graph(n, arcs).tree(5)
        distances = samples.distances_from(arcs, n, 5)
        self.assertEqual(list(tree.distances), distances)
        self.assertEqual(list(tree.predecessors), samples.smallest_predecessors(arcs, 5, distances))

    def test_check(self):
        right = self.graph.tree(1)
        self.assertIsNone(self.graph.check(right))
        for place in range(4):
            distances, predecessors = array.array("Q", right.distances), array.array("I", right.predecessors)
            predecessors[place] += 1
            self.assertEqual(self.graph.check(spt.Tree(1, right.distances, memoryview(predecessors))), place + 1)
            distances[place] += 1
            self.assertEqual(self.graph.check(spt.Tree(1, memoryview(distances), right.predecessors)), place + 1)
        with self.assertRaises(ValueError):
            self.graph.check(spt.Graph(5).tree(1))
        for distances in (array.array("q", [0] * 4), array.array("I", [0] * 4), array.array("d", [0] * 4)):
            with self.assertRaises(TypeError):
                self.graph.check(spt.Tree(1, memoryview(distances), right.predecessors))
        self.assertIsNone(self.graph.check(spt.Tree(1, array.array("Q", right.distances), array.array("I", right.predecessors))))

    def test_check_of_any_name_of_the_numbers(self):
        right = self.graph.tree(1)
        for format in "LQ":
            distances = memoryview(array.array(format, right.distances))
            if distances.itemsize == 8:
                self.assertIsNone(self.graph.check(spt.Tree(1, distances, right.predecessors)))
        gaps = memoryview(array.array("Q", (it for one in right.distances for it in (one, 9))))[::2]
        self.assertIsNone(self.graph.check(spt.Tree(1, gaps, right.predecessors)))
        rows = memoryview(right.distances.tobytes()).cast("Q", (2, 2))
        with self.assertRaises(ValueError):
            spt.Tree(1, rows, right.predecessors)

    def test_pairs_are_the_trees(self):
        for seed, longest in ((4, 1000), (5, 2), (6, samples.LONGEST)):
            graph = spt.Graph(120, samples.by_lot(120, 300, seed, longest))
            for tree in graph.trees([1, 60]):
                told = [graph.pair(tree.source, target) for target in range(1, 121)]
                self.assertEqual(told, [tree.pair(target) for target in range(1, 121)])

    def test_pairs_ask_for_no_tree(self):
        # the library's function for one target is asked where there is one, and what it tells is told
        asked, library = [], spt._library.library

        def told(**fields):
            def pair(graph, *numbers):
                asked.append(numbers)
                return spt._library.Found(**fields)

            calls = {"spt_graph_share": library.spt_graph_share, "spt_graph_free": library.spt_graph_free}
            return mock.patch.object(spt._kept, "library", types.SimpleNamespace(**calls, spt_graph_pair=pair))

        with mock.patch.object(spt._graph, "HAS_PAIR", True):
            with told(status=spt._library.OK, dist=9, pred=3):
                self.assertEqual(self.graph.pair(1, 4), spt.Pair(9, 3))
            with told(status=spt._library.OK, dist=spt.UNREACHED, pred=0):
                self.assertIsNone(self.graph.pair(2, 1))
            for status, kind in ((spt._library.TOO_FAR, spt.TooFar), (spt._library.MEMORY, MemoryError)):
                with told(status=status, pred=2), self.assertRaises(kind) as refused:
                    self.graph.pair(3, 4)
                self.assertEqual(vars(refused.exception), {"source": 3, "vertex": 2} if kind is spt.TooFar else {})
        self.assertEqual(asked, [(1, 4, 0), (2, 1, 0), (3, 4, 0), (3, 4, 0)])
        with mock.patch.object(spt._graph, "HAS_PAIR", False):
            self.assertEqual(self.graph.pair(1, 4), spt.Pair(5, 2))

    def test_paths_are_the_trees(self):
        # (an older library has no routes, one before it no parts of trees, and an even older one no pairs)
        for lacks in ({}, {"HAS_ROUTES": False}, {"HAS_NEAR": False}, {"HAS_NEAR": False, "HAS_PAIR": False}):
            with mock.patch.multiple(spt._graph, HAS_ROUTES=not lacks, **{it: False for it in lacks if it != "HAS_ROUTES"}):
                for seed, longest in ((4, 1000), (5, 2), (6, samples.LONGEST)):
                    graph = spt.Graph(120, samples.by_lot(120, 300, seed, longest))
                    tree = graph.tree(60)
                    told = [graph.path(60, target) for target in range(1, 121)]
                    self.assertEqual(told, [tree.path(target) for target in range(1, 121)])

    def test_routes_are_paths_with_distances(self):
        for towards in (False, True):
            for seed, longest in ((4, 1000), (5, 2), (6, samples.LONGEST)):
                graph = spt.Graph(120, samples.by_lot(120, 300, seed, longest))
                tree = graph.tree(60, towards=towards)
                for target in range(1, 121):
                    told, path, pair = graph.route(60, target, towards=towards), tree.path(target), tree.pair(target)
                    self.assertEqual(told, pair and (tuple(path), pair.distance, pair.distance))
        told = spt.Graph(3, [(1, 2, 2.5), (2, 3, 4)], unit=0.1).named(["Depot", "Mill", "Quay"]).route("Depot", "Quay")
        self.assertEqual((told.vertices, told.distance, told.length), (("Depot", "Mill", "Quay"), 65, 6.5))

    def test_paths_ask_for_no_whole_tree(self):
        limits, whole = [], spt.Graph._tree
        with mock.patch.object(spt.Graph, "_tree", lambda graph, source, limit=None: limits.append(limit) or whole(graph, source, limit)):
            self.assertEqual(self.graph.path(1, 4), [1, 2, 4])
            self.assertEqual(limits, [])
            with mock.patch.object(spt._graph, "HAS_ROUTES", False):
                self.assertEqual(self.graph.path(1, 4), [1, 2, 4])
        self.assertEqual(limits, [5])

    def test_only_read(self):
        given = array.array("Q", [0, 1])
        made = spt.Tree(1, given, array.array("I", [0, 1]))
        for tree in (self.graph.tree(1), next(self.graph.trees([1])), made):
            for numbers in (tree.distances, tree.predecessors):
                with self.assertRaises(TypeError):
                    numbers[0] = 1
        given[1] = 7
        self.assertEqual(list(made.distances), [0, 1])

    def test_names_are_public(self):
        common = {"distances", "floats", "frame", "lengths", "masked", "pair", "part", "path", "predecessors", "towards"}
        graph = spt.Graph(4, samples.DIAMOND)
        self.assertEqual({it for it in dir(graph.tree(1)) if it[0] != "_"}, common | {"source"})
        self.assertEqual({it for it in dir(graph.nearest([1])) if it[0] != "_"}, common | {"source", "sources"})
        wanted = {"distances", "floats", "frame", "lengths", "masked", "sources", "targets", "towards"}
        self.assertEqual({it for it in dir(graph.matrix([1], [2])) if it[0] != "_"}, wanted)

    def test_repr(self):
        self.assertEqual(repr(self.graph.tree(4)), "Tree from 4 over 4 vertices: distances unreached, unreached, unreached, 0; "
                         "predecessors 0, 0, 0, 0")
        chain = spt.Graph(1000, [(tail, tail + 1, 2) for tail in range(1, 1000)])
        told = repr(chain.tree(1))
        self.assertEqual(told, "Tree from 1 over 1000 vertices: distances 0, 2, 4, 6, ..., 1992, 1994, 1996, 1998; "
                         "predecessors 0, 1, 2, 3, ..., 996, 997, 998, 999")

    def test_equal_trees(self):
        one, other = self.graph.tree(1), spt.Graph(4, samples.DIAMOND[::-1]).tree(1)
        self.assertEqual((one, hash(one)), (other, hash(other)))
        self.assertEqual({one: 1, other: 2}, {one: 2})
        self.assertNotEqual(one, self.graph.tree(2))
        self.assertNotEqual(one, spt.Tree(1, one.distances, array.array("I", [0, 1, 1, 3])))
        self.assertNotEqual(one, spt.Tree(2, one.distances, one.predecessors))
        self.assertNotEqual(one, 1)


class Arcs(unittest.TestCase):
    def assertDiamond(self, arcs):
        self.assertEqual(spt.Graph(4, arcs).tree(1), spt.Graph(4, samples.DIAMOND).tree(1))

    def test_forms(self):
        flat = [number for arc in samples.DIAMOND for number in arc]
        self.assertDiamond(iter(samples.DIAMOND))
        for format in "bBhHiIlLqQ":
            self.assertDiamond(array.array(format, flat))
        self.assertDiamond(memoryview(bytes(array.array("I", flat))).cast("I"))
        gapped = array.array("I", (number for one in flat for number in (one, 0)))
        self.assertDiamond(memoryview(gapped)[::2])
        self.assertEqual(list(spt.Graph(2).tree(2).distances), [spt.UNREACHED, 0])

    def test_shapes(self):
        rows = [(1, 2, 7), (2, 3, 1), (3, 4, 2)]
        numbers = memoryview(array.array("I", sum(rows, ()))).cast("B")
        self.assertEqual(list(spt.Graph(4, numbers.cast("I", (3, 3))).tree(1).distances), [0, 7, 8, 10])
        self.assertEqual(list(spt.Graph(4, rows).tree(1).distances), [0, 7, 8, 10])
        pairs, many = array.array("I", [1, 2, 2, 3, 3, 4]), array.array("I", [1] * 12)
        for given, shape in (
            (memoryview(pairs).cast("B").cast("I", (3, 2)), "(3, 2)"),
            (memoryview(pairs).cast("B").cast("I", (2, 1, 3)), "(2, 1, 3)"),
            (memoryview(many).cast("B").cast("I", (3, 4)), "(3, 4)"),
            (memoryview(many).cast("B").cast("I", (6, 2)), "(6, 2)"),
            (array.array("I", [1, 2, 3, 4]), "(4,)"),
        ):
            with self.assertRaises(ValueError) as told:
                spt.Graph(4, given)
            self.assertIn(f"an array of shape {shape}: arcs are triples", str(told.exception))
            self.assertIn("of shape (m, 3)", str(told.exception))

    def test_triples_alone(self):
        for arcs, index in (
            ([(1, 2), (2, 3), (3, 4)], 0),
            ([(1, 2, 7), (1, 2), (1, 2, 3, 4)], 1),
            ([(1, 2, 7, 9), (2, 3, 1, 9), (3, 4, 1, 9)], 0),
            ({(1, 2): 7, (2, 3): 1, (3, 4): 2}, 0),
        ):
            with self.assertRaises(ValueError) as told:
                spt.Graph(4, arcs)
            self.assertRegex(str(told.exception), rf"^arc {index} \(row {index + 1}\) is .*arcs are triples")
        for arcs in ([1, 2, 3], [(1, 2, 3), 4], 7, None):
            with self.assertRaises(TypeError):
                spt.Graph(4, arcs)

    def test_the_list_may_change(self):
        flat = array.array("I", sum(samples.DIAMOND, ()))
        graph, wanted = spt.Graph(4, flat), spt.Graph(4, samples.DIAMOND)
        flat[2] *= 10
        flat.append(1)
        for it in (graph, copy.copy(graph), copy.deepcopy(graph), pickle.loads(pickle.dumps(graph))):
            self.assertEqual((it.arcs, it.tree(1)), (wanted.arcs, wanted.tree(1)))
            self.assertIsNone(it.check(it.tree(1)))
        buffers = []
        text = pickle.dumps(graph, 5, buffer_callback=buffers.append)
        outside = bytearray(buffers[0])
        again = pickle.loads(text, buffers=[outside])
        outside[8] = 0
        self.assertEqual(again.arcs, wanted.arcs)

    def test_arcs_are_only_read(self):
        flat = array.array("I", sum(samples.DIAMOND, ()))
        read = spt.Graph.read(io.BytesIO(b"p sp 2 1\na 1 2 3\n"))
        for graph in (spt.Graph(4, flat), spt.Graph(4, samples.DIAMOND), spt.Graph(4, array.array("q", flat)), read, pickle.loads(pickle.dumps(read))):
            self.assertTrue(graph.arcs.readonly)
            with self.assertRaises(TypeError):
                graph.arcs[2] = 1
        for graph in (spt.Graph(2), spt.Graph(2, unit=0.5), spt.Graph(2, array.array("I")), pickle.loads(pickle.dumps(spt.Graph(2)))):
            self.assertTrue(graph.arcs.readonly)

    def test_order_plays_no_part(self):
        self.assertDiamond(samples.DIAMOND[::-1])


class Refusals(unittest.TestCase):
    def refused(self, kind, call, **fields):
        with self.assertRaises(kind) as told:
            call()
        self.assertEqual({name: getattr(told.exception, name) for name in fields}, fields)
        return str(told.exception)

    def test_arcs(self):
        zero = "0 is not a vertex of a graph with 4 vertices: vertices are numbered from 1; if yours start at 0, add 1 to each"
        five, length = "5 is not a vertex of a graph with 4 vertices", "0 is not a length: lengths are whole numbers from 1 to 4294967295"
        length += '; zero="unit" counts 0 as one unit'
        for bad, why in (((0, 2, 1), zero), ((2, 0, 1), zero), ((5, 1, 1), five), ((1, 5, 1), five), ((1, 2, 0), length)):
            for place in range(6):
                arcs = [*samples.DIAMOND[:place], bad, *samples.DIAMOND[place:]]
                flat = array.array("I", sum(arcs, ()))
                for given in (arcs, flat, memoryview(flat).cast("B").cast("I", (6, 3))):
                    text = self.refused(spt.BadArc, lambda: spt.Graph(4, given), index=place, arc=bad)
                    self.assertEqual(text, f"arc {place} (row {place + 1}): {why}")

    def test_numbers(self):
        self.refused(ValueError, lambda: spt.Graph(4, [(1, 2)]))
        self.refused(ValueError, lambda: spt.Graph(4, [(1, 2, 2**32)]))
        self.refused(ValueError, lambda: spt.Graph(4, [(-1, 2, 1)]))
        self.refused(TypeError, lambda: spt.Graph(4, [(1, 2, 1.5)]))
        self.refused(TypeError, lambda: spt.Graph(4, array.array("d", [1, 2, 3])))
        for n in (0, -1, 2**32 - 1, 2**40):
            self.refused(ValueError, lambda: spt.Graph(n))
            self.assertEqual(spt.reach(n), 0)

    def test_vertices(self):
        graph = spt.Graph(4, samples.DIAMOND)
        for vertex in (0, -1, 5, 2**32, 2**32 + 1):
            for call in (graph.tree, lambda it: graph.pair(1, it), lambda it: graph.path(1, it), lambda it: graph.trees([1, it])):
                text = self.refused(spt.NoSuchVertex, lambda: call(vertex), vertex=vertex)
                more = ": vertices are numbered from 1" if vertex == 0 else ""
                self.assertEqual(text, f"{vertex} is not a vertex of a graph with 4 vertices{more}")

    def test_delta(self):
        graph = spt.Graph(4, samples.DIAMOND)
        for delta in (0, -1, spt.reach(4) + 1, 2**64):
            self.refused(spt.BadDelta, lambda: graph.tree(1, delta=delta), delta=delta)
        self.refused(ValueError, lambda: graph.trees([1], workers=0))

    def test_too_far(self):
        n = 4201
        graph = spt.Graph(n, [(tail, tail + 1, samples.LONGEST) for tail in range(1, n)])
        vertex = spt.reach(n) // samples.LONGEST + 2
        near = graph.tree(n).distances, graph.tree(n).predecessors
        for call in (graph.tree, lambda it: graph.check(spt.Tree(it, *near))):
            self.refused(spt.TooFar, lambda: call(1), source=1, vertex=vertex)
        for call in (graph.pair, graph.path):
            self.refused(spt.TooFar, lambda: call(1, n), source=1)
        self.assertEqual(graph.path(1, 5), [1, 2, 3, 4, 5])
        for workers in (1, 2):
            trees = graph.trees([n, n - 1, 1, n], workers=workers)
            self.assertEqual([next(trees).source, next(trees).source], [n, n - 1])
            self.refused(spt.TooFar, lambda: next(trees), source=1, vertex=vertex)

    def test_base(self):
        for kind in (spt.BadArc, spt.BadDelta, spt.BadLimit, spt.Fault, spt.NoSuchVertex, spt.TooFar):
            self.assertTrue(issubclass(kind, spt.SptError))


class Copies(unittest.TestCase):
    """What pickle, copy and another process give back."""

    def again(self, it):
        """Copies, by each protocol of pickle too."""
        told = [pickle.loads(pickle.dumps(it, protocol)) for protocol in range(pickle.HIGHEST_PROTOCOL + 1)]
        buffers = []
        text = pickle.dumps(it, 5, buffer_callback=buffers.append)
        return [*told, copy.copy(it), copy.deepcopy(it), pickle.loads(text, buffers=[bytes(one) for one in buffers])]

    def test_graphs(self):
        for arcs in (samples.DIAMOND, [], array.array("I", samples.DIAMOND[0])):
            graph = spt.Graph(4, arcs)
            for twin in self.again(graph):
                self.assertEqual((type(twin), twin.n, twin.arcs.tolist()), (spt.Graph, 4, graph.arcs.tolist()))
                self.assertEqual(list(twin.trees([1, 4])), list(graph.trees([1, 4])))

    def test_trees(self):
        trees = list(spt.Graph(4, samples.DIAMOND).trees([1, 4]))
        for tree in trees:
            for twin in self.again(tree):
                self.assertEqual((twin, hash(twin), repr(twin)), (tree, hash(tree), repr(tree)))
                self.assertEqual((twin.distances.readonly, twin.pair(4)), (True, tree.pair(4)))

    def test_exceptions(self):
        calls = [
            lambda: spt.Graph(4, [(1, 5, 1)]),
            lambda: spt.Graph(4).tree(9),
            lambda: spt.Graph(4).tree(1, delta=0),
            lambda: spt.Graph(4).tree(1, within=-1),
            lambda: spt.Graph.read(io.BytesIO(b"p sp 2 1\na 1 2 0\n")),
            lambda: spt.Graph(4201, [(tail, tail + 1, samples.LONGEST) for tail in range(1, 4201)]).tree(1),
        ]
        kinds = [spt.BadArc, spt.NoSuchVertex, spt.BadDelta, spt.BadLimit, spt.Fault, spt.TooFar]
        for kind, call in zip(kinds, calls):
            with self.assertRaises(kind) as told:
                call()
            for twin in self.again(told.exception):
                self.assertEqual((type(twin), str(twin), vars(twin)), (kind, str(told.exception), vars(told.exception)))
                self.assertEqual(twin.args, told.exception.args)
        for twin in self.again(spt.LibraryNotFound("nowhere")):
            self.assertEqual((type(twin), str(twin)), (spt.LibraryNotFound, "nowhere"))

    def test_pools(self):
        for way in ("fork", "spawn"):
            with tempfile.TemporaryDirectory() as folder:
                program = os.path.join(folder, "program.py")
                with open(program, "w") as it:
                    it.write(POOL)
                known = {**os.environ, "PYTHONPATH": os.pathsep.join(sys.path)}
                ways = {"stdout": subprocess.PIPE, "stderr": subprocess.STDOUT, "text": True, "start_new_session": True}
                with subprocess.Popen([sys.executable, program, way], env=known, **ways) as pool:
                    try:
                        self.assertEqual(pool.communicate(timeout=SECONDS)[0], FROM_POOL)
                    except subprocess.TimeoutExpired:
                        os.killpg(pool.pid, signal.SIGKILL)
                        self.fail(f"a pool of {way} waits for ever")


class Texts(unittest.TestCase):
    def test_files(self):
        path = f"{samples.HOME}/examples/diamond.gr"
        wanted = spt.Graph(4, samples.DIAMOND)
        with open(path, "rb") as it:
            self.assertEqual(spt.Graph.read(it).arcs, wanted.arcs)
        self.assertEqual(spt.Graph.read(path).tree(1), wanted.tree(1))
        with tempfile.TemporaryDirectory() as folder, open(path, "rb") as it:
            packed = os.path.join(folder, "diamond.gr.gz")
            with gzip.open(packed, "wb") as out:
                out.write(it.read())
            self.assertEqual(spt.Graph.read(packed).arcs, wanted.arcs)

    def test_no_last_newline(self):
        graph = spt.Graph.read(io.BytesIO(b"p sp 1 1\na 1 1 1"))
        self.assertEqual((graph.n, list(graph.arcs)), (1, [1, 1, 1]))

    def test_faults(self):
        faults = {
            b"": (1, 3, "NoProblem", None),
            b"p sp 2\n": (1, 2, "BadLine", None),
            b"a 1 2 3\n": (1, 3, "NoProblem", None),
            b"p sp 2 1\np sp 2 1\n": (2, 4, "SecondProblem", None),
            b"p sp 2 1\na 3 1 1\n": (2, 5, "OutOfRange", "U"),
            b"p sp 2 1\na 1 2 0\n": (2, 5, "OutOfRange", "W"),
            b"p sp 2 0\na 1 2 1\n": (2, 6, "TooMany", None),
            b"p sp 2 2\na 1 2 3\n": (3, 7, "TooFew", None),
        }
        for text, (line, number, kind, field) in faults.items():
            with self.assertRaises(spt.Fault) as told:
                spt.Graph.read(io.BytesIO(text))
            got = told.exception
            self.assertEqual((got.line, got.number, got.kind, got.field), (line, number, kind, field), text)
            first = f"gr: line {line}: {number} {kind}{' ' + field if field else ''}"
            self.assertEqual(str(got), f"{first}\n{got.hint}")


class Loading(unittest.TestCase):
    def test_no_library(self):
        known = {**os.environ, "SPT_LIBRARY": "/no/such/libspt.so", "PYTHONPATH": os.pathsep.join(sys.path)}
        told = subprocess.run([sys.executable, "-c", "import spt"], env=known, capture_output=True, text=True)
        self.assertIn("LibraryNotFound: spt: /no/such/libspt.so", told.stderr)


if __name__ == "__main__":
    unittest.main()
