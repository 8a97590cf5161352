"""Beside SciPy and NetworkX, where they are installed: the same distances on graphs drawn by lot, the smallest predecessors."""

import copy
import inspect
import itertools
import random
import re
import types
import unittest
import warnings

import samples
import spt

from samples import networkx, numpy, scipy

N, M = 20_000, 80_000
SOURCES = (1, 777, N)


@unittest.skipIf(scipy is None, "SciPy isn't installed")
class SciPy(unittest.TestCase):
    def test_arrays(self):
        wanted = spt.Graph(4, samples.DIAMOND).tree(1)
        for dtype in ("uint8", "int32", "uint32", "int64", "uint64", "<i4", "<i8"):
            arcs = numpy.array(samples.DIAMOND, dtype)
            self.assertEqual(spt.Graph(4, arcs).tree(1), wanted)
            self.assertEqual(spt.Graph(4, numpy.asfortranarray(arcs)).tree(1), wanted)
            self.assertEqual(spt.Graph(4, numpy.repeat(arcs, 2, axis=0)[::2]).tree(1), wanted)
        self.assertEqual(list(spt.Graph(2, numpy.empty((0, 3), numpy.uint32)).tree(1).predecessors), [0, 0])
        for dtype in ("float64", ">i4", "bool"):
            with self.assertRaises(TypeError):
                spt.Graph(4, numpy.array(samples.DIAMOND, dtype))
        with self.assertRaises(ValueError):
            spt.Graph(4, -numpy.array(samples.DIAMOND))
        # what begins where no number of 32 bits may, and numbers of other makers
        apart = numpy.frombuffer(b"\0" + arcs.astype("uint32").tobytes(), numpy.uint32, offset=1).reshape(-1, 3)
        self.assertEqual(spt.Graph(4, apart).tree(1), wanted)
        self.assertEqual(spt.Graph(4, numpy.ctypeslib.as_ctypes(numpy.array(samples.DIAMOND, numpy.uint32))).tree(1), wanted)

    def test_shapes(self):
        rows = numpy.array([(1, 2, 7), (2, 3, 1), (3, 4, 2)], numpy.uint32)
        self.assertEqual(list(spt.Graph(4, rows).tree(1).distances), [0, 7, 8, 10])
        self.assertEqual(list(spt.Graph(4, numpy.asfortranarray(rows)).tree(1).distances), [0, 7, 8, 10])
        two, four = rows[:2], numpy.vstack([rows, rows[:1]])
        wrong = [two.T, four.T, rows[:, :2], numpy.hstack([rows, rows[:, :1]]), rows[None], rows.reshape(-1)[:8]]
        for arcs in [*wrong, numpy.empty((3, 0)), numpy.array(7)]:
            with self.assertRaises(ValueError) as told:
                spt.Graph(4, arcs.astype(numpy.uint32))
            self.assertIn(f"an array of shape {arcs.shape}: ", str(told.exception))
            self.assertIn("(m, 3)", str(told.exception))

    def test_trees_of_numpy(self):
        graph = spt.Graph(4, samples.DIAMOND)
        tree = graph.tree(1)
        for names in (("uint64", "uint32"), ("Q", "I"), ("L", "I"), ("<u8", "<u4")):
            given = [numpy.array(it, name) for it, name in zip((tree.distances, tree.predecessors), names)]
            made = spt.Tree(1, *given)
            self.assertEqual((made, graph.check(made)), (tree, None))
            self.assertIsNone(graph.check(types.SimpleNamespace(source=1, distances=given[0], predecessors=given[1])))
            given[0][3] += 1
            self.assertEqual(graph.check(spt.Tree(1, *given)), 4)
        self.assertEqual(memoryview(numpy.zeros(1, numpy.uint64)).format, "L")
        for wrong in ("int64", "uint32", "float64", ">u8"):
            with self.assertRaises(TypeError):
                spt.Tree(1, numpy.array([0, 3, 3, 5], wrong), tree.predecessors)

    def test_only_read(self):
        tree = spt.Graph(4, samples.DIAMOND).tree(1)
        for numbers in (numpy.asarray(tree.distances), numpy.asarray(tree.predecessors)):
            self.assertFalse(numbers.flags.writeable)
            with self.assertRaises(ValueError):
                numbers[0] = 1
            with self.assertRaises(ValueError):
                numbers.flags.writeable = True

    def test_without_the_unreached(self):
        tree = spt.Graph(4, [(1, 2, 7), (2, 1, 2)]).tree(1)
        # (what the views are for)
        self.assertEqual(int((numpy.asarray(tree.distances) + numpy.uint64(1))[3]), 0)
        self.assertEqual((tree.masked() + 1).tolist(), [1, 8, None, None])
        self.assertEqual((int(tree.masked().sum()), tree.masked().filled()[3]), (7, spt.UNREACHED))
        self.assertTrue(numpy.shares_memory(tree.masked().data, numpy.asarray(tree.distances)))
        self.assertEqual(tree.floats().tolist(), [0.0, 7.0, float("inf"), float("inf")])
        far = spt.Graph(4097, [(tail, tail + 1, samples.LONGEST) for tail in range(1, 4097)]).tree(1)
        self.assertEqual([int(it) for it in far.floats()], list(far.distances))
        for place in (spt.__doc__, spt.Tree.__doc__, spt.Graph.tree.__doc__, spt.Graph.trees.__doc__):
            self.assertIn("2^64 - 1", place)

    def test_no_copies(self):
        arcs = numpy.array(samples.DIAMOND, numpy.uint32)
        graph = spt.Graph(4, arcs)
        self.assertTrue(numpy.shares_memory(numpy.asarray(graph.arcs), numpy.asarray(graph.arcs)))
        distances = graph.tree(1).distances
        self.assertTrue(numpy.shares_memory(numpy.asarray(distances), numpy.asarray(distances)))
        self.assertEqual(numpy.asarray(distances).dtype, numpy.uint64)
        arcs.flags.writeable = False
        self.assertEqual(spt.Graph(4, arcs).tree(1).distances, distances)

    def test_arrays_may_change(self):
        for dtype in ("uint32", "int64"):
            arcs = numpy.array([[1, 2, 5], [2, 3, 5]], dtype)
            graph = spt.Graph(3, arcs)
            arcs[:, 2] *= 10
            tree = graph.tree(1)
            self.assertEqual((list(tree.distances), graph.check(tree)), ([0, 5, 10], None))
            self.assertEqual(copy.deepcopy(graph).tree(1), tree)
            self.assertFalse(numpy.asarray(graph.arcs).flags.writeable)

    def test_distances(self):
        for seed, longest in ((1, 1000), (2, 2), (3, samples.LONGEST)):
            graph = spt.Graph(N, samples.by_lot(N, M, seed, longest))
            matrix = graph.to_scipy()
            arcs = samples.triples(graph.arcs)
            for tree in graph.trees(SOURCES, workers=2):
                theirs = scipy.sparse.csgraph.dijkstra(matrix, indices=tree.source - 1)
                ours = numpy.asarray(tree.distances)
                self.assertTrue((numpy.where(ours == spt.UNREACHED, numpy.inf, ours) == theirs).all())
                self.assertEqual(list(tree.predecessors), samples.smallest_predecessors(arcs, tree.source, tree.distances))
                self.assertIsNone(graph.check(tree))
                self.assertEqual(graph.pair(tree.source, N // 2), tree.pair(N // 2))

    def test_in_their_form(self):
        graph = spt.Graph(500, samples.by_lot(500, 2000, 4))
        matrix = graph.to_scipy()
        for indices in (None, 3, -1, [4, 4, 499], numpy.array([[0, 1], [2, 3]])):
            wanted = scipy.sparse.csgraph.dijkstra(matrix, indices=indices)
            for given in (graph, matrix):
                ours, before = spt.dijkstra(given, indices=indices, return_predecessors=True, workers=2)
                self.assertEqual((ours.dtype, before.dtype, before.shape), (wanted.dtype, numpy.int32, wanted.shape))
                self.assertTrue((ours == wanted).all())
            self.assertTrue((spt.dijkstra(matrix, indices=indices) == wanted).all())
        _, theirs = scipy.sparse.csgraph.dijkstra(matrix, indices=3, return_predecessors=True)
        _, before = spt.dijkstra(graph, True, 3, True)
        self.assertTrue(((before == -9999) == (theirs == -9999)).all())

    def test_there_and_back(self):
        graph = spt.Graph(500, samples.by_lot(500, 2000, 5))
        self.assertEqual(spt.Graph.from_scipy(graph.to_scipy()).tree(1), graph.tree(1))
        for wrong in ([[0.5]], [[-1.0]], [[1, 2]], [[2.0**32]]):
            with self.assertRaises(ValueError):
                spt.Graph.from_scipy(scipy.sparse.csr_matrix(wrong))


@unittest.skipIf(scipy is None, "SciPy isn't installed")
class Dijkstra(unittest.TestCase):
    """`spt.dijkstra` beside `scipy.sparse.csgraph.dijkstra`, called by the same words."""

    def setUp(self):
        # SciPy warns of lengths below 0, and of numpy.matrix
        caught = warnings.catch_warnings()
        caught.__enter__()
        self.addCleanup(caught.__exit__)
        warnings.simplefilter("ignore")

    def same(self, given, *words, **named):
        """Asserts that both answer the same, but for which of several predecessors, and sources that are as near."""
        wanted, found = (call(given, *words, **named) for call in (scipy.sparse.csgraph.dijkstra, spt.dijkstra))
        for theirs, ours in zip(*((it if isinstance(it, tuple) else (it,)) for it in (wanted, found))):
            self.assertEqual((ours.shape, ours.dtype), (theirs.shape, theirs.dtype), (words, named))
            same = ours == theirs if ours.dtype == numpy.float64 else (ours < 0) == (theirs < 0)
            self.assertTrue(same.all(), (given, words, named, ours, theirs))
        self.assertEqual(len(wanted) if isinstance(wanted, tuple) else 0, len(found) if isinstance(found, tuple) else 0)
        return found

    def matrix(self, n, seed):
        draw = numpy.random.default_rng(seed)
        return numpy.where(draw.random((n, n)) < 0.15, draw.integers(1, 30, (n, n)), 0)

    def test_signature(self):
        told = re.match(r"\s*dijkstra\((.*?)\)\n", scipy.sparse.csgraph.dijkstra.__doc__, re.S)[1]
        wanted = [it.split("=") for it in re.split(r",\s*", told)]
        ours = list(inspect.signature(spt.dijkstra).parameters.values())
        self.assertEqual([it.name for it in ours], [it[0] for it in wanted] + ["delta", "workers", "unit", "zero"])
        self.assertEqual({it.kind for it in ours[len(wanted) :]}, {inspect.Parameter.KEYWORD_ONLY})
        for it, (_, *default) in zip(ours, wanted):
            self.assertEqual(it.default, eval(default[0], {"np": numpy}) if default else inspect.Parameter.empty)

    def test_by_place(self):
        given = numpy.array([[0, 1, 2, 0], [0, 0, 0, 1], [2, 0, 0, 3], [0, 0, 0, 0]])
        self.same(given, True, [0, 2])
        self.same(given, False)
        self.same(given, True, [0, 2], True, False, 2, True)
        self.assertEqual(spt.dijkstra(given, True, [0, 2]).tolist(), [[0, 1, 2, 2], [2, 3, 0, 3]])
        self.assertEqual(spt.dijkstra(given, False)[3].tolist(), [2, 1, 3, 0])

    def test_matrices_and_forests_of_numpy(self):
        graph = spt.Graph(500, samples.by_lot(500, 2000, 8))
        sources, targets = [3, 4, 3, 500], numpy.arange(1, 500, 7)
        told = graph.matrix(sources, targets, workers=3)
        wanted = scipy.sparse.csgraph.dijkstra(graph.to_scipy(), indices=[it - 1 for it in sources])[:, targets - 1]
        self.assertEqual((told.dtype, told.shape), (numpy.uint64, wanted.shape))
        self.assertTrue((numpy.where(told == spt.UNREACHED, numpy.inf, told) == wanted).all())
        self.assertEqual((graph.matrix([], targets).shape, graph.matrix(sources, []).shape), ((0, len(targets)), (4, 0)))
        forest = graph.nearest(numpy.array(sources))
        nearest = scipy.sparse.csgraph.dijkstra(graph.to_scipy(), indices=[it - 1 for it in sources], min_only=True)
        self.assertTrue((forest.floats() == nearest).all())
        self.assertEqual(forest.masked().filled().tolist(), list(forest.distances))
        self.assertFalse(numpy.asarray(forest.sources).flags.writeable)

    def test_predecessors_and_sources(self):
        for seed in range(20):
            given = self.matrix(30, seed)
            distances, before, nearest = spt.dijkstra(given, indices=[2, 5, 29], return_predecessors=True, min_only=True)
            each = spt.dijkstra(given, indices=[2, 5, 29])
            self.assertTrue((distances == each.min(axis=0)).all())
            for vertex in numpy.flatnonzero(numpy.isfinite(distances)):
                tails = numpy.flatnonzero((given[:, vertex] > 0) & (distances + given[:, vertex] == distances[vertex]))
                self.assertEqual(before[vertex], min(tails) if distances[vertex] else -9999)
                self.assertEqual(each[[2, 5, 29].index(nearest[vertex]), vertex], distances[vertex])
                self.assertTrue(before[vertex] < 0 or nearest[before[vertex]] == nearest[vertex])

    def test_how_matrices_are_read(self):
        nan, inf = numpy.nan, numpy.inf
        twice = ([2, 3, 1, 4], ([0, 0, 1, 1], [1, 1, 0, 2]))
        rows = (numpy.array([2.0, 3, 1]), numpy.array([1, 1, 0]), numpy.array([0, 2, 3, 3]))
        dense = numpy.array([[0, inf, 4], [nan, 0, 1], [-inf, 2, 0]])
        given = [
            scipy.sparse.coo_matrix(twice, shape=(3, 3)),
            scipy.sparse.coo_matrix((numpy.ones(4, bool), twice[1]), shape=(3, 3)),
            scipy.sparse.csr_matrix(rows, shape=(3, 3)),
            scipy.sparse.csc_matrix(rows, shape=(3, 3)),
            scipy.sparse.csr_matrix(numpy.maximum(dense, 0)),
            dense,
            dense.tolist(),
            numpy.matrix(numpy.nan_to_num(dense, posinf=0, neginf=0)),
            numpy.ma.masked_equal(numpy.array([[9, 5, 9], [3, 9, 2], [9, 9, 9]]), 9),
            numpy.ma.masked_invalid(numpy.array([[nan, inf, 2], [3, nan, nan], [1, 1, inf]])),
            numpy.array([[0, 1, 1], [0, 0, 1], [1, 0, 0]], bool),
        ]
        for matrix in given:
            for directed in (True, False):
                self.same(matrix, directed, None, False)
                self.same(matrix, directed, [0, 1], False, True)
            graph = spt.Graph.from_scipy(matrix)
            rows = [spt.Tree.floats(tree) for tree in graph.trees(range(1, 4))]
            self.assertTrue((scipy.sparse.csgraph.dijkstra(matrix) == rows).all())
        self.assertEqual(spt.dijkstra(given[0])[0].tolist(), [0, 5, 9])
        self.assertEqual(spt.dijkstra(given[8])[0].tolist(), [0, 5, 7])

    def test_undirected(self):
        given = numpy.array([[0, 5, 0], [3, 0, 9], [0, 0, 0]])
        for matrix in (given, spt.Graph.from_scipy(given)):
            self.assertEqual(spt.dijkstra(matrix, directed=False).tolist(), [[0, 3, 12], [3, 0, 9], [12, 9, 0]])
            self.assertEqual(spt.dijkstra(matrix, directed=False, unweighted=True).tolist(), [[0, 1, 2], [1, 0, 1], [2, 1, 0]])

    def test_refusals(self):
        given = numpy.array([[0, 5], [3, 0]])
        stored = scipy.sparse.csr_matrix(([0, 3], ([0, 1], [1, 0])), shape=(2, 2))
        unmasked = numpy.ma.masked_array([[9, 0], [3, 9]], [[1, 0], [0, 1]])
        for matrix, entry in (
            (stored, "(0, 1): 0 "), (unmasked, "(0, 1): 0 "), (given * 0.5, "(0, 1): 2.5 "), (-given, "(0, 1): -5 "),
            (given * 2**32, "(0, 1): 21474836480 "),
        ):
            for call in (spt.dijkstra, spt.Graph.from_scipy):
                with self.assertRaises(ValueError) as told:
                    call(matrix)
                self.assertIn(f"entry {entry}is not a length: lengths are whole numbers from 1 to 4294967295", str(told.exception))
            self.same(matrix, unweighted=True)
        # SciPy's 0 from a vertex to itself changes nothing
        self.same(scipy.sparse.csr_matrix(([0, 3], ([0, 1], [0, 0])), shape=(2, 2)))
        for words, kind, name in (
            (dict(directed=[0]), TypeError, "directed"), (dict(directed=1), TypeError, "directed"),
            (dict(indices=[2]), ValueError, "indices"), (dict(indices=-3), ValueError, "indices"),
            (dict(indices=[0.5]), TypeError, "indices"), (dict(indices=[True, False]), TypeError, "indices"),
            (dict(limit=-1), ValueError, "limit"), (dict(limit=numpy.nan), ValueError, "limit"),
            (dict(delta=0), spt.BadDelta, "delta"), (dict(delta=0, min_only=True), spt.BadDelta, "delta"),
            (dict(workers=0), ValueError, "workers"),
        ):
            with self.assertRaisesRegex(kind, name):
                spt.dijkstra(given, **words)
        for wrong in (numpy.ones(3), numpy.ones((2, 3)), given * 1j, scipy.sparse.csr_matrix(given * 1j), given.astype(str)):
            with self.assertRaises(ValueError):
                spt.dijkstra(wrong)

    def test_too_far(self):
        n = 4201
        graph = spt.Graph(n, [(tail, tail + 1, samples.LONGEST) for tail in range(1, n)])
        farthest = spt.reach(n) // samples.LONGEST + 1
        for nearest, wanted in ((False, (1, farthest + 1)), (True, (None, farthest + 2))):
            with self.assertRaises(spt.TooFar) as told:
                spt.dijkstra(graph, indices=[0, 1], min_only=nearest)
            self.assertEqual((told.exception.source, told.exception.vertex), wanted)
            # (with a limit nothing is too far)
            for limit in (1e18, spt.reach(n)):
                distances = spt.dijkstra(graph, indices=[0, 1], min_only=nearest, limit=limit)
                row = distances if nearest else distances[1]
                self.assertEqual((row[farthest], row[farthest + 1]), ((farthest - 1) * samples.LONGEST, numpy.inf))

    def test_the_farthest(self):
        # a distance of reach(n) itself
        longest, reach = samples.LONGEST, spt.reach(4200)
        whole, rest = divmod(reach, longest)
        graph = spt.Graph(4200, [*((tail, tail + 1, longest) for tail in range(1, whole + 1)), (whole + 1, whole + 2, rest)])
        distances, before, nearest = spt.dijkstra(graph, indices=[0, 4199], return_predecessors=True, min_only=True)
        self.assertEqual((int(distances[whole + 1]), before[whole + 1], nearest[whole + 1]), (reach, whole, 0))
        self.assertEqual((distances[4199], before[4199], nearest[4199], nearest[4190]), (0, -9999, 4199, -9999))


@unittest.skipIf(networkx is None, "NetworkX isn't installed")
class NetworkX(unittest.TestCase):
    def test_distances(self):
        theirs = networkx.MultiDiGraph()
        theirs.add_nodes_from(range(N, 0, -1))
        theirs.add_weighted_edges_from(samples.triples(samples.by_lot(N, M, 6)))
        graph = spt.Graph.from_networkx(theirs)
        self.assertEqual((graph.names, graph.m), (tuple(range(N, 0, -1)), M))
        for tree in graph.trees(SOURCES, workers=2):
            wanted = networkx.single_source_dijkstra_path_length(theirs, tree.source)
            found = {node: distance for node, distance in zip(graph.names, tree.distances) if distance != spt.UNREACHED}
            self.assertEqual(found, wanted)

    def test_undirected_and_names(self):
        theirs = networkx.Graph()
        theirs.add_edge("north", "east", metres=3)
        theirs.add_edge("east", "south", metres=4.0)
        theirs.add_edge("south", "south", metres=1)
        graph = spt.Graph.from_networkx(theirs, weight="metres")
        self.assertEqual((graph.n, graph.m), (3, 5))
        self.assertEqual(graph.path("south", "north"), ["south", "east", "north"])
        self.assertEqual(set(spt.Graph.from_networkx(theirs, weight=None).arcs.tolist()[2::3]), {1})
        for wrong in (0.5, 0, -1, 2**32, float("nan"), float("inf"), "3", "three", 1j, [1]):
            theirs.add_edge("north", "south", metres=wrong)
            with self.assertRaises(ValueError) as told:
                spt.Graph.from_networkx(theirs, weight="metres")
            self.assertIn(f"edge ('north', 'south'): {wrong!r} is not a length", str(told.exception))

    def test_missing_weights(self):
        for kind in (networkx.Graph, networkx.DiGraph, networkx.MultiGraph, networkx.MultiDiGraph):
            for given in ({}, {"metres": None}, {"weight": 3}):
                theirs = kind()
                theirs.add_edge("north", "east", metres=3)
                theirs.add_edge("east", "south", **given)
                with self.assertRaises(ValueError) as told:
                    spt.Graph.from_networkx(theirs, weight="metres")
                self.assertIn("edge ('east', 'south') has no 'metres'", str(told.exception))
        with self.assertRaisesRegex(ValueError, "has no 'weight'"):
            spt.Graph.from_networkx(networkx.path_graph(3))

    def test_forms_of_the_docs(self):
        # each function of the docstring that the page names, for graphs and then for multigraphs
        self.assertIn("`help(spt.Graph.from_networkx)` has a function that reads it as 1", samples.read("docs/PYTHON.md"))
        forms = re.findall("`(lambda tail, head, data: [^`]*)`", " ".join(spt.Graph.from_networkx.__doc__.split()))
        self.assertEqual(len(forms), 2)
        for form, kinds in zip(forms, (["Graph", "DiGraph"], ["MultiGraph", "MultiDiGraph"])):
            for kind in kinds:
                theirs = getattr(networkx, kind)()
                theirs.add_weighted_edges_from([("a", "b", 9), ("b", "c", 5), ("a", "c", 15)])
                theirs.add_edge("c", "d")
                if theirs.is_multigraph():
                    theirs.add_edge("a", "b", weight=7)
                graph = spt.Graph.from_networkx(theirs, eval(form))
                tree = graph.tree("a")
                found = {node: tree.pair(node).distance for node in graph.names}
                self.assertEqual(found, networkx.single_source_dijkstra_path_length(theirs, "a"))
                self.assertEqual(found["d"], 13 if theirs.is_multigraph() else 15)

    def test_answers_that_are_no_numbers(self):
        for kind in (networkx.Graph, networkx.DiGraph, networkx.MultiGraph, networkx.MultiDiGraph):
            theirs = kind()
            theirs.add_edge("north", "south", weight=3)
            for wrong in ("3", "fast", b"3", [3], (3,), {"weight": 3}, 1j, float("nan"), float("inf"), -1, 0, 2**32, 0.5, lambda: 3):
                with self.assertRaises(ValueError) as told:
                    spt.Graph.from_networkx(theirs, lambda tail, head, data: wrong)
                self.assertIn(f"edge ('north', 'south'): {wrong!r} is not a length", str(told.exception))
            if numpy:
                for wrong in (numpy.array([3, 3]), numpy.array([[3]]), numpy.float64(0.5)):
                    with self.assertRaisesRegex(ValueError, r"^edge \('north', 'south'\): .* is not a length"):
                        spt.Graph.from_networkx(theirs, lambda tail, head, data: wrong)
                graph = spt.Graph.from_networkx(theirs, lambda tail, head, data: numpy.float32(3))
                self.assertEqual(graph.arcs[2], 3)

    def test_functions(self):
        # of the ends and the attributes, some edges left out, beside NetworkX's own Dijkstra
        kinds = (networkx.Graph, networkx.DiGraph, networkx.MultiGraph, networkx.MultiDiGraph)

        def by_ends(tail, head, data):
            return 1 + (3 * tail + 5 * head) % 17

        def by_data(tail, head, data):
            many = list(data.values()) if data and isinstance(next(iter(data.values())), dict) else [data]
            length = min(it["weight"] for it in many) + (tail > head)
            return None if length % 7 == 0 else length

        draw = random.Random(1)
        for _, kind in itertools.product(range(50), kinds):
            theirs = kind()
            theirs.add_nodes_from(range(draw.randint(1, 30)))
            ends = lambda: draw.randrange(len(theirs))  # noqa: E731
            theirs.add_weighted_edges_from([(ends(), ends(), draw.randint(1, 20)) for _ in range(3 * len(theirs))])
            for weight in (by_ends, by_data, "weight", None):
                graph = spt.Graph.from_networkx(theirs, weight)
                source = draw.choice(graph.names)
                tree = graph.tree(source)
                wanted = networkx.single_source_dijkstra_path_length(theirs, source, weight=weight)
                found = {node: told.distance for node in graph.names if (told := tree.pair(node))}
                self.assertEqual(found, wanted)


if __name__ == "__main__":
    unittest.main()
