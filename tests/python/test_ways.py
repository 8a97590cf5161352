"""Graphs whose arcs are turned round or lead both ways, and answers towards a source, beside plain lists of arcs."""

import array
import copy
import io
import pickle
import random
import sys
import threading
import types
import unittest

from unittest import mock

import samples
import spt

from samples import numpy, pandas, scipy

FAR = spt.UNREACHED
# the example of the specification
EXAMPLE = [(1, 2, 3), (1, 3, 3), (2, 4, 2), (3, 4, 2), (1, 4, 6)]
TOWN = {"from": ["Depot", "Mill", "Depot", "Quay"], "to": ["Mill", "Quay", "Quay", "Depot"], "minutes": [2.5, 4, 7.25, 1]}
# the last vertex leads to the first over more than the greatest distance
PATH = 4201


def turned(arcs):
    return [(head, tail, length) for tail, head, length in arcs]


def drawn(seed):
    """The number of vertices and the arcs of a graph with loops and parallel arcs."""
    draw = random.Random(seed)
    n = draw.choice((1, 2, 5, 30, 200))
    arcs = samples.triples(samples.by_lot(n, draw.choice((0, 3, *[3 * n] * 4)), seed, draw.choice((2, 1000, samples.LONGEST))))
    arcs += [(tail, tail, length) for tail, _, length in arcs[::5]] + [(tail, head, length % 7 + 1) for tail, head, length in arcs[::4]]
    return n, arcs


def lists(told):
    return [list(told.distances), list(told.predecessors)]


def by_definition(n, arcs, source):
    """The distances and the predecessors of a tree, from plain lists."""
    distances = samples.distances_from(arcs, n, source)
    return [distances, samples.smallest_predecessors(arcs, source, distances)]


def town(**named):
    return spt.Graph.from_frame(TOWN, "from", "to", "minutes", unit=0.25, **named)


def twins(it):
    return [copy.copy(it), copy.deepcopy(it), *(pickle.loads(pickle.dumps(it, protocol)) for protocol in range(pickle.HIGHEST_PROTOCOL + 1))]


def triples(graph):
    return samples.triples(graph.arcs.tolist())


class Examples(unittest.TestCase):
    """The worked examples of the specification that are of directions."""

    def test_example_2(self):
        tree = spt.Graph(4, EXAMPLE).tree(4, towards=True)
        self.assertEqual((tree.source, lists(tree)), (4, [[5, 2, 2, 0], [2, 4, 4, 0]]))
        tree = spt.Graph(4, EXAMPLE, both_ways=True).tree(2)
        self.assertEqual((tree.source, lists(tree)), (2, [[3, 0, 4, 2], [2, 0, 4, 2]]))

    def test_example_5(self):
        graph = spt.Graph(4, EXAMPLE)
        self.assertIsNone(graph.check(graph.tree(4, towards=True)))
        ways = [[FAR, FAR, FAR, 0], [0, 0, 0, 0]]
        self.assertEqual(lists(graph.tree(4)), ways)
        as_it_is = spt.Tree(4, *(array.array(format, it) for format, it in zip("QI", ways)), towards=True)
        self.assertEqual(graph.check(as_it_is), 1)
        self.assertEqual(graph.turned().check(graph.tree(4)), 1)


class Turned(unittest.TestCase):
    def test_by_lot(self):
        for seed in range(40):
            n, arcs = drawn(seed)
            graph = spt.Graph(n, arcs)
            for made, wanted in ((graph.turned(), turned(arcs)), (spt.Graph(n, arcs, both_ways=True), arcs + turned(arcs))):
                self.assertEqual((made.n, made.m), (n, len(wanted)))
                for source in {1, n, (n + 1) // 2}:
                    self.assertEqual(lists(made.tree(source)), by_definition(n, wanted, source), seed)
                self.assertEqual(triples(made), sorted(wanted), seed)
                for twin in twins(made):
                    self.assertEqual((triples(twin), twin.tree(1)), (sorted(wanted), made.tree(1)))
            self.assertEqual(triples(graph), arcs)
            self.assertEqual(triples(graph.turned().turned()), sorted(arcs))

    def test_terms(self):
        back = town().turned()
        self.assertEqual((back.names, back.unit, back.path("Quay", "Depot")), (("Depot", "Mill", "Quay"), 0.25, ["Quay", "Mill", "Depot"]))
        self.assertEqual(repr(back), "Graph of 3 vertices and 4 arcs")
        # a turned graph is asked as any other is
        self.assertEqual((back.tree("Quay").towards, repr(back.tree("Quay")).split(":")[0]), (False, "Tree from Quay over 3 vertices"))

    def test_it_outlives_the_graph(self):
        graph = spt.Graph(4, EXAMPLE)
        back = graph.turned()
        del graph
        self.assertEqual(back.path(4, 1), [4, 2, 1])

    def test_made_once(self):
        library = spt._library.library
        made = mock.Mock(wraps=library.spt_graph_turned)
        names = ("share", "free", "trees", "new", "pair", "part", "nearest", "matrix", "save", "route", "routes")
        calls = {f"spt_graph_{name}": getattr(library, f"spt_graph_{name}") for name in names}
        with mock.patch.object(spt._kept, "library", types.SimpleNamespace(**calls, spt_graph_turned=made)):
            graph = spt.Graph(4, EXAMPLE)
            twin = copy.copy(graph)
            self.assertEqual(made.call_count, 0)
            graph.tree(4, towards=True)
            list(twin.trees([4, 3], towards=True, workers=2))
            graph.nearest([4], towards=True)
            graph.matrix([4], [1], towards=True)
            graph.pair(4, 1, towards=True)
            graph.routes([(4, 1), (4, 2), (3, 1)], towards=True)
            graph.turned().path(4, 1)
            twin.turned()
            self.assertEqual(made.call_count, 1)
            # what is pickled is the graph alone
            again = pickle.loads(pickle.dumps(graph))
            self.assertEqual(len(pickle.dumps(graph)), len(pickle.dumps(spt.Graph(4, EXAMPLE))))
            again.turned()
            self.assertEqual(made.call_count, 2)

    def test_threads(self):
        n, arcs = 3000, samples.by_lot(3000, 12_000, 8)
        graph, found = spt.Graph(n, arcs), []
        begin = threading.Barrier(6)

        def ask():
            begin.wait()
            found.append(graph.tree(5, towards=True))

        threads = [threading.Thread(target=ask) for _ in range(6)]
        with mock.patch.object(spt._kept.Kept, "_made", autospec=True, side_effect=spt._kept.Kept._made) as made:
            for thread in threads:
                thread.start()
            for thread in threads:
                thread.join()
        self.assertEqual(made.call_count, 1)
        wanted = by_definition(n, turned(samples.triples(arcs)), 5)
        self.assertEqual([lists(it) for it in found], [wanted] * 6)


class Towards(unittest.TestCase):
    def test_beside_turned(self):
        for seed in range(30):
            n, arcs = drawn(seed)
            graph, back = spt.Graph(n, arcs), spt.Graph(n, turned(arcs))
            draw = random.Random(seed)
            sources, targets = [draw.randint(1, n) for _ in range(3)], [draw.randint(1, n) for _ in range(4)]
            for within in (None, 0, 500, spt.reach(n)):
                wanted = [back.tree(source, within=within) for source in sources]
                for told in ([graph.tree(it, within=within, towards=True) for it in sources], list(graph.trees(sources, within=within, workers=2, towards=True))):
                    self.assertEqual([lists(it) for it in told], [lists(it) for it in wanted], seed)
                    for tree, other in zip(told, wanted):
                        for target in targets:
                            path = other.path(target)
                            self.assertEqual(tree.path(target), path and path[::-1])
                            self.assertEqual(tree.pair(target), other.pair(target))
                forest, other = graph.nearest(sources, within=within, towards=True), back.nearest(sources, within=within)
                self.assertEqual([*lists(forest), list(forest.sources)], [*lists(other), list(other.sources)])
                for target in targets:
                    path = other.path(target)
                    self.assertEqual((forest.path(target), forest.source(target)), (path and path[::-1], other.source(target)))
                self.assertEqual(forest.pair(targets[0]), other.pair(targets[0]))
            for workers in (1, 3):
                told = graph.matrix(sources, targets, workers=workers, towards=True)
                self.assertEqual(told.tolist(), back.matrix(sources, targets).tolist())
                self.assertEqual(told.tolist(), [list(it) for it in zip(*graph.matrix(targets, sources).tolist())])
            for source in sources:
                for target in targets:
                    self.assertEqual(graph.pair(source, target, towards=True), back.pair(source, target))
                    self.assertIsNone(graph.check(graph.tree(source, towards=True)))

    def test_paths(self):
        # (they are in the order of travel)
        for seed, longest in ((4, 1000), (5, 2)):
            numbers = samples.by_lot(120, 300, seed, longest)
            graph, back = spt.Graph(120, numbers), spt.Graph(120, turned(samples.triples(numbers)))
            wanted = [back.path(60, target) for target in range(1, 121)]
            self.assertEqual([graph.path(60, target, towards=True) for target in range(1, 121)], [it and it[::-1] for it in wanted])
        graph = spt.Graph(4, EXAMPLE)
        self.assertEqual((graph.path(4, 1, towards=True), graph.path(1, 4, towards=True), graph.path(4, 4, towards=True)), ([1, 2, 4], None, [4]))
        self.assertEqual((graph.tree(4, towards=True).path(1), graph.tree(1).path(4)), ([1, 2, 4],) * 2)

    def test_large_parts(self):
        # of which the library writes all vertices, and lists none
        graph = spt.Graph(500, [(tail, tail + 1, 2) for tail in range(1, 500)])
        for within in (700, None):
            tree = graph.tree(500, within=within, towards=True)
            self.assertEqual((tree.towards, tree.path(498), tree.pair(160)), (True, [498, 499, 500], (680, 161)))
            self.assertEqual(tree.path(140), None if within else list(range(140, 501)))

    def test_names(self):
        graph = town()
        tree = graph.tree("Quay", towards=True)
        self.assertEqual((tree.source, tree.path("Depot"), tree.pair("Depot")), ("Quay", ["Depot", "Mill", "Quay"], (26, "Mill")))
        self.assertEqual(graph.path("Quay", "Depot", towards=True), ["Depot", "Mill", "Quay"])
        self.assertEqual(graph.pair("Quay", "Depot", towards=True).next, "Mill")
        self.assertIsNone(graph.tree("Quay", within=1, towards=True).pair("Depot"))
        forest = graph.nearest(["Mill", "Quay"], towards=True)
        self.assertEqual((forest.source("Depot"), forest.path("Depot")), ("Mill", ["Depot", "Mill"]))

    def test_what_is_shown(self):
        graph = spt.Graph(4, EXAMPLE)
        tree = graph.tree(4, towards=True)
        self.assertEqual(repr(tree), "Tree towards 4 over 4 vertices: distances 5, 2, 2, 0; next 2, 4, 4, 0")
        self.assertEqual(repr(graph.tree(4, within=2, towards=True)), "Tree towards 4 over 4 vertices: distances unreached, 2, 2, 0; next 0, 4, 4, 0")
        forest = graph.nearest([2, 4], towards=True)
        self.assertEqual(repr(forest), "Forest towards its sources over 4 vertices: distances 3, 0, 2, 0; next 2, 0, 4, 0; to 2, 2, 4, 4")
        matrix = graph.matrix([4], [1, 2], towards=True)
        self.assertEqual(repr(matrix), "Matrix of 1 sources and 2 targets, towards the sources")
        for pair in (tree.pair(1), graph.pair(4, 1, towards=True), *twins(tree.pair(1))):
            self.assertEqual((repr(pair), pair, pair.next, pair.predecessor), ("Pair(distance=5, next=2)", spt.Pair(5, 2), 2, 2))
        self.assertEqual(repr(graph.pair(1, 4)), "Pair(distance=5, predecessor=2)")
        self.assertEqual((tree.towards, forest.towards, matrix.towards), (True, True, True))
        self.assertEqual((graph.tree(1).towards, graph.nearest([1]).towards, graph.matrix([1], [1]).towards), (False, False, False))

    @unittest.skipIf(pandas is None, "pandas isn't installed")
    def test_frames(self):
        graph = town()
        frame = graph.tree("Quay", towards=True).frame()
        self.assertEqual((list(frame.columns), frame["next"].tolist(), frame["distance"].tolist()), (["distance", "next"], ["Mill", "Quay", None], [6.5, 4, 0]))
        frame = graph.nearest(["Mill", "Quay"], towards=True).frame()
        self.assertEqual((list(frame.columns), frame["to"].tolist()), (["distance", "next", "to"], ["Mill", "Mill", "Quay"]))
        frame = graph.matrix(["Quay"], ["Depot", "Mill"], towards=True).frame()
        self.assertEqual((frame.index.name, frame.columns.name, frame.values.tolist()), ("to", "from", [[6.5, 4]]))
        self.assertEqual(list(graph.nearest(["Mill"]).frame().columns), ["distance", "predecessor", "source"])

    def test_equal_and_copied(self):
        # of a graph whose arcs lead both ways the lists are the same, and the trees aren't
        graph = spt.Graph(4, EXAMPLE, both_ways=True)
        one, other = graph.tree(2), graph.tree(2, towards=True)
        self.assertEqual((lists(one), one == other), (lists(other), False))
        self.assertNotEqual(graph.nearest([2]), graph.nearest([2], towards=True))
        for it in (other, graph.tree(2, within=3, towards=True), graph.nearest([2, 4], towards=True)):
            for twin in twins(it):
                self.assertEqual((twin, hash(twin), repr(twin), twin.path(1)), (it, hash(it), repr(it), it.path(1)))
        matrix = graph.matrix([1], [2, 3], towards=True)
        for twin in (pickle.loads(pickle.dumps(matrix)), copy.deepcopy(matrix)):
            self.assertEqual((twin.towards, twin.tolist()), (True, matrix.tolist()))
        # as those of earlier versions were pickled
        self.assertEqual(spt.Tree._again(2, bytes(one.distances), bytes(one.predecessors), one._terms), one)

    def test_check(self):
        graph = spt.Graph(4, EXAMPLE)
        right = graph.tree(4, towards=True)
        self.assertEqual((graph.check(right), graph.turned().check(right)), (None, 1))
        self.assertEqual(graph.check(spt.Tree(4, right.distances, right.predecessors)), 1)
        for place in range(4):
            distances, predecessors = array.array("Q", right.distances), array.array("I", right.predecessors)
            predecessors[place] += 1
            self.assertEqual(graph.check(spt.Tree(4, right.distances, predecessors, towards=True)), place + 1)
            distances[place] += 1
            self.assertEqual(graph.check(spt.Tree(4, distances, right.predecessors, towards=True)), place + 1)
        self.assertEqual(town().check(spt.Tree("Quay", array.array("Q", [26, 16, 1]), array.array("I", [2, 3, 0]), town()._terms, True)), "Quay")
        # by the numbers alone, whatever the library has
        with mock.patch.object(spt._graph, "HAS_PACKED", False):
            self.assertIsNone(graph.check(right))

    def test_too_far(self):
        graph = spt.Graph(PATH, [(tail, tail + 1, samples.LONGEST) for tail in range(1, PATH)])
        vertex = PATH - spt.reach(PATH) // samples.LONGEST - 1
        calls = [lambda: graph.tree(PATH, towards=True), lambda: next(graph.trees([PATH], towards=True)), lambda: graph.pair(PATH, 1, towards=True)]
        far = graph.tree(PATH)
        calls.append(lambda: graph.check(spt.Tree(PATH, far.distances, far.predecessors, towards=True)))
        calls.append(lambda: graph.path(PATH, 1, towards=True))
        for call in calls:
            with self.assertRaises(spt.TooFar) as told:
                call()
            self.assertEqual((told.exception.source, str(told.exception).split(",")[0]), (PATH, f"towards {PATH}"))
            self.assertLessEqual(told.exception.vertex, vertex)
        with self.assertRaisesRegex(spt.TooFar, "towards the nearest source, vertex"):
            graph.nearest([PATH], towards=True)
        self.assertEqual(graph.matrix([PATH], [1, PATH - 1], towards=True).tolist(), [[spt.BEYOND, samples.LONGEST]])

    def test_refused(self):
        graph = spt.Graph(4, EXAMPLE)
        for wrong in (1, 0, None, "Depot", [True]):
            for call in (
                lambda: graph.tree(1, towards=wrong), lambda: graph.trees([1], towards=wrong), lambda: graph.nearest([1], towards=wrong),
                lambda: graph.matrix([1], [1], towards=wrong), lambda: graph.pair(1, 4, towards=wrong), lambda: graph.path(1, 4, towards=wrong),
                lambda: graph.route(1, 4, towards=wrong), lambda: graph.routes([(1, 4)], towards=wrong),
            ):
                with self.assertRaisesRegex(TypeError, r"^towards must be True or False, not"):
                    call()
        for call in (lambda: graph.tree(5, towards=True), lambda: graph.pair(1, 5, towards=True), lambda: graph.path(0, 1, towards=True)):
            with self.assertRaises(spt.NoSuchVertex):
                call()
        # nothing was turned for these
        self.assertIsNone(graph._kept._turned)


class BothWays(unittest.TestCase):
    def test_forms(self):
        wanted = sorted(EXAMPLE + turned(EXAMPLE))
        text = "p sp 4 5\n" + "".join(f"a {tail} {head} {length}\n" for tail, head, length in EXAMPLE)
        file = io.BytesIO()
        spt.Graph(4, EXAMPLE).save(file)
        flat = array.array("I", sum(EXAMPLE, ()))
        for graph in (
            spt.Graph(4, EXAMPLE, both_ways=True), spt.Graph(4, flat, both_ways=True), spt.Graph(4, iter(EXAMPLE), both_ways=True),
            spt.Graph.read(io.BytesIO(text.encode()), both_ways=True), spt.Graph.read(io.BytesIO(file.getvalue()), both_ways=True),
            spt.Graph.load(io.BytesIO(file.getvalue()), both_ways=True),
        ):
            self.assertEqual((graph.n, graph.m, triples(graph)), (4, 10, wanted))
        self.assertEqual(spt.Graph(3, both_ways=True).m, 0)
        halves = spt.Graph(2, [(1, 2, 0.5)], unit=0.25, both_ways=True)
        self.assertEqual((halves.pair(2, 1), halves.unit), ((2, 2), 0.25))
        with self.assertRaises(spt.BadArc) as told:
            spt.Graph(4, [(1, 2, 3), (1, 5, 3)], both_ways=True)
        self.assertEqual((told.exception.index, told.exception.arc), (1, (1, 5, 3)))

    def test_frames(self):
        graph = town(both_ways=True)
        self.assertEqual((graph.m, graph.path("Mill", "Depot"), graph.names), (8, ["Mill", "Depot"], ("Depot", "Mill", "Quay")))
        numbers = [(1, 2, 10), (2, 3, 16), (1, 3, 29), (3, 1, 4)]
        self.assertEqual(triples(graph), sorted(numbers + turned(numbers)))
        self.assertEqual(triples(town(both_ways=False)), numbers)

    def frames(self, column, **more):
        """The graphs of a mapping and, if pandas is there, of a frame with a column of what leads both ways."""
        for given in (column, *((numpy.array(column),) if numpy else ())):
            yield spt.Graph.from_frame({**TOWN, "both": given, **more}, "from", "to", "minutes", unit=0.25, both_ways="both")
        if pandas is not None:
            yield spt.Graph.from_frame(pandas.DataFrame({**TOWN, "both": column}), "from", "to", "minutes", unit=0.25, both_ways="both")

    def test_columns(self):
        numbers = [(1, 2, 10), (2, 3, 16), (1, 3, 29), (3, 1, 4)]
        for column in ([True, False, False, True], [1, 0, 0, 1], [1.0, 0.0, 0.0, 1.0], [True, 0, False, 1]):
            for graph in self.frames(column):
                self.assertEqual(triples(graph), [*numbers, (2, 1, 10), (1, 3, 4)])
                self.assertIsNone(graph.check(graph.tree("Mill")))
        for column, back in (([False] * 4, []), ([True] * 4, turned(numbers))):
            for graph in self.frames(column):
                self.assertEqual(triples(graph), numbers + back)
        # by any name that isn't True or False
        for name in (7, ("a", 1), "both ways"):
            graph = spt.Graph.from_frame({**TOWN, name: [0, 1, 0, 0]}, "from", "to", "minutes", unit=0.25, both_ways=name)
            self.assertEqual(triples(graph)[4:], [(3, 2, 16)])
        with mock.patch.dict(sys.modules, {"numpy": None}):
            graph = spt.Graph.from_frame({**TOWN, "both": [0, 1, 0, 0]}, "from", "to", "minutes", unit=0.25, both_ways="both")
            self.assertEqual(triples(graph)[4:], [(3, 2, 16)])

    def test_columns_that_are_refused(self):
        for wrong in ("yes", "1", "True", 2, -1, 0.5, None, float("nan"), [1], b"1"):
            with self.assertRaises(ValueError) as told:
                spt.Graph.from_frame({**TOWN, "both": [1, 0, wrong, "no"]}, "from", "to", "minutes", unit=0.25, both_ways="both")
            self.assertEqual(str(told.exception), f"arc 2 (row 3): {wrong!r} in column 'both' is not True or False, 1 or 0")
        with self.assertRaisesRegex(ValueError, r"^columns of 4, 4, 4 and 3 rows: they must have the same number$"):
            spt.Graph.from_frame({**TOWN, "both": [1, 0, 1]}, "from", "to", "minutes", unit=0.25, both_ways="both")
        with self.assertRaisesRegex(KeyError, "there is no column 'both'"):
            town(both_ways="both")
        if pandas is not None:
            frame = pandas.DataFrame({**TOWN, "both": pandas.array([True, False, None, True], "boolean")})
            with self.assertRaisesRegex(ValueError, r"^arc 2 \(row 3\): <NA> in column 'both' is not True"):
                spt.Graph.from_frame(frame, "from", "to", "minutes", unit=0.25, both_ways="both")

    @unittest.skipIf(scipy is None, "SciPy isn't installed")
    def test_scipy(self):
        draw = numpy.random.default_rng(3)
        dense = numpy.where(draw.random((30, 30)) < 0.1, draw.integers(1, 9, (30, 30)), 0)
        graph = spt.Graph.from_scipy(dense, both_ways=True)
        wanted = scipy.sparse.csgraph.dijkstra(dense, directed=False)
        self.assertTrue((spt.dijkstra(graph) == wanted).all())
        self.assertEqual(graph.m, 2 * spt.Graph.from_scipy(dense).m)
        self.assertEqual(spt.Graph.from_scipy(scipy.sparse.csr_matrix(dense), both_ways=numpy.True_).m, graph.m)

    def test_refused(self):
        for wrong in (1, "both", None):
            for call in (
                lambda: spt.Graph(2, [(1, 2, 3)], both_ways=wrong), lambda: spt.Graph.read(io.BytesIO(b""), both_ways=wrong),
                lambda: spt.Graph.load(io.BytesIO(b""), both_ways=wrong),
            ):
                with self.assertRaisesRegex(TypeError, r"^both_ways must be True or False, not"):
                    call()
        wrongs = [None, ["both"], {"both"}] + ([numpy.array([True, False])] if numpy else [])
        for wrong in wrongs + ([pandas.Series([True])] if pandas is not None else []):
            with self.assertRaisesRegex(TypeError, "^both_ways must be True, False or the name of a column$"):
                town(both_ways=wrong)
        if numpy is not None:
            self.assertEqual((town(both_ways=numpy.True_).m, town(both_ways=numpy.False_).m), (8, 4))
            with self.assertRaisesRegex(TypeError, r"^both_ways must be True or False, not"):
                spt.Graph.from_scipy([[0, 1], [1, 0]], both_ways="both")


if __name__ == "__main__":
    unittest.main()
