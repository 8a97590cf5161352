"""What lies within a distance, the nearest of several sources, and matrices, with nothing else installed."""

import array
import copy
import pickle
import sys
import types
import unittest

from unittest import mock

import samples
import spt

FAR = spt.UNREACHED
# the last vertex alone is beyond the greatest distance
PATH = 4098
WITHIN = (PATH - 2) * samples.LONGEST


def path(last=samples.LONGEST):
    """Arcs of the greatest length from each vertex to the next, but for the last of them."""
    return spt.Graph(PATH, [*((tail, tail + 1, samples.LONGEST) for tail in range(1, PATH - 1)), (PATH - 1, PATH, last)])


def part(tree, limit):
    """The distances and predecessors of a tree up to a limit."""
    pairs = [(d, p) if d <= limit else (FAR, 0) for d, p in zip(tree.distances, tree.predecessors)]
    return [list(column) for column in zip(*pairs)]


def lists(told):
    return [list(told.distances), list(told.predecessors)]


def forest(arcs, trees, sources):
    """The forest of sources by its definition, from their trees."""
    n = len(trees[0].distances)
    distances = [min(tree.distances[at] for tree in trees) for at in range(n)]
    before, roots = [0] * n, [0] * n
    for tail, head, length in arcs:
        tight = distances[tail - 1] != FAR and distances[tail - 1] + length == distances[head - 1]
        if tight and (before[head - 1] == 0 or tail < before[head - 1]):
            before[head - 1] = tail
    for vertex in range(1, n + 1):
        at = vertex
        while before[at - 1]:
            at = before[at - 1]
        roots[vertex - 1] = at if distances[vertex - 1] != FAR else 0
    assert all(before[source - 1] == 0 for source in sources)
    return [distances, before, roots]


class Near(unittest.TestCase):
    def setUp(self):
        self.graph = spt.Graph(4, samples.DIAMOND)

    def told(self, sources, **named):
        found = self.graph.nearest(sources, **named)
        return [*lists(found), list(found.sources)]

    def test_parts(self):
        for limit, wanted in (
            (0, [[0, FAR, FAR, FAR], [0, 0, 0, 0]]), (2, [[0, FAR, FAR, FAR], [0, 0, 0, 0]]), (3, [[0, 3, 3, FAR], [0, 1, 1, 0]]),
            (4, [[0, 3, 3, FAR], [0, 1, 1, 0]]), (5, [[0, 3, 3, 5], [0, 1, 1, 2]]), (spt.reach(4), [[0, 3, 3, 5], [0, 1, 1, 2]]),
        ):
            for delta in (None, 1, 5, spt.reach(4)):
                self.assertEqual(lists(self.graph.tree(1, within=limit, delta=delta)), wanted)
        self.assertIsNone(self.graph.tree(1, within=4).path(4))
        self.assertEqual(self.graph.tree(1, within=5), self.graph.tree(1))

    def test_listed_parts(self):
        # a small part is told like a tree that is given by its lists, whichever of its faces is asked for first
        graph = spt.Graph(300, samples.by_lot(300, 900, 1))
        for source, limit in ((1, 0), (7, 100), (7, 400), (300, 900), (300, spt.reach(300))):
            columns = zip("QI", part(graph.tree(source), limit))
            wanted = spt.Tree(source, *(array.array(format, column) for format, column in columns), graph.tree(1)._terms)
            told = lambda: graph.tree(source, within=limit)  # noqa: E731
            for target in (source, *range(1, 301, 17)):
                self.assertEqual((told().pair(target), told().path(target)), (wanted.pair(target), wanted.path(target)))
            self.assertEqual(lists(told()), lists(wanted))
            self.assertEqual((repr(told()), hash(told())), (repr(wanted), hash(wanted)))
            for twin in (told(), copy.copy(told()), copy.deepcopy(told()), *(pickle.loads(pickle.dumps(told(), it)) for it in range(2, 6))):
                self.assertEqual(twin, wanted)
            self.assertEqual(graph.check(told()) is None, told() == graph.tree(source))
            self.assertEqual(list(graph.trees([source] * 3, within=limit, workers=2)), [wanted] * 3)
            with self.assertRaises(AttributeError):
                told().nothing

    def test_forests(self):
        wanted = [[0, 3, 0, 2], [0, 1, 0, 3], [1, 1, 3, 3]]
        for sources in ([1, 3], [3, 1, 3], iter((3, 1))):
            self.assertEqual(self.told(sources), wanted)
        self.assertEqual(self.told([1, 3], within=3), wanted)
        self.assertEqual(self.told([1, 3], within=2), [[0, FAR, 0, 2], [0, 0, 0, 3], [1, 0, 3, 3]])
        self.assertEqual(self.told([]), [[FAR] * 4, [0] * 4, [0] * 4])
        self.assertEqual(self.told([], within=7), [[FAR] * 4, [0] * 4, [0] * 4])
        self.assertEqual(self.told([2, 3]), [[FAR, 0, 0, 2], [0, 0, 0, 2], [0, 2, 3, 2]])
        self.graph = spt.Graph(3, [(3, 1, 5), (2, 1, 5)])
        self.assertEqual(self.told([3, 2]), [[5, 0, 0], [2, 0, 0], [2, 2, 3]])
        self.graph = spt.Graph(2, [(1, 2, 1)])
        self.assertEqual(self.told([1, 2]), [[0, 0], [0, 0], [1, 2]])

    def test_what_a_forest_tells(self):
        found = self.graph.nearest([3, 2])
        self.assertEqual([found.source(vertex) for vertex in range(1, 5)], [None, 2, 3, 2])
        self.assertEqual([found.path(vertex) for vertex in range(1, 5)], [None, [2], [3], [2, 4]])
        self.assertEqual([found.pair(1), found.pair(4)], [None, spt.Pair(2, 2)])
        for call in (found.source, found.path, found.pair):
            for vertex in (0, 5):
                with self.assertRaises(spt.NoSuchVertex):
                    call(vertex)
        for numbers in (found.distances, found.predecessors, found.sources):
            self.assertTrue(numbers.readonly)
        self.assertNotEqual(found, self.graph.nearest([2]))
        self.assertNotEqual(found, self.graph.tree(2))
        twins = [pickle.loads(pickle.dumps(found, protocol)) for protocol in range(pickle.HIGHEST_PROTOCOL + 1)]
        for twin in [*twins, copy.copy(found), copy.deepcopy(found), self.graph.nearest([2, 3, 2])]:
            self.assertEqual((twin, hash(twin), repr(twin)), (found, hash(found), repr(found)))

    def test_matrices(self):
        for without in (False, True):
            with mock.patch.dict(sys.modules, {"numpy": None} if without else {}):
                for workers in (1, 2, 7):
                    told = self.graph.matrix([1, 4], [4, 1, 4], workers=workers)
                    self.assertEqual(told.tolist(), [[5, 0, 5], [0, FAR, 0]])
                    self.assertEqual((told.shape, len(told), repr(told)), ((2, 3), 2, "Matrix of 2 sources and 3 targets"))
                    self.assertEqual((told.sources, told.targets, told[0, 2], told[1, 0]), ((1, 4), (4, 1, 4), 5, 0))
                for sources, targets in (([], [1]), ([1, 2], []), ([], [])):
                    self.assertEqual(self.graph.matrix(sources, targets, workers=2).nbytes, 0)

    def test_by_lot(self):
        for seed in range(40):
            n, longest = 5 + 3 * seed, (1000, 3)[seed % 2]
            numbers = samples.by_lot(n, 2 * n + seed, seed, longest)
            arcs, graph = samples.triples(numbers), spt.Graph(n, numbers)
            sources = [1 + 7 * at % n for at in range(1 + seed % 5)]
            trees = list(graph.trees(sources))
            for limit in (0, longest // 2, 2 * longest, spt.reach(n)):
                for workers in (1, 3):
                    parts = graph.trees(sources, within=limit, workers=workers)
                    self.assertEqual([lists(it) for it in parts], [part(tree, limit) for tree in trees])
            wanted = forest(arcs, trees, sources)
            found = graph.nearest(sources)
            self.assertEqual([*lists(found), list(found.sources)], wanted)
            for limit in (0, longest // 2, 2 * longest):
                within = graph.nearest(sources, within=limit)
                rows = [row if row[0] <= limit else (FAR, 0, 0) for row in zip(*wanted)]
                self.assertEqual(list(zip(*lists(within), within.sources)), rows)
            targets = [1 + 5 * at % n for at in range(4)]
            told = graph.matrix(sources, targets, workers=2).tolist()
            self.assertEqual(told, [[tree.distances[target - 1] for target in targets] for tree in trees])

    def test_too_far(self):
        graph = path()
        self.assertEqual(graph.tree(1, within=spt.reach(PATH)).distances[-2:].tolist(), [WITHIN, FAR])
        with self.assertRaises(spt.TooFar) as told:
            graph.nearest([1])
        self.assertEqual((told.exception.source, told.exception.vertex), (None, PATH))
        self.assertEqual(str(told.exception), f"from the nearest source, vertex {PATH} is too far")
        found = graph.nearest([1], within=spt.reach(PATH))
        self.assertEqual((found.distances[-2:].tolist(), found.sources[-2:].tolist()), ([WITHIN, FAR], [1, 0]))
        self.assertEqual(graph.nearest([1, PATH]).distances[-2:].tolist(), [WITHIN, 0])
        told = graph.matrix([1, PATH], [PATH - 1, PATH, 1]).tolist()
        self.assertEqual(told, [[WITHIN, spt.BEYOND, 0], [FAR, 0, FAR]])

    def test_the_greatest_distance(self):
        graph = path(spt.reach(PATH) - WITHIN)
        found = graph.nearest([1])
        self.assertEqual((found.distances[-1], found.predecessors[-1], found.sources[-1]), (spt.reach(PATH), PATH - 1, 1))
        self.assertEqual(graph.tree(1, within=spt.reach(PATH) - 1).distances[-1], FAR)

    def test_refusals(self):
        most = spt.reach(4)
        for call in (
            lambda: self.graph.tree(1, within=most + 1), lambda: self.graph.tree(1, within=-1),
            lambda: self.graph.trees([1], within=2**64 - 1), lambda: self.graph.nearest([1], within=2**64 - 1),
        ):
            with self.assertRaises(spt.BadLimit) as told:
                call()
            self.assertIn(str(told.exception.limit), str(told.exception))
            self.assertIsInstance(told.exception, (spt.SptError, ValueError))
        for call in (
            lambda: self.graph.tree(5, within=1), lambda: self.graph.nearest([1, 5]), lambda: self.graph.matrix([5], [1]),
            lambda: self.graph.matrix([1], [1, 5]),
        ):
            with self.assertRaises(spt.NoSuchVertex) as told:
                call()
            self.assertEqual(told.exception.vertex, 5)
        for call in (self.graph.nearest, lambda it, **named: self.graph.matrix(it, it, **named)):
            with self.assertRaises(spt.BadDelta):
                call([1], delta=most + 1)
        with self.assertRaises(ValueError):
            self.graph.matrix([1], [1], workers=0)
        for wrong in (1.5, "1"):
            with self.assertRaises(TypeError):
                self.graph.tree(1, within=wrong)

    def test_lists_of_what_is_reached(self):
        # few vertices, many, all of them; with NumPy and as without it
        for hidden in ({}, {"numpy": None}):
            with mock.patch.dict(sys.modules, hidden):
                for seed in range(4):
                    graph = spt.Graph(300, samples.by_lot(300, 900 if seed else 3000, seed))
                    for told in (graph.tree(7), graph.tree(7, within=30), graph.tree(7, within=900), graph.nearest([7, 9], within=200)):
                        rows = list(zip(range(1, 301), told.distances, told.predecessors))
                        wanted = [row for row in rows if row[1] != FAR]
                        self.assertEqual(list(zip(*told.part())), wanted)
                        self.assertEqual(list(zip(*told.part(nearest_first=True))), sorted(wanted, key=lambda row: row[1]))
                        for numbers, format in (*zip(told.part(), "IQI"), *zip(told.part(nearest_first=True), "IQI")):
                            self.assertEqual((numbers.format, numbers.readonly), (format, True))

    def test_a_small_part_makes_no_list_of_all(self):
        tree = path().tree(1, within=samples.LONGEST)
        self.assertEqual([list(it) for it in tree.part()], [[1, 2], [0, samples.LONGEST], [0, 1]])
        self.assertNotIn("distances", vars(tree))

    def test_no_memory(self):
        library = spt._library
        calls = {"spt_graph_share": library.library.spt_graph_share, "spt_graph_free": library.library.spt_graph_free}
        told = {
            "spt_graph_within": lambda *given: library.Answer(library.MEMORY),
            "spt_graph_part": lambda *given: library.Part(library.MEMORY),
            "spt_graph_nearest": lambda *given: library.Answer(library.MEMORY),
            "spt_graph_matrix": lambda *given: library.Batch(library.MEMORY),
        }
        with mock.patch.object(spt._kept, "library", types.SimpleNamespace(**calls, **told)):
            for call in (
                lambda: self.graph.tree(1, within=3), lambda: list(self.graph.trees([1, 2], within=3, workers=2)),
                lambda: self.graph.nearest([1]), lambda: self.graph.matrix([1, 2], [1], workers=2),
            ):
                with self.assertRaises(MemoryError):
                    call()

    def test_an_older_library(self):
        with mock.patch.object(spt._graph, "HAS_NEAR", False):
            for call in (lambda: self.graph.tree(1, within=3), lambda: self.graph.nearest([1]), lambda: self.graph.matrix([1], [1])):
                with self.assertRaisesRegex(spt.SptError, "older than 1.2"):
                    call()
            self.assertEqual(self.graph.tree(1).distances[3], 5)
        with mock.patch.object(spt._graph, "HAS_PART", False):
            self.assertEqual(lists(self.graph.tree(1, within=3)), [[0, 3, 3, FAR], [0, 1, 1, 0]])


if __name__ == "__main__":
    unittest.main()
