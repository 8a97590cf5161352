"""Lengths in the caller's unit, vertices by names, frames and matrices, and what is said of what is refused."""

import array
import copy
import io
import math
import pickle
import random
import sys
import types
import unittest

from decimal import Decimal
from fractions import Fraction
from unittest import mock

import samples
import spt

from samples import WAYS, networkx, numpy, pandas, scipy

inf, nan = math.inf, math.nan
FAR = spt.UNREACHED
TOWN = {
    "from": ["Depot", "Mill", "Depot", "Quay"], "to": ["Mill", "Quay", "Quay", "Depot"], "minutes": [2.5, 4, 7.25, 1],
}


def town(**changed):
    return spt.Graph.from_frame({**TOWN, **changed}, "from", "to", "minutes", unit=0.25)


def twins(it):
    return [copy.copy(it), copy.deepcopy(it), *(pickle.loads(pickle.dumps(it, protocol)) for protocol in range(pickle.HIGHEST_PROTOCOL + 1))]


class Units(unittest.TestCase):
    def test_halves_to_even_numbers(self):
        lengths = [0.5000001, 1.5, 2.5, 3.5, 3.4999, 4294967295.4, 7]
        arcs = [(1, 2, it) for it in lengths]
        for way in WAYS:
            with mock.patch.dict(sys.modules, way):
                given = [arcs, array.array("d", sum(arcs, ()))] + ([numpy.array(arcs)] if numpy else [])
                for it in given:
                    self.assertEqual(spt.Graph(2, it, unit=1).arcs.tolist()[2::3], [1, 2, 2, 4, 3, 4294967295, 7])
                for length in (0.1, 1 / 3, 1e-3, 12345.6789, Fraction(7, 3), Decimal("1.1"), 7):
                    for unit in (0.1, 0.001, 1e-6, 0.3, 2, Fraction(1, 7)):
                        if 1 <= round(float(length) / float(unit)) <= samples.LONGEST:
                            self.assertEqual(spt.Graph(2, [(1, 2, length)], unit=unit).arcs[2], round(float(length) / float(unit)))

    def test_in_the_unit(self):
        graph = spt.Graph(4, [(1, 2, 0.1), (2, 3, 0.2), (1, 3, 0.4)], unit=0.1)
        tree = graph.tree(1)
        self.assertEqual((graph.unit, list(tree.distances), tree.pair(3)), (0.1, [0, 1, 3, FAR], spt.Pair(3, 2)))
        self.assertIsNone(graph.check(tree))
        # (0.1 + 0.2 is above 0.3)
        for within, wanted in ((0.3, 3), (0.29, 2), (0.1, 2), (0, 1), (1e6, 3)):
            self.assertEqual(sum(it != FAR for it in graph.tree(1, within=within).distances), wanted)
            self.assertEqual(sum(it != FAR for it in graph.nearest([1], within=within).distances), wanted)
            self.assertEqual(sum(it != FAR for it in next(graph.trees([1], within=within)).distances), wanted)
        for twin in twins(graph):
            self.assertEqual((twin.unit, twin.tree(1)), (0.1, tree))
        for twin in twins(tree):
            self.assertEqual(twin, tree)
        self.assertNotEqual(tree, spt.Graph(4, [(1, 2, 1), (2, 3, 2), (1, 3, 4)]).tree(1))
        self.assertIsNone(spt.Graph(1).unit)

    def test_shown_short(self):
        told = spt._terms.Terms(9, None, 0.001).told
        self.assertEqual([told(it) for it in (1, 3, 1234, 2999)], [0.001, 0.003, 1.234, 2.999])
        self.assertEqual(spt._terms.Terms(9, None, 2.5).told(3), 7.5)

    def refused(self, length, unit, *words):
        for way in WAYS:
            with mock.patch.dict(sys.modules, way):
                arcs = [(1, 2, 1.0), (2, 1, length)]
                for given in [arcs, array.array("d", sum(arcs, ()))] if isinstance(length, float) else [arcs]:
                    with self.assertRaises(spt.BadArc) as told:
                        spt.Graph(2, given, unit=unit)
                    self.assertEqual(told.exception.index, 1)
                    text = str(told.exception)
                    self.assertTrue(text.startswith("arc 1 (row 2): "), text)
                    for word in words:
                        self.assertIn(word, text)

    def test_refused_lengths(self):
        for length in (nan, inf, -inf):
            self.refused(length, 0.5, f"{length!r} is not a length", "leave out")
        self.refused(-2.5, 0.5, "-2.5 is not a length: lengths are above 0")
        self.refused(0.0, 0.5, "0.0 is not a length: lengths are above 0", "0.5")
        self.refused(0.25, 0.5, "0.25 rounds to 0 in the unit 0.5: use a smaller unit, or zero=\"unit\" to count it as 0.5")
        self.refused(1e-300, 0.5, "rounds to 0")
        self.refused(4294967295.75 * 0.5, 0.5, "is more than 4294967295 times the unit 0.5: use a larger unit")
        self.refused(1e300, 1e-3, "use a larger unit")
        self.refused(10**400, 1e-3, "is not a length")
        for wrong in ("2.5", None, [1], 1j):
            self.refused(wrong, 0.5, f"{wrong!r} is not a length")

    def test_refused_units(self):
        for wrong in (0, -1, nan, inf):
            with self.assertRaisesRegex(ValueError, "a number above 0"):
                spt.Graph(2, [(1, 2, 1)], unit=wrong)
        with self.assertRaises((TypeError, ValueError)):
            spt.Graph(2, [(1, 2, 1)], unit="metre")

    def test_without_a_unit(self):
        for arcs in ([(1, 2, 1), (2, 1, 1.5)], [(1, 2, 1), (2, 1, 2.0)], array.array("d", [1, 2, 1])):
            with self.assertRaises(TypeError) as told:
                spt.Graph(2, arcs)
            self.assertTrue(str(told.exception).endswith("; for fractions give a unit, such as unit=0.001"), told.exception)

    def test_limits(self):
        graph = spt.Graph(2, [(1, 2, 1)], unit=0.5)
        for wrong in (-0.5, nan, inf, 1e30):
            with self.assertRaisesRegex(spt.BadLimit, "from 0 to 8796093022207.0"):
                graph.tree(1, within=wrong)
        with self.assertRaisesRegex(TypeError, "has no unit"):
            spt.Graph(2, [(1, 2, 1)]).tree(1, within=0.5)
        n = 4201
        far = spt.Graph(n, [(tail, tail + 1, samples.LONGEST / 2) for tail in range(1, n)], unit=0.5)
        with self.assertRaisesRegex(spt.TooFar, "use a larger unit than 0.5"):
            far.tree(1)

    @unittest.skipIf(networkx is None or numpy is None, "NetworkX isn't installed")
    def test_beside_floats(self):
        draw, unit = random.Random(2), 1e-6
        for kind in (networkx.DiGraph, networkx.Graph, networkx.MultiDiGraph):
            for n in (5, 60, 300):
                theirs = kind()
                theirs.add_nodes_from(range(n))
                theirs.add_weighted_edges_from([(draw.randrange(n), draw.randrange(n), draw.uniform(1e-4, 40)) for _ in range(4 * n)])
                graph = spt.Graph.from_networkx(theirs, unit=unit)
                for source in (0, n - 1):
                    wanted, paths = networkx.single_source_dijkstra(theirs, source)
                    tree = graph.tree(source)
                    told = dict(zip(graph.names, tree.floats().tolist()))
                    self.assertEqual({node for node in told if told[node] < inf}, set(wanted))
                    for node, distance in wanted.items():
                        # half a unit for each arc of either walk, and the floats' own roundings
                        arcs = max(len(paths[node]), len(tree.path(node))) - 1
                        self.assertLessEqual(abs(told[node] - distance), arcs * unit / 2 + 1e-12 * distance, (source, node))

    @unittest.skipIf(scipy is None, "SciPy isn't installed")
    def test_scipy(self):
        draw = numpy.random.default_rng(3)
        dense = numpy.where(draw.random((40, 40)) < 0.2, numpy.round(draw.random((40, 40)) * 9 + 0.001, 3), 0)
        for matrix in (dense, scipy.sparse.csr_matrix(dense)):
            wanted = scipy.sparse.csgraph.dijkstra(matrix, indices=[3, 7])
            for directed in (True, False):
                wanted = scipy.sparse.csgraph.dijkstra(matrix, directed, indices=[3, 7])
                for given, unit in ((matrix, 0.001), (spt.Graph.from_scipy(matrix, unit=0.001), None)):
                    found = spt.dijkstra(given, directed, indices=[3, 7], unit=unit)
                    self.assertTrue(numpy.allclose(found, wanted, rtol=0, atol=1e-9))
                    near = spt.dijkstra(given, directed, [3, 7], limit=5.5, unit=unit)
                    self.assertTrue(((near < inf) == (numpy.round(wanted, 3) <= 5.5)).all())
                    nearest = spt.dijkstra(given, directed, [3, 7], min_only=True, limit=1e9, unit=unit)
                    self.assertTrue(numpy.allclose(nearest, wanted.min(axis=0), rtol=0, atol=1e-9))
            steps = scipy.sparse.csgraph.dijkstra(matrix, unweighted=True)
            for given, unit in ((matrix, 0.001), (spt.Graph.from_scipy(matrix, unit=0.001), None)):
                self.assertTrue((spt.dijkstra(given, unweighted=True, unit=unit) == steps).all())
        back = spt.Graph.from_scipy(dense, unit=0.001).to_scipy()
        self.assertTrue(numpy.allclose(back.toarray(), dense, rtol=0, atol=1e-12))
        with self.assertRaisesRegex(ValueError, r"^entry \(0, 1\): 0.25 rounds to 0 in the unit 0.5"):
            spt.Graph.from_scipy([[0, 0.25], [1, 0]], unit=0.5)
        with self.assertRaisesRegex(ValueError, r"2.5 is not a length.*give a unit, such as unit=0.001$"):
            spt.dijkstra([[0, 2.5], [1, 0]])
        with self.assertRaisesRegex(TypeError, "has its own"):
            spt.dijkstra(spt.Graph(1), unit=0.5)


class Names(unittest.TestCase):
    def test_names_apart(self):
        names = spt.Names(["Depot", "Mill", ("Quay", 1)])
        one, other = (spt.Graph(3, [(1, 2, 7), (2, 3, length)]).named(names) for length in (1, 2))
        self.assertEqual((one.path("Depot", ("Quay", 1)), one.names), (["Depot", "Mill", ("Quay", 1)], tuple(names)))
        self.assertIs(one._terms._names, other._terms._names)
        self.assertEqual((names.number("Mill"), names.name(2), names.name(0), len(names)), (2, "Mill", None, 3))
        self.assertEqual(("Mill" in names, "Church" in names, [] in names), (True, False, False))
        self.assertEqual((pickle.loads(pickle.dumps(names)), hash(copy.copy(names))), (names, hash(names)))
        self.assertNotEqual(names, spt.Names(["Depot", "Mill", "Quay"]))
        with self.assertRaisesRegex(ValueError, "^2 names for 3 vertices: each vertex needs one$"):
            one.named(["Depot", "Mill"])
        with self.assertRaisesRegex(ValueError, "^the name 'Mill' appears twice: "):
            one.named(["Mill", "Mill", "Quay"]).tree("Mill")
        with self.assertRaisesRegex(spt.NoSuchVertex, "'Church' is not a vertex name in this graph of 3 vertices"):
            names.number("Church")

    def test_calls(self):
        graph = town()
        self.assertEqual((graph.names, graph.n, graph.m), (("Depot", "Mill", "Quay"), 3, 4))
        tree = graph.tree("Depot")
        self.assertEqual((tree.source, list(tree.distances), list(tree.predecessors)), ("Depot", [0, 10, 26], [0, 1, 2]))
        self.assertEqual((tree.path("Quay"), graph.path("Depot", "Quay")), (["Depot", "Mill", "Quay"],) * 2)
        self.assertEqual((tree.pair("Quay"), graph.pair("Depot", "Quay")), (spt.Pair(26, "Mill"),) * 2)
        self.assertEqual((tree.pair("Depot"), graph.pair("Depot", "Depot")), (spt.Pair(0, None),) * 2)
        self.assertEqual([it.source for it in graph.trees(["Quay", "Mill"], workers=2)], ["Quay", "Mill"])
        forest = graph.nearest(["Mill", "Quay"])
        self.assertEqual([forest.source(it) for it in graph.names], ["Quay", "Mill", "Quay"])
        self.assertEqual((forest.path("Depot"), forest.pair("Depot")), (["Quay", "Depot"], spt.Pair(4, "Quay")))
        self.assertIsNone(graph.nearest(["Mill"], within=1).source("Depot"))
        self.assertEqual(repr(tree).split(":")[0], "Tree from Depot over 3 vertices")
        matrix = graph.matrix(["Mill"], ["Depot", "Quay"])
        self.assertEqual((matrix.sources, matrix.targets, matrix.distances.tolist()), (("Mill",), ("Depot", "Quay"), [[20, 16]]))
        self.assertIsNone(graph.check(tree))
        wrong = spt.Tree("Depot", tree.distances, array.array("I", [0, 1, 1]))
        self.assertEqual(graph.check(wrong), "Quay")

    def test_too_far(self):
        stops = [f"stop {at}" for at in range(4201)]
        far = spt.Graph.from_frame({"u": stops[:-1], "v": stops[1:], "w": [samples.LONGEST] * 4200}, "u", "v", "w")
        farthest = stops[spt.reach(4201) // samples.LONGEST + 1]
        for call in (lambda: far.tree("stop 0"), lambda: next(far.trees(["stop 0"])), lambda: far.pair("stop 0", stops[-1])):
            with self.assertRaises(spt.TooFar) as told:
                call()
            self.assertEqual((told.exception.source, told.exception.vertex), ("stop 0", farthest))
            self.assertEqual(str(told.exception), f"from stop 0, vertex {farthest} is too far")
        with self.assertRaises(spt.TooFar) as told:
            far.nearest(["stop 0"])
        self.assertEqual((told.exception.source, told.exception.vertex), (None, farthest))

    def test_copies(self):
        graph = town()
        for twin in twins(graph):
            self.assertEqual((twin.names, twin.unit, twin.tree("Depot")), (graph.names, graph.unit, graph.tree("Depot")))
        for it in (graph.tree("Mill"), graph.nearest(["Mill"])):
            for twin in twins(it):
                self.assertEqual((twin, hash(twin), twin.path("Depot")), (it, hash(it), ["Mill", "Quay", "Depot"]))
        self.assertNotEqual(graph.tree("Mill"), spt.Graph(3, samples.triples(graph.arcs), unit=0.25).tree(2))
        for twin in twins(graph.matrix(["Mill"], graph.names)):
            self.assertEqual((twin.targets, twin.distances.tolist()), (graph.names, [[20, 0, 16]]))

    def test_unknown_names(self):
        graph, ids = town(), spt.Graph.from_frame({"u": [7, 9], "v": [9, 11], "w": [1, 2]}, "u", "v", "w")
        for graph, wrong in ((graph, "Dpot"), (graph, 1), (graph, ["Depot"]), (graph, None), (ids, 1), (ids, "7")):
            known = graph.names[0]
            tree = graph.tree(known)
            for call in (
                lambda: graph.tree(wrong), lambda: graph.path(known, wrong), lambda: graph.pair(wrong, known), lambda: graph.nearest([wrong]),
                lambda: graph.matrix([known], [wrong]), lambda: graph.trees([known, wrong]), lambda: tree.path(wrong), lambda: tree.pair(wrong),
            ):
                with self.assertRaises(spt.NoSuchVertex) as told:
                    call()
                self.assertEqual((told.exception.vertex, str(told.exception).split(" of ")[0]), (wrong, f"{wrong!r} is not a vertex name in this graph"))
        self.assertEqual(ids.tree(7).path(11), [7, 9, 11])

    def test_forms_of_frames(self):
        wanted = town().tree("Depot")
        decimals = {**TOWN, "minutes": [Decimal(it) for it in TOWN["minutes"]]}
        frames = [TOWN, decimals, {name: tuple(column) for name, column in TOWN.items()}, types.MappingProxyType(TOWN)]
        if numpy:
            frames.append({name: numpy.array(column) for name, column in TOWN.items()})
        if pandas is not None:
            frame = pandas.DataFrame(TOWN)
            frames += [frame, frame.set_index(["from", "to"]), frame.set_index("to"), frame.astype({"from": "string", "to": "category"})]
            frames += [frame.iloc[::-1].iloc[::-1], frame.convert_dtypes(), frame.set_index(frame.index + 50), pandas.DataFrame(decimals)]
            kind = pandas.CategoricalDtype(["Quay", "Mill", "Church", "Depot"])
            frames.append(frame.astype({"from": kind, "to": kind}))
        for frame in frames:
            graph = spt.Graph.from_frame(frame, "from", "to", "minutes", unit=0.25)
            self.assertEqual((graph.names, graph.tree("Depot")), (("Depot", "Mill", "Quay"), wanted))
        whole = {**TOWN, "minutes": [1, 2.0, 3, 4]}
        self.assertEqual(spt.Graph.from_frame(whole, "from", "to", "minutes").arcs.tolist()[2::3], [1, 2, 3, 4])
        ids = {"u": [2**63 + 1, 5], "v": [5, 2**40], "w": [3, 4]}
        self.assertEqual(spt.Graph.from_frame(ids, "u", "v", "w").path(2**63 + 1, 2**40), [2**63 + 1, 5, 2**40])

    def test_numbers_as_names(self):
        # in each form the same names, in the order in which they appear, and the same arcs
        for seed in range(5):
            lot = random.Random(seed)
            ids = [lot.randrange(2**62) for _ in range(30)]
            tails, heads, lengths = [lot.choice(ids) for _ in range(80)], [lot.choice(ids) for _ in range(80)], [lot.randint(1, 9) for _ in range(80)]
            names = tuple(dict.fromkeys(tails + heads))
            arcs = [(names.index(tail) + 1, names.index(head) + 1, length) for tail, head, length in zip(tails, heads, lengths)]
            columns = {"u": tails, "v": heads, "w": lengths}
            frames = [columns]
            if numpy:
                frames += [{name: numpy.array(it, kind) for name, it in columns.items()} for kind in ("int64", "uint64")]
            if pandas is not None:
                frames += [pandas.DataFrame(columns), pandas.DataFrame(columns).astype("uint64"), pandas.DataFrame(columns).astype({"u": object})]
            for frame in frames:
                graph = spt.Graph.from_frame(frame, "u", "v", "w")
                self.assertEqual((graph.names, samples.triples(graph.arcs.tolist())), (names, arcs))
                self.assertEqual({type(name) for name in graph.names}, {int})

    def test_refused_frames(self):
        for wrong, unit in ((nan, 0.5), (-1.0, 0.5), (0.1, 0.5), (1e12, 0.5), ("3", 0.5), (2.5, None), (0, None), (2**32, None), (None, 0.5)):
            with self.assertRaises(spt.BadArc) as told:
                spt.Graph.from_frame({**TOWN, "minutes": [1, wrong, 2, 3]}, "from", "to", "minutes", unit=unit)
            self.assertEqual((told.exception.index, told.exception.arc), (1, ("Mill", "Quay", wrong)))
            self.assertTrue(str(told.exception).startswith(f"arc 1 (row 2): from 'Mill' to 'Quay': {wrong!r} "), told.exception)
        with self.assertRaisesRegex(KeyError, "no column 'lenght': the columns are 'from', 'to', 'minutes'"):
            spt.Graph.from_frame(TOWN, "from", "to", "lenght")
        with self.assertRaisesRegex(ValueError, r"arc 2 \(row 3\) has no name for its tail"):
            town(**{"from": ["Depot", "Mill", None, "Quay"]})
        with self.assertRaisesRegex(ValueError, r"arc 3 \(row 4\) has no name for its head"):
            town(to=["Mill", "Quay", "Quay", nan])
        with self.assertRaisesRegex(ValueError, "columns of 4, 2 and 4 rows"):
            town(to=["Mill", "Quay"])
        with self.assertRaisesRegex(ValueError, "not 0"):
            spt.Graph.from_frame({"u": [], "v": [], "w": []}, "u", "v", "w")
        for given in ((3, TOWN), (TOWN,)):
            with self.assertRaisesRegex(TypeError, r"^dict: .*Graph.from_frame"):
                spt.Graph(*given)
        if pandas is not None:
            frame = pandas.DataFrame({"u": [1, 2], "v": [2, 3], "w": [1.5, nan]})
            with self.assertRaisesRegex(TypeError, r"^DataFrame: .*Graph.from_frame"):
                spt.Graph(3, frame)
            with self.assertRaisesRegex(spt.BadArc, r"^arc 1 \(row 2\): from 2 to 3: nan is not a length"):
                spt.Graph.from_frame(frame, "u", "v", "w", unit=0.5)
            for column in ("u", "v"):
                lacking = frame.convert_dtypes()
                lacking.loc[1, column] = pandas.NA
                with self.assertRaisesRegex(ValueError, r"arc 1 \(row 2\) has no name"):
                    spt.Graph.from_frame(lacking, "u", "v", "w", unit=0.5)

    @unittest.skipIf(networkx is None, "NetworkX isn't installed")
    def test_nodes(self):
        grid = networkx.grid_2d_graph(3, 3)
        graph = spt.Graph.from_networkx(grid, None)
        self.assertEqual(graph.path((0, 0), (0, 2)), [(0, 0), (0, 1), (0, 2)])
        self.assertEqual(graph.names, tuple(grid))
        lone = networkx.DiGraph()
        lone.add_node("alone")
        self.assertEqual(list(spt.Graph.from_networkx(lone).tree("alone").distances), [0])
        with self.assertRaisesRegex(ValueError, "not 0"):
            spt.Graph.from_networkx(networkx.Graph())
        wrong = networkx.path_graph(["a", "b"])
        for length, unit, told in ((nan, 0.5, "leave out"), (0.2, 0.5, "smaller unit"), (0.5, None, "unit=0.001")):
            wrong["a"]["b"]["weight"] = length
            with self.assertRaisesRegex(ValueError, rf"^edge \('a', 'b'\): {length!r} .*{told}"):
                spt.Graph.from_networkx(wrong, unit=unit)
        if pandas is not None:
            frame = graph.tree((0, 0)).frame()
            self.assertEqual((frame.loc[[(2, 2)], "distance"].tolist(), frame.index[1], frame.predecessor[1]), ([4.0], (0, 1), (0, 0)))


@unittest.skipIf(pandas is None, "pandas isn't installed")
class Frames(unittest.TestCase):
    def test_trees(self):
        frame = town().tree("Depot", within=3).frame()
        self.assertEqual(frame.index.tolist(), ["Depot", "Mill", "Quay"])
        self.assertEqual((frame.index.name, list(frame.columns)), ("vertex", ["distance", "predecessor"]))
        self.assertEqual((frame.distance.tolist(), frame.predecessor.tolist()), ([0, 2.5, inf], [None, "Depot", None]))
        self.assertEqual(frame.loc["Mill", "distance"], 2.5)

    def test_numbers(self):
        graph = spt.Graph(4, samples.DIAMOND[:4])
        frame = graph.tree(2).frame()
        self.assertEqual((frame.index.tolist(), frame.distance.tolist()), ([1, 2, 3, 4], [inf, 0, inf, 2]))
        self.assertEqual((frame.predecessor.isna().tolist(), frame.predecessor[4]), ([True, True, True, False], 2))
        frame = graph.nearest([2, 3]).frame()
        self.assertEqual(list(frame.columns), ["distance", "predecessor", "source"])
        self.assertEqual((frame.source.isna().tolist(), frame.source[2:].tolist()), ([True, False, False, False], [3, 2]))
        frame = graph.matrix([2, 1], [4, 1]).frame()
        self.assertEqual((frame.index.name, frame.columns.name), ("source", "target"))
        self.assertEqual((frame.index.tolist(), frame.columns.tolist(), frame.values.tolist()), ([2, 1], [4, 1], [[2, inf], [5, 0]]))

    def test_ids(self):
        ids = spt.Graph.from_frame({"u": [2**50, 9], "v": [9, 2**40], "w": [3, 4]}, "u", "v", "w")
        frame = ids.nearest([9]).frame()
        self.assertEqual((frame.index.dtype, str(frame.source.dtype)), ("int64", "Int64"))
        self.assertEqual((frame.source[2**40], frame.predecessor[2**40], frame.distance[2**40]), (9, 9, 4))
        frame = town().matrix(["Mill"], ["Quay", "Depot"]).frame()
        self.assertEqual((frame.loc["Mill", "Depot"], frame.shape), (5.0, (1, 2)))

    def test_without_pandas(self):
        graph = spt.Graph(4, samples.DIAMOND)
        with mock.patch.dict(sys.modules, {"pandas": None}):
            for it in (graph.tree(1), graph.nearest([1]), graph.matrix([1], [2])):
                with self.assertRaisesRegex(ImportError, "pandas, which isn't installed"):
                    it.frame()


@unittest.skipIf(numpy is None, "NumPy isn't installed")
class Matrices(unittest.TestCase):
    def setUp(self):
        self.graph = spt.Graph(4, samples.DIAMOND)
        self.matrix = self.graph.matrix([1, 4, 2], [4, 1])
        self.array = numpy.array([[5, 0], [0, FAR], [2, FAR]], numpy.uint64)

    def test_as_an_array(self):
        for told in (numpy.asarray(self.matrix), numpy.array(self.matrix), self.matrix.distances, numpy.vstack(list(self.matrix))):
            self.assertEqual((told.dtype, told.tolist()), (numpy.uint64, self.array.tolist()))
        self.assertTrue(numpy.shares_memory(numpy.asarray(self.matrix), self.matrix.distances))
        self.assertFalse(numpy.shares_memory(numpy.array(self.matrix), self.matrix.distances))
        self.assertEqual((self.matrix.shape, self.matrix.dtype, self.matrix.T.shape, self.matrix.min()), ((3, 2), numpy.uint64, (2, 3), 0))
        self.assertEqual((self.matrix[0, 0], self.matrix[:, 1].tolist(), self.matrix[self.matrix < 3].tolist()), (5, [0, FAR, FAR], [0, 0, 2]))
        self.assertEqual((self.matrix == spt.UNREACHED).tolist(), (self.array == FAR).tolist())
        self.assertEqual(numpy.where(self.matrix != spt.UNREACHED, self.matrix, 7).tolist(), [[5, 0], [0, 7], [2, 7]])
        self.assertTrue((self.matrix == self.graph.matrix([1, 4, 2], [4, 1])).all())
        self.assertEqual(numpy.argmin(self.matrix, axis=0).tolist(), [1, 0])
        self.assertTrue(callable(self.matrix.copy) and not hasattr(self.matrix, "nothing"))

    def test_views(self):
        self.assertEqual(self.matrix.floats().tolist(), [[5, 0], [0, inf], [2, inf]])
        self.assertEqual(self.matrix.masked().tolist(), [[5, 0], [0, None], [2, None]])
        self.assertEqual((self.matrix / 1000).tolist(), [[0.005, 0], [0, inf], [0.002, inf]])
        self.assertEqual((1 + self.matrix - 1).tolist(), self.matrix.floats().tolist())
        self.assertEqual((self.matrix + self.matrix * 2).tolist(), (self.matrix.floats() * 3).tolist())
        self.assertEqual((int(self.matrix.masked().sum()), self.graph.matrix([], [1]).floats().shape), (7, (0, 1)))

    def test_what_is_too_far(self):
        n = 4201
        far = spt.Graph(n, [(tail, tail + 1, samples.LONGEST) for tail in range(1, n)])
        matrix = far.matrix([1], [n, 2])
        self.assertEqual((matrix.distances.tolist(), matrix.floats().tolist()), ([[spt.BEYOND, samples.LONGEST]], [[inf, samples.LONGEST]]))
        self.assertEqual(matrix.masked().tolist(), [[None, samples.LONGEST]])

    def test_in_a_unit(self):
        matrix = town().matrix(["Mill", "Quay"], ["Mill", "Depot"])
        self.assertEqual((matrix.distances.tolist(), matrix.tolist()), ([[0, 20], [14, 4]], [[0, 5], [3.5, 1]]))
        self.assertEqual((numpy.asarray(matrix).dtype, (matrix / 60)[0, 1], matrix[1, 0]), (numpy.float64, 5 / 60, 3.5))


class Refusals(unittest.TestCase):
    def test_rows(self):
        graph = lambda *given, **named: spt.Graph(4, *given, **named)  # noqa: E731
        length = "is not a length: lengths are whole numbers from 1 to 4294967295"
        for wrong, why in (((2, 3, -3), f"-3 {length}"), ((2, 3, 2**32), f"4294967296 {length}"), ((-2, 3, 1), "-2 is not a vertex of a graph with 4 vertices")):
            arcs = [(1, 2, 3), wrong, (0, 0, 0)]
            given = [arcs, array.array("q", sum(arcs, ()))] + ([numpy.array(arcs), numpy.asfortranarray(numpy.array(arcs))] if numpy else [])
            for it in given:
                with self.assertRaises(spt.BadArc) as told:
                    graph(it)
                self.assertEqual((str(told.exception), told.exception.index, told.exception.arc), (f"arc 1 (row 2): {why}", 1, wrong))
        for wrong, why in (((2, 3, "x"), "'x' is not a length"), ((2.5, 3, 1), "2.5 is not a vertex: vertices are whole numbers from 1 to 4")):
            with self.assertRaises(TypeError) as told:
                graph([(1, 2, 3), wrong])
            self.assertTrue(str(told.exception).startswith(f"arc 1 (row 2): {why}"), told.exception)
        with self.assertRaisesRegex(spt.BadArc, r"^arc 0 \(row 1\): 0 is not a vertex .* numbered from 1; .* add 1"):
            graph([(0, 1, 5)])

    def test_ranges(self):
        graph, most = spt.Graph(4, samples.DIAMOND), spt.reach(4)
        for call, kind, told in (
            (lambda: graph.tree(1, within=most + 1), spt.BadLimit, f"it is from 0 to {most}$"),
            (lambda: graph.tree(1, delta=0), spt.BadDelta, f"it is from 1 to {most}$"),
            (lambda: graph.tree(0), spt.NoSuchVertex, "vertices are numbered from 1$"),
        ):
            with self.assertRaisesRegex(kind, told):
                call()

    def test_second_lines(self):
        # those that the program tells of the same texts (tests/hints.py)
        sys.path.insert(0, f"{samples.HOME}/tests")
        import hints

        # but for the page and the flag that only the program has
        said = [told.split("; see spt")[0].split("; with --both-ways")[0] for _, _, _, told, _ in hints.GRAPHS]
        texts = [(text.encode("latin-1"), first, told) for (_, text, first, _, _), told in zip(hints.GRAPHS, said)]
        texts.append((b"p sp 4294967295 0\n", "line 1: 5 OutOfRange N", "N is a number from 1 to 4294967294"))
        texts.append((b"p sp 1 1073741825\n", "line 1: 5 OutOfRange M", "M is a number from 0 to 1073741824"))
        for text, first, told in texts:
            with self.assertRaises(spt.Fault) as fault:
                spt.Graph.read(io.BytesIO(text))
            self.assertEqual((str(fault.exception), fault.exception.hint), (f"gr: {first}\n{told}", told), text)
        for name, made, what, _ in hints.FORMS:
            packed = made(hints.read_bytes(hints.GRAPH))
            with self.assertRaises(spt.Fault) as fault:
                spt.Graph.read(io.BytesIO(packed))
            self.assertTrue(fault.exception.hint.startswith(f"{what}; "), name)


if __name__ == "__main__":
    unittest.main()
