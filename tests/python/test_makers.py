"""What all makers of graphs take: lengths of 0, junctions without a street, and names that are text or numbers.

And what reads, saves and computes at once: bytes, folders, workers.
"""

import array
import copy
import gzip
import io
import math
import os
import pickle
import sys
import tempfile
import unittest

from decimal import Decimal
from unittest import mock

import samples
import spt

from samples import WAYS, networkx, numpy, pandas, scipy

ROADS = {"u": ["Depot", "Mill", "Depot", "Quay"], "v": ["Mill", "Quay", "Quay", "Depot"], "minutes": [2.5, 0, 7.25, 0.001]}


class Case(unittest.TestCase):
    def refused(self, kind, text, call):
        """Asserts that a call is refused in these words."""
        with self.assertRaises(kind) as told:
            call()
        self.assertEqual(str(told.exception), text)


def lengths(graph):
    return graph.arcs.tolist()[2::3]


class Zeros(Case):
    """Lengths of 0, and those that round to 0."""

    # halves round to even numbers: 0.25 is half a unit, 0.75 one and a half
    GIVEN, WHOLE = [0, 0.0, -0.0, 0.001, 0.25, 0.26, 0.75, 2.5], [1, 1, 1, 1, 1, 1, 2, 5]

    def test_with_a_unit(self):
        arcs = [(1, 2, it) for it in self.GIVEN]
        for way in WAYS:
            with mock.patch.dict(sys.modules, way):
                given = [arcs, array.array("d", sum(arcs, ()))] + ([numpy.array(arcs)] if numpy else [])
                for it in given:
                    self.assertEqual(lengths(spt.Graph(2, it, unit=0.5, zero="unit")), self.WHOLE)
                back = spt.Graph(2, arcs[:1], unit=0.5, zero="unit", both_ways=True)
                self.assertEqual(samples.triples(back.arcs.tolist()), [(1, 2, 1), (2, 1, 1)])
                decimals = [(1, 2, Decimal("0.00")), (1, 2, Decimal("0.1")), (1, 2, Decimal("1.5"))]
                self.assertEqual(lengths(spt.Graph(2, decimals, unit=0.5, zero="unit")), [1, 1, 3])

    def test_without_a_unit(self):
        arcs = [(1, 2, 0), (2, 1, 7), (2, 2, 0)]
        flat = array.array("I", sum(arcs, ()))
        given = [arcs, flat, memoryview(flat).cast("B").cast("I", (3, 3))]
        for it in given + ([numpy.array(arcs), numpy.array(arcs, numpy.uint32)] if numpy else []):
            graph = spt.Graph(2, it, zero="unit")
            self.assertEqual((lengths(graph), graph.pair(1, 2), graph.unit), ([1, 7, 1], spt.Pair(1, 1), None))
        self.assertEqual(flat.tolist()[2::3], [0, 7, 0])
        self.assertEqual(spt.Graph(2, zero="unit").m, 0)

    def test_frames(self):
        frames = [ROADS, {name: tuple(it) for name, it in ROADS.items()}]
        frames += [{name: numpy.array(it) for name, it in ROADS.items()}] if numpy else []
        frames += [pandas.DataFrame(ROADS), pandas.DataFrame(ROADS).convert_dtypes()] if pandas is not None else []
        for frame in frames:
            graph = spt.Graph.from_frame(frame, "u", "v", "minutes", unit=0.25, zero="unit")
            self.assertEqual((graph.names, lengths(graph)), (("Depot", "Mill", "Quay"), [10, 1, 29, 1]))
            self.assertEqual(graph.path("Depot", "Quay"), ["Depot", "Mill", "Quay"])
        whole = {**ROADS, "minutes": [0, 3, 0.0, 4294967295]}
        for frame in [whole] + ([pandas.DataFrame(whole)] if pandas is not None else []):
            self.assertEqual(lengths(spt.Graph.from_frame(frame, "u", "v", "minutes", zero="unit")), [1, 3, 1, 4294967295])
        for kind in ("int64", "uint64", "uint8", "float32") if numpy else ():
            columns = {**ROADS, "minutes": numpy.array([0, 3, 0, 4], kind)}
            self.assertEqual(lengths(spt.Graph.from_frame(columns, "u", "v", "minutes", zero="unit")), [1, 3, 1, 4])
            self.assertEqual(lengths(spt.Graph.from_frame(columns, "u", "v", "minutes", unit=2, zero="unit")), [1, 2, 1, 2])

    @unittest.skipIf(networkx is None, "NetworkX isn't installed")
    def test_networkx(self):
        for kind in (networkx.Graph, networkx.DiGraph, networkx.MultiGraph, networkx.MultiDiGraph):
            theirs = kind()
            theirs.add_weighted_edges_from([("a", "b", 0), ("b", "c", 0.0004), ("c", "d", 1.5)])
            for way in WAYS:
                with mock.patch.dict(sys.modules, way):
                    graph = spt.Graph.from_networkx(theirs, unit=0.001, zero="unit")
                    self.assertEqual(graph.pair("a", "d"), (1502, "c"))
                    zeros = spt.Graph.from_networkx(theirs, lambda tail, head, data: Decimal(0), zero="unit")
                    self.assertEqual(zeros.pair("a", "d"), (3, "c"))
            text = 'edge (\'a\', \'b\'): 0 is not a length: lengths are whole numbers from 1 to 4294967295; zero="unit" counts 0 as one unit'
            theirs.remove_edges_from([("b", "c"), ("c", "d")])
            self.refused(ValueError, text, lambda: spt.Graph.from_networkx(theirs))

    @unittest.skipIf(scipy is None, "SciPy isn't installed")
    def test_scipy(self):
        # a 0 that is stored off the diagonal is an arc, one on the diagonal isn't
        stored = scipy.sparse.csr_matrix(([0, 3, 0.2, 0], ([0, 1, 1, 2], [1, 2, 0, 2])), shape=(3, 3))
        graph = spt.Graph.from_scipy(stored, unit=0.5, zero="unit")
        self.assertEqual(samples.triples(graph.arcs.tolist()), [(1, 2, 1), (2, 1, 1), (2, 3, 6)])
        self.assertEqual(spt.dijkstra(stored, indices=0, unit=0.5, zero="unit").tolist(), [0, 0.5, 3.5])
        self.assertEqual(lengths(spt.Graph.from_scipy(scipy.sparse.csr_matrix(([0, 3], ([0, 1], [1, 0]))), zero="unit")), [1, 3])
        # in a dense matrix a 0 is no arc
        self.assertEqual(samples.triples(spt.Graph.from_scipy([[0, 0.1], [0, 0]], unit=1, zero="unit").arcs.tolist()), [(1, 2, 1)])
        unmasked = numpy.ma.masked_array([[9, 0], [3, 9]], [[1, 0], [0, 1]])
        self.assertEqual(spt.dijkstra(unmasked, zero="unit").tolist(), [[0, 1], [3, 0]])
        text = "entry (0, 1): 0 is not a length: lengths are whole numbers from 1 to 4294967295; zero=\"unit\" counts 0 as one unit"
        more = " (SciPy reads a stored or unmasked 0 as an arc; eliminate_zeros() removes it)"
        self.refused(ValueError, text + more, lambda: spt.dijkstra(unmasked))
        self.refused(TypeError, "zero is for a matrix: a Graph has its own", lambda: spt.dijkstra(graph, zero="unit"))

    def test_what_it_asks_for(self):
        zero = "0 is not a length: lengths are whole numbers from 1 to 4294967295; zero=\"unit\" counts 0 as one unit"
        self.refused(spt.BadArc, f"arc 0 (row 1): {zero}", lambda: spt.Graph(2, [(1, 2, 0)]))
        self.refused(spt.BadArc, f"arc 0 (row 1): {zero}", lambda: spt.Graph(2, array.array("I", [1, 2, 0])))
        for length, text in (
            (0.0, '0.0 is not a length: lengths are above 0, and the smallest after rounding is the unit, 0.5; zero="unit" counts 0 as one unit'),
            (0.25, '0.25 rounds to 0 in the unit 0.5: use a smaller unit, or zero="unit" to count it as 0.5'),
        ):
            self.refused(spt.BadArc, f"arc 0 (row 1): {text}", lambda: spt.Graph(2, [(1, 2, length)], unit=0.5))
            frame = {"u": ["a"], "v": ["b"], "w": [length]}
            self.refused(spt.BadArc, f"arc 0 (row 1): from 'a' to 'b': {text}", lambda: spt.Graph.from_frame(frame, "u", "v", "w", unit=0.5))

    def test_what_stays_refused(self):
        below = "lengths are above 0, and the smallest after rounding is the unit, 0.5"
        for length, text in ((-0.001, f"-0.001 is not a length: {below}"), (-3, f"-3 is not a length: {below}"), (math.nan, "nan is not a length: "
            "lengths are numbers above 0; leave out an arc without one"), ("0", "'0' is not a length: lengths are numbers above 0; leave out an arc without one")):
            frames = [{"u": ["a", "a"], "v": ["b", "b"], "w": [0, length]}]
            frames += [pandas.DataFrame(frames[0])] if pandas is not None and length != "0" else []
            for frame in frames:
                with self.assertRaises(spt.BadArc) as told:
                    spt.Graph.from_frame(frame, "u", "v", "w", unit=0.5, zero="unit")
                self.assertEqual(str(told.exception), f"arc 1 (row 2): from 'a' to 'b': {text}")
        whole = "is not a length: lengths are whole numbers from 1 to 4294967295"
        self.refused(spt.BadArc, f"arc 0 (row 1): -1 {whole}", lambda: spt.Graph(2, [(1, 2, -1)], zero="unit"))
        frame = {"u": ["a"], "v": ["b"], "w": [0.5]}
        fraction = f"arc 0 (row 1): from 'a' to 'b': 0.5 {whole}; for fractions give a unit, such as unit=0.001"
        self.refused(spt.BadArc, fraction, lambda: spt.Graph.from_frame(frame, "u", "v", "w", zero="unit"))
        for wrong in ("units", 1, 0, True, False, "", ["unit"]):
            text = f'zero {wrong!r}: must be "unit", which counts lengths of 0 as one unit, or None, which refuses them'
            self.refused(ValueError, text, lambda: spt.Graph(2, [(1, 2, 1)], zero=wrong))


class Nodes(Case):
    """Vertices without an arc."""

    def frames(self, columns):
        frames = [columns] + ([{name: numpy.array(it) for name, it in columns.items()}] if numpy else [])
        return frames + ([pandas.DataFrame(columns)] if pandas is not None else [])

    def lists(self, nodes):
        lists = [nodes, tuple(nodes), iter(nodes), dict.fromkeys(nodes), spt.Names(nodes)]
        lists += [numpy.array(nodes)] if numpy else []
        return lists + ([pandas.Series(nodes), pandas.Index(nodes), pandas.Series(nodes, index=nodes[::-1])] if pandas is not None else [])

    def test_frames(self):
        text = {"u": ["Depot", "Mill"], "v": ["Mill", "Quay"], "w": [2, 3]}
        ids = {"u": [70, 40], "v": [40, 90], "w": [2, 3]}
        for columns, nodes, names in (
            (text, ["Farm", "Mill", "Depot"], ("Farm", "Mill", "Depot", "Quay")),
            (ids, [10, 40, 70], (10, 40, 70, 90)),
        ):
            for frame in self.frames(columns):
                for given in self.lists(nodes):
                    graph = spt.Graph.from_frame(frame, "u", "v", "w", nodes=given)
                    self.assertEqual((graph.n, graph.m, graph.names), (4, 2, names))
                    # from the third vertex to the second in 2, from there to the fourth in 3
                    self.assertEqual(samples.triples(graph.arcs.tolist()), [(3, 2, 2), (2, 4, 3)])
                    tree = graph.tree(names[2])
                    self.assertEqual(list(tree.distances), [spt.UNREACHED, 2, 0, 5])
                    self.assertEqual((tree.path(names[3]), tree.path(names[0])), ([names[2], names[1], names[3]], None))
                    self.assertEqual(list(graph.tree(names[0]).distances), [0] + [spt.UNREACHED] * 3)

    def test_no_rows(self):
        for frame in self.frames({"u": [], "v": [], "w": []}):
            graph = spt.Graph.from_frame(frame, "u", "v", "w", nodes=["Farm", "Mill"])
            self.assertEqual((graph.names, graph.m, graph.path("Farm", "Farm"), graph.path("Farm", "Mill")), (("Farm", "Mill"), 0, ["Farm"], None))
        self.refused(ValueError, "a graph has 1 to 4294967294 vertices, not 0", lambda: spt.Graph.from_frame(frame, "u", "v", "w", nodes=[]))

    def test_numbers(self):
        for given in self.lists(["Farm", "Mill", "Depot"]):
            graph = spt.Graph(3, [(3, 2, 2)], nodes=given)
            self.assertEqual((graph.names, graph.path("Depot", "Mill"), graph.path("Farm", "Mill")), (("Farm", "Mill", "Depot"), ["Depot", "Mill"], None))
        self.refused(ValueError, "2 names for 3 vertices: each vertex needs one", lambda: spt.Graph(3, [(3, 2, 2)], nodes=["Farm", "Mill"]))

    def test_refused(self):
        frame = {"u": ["Depot"], "v": ["Mill"], "w": [2]}
        for nodes, kind, text in (
            (["Farm", None], ValueError, "node 1 (row 2) has no name"),
            (["Farm", math.nan], ValueError, "node 1 (row 2) has no name"),
            (["Farm", "Mill", "Farm"], ValueError, "node 2 (row 3) has the name 'Farm', as one before it: give each vertex once"),
            ("Farm", TypeError, "nodes is a str: must be a list of names, or a column or the index of a frame"),
        ):
            self.refused(kind, text, lambda: spt.Graph.from_frame(frame, "u", "v", "w", nodes=nodes))
            self.refused(kind, text, lambda: spt.Graph(len(nodes), nodes=nodes))
        if pandas is not None:
            text = "nodes is a DataFrame: must be a list of names, or a column or the index of a frame"
            self.refused(TypeError, text, lambda: spt.Graph.from_frame(frame, "u", "v", "w", nodes=pandas.DataFrame({"x": [1, 2]})))
            levels = pandas.MultiIndex.from_tuples([("a", 1), ("b", 2)])
            self.assertEqual(spt.Graph(2, nodes=levels).names, (("a", 1), ("b", 2)))

    @unittest.skipIf(networkx is None, "NetworkX isn't installed")
    def test_networkx(self):
        for kind in (networkx.Graph, networkx.DiGraph, networkx.MultiGraph, networkx.MultiDiGraph):
            theirs = kind()
            theirs.add_node("Farm")
            theirs.add_edge("Depot", "Mill", weight=2)
            theirs.add_node("Quay")
            for weight in ("weight", None, lambda tail, head, data: 2):
                graph = spt.Graph.from_networkx(theirs, weight)
                self.assertEqual((graph.names, graph.path("Farm", "Mill")), (("Farm", "Depot", "Mill", "Quay"), None))


class Kinds(Case):
    """Names that are text in one place and numbers in another."""

    def test_columns(self):
        alike = "a vertex needs the same name in both, so make them all text or all numbers"
        text = f"column 'u' has text, such as '8497386544', and column 'v' has numbers, such as 8497386545: {alike}"
        turned = f"column 'v' has numbers, such as 8497386545, and column 'u' has text, such as '8497386544': {alike}"
        columns = {"u": ["8497386544", "8497386545"], "v": [8497386545, 8497386546], "w": [2, 3]}
        frames = [columns] + ([{name: numpy.array(it) for name, it in columns.items()}] if numpy else [])
        frames += [pandas.DataFrame(columns), pandas.DataFrame(columns).astype({"u": "string"}), pandas.DataFrame(columns, dtype=object)] if pandas is not None else []
        for frame in frames:
            self.refused(ValueError, text, lambda: spt.Graph.from_frame(frame, "u", "v", "w"))
            self.refused(ValueError, turned, lambda: spt.Graph.from_frame(frame, "v", "u", "w"))
        if pandas is not None:
            self.refused(ValueError, text, lambda: spt.Graph.from_frame(pandas.DataFrame(columns).set_index(["u", "v"]), "u", "v", "w"))

    def test_nodes(self):
        alike = "a vertex needs the same name in both, so make them all text or all numbers"
        ids = {"u": [7, 9], "v": [9, 11], "w": [2, 3]}
        text = f"nodes has text, such as '7', and column 'u' has numbers, such as 7: {alike}"
        for nodes in [["7", "9"]] + ([numpy.array(["7", "9"])] if numpy else []) + ([pandas.Index(["7", "9"])] if pandas is not None else []):
            self.refused(ValueError, text, lambda: spt.Graph.from_frame(ids, "u", "v", "w", nodes=nodes))
        names = {"u": ["7", "9"], "v": ["9", "11"], "w": [2, 3]}
        text = f"nodes has numbers, such as 7, and column 'u' has text, such as '7': {alike}"
        self.refused(ValueError, text, lambda: spt.Graph.from_frame(names, "u", "v", "w", nodes=range(7, 12)))

    def test_what_is_taken(self):
        # both kinds in one column, other kinds, and numbers of several types
        for tails, heads in (
            (["a", 7], [7, 8]), ([7, "a"], ["b", "c"]), ([(1, 2), "a"], [7, 8]), ([7, 8.0], [8, 9]), ([True, 2], [2, 3]), (["a", "b"], ["b", "c"]),
        ):
            graph = spt.Graph.from_frame({"u": tails, "v": heads, "w": [1, 1]}, "u", "v", "w")
            self.assertEqual(graph.names, tuple(dict.fromkeys(tails + heads)))
        self.assertEqual(spt.Graph.from_frame({"u": ["a"], "v": ["b"], "w": [1]}, "u", "v", "w", nodes=[]).n, 2)

    def test_look_ups(self):
        text = spt.Graph.from_frame({"u": ["8497386544"], "v": ["9"], "w": [1]}, "u", "v", "w")
        ids = spt.Graph.from_frame({"u": [8497386544], "v": [9], "w": [1]}, "u", "v", "w")
        known = "is not a vertex name in this graph of 2 vertices, which has"
        for call in (text.tree, lambda it: text.path("9", it), lambda it: text.nearest([it]), text.tree("9").path):
            self.refused(spt.NoSuchVertex, f"8497386544 {known} '8497386544', text", lambda: call(8497386544))
        self.refused(spt.NoSuchVertex, f"'8497386544' {known} 8497386544, a number", lambda: ids.tree("8497386544"))
        for graph, wrong in ((text, 5), (text, "5"), (ids, 5), (ids, "5"), (ids, "5" * 5000), (text, None), (ids, (9,)), (ids, [9]), (text, "²")):
            self.refused(spt.NoSuchVertex, f"{wrong!r} {known} names (Graph.names)", lambda: graph.tree(wrong))

    @unittest.skipIf(networkx is None, "NetworkX isn't installed")
    def test_graphml(self):
        theirs = networkx.parse_graphml("\n".join(networkx.generate_graphml(networkx.DiGraph([(8497386544, 9)]))))
        graph = spt.Graph.from_networkx(theirs, None)
        text = "8497386544 is not a vertex name in this graph of 2 vertices, which has '8497386544', text"
        self.refused(spt.NoSuchVertex, text, lambda: graph.path(8497386544, "9"))


class OneUnit(Case):
    """What is in the unit of the given lengths."""

    ARCS = [(1, 2, 2.5), (2, 3, 4), (1, 3, 7.25)]

    def test_pairs(self):
        # in quarters: 10 + 16 = 26 is 6.5
        plain, graph = spt.Graph(4, [(1, 2, 10), (2, 3, 16), (1, 3, 29)]), spt.Graph(4, self.ARCS, unit=0.25)
        tree, forest, towards = graph.tree(1), graph.nearest([1]), graph.tree(3, towards=True)
        within = graph.tree(1, within=6.5)
        for pair in (graph.pair(1, 3), tree.pair(3), forest.pair(3), within.pair(3)):
            self.assertEqual((pair, repr(pair), pair.distance, pair.length), (spt.Pair(26, 2), "Pair(distance=26, predecessor=2)", 26, 6.5))
        for pair in (towards.pair(1), graph.pair(3, 1, towards=True)):
            self.assertEqual((pair, repr(pair), pair.next, pair.length), ((26, 2), "Pair(distance=26, next=2)", 2, 6.5))
        self.assertEqual((graph.pair(1, 1).length, graph.pair(1, 4), spt.Pair(26, 2).length), (0, None, 26))
        for pair in (plain.pair(1, 3), plain.tree(1).pair(3), plain.pair(3, 1, towards=True)):
            self.assertEqual((pair.length, type(pair.length)), (26, int))
        self.assertEqual(graph.route(1, 3).length, 6.5)

    def test_pairs_as_tuples(self):
        graph = spt.Graph(4, self.ARCS, unit=0.25)
        for pair in (graph.pair(1, 3), graph.pair(3, 1, towards=True)):
            distance, predecessor = pair
            self.assertEqual((distance, predecessor, len(pair), pair._fields, hash(pair)), (26, 2, 2, ("distance", "predecessor"), hash((26, 2))))
            for protocol in range(pickle.HIGHEST_PROTOCOL + 1):
                twin = pickle.loads(pickle.dumps(pair, protocol))
                self.assertEqual((twin, type(twin), twin.length), (pair, type(pair), 6.5))
            for twin in (copy.copy(pair), copy.deepcopy(pair)):
                self.assertEqual((twin, type(twin), twin.length), (pair, type(pair), 6.5))

    @unittest.skipIf(numpy is None, "NumPy isn't installed")
    def test_lists(self):
        for unit, arcs, wanted in ((0.25, self.ARCS, [0, 2.5, 6.5, math.inf]), (None, [(1, 2, 10), (2, 3, 16), (1, 3, 29)], [0, 10, 26, math.inf])):
            graph = spt.Graph(4, arcs, unit=unit)
            for found in (graph.tree(1), graph.nearest([1]), graph.tree(1, within=wanted[2]), pickle.loads(pickle.dumps(graph.tree(1)))):
                self.assertEqual((found.lengths.tolist(), found.lengths.dtype, found.lengths is found.lengths), (wanted, "float64", True))
                self.assertEqual(list(found.distances)[:3], [0, 10, 26])
                with self.assertRaises(ValueError):
                    found.lengths[0] = 1
                found.floats()[0] = 1
            self.assertEqual(graph.tree(1), graph.tree(1))
            self.assertEqual(graph.tree(3, towards=True).lengths.tolist(), [wanted[2], wanted[2] - wanted[1], 0, math.inf])
            matrix = graph.matrix([1, 2], [3, 4])
            self.assertEqual((matrix.lengths.tolist(), matrix.lengths is matrix.lengths), ([[wanted[2], math.inf], [wanted[2] - wanted[1], math.inf]], True))
            self.assertEqual(matrix.distances.tolist(), [[26, spt.UNREACHED], [16, spt.UNREACHED]])
            with self.assertRaises(ValueError):
                matrix.lengths[0, 0] = 1

    def test_what_is_said(self):
        # the first line of each docstring about what counts in units
        for it in (spt.Pair, spt.Part, spt.Route, spt.Graph.pair, spt.Tree.pair, spt.Tree.masked, spt.Matrix.masked):
            self.assertRegex(it.__doc__.splitlines()[0], r"\bunits\b", it)


class Files(Case):
    """Bytes that are read, and folders that can't be saved to."""

    TEXT = b"p sp 3 2\na 1 2 3\na 2 3 4\n"

    def test_bytes(self):
        packed = io.BytesIO()
        spt.Graph.read(self.TEXT).save(packed)
        packed = packed.getvalue()
        for make in (bytes, bytearray, memoryview):
            for call, data in ((spt.Graph.read, self.TEXT), (spt.Graph.read, packed), (spt.Graph.load, packed)):
                graph = call(make(data))
                self.assertEqual((graph.n, graph.m, graph.path(1, 3), list(graph.tree(1).distances)), (3, 2, [1, 2, 3], [0, 3, 7]))
                self.assertEqual(call(make(data), both_ways=True).path(3, 1), [3, 2, 1])
        changed = bytearray(self.TEXT)
        graph = spt.Graph.read(changed)
        changed[15:16] = b"9"
        self.assertEqual(list(graph.tree(1).distances), [0, 3, 7])

    def test_wrong_bytes(self):
        for call, data, text in (
            (spt.Graph.read, b"p sp 2 1\na 1 2 0\n", "gr: line 2: 5 OutOfRange W\nlengths are whole numbers from 1 to 4294967295"),
            (spt.Graph.read, b"", "gr: line 1: 3 NoProblem\nno `p sp N M` line; a .gr file has one `p sp N M`, and `a U V W` for each of its M arcs"),
            (spt.Graph.read, gzip.compress(self.TEXT), "gr: line 1: 2 BadLine\ncompressed with gzip; give gzip.open(path), or a name that ends in .gz"),
            (spt.Graph.load, self.TEXT, "gr: byte 0: 10 OtherForm\nno packed graph of spt; Graph.read takes the text of a graph, too"),
        ):
            with self.assertRaises(spt.Fault) as told:
                call(data)
            self.assertEqual(str(told.exception), text)
        self.refused(TypeError, "gr is open for reading text: open it for bytes, with mode 'rb'", lambda: spt.Graph.read(io.StringIO("p sp 1 0\n")))
        with tempfile.TemporaryDirectory() as folder:
            path = os.path.join(folder, "roads.gr")
            with open(path, "w") as it:
                it.write(self.TEXT.decode())
            with open(path) as it:
                self.refused(TypeError, f"{path} is open for reading text: open it for bytes, with mode 'rb'", lambda: spt.Graph.read(it))

    def test_folders(self):
        plain, named = spt.Graph(2, [(1, 2, 3)]), spt.Graph(2, [(1, 2, 3)], nodes=["a", "b"])
        with tempfile.TemporaryDirectory() as folder:
            folder = os.path.realpath(folder)
            file, nowhere = os.path.join(folder, "file"), os.path.join(folder, "no", "where")
            with open(file, "w"):
                pass
            os.symlink(os.path.join(nowhere, "roads.spt"), os.path.join(folder, "link"))
            for graph in (plain, named):
                for path, kind, text in (
                    (folder, IsADirectoryError, f"{folder} is a folder: save to a file in it, such as {folder}/graph.spt"),
                    (f"{folder}/", IsADirectoryError, f"{folder}/ is a folder: save to a file in it, such as {folder}/graph.spt"),
                    (f"{nowhere}/", IsADirectoryError, f"{nowhere}/ is a folder: save to a file in it, such as {nowhere}/graph.spt"),
                    (f"{nowhere}/roads.spt", FileNotFoundError, f"can't save to {nowhere}/roads.spt: there is no folder {nowhere}; make it first"),
                    (f"{folder}/link", FileNotFoundError, f"can't save to {folder}/link: there is no folder {nowhere}; make it first"),
                    (f"{file}/roads.spt", NotADirectoryError, f"can't save to {file}/roads.spt: {file} is a file, not a folder"),
                ):
                    self.refused(kind, text, lambda: graph.save(path))
            self.assertEqual(sorted(os.listdir(folder)), ["file", "link"])
            os.makedirs(nowhere)
            for path in (f"{nowhere}/roads.spt", f"{folder}/link"):
                named.save(path)
                self.assertEqual(spt.Graph.load(path).path("a", "b"), ["a", "b"])


class Workers(Case):
    """As many threads as there are processors."""

    def test_all(self):
        graph = spt.Graph(4, samples.DIAMOND)
        trees, matrix = list(graph.trees([1, 2, 3, 4])), graph.matrix([1, 2], [4, 1]).tolist()
        for processors, threads in ((1, 1), (3, 3), (64, 64), (65, 64), (1000, 64)):
            with mock.patch.object(spt._share, "_processors", return_value=processors):
                self.assertEqual(spt._share.workers_of("all"), threads)
                asked = []
                with mock.patch.object(spt._graph, "in_order", lambda total, workers, *more: asked.append(workers) or iter(())):
                    list(graph.trees([1, 2], workers="all")), graph.matrix([1], [1], workers="all"), graph.routes([], workers="all")
                self.assertEqual(asked, [threads, threads, threads])
                self.assertEqual(list(graph.trees([1, 2, 3, 4], workers="all")), trees)
                self.assertEqual(graph.matrix([1, 2], [4, 1], workers="all").tolist(), matrix)
        self.assertGreaterEqual(spt._share._processors(), 1)
        if hasattr(os, "sched_getaffinity"):
            self.assertEqual(spt._share._processors(), len(os.sched_getaffinity(0)))
        with mock.patch.object(spt._share, "os", mock.Mock(spec=["cpu_count"], cpu_count=lambda: None)):
            self.assertEqual(spt._share._processors(), 1)
        if scipy is not None:
            self.assertEqual(spt.dijkstra(graph, indices=[0, 1], workers="all").tolist(), spt.dijkstra(graph, indices=[0, 1]).tolist())

    def test_refused(self):
        graph = spt.Graph(4, samples.DIAMOND)
        calls = [lambda it: graph.trees([1], workers=it), lambda it: graph.matrix([1], [2], workers=it), lambda it: graph.routes([(1, 2)], workers=it)]
        for call in calls + ([lambda it: spt.dijkstra(graph, workers=it)] if scipy is not None else []):
            for wrong in (0, -2):
                self.refused(ValueError, f"{wrong} workers: at least 1 is needed", lambda: call(wrong))
            for wrong, kind in (("many", ValueError), ("ALL", ValueError), ("4", ValueError), (2.5, TypeError), (None, TypeError), (["all"], TypeError)):
                self.refused(kind, f'workers {wrong!r}: must be a number from 1, or "all" for all processors', lambda: call(wrong))


if __name__ == "__main__":
    unittest.main()
