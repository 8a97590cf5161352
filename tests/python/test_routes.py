"""Routes: their vertices, lengths and arcs, for one pair and for many."""

import array
import copy
import io
import itertools
import pickle
import random
import sys
import threading
import unittest

from unittest import mock

import samples
import spt

from samples import numpy, pandas
from spt._library import library

# the last vertex alone is beyond the greatest distance
PATH = 4098
TOWN = {"u": ["Depot", "Mill", "Depot", "Depot"], "v": ["Mill", "Quay", "Quay", "Mill"], "km": [3, 4, 7.25, 2.5], "both": [0, 1, 1, 1]}


def town(**named):
    return spt.Graph.from_frame(TOWN, "u", "v", "km", unit=0.25, **named)


def led(rows, both_ways):
    """What each row leads from and to, its length and its number; `both_ways` says for which rows it also leads back."""
    forth = [(tail, head, length, row) for row, (tail, head, length) in enumerate(rows)]
    back = [(head, tail, length, row) for tail, head, length, row in forth if both_ways[row]]
    return forth + back


def routes_of(arcs, n, source):
    """The distance and the vertices for each target by plain Python: predecessors are the smallest that there are."""
    plain = [arc[:3] for arc in arcs]
    distances = samples.distances_from(plain, n, source)
    before = samples.smallest_predecessors(plain, source, distances)
    found = []
    for target in range(1, n + 1):
        walk = [target]
        while before[walk[-1] - 1]:
            walk.append(before[walk[-1] - 1])
        found.append(None if distances[target - 1] == spt.UNREACHED else (tuple(walk[::-1]), distances[target - 1]))
    return found


def rows_of(arcs, vertices):
    """The row that each step takes: of the shortest the first."""
    steps = zip(vertices, vertices[1:])
    return [min((length, row) for tail, head, length, row in arcs if (tail, head) == step)[1] for step in steps]


def turned(arcs):
    return [(head, tail, *more) for tail, head, *more in arcs]


class WorkedExamples(unittest.TestCase):
    def test_example_1(self):
        pairs = [(1, 4), (1, 1), (4, 1)]
        graph = spt.Graph(4, samples.DIAMOND)
        self.assertEqual(graph.routes(pairs), [((1, 2, 4), 5, 5), ((1,), 0, 0), None])
        self.assertEqual(graph.routes(pairs, towards=True), [None, ((1,), 0, 0), ((1, 2, 4), 5, 5)])
        graph = spt.Graph(4, samples.DIAMOND, both_ways=True)
        self.assertEqual(graph.routes(pairs), [((1, 2, 4), 5, 5), ((1,), 0, 0), ((4, 2, 1), 5, 5)])

    def test_example_3(self):
        arcs = [(1, 4, 2), (1, 3, 2), (4, 2, 1), (3, 2, 1), (2, 5, 1), (1, 5, 4)]
        self.assertEqual(spt.Graph(5, arcs).routes([(1, 5)]), [((1, 5), 4, 4)])
        self.assertEqual(spt.Graph(5, arcs[:-1]).routes([(1, 5)]), [((1, 3, 2, 5), 4, 4)])

    def test_example_4(self):
        graph = spt.Graph(2, [(1, 2, 9), (1, 2, 4), (1, 2, 4)])
        for route in (graph.route(1, 2), *graph.routes([(1, 2)])):
            self.assertEqual(route.arcs, [1])

    def test_example_5(self):
        graph = spt.Graph(3, [(1, 2, 1000), (2, 3, 288.6)], unit=0.1)
        for route in (graph.route(1, 3), *graph.routes([(1, 3)])):
            self.assertEqual((route.distance, route.length), (12886, 1288.6))


class ByLot(unittest.TestCase):
    """Beside plain Python, on graphs with ties, parallel arcs and loops; with NumPy and as without it."""

    def assertRoutes(self, graph, arcs, name=lambda number: number, told=lambda distance: distance):
        """Compares all routes of a graph whose arcs are these."""
        n = graph.n
        for towards, sources in ((False, (1, 2 % n + 1)), (True, (n,))):
            wanted = []
            for source in sources:
                for found in routes_of(turned(arcs) if towards else arcs, n, source):
                    walk = found and (found[0][::-1] if towards else found[0])
                    wanted.append(found and (tuple(map(name, walk)), found[1], told(found[1]), rows_of(arcs, walk)))
            pairs = [(name(source), name(target)) for source in sources for target in range(1, n + 1)]
            for workers in (1, 2, 4):
                routes = graph.routes(pairs, workers, towards=towards)
                self.assertEqual([route and (*route, route.arcs) for route in routes], wanted)
            routes = [graph.route(*pair, towards=towards) for pair in pairs]
            self.assertEqual([route and (*route, route.arcs) for route in routes], wanted)
            self.assertEqual([graph.path(*pair, towards=towards) for pair in pairs], [it and list(it[0]) for it in wanted])

    def graphs(self, n, seed):
        """A graph in each way in which its arcs may lead, and these."""
        numbers = samples.by_lot(n, 4 * n, seed, (3, 1000)[seed % 2])
        rows, draw = samples.triples(numbers), random.Random(seed)
        flags = [draw.random() < 0.5 for _ in rows]
        all_ways = [True] * len(rows)
        yield spt.Graph(n, numbers), led(rows, [False] * len(rows))
        yield spt.Graph(n, rows, both_ways=True), led(rows, all_ways)
        columns = dict(zip("uvw", map(list, zip(*rows))))
        yield spt.Graph.from_frame({**columns, "both": flags}, "u", "v", "w", both_ways="both", nodes=range(1, n + 1)), led(rows, flags)
        yield spt.Graph.from_frame(columns, "u", "v", "w", both_ways=True, nodes=range(1, n + 1)), led(rows, all_ways)
        # (a packed file has its arcs in an order of its own)
        file = io.BytesIO()
        spt.Graph(n, numbers).save(file)
        packed = file.getvalue()
        rows = samples.triples(spt.Graph.load(packed).arcs)
        self.assertEqual(rows, sorted(rows))
        yield spt.Graph.load(packed), led(rows, [False] * len(rows))
        yield spt.Graph.load(packed, both_ways=True), led(rows, all_ways)

    def test_all_ways(self):
        for hidden, (seed, n) in itertools.product(samples.WAYS, enumerate((1, 2, 9, 25))):
            with mock.patch.dict(sys.modules, hidden):
                for graph, arcs in self.graphs(n, seed):
                    for it in (graph, pickle.loads(pickle.dumps(graph)), pickle.loads(pickle.dumps(graph, 2)), graph.turned().turned()):
                        self.assertRoutes(it, arcs)
                    for it in (graph.turned(), pickle.loads(pickle.dumps(graph.turned()))):
                        self.assertRoutes(it, turned(arcs))

    def test_names_and_unit(self):
        for n in (8, 20):
            rows, draw = samples.triples(samples.by_lot(n, 4 * n, n, 6)), random.Random(n)
            names = [f"place {it}" for it in range(n)]
            draw.shuffle(names)
            graph = spt.Graph(n, [(tail, head, length / 4) for tail, head, length in rows], unit=0.25, nodes=names)
            self.assertRoutes(graph, led(rows, [False] * len(rows)), lambda number: names[number - 1], lambda distance: distance / 4)
            numbered = graph.named(range(100, 100 + n))
            self.assertRoutes(numbered, led(rows, [False] * len(rows)), lambda number: 99 + number, lambda distance: distance / 4)


class Arcs(unittest.TestCase):
    def test_rows(self):
        # the frame has the bridge in its third row, and the way by the mill in its fourth and second
        graph = town()
        self.assertEqual([(it.arcs, it.length) for it in graph.routes([("Depot", "Quay"), ("Mill", "Quay")])], [([3, 1], 6.5), ([1], 4)])
        for both_ways, wanted in ((True, [1, 3]), ("both", [1, 3]), (False, None)):
            route = town(both_ways=both_ways).route("Quay", "Depot")
            self.assertEqual(route and (route.vertices, route.arcs), wanted and (("Quay", "Mill", "Depot"), wanted))
        # without the way back by the mill's row, the bridge
        graph = spt.Graph.from_frame({**TOWN, "both": [1, 0, 1, 0]}, "u", "v", "km", unit=0.25, both_ways="both")
        self.assertEqual((graph.route("Quay", "Mill").arcs, graph.route("Quay", "Depot").arcs), ([2, 3], [2]))
        # a row that leads back may come first among parallel ones
        for both_ways in (True, "both"):
            roads = {"u": ["b", "a", "b"], "v": ["a", "b", "a"], "w": [5, 5, 5], "both": [1, 1, 1]}
            graph = spt.Graph.from_frame(roads, "u", "v", "w", both_ways=both_ways)
            self.assertEqual((graph.route("a", "b").arcs, graph.route("b", "a").arcs), ([0], [0]))

    @unittest.skipIf(pandas is None, "pandas isn't installed")
    def test_frames(self):
        roads = pandas.DataFrame(TOWN)
        for both_ways in (False, True, "both"):
            graph = spt.Graph.from_frame(roads, "u", "v", "km", unit=0.25, both_ways=both_ways)
            for source, target in itertools.product(graph.names, repeat=2):
                route = graph.route(source, target)
                if route:
                    self.assertEqual((roads.iloc[route.arcs]["km"].sum(), len(roads.iloc[route.arcs])), (route.length, len(route.vertices) - 1))

    @unittest.skipIf(samples.networkx is None, "NetworkX isn't installed")
    def test_networkx(self):
        draw = random.Random(2)
        for kind in (samples.networkx.DiGraph, samples.networkx.MultiDiGraph, samples.networkx.Graph, samples.networkx.MultiGraph):
            given = kind()
            for _ in range(60):
                given.add_edge(draw.randint(1, 15), draw.randint(1, 15), weight=draw.randint(1, 4))
            graph, edges = spt.Graph.from_networkx(given), list((given if given.is_directed() else given.to_directed()).edges(data=True))
            source = graph.names[0]
            for route in filter(None, graph.routes([(source, target) for target in graph.names])):
                taken = [edges[at] for at in route.arcs]
                self.assertEqual([it[:2] for it in taken], list(zip(route.vertices, route.vertices[1:])))
                self.assertEqual(sum(it[2]["weight"] for it in taken), route.distance)

    def test_one_index(self):
        graph = spt.Graph(4, samples.DIAMOND)
        made = mock.Mock(side_effect=graph._given._made)
        with mock.patch.object(graph._given, "_made", made):
            routes = [graph.route(1, 4), graph.named("abcd").route("a", "d"), graph.route(4, 1, towards=True), *graph.routes([(1, 4), (2, 4)])]
            self.assertEqual(made.call_count, 0)
            self.assertEqual([it.arcs for it in routes], [[0, 2], [0, 2], [0, 2], [0, 2], [2]])
            self.assertEqual((made.call_count, graph.turned().route(4, 1).arcs, made.call_count), (1, [2, 0], 1))

    def test_without_arcs(self):
        for hidden in samples.WAYS:
            with mock.patch.dict(sys.modules, hidden):
                for graph in (spt.Graph(2), spt.Graph(2, both_ways=True)):
                    self.assertEqual((graph.route(2, 2).arcs, graph.route(1, 2)), ([], None))

    def test_lists_of_a_route_are_its_own(self):
        route = spt.Graph(4, samples.DIAMOND).route(1, 4)
        route.arcs.append(7)
        self.assertEqual(route.arcs, [0, 2])


class Routes(unittest.TestCase):
    def setUp(self):
        self.graph = spt.Graph(4, samples.DIAMOND)

    def test_tuples(self):
        # as before they had arcs
        for route in (self.graph.route(1, 4), spt.Route((1, 2, 4), 5, 5)):
            vertices, distance, length = route
            self.assertEqual((vertices, distance, length), ((1, 2, 4), 5, 5))
            self.assertEqual((route, hash(route), len(route), route._fields), ((vertices, 5, 5), hash((vertices, 5, 5)), 3, ("vertices", "distance", "length")))
            self.assertEqual(repr(route), "Route(vertices=(1, 2, 4), distance=5, length=5)")
            self.assertEqual((route._replace(length=2.5), {route: 1}[(1, 2, 4), 5, 5]), (((1, 2, 4), 5, 2.5), 1))
        self.assertEqual(self.graph.route(1, 4), spt.Graph(4, samples.DIAMOND[::-1]).route(1, 4))
        self.assertIs(type(self.graph.route(1, 4)), spt.Route)

    def test_copies(self):
        for route in (self.graph.route(1, 4), self.graph.route(4, 1, towards=True), self.graph.route(1, 1), town().route("Depot", "Quay")):
            twins = [copy.copy(route), copy.deepcopy(route), *(pickle.loads(pickle.dumps(route, it)) for it in range(pickle.HIGHEST_PROTOCOL + 1))]
            for twin in twins:
                self.assertEqual((twin, type(twin), hash(twin), repr(twin), twin.arcs), (route, spt.Route, hash(route), repr(route), route.arcs))
        # (not the graph)
        self.assertLess(len(pickle.dumps(spt.Graph(9999, samples.by_lot(9999, 30_000, 1)).route(1, 1))), 200)

    def test_made_by_hand(self):
        route = spt.Route((1, 2, 4), 5, 5)
        for it in (route, copy.copy(route), pickle.loads(pickle.dumps(route)), self.graph.route(1, 4)._replace(length=1)):
            with self.assertRaisesRegex(AttributeError, "^the arcs of a route are known only if a graph found it$"):
                it.arcs
            self.assertFalse(hasattr(it, "arcs"))

    def test_pairs(self):
        wanted = [((1, 2, 4), 5, 5), None, ((1,), 0, 0), ((1, 2, 4), 5, 5), ((1, 2), 3, 3)]
        listed = [(1, 4), (4, 1), (1, 1), (1, 4), (1, 2)]
        forms = [listed, tuple(listed), iter(listed), list(map(list, listed)), zip(*zip(*listed)), dict(zip(("from", "to"), zip(*listed)))]
        forms.append(memoryview(array.array("I", sum(listed, ()))).cast("B").cast("I", (5, 2)))
        if numpy is not None:
            forms += [numpy.array(listed, kind) for kind in ("uint8", "int64", ">i4", object)]
            forms.append(numpy.array(listed)[::-1][::-1])
        if pandas is not None:
            frame = pandas.DataFrame(listed, columns=["from", "to"], index=list("abcde"))
            forms += [frame, frame.set_axis(["same", "same"], axis=1), frame.set_index(["from", "to"]).index]
        for form in forms:
            self.assertEqual(self.graph.routes(form), wanted)
        named = self.graph.named(["ab", "cd", "ef", "gh"])
        forms = [[("ab", "gh"), ("cd", "cd")], *([numpy.array([["ab", "gh"], ["cd", "cd"]])] if numpy is not None else [])]
        if pandas is not None:
            forms.append(pandas.DataFrame({"u": pandas.Categorical(["ab", "cd"]), "v": ["gh", "cd"]}))
        for form in forms:
            self.assertEqual(named.routes(form), [(("ab", "cd", "gh"), 5, 5), (("cd",), 0, 0)])

    def test_no_pairs(self):
        forms = [[], (), iter([]), {"u": [], "v": []}]
        forms += [numpy.zeros((0, 2), int), numpy.array([])] if numpy is not None else []
        forms += [pandas.DataFrame({"u": [], "v": []})] if pandas is not None else []
        progress = mock.Mock()
        for form in forms:
            for workers in (1, 3):
                self.assertEqual(self.graph.routes(form, workers, progress=progress), [])
        self.assertEqual(progress.call_count, 0)

    def test_wrong_pairs(self):
        form = "pairs are a list of a source and a target each, an array of shape (k, 2), or a frame of two columns"
        for wrong, kind, text in (
            ([(1, 4), (1, 4, 5)], ValueError, f"pair 1 is (1, 4, 5): {form}"), ([(1,)], ValueError, f"pair 0 is (1,): {form}"),
            ([1, 4], TypeError, f"pair 0 is 1: {form}"), (["ab"], TypeError, f"pair 0 is 'ab': {form}"), ([{1, 4}], TypeError, f"pair 0 is {{1, 4}}: {form}"),
            ("ab", TypeError, f"pair 0 is 'a': {form}"), ({"u": [1], "v": [4], "w": [7]}, ValueError, f"columns 'u', 'v', 'w': {form}"),
            (array.array("I", [1, 4]), TypeError, f"pair 0 is 1: {form}"), (7, TypeError, "'int' object is not iterable"),
            *([(numpy.zeros(shape, int), ValueError, f"an array of shape {shape}: {form}") for shape in ((2, 3), (1, 2, 2), (2, 1))] if numpy is not None else []),
        ):
            with self.assertRaises(kind) as told:
                self.graph.routes(wrong)
            self.assertEqual(str(told.exception), text)
        for wrong in (0, 5, -1):
            for pairs in ([(1, wrong)], [(wrong, 1)], [(1, 4), (1, 2), (1, wrong)]):
                with self.assertRaises(spt.NoSuchVertex) as told:
                    self.graph.routes(pairs)
                self.assertEqual(told.exception.vertex, wrong)
        with self.assertRaisesRegex(spt.NoSuchVertex, "^'Dpot' is not a vertex name"):
            town().routes([("Depot", "Quay"), ("Dpot", "Quay")])
        for wrong in (1, None, "Depot"):
            with self.assertRaisesRegex(TypeError, "^towards must be True or False, not"):
                self.graph.routes([(1, 4)], towards=wrong)
        for wrong, kind in ((0, ValueError), ("many", ValueError), (2.5, TypeError)):
            with self.assertRaises(kind):
                self.graph.routes([(1, 4)], wrong)

    def test_equal_pairs(self):
        one, other, third = self.graph.routes([(1, 4), (2, 4), (1, 4)])
        self.assertIs(one, third)
        self.assertEqual(other, ((2, 4), 2, 2))

    def test_too_far(self):
        arcs = [(tail, tail + 1, samples.LONGEST) for tail in range(1, PATH)]
        graph = spt.Graph(PATH, arcs)
        near = PATH - 2
        self.assertEqual([len(it.vertices) for it in graph.routes([(1, near), (1, 5), (2, PATH - 1)])], [near, 5, near])
        for pairs in ([(1, PATH)], [(2, PATH - 1), (1, 5), (1, PATH)], [(1, 5), (1, PATH), (1, 7)]):
            for workers in (1, 2):
                for calls in (lambda: graph.routes(pairs, workers), lambda: graph.route(1, PATH), lambda: graph.path(1, PATH)):
                    with self.assertRaises(spt.TooFar) as told:
                        calls()
                    with self.assertRaises(spt.TooFar) as wanted:
                        graph.pair(1, PATH)
                    self.assertEqual((vars(told.exception), str(told.exception)), (vars(wanted.exception), str(wanted.exception)))
        with self.assertRaisesRegex(spt.TooFar, f"^towards {PATH}, vertex "):
            graph.routes([(PATH, 1), (PATH, 7)], towards=True)
        # a target that isn't reached is none that is too far, unless some vertex is
        graph = spt.Graph(PATH + 1, arcs)
        self.assertEqual(graph.routes([(7, PATH + 1), (7, PATH), (7, 6)])[1:], [(tuple(range(7, PATH + 1)), (PATH - 7) * samples.LONGEST,) + ((PATH - 7) * samples.LONGEST,), None])
        with self.assertRaises(spt.TooFar):
            graph.routes([(1, PATH + 1), (1, 2)])

    def test_no_memory(self):
        for pairs, name, told in (([(1, 4)], "spt_graph_route", spt._library.FoundRoute), ([(1, 4), (1, 2)], "spt_graph_routes", spt._library.Answer)):
            with mock.patch.object(library, name, lambda *given: told(spt._library.MEMORY)):
                with self.assertRaises(MemoryError):
                    self.graph.routes(pairs)
                for status in (spt._library.IN_USE, spt._library.NO_GRAPH):
                    with mock.patch.object(library, name, lambda *given: told(status)), self.assertRaises(spt.SptError):
                        self.graph.routes(pairs)

    def test_progress(self):
        graph = spt.Graph(500, samples.by_lot(500, 2000, 1))
        draw, told = random.Random(1), []
        pairs = [(draw.randint(1, 40), draw.randint(1, 500)) for _ in range(300)]
        wanted = [graph.route(*pair) for pair in pairs]
        for workers in (1, 2, 4, "all"):
            told.clear()
            found = graph.routes(pairs, workers, progress=lambda *given: told.append((given, threading.current_thread())))
            self.assertEqual(found, wanted)
            self.assertEqual({(total, thread) for (_, total), thread in told}, {(300, threading.current_thread())})
            done = [it[0][0] for it in told]
            self.assertEqual((done, done[-1]), (sorted(set(done)), 300))

    def test_progress_may_stop_it(self):
        class Enough(Exception):
            pass

        with self.assertRaises(Enough):
            self.graph.routes(itertools.product(range(1, 5), repeat=2), progress=mock.Mock(side_effect=Enough))

    def test_an_older_library(self):
        calls = (lambda: self.graph.routes([(1, 4)]), lambda: self.graph.routes([], towards=True))
        with mock.patch.object(spt._graph, "HAS_ROUTES", False):
            for call in calls:
                with self.assertRaisesRegex(spt.SptError, "^the library is older than 1.6: it has no spt_graph_route or spt_graph_routes$"):
                    call()
            self.assertEqual((self.graph.path(1, 4), self.graph.path(4, 1), self.graph.path(4, 1, towards=True)), ([1, 2, 4], None, [1, 2, 4]))
            route = self.graph.route(4, 1, towards=True)
            self.assertEqual((route, route.arcs), (((1, 2, 4), 5, 5), [0, 2]))


class Calls(unittest.TestCase):
    """What the library is asked."""

    def counted(self, name):
        call = getattr(library, name)
        made = mock.Mock(side_effect=call)
        self.addCleanup(setattr, library, name, call)
        setattr(library, name, made)
        return made

    def setUp(self):
        self.one, self.many = self.counted("spt_graph_route"), self.counted("spt_graph_routes")

    def asked(self):
        told = self.one.call_count, self.many.call_count
        self.one.reset_mock(), self.many.reset_mock()
        return told

    def test_one_search_for_a_source(self):
        graph = spt.Graph(4, samples.DIAMOND)
        graph.routes([(1, 4), (2, 4), (1, 4), (3, 4), (1, 2), (3, 4), (1, 1)], 2)
        self.assertEqual(self.asked(), (2, 1))
        self.assertEqual([it[0][3] for it in self.many.call_args_list], [])
        graph.routes([(1, 4), (2, 4)], towards=True)
        self.assertEqual(self.asked(), (2, 0))
        graph.path(1, 4), graph.route(4, 1, towards=True)
        self.assertEqual(self.asked(), (2, 0))

    def test_long_routes(self):
        # which need a second call, until the list has grown
        n = 40_000
        graph = spt.Graph(n, [(tail, tail + 1, 2) for tail in range(1, n)])
        self.assertEqual(graph._kept._usual, 3200)
        for target, calls in ((3200, 1), (3201, 2), (6402, 1), (n, 2), (n, 1), (n - 1, 1)):
            self.assertEqual((graph.path(1, target) == list(range(1, target + 1)), self.asked()), (True, (calls, 0)))
        rooms = spt.Graph(n, [(tail, tail + 1, 2) for tail in range(1, n)])
        for targets, calls in (([1, 3200], 1), ([n, n - 1], 2), ([n - 2, n], 1)):
            routes = rooms.routes([(1, target) for target in targets])
            self.assertEqual([it.vertices for it in routes], [tuple(range(1, target + 1)) for target in targets])
            self.assertEqual(self.asked(), (0, calls))
        with mock.patch.object(spt._kept, "_MOST_KEPT", 5000):
            for _ in range(2):
                rooms = spt.Graph(n, [(tail, tail + 1, 2) for tail in range(1, n)])
                self.assertEqual([len(it.vertices) for it in rooms.routes([(1, 4000), (1, 4001)])], [4000, 4001])
                self.assertEqual(self.asked(), (0, 2))
                self.assertLessEqual(len(rooms._kept._waiting[0].room(0).vertices), 5000)
        self.assertEqual([spt.Graph(it)._kept._usual for it in (1, 5, 1023, 1024, 1025, 10_000)], [1, 5, 1023, 1024, 1024, 1600])


if __name__ == "__main__":
    unittest.main()
