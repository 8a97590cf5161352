"""The backend of NetworkX beside NetworkX itself: ten kinds of lengths, four kinds of graphs, by `==` on floats."""

import concurrent.futures
import contextlib
import copy
import importlib
import inspect
import json
import logging
import math
import pickle
import random
import subprocess
import sys
import types
import unittest

from importlib.metadata import entry_points
from unittest import mock

try:
    import networkx
    import numpy
except ImportError:
    raise unittest.SkipTest("NetworkX or NumPy isn't installed") from None

import samples
import spt._networkx as backend

from _spt_networkx import FUNCTIONS, SETTINGS, get_info
from as_networkx import PARAMETERS, Dispatcher, attribute_of, run, signature

IS_NEW = tuple(map(int, networkx.__version__.split(".")[:2])) >= (3, 4)
CLASSES = (networkx.Graph, networkx.DiGraph, networkx.MultiGraph, networkx.MultiDiGraph)
LENGTHS = {
    "whole": lambda draw: draw.randrange(1, 9),
    "float": lambda draw: draw.random() * 10,
    "decimal": lambda draw: round(draw.random() * 3, 1) + 0.1,
    "zero": lambda draw: draw.randrange(3),
    "zero or tiny": lambda draw: draw.choice([0.0, draw.random(), 1e-12, 1e6]),
    "huge": lambda draw: draw.randrange(2**40),
    "whole floats": lambda draw: float(draw.randrange(1, 5)),
    "mixed": lambda draw: draw.choice([1, 0.1, 2, 0.3]),
    "hidden": lambda draw: draw.choice([1, 2, None]),
    "wild": lambda draw: math.exp(draw.uniform(-30, 30)),
}


def town(draw, kind, most):
    """A graph by lot, some of whose edges have no length, and its nodes, of several types."""
    graph, n = draw.choice(CLASSES)(), draw.randrange(1, most)
    nodes = [draw.choice([at, str(at), (at, at), at + 0.5]) for at in range(n)]
    graph.add_nodes_from(nodes)
    for _ in range(draw.randrange(3 * n)):
        given = {"w": LENGTHS[kind](draw)} if draw.random() < 0.9 else {}
        graph.add_edge(draw.choice(nodes), draw.choice(nodes), **given)
    return graph, nodes


def town_of_the_docs():
    """The town of examples/streets.py."""
    sys.path.insert(0, f"{samples.HOME}/examples")
    try:
        return importlib.import_module("streets").town()
    finally:
        sys.path.pop(0)


@contextlib.contextmanager
def settings(**given):
    """Runs a block with these settings of the backend: in NetworkX's configuration if it has one, from 3.4 on."""
    ours = networkx.config.backends.spt if IS_NEW else types.SimpleNamespace()
    before = {name: getattr(ours, name, SETTINGS[name]) for name in given}
    for name, value in given.items():
        setattr(ours, name, value)
    config = types.SimpleNamespace(backends=types.SimpleNamespace(spt=ours))
    try:
        with contextlib.nullcontext() if IS_NEW else mock.patch.object(networkx, "config", config, create=True):
            yield
    finally:
        for name, value in before.items():
            setattr(ours, name, value)


def by_function(tail, head, data):
    """The attribute `w` of an edge, or the least one of several edges, as NetworkX reads it."""
    return min(it.get("w", 1) for it in data.values()) if data and isinstance(next(iter(data.values())), dict) else data.get("w", 1)


def outcome(call, *args, **kwargs):
    """What a call returns, with iterators as dicts, or the exception that it raises."""
    try:
        told = call(*args, **kwargs)
        return told if isinstance(told, (dict, tuple, list, int, float)) else dict(told)
    except NotImplementedError:
        raise
    except Exception as error:
        return (type(error), str(error)) if IS_NEW else type(error)


def is_error(told):
    return isinstance(told, type) or isinstance(told, tuple) and len(told) == 2 and isinstance(told[0], type)


class Same(unittest.TestCase):
    """Answers beside NetworkX's."""

    def same(self, name, *args, how=None, **kwargs):
        """Compares an answer with NetworkX's: they are equal, with numbers of the same type, or `how` says so of both."""
        wanted = outcome(getattr(networkx, name), *args, **kwargs)
        try:
            told = outcome(run, name, *args, **kwargs)
        except NotImplementedError as why:
            return self.left.append(str(why))
        self.compared += 1
        if how is not None and not is_error(wanted) and not is_error(told):
            return self.assertTrue(how(wanted, told), f"{self.seed}: {name}: {wanted} {told}")
        self.assertEqual(wanted, told, f"{self.seed}: {name}")
        if name.endswith("source_dijkstra_path_length") and isinstance(wanted, dict):
            self.assertEqual(list(told.values()), sorted(told.values()))
            # (where some lengths are floats, all sums are)
            if self.kind in ("whole", "zero", "huge"):
                self.assertEqual(set(map(type, told.values())), {int})
        return None

    def from_sources(self, graph, nodes, draw, weight, cutoff):
        source, target = draw.choice(nodes), draw.choice(nodes)
        several = {draw.choice(nodes) for _ in range(3)}
        named = {"cutoff": cutoff, "weight": weight}
        self.same("single_source_dijkstra_path_length", graph, source, **named)
        self.same("single_source_dijkstra_path", graph, source, **named)
        self.same("single_source_dijkstra", graph, source, **named)
        self.same("single_source_dijkstra", graph, source, target, **named)
        self.same("multi_source_dijkstra_path_length", graph, several, **named)
        self.same("multi_source_dijkstra_path", graph, several, **named)
        self.same("multi_source_dijkstra", graph, several, target, **named)
        self.same("dijkstra_predecessor_and_distance", graph, source, **named)
        self.same("voronoi_cells", graph, several, weight=weight)
        self.same("single_source_dijkstra_path", graph, "nowhere", **named)

    def of_pairs(self, graph, nodes, draw, weight):
        source, target = draw.choice(nodes), draw.choice(nodes)

        def is_near(wanted, told):
            # (NetworkX adds the two halves of the path, so that its last digits may differ)
            ends = told[1][0], told[1][-1]
            return math.isclose(wanted[0], told[0], rel_tol=1e-13) and ends == (source, target) and told[0] == self.along(graph, weight, told[1])

        self.same("dijkstra_path", graph, source, target, weight=weight)
        self.same("dijkstra_path_length", graph, source, target, weight=weight)
        self.same("bidirectional_dijkstra", graph, source, target, weight=weight, how=is_near)
        self.same("bidirectional_shortest_path", graph, source, target, how=lambda wanted, told: len(wanted) == len(told))
        self.same("has_path", graph, source, target)

    def of_any(self, graph, nodes, draw, weight):
        source, target = draw.choice(nodes), draw.choice(nodes)
        self.same("shortest_path_length", graph, source, target, weight=weight)
        self.same("shortest_path_length", graph, source, weight=weight)
        self.same("shortest_path_length", graph, target=target, weight=weight)
        self.same("shortest_path", graph, source, weight=weight)
        self.same("shortest_path", graph, target=target, weight=weight, how=self.lead_to(graph, weight, target))

    def lead_to(self, graph, weight, target):
        """How to compare paths towards a node: in a directed graph spt may choose others of the same length."""
        def are_same(wanted, told):
            if not graph.is_directed():
                return wanted == told
            ends = all((path[0], path[-1]) == (node, target) for node, path in told.items())
            ways = [[self.along(graph, weight, found[node], True) for node in wanted] for found in (wanted, told)]
            return set(wanted) == set(told) and ends and ways[0] == ways[1]

        return are_same

    @staticmethod
    def along(graph, weight, path, backwards=False):
        """The sum of the lengths along a path, from its first node on, or from its last."""
        steps = list(zip(path, path[1:]))
        if weight is None:
            return len(steps)
        length = networkx.algorithms.shortest_paths.weighted._weight_function(graph, weight)
        return sum(length(tail, head, graph[tail][head]) for tail, head in (reversed(steps) if backwards else steps))

    def of_hops(self, graph, nodes, draw, cutoff):
        node = draw.choice(nodes)
        for name in ("single_source_shortest_path", "single_source_shortest_path_length", "single_target_shortest_path_length"):
            self.same(name, graph, node, cutoff=cutoff)
        self.same("single_target_shortest_path", graph, node, cutoff=cutoff, how=self.lead_to(graph, None, node))

    def of_all(self, graph, weight, cutoff, levels):
        lengths = {} if weight is None else {"weight": weight}
        for name in ("all_pairs_dijkstra_path_length", "all_pairs_dijkstra_path", "all_pairs_dijkstra"):
            self.same(name, graph, cutoff=cutoff, **lengths)
        for name in ("all_pairs_shortest_path_length", "all_pairs_shortest_path"):
            self.same(name, graph, cutoff=levels)
        self.same("closeness_centrality", graph, distance=weight)
        # (NetworkX 2 takes a graph that is connected one way)
        if IS_NEW or not graph.is_directed() or networkx.is_strongly_connected(graph):
            self.same("average_shortest_path_length", graph, weight=weight)
        self.same("eccentricity", graph, **(lengths if IS_NEW else {}))

    def compare(self, seed, most):
        """Compares answers about a graph by lot."""
        self.seed, draw = seed, random.Random(seed)
        self.kind = draw.choice(list(LENGTHS))
        graph, nodes = town(draw, self.kind, most)
        weight = draw.choice(["w", "w", "nothing", by_function if self.kind != "hidden" else "w"])
        cutoff = draw.choice([None, 0, 1, 2.5, 4, 10.0, -1])
        self.from_sources(graph, nodes, draw, weight, cutoff)
        self.of_pairs(graph, nodes, draw, weight)
        self.of_any(graph, nodes, draw, draw.choice([weight, None]))
        levels = cutoff if IS_NEW or cutoff is None else max(0, math.floor(cutoff))
        self.of_hops(graph, nodes, draw, levels)
        if most < 100:
            self.of_all(graph, draw.choice([weight, None]), cutoff, levels)

    def setUp(self):
        self.compared, self.left = 0, []

    def test_small(self):
        for seed in range(120):
            self.compare(seed, 30)
        self.assertGreater(self.compared, 3000)
        self.assertLessEqual(set(self.left), {
            "a function as weight, asked backwards", "several edges between two nodes, and one without a length",
        })

    def test_large(self):
        for seed in range(1000, 1005):
            self.compare(seed, 1500)
        self.assertGreater(self.compared, 100)


    def test_streets(self):
        # times in whole seconds and in tenths, as OSMnx rounds them, of which many are equal
        streets, draw = town_of_the_docs(), random.Random(1)
        for round_to in (lambda seconds: 1 + round(seconds), lambda seconds: round(seconds, 1)):
            for *_, edge in streets.edges(data=True):
                edge["w"] = round_to(edge["travel_time"])
            kept = backend.convert_from_nx(streets, edge_attrs={"w": 1})
            for _ in range(5):
                some = draw.sample(list(streets), 20)
                for name in ("multi_source_dijkstra", "voronoi_cells"):
                    self.assertEqual(getattr(backend, name)(kept, some, weight="w"), getattr(networkx, name)(streets, some, weight="w"))
                wanted = networkx.single_source_dijkstra(streets, some[0], weight="w")
                self.assertEqual(backend.single_source_dijkstra(kept, some[0], weight="w"), wanted)
                for target in (it for it in some if it in wanted[0]):
                    self.assertEqual(backend.dijkstra_path(kept, some[0], target, weight="w"), wanted[1][target])


class Paths(unittest.TestCase):
    """Dicts of paths, which are made when they are looked at."""

    def setUp(self):
        draw = random.Random(7)
        self.graph, nodes = town(draw, "whole", 60)
        self.source, self.other = nodes[0], "other"
        self.wanted = networkx.single_source_dijkstra_path(self.graph, self.source, weight="w")
        self.assertGreater(len(self.wanted), 5)

    def told(self):
        return run("single_source_dijkstra_path", self.graph, self.source, weight="w")

    def test_as_a_dict(self):
        last, wanted = list(self.wanted)[-1], self.wanted
        for call in (
            dict, copy.copy, copy.deepcopy, lambda it: it.copy(), lambda it: pickle.loads(pickle.dumps(it)), lambda it: {**it},
            lambda it: dict(it.items()), lambda it: dict(zip(it, it.values())), lambda it: {node: it[node] for node in it},
            lambda it: {node: it.get(node) for node in it}, lambda it: {node: it.pop(node) for node in list(it)}, lambda it: it | {},
            lambda it: {} | it, lambda it: dict(it.popitem() for _ in range(len(it))), lambda it: {node: it.setdefault(node) for node in it},
        ):
            told = call(self.told())
            self.assertEqual((type(told), told), (dict, wanted))
            self.assertNotIn("looked at", str(told))
        told = self.told()
        self.assertEqual((told[last], told.get("nowhere", 7), told.pop("nowhere", 7), repr(told)), (wanted[last], 7, 7, repr(dict(told))))
        self.assertTrue(self.told() == wanted and wanted == self.told() and not self.told() != wanted and self.told() == self.told())
        self.assertEqual(json.dumps([*self.told().values()], default=str), json.dumps([*dict(told).values()], default=str))
        with self.assertRaises(KeyError):
            self.told()["nowhere"]

    def test_paths_are_apart(self):
        # (whoever has a path may change it)
        for first in (lambda it: it[self.source], lambda it: list(it.values())[0]):
            told = self.told()
            first(told).append("changed")
            self.assertEqual({**told, self.source: [self.source]}, self.wanted)

    def test_all_at_once(self):
        with settings(lazy_paths=False):
            self.assertIs(type(self.told()), dict)
        self.assertEqual(self.told(), self.wanted)


class Reading(unittest.TestCase):
    """How graphs are read, and what is left to NetworkX."""

    def test_views(self):
        draw = random.Random(3)
        for _ in range(20):
            graph, nodes = town(draw, draw.choice(["whole", "float"]), 60)
            some = set(draw.sample(nodes, (len(nodes) + 1) // 2))
            views = [graph.subgraph(some), networkx.restricted_view(graph, [], list(graph.edges)[::2]), graph.copy(as_view=True)]
            for view in views + ([graph.reverse(copy=False)] if graph.is_directed() else []):
                source = draw.choice(list(view))
                wanted = networkx.single_source_dijkstra(view, source, weight="w")
                self.assertEqual(run("single_source_dijkstra", view, source, weight="w"), wanted)

    def test_other_weights_later(self):
        graph = networkx.DiGraph([(1, 2, {"a": 3, "b": 1.5}), (2, 3, {"a": 4, "b": 0})])
        kept = backend.convert_from_nx(graph, preserve_edge_attrs=True)
        for weight in ("a", "b", "c", lambda tail, head, data: data["a"] + data["b"]):
            wanted = networkx.single_source_dijkstra_path_length(graph, 1, weight=weight)
            self.assertEqual(backend.single_source_dijkstra_path_length(kept, 1, weight=weight), wanted)
        with self.assertRaisesRegex(NotImplementedError, "read without this weight"):
            backend.single_source_dijkstra(backend.convert_from_nx(graph, edge_attrs={"a": 1}), 1, weight="b")
        self.assertEqual(repr(kept), "Graph of spt: 3 nodes and 2 arcs")
        with self.assertRaises(NotImplementedError):
            backend.convert_to_nx(kept)

    def test_what_is_left_to_networkx(self):
        for given, why in (
            (-1, "below 0"), (math.nan, "below 0"), (math.inf, "too great"), ("3", "type str"), (2**63, "beyond"), (2**62, "too great"),
            (numpy.float32(1), "type float32"), ([1], "type list"), (1e308, "too great"), (5e-324, "too small"),
        ):
            graph = networkx.DiGraph([(1, 2, {"w": given}), (2, 3, {"w": given})])
            with self.assertRaisesRegex(NotImplementedError, why):
                run("single_source_dijkstra", graph, 1, weight="w")
        with self.assertRaisesRegex(NotImplementedError, "a graph without nodes"):
            run("closeness_centrality", networkx.Graph())

    def test_copies_of_what_was_read(self):
        # (NetworkX keeps it with the graph, so that a copy or a pickle of the graph has it too)
        graph, nodes = town(random.Random(4), "float", 60)
        wanted = networkx.single_source_dijkstra(graph, nodes[0], weight="w")
        kept = backend.convert_from_nx(graph, edge_attrs={"w": 1})
        for twin in (copy.deepcopy(kept), pickle.loads(pickle.dumps(kept))):
            self.assertEqual(backend.single_source_dijkstra(twin, nodes[0], weight="w"), wanted)
            self.assertEqual(backend.has_path(twin, nodes[0], nodes[0]), True)

    def test_by_several_threads(self):
        graph, nodes = town(random.Random(8), "float", 400)
        kept = backend.convert_from_nx(graph, edge_attrs={"w": 1})
        wanted = {node: networkx.single_source_dijkstra(graph, node, weight="w") for node in nodes[:8]}
        with concurrent.futures.ThreadPoolExecutor(4) as pool:
            told = dict(zip(wanted, pool.map(lambda node: backend.single_source_dijkstra(kept, node, weight="w"), wanted)))
        self.assertEqual(told, wanted)
        with settings(workers=2):
            self.assertEqual(dict(run("all_pairs_dijkstra", graph, weight="w")), dict(networkx.all_pairs_dijkstra(graph, weight="w")))

    def test_numbers_of_numpy(self):
        for kind in (numpy.float64, numpy.int32, numpy.uint8, bool):
            graph = networkx.DiGraph([(1, 2, {"w": kind(1)}), (2, 3, {"w": kind(3)})])
            wanted = networkx.single_source_dijkstra_path_length(graph, 1, weight="w")
            self.assertEqual(run("single_source_dijkstra_path_length", graph, 1, weight="w"), wanted)

    def test_which_calls_can_run(self):
        graph, function = networkx.path_graph(300), lambda tail, head, data: 1
        for name, given, told in (
            ("shortest_path", {"method": "bellman-ford"}, True), ("shortest_path", {"method": "bellman-ford", "weight": "w"}, "method 'bellman-ford'"),
            ("average_shortest_path_length", {"method": "floyd-warshall"}, "method 'floyd-warshall'"),
            ("eccentricity", {"sp": {}}, "lengths that are given"), ("shortest_path", {"source": 1, "G": graph}, "the arguments don't fit the function"),
            ("closeness_centrality", {"distance": function}, "a function as weight, asked backwards"),
            ("shortest_path", {"target": 1, "weight": function}, "a function as weight, asked backwards"),
            ("shortest_path", {"source": 1, "weight": function}, True), ("dijkstra_path", {"source": 1, "target": 2}, True),
        ):
            self.assertEqual(backend.can_run(name, (graph,), given), told)
        with mock.patch.object(backend._dispatch, "HAS_NEAR", False):
            self.assertEqual(backend.can_run("dijkstra_path", (graph, 1, 2), {}), "libspt.so is older than 1.4")
        self.assertIs(backend.should_run("dijkstra_path", (graph, 1, 2), {}), True)
        self.assertEqual(backend.should_run("dijkstra_path", (graph, 1, 2), {"weight": function}), (
            "a function as weight would be asked of all edges, for a single pair"
        ))
        self.assertEqual(backend.should_run("has_path", (networkx.path_graph(199), 1, 2), {}), "few nodes")

    def test_settings(self):
        graph, less = networkx.path_graph(6), networkx.path_graph(4)
        with settings(least_nodes=5, lazy_paths=False):
            self.assertEqual((backend.should_run("has_path", (graph, 1, 2), {}), backend.should_run("has_path", (), {"G": graph})), (True, True))
            self.assertEqual(backend.should_run("has_path", (less, 1, 2), {}), "few nodes")
            self.assertIs(type(backend.single_source_dijkstra_path(backend.convert_from_nx(graph), 0, weight=None)), dict)
            self.assertEqual(backend._settings.setting("workers"), 1)
        self.assertEqual({name: backend._settings.setting(name) for name in SETTINGS}, SETTINGS)

    def test_what_networkx_is_told(self):
        self.assertEqual(set(get_info()["functions"]), set(FUNCTIONS))
        for name in FUNCTIONS:
            ours, theirs = (list(inspect.signature(getattr(it, name)).parameters) for it in (backend, networkx))
            # (NetworkX adds its own parameters, and `weight` to eccentricity from 3 on)
            self.assertEqual(ours, [it for it in theirs if it not in ("backend", "backend_kwargs")] if IS_NEW or name != "eccentricity" else ours)
        if sys.version_info >= (3, 10):
            for group, value in (("networkx.backends", "spt._networkx"), ("networkx.backend_info", "_spt_networkx:get_info")):
                self.assertEqual({it.value for it in entry_points(group=group) if it.name == "spt"}, {value})
        program = "import sys, _spt_networkx; print(*(it for it in ('spt', 'numpy', 'networkx') if it in sys.modules))"
        self.assertEqual(subprocess.run([sys.executable, "-c", program], capture_output=True, text=True).stdout, "\n")

    def test_without_numpy(self):
        program = (
            "import sys; sys.modules['numpy'] = None; import importlib.util as it; find = it.find_spec\n"
            "it.find_spec = lambda name, *more: None if name == 'numpy' else find(name, *more)\n"
            "import spt._networkx as backend; print(backend.can_run('has_path', (), {}), hasattr(backend, 'has_path'), hasattr(backend, 'pagerank'))"
        )
        told = subprocess.run([sys.executable, "-c", program], capture_output=True, text=True).stdout
        self.assertEqual(told, "NumPy isn't installed, which spt needs as a backend True False\n")

    def test_lengths_that_are_mended(self):
        # steps of 1 tell nothing of lengths that are far smaller than the greatest
        draw = random.Random(5)
        graph = networkx.DiGraph()
        graph.add_weighted_edges_from([(0, "far", 1e18), *((draw.randrange(60), draw.randrange(60), draw.random() * 1e-6) for _ in range(300))])
        wanted = networkx.single_source_dijkstra(graph, 0)
        self.assertEqual(run("single_source_dijkstra", graph, 0), wanted)
        for target in wanted[0]:
            self.assertEqual(run("single_source_dijkstra", graph, 0, target), (wanted[0][target], wanted[1][target]))


def ring(nodes, seed=1):
    """A strongly connected graph by lot, in which no two paths are of the same length."""
    draw, graph = random.Random(seed), networkx.DiGraph()
    ends = [(at, (at + 1) % nodes) for at in range(nodes)] + [(draw.randrange(nodes), draw.randrange(nodes)) for _ in range(2 * nodes)]
    graph.add_weighted_edges_from(((*both, draw.random()) for both in ends), weight="w")
    return graph


def calls_of(graph):
    """A call of each function: its arguments behind the graph."""
    weight, several = {"weight": "w"}, [3, 50, 100]
    return {
        "all_pairs_dijkstra": ((), {"cutoff": 2, **weight}), "all_pairs_dijkstra_path": ((), {"cutoff": 2, **weight}),
        "all_pairs_dijkstra_path_length": ((2, "w"), {}), "all_pairs_shortest_path": ((3,), {}), "all_pairs_shortest_path_length": ((), {"cutoff": 3}),
        "average_shortest_path_length": ((), weight), "bidirectional_dijkstra": ((1, 99), weight), "bidirectional_shortest_path": ((1, 99), {}),
        "closeness_centrality": ((), {"distance": "w"}), "dijkstra_path": ((1, 99), weight), "dijkstra_path_length": ((1,), {"target": 99, **weight}),
        "dijkstra_predecessor_and_distance": ((1,), weight), "eccentricity": ((), weight if IS_NEW else {}), "has_path": ((1, 99), {}),
        "multi_source_dijkstra": ((several,), weight), "multi_source_dijkstra_path": ((several,), weight),
        "multi_source_dijkstra_path_length": ((several,), {"cutoff": 1.5, **weight}), "shortest_path": ((), {"source": 1, **weight}),
        "shortest_path_length": ((), {"target": 99, **weight}), "single_source_dijkstra": ((1,), weight), "single_source_dijkstra_path": ((1, 4, "w"), {}),
        "single_source_dijkstra_path_length": ((1,), weight), "single_source_shortest_path": ((1, 3), {}), "single_source_shortest_path_length": ((1,), {}),
        "single_target_shortest_path": ((1,), {"cutoff": 3}), "single_target_shortest_path_length": ((1,), {}), "voronoi_cells": ((several, "w"), {}),
    }


def comparable(name, told):
    """An answer without the choice between paths of equally many edges, and without the last digit of a sum of two halves."""
    if name == "bidirectional_shortest_path":
        return len(told)
    if name == "single_target_shortest_path":
        return {node: len(path) for node, path in told.items()}
    if name == "bidirectional_dijkstra":
        return round(told[0], 12), told[1]
    return told


class Double(unittest.TestCase):
    """The dispatch of NetworkX 3.4, by a double, where NetworkX is older too."""

    def setUp(self):
        self.dispatcher, self.graph = Dispatcher(), ring(240)

    def test_each_function(self):
        calls = calls_of(self.graph)
        self.assertEqual(set(calls), set(FUNCTIONS))
        for name, (args, kwargs) in calls.items():
            wanted = comparable(name, outcome(getattr(networkx, name), self.graph, *args, **kwargs))
            for _ in range(2):
                told = outcome(self.dispatcher.run, name, (self.graph, *args), kwargs)
                self.assertEqual(comparable(name, told), wanted, name)
            by_name = {"G": self.graph, **kwargs, **dict(zip(list(signature(name).parameters)[1:], args))}
            self.assertEqual(comparable(name, outcome(self.dispatcher.run, name, (), by_name)), wanted, name)
        # (it was read once without lengths, and once with)
        self.assertEqual(self.dispatcher.read, 2)

    def test_what_is_kept(self):
        run, pair = self.dispatcher.run, (self.graph, 1, 99)
        for kwargs in ({"weight": None}, {"weight": "w"}, {"weight": "v"}):
            self.assertEqual(run("shortest_path_length", pair, kwargs), networkx.shortest_path_length(*pair, **kwargs))
        self.assertEqual(self.dispatcher.read, 3)
        kept = self.dispatcher.kept[self.graph][False, (("w", 1),)]
        self.assertEqual(run("dijkstra_path", (kept, 1, 99), {"weight": "w"}), networkx.dijkstra_path(*pair, weight="w"))
        self.graph.add_edge(1, 2, w="three")
        self.dispatcher.kept.clear()
        for why in ("lengths of type str", "couldn't be read before"):
            with self.assertRaisesRegex(NotImplementedError, why):
                run("dijkstra_path", pair, {"weight": "w"})
        self.assertEqual(self.dispatcher.read, 4)

    def test_what_is_left_to_networkx(self):
        def function(tail, head, data):
            return data["w"]

        for name, args, kwargs, why in (
            ("has_path", (ring(199), 1, 99), {}, "few nodes"),
            ("dijkstra_path", (self.graph, 1, 99, function), {}, "a function as weight would be asked of all edges"),
            ("shortest_path", (self.graph,), {"target": 1, "weight": function}, "asked backwards"),
            ("shortest_path", (self.graph, 1), {"weight": "w", "method": "bellman-ford"}, "method 'bellman-ford'"),
            ("pagerank", (self.graph,), {}, "spt has no pagerank"),
        ):
            with self.assertRaisesRegex(NotImplementedError, why):
                self.dispatcher.run(name, args, kwargs)
        self.assertEqual(self.dispatcher.read, 0)
        told = self.dispatcher.run("single_source_dijkstra_path_length", (self.graph, 1), {"weight": function})
        self.assertEqual(told, networkx.single_source_dijkstra_path_length(self.graph, 1, weight="w"))
        with self.assertRaises(TypeError):
            self.dispatcher.run("has_path", (self.graph, 1, 99), {"wrong": 1})
        with self.assertRaises(networkx.NodeNotFound):
            self.dispatcher.run("has_path", (self.graph, 1, "nowhere"), {})

    @unittest.skipUnless(IS_NEW, "NetworkX dispatches to backends from 3.4 on")
    def test_it_is_like_networkx(self):
        for name in FUNCTIONS:
            real = networkx.utils.backends._registered_algorithms[name]
            while not isinstance(real, networkx.utils.backends._dispatchable):
                real = real.__wrapped__
            self.assertEqual(real.__signature__, signature(name))
            self.assertEqual((real.edge_attrs, real.node_attrs, real.graphs), (attribute_of(name), None, {"G": 0}))
            kept = real.preserve_edge_attrs, real.preserve_node_attrs, real.preserve_graph_attrs, real.mutates_input, real._returns_graph
            self.assertEqual(set(kept), {False})
        self.assertEqual(set(PARAMETERS), set(FUNCTIONS))


@unittest.skipUnless(IS_NEW, "NetworkX dispatches to backends from 3.4 on")
class Dispatch(unittest.TestCase):
    """The switch of NetworkX itself, which finds the backend by the entry points of an installed package, or of python/spt.dist-info."""

    def setUp(self):
        self.assertIn("spt", networkx.config.backends)
        self.set(networkx.config.backends.spt, "least_nodes", 0)
        getattr(networkx.config, "warnings_to_ignore", set()).add("cache")

    def set(self, config, name, value):
        """Sets an item of a configuration until the test ends."""
        self.addCleanup(setattr, config, name, getattr(config, name))
        setattr(config, name, value)

    def test_answers(self):
        for seed in range(30):
            graph, nodes = town(random.Random(seed), "float", 60)
            self.set(networkx.config.backend_priority, "algos", [])
            wanted = networkx.single_source_dijkstra(graph, nodes[0], weight="w")
            self.set(networkx.config.backend_priority, "algos", ["spt"])
            told = networkx.single_source_dijkstra(graph, nodes[0], weight="w")
            self.assertEqual((told, type(told[1])), (wanted, backend._paths.Paths))
            self.assertIn("spt", graph.__networkx_cache__["backends"])

    def test_each_function(self):
        graph = ring(240)
        for name, (args, kwargs) in calls_of(graph).items():
            told = []
            for priority in ([], ["spt"]):
                self.set(networkx.config.backend_priority, "algos", priority)
                with self.assertLogs("networkx", "DEBUG") as log:
                    told.append(comparable(name, outcome(getattr(networkx, name), graph, *args, **kwargs)))
                    logging.getLogger("networkx").debug("the end")
            self.assertEqual(*told, name)
            self.assertIn(f"Using backend 'spt' for call to '{name}'", "".join(log.output))

    def test_falls_back(self):
        graph = networkx.DiGraph([(1, 2, {"w": "three"}), (2, 3, {"w": 1})])
        self.set(networkx.config.backend_priority, "algos", ["spt"])
        with self.assertLogs("networkx", "DEBUG") as log:
            self.assertTrue(networkx.has_path(graph, 1, 3))
            with self.assertRaises(TypeError):
                networkx.dijkstra_path(graph, 1, 3, weight="w")
        self.assertIn("lengths of type str", "".join(log.output))


if __name__ == "__main__":
    unittest.main()
