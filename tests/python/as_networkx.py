"""The package as a backend of NetworkX, called as NetworkX 3.4 and later call one, so that it can be tried over older versions too."""

import collections
import functools
import inspect
import weakref

from importlib.metadata import entry_points

import networkx
import spt

from _spt_networkx import FUNCTIONS
from asked import Asked

# the parameters of each function in NetworkX 3.4; its decorator names `weight` or `distance` as the attribute of edges, where there is one
PARAMETERS = {
    "all_pairs_dijkstra": "G, cutoff=None, weight='weight'",
    "all_pairs_dijkstra_path": "G, cutoff=None, weight='weight'",
    "all_pairs_dijkstra_path_length": "G, cutoff=None, weight='weight'",
    "all_pairs_shortest_path": "G, cutoff=None",
    "all_pairs_shortest_path_length": "G, cutoff=None",
    "average_shortest_path_length": "G, weight=None, method=None",
    "bidirectional_dijkstra": "G, source, target, weight='weight'",
    "bidirectional_shortest_path": "G, source, target",
    "closeness_centrality": "G, u=None, distance=None, wf_improved=True",
    "dijkstra_path": "G, source, target, weight='weight'",
    "dijkstra_path_length": "G, source, target, weight='weight'",
    "dijkstra_predecessor_and_distance": "G, source, cutoff=None, weight='weight'",
    "eccentricity": "G, v=None, sp=None, weight=None",
    "has_path": "G, source, target",
    "multi_source_dijkstra": "G, sources, target=None, cutoff=None, weight='weight'",
    "multi_source_dijkstra_path": "G, sources, cutoff=None, weight='weight'",
    "multi_source_dijkstra_path_length": "G, sources, cutoff=None, weight='weight'",
    "shortest_path": "G, source=None, target=None, weight=None, method='dijkstra'",
    "shortest_path_length": "G, source=None, target=None, weight=None, method='dijkstra'",
    "single_source_dijkstra": "G, source, target=None, cutoff=None, weight='weight'",
    "single_source_dijkstra_path": "G, source, cutoff=None, weight='weight'",
    "single_source_dijkstra_path_length": "G, source, cutoff=None, weight='weight'",
    "single_source_shortest_path": "G, source, cutoff=None",
    "single_source_shortest_path_length": "G, source, cutoff=None",
    "single_target_shortest_path": "G, target, cutoff=None",
    "single_target_shortest_path_length": "G, target, cutoff=None",
    "voronoi_cells": "G, center_nodes, weight='weight'",
}
# what stands in the cache of a graph that couldn't be read
FAILED = "failed"


def entry_point(group):
    """What NetworkX finds by the name `spt` in a group of entry points."""
    points = entry_points()
    # (before Python 3.10 they are a dict)
    return next(it for it in (points.select(group=group) if hasattr(points, "select") else points.get(group, ())) if it.name == "spt")


def signature(name):
    """A function's parameters, and those that NetworkX adds for backends."""
    return inspect.signature(eval(f"lambda {PARAMETERS[name]}, *, backend=None, **backend_kwargs: None"))


def attribute_of(name):
    """The parameter that names the attribute of edges; None if there is none."""
    return next((it for it in ("weight", "distance") if it in signature(name).parameters), None)


class Dispatcher:
    """A double of NetworkX's dispatch to a backend: it finds it by its entry points, and calls it in the same order, with the same arguments.

    It asks whether the function can run, and should run unless the graph is spt's already, reads the graph unless that was read before for
    the same attributes, and gives all arguments by their places, those that weren't given too. As for NetworkX's own tests, a `plain` one
    keeps no graph and doesn't ask what should run.
    """

    def __init__(self, plain=False):
        self.plain, self.kept, self.read = plain, weakref.WeakKeyDictionary(), 0
        self.info, self.point = entry_point("networkx.backend_info").load()(), entry_point("networkx.backends")

    @functools.cached_property
    def backend(self):
        """The module, which NetworkX loads when a function is first called."""
        return self.point.load()

    def run(self, name, args, kwargs):
        """The backend's answer. NotImplementedError: why it has none. TypeError: the arguments don't fit."""
        if name not in self.info["functions"] or not hasattr(self.backend, name):
            raise NotImplementedError(f"spt has no {name}")
        bound = signature(name).bind(*args, **kwargs)
        is_ours = getattr(bound.arguments["G"], "__networkx_backend__", "networkx") == "spt"
        for ask in (self.backend.can_run, *(() if self.plain or is_ours else (self.backend.should_run,))):
            told = ask(name, args, kwargs)
            if told is not True:
                raise NotImplementedError(told)
        bound.apply_defaults()
        if not is_ours:
            bound.arguments["G"] = self.converted(name, bound.arguments["G"], bound.arguments)
        given = bound.kwargs
        del given["backend"]
        return getattr(self.backend, name)(*bound.args, **given)

    def converted(self, name, graph, arguments):
        """The graph as the backend has it, read now or before."""
        weight = arguments.get(attribute_of(name))
        edges, preserves = (None, True) if callable(weight) else (None if weight is None else {weight: 1}, False)
        kept = {} if self.plain else self.kept.setdefault(graph, {})
        key = preserves, None if edges is None else tuple(edges.items())
        if kept.get(key) == FAILED:
            raise NotImplementedError("the graph couldn't be read before")
        if key not in kept:
            kept[key], self.read = FAILED, self.read + 1
            kept[key] = self.backend.convert_from_nx(
                graph, edge_attrs=edges, node_attrs=None, preserve_edge_attrs=preserves, preserve_node_attrs=False,
                preserve_graph_attrs=not self.plain, name=name, graph_name="G",
            )
        return kept[key]


class Calls:
    """How many calls of each function ran on spt, and how many were left to NetworkX, by reasons."""

    ran, left = collections.Counter(), collections.Counter()


PLAIN = Dispatcher(plain=True)


def run(name, *args, **kwargs):
    """Calls the backend's function, after its graph is read. NotImplementedError: why it can't run."""
    return PLAIN.backend.convert_to_nx(PLAIN.run(name, args, kwargs))


def dispatched(name, plain):
    """NetworkX's function, which asks the backend first."""

    @functools.wraps(plain)
    def call(*args, **kwargs):
        try:
            told = run(name, *args, **kwargs)
        except (NotImplementedError, TypeError) as why:
            # (of a TypeError NetworkX is to tell the cause)
            Calls.left[str(why)] += 1
            return plain(*args, **kwargs)
        Calls.ran[name] += 1
        return told

    return call


def watched(kind, plain):
    """A method of spt's graphs, which notes what it is asked."""

    @functools.wraps(plain)
    def call(self, *args, **kwargs):
        Asked.ours |= {kind, *(["within"] if kwargs.get("within") is not None else [])}
        return plain(self, *args, **kwargs)

    return call


def watch():
    """Notes from now on what is asked of spt's graphs."""
    for name, kind in {"tree": "tree", "trees": "tree", "pair": "tree", "nearest": "nearest"}.items():
        setattr(spt.Graph, name, watched(kind, getattr(spt.Graph, name)))


def functions():
    """NetworkX's functions, each of which asks the backend first."""
    return {name: dispatched(name, getattr(networkx, name)) for name in FUNCTIONS}
