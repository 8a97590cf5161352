"""What NetworkX asks of a backend: whether it can and should run a function, and to read a graph."""

from __future__ import annotations

import inspect

from typing import Any, Dict, Optional, Sequence, Union

import networkx

from .._library import HAS_NEAR, HAS_PACKED, HAS_PAIR
from ._graph import Graph
from ._settings import Unfit, setting

# functions of which some arguments are left to NetworkX
_PARTLY = {"shortest_path", "shortest_path_length", "average_shortest_path_length", "closeness_centrality", "eccentricity"}
# functions of one source and one target
_PAIRS = {"dijkstra_path", "dijkstra_path_length", "bidirectional_dijkstra"}
# NetworkX's own tests that compare lists of nodes, where spt answers with another path of the same length
_OTHER_PATHS = {"test_unweighted_diamond", "test_weighted_diamond", "test_petersen_graph", "test_gh6787_and_edge_attribute_names"}


def convert_from_nx(
    graph: Any, *, edge_attrs: Optional[Dict[Any, Any]] = None, preserve_edge_attrs: bool = False, **others: Any
) -> Graph:
    """Returns a graph of NetworkX as spt has it. Unfit: spt can't take it."""
    if not len(graph):
        raise Unfit("a graph without nodes")
    return Graph(graph, tuple(edge_attrs or ()), bool(preserve_edge_attrs))


def convert_to_nx(given: Any, **others: Any) -> Any:
    """Returns an answer, which is NetworkX's already."""
    if isinstance(given, Graph):
        raise Unfit("a graph of spt has no attributes to give back")
    return given


def _arguments(name: str, args: Sequence[Any], kwargs: Dict[str, Any]) -> Dict[str, Any]:
    """Returns the arguments of a call by name. TypeError: they don't fit the function."""
    named = {key: given for key, given in kwargs.items() if key != "backend"}
    bound = inspect.signature(getattr(networkx, name)).bind(*args, **named)
    bound.apply_defaults()
    return bound.arguments


def can_run(name: str, args: Sequence[Any], kwargs: Dict[str, Any]) -> Union[bool, str]:
    """Returns True, or why spt can't run the function with these arguments."""
    if not (HAS_PAIR and HAS_NEAR and HAS_PACKED):
        return "libspt.so is older than 1.4"
    if name not in _PARTLY:
        return True
    try:
        given = _arguments(name, args, kwargs)
    except TypeError:
        return "the arguments don't fit the function"
    weight = given.get("weight", given.get("distance"))
    is_unweighted = weight is None and name != "average_shortest_path_length"
    if given.get("method", "dijkstra") not in (("dijkstra", "bellman-ford") if is_unweighted else ("dijkstra", None)):
        return f"method {given['method']!r}"
    if given.get("sp") is not None:
        return "lengths that are given"
    is_turned = name == "closeness_centrality" or given.get("source", 0) is None and given.get("target") is not None
    return "a function as weight, asked backwards" if is_turned and callable(weight) else True


def should_run(name: str, args: Sequence[Any], kwargs: Dict[str, Any]) -> Union[bool, str]:
    """Returns True, or why NetworkX would be faster."""
    graph = args[0] if args else kwargs.get("G")
    if graph is not None and len(graph) < setting("least_nodes"):
        return "few nodes"
    if name in _PAIRS and callable(_arguments(name, args, kwargs)["weight"]):
        return "a function as weight would be asked of all edges, for a single pair"
    return True


def on_start_tests(items: Sequence[Any]) -> None:
    """Tells NetworkX's own tests what another of several shortest paths changes."""
    import pytest

    for item in items:
        if item.name in _OTHER_PATHS and "TestMinimumCycleBasis" in item.nodeid:
            item.add_marker(pytest.mark.xfail(reason="lists a cycle from another node, or another of equal length"))
