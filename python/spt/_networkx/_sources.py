"""NetworkX's functions that search from one source, or from the nearest of several."""

from __future__ import annotations

import math

from typing import Any, Collection, Dict, List, Optional, Set, Tuple

import networkx

from ._found import Found
from ._graph import Graph
from ._paths import paths_of
from ._settings import IS_BEFORE_3_5
from ._way import way

Sums = Dict[Any, Any]
Paths = Dict[Any, List[Any]]


def levels(cutoff: Optional[float]) -> Optional[float]:
    """Returns a cutoff as NetworkX takes it where lengths aren't asked for: a fraction counts as the next whole number."""
    return cutoff if cutoff is None or math.isinf(cutoff) else math.ceil(cutoff)


def _search(G: Graph, sources: Collection[Any], cutoff: Optional[float], weight: Any) -> Found:
    if not sources:
        raise ValueError("sources must not be empty")
    return G.lengths(weight).search([G.place(source) for source in sources], cutoff)


def multi_source_dijkstra(
    G: Graph, sources: Collection[Any], target: Any = None, cutoff: Optional[float] = None, weight: Any = "weight"
) -> Tuple[Any, Any]:
    if target is None:
        found = _search(G, sources, cutoff, weight)
        return found.lengths(G.labels), paths_of(found, G)
    if target in sources:
        [G.place(source) for source in sources]
        return 0, [target]
    told = _to_target(G, sources, target, cutoff, weight)
    if told is None:
        raise networkx.NetworkXNoPath(f"No path to {target}.")
    return told


def _to_target(
    G: Graph, sources: Collection[Any], target: Any, cutoff: Optional[float], weight: Any
) -> Optional[Tuple[Any, List[Any]]]:
    """Returns the length of a shortest path from the nearest source, and its nodes; None if there is none up to the cutoff."""
    if len(sources) == 1 and G.has(target):
        found_way = way(G.lengths(weight), G.place(*sources), G.place(target))
        is_near = found_way is not None and (cutoff is None or found_way[0] <= cutoff)
        return (found_way[0], [G.nodes[at] for at in found_way[1]]) if found_way and is_near else None
    found = _search(G, sources, cutoff, weight)
    paths = paths_of(found, G)
    return (found.lengths(G.labels)[target], paths[target]) if target in paths else None


def multi_source_dijkstra_path(
    G: Graph, sources: Collection[Any], cutoff: Optional[float] = None, weight: Any = "weight"
) -> Paths:
    return paths_of(_search(G, sources, cutoff, weight), G)


def multi_source_dijkstra_path_length(
    G: Graph, sources: Collection[Any], cutoff: Optional[float] = None, weight: Any = "weight"
) -> Sums:
    return _search(G, sources, cutoff, weight).lengths(G.labels)


def single_source_dijkstra(
    G: Graph, source: Any, target: Any = None, cutoff: Optional[float] = None, weight: Any = "weight"
) -> Tuple[Any, Any]:
    return multi_source_dijkstra(G, {source}, target, cutoff, weight)


def single_source_dijkstra_path(G: Graph, source: Any, cutoff: Optional[float] = None, weight: Any = "weight") -> Paths:
    return multi_source_dijkstra_path(G, {source}, cutoff, weight)


def single_source_dijkstra_path_length(G: Graph, source: Any, cutoff: Optional[float] = None, weight: Any = "weight") -> Sums:
    return multi_source_dijkstra_path_length(G, {source}, cutoff, weight)


def dijkstra_predecessor_and_distance(
    G: Graph, source: Any, cutoff: Optional[float] = None, weight: Any = "weight"
) -> Tuple[Dict[Any, List[Any]], Sums]:
    found = G.lengths(weight).search([G.place(source, "Node {} is not found in the graph")], cutoff)
    return found.predecessors(G.labels, math.inf if cutoff is None else cutoff), found.lengths(G.labels)


def voronoi_cells(G: Graph, center_nodes: Collection[Any], weight: Any = "weight") -> Dict[Any, Set[Any]]:
    found = _search(G, center_nodes, None, weight)
    cells = found.cells(G.labels)
    if len(found) < G.n:
        cells["unreachable"] = set(G.nodes).difference(found.nodes(G.labels))
    return cells


def single_source_shortest_path(G: Graph, source: Any, cutoff: Optional[float] = None) -> Paths:
    return paths_of(G.ones.search([G.place(source, "Source {} not in G")], levels(cutoff)), G)


def single_source_shortest_path_length(G: Graph, source: Any, cutoff: Optional[float] = None) -> Sums:
    return G.ones.search([G.place(source, "Source {} is not in G")], levels(cutoff)).lengths(G.labels)


def single_target_shortest_path(G: Graph, target: Any, cutoff: Optional[float] = None) -> Paths:
    found = G.facing(None).search([G.place(target, "Target {} not in G")], levels(cutoff))
    return paths_of(found, G, towards=True)


def single_target_shortest_path_length(G: Graph, target: Any, cutoff: Optional[float] = None) -> Any:
    told = G.facing(None).search([G.place(target, "Target {} is not in G")], levels(cutoff)).lengths(G.labels)
    return iter(told.items()) if IS_BEFORE_3_5 else told
