"""NetworkX's functions of a source and a target, and those that take any of the two."""

from __future__ import annotations

from typing import Any, List, Tuple

import networkx

from ._graph import Graph
from ._many import all_lengths, all_paths
from ._paths import paths_of
from ._settings import IS_BEFORE_3_5
from ._sources import (
    multi_source_dijkstra, single_source_dijkstra_path, single_source_dijkstra_path_length, single_source_shortest_path,
    single_source_shortest_path_length,
)
from ._way import total, way

_ENDS = "Source {} is not in G", "Target {} is not in G"


def dijkstra_path(G: Graph, source: Any, target: Any, weight: Any = "weight") -> List[Any]:
    path: List[Any] = multi_source_dijkstra(G, {source}, target, None, weight)[1]
    return path


def dijkstra_path_length(G: Graph, source: Any, target: Any, weight: Any = "weight") -> Any:
    begin = G.place(source)
    if source == target:
        return 0
    length = total(G.lengths(weight), begin, G.place(target)) if G.has(target) else None
    if length is None:
        raise networkx.NetworkXNoPath(f"Node {target} not reachable from {source}")
    return length


def bidirectional_dijkstra(G: Graph, source: Any, target: Any, weight: Any = "weight") -> Tuple[Any, List[Any]]:
    begin, end = (G.place(node, told) for node, told in zip((source, target), _ENDS))
    found = way(G.lengths(weight), begin, end, follows_ties=False)
    if found is None:
        raise networkx.NetworkXNoPath(f"No path between {source} and {target}.")
    return found[0], [G.nodes[at] for at in found[1]]


def bidirectional_shortest_path(G: Graph, source: Any, target: Any) -> List[Any]:
    return bidirectional_dijkstra(G, source, target, None)[1]


def has_path(G: Graph, source: Any, target: Any) -> bool:
    ends = [G.place(node, told) + 1 for node, told in zip((source, target), _ENDS)]
    return bool(source == target or G.ones.graph.pair(*ends) is not None)


def shortest_path(G: Graph, source: Any = None, target: Any = None, weight: Any = None, method: Any = "dijkstra") -> Any:
    if source is None and target is None:
        return dict(all_paths(G, weight, None)) if IS_BEFORE_3_5 else all_paths(G, weight, None)
    if source is None:
        # (NetworkX searches from the target in the graph turned round, and says so)
        told = "Source {} not in G" if weight is None else "Node {} not found in graph"
        return paths_of(G.facing(weight).search([G.place(target, told)]), G, towards=True)
    if target is None:
        return single_source_shortest_path(G, source) if weight is None else single_source_dijkstra_path(G, source, None, weight)
    return bidirectional_dijkstra(G, source, target, weight)[1]


def shortest_path_length(G: Graph, source: Any = None, target: Any = None, weight: Any = None, method: Any = "dijkstra") -> Any:
    if source is None and target is None:
        return all_lengths(G, weight, None)
    if source is None:
        told = "Source {} is not in G" if weight is None else "Node {} not found in graph"
        return G.facing(weight).search([G.place(target, told)]).lengths(G.labels)
    if target is not None:
        return bidirectional_dijkstra(G, source, target, None)[0] if weight is None else dijkstra_path_length(G, source, target, weight)
    if weight is None:
        return single_source_shortest_path_length(G, source)
    return single_source_dijkstra_path_length(G, source, None, weight)
