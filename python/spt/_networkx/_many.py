"""NetworkX's functions that search from many sources, one after another."""

from __future__ import annotations

import itertools

from typing import Any, Callable, Dict, Iterator, List, Optional, Tuple

import networkx

from ._found import Found
from ._graph import Graph
from ._paths import paths_of
from ._sources import levels

Each = Iterator[Tuple[Any, Any]]


def _all_pairs(G: Graph, weight: Any, cutoff: Optional[float], told: Callable[[Found], Any]) -> Each:
    """Yields each node with what is told of the search from it."""
    return zip(G.nodes, map(told, G.lengths(weight).searches(range(G.n), cutoff)))


def all_lengths(G: Graph, weight: Any, cutoff: Optional[float]) -> Each:
    return _all_pairs(G, weight, cutoff, lambda found: found.lengths(G.labels))


def all_paths(G: Graph, weight: Any, cutoff: Optional[float]) -> Each:
    return _all_pairs(G, weight, cutoff, lambda found: paths_of(found, G))


def all_pairs_dijkstra(G: Graph, cutoff: Optional[float] = None, weight: Any = "weight") -> Each:
    return _all_pairs(G, weight, cutoff, lambda found: (found.lengths(G.labels), paths_of(found, G)))


def all_pairs_dijkstra_path(G: Graph, cutoff: Optional[float] = None, weight: Any = "weight") -> Each:
    return all_paths(G, weight, cutoff)


def all_pairs_dijkstra_path_length(G: Graph, cutoff: Optional[float] = None, weight: Any = "weight") -> Each:
    return all_lengths(G, weight, cutoff)


def all_pairs_shortest_path(G: Graph, cutoff: Optional[float] = None) -> Each:
    return all_paths(G, None, levels(cutoff))


def all_pairs_shortest_path_length(G: Graph, cutoff: Optional[float] = None) -> Each:
    return all_lengths(G, None, levels(cutoff))


def average_shortest_path_length(G: Graph, weight: Any = None, method: Any = None) -> float:
    if G.n == 1:
        return 0
    for ones in (G.ones, G.ones.turned) if G.is_directed else (G.ones,):
        if len(ones.search([0])) < G.n:
            raise networkx.NetworkXError(f"Graph is not {'strongly ' if G.is_directed else ''}connected.")
    found = G.lengths(weight).searches(range(G.n))
    # (one sum after another, as NetworkX adds them)
    length: float = sum(itertools.chain.from_iterable(each.totals for each in found))
    return length / (G.n * (G.n - 1))


def closeness_centrality(G: Graph, u: Any = None, distance: Any = None, wf_improved: bool = True) -> Any:
    words = "Source {} is not in G" if distance is None else "Node {} not found in graph"
    sources = range(G.n) if u is None else [G.place(u, words)]
    told = {}
    for source, found in zip(sources, G.facing(distance).searches(sources)):
        told[G.nodes[source]] = _closeness(G.n, found.totals, wf_improved)
    return told if u is None else told[u]


def _closeness(n: int, totals: List[Any], is_improved: bool) -> float:
    """Returns the closeness of a node to those from which it is reached."""
    length, others = sum(totals), len(totals) - 1.0
    near: float = others / length if length > 0.0 and n > 1 else 0.0
    return near * (others / (n - 1)) if is_improved and n > 1 else near


def eccentricity(G: Graph, v: Any = None, sp: Any = None, weight: Any = None) -> Any:
    if v is None or G.has(v):
        sources: Any = range(G.n) if v is None else [G.place(v)]
    elif hasattr(v, "__iter__"):
        sources = [G.place(node) for node in v if G.has(node)]
    else:
        raise networkx.NetworkXError(f"Node {v} is not in the graph.")
    told: Dict[Any, Any] = {}
    for source, found in zip(sources, G.lengths(weight).searches(sources)):
        if len(found) < G.n:
            more = "digraph is not strongly connected" if G.is_directed else "graph is not connected"
            raise networkx.NetworkXError(f"Found infinite path length because the {more}")
        told[G.nodes[source]] = found.totals[-1] if G.n > 1 else 0
    return told[v] if G.has(v) else told
