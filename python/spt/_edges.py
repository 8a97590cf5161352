"""The edges of NetworkX's graphs, read row by row in loops that run in C."""

from __future__ import annotations

import array
import itertools
import operator

from typing import Any, Callable, Dict, Iterable, List, Sequence, Tuple

# a node's neighbours, each with the edge to it, or in a multigraph with a dict of edges
Row = Dict[Any, Any]


def rows_of(graph: Any) -> Tuple[Tuple[Any, ...], List[Row]]:
    """Returns the nodes of a graph, and of each its row."""
    adjacency = dict(graph.adjacency())
    nodes, rows = tuple(adjacency), list(adjacency.values())
    if set(map(type, rows)) <= {dict} or not graph.is_multigraph():
        return nodes, rows
    # (a view has a neighbour even if it hides all edges to it)
    return nodes, [{head: edges for head, edges in row.items() if len(edges)} for row in rows]


def values_of(dicts: Sequence[Any]) -> List[Any]:
    """Returns the values of all dicts, or of the views in their place, one after another."""
    values: Callable[[Any], Any] = operator.methodcaller("values")
    if set(map(type, dicts)) <= {dict}:
        values = dict.values
    return list(itertools.chain.from_iterable(map(values, dicts)))


def attributes(edges: Sequence[Any], name: Any, missing: Any) -> List[Any]:
    """Returns this attribute of each edge, or what counts for one that lacks it."""
    try:
        return list(map(operator.itemgetter(name), edges))
    except KeyError:
        return [edge.get(name, missing) for edge in edges]


def repeated(given: Iterable[int], counts: Iterable[int]) -> array.array[int]:
    """Returns each number as many times as is told of it."""
    return array.array("I", itertools.chain.from_iterable(itertools.starmap(itertools.repeat, zip(given, counts))))


def heads_of(numbers: Dict[Any, int], rows: Sequence[Row]) -> array.array[int]:
    """Returns the numbers of all neighbours, row by row."""
    return array.array("I", map(numbers.__getitem__, itertools.chain.from_iterable(rows)))
