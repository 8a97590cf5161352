"""A graph of NetworkX as spt has it."""

from __future__ import annotations

from functools import cached_property
from typing import Any, Dict, List, Optional, Sequence, Tuple

import networkx
import numpy

from numpy.typing import NDArray

from .._edges import Row, attributes, heads_of, rows_of, values_of
from .._names import Names
from ._lengths import Lengths, of_costs
from ._settings import Unfit

Array = NDArray[Any]
# the lengths of edges, and which edges have one; None of the latter if all do
Costs = Tuple[Array, Optional[Array]]
_NUMBERS = (int, float, bool, numpy.float64, *(numpy.dtype(letter).type for letter in "bBhHiIlLqQ"))


def costs_of(given: Sequence[Any]) -> Costs:
    """Returns lengths as int64 or float64. Unfit: one isn't a number that these hold as it is."""
    kinds, there = set(map(type, given)), None
    if type(None) in kinds:
        there = numpy.fromiter((it is not None for it in given), bool, len(given))
        given, kinds = [it for it in given if it is not None], kinds - {type(None)}
    odd = next((kind for kind in kinds if kind not in _NUMBERS), None)
    if odd is not None:
        raise Unfit(f"lengths of type {odd.__name__}")
    are_whole = not any(issubclass(kind, float) for kind in kinds)
    try:
        costs = numpy.array(given, numpy.int64 if are_whole else numpy.float64)
    except OverflowError:
        raise Unfit("a length beyond 2^63") from None
    if not are_whole and len(kinds) > 1 and (numpy.abs(costs) >= 2.0**53).any():
        raise Unfit("floats beside whole numbers beyond 2^53")
    return costs, there


class Graph:
    """A graph of NetworkX, whose nodes are numbered from 0 in their order, with its edges as arcs in the order of its rows.

    An undirected edge is two arcs, and edges between the same two nodes are one, since only the shortest counts.
    """

    __networkx_backend__ = "spt"

    def __init__(self, graph: Any, weights: Sequence[Any], is_kept: bool) -> None:
        """Reads the edges, and their lengths by these names of attributes; if the graph is kept, others can be read later."""
        nodes, rows = rows_of(graph)
        self.names, self.n = Names(nodes), len(nodes)
        self.is_directed, self.is_multigraph = graph.is_directed(), graph.is_multigraph()
        self.tails = numpy.repeat(numpy.arange(self.n), numpy.fromiter(map(len, rows), numpy.intp, self.n))
        self.heads = numpy.asarray(heads_of(self.names.numbers, rows), numpy.uint32).astype(numpy.intp) - 1
        self._kept = graph if is_kept else None
        self._found: Dict[Any, Lengths] = {}
        if weights:
            edges = self._edges(rows)
            self._found = {weight: self._by_name(edges, weight) for weight in weights}

    def __repr__(self) -> str:
        return f"Graph of spt: {self.n} nodes and {len(self.heads)} arcs"

    @property
    def nodes(self) -> Tuple[Any, ...]:
        return self.names.listed

    @cached_property
    def labels(self) -> Array:
        """The nodes as an array."""
        return numpy.fromiter(self.nodes, object, self.n)

    @cached_property
    def ones(self) -> Lengths:
        """The arcs with the length 1 each."""
        return of_costs(self.n, self.tails, self.heads, numpy.ones(len(self.heads), numpy.int64))

    def place(self, node: Any, told: str = "Node {} not found in graph") -> int:
        """Returns the number of a node. NodeNotFound: it isn't there, in these words."""
        if node not in self.names:
            raise networkx.NodeNotFound(told.format(node))
        return self.names.numbers[node] - 1

    def has(self, node: Any) -> bool:
        return node in self.names

    def lengths(self, weight: Any) -> Lengths:
        """Returns the arcs with their lengths: by the name of an attribute, by a function, which is asked anew each time, or 1 for None."""
        if weight is None:
            return self.ones
        if not callable(weight) and weight in self._found:
            return self._found[weight]
        if self._kept is None:
            raise Unfit("the graph was read without this weight")
        nodes, rows = rows_of(self._kept)
        if callable(weight):
            edges = ((tail, head, data) for tail, row in zip(nodes, rows) for head, data in row.items())
            return self._with(costs_of([weight(*edge) for edge in edges]))
        return self._found.setdefault(weight, self._by_name(self._edges(rows), weight))

    def facing(self, weight: Any) -> Lengths:
        """Returns the arcs for ways towards a node."""
        lengths = self.lengths(weight)
        return lengths.turned if self.is_directed else lengths

    def _edges(self, rows: Sequence[Row]) -> Tuple[List[Any], Optional[Array]]:
        """Returns the attributes of all edges, and where those of each arc begin, if some arc has several."""
        edges = values_of(rows)
        if not self.is_multigraph:
            return edges, None
        counts = numpy.fromiter(map(len, edges), numpy.intp, len(edges))
        edges = values_of(edges)
        return edges, numpy.cumsum(counts) - counts if len(edges) > len(counts) else None

    def _by_name(self, edges: Tuple[List[Any], Optional[Array]], weight: Any) -> Lengths:
        listed, begins = edges
        costs, there = costs_of(attributes(listed, weight, 1))
        if begins is not None:
            if there is not None:
                raise Unfit("several edges between two nodes, and one without a length")
            costs = numpy.minimum.reduceat(costs, begins)
        return self._with((costs, there))

    def _with(self, found: Costs) -> Lengths:
        costs, there = found
        ends = (self.tails, self.heads) if there is None else (self.tails[there], self.heads[there])
        return of_costs(self.n, *ends, costs)
