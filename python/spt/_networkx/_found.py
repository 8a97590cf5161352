"""What a search has found: sums, predecessors, and what NetworkX tells of them."""

from __future__ import annotations

import itertools

from dataclasses import dataclass
from functools import cached_property
from typing import TYPE_CHECKING, Any, Callable, Dict, Iterator, List, Optional, Set, Tuple

import numpy

from numpy.typing import NDArray

from ._ties import first_tails, replayed

if TYPE_CHECKING:
    from ._lengths import Lengths

Array = NDArray[Any]
# the ranks of the tails and heads of arcs
Ends = Tuple[Array, Array]


def _finder(vertices: Array, n: int) -> Callable[[Array], Array]:
    """Returns a function that gives the ranks of vertices in a list, and -1 for those that aren't there."""
    if len(vertices) * 8 > n:
        ranks = numpy.full(n, -1)
        ranks[vertices] = numpy.arange(len(vertices))
        return ranks.__getitem__
    by_number = numpy.argsort(vertices)

    def find(given: Array) -> Array:
        at = numpy.searchsorted(vertices, given, sorter=by_number)
        ranks = by_number[numpy.minimum(at, len(vertices) - 1)]
        return numpy.where(vertices[ranks] == given, ranks, -1)

    return find


@dataclass(eq=False)
class Arcs:
    """The arcs among some vertices, whose ends are the ranks of these; those of the same tail are in the order of its row."""

    tails: Array
    heads: Array
    costs: Array
    steps: Array

    @classmethod
    def among(cls, vertices: Array, lengths: Lengths) -> Arcs:
        """Returns the arcs of a graph among these vertices."""
        at = _leaving(vertices, lengths)
        find = _finder(vertices, lengths.n)
        tails, heads = find(lengths.tails[at]), find(lengths.heads[at])
        arcs = cls(tails, heads, lengths.costs[at], lengths.steps[at])
        is_inside = (tails >= 0) & (heads >= 0)
        return arcs if is_inside.all() else arcs.at(is_inside)

    def at(self, places: Array) -> Arcs:
        return Arcs(self.tails[places], self.heads[places], self.costs[places], self.steps[places])

    def tight(self, sums: Array) -> Ends:
        """Returns the arcs that end a path with the least sum."""
        return self.ends(sums[self.tails] + self.costs == sums[self.heads])

    def ends(self, are_chosen: Array, are_kept: Optional[Array] = None) -> Ends:
        """Returns the tails and heads of some arcs, among the vertices that are kept, by their ranks among these."""
        tails, heads = self.tails[are_chosen], self.heads[are_chosen]
        if are_kept is None:
            return tails, heads
        ranks, is_inside = numpy.cumsum(are_kept) - 1, are_kept[tails] & are_kept[heads]
        return ranks[tails[is_inside]], ranks[heads[is_inside]]

    @cached_property
    def _by_tail(self) -> Tuple[Array, Array]:
        """The arcs' places by rising tail, and these tails."""
        order = numpy.argsort(self.tails, kind="stable")
        return order, self.tails[order]

    def row(self, rank: int) -> Iterator[Tuple[int, Any]]:
        """Returns the heads of the arcs that leave a vertex, each with its cost."""
        order, tails = self._by_tail
        places = order[slice(*numpy.searchsorted(tails, [rank, rank + 1]))]
        return zip(self.heads[places].tolist(), self.costs[places].tolist())


def _leaving(vertices: Array, lengths: Lengths) -> Any:
    """Returns the places of the arcs that leave some vertices, or of all arcs if most do."""
    if len(vertices) * 2 > lengths.n:
        return slice(None)
    begin = lengths.first[vertices]
    counts = lengths.first[vertices + 1] - begin
    return numpy.repeat(begin - numpy.cumsum(counts) + counts, counts) + numpy.arange(counts.sum())


class Found:
    """The vertices that a search has reached, each with the least sum of costs, by rank; the first `begin` are the sources.

    `tight` gives the arcs among them that end a path with the least sum. It is asked, and predecessors are chosen, only for paths.
    """

    def __init__(self, vertices: Array, sums: Array, begin: int, tight: Callable[[], Ends]) -> None:
        self.vertices, self.sums, self.begin, self._tight = vertices, sums, begin, tight
        self._nodes: Optional[List[Any]] = None

    def __len__(self) -> int:
        return len(self.vertices)

    @cached_property
    def by_sum(self) -> Array:
        """The ranks by rising sum, the sources first."""
        return numpy.argsort(self.sums, kind="stable")

    @cached_property
    def totals(self) -> List[Any]:
        """The sums, rising."""
        totals: List[Any] = self.sums[self.by_sum].tolist()
        return totals

    @cached_property
    def _groups(self) -> Array:
        """The rank of each vertex's sum among the different sums."""
        ordered, groups = self.sums[self.by_sum], numpy.zeros(len(self), numpy.intp)
        groups[self.by_sum[1:]] = numpy.cumsum(ordered[1:] != ordered[:-1])
        return groups

    @cached_property
    def _chosen(self) -> Tuple[Array, List[int]]:
        """The ranks, each behind that of its predecessor, and the predecessors."""
        before = first_tails(self._groups, self.begin, *self._tight())
        return (self.by_sum, before) if before is not None else replayed(self._groups, self.begin, *self._tight())

    @property
    def order(self) -> Array:
        """The ranks by rising sum, each behind that of its predecessor."""
        return self._chosen[0]

    @property
    def before(self) -> List[int]:
        """For each rank that of the predecessor which NetworkX finds (`_ties`); -1 for a source."""
        return self._chosen[1]

    def nodes(self, labels: Array) -> List[Any]:
        """Returns the nodes by rising sum."""
        if self._nodes is None:
            self._nodes = labels[self.vertices[self.by_sum]].tolist()
        return self._nodes

    def ranks(self, n: int) -> Array:
        """Returns the rank of each of n vertices; it is of no meaning for those that aren't reached."""
        ranks = numpy.zeros(n, numpy.intp)
        ranks[self.vertices] = numpy.arange(len(self))
        return ranks

    def lengths(self, labels: Array) -> Dict[Any, Any]:
        """Returns the sum of each node."""
        nodes = self.nodes(labels)
        told = dict(zip(nodes, self.totals))
        # (NetworkX begins with a whole 0, also where lengths are floats)
        told.update(zip(nodes[: self.begin], itertools.repeat(0)))
        return told

    def cells(self, labels: Array) -> Dict[Any, Set[Any]]:
        """Returns the nodes that are reached from each source."""
        names, roots, before = labels[self.vertices].tolist(), list(range(len(self))), self.before
        cells: Dict[Any, Set[Any]] = {}
        for rank in self.order.tolist():
            if before[rank] >= 0:
                roots[rank] = roots[before[rank]]
            cells.setdefault(names[roots[rank]], set()).add(names[rank])
        return cells

    def predecessors(self, labels: Array, cutoff: float) -> Dict[Any, List[Any]]:
        """Returns for each node all that come before it on a shortest path up to a cutoff, as NetworkX settles them."""
        place, names = numpy.empty(len(self), numpy.intp), labels[self.vertices].tolist()
        tails, heads = self._tight()
        place[replayed(self._groups, self.begin, tails, heads)[0]] = numpy.arange(len(self))
        before: Dict[Any, List[Any]] = {name: [] for name in self.nodes(labels)}
        order = numpy.argsort(place[tails], kind="stable")
        order = order[self.sums[heads[order]] <= cutoff]
        for tail, head in zip(tails[order].tolist(), heads[order].tolist()):
            before[names[head]].append(names[tail])
        return before
