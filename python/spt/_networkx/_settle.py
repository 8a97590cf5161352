"""Exact sums of costs, from distances that are rounded."""

from __future__ import annotations

import heapq

from typing import TYPE_CHECKING, Any, Dict, List, Tuple

import numpy

from numpy.typing import NDArray

if TYPE_CHECKING:
    from ._found import Arcs

Array = NDArray[Any]
# the most units by which an arc may seem longer than the shortest way to its head, and still be tried at first
_NEAR = 1 << 14


def settled(arcs: Arcs, steps: Array) -> Tuple[Array, Array]:
    """Returns for each vertex the least sum of costs, as NetworkX adds them: along a path, from its source on; and which arcs end such.

    The vertices are ordered by `steps`, the library's distances in units, in which the costs are rounded. Such a sum never falls as
    a path goes on, and it keeps the order of the sums it is made of. So sums are the least if each is that of a path, and no arc
    leads to a lesser one. The arcs that are nearly the shortest way to their head, in the order of steps, give nearly all such sums,
    if not all; then all arcs are tested, and Dijkstra's algorithm goes on from those that lead to a lesser sum. So nothing depends
    on how the costs were rounded, but the time.
    """
    begins, ends = steps[arcs.tails], steps[arcs.heads]
    is_near = (begins < ends) & (begins + arcs.steps - ends <= min(2 * len(steps), _NEAR))
    sums = _summed(len(steps), int((steps == 0).sum()), *(it[is_near] for it in (arcs.tails, arcs.heads, arcs.costs)))
    told, offered, wanted = _offers(arcs, sums)
    lesser = numpy.flatnonzero(offered < wanted)
    if len(lesser):
        _mend(arcs, sums, list(zip(offered[lesser].tolist(), arcs.heads[lesser].tolist())))
        told, offered, wanted = _offers(arcs, sums)
    return told, offered == wanted


def _offers(arcs: Arcs, sums: List[Any]) -> Tuple[Array, Array, Array]:
    """Returns sums as an array, what each arc offers to its head, and what the head has."""
    told = numpy.array(sums, arcs.costs.dtype)
    return told, told[arcs.tails] + arcs.costs, told[arcs.heads]


def _summed(count: int, begin: int, tails: Array, heads: Array, costs: Array) -> List[Any]:
    """Returns the least sums along some arcs, each of which leads to a vertex behind its tail; those of the first ones are 0."""
    before, given = numpy.zeros(count, numpy.intp), numpy.zeros(count, costs.dtype)
    before[heads], given[heads] = tails, costs
    contested = numpy.bincount(heads, minlength=count)[heads] > 1
    offers: Dict[int, List[Tuple[int, Any]]] = {}
    for head, tail, cost in sorted(zip(*(it[contested].tolist() for it in (heads, tails, costs)))):
        offers.setdefault(head, []).append((tail, cost))
    return _added(begin, before.tolist(), given.tolist(), offers)


def _added(begin: int, before: List[int], given: List[Any], offers: Dict[int, List[Tuple[int, Any]]]) -> List[Any]:
    """Adds up sums in order: over the one arc to a vertex, or over the best of several (`offers`, by head)."""
    sums: List[Any] = [0] * begin
    for end in (*offers, len(before)):
        add = sums.append
        for tail, cost in zip(before[begin:end], given[begin:end]):
            add(sums[tail] + cost)
        if end < len(before):
            add(min(sums[tail] + cost for tail, cost in offers[end]))
        begin = end + 1
    return sums


def _mend(arcs: Arcs, sums: List[Any], offers: List[Tuple[Any, int]]) -> None:
    """Goes on from lesser sums that some arcs offer to their heads, as Dijkstra's algorithm does."""
    heapq.heapify(offers)
    while offers:
        new, vertex = heapq.heappop(offers)
        if new < sums[vertex]:
            sums[vertex] = new
            better = ((new + cost, head) for head, cost in arcs.row(vertex) if new + cost < sums[head])
            for offer in better:
                heapq.heappush(offers, offer)
