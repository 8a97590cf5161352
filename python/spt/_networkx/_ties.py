"""Which of several shortest paths NetworkX finds.

It settles vertices by rising sum, and those of the same sum in the order in which it pushed them onto its heap: that of their
predecessors, and behind the same one that of its row. A predecessor is the first vertex so settled that leads to the sum. Here
vertices go by rank, `groups` number their sums by size, and the arcs are those that end a path with the least sum (tight arcs), by
tail, those of a tail in the order of its row. The first `begin` vertices are the sources.
"""

from __future__ import annotations

from typing import Any, List, Optional, Tuple

import numpy

from numpy.typing import NDArray

Array = NDArray[Any]


def first_tails(groups: Array, begin: int, tails: Array, heads: Array) -> Optional[List[int]]:
    """Returns the predecessor of each vertex, -1 for a source; None if many vertices have to be compared, or some arcs have length 0.

    Most vertices have one tight arc, or one from the least sum. For the others their tails, of the same sum, are compared.
    """
    places = numpy.flatnonzero((heads >= begin) & (tails != heads))
    lows = groups[tails[places]]
    if (lows == groups[heads[places]]).any():
        return None
    # (sources are settled in their order, which their places tell)
    chosen = numpy.arange(-begin, len(groups) - begin)
    if len(places) == len(groups) - begin:
        chosen[heads[places]] = places
    else:
        # (of several arcs to a head the last one counts, which is from the least sum)
        by_sum = places[numpy.argsort(-lows, kind="stable")]
        chosen[heads[by_sum]] = by_sum
        best = chosen[heads[places]]
        tied = places[(best != places) & (groups[tails[best]] == lows)]
        if len(tied) * 16 > len(groups):
            return None
        _choose(tied[numpy.argsort(groups[heads[tied]], kind="stable")].tolist(), chosen, groups, tails, heads)
    before: List[int] = tails[chosen[begin:]].tolist()
    return [-1] * begin + before


def _choose(tied: List[int], chosen: Array, groups: Array, tails: Array, heads: Array) -> None:
    """Compares the arcs that were chosen with others to the same heads from the same sums, by rising sum of these heads."""
    for place in tied:
        head = heads[place]
        if _is_settled_first(tails[place], tails[chosen[head]], chosen, groups, tails):
            chosen[head] = place


def _is_settled_first(one: int, other: int, chosen: Array, groups: Array, tails: Array) -> bool:
    """Whether NetworkX settles a vertex before another of the same sum, by the arcs that are chosen for those with lesser sums."""
    while chosen[one] >= 0:
        before = tails[chosen[one]], tails[chosen[other]]
        if before[0] == before[1]:
            break
        if groups[before[0]] != groups[before[1]]:
            return bool(groups[before[0]] < groups[before[1]])
        one, other = before
    return bool(chosen[one] < chosen[other])


def replayed(groups: Array, begin: int, tails: Array, heads: Array) -> Tuple[Array, List[int]]:
    """Returns the order in which NetworkX settles vertices, and their predecessors, by going through all tight arcs as it does.

    The queue has a stretch for each group of vertices with the same sum, in the order of sums. A vertex takes the first free place
    of its group when the first of its predecessors is settled; arcs of length 0 may fill a stretch that is being gone through.
    """
    by_tail = numpy.argsort(tails, kind="stable")
    onward, first = heads[by_tail].tolist(), numpy.searchsorted(tails[by_tail], numpy.arange(len(groups) + 1)).tolist()
    sizes = numpy.bincount(groups)
    free, group_of = (numpy.cumsum(sizes) - sizes).tolist(), groups.tolist()
    queue, before = list(range(len(groups))), [-1] * begin + [-2] * (len(groups) - begin)
    free[0] = begin
    for vertex in queue:
        for head in onward[first[vertex] : first[vertex + 1]]:
            if before[head] == -2:
                before[head], group = vertex, group_of[head]
                queue[free[group]] = head
                free[group] += 1
    return numpy.array(queue), before
