"""One shortest path, by the costs as NetworkX adds them."""

from __future__ import annotations

import heapq
import itertools
import math

from typing import Any, Container, Dict, List, Optional, Set, Tuple

from .._library import reach
from .._trees import Tree
from ._lengths import Lengths

# a sum of costs, and the vertices from the source to the target
Way = Tuple[Any, List[int]]


def way(lengths: Lengths, source: int, target: int, follows_ties: bool = True) -> Optional[Way]:
    """Returns the least sum from a source to a target and a path that has it; None if there is no path.

    Of several paths it is the one that NetworkX's `dijkstra_path` finds; without `follows_ties` any may be taken, which is faster.
    """
    if source == target:
        return 0, [source]
    found = lengths.graph.pair(source + 1, target + 1)
    if found is None:
        return None
    limit = min(found.distance + lengths.slack(found.distance), reach(lengths.n))
    tree = lengths.graph.tree(source + 1, within=limit)
    if lengths.scale is None and not follows_ties:
        return lengths.told(found.distance), [vertex - 1 for vertex in tree.path(target + 1) or ()]
    return _along(lengths, source, target, _near(lengths, tree, target, found.distance))


def total(lengths: Lengths, source: int, target: int) -> Any:
    """Returns the least sum from a source to a target; None if there is no path."""
    if lengths.scale is None and source != target:
        found = lengths.graph.pair(source + 1, target + 1)
        return found and lengths.told(found.distance)
    found_way = way(lengths, source, target, False)
    return found_way and found_way[0]


def _near(lengths: Lengths, tree: Tree, target: int, distance: int) -> Set[int]:
    """Returns the vertices on paths to a target that seem longer than the shortest by the slack at most, found from it backwards."""
    slack, turned = lengths.slack(distance), lengths.turned
    extra, waiting = {target: 0}, [(-distance, target)]
    while waiting:
        end, head = heapq.heappop(waiting)
        for tail, step in turned.row(head, turned.steps):
            # (a vertex that isn't reached is far beyond the slack)
            begin = tree._entry(tail + 1)[0]
            more = extra[head] + begin + step + end
            if more < extra.get(tail, slack + 1):
                extra[tail] = more
                heapq.heappush(waiting, (-begin, tail))
    return set(extra)


def _along(lengths: Lengths, source: int, target: int, inside: Container[int]) -> Way:
    """Returns what NetworkX's Dijkstra finds among a few vertices, which have all shortest paths to the target."""
    sums: Dict[int, Any] = {source: 0}
    before, done, order = {source: -1}, set(), itertools.count()  # type: Dict[int, int], Set[int], itertools.count[int]
    waiting = [(0, next(order), source)]
    while target not in done:
        total, _, vertex = heapq.heappop(waiting)
        if vertex in done:
            continue
        done.add(vertex)
        for head, cost in lengths.row(vertex, lengths.costs):
            if head in inside and total + cost < sums.get(head, math.inf):
                sums[head], before[head] = total + cost, vertex
                heapq.heappush(waiting, (sums[head], next(order), head))
    return sums[target], _path(before, target)


def _path(before: Dict[int, int], target: int) -> List[int]:
    """Returns the vertices from the source, which has no predecessor but -1, to a target."""
    path = [target]
    while before[path[-1]] >= 0:
        path.append(before[path[-1]])
    return path[::-1]
