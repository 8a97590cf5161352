"""The arcs of a graph with their lengths, as NetworkX adds them and as the library does."""

from __future__ import annotations

import math

from dataclasses import dataclass
from functools import cached_property
from typing import Any, Iterator, Optional, Sequence, Tuple, Union

import numpy

from numpy.typing import NDArray

from .._graph import Graph
from .._library import reach
from .._trees import Forest, Part, Tree
from ._found import Arcs, Found
from ._settle import settled
from ._settings import Unfit, setting

Array = NDArray[Any]
_MOST = 2**32 - 1
# sums of whole numbers stay below this, so that they don't wrap around
_FAR = 2**62


@dataclass(eq=False)
class Lengths:
    """The arcs of a graph of n vertices, by tail: `costs` are lengths as NetworkX adds them, `steps` as the library does.

    If the costs are whole numbers that the library takes, and all distances fit its words, they are the steps too, `scale` is None,
    and the library's answers are final. Otherwise steps are the costs in the finest unit (1 / `scale`) in which all distances fit,
    rounded, and at least 1; then each answer is settled by the costs.
    """

    n: int
    tails: Array
    heads: Array
    costs: Array
    steps: Array
    scale: Optional[float]
    graph: Graph

    @cached_property
    def turned(self) -> Lengths:
        """The same with each arc reversed."""
        order = numpy.argsort(self.heads, kind="stable")
        heads, tails, costs, steps = (it[order] for it in (self.heads, self.tails, self.costs, self.steps))
        return Lengths(self.n, heads, tails, costs, steps, self.scale, self.graph.turned())

    @cached_property
    def first(self) -> Array:
        """Where the arcs of each vertex begin, and where the last ones end."""
        return numpy.searchsorted(self.tails, numpy.arange(self.n + 1))

    @cached_property
    def least(self) -> int:
        """The least step."""
        return int(self.steps.min()) if len(self.steps) else 1

    def told(self, steps: Any) -> Any:
        """Returns final distances of the library, or one of them, as NetworkX has them."""
        if self.costs.dtype.kind == "i":
            return steps
        return steps.astype(float) if hasattr(steps, "astype") else float(steps)

    def slack(self, steps: float) -> int:
        """Returns how many units longer a path may seem than one of this many steps, by rounding, though it isn't longer.

        Each step is within 1 of its exact value, or within about a half if it is more than 1. A path has at most n arcs, and no more
        than its steps allow.
        """
        if self.scale is None:
            return 0
        return min(2 * self.n, math.ceil(4 * steps / self.least) + 4) if self.least > 1 else 2 * self.n

    def row(self, vertex: int, numbers: Array) -> Iterator[Tuple[int, Any]]:
        """Returns the heads of the arcs that leave a vertex, each with its entry in a list."""
        at = slice(self.first[vertex], self.first[vertex + 1])
        return zip(self.heads[at].tolist(), numbers[at].tolist())

    def search(self, sources: Sequence[int], cutoff: Optional[float] = None) -> Found:
        """Returns what is found from the nearest of some sources, up to a cutoff."""
        asked, within = [source + 1 for source in sources], self._within(cutoff)
        if len(asked) == 1:
            return self._found(sources, cutoff, self.graph.tree(asked[0], within=within))
        return self._found(sources, cutoff, self.graph.nearest(asked, within=within))

    def searches(self, sources: Sequence[int], cutoff: Optional[float] = None) -> Iterator[Found]:
        """Yields what is found from each of many sources, in their order."""
        asked, within = [source + 1 for source in sources], self._within(cutoff)
        trees = self.graph.trees(asked, within=within, workers=setting("workers"))
        return (self._found([source], cutoff, tree) for source, tree in zip(sources, trees))

    def _within(self, cutoff: Optional[float]) -> Optional[int]:
        """Returns a cutoff as the library's limit, which no vertex that NetworkX would reach is beyond."""
        if cutoff is None or cutoff == math.inf:
            return None
        if not cutoff >= 0:
            return 0
        if self.scale is None:
            return math.floor(min(cutoff, reach(self.n)))
        steps = min(cutoff * self.scale, reach(self.n))
        return math.ceil(min(steps + self.slack(steps), reach(self.n)))

    def _found(self, sources: Sequence[int], cutoff: Optional[float], tree: Union[Tree, Forest]) -> Found:
        front = list(dict.fromkeys(sources))
        vertices, steps = _sorted(tree.part(nearest_first=True), front)
        if self.scale is None:
            sums = self.told(steps)
            return Found(vertices, sums, len(front), lambda: Arcs.among(vertices, self).tight(sums))
        arcs = Arcs.among(vertices, self)
        sums, are_tight = settled(arcs, steps)
        if cutoff is None:
            return Found(vertices, sums, len(front), lambda: arcs.ends(are_tight))
        are_kept = sums <= cutoff
        are_kept[: len(front)] = True
        return Found(vertices[are_kept], sums[are_kept], len(front), lambda: arcs.ends(are_tight, are_kept))


def _sorted(part: Part, sources: Sequence[int]) -> Tuple[Array, Array]:
    """Returns the vertices of a part by rising distance, numbered from 0, the sources in their order; and the distances."""
    vertices = numpy.asarray(part.vertices).astype(numpy.intp) - 1
    vertices[: len(sources)] = sources
    return vertices, numpy.asarray(part.distances).astype(numpy.int64)


def of_costs(n: int, tails: Array, heads: Array, costs: Array) -> Lengths:
    """Returns arcs with these lengths. Unfit: a length is below 0 or not a number, or a distance may be too great."""
    if not (costs >= 0).all():
        raise Unfit("a length below 0, or NaN")
    low, high = (costs.min().item(), costs.max().item()) if len(costs) else (1, 1)
    if high == math.inf or high * n > _FAR and costs.dtype.kind == "i":
        raise Unfit("lengths too great")
    with numpy.errstate(over="ignore"):
        most = min(float(costs.sum(dtype=float)), float(high) * n)
    are_whole = costs.dtype.kind == "i" or bool((costs == numpy.rint(costs)).all())
    if are_whole and low >= 1 and high <= _MOST and most <= reach(n):
        steps, scale = costs, None
    else:
        scale = _scale(n, high, most)
        steps = numpy.maximum(numpy.rint(costs * scale), 1)
    numbers = numpy.stack([tails + 1, heads + 1, steps], axis=1).astype(numpy.uint32)
    return Lengths(n, tails, heads, costs, steps.astype(numpy.int64), scale, Graph(n, numbers))


def _scale(n: int, high: float, most: float) -> float:
    """Returns how many units the length 1 has, so that all lengths and distances fit, rounded up and with their slack."""
    if most == math.inf:
        raise Unfit("lengths too great")
    scale = min((_MOST - 1) / high, (reach(n) - 4 * n) / most) if high else 1.0
    if not 0 < scale < math.inf:
        raise Unfit("lengths too small")
    return scale
