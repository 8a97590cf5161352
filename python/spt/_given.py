"""The arcs of a graph as they were given, and which of them a route takes."""

from __future__ import annotations

import array
import threading

from bisect import bisect_left
from typing import Any, Dict, Iterable, List, Optional, Sequence, Tuple, Union

from ._buffers import in_bytes
from ._kept import Kept
from ._terms import Terms

# Both ends of an arc are one number, and so are its length and its row: of several arcs with the same ends, the route takes the one
# with the least such number, which is the shortest, and of these the first.
_SHIFT = 32
_ROW = (1 << _SHIFT) - 1
# the ends of arcs, by rising number, and the row of the arc that leads from one to the other
_Index = Tuple[memoryview, memoryview]


class GivenArcs:
    """The arcs of a graph in the order in which they were given, the rows of a frame for example.

    They are numbers, three for each arc, or those of a graph that was read from a packed file. If `leads_back` is True, each arc also
    leads from its head to its tail. If `back` is a list, the last arcs are those that lead back from some rows, and it has these rows.
    An index of the arcs is made when it is first needed, and takes 12 bytes per arc.
    """

    def __init__(self, arcs: Union[memoryview, Kept], leads_back: bool = False, back: Optional[memoryview] = None) -> None:
        self.arcs, self.leads_back, self.back = arcs, leads_back, back
        self._index: Optional[_Index] = None
        # held while the index is made, so that only one thread makes it
        self._once = threading.Lock()

    def numbers(self) -> memoryview:
        """Returns the numbers of the arcs."""
        return self.arcs.numbers() if isinstance(self.arcs, Kept) else self.arcs

    def rows(self, ends: Iterable[Tuple[int, int]]) -> List[int]:
        """Returns the row of the arc that a shortest path takes from each tail to each head."""
        with self._once:
            if self._index is None:
                self._index = self._made()
        keys, rows = self._index
        return [rows[bisect_left(keys, tail << _SHIFT | head)] for tail, head in ends]

    def lengths(self, rows: Iterable[int]) -> List[int]:
        """Returns the length of the arc in each of these rows, as a number of units."""
        numbers = self.numbers()
        return [numbers[3 * row + 2] for row in rows]

    def _made(self) -> _Index:
        try:
            import numpy  # noqa: F401
        except ImportError:
            return self._by_dict()
        return self._by_array()

    def _by_array(self) -> _Index:
        import numpy

        tails, heads, lengths = numpy.asarray(self.numbers()).reshape(-1, 3).T
        rows = numpy.arange(len(tails), dtype=numpy.uint64)
        if self.back is not None:
            rows[len(rows) - len(self.back) :] = self.back

        def joined(high: Any, low: Any) -> Any:
            return high.astype(numpy.uint64) << numpy.uint64(_SHIFT) | low

        keys, ranks = joined(tails, heads), joined(lengths, rows)
        if self.leads_back:
            keys, ranks = numpy.concatenate([keys, joined(heads, tails)]), numpy.concatenate([ranks, ranks])
        order = numpy.argsort(keys, kind="stable")
        keys, ranks = keys[order], ranks[order]
        begins = numpy.flatnonzero(numpy.append(True, keys[1:] != keys[:-1])[: len(keys)])
        least = numpy.minimum.reduceat(ranks, begins) if len(ranks) else ranks
        return in_bytes(keys[begins], "Q"), in_bytes((least & numpy.uint64(_ROW)).astype(numpy.uint32), "I")

    def _by_dict(self) -> _Index:
        numbers = self.numbers()
        tails, heads, lengths = (numbers[at::3] for at in range(3))
        rows: Sequence[int] = range(len(tails))
        if self.back is not None:
            rows = array.array("I", [*range(len(tails) - len(self.back)), *self.back])
        least: Dict[int, int] = {}
        for begins, ends in ((tails, heads), (heads, tails))[: 1 + self.leads_back]:
            for tail, head, length, row in zip(begins, ends, lengths, rows):
                key, rank = tail << _SHIFT | head, length << _SHIFT | row
                if rank < least.get(key, rank + 1):
                    least[key] = rank
        keys = array.array("Q", sorted(least))
        return memoryview(keys), memoryview(array.array("I", (least[key] & _ROW for key in keys)))


class Steps:
    """Finds the arcs that a route takes, in a graph whose arcs are those given, or these reversed if `turned`."""

    def __init__(self, terms: Terms, given: GivenArcs, turned: bool) -> None:
        self._terms, self._given, self._turned = terms, given, turned

    def arcs(self, vertices: Sequence[Any]) -> List[int]:
        """Returns the row of the arc from each of these vertices to the next."""
        numbers = list(map(self._terms.number, vertices))
        return self._given.rows(zip(numbers[1:], numbers) if self._turned else zip(numbers, numbers[1:]))

    def lengths(self, arcs: Sequence[int]) -> List[int]:
        """Returns the length of each of these arcs, as a number of units."""
        return self._given.lengths(arcs)
