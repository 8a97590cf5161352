"""The form in which a graph shows vertices and distances: as whole numbers, or as names and in a unit."""

from __future__ import annotations

import math
import operator

from typing import Any, Iterable, Optional, Sequence, Tuple

from ._faults import BadLimit, NoSuchVertex
from ._library import reach
from ._names import Names


class Terms:
    """The names of n vertices, and the unit of lengths; None if there are none.

    The names are `Names`, or what these are made of.
    """

    def __init__(self, n: int, names: Any, unit: Optional[float]) -> None:
        self.n, self.unit, self._index = n, unit, None
        self._names = names if names is None or isinstance(names, Names) else Names(names)

    def __reduce__(self) -> tuple[Any, ...]:
        return Terms, (self.n, None if self._names is None else self._names.given, self.unit)

    def __eq__(self, other: object) -> bool:
        if self is other:
            return True
        return isinstance(other, Terms) and (self.unit, self.n, self._names) == (other.unit, other.n, other._names)

    def __repr__(self) -> str:
        return f"Terms of {self.n} vertices"

    @property
    def names(self) -> Optional[Tuple[Any, ...]]:
        return None if self._names is None else self._names.listed

    def __hash__(self) -> int:
        return hash((self.n, self.unit))

    def number(self, vertex: Any) -> int:
        """Returns the number of a vertex. NoSuchVertex: none has this name, or this number if there are no names."""
        if self._names is not None:
            return self._names.number(vertex)
        number = operator.index(vertex)
        if not 1 <= number <= self.n:
            raise NoSuchVertex(self.n, number)
        return number

    def name(self, number: int) -> Any:
        """Returns the name of a vertex, or its number if there are no names; for 0, which is no vertex, None if there are names."""
        return number if self._names is None else self._names.name(number)

    def names_of(self, numbers: Sequence[int]) -> Tuple[Any, ...]:
        """Returns the names of vertices, or their numbers if there are no names."""
        listed = self.names
        return tuple(numbers) if listed is None else tuple([listed[number - 1] for number in numbers])

    def limit(self, within: Any) -> Optional[int]:
        """Returns the greatest distance, as a number of the library, that is not above the given one."""
        if within is None:
            return None
        most = reach(self.n)
        if self.unit is None:
            try:
                limit = operator.index(within)
            except TypeError as error:
                raise TypeError(f"within {within!r}: must be a whole number, since the graph has no unit") from error
        else:
            told = float(within)
            # compared as distances are shown, since the quotient may be rounded
            near = round(told / self.unit) if 0 <= told / self.unit <= 2 * most else -1
            limit = next((it for it in (near + 1, near, near - 1) if self.told(it) <= told), -1) if near >= 0 else near
        if not 0 <= limit <= most:
            raise BadLimit(self.n, within, most if self.unit is None else self.told(most))
        return limit

    def told(self, distances: Any) -> Any:
        """Returns the library's distances in the unit. For 0.001 it divides by 1000, since multiplying would add stray digits."""
        if self.unit is None:
            return distances
        parts = round(1 / self.unit) if self.unit < 1 and 1 / self.unit < math.inf else 0
        return distances / parts if parts and 1 / parts == self.unit else distances * self.unit

    def index(self) -> Any:
        """Returns the vertices as the index of a pandas frame."""
        if self._index is None:
            self._index = index_of(range(1, self.n + 1) if self._names is None else self._names.given)
        return self._index

    def column(self, vertices: memoryview) -> Any:
        """Returns vertices as a column of a pandas frame, with a missing value for a vertex of 0."""
        import numpy
        import pandas

        numbers = numpy.asarray(vertices)
        told, is_none = self.index().to_numpy().take(numpy.maximum(numbers, 1) - numpy.uint32(1)), numbers == 0
        if told.dtype.kind in "iu":
            return pandas.arrays.IntegerArray(told, is_none)
        told = told.astype(object)
        told[is_none] = None
        return told


def index_of(vertices: Iterable[Any]) -> Any:
    """Returns vertices, by name or number, as the rows or columns of a frame."""
    pandas = want_pandas()
    if isinstance(vertices, range):
        return pandas.RangeIndex(vertices.start, vertices.stop, name="vertex")
    return pandas.Index(vertices, tupleize_cols=False, name="vertex")


def want_pandas() -> Any:
    try:
        import pandas
    except ImportError as error:
        raise ImportError(f"spt: frames need pandas, which isn't installed: {error}") from error
    return pandas
