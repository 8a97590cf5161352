"""The library's results: trees, forests, pairs and matrices."""

from __future__ import annotations

import array
import pickle

from bisect import bisect_left
from dataclasses import dataclass, field
from functools import cached_property
from typing import TYPE_CHECKING, Any, Callable, ClassVar, Iterator, NamedTuple, Optional, Tuple

from ._buffers import column, filled, in_bytes
from ._terms import Terms, index_of, want_pandas

if TYPE_CHECKING:
    import numpy
    import pandas

    from numpy.typing import NDArray

    from ._given import Steps

UNREACHED = 2**64 - 1
"""The distance of an unreachable vertex.

It is the greatest 64-bit number, so sums in NumPy's uint64 wrap around: adding 1 gives 0. `Tree.masked` and `Tree.floats` do not
contain it.
"""

BEYOND = 2**64 - 2
"""The entry of a matrix for a target that is farther than `reach(n)`, or that is unreachable while some vertex is that far."""

# how many entries of a list the repr of a tree shows
_SHOWN = 8
# stands for the terms of a graph with neither names nor a unit, until the number of its vertices is known
_NUMBERS = Terms(0, None, None)


class _Pair(NamedTuple):
    distance: int
    predecessor: Any


class Pair(_Pair):
    """The distance of a target, as a whole number of units, and the vertex before it.

    `length` is the same distance in the unit of the graph's lengths. In a graph with names the vertex is a name, or None if the target
    is the source.

    >>> import spt
    >>> pair = spt.Graph(2, [(1, 2, 2.5)], unit=0.5).pair(1, 2)
    >>> pair, pair.length
    (Pair(distance=5, predecessor=1), 2.5)
    """

    _length: Optional[float] = None

    @property
    def length(self) -> float:
        """The distance in the unit of the graph's lengths; without a `unit`, the distance."""
        return self.distance if self._length is None else self._length


class Onward(Pair):
    """The distance from a target to a source, as a whole number of units, and the next vertex on that path.

    It is a Pair whose `predecessor` is also called `next`.
    """

    @property
    def next(self) -> Any:
        return self.predecessor

    def __repr__(self) -> str:
        return f"Pair(distance={self.distance!r}, next={self.next!r})"


def pair_of(distance: int, predecessor: Any, towards: bool, terms: Terms) -> Pair:
    pair = Onward(distance, predecessor) if towards else Pair(distance, predecessor)
    if terms.unit is not None:
        pair._length = terms.told(distance)
    return pair


class Part(NamedTuple):
    """The vertices that are reached, by number, each with its distance, a number of units, and its predecessor.

    They are three read-only lists of equal length.
    """

    vertices: memoryview
    distances: memoryview
    predecessors: memoryview


class _Route(NamedTuple):
    vertices: Tuple[Any, ...]
    distance: int
    length: float


class Route(_Route):
    """A shortest path: its vertices in the order of travel, its distance as a whole number of units, and its length.

    `length` is the distance in the unit of the graph's lengths; without a `unit`, the distance. `arcs` are the arcs that it takes. A
    route is a tuple of the other three, so routes with the same vertices and lengths are equal.

    >>> import spt
    >>> roads = {"u": ["Depot", "Depot", "Mill"], "v": ["Mill", "Mill", "Quay"], "km": [3, 2.5, 4]}
    >>> route = spt.Graph.from_frame(roads, "u", "v", "km", unit=0.5).route("Depot", "Quay")
    >>> route, route.arcs
    (Route(vertices=('Depot', 'Mill', 'Quay'), distance=13, length=6.5), [1, 2])
    """

    # how to find its arcs, and these once they are found
    _steps: Optional[Steps] = None
    _arcs: Optional[Tuple[int, ...]] = None

    @property
    def arcs(self) -> list[int]:
        """For each step of the route the index, from 0, of the arc that it takes, in the order in which the arcs were given.

        In a graph of a frame they are its rows, so `edges.iloc[route.arcs]` are the streets of the route. Of parallel arcs the route
        takes the shortest, as rounded to the graph's `unit`, and of these the first. An arc that leads both ways (`both_ways`) has the
        same index in either direction. They are in the order of travel, also with `towards` and in a graph `turned`.

        A packed file has its arcs in the order of `Graph.load(file).arcs`, whatever their order was in the graph that was saved. In a
        directed graph of NetworkX the index is that in `list(graph.edges)`, and in an undirected one, where an edge is two arcs, that
        in `list(graph.to_directed().edges)`. If a function gives the lengths, edges that it leaves out don't count, and all edges from
        one node of a multigraph to another are one arc.

        The first call for any route of a graph makes an index of the arcs, 12 bytes for each, which all its routes share. A pickled
        route has its arcs with it, so pickling finds them. AttributeError: no graph found this route, so its arcs aren't known.
        """
        return list(self._found())

    def _found(self) -> Tuple[int, ...]:
        if self._arcs is None:
            if self._steps is None:
                raise AttributeError("the arcs of a route are known only if a graph found it")
            self._arcs = tuple(self._steps.arcs(self.vertices))
        return self._arcs

    def _step_lengths(self) -> list[int]:
        """Returns the length of each step, as a number of units."""
        return [] if self._steps is None else self._steps.lengths(self._found())

    def __reduce__(self) -> tuple[Any, ...]:
        return _route_again, (type(self), tuple(self), None if self._steps is None else self._found())

    def __copy__(self) -> Route:
        return self

    def __deepcopy__(self, memo: Any) -> Route:
        return self


def route_of(vertices: Tuple[Any, ...], distance: int, terms: Terms, steps: Steps) -> Route:
    """Returns the route with these vertices, whose arcs can be found."""
    route = Route(vertices, distance, terms.told(distance))
    route._steps = steps
    return route


def _route_again(kind: type[Route], values: Tuple[Any, ...], arcs: Optional[Tuple[int, ...]]) -> Route:
    route = kind(*values)
    route._arcs = arcs
    return route


def _reached(distances: memoryview, predecessors: memoryview) -> Part:
    """Returns the part of two lists with an entry for each vertex, by rising number."""
    try:
        import numpy
    except ImportError:
        listed = array.array("I", (at for at, distance in enumerate(distances, 1) if distance != UNREACHED))
        columns = array.array("Q", (distances[it - 1] for it in listed)), array.array("I", (predecessors[it - 1] for it in listed))
        return Part(*(memoryview(it).toreadonly() for it in (listed, *columns)))
    places = numpy.flatnonzero(numpy.asarray(distances) != UNREACHED)
    vertices = in_bytes((places + 1).astype(numpy.uint32), "I").toreadonly()
    if len(places) == len(distances):
        return Part(vertices, distances, predecessors)
    return Part(vertices, _taken(distances, places), _taken(predecessors, places))


def _taken(numbers: memoryview, places: Any) -> memoryview:
    """Returns the numbers at these places, which are a NumPy array."""
    import numpy

    return in_bytes(numpy.asarray(numbers).take(places), numbers.format).toreadonly()


def _nearest_first(part: Part) -> Part:
    """Returns a part by rising distance; by number where distances are equal."""
    try:
        import numpy
    except ImportError:
        order = sorted(range(len(part.vertices)), key=part.distances.__getitem__)
        lists = (memoryview(array.array(it.format, map(it.__getitem__, order))) for it in part)
        return Part(*(it.toreadonly() for it in lists))
    places = numpy.argsort(numpy.asarray(part.distances), kind="stable")
    return Part(*(_taken(numbers, places) for numbers in part))


def _masked(distances: NDArray[numpy.uint64], least: int) -> numpy.ma.MaskedArray[Any, numpy.dtype[numpy.uint64]]:
    """Returns a NumPy array as a masked array, with everything at or above the least masked."""
    import numpy

    return numpy.ma.MaskedArray(distances, distances >= least, fill_value=numpy.uint64(UNREACHED))  # type: ignore[no-untyped-call]


def _floats(distances: NDArray[numpy.uint64], least: int, terms: Terms) -> NDArray[numpy.float64]:
    """Returns a NumPy array as floats in the unit, with `inf` for everything at or above the least."""
    import numpy

    return numpy.where(distances >= least, numpy.inf, terms.told(distances.astype(float)))


def _closed(numbers: NDArray[numpy.float64]) -> NDArray[numpy.float64]:
    """Returns a NumPy array, which is read-only from now on."""
    numbers.flags.writeable = False
    return numbers


class _Reached:
    """What trees and forests have in common: an entry for each vertex."""

    distances: memoryview
    predecessors: memoryview
    _terms: Terms
    towards: bool
    # the fields, in the order of the constructor, with the format of each list; empty if it is not a list
    _formats: ClassVar[dict[str, str]]

    def __post_init__(self) -> None:
        for name, format in self._formats.items():
            if format:
                object.__setattr__(self, name, column(getattr(self, name), format))
        if self._terms is _NUMBERS:
            object.__setattr__(self, "_terms", Terms(len(self.distances), None, None))

    def _values(self) -> tuple[Any, ...]:
        """Returns the values of the fields; their lists are read-only."""
        return tuple(getattr(self, name) for name in self._formats)

    def __reduce_ex__(self, protocol: Any) -> tuple[Any, ...]:
        return type(self)._again, tuple(pickled(it, protocol) if isinstance(it, memoryview) else it for it in self._values())

    @classmethod
    def _again(cls: Any, *values: Any) -> Any:
        return cls(*(in_bytes(it, format) if format else it for it, format in zip(values, cls._formats.values())))

    def __eq__(self, other: object) -> bool:
        if not isinstance(other, _Reached) or type(self) is not type(other):
            return NotImplemented
        return bool(self._values() == other._values())

    def __hash__(self) -> int:
        return hash(tuple(it.tobytes() if isinstance(it, memoryview) else it for it in self._values()))

    def masked(self) -> numpy.ma.MaskedArray[Any, numpy.dtype[numpy.uint64]]:
        """Returns the distances, numbers of units, as a NumPy masked array (uint64), not copied; unreachable vertices are masked.

        Sums and means skip them, and `filled()` has UNREACHED for them. The distances are whole numbers, in units of the graph's
        `unit` if it has one.
        """
        import numpy

        return _masked(numpy.asarray(self.distances), UNREACHED)

    def floats(self) -> NDArray[numpy.float64]:
        """Returns the distances as a new NumPy array (float64), in the unit of the graph's lengths, with `inf` if unreachable.

        If the graph has no `unit`, each distance is exact, since none is above `reach(n)`, which is below 2^44, and floats are
        exact for whole numbers up to 2^53. Sums above that are rounded: to even numbers up to 2^54, to multiples of 4 up to 2^55,
        and so on. With a unit each is the nearest float.
        """
        import numpy

        return _floats(numpy.asarray(self.distances), UNREACHED, self._terms)

    @cached_property
    def lengths(self) -> NDArray[numpy.float64]:
        """The distance of each vertex in the unit of the graph's lengths, in a NumPy array (float64), with `inf` if unreachable.

        These are `floats`, computed once; the array is read-only.
        """
        return _closed(self.floats())

    def frame(self) -> pandas.DataFrame:
        """Returns a pandas frame with a row for each vertex, by name or number, in order.

        Its columns are `distance` (`floats`), `predecessor` and, for a forest, `source`; a vertex without a predecessor or a source
        has a missing value there. If paths lead towards sources, the columns are `distance`, `next` and `to`. ImportError: pandas
        isn't installed.
        """
        index, titles = self._terms.index(), ("next", "to") if self.towards else ("predecessor", "source")
        names = zip(titles, ("predecessors", "sources"))
        lists = {title: self._terms.column(getattr(self, name)) for title, name in names if name in self._formats}
        return want_pandas().DataFrame({"distance": self.floats(), **lists}, index=index)

    def _entry(self, number: int) -> Tuple[int, int]:
        """Returns the distance and predecessor of a vertex, by number."""
        return self.distances[number - 1], self.predecessors[number - 1]

    def part(self, *, nearest_first: bool = False) -> Part:
        """Returns the vertices that are reached, by number, with their distances, numbers of units, and their predecessors.

        They are three lists of equal length, ordered by number, or, with `nearest_first`, by distance and then by number. A small part
        of a large graph (`within`) takes only the time for what it reaches. In a graph with names, vertex v is `graph.names[v - 1]`.

        >>> import spt
        >>> tree = spt.Graph(4, [(1, 3, 2), (3, 2, 4), (1, 4, 9)]).tree(1, within=6)
        >>> [list(it) for it in tree.part()], list(tree.part(nearest_first=True).vertices)
        ([[1, 2, 3], [0, 6, 2], [0, 3, 1]], [1, 3, 2])
        """
        part = self._reached()
        return _nearest_first(part) if nearest_first else part

    def _reached(self) -> Part:
        return _reached(self.distances, self.predecessors)

    def pair(self, target: Any) -> Optional[Pair]:
        """Returns the distance of a target, as a number of units, and its predecessor; None if there is no path (`Pair`)."""
        distance, predecessor = self._entry(self._terms.number(target))
        return None if distance == UNREACHED else pair_of(distance, self._terms.name(predecessor), self.towards, self._terms)

    def _shown_predecessors(self) -> str:
        return f"{'next' if self.towards else 'predecessors'} {_shown(self.predecessors, {})}"

    def _back(self, source: int, target: int) -> Optional[list[int]]:
        """Returns the numbers of the vertices from a target back to a source, by predecessors; None if there is no path."""
        if self._entry(target)[0] == UNREACHED:
            return None
        path = [target]
        while path[-1] != source:
            if len(path) == self._terms.n or not path[-1]:
                raise ValueError("the predecessors do not form a tree")
            path.append(self._entry(path[-1])[1])
        return path

    def _walk(self, source: int, target: int) -> Optional[list[Any]]:
        """Returns the vertices of the path between the source and target with these numbers, in the order of travel; None if none."""
        path = self._back(source, target)
        return path and [self._terms.name(it) for it in (path if self.towards else reversed(path))]


@dataclass(frozen=True, eq=False, repr=False)
class Tree(_Reached):
    """The shortest-path tree from a source, or its part within a distance; distances count units.

    `distances` and `predecessors` are lists of unsigned 64-bit and 32-bit numbers, with vertex v at index v - 1: UNREACHED and 0
    for an unreachable vertex, 0 and 0 for the source. `distances` count units; `lengths` are in the unit of the graph's lengths.
    UNREACHED is 2^64 - 1, which wraps around in sums: `masked` and `floats` return the distances without it. The lists are
    read-only, and `numpy.asarray` takes them without a copy. If you make a tree of other lists, it copies those that are writable.
    In a graph with names, `source`, `path`, `pair` and `frame` use the names, and vertex v of the lists is `graph.names[v - 1]`.

    If `towards` is True, each distance is that from the vertex to the source, and the predecessor of a vertex is the next vertex on
    that path. Paths list vertices in the order of travel either way.

    Trees are equal if their sources, distances, predecessors, names, units and directions are equal. They can be dict keys, and can
    be pickled and copied.

    >>> import spt
    >>> tree = spt.Graph(3, [(1, 2, 7)]).tree(1)
    >>> tree
    Tree from 1 over 3 vertices: distances 0, 7, unreached; predecessors 0, 1, 0
    >>> tree == spt.Graph(3, [(1, 2, 7), (1, 2, 8)]).tree(1)
    True
    >>> spt.Graph(3, [(1, 2, 7)]).tree(2, towards=True)
    Tree towards 2 over 3 vertices: distances 7, 0, unreached; next 2, 0, 0
    """

    source: Any
    distances: memoryview
    predecessors: memoryview
    _terms: Terms = field(default=_NUMBERS, repr=False)
    towards: bool = False
    _formats = {"source": "", "distances": "Q", "predecessors": "I", "_terms": "", "towards": ""}

    @classmethod
    def _listed(cls, source: Any, part: Tuple[memoryview, memoryview, memoryview], terms: Terms, towards: bool) -> Tree:
        """Returns the part of a tree with these vertices, by rising number, and their distances and predecessors.

        The lists with an entry for each vertex are made when they are first needed.
        """
        tree = cls.__new__(cls)
        tree.__dict__.update(source=source, _terms=terms, towards=towards, _part=part)
        return tree

    if not TYPE_CHECKING:

        def __getattr__(self, name: str) -> Any:
            if name not in ("distances", "predecessors") or "_part" not in self.__dict__:
                raise AttributeError(f"{type(self).__name__!r} object has no attribute {name!r}")
            self._make_lists(*self._part)
            return self.__dict__[name]

    def _make_lists(self, vertices: memoryview, *lists: memoryview) -> None:
        """Makes the lists with an entry for each vertex from those of a part."""
        for each, numbers, other in zip(("distances", "predecessors"), lists, (UNREACHED, 0)):
            whole = filled(numbers.format, self._terms.n, other)
            for vertex, number in zip(vertices, numbers):
                whole[vertex - 1] = number
            self.__dict__[each] = whole.toreadonly()

    def _reached(self) -> Part:
        part = self.__dict__.get("_part")
        return Part(*part) if part is not None else super()._reached()

    def _entry(self, number: int) -> Tuple[int, int]:
        part = self.__dict__.get("_part")
        if part is None:
            return super()._entry(number)
        place = bisect_left(part[0], number)
        is_there = place < len(part[0]) and part[0][place] == number
        return (part[1][place], part[2][place]) if is_there else (UNREACHED, 0)

    def __repr__(self) -> str:
        distances = _shown(self.distances, {UNREACHED: "unreached"})
        told = f"distances {distances}; {self._shown_predecessors()}"
        return f"Tree {'towards' if self.towards else 'from'} {self.source} over {len(self.distances)} vertices: {told}"

    def path(self, target: Any) -> Optional[list[Any]]:
        """Returns the vertices of the tree's path between the source and a target, in the order of travel; None if there is none.

        The path leads from the source to the target, or, in a tree `towards` its source, from the target to the source.

        >>> import spt
        >>> graph = spt.Graph(3, [(1, 2, 5), (2, 3, 5)])
        >>> graph.tree(1).path(3), graph.tree(3, towards=True).path(1)
        ([1, 2, 3], [1, 2, 3])
        """
        return self._walk(self._terms.number(self.source), self._terms.number(target))


@dataclass(frozen=True, eq=False, repr=False)
class Forest(_Reached):
    """The distances from the nearest of several sources, counted in units, or those within a distance.

    `distances`, `predecessors` and `sources` are lists of unsigned numbers, of 64, 32 and 32 bits, with vertex v at index v - 1:
    its distance from the nearest source, a number of units, the smallest vertex before it on such a path, and that source, to which
    the predecessors lead back. They are UNREACHED, 0 and 0 for an unreachable vertex, and 0, 0 and the vertex itself for a source.
    The lists are like those of a `Tree`, and so are `lengths` and `towards`: then `sources` has the source to which the path leads.

    >>> import spt
    >>> forest = spt.Graph(4, [(1, 2, 3), (1, 3, 3), (2, 4, 2), (3, 4, 2)]).nearest([3, 1])
    >>> forest
    Forest over 4 vertices: distances 0, 3, 0, 2; predecessors 0, 1, 0, 3; sources 1, 1, 3, 3
    >>> forest.path(4)
    [3, 4]
    """

    distances: memoryview
    predecessors: memoryview
    sources: memoryview
    _terms: Terms = field(default=_NUMBERS, repr=False)
    towards: bool = False
    _formats = {"distances": "Q", "predecessors": "I", "sources": "I", "_terms": "", "towards": ""}

    def __repr__(self) -> str:
        distances = _shown(self.distances, {UNREACHED: "unreached"})
        roots = f"{'to' if self.towards else 'sources'} {_shown(self.sources, {})}"
        told = f"distances {distances}; {self._shown_predecessors()}; {roots}"
        return f"Forest{' towards its sources' if self.towards else ''} over {len(self.distances)} vertices: {told}"

    def source(self, target: Any) -> Any:
        """Returns the source from which a target is reached, or to which its path leads; None if there is no path."""
        number = self.sources[self._terms.number(target) - 1]
        return self._terms.name(number) if number else None

    def path(self, target: Any) -> Optional[list[Any]]:
        """Returns the vertices of the path between a target and its source, in the order of travel (`Tree.path`); None if none."""
        place = self._terms.number(target)
        return self._walk(self.sources[place - 1], place)


def _of_floats(name: str) -> Callable[..., Any]:
    """Returns a method that applies this one to the floats of a matrix."""

    def call(self: Matrix, *given: Any) -> Any:
        return getattr(self.floats(), name)(*(it.floats() if isinstance(it, Matrix) else it for it in given))

    return call


def _of_array(name: str) -> Callable[..., Any]:
    """Returns a method that applies this one to the array of a matrix."""

    def call(self: Matrix, *given: Any) -> Any:
        return getattr(self._array, name)(*(it._array if isinstance(it, Matrix) else it for it in given))

    return call


@dataclass(frozen=True, eq=False, repr=False)
class Matrix:
    """The distances of targets from sources, counted in units: a row for each source, a column for each target.

    If `towards` is True, each is the distance from the target to the source.

    `distances` has them as whole numbers of units, in a NumPy array (uint64), or in a `memoryview` if NumPy isn't installed: UNREACHED if
    there is no path, BEYOND if a target is too far. `floats`, `masked` and `frame` have neither, and sums, products and quotients
    of a matrix are those of its `floats`. Otherwise a matrix acts as an array, also for NumPy (`numpy.asarray`): as `distances`, or
    as `floats` in a graph with a unit.

    >>> import spt
    >>> matrix = spt.Graph(3, [(1, 2, 7), (2, 3, 1)]).matrix([1, 2], [3, 1])
    >>> matrix
    Matrix of 2 sources and 2 targets
    >>> matrix.tolist(), matrix[0, 0] == 8
    ([[8, 0], [1, 18446744073709551615]], True)
    """

    sources: tuple[Any, ...]
    targets: tuple[Any, ...]
    distances: Any
    _terms: Terms = field(repr=False)
    towards: bool = False

    def __repr__(self) -> str:
        more = ", towards the sources" if self.towards else ""
        return f"Matrix of {len(self.sources)} sources and {len(self.targets)} targets{more}"

    def masked(self) -> numpy.ma.MaskedArray[Any, numpy.dtype[numpy.uint64]]:
        """Returns the distances, numbers of units, as a NumPy masked array (uint64); unreachable and too far targets are masked."""
        import numpy

        return _masked(numpy.asarray(self.distances), BEYOND)

    def floats(self) -> NDArray[numpy.float64]:
        """Returns the distances as a new NumPy array (float64), in the unit of the graph's lengths (`Tree.floats`).

        It has `inf` for unreachable and too far targets.
        """
        import numpy

        return _floats(numpy.asarray(self.distances), BEYOND, self._terms)

    def frame(self) -> pandas.DataFrame:
        """Returns `floats` as a pandas frame, with the sources as rows and the targets as columns.

        The rows are named `source` and the columns `target`, or, in a matrix `towards` its sources, `to` and `from`. ImportError:
        pandas isn't installed.
        """
        names = ("to", "from") if self.towards else ("source", "target")
        index = [index_of(it).rename(name) for it, name in zip((self.sources, self.targets), names)]
        return want_pandas().DataFrame(self.floats(), index=index[0], columns=index[1])

    @cached_property
    def lengths(self) -> NDArray[numpy.float64]:
        """The distances in the unit of the graph's lengths, in a NumPy array (float64), with `inf` if unreachable or too far.

        These are `floats`, computed once; the array is read-only.
        """
        return _closed(self.floats())

    @cached_property
    def _array(self) -> Any:
        """The array that it acts as."""
        return self.distances if self._terms.unit is None else self.floats()

    def __array__(self, dtype: Any = None, copy: Optional[bool] = None) -> Any:
        import numpy

        return numpy.array(self._array, dtype) if copy else numpy.asarray(self._array, dtype)

    def __getattr__(self, name: str) -> Any:
        if name.startswith("_"):
            raise AttributeError(name)
        return getattr(self._array, name)

    def __getitem__(self, place: Any) -> Any:
        return self._array[place]

    def __len__(self) -> int:
        return len(self.sources)

    def __iter__(self) -> Iterator[Any]:
        return iter(self._array)

    def __reduce__(self) -> tuple[Any, ...]:
        # (a memoryview can't be pickled)
        told = self.distances.tobytes() if isinstance(self.distances, memoryview) else self.distances
        return _matrix_again, (self.sources, self.targets, told, self._terms, self.towards)

    __hash__ = None  # type: ignore[assignment]
    __eq__, __ne__, __lt__, __le__, __gt__, __ge__ = map(
        _of_array, ("__eq__", "__ne__", "__lt__", "__le__", "__gt__", "__ge__")
    )
    __add__, __radd__, __sub__, __rsub__, __mul__, __rmul__ = map(
        _of_floats, ("__add__", "__radd__", "__sub__", "__rsub__", "__mul__", "__rmul__")
    )
    __truediv__, __rtruediv__ = map(_of_floats, ("__truediv__", "__rtruediv__"))


def in_rows(distances: memoryview, rows: int, columns: int) -> Any:
    """Returns the numbers in rows and columns, as a NumPy array if NumPy is installed."""
    try:
        import numpy
    except ImportError:
        return distances.cast("B").cast("Q", [rows, columns]) if distances.nbytes else distances
    return numpy.asarray(distances).reshape(rows, columns)


def _matrix_again(
    sources: tuple[Any, ...], targets: tuple[Any, ...], told: Any, terms: Terms, towards: bool = False
) -> Matrix:
    distances = in_rows(in_bytes(told, "Q"), len(sources), len(targets)) if isinstance(told, bytes) else told
    return Matrix(sources, targets, distances, terms, towards)


def _shown(numbers: memoryview, names: dict[int, str]) -> str:
    """Returns the numbers as text; if there are many, only the first and the last."""
    if len(numbers) > _SHOWN:
        ends = _shown(numbers[: _SHOWN // 2], names), _shown(numbers[-(_SHOWN // 2) :], names)
        return ", ..., ".join(ends)
    return ", ".join(names.get(number, str(number)) for number in numbers)


def pickled(numbers: memoryview, protocol: int) -> Any:
    """Returns a list in a form that can be pickled: from protocol 5 on without a copy."""
    return pickle.PickleBuffer(numbers) if protocol >= 5 else numbers.tobytes()
