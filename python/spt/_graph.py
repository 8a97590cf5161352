"""Graphs, and the trees that the library computes."""

from __future__ import annotations

import itertools
import operator
import os

from typing import Any, BinaryIO, Dict, Iterable, Iterator, List, Optional, Tuple, Union

from . import _convert
from ._buffers import address, column, in_bytes, kept, words, zeros
from ._faults import KINDS, BadArc, BadDelta, Fault, SptError, TooFar
from ._files import given_file, save, terms_of
from ._given import GivenArcs, Steps
from ._hints import is_packed, second_line, word_line
from ._kept import Kept, failure
from ._lengths import Scale, arc_fault, numbers_of, refuse_frame, scale_of
from ._library import (
    BAD_ARC, BAD_TEXT, HAS_NEAR, HAS_PACKED, HAS_PAIR, HAS_PART, HAS_ROUTES, MOST_VERTICES, NO_LIMIT, OK, TOO_FAR, WRONG, Batch, Found,
    Part, library, reach,
)
from ._names import Names, names_for
from ._packed import turned
from ._share import Pace, Progress, Workers, in_order, workers_of
from ._terms import Terms
from ._trees import BEYOND, UNREACHED, Forest, Matrix, Pair, Route, Tree, in_rows, pair_of, pickled, route_of

__all__ = ["BEYOND", "UNREACHED", "Forest", "Graph", "Matrix", "Pair", "Tree"]

# where a graph is written to, and where one is read from
File = Union[str, "os.PathLike[str]", BinaryIO]
Given = Union[File, bytes, bytearray, memoryview]
# the most places in the trees of one call to the library, unless a single tree has more
_MOST_PLACES = 1 << 22


def _want_near() -> None:
    """Raises an error if the library lacks `spt_graph_nearest` and its companions."""
    if not HAS_NEAR:
        raise SptError("the library is older than 1.2: it has no spt_graph_within, spt_graph_nearest or spt_graph_matrix")


def _want_packed() -> None:
    """Raises an error if the library lacks `spt_graph_load` and its companions."""
    if not HAS_PACKED:
        told = "it has no spt_graph_load, spt_graph_save, spt_graph_turned or spt_graph_both_ways"
        raise SptError(f"the library is older than 1.4: {told}")


def _want_routes() -> None:
    """Raises an error if the library lacks `spt_graph_routes` and its companion."""
    if not HAS_ROUTES:
        raise SptError("the library is older than 1.6: it has no spt_graph_route or spt_graph_routes")


def _unpacked(data: Any, name: str) -> Kept:
    """Returns the graph of packed bytes. Fault: they have an error; it is the first one."""
    _want_packed()
    view = memoryview(data)
    kept, told = Kept.of_packed(view)
    if told.status == BAD_TEXT:
        kind, field = KINDS[told.kind], chr(told.letter) if told.letter else None
        raise Fault(name, None, told.kind, field, word_line(bytes(view[:8]), told.byte, kind, field), byte=told.byte)
    if told.status != OK:
        raise failure(told.status)
    return kept


def _is_set(name: str, given: Any) -> bool:
    """Returns a choice as a bool. TypeError: it isn't True or False, but for example a vertex or a column."""
    if not _is_choice(given):
        raise TypeError(f"{name} must be True or False, not {given!r}")
    return bool(given)


def _is_choice(given: Any) -> bool:
    """Whether it is True or False, of Python or of NumPy."""
    kind = getattr(getattr(given, "dtype", None), "kind", None)
    return isinstance(given, bool) or bool(kind == "b" and not given.ndim)


def _column_of(both_ways: Any) -> Any:
    """Returns the name of the column for `both_ways`; None if it is True or False for all rows. TypeError: it can't be a name."""
    if _is_choice(both_ways):
        return None
    try:
        hash(both_ways)
    except TypeError:
        both_ways = None
    if both_ways is None:
        raise TypeError("both_ways must be True, False or the name of a column")
    return both_ways


# the trees of a block of sources, up to the first source without one, and the reason why it has none
_Solved = Tuple[List[Tree], Optional[Exception]]
# the routes to the targets of a source
_Routes = List[Optional[Route]]


def _by_source(pairs: Iterable[Tuple[int, int]]) -> Tuple[Dict[int, Dict[int, Optional[Route]]], List[int]]:
    """Returns a place for the route to each target of each source, and how many pairs the sources up to each one have."""
    places: Dict[int, Dict[int, Optional[Route]]] = {}
    counts: Dict[int, int] = {}
    for source, target in pairs:
        places.setdefault(source, {})[target] = None
        counts[source] = counts.get(source, 0) + 1
    return places, list(itertools.accumulate(counts.values()))


def _each(solved: _Solved) -> Iterator[Tree]:
    trees, refused = solved
    yield from trees
    if refused:
        raise refused


class Graph:
    """A graph with the vertices 1 to n, or with named vertices (`from_frame`, `from_networkx`).

    `arcs` are triples of tail, head and length, a NumPy array of shape (m, 3), or all their numbers in one flat list, such as an
    array('I') or a memoryview. With `both_ways` each arc also leads back, from its head to its tail. Several threads may use one
    graph. It can be copied and pickled.

    The library keeps the graph in its own form, ready for each tree. The Graph also keeps a copy of the numbers, 12 bytes per arc
    that you gave, for `arcs`, `check` and `Route.arcs`, so you may change your list afterwards. A graph that was loaded, turned or
    made both ways makes the numbers of its own arcs when they are first needed.

    Lengths are whole numbers from 1 to 4294967295. With `unit` they may be any numbers above 0, and each is rounded to a whole
    number of units, `round(length / unit)`. Results are exact for the rounded lengths, so the length of a path of k arcs is within
    k half units of the true one. `within`, `floats`, frames and matrices are then in the unit of your lengths: in seconds, for
    example, if these are seconds and `unit=0.01`. Lengths of 0, and what rounds to 0, are refused; with `zero="unit"` each of them
    counts as one unit, or as 1 without a unit.

    `nodes` are names for all vertices, in the order of their numbers, those without an arc among them (`named`); arcs have numbers.

    BadArc: an arc is invalid, or its length rounds to 0 or is too long in the unit. ValueError: there are no vertices or too many,
    or an array has the wrong shape. TypeError: the numbers are not whole.

    >>> graph = Graph(3, [(1, 2, 7), (2, 3, 1), (1, 3, 9)])
    >>> graph.n, graph.m
    (3, 3)
    >>> Graph(3, [(1, 2, 7), (2, 4, 1)])
    Traceback (most recent call last):
    spt._faults.BadArc: arc 1 (row 2): 4 is not a vertex of a graph with 3 vertices
    >>> list(Graph(3, [(1, 2, 7.5), (2, 3, 1)], unit=0.5).tree(1).distances)
    [0, 15, 17]
    """

    # whether its arcs are those given, reversed
    _is_turned = False
    # whether its trees have the paths towards their sources, as in a twin with reversed arcs
    _towards = False

    def __init__(
        self,
        n: int,
        arcs: Any = (),
        *,
        unit: Optional[float] = None,
        both_ways: bool = False,
        zero: Optional[str] = None,
        nodes: Any = None,
    ) -> None:
        both_ways = _is_set("both_ways", both_ways)
        refuse_frame(n)
        n = operator.index(n)
        if not 1 <= n <= MOST_VERTICES:
            raise ValueError(f"a graph has 1 to {MOST_VERTICES} vertices, not {n}")
        scale, names = scale_of(unit, zero), nodes
        if nodes is not None:
            names = names_for(nodes if isinstance(nodes, Names) else _convert.nodes_of(nodes), n)
        self._keep(Terms(n, names, scale.unit), numbers_of(n, arcs, scale), both_ways)

    @classmethod
    def _of(cls, terms: Terms, numbers: memoryview, both_ways: bool = False, back: Optional[memoryview] = None) -> Graph:
        """Returns the graph with these numbers. If there is a list `back`, the last arcs lead back from its rows (`GivenArcs`)."""
        graph = cls.__new__(cls)
        graph._keep(terms, numbers, both_ways, back)
        return graph

    @classmethod
    def _with(cls, terms: Terms, kept: Kept, both_ways: bool = False) -> Graph:
        """Returns the graph that the library already keeps."""
        graph = cls.__new__(cls)
        graph._terms, graph._given = terms, GivenArcs(kept, both_ways)
        graph._kept = kept.both_ways() if both_ways else kept
        return graph

    def _keep(self, terms: Terms, numbers: memoryview, both_ways: bool, back: Optional[memoryview] = None) -> None:
        if both_ways:
            _want_packed()
        self._terms = terms
        self._kept, told = Kept.of_arcs(terms.n, numbers)
        if told.status != OK:
            raise self._refused(told.status, told.vertex, told.index, 0)
        self._given = GivenArcs(numbers, both_ways, back)
        if both_ways:
            self._kept = self._kept.both_ways()

    @property
    def n(self) -> int:
        """The number of vertices."""
        return self._terms.n

    @property
    def m(self) -> int:
        """The number of arcs."""
        return self._kept.m

    @property
    def arcs(self) -> memoryview:
        """The numbers of the arcs, three for each: tail, head and length. They are read-only.

        Their order is that of the arcs you gave. If the graph was loaded, turned or made both ways, they are ordered by tail, then
        head, then length, and are made when they are first needed. (`Route.arcs` has the places of the arcs that you gave.)
        """
        return self._kept.numbers()

    @property
    def names(self) -> Optional[Tuple[Any, ...]]:
        """The names of the vertices, with that of vertex v at index v - 1; None if they have no names.

        If there are names, all calls take and return vertices by name. Lists such as `Tree.predecessors` still hold numbers.
        """
        return self._terms.names

    @property
    def unit(self) -> Optional[float]:
        """The length that counts as 1, in the unit of the given lengths; None if these are used as they are."""
        return self._terms.unit

    def __repr__(self) -> str:
        return f"Graph of {self.n} vertices and {self.m} arcs"

    def __copy__(self) -> Graph:
        twin = type(self).__new__(type(self))
        twin.__dict__.update(self.__dict__)
        return twin

    def __reduce_ex__(self, protocol: Any) -> tuple[Any, ...]:
        given = self._given
        ways = given.leads_back, self._is_turned
        if isinstance(given.arcs, Kept) and not given.arcs.has_numbers:
            return type(self)._unpacked_again, (self._terms, pickled(given.arcs.packed(), protocol), *ways)
        back = None if given.back is None else pickled(given.back, protocol)
        return type(self)._again, (self._terms, pickled(given.numbers(), protocol), *ways, back)

    @classmethod
    def _again(cls, terms: Terms, arcs: Any, both_ways: bool = False, is_turned: bool = False, back: Any = None) -> Graph:
        graph = cls._of(terms, kept(in_bytes(arcs, "I")), both_ways, None if back is None else kept(in_bytes(back, "I")))
        return graph.turned() if is_turned else graph

    @classmethod
    def _unpacked_again(cls, terms: Terms, packed: Any, both_ways: bool = False, is_turned: bool = False) -> Graph:
        graph = cls._with(terms, _unpacked(packed, "gr"), both_ways)
        return graph.turned() if is_turned else graph

    def _numbered(self, unit: Optional[float]) -> Graph:
        """Returns the same graph without names, and in another unit."""
        twin = self.__copy__()
        twin._terms = Terms(self.n, None, unit)
        return twin

    @classmethod
    def read(cls, file: Given, *, both_ways: bool = False) -> Graph:
        """Reads a .gr file (DIMACS: `p sp N M`, then `a TAIL HEAD LENGTH`) with the proved reader, or a packed file.

        `file` is a path (of a gzip file if it ends in .gz), a file open for reading bytes, or the bytes themselves. If its first byte
        is 0x89, it is taken for a packed file, as by each command of `spt`, and read as by `load`. With `both_ways` each arc also
        leads back. Fault: the file has an error; the first one is reported.

        >>> Graph.read(b"p sp 2 1\\na 1 2 3\\n")
        Graph of 2 vertices and 1 arcs
        >>> Graph.read(b"p sp 2 1\\na 1 2 0\\n")
        Traceback (most recent call last):
        spt._faults.Fault: gr: line 2: 5 OutOfRange W
        lengths are whole numbers from 1 to 4294967295
        """
        both_ways = _is_set("both_ways", both_ways)
        data, name, path = given_file(file)
        return cls._loaded(data, name, path, both_ways) if is_packed(data) else cls._parsed(data, name, both_ways)

    @classmethod
    def load(cls, file: Given, *, both_ways: bool = False) -> Graph:
        """Reads a packed file, which `save` or `spt pack` wrote. This checks the whole file, and is far faster than reading text.

        `file` is a path (of a gzip file if it ends in .gz), a file open for reading bytes, or the bytes themselves. Names and a unit
        come from the JSON file beside it, the path with .json added, if there is one; an open file and bytes have none. With
        `both_ways` each arc also leads back.
        Fault: the file isn't packed, or was cut or changed; the first error is reported. ValueError: the JSON file belongs to
        another graph. SptError: the library is older than 1.4.

        >>> import io
        >>> file = io.BytesIO()
        >>> Graph(3, [(1, 2, 7), (2, 3, 1)]).save(file)
        >>> Graph.load(io.BytesIO(file.getvalue())).path(1, 3)
        [1, 2, 3]
        >>> Graph.load(io.BytesIO(file.getvalue()[:50]))
        Traceback (most recent call last):
        spt._faults.Fault: gr: byte 48: 7 TooFew
        the packed graph was cut or changed; copy it again, or pack it again by spt pack
        """
        return cls._loaded(*given_file(file), _is_set("both_ways", both_ways))

    @classmethod
    def _loaded(cls, data: bytes, name: str, path: Optional[str], both_ways: bool) -> Graph:
        kept = _unpacked(data, name)
        return cls._with(terms_of(path, kept.n, kept.m, data), kept, both_ways)

    def save(self, file: File) -> None:
        """Packs the graph into a file, which `load`, `read` and each command of `spt` accept.

        `file` is a path (of a gzip file if it ends in .gz) or a file open for writing bytes. The bytes are those that `spt pack`
        writes, whatever the order of the arcs. Names and a unit go into a JSON file beside it, the path with .json added. If the
        graph has neither, `save` removes the JSON file that it wrote there for an earlier graph. Each file is replaced as a whole,
        once both are written. `load` restores the names as they were, except that numbers of NumPy become plain ones.

        TypeError: a name is not a string, a number, True, False or None, so JSON can't restore it. ValueError: the graph has names
        or a unit, and `file` is open or a device, so there is no place for them. FileExistsError: `save` didn't write the JSON file
        that is there. FileNotFoundError, IsADirectoryError: there is no such folder, or `file` is one. SptError: there are more than
        1073741824 arcs, or the library is older than 1.4.

        >>> import os, tempfile
        >>> roads = {"u": ["Depot", "Mill"], "v": ["Mill", "Quay"], "minutes": [2.5, 4]}
        >>> with tempfile.TemporaryDirectory() as folder:
        ...     Graph.from_frame(roads, "u", "v", "minutes", unit=0.5).save(f"{folder}/roads.packed")
        ...     sorted(os.listdir(folder)), Graph.load(f"{folder}/roads.packed").path("Depot", "Quay")
        (['roads.packed', 'roads.packed.json'], ['Depot', 'Mill', 'Quay'])
        """
        _want_packed()
        save(file, self._terms, self._kept.packed())

    def named(self, names: Any) -> Graph:
        """Returns the same graph, whose vertices have these names, in the order of their numbers.

        `names` is `Names`, which several graphs may share, or anything that these are made of. ValueError: there are more or fewer
        names than vertices.

        >>> Graph(3, [(1, 2, 7), (2, 3, 1)]).named(["Depot", "Mill", "Quay"]).path("Depot", "Quay")
        ['Depot', 'Mill', 'Quay']
        """
        given, twin = names_for(names, self.n), self.__copy__()
        twin._terms = Terms(self.n, given, self.unit)
        return twin

    def turned(self) -> Graph:
        """Returns the graph with each arc reversed. Its paths from a vertex are the paths to that vertex in this graph, backwards.

        It is made at the first call, or at the first call of any kind with `towards=True`, and kept as long as this graph.
        SptError: the library is older than 1.4.

        >>> list(Graph(3, [(1, 2, 7), (2, 3, 1)]).turned().arcs)
        [2, 1, 7, 3, 2, 1]
        """
        _want_packed()
        twin = self.__copy__()
        twin._kept, twin._is_turned = self._kept.turned(), not self._is_turned
        return twin

    def _facing(self, towards: bool) -> Graph:
        """Returns the graph to search: this one, or its reversed twin for paths towards sources."""
        if not _is_set("towards", towards):
            return self
        twin = self.turned()
        twin._towards = True
        return twin

    @classmethod
    def _parsed(cls, text: bytes, name: str, both_ways: bool) -> Graph:
        view = memoryview(text)
        # the line of an arc has at least 8 bytes, except that the last may lack its line end
        places = (len(view) + 1) // 8
        numbers = zeros("I", 3 * places)
        told = library.spt_gr(address(view), len(view), address(numbers), places)
        if told.status == BAD_TEXT and told.kind != 8:
            field = chr(told.letter) if told.letter else None
            raise Fault(name, told.line, told.kind, field, second_line(bytes(text), told.line, KINDS[told.kind], field))
        if told.status != OK:
            raise MemoryError("spt: no memory for a text")
        return cls._of(Terms(told.n, None, None), numbers[: 3 * told.m].toreadonly(), both_ways)

    @classmethod
    def from_scipy(
        cls, matrix: Any, *, unit: Optional[float] = None, both_ways: bool = False, zero: Optional[str] = None
    ) -> Graph:
        """Makes the graph of a matrix, which is read as `scipy.sparse.csgraph` reads it; row i is vertex i + 1.

        Lengths are whole numbers from 1, or any numbers above 0 with a `unit` (`Graph`). Duplicate entries of a COO matrix are summed.
        In a dense matrix 0, `inf` and NaN are not arcs, nor are masked entries in a masked one, nor `inf` and NaN in a sparse one.
        With `both_ways` each arc also leads back, as in SciPy with `directed=False`.

        ValueError: an entry is not a length. A 0 that a sparse matrix stores, or a masked one doesn't mask, would be an arc of length
        0, so it is refused too, except on the diagonal, where it changes nothing. With `zero="unit"` such a 0, and what rounds to
        0, counts as one unit (`Graph`).
        """
        both_ways, scale = _is_set("both_ways", both_ways), scale_of(unit, zero)
        n, arcs = _convert.arcs_of_matrix(matrix, scale)
        return cls._of(Terms(n, None, scale.unit), arcs, both_ways) if n else cls(n)

    @classmethod
    def from_networkx(
        cls, graph: Any, weight: Any = "weight", *, unit: Optional[float] = None, zero: Optional[str] = None
    ) -> Graph:
        """Makes the graph of a NetworkX graph, whose nodes become the names of the vertices, also those without an edge.

        The attribute `weight` of an edge is its length, a whole number from 1, or any number above 0 with a `unit` (`Graph`). With
        `zero="unit"` lengths of 0, and what rounds to 0, count as one unit. If
        `weight` is a function, it gets the two ends of an edge and the dict of its attributes (in a multigraph, the dict of all
        edges between the two, by key). It returns the length, or None to leave the edge out. As in NetworkX, it is called for both
        directions of an undirected edge. If `weight` is None, each length is 1. An undirected edge becomes two arcs. ValueError: an
        edge has no such attribute, or the attribute, or what the function returns, is not a length.

        To read a missing attribute as 1, as NetworkX does, use `lambda tail, head, data: data.get("weight", 1)`; in a multigraph,
        such as those of OSMnx, use `lambda tail, head, data: min(edge.get("weight", 1) for edge in data.values())`.
        """
        scale = scale_of(unit, zero)
        names, arcs = _convert.arcs_of_networkx(graph, weight, scale)
        return cls._named(names, arcs, scale.unit)

    @classmethod
    def from_frame(
        cls,
        edges: Any,
        tail: Any,
        head: Any,
        length: Any,
        *,
        unit: Optional[float] = None,
        both_ways: Any = False,
        zero: Optional[str] = None,
        nodes: Any = None,
    ) -> Graph:
        """Makes the graph of a pandas frame, or of any mapping of columns. Each row is an arc.

        The columns `tail` and `head` have the names of the vertices at the arc's ends: numbers, strings, or anything else that can
        be a dict key. The column `length` has whole numbers from 1, or any numbers above 0 with a `unit` (`Graph`). The index levels
        of a frame count as columns too, so the edges of OSMnx can be used as they are. With `zero="unit"` lengths of 0, and what
        rounds to 0, count as one unit.

        A row leads one way. With `both_ways=True` each row leads both ways. If `both_ways` is the name of a column, rows with True
        or 1 there lead both ways, and rows with False or 0 one way.

        `nodes` are names of vertices, as a list, or a column or the index of a frame; a vertex that no row names exists too. They
        come first in `names`, in this order, and then the other names in the order in which the rows have them.

        BadArc: the length in a row is invalid. KeyError: there is no such column. ValueError: a name is missing, `nodes` has one
        twice, names are text in one column and numbers in another, the column `both_ways` has other values, or the columns have
        different numbers of rows.

        >>> roads = {"u": ["Depot", "Mill"], "v": ["Mill", "Quay"], "minutes": [2.5, 4]}
        >>> graph = Graph.from_frame(roads, "u", "v", "minutes", unit=0.5)
        >>> graph.path("Depot", "Quay"), graph.tree("Depot", within=3).path("Quay")
        (['Depot', 'Mill', 'Quay'], None)
        >>> roads["two-way"] = [True, False]
        >>> Graph.from_frame(roads, "u", "v", "minutes", unit=0.5, both_ways="two-way").path("Mill", "Depot")
        ['Mill', 'Depot']
        >>> Graph.from_frame(roads, "u", "v", "minutes", unit=0.5, nodes=["Farm", "Mill"]).names
        ('Farm', 'Mill', 'Depot', 'Quay')
        """
        scale, column = scale_of(unit, zero), _column_of(both_ways)
        names, arcs, back = _convert.arcs_of_frame(edges, (tail, head, length), scale, column, nodes)
        return cls._named(names, arcs, scale.unit, column is None and bool(both_ways), back)

    @classmethod
    def _named(
        cls, names: Any, arcs: memoryview, unit: Optional[float], both_ways: bool = False, back: Optional[memoryview] = None
    ) -> Graph:
        """Returns the graph whose vertices have these names, in the order of their numbers."""
        if not len(names):
            raise ValueError(f"a graph has 1 to {MOST_VERTICES} vertices, not 0")
        return cls._of(Terms(len(names), names, unit), arcs, both_ways, back)

    def to_scipy(self) -> Any:
        """Returns a SciPy sparse array (csr, float64); row i is vertex i + 1. It has the shortest of parallel arcs.

        Its lengths are in the unit of the given lengths, and each is a whole multiple of `unit`.
        """
        return self._terms.told(_convert.matrix_of_arcs(self.n, self.arcs))

    def tree(
        self, source: Any, *, within: Optional[float] = None, delta: Optional[int] = None, towards: bool = False
    ) -> Tree:
        """Returns the shortest-path tree from a source, or its part within a distance.

        With `within`, vertices farther away count as unreachable, and the search goes no farther. A small part takes little time
        however large the graph is, as long as you use none of the lists. `delta` is ignored, except that it is refused if it is out
        of range. The distance of an unreachable vertex is UNREACHED, 2^64 - 1, which wraps around in sums (`Tree.masked`,
        `Tree.floats`).

        With `towards` the distance of a vertex is that from it to the source, and its predecessor is the next vertex on that path,
        the smallest-numbered if there are several. The search uses the graph `turned`, which takes memory of its own.

        NoSuchVertex, BadDelta, BadLimit: an argument is invalid. TooFar: a distance is above `reach(n)`, and `within` isn't given.
        MemoryError: there is not enough memory.

        >>> graph = Graph(3, [(1, 2, 7), (2, 3, 1), (1, 3, 9)])
        >>> list(graph.tree(1).distances)
        [0, 7, 8]
        >>> graph.tree(1, within=7)
        Tree from 1 over 3 vertices: distances 0, 7, unreached; predecessors 0, 1, 0
        >>> tree = graph.tree(3, towards=True)
        >>> tree, tree.path(1)
        (Tree towards 3 over 3 vertices: distances 8, 1, 0; next 2, 3, 0, [1, 2, 3])
        """
        number, limit = self._terms.number(source), self._terms.limit(within)
        return self._facing(towards)._tree(number, limit, delta)

    def _tree(self, source: int, limit: Optional[int] = None, delta: Optional[int] = None) -> Tree:
        trees, refused = self._solve([source], limit, delta)
        if refused:
            raise refused
        return trees[0]

    def trees(
        self,
        sources: Iterable[Any],
        *,
        within: Optional[float] = None,
        workers: Workers = 1,
        delta: Optional[int] = None,
        progress: Progress = None,
        towards: bool = False,
    ) -> Iterator[Tree]:
        """Yields the trees from several sources, in the order of the sources; `workers` threads compute them.

        With `workers="all"` there is one thread for each processor, and at most 64.

        Each tree is the one that `tree` returns, with UNREACHED (2^64 - 1) for unreachable vertices, and with `towards` that of the
        paths to its source. An exception is raised when its source is due. A tree may share its memory with neighbouring trees.
        Nothing starts before you take the first tree. The consuming thread calls `progress`, if there is one, every few trees with
        the number of trees found and their total.

        >>> [tree.distances[2] for tree in Graph(3, [(1, 2, 7), (2, 3, 1)]).trees([1, 2], workers=2)]
        [8, 1]
        """
        limit, threads = self._terms.limit(within), workers_of(workers)
        asked = [self._terms.number(source) for source in sources]
        facing, pace = self._facing(towards), Pace(_MOST_PLACES // self.n)
        blocks = in_order(len(asked), threads, pace, lambda at, end: facing._solve(asked[at:end], limit, delta), progress)
        return itertools.chain.from_iterable(map(_each, blocks))

    def nearest(
        self, sources: Iterable[Any], *, within: Optional[float] = None, delta: Optional[int] = None, towards: bool = False
    ) -> Forest:
        """Returns the distance of each vertex from the nearest of the sources, and that source.

        The order of the sources does not matter, and one may appear more than once. Without sources, no vertex is reached. With
        `within`, vertices farther away count as unreachable. With `towards`, distances are those to the nearest source, and paths
        are as in `tree`. The exceptions are those of `tree`; a TooFar names no source.

        >>> graph = Graph(4, [(1, 2, 3), (1, 3, 3), (2, 4, 2), (3, 4, 2)])
        >>> list(graph.nearest([2, 3]).sources)
        [0, 2, 3, 2]
        >>> graph.nearest([2, 4], towards=True).path(3)
        [3, 4]
        """
        asked = words([self._terms.number(source) for source in sources])
        limit, width = self._terms.limit(within), self._width(delta)
        _want_near()
        lists = zeros("Q", self.n), zeros("I", self.n), zeros("I", self.n)
        facing = self._facing(towards)
        told = facing._kept.nearest(asked, NO_LIMIT if limit is None else limit, width, lists)
        if told.status != OK:
            raise facing._refused(told.status, told.vertex, told.index, None)
        distances, predecessors, roots = (it.toreadonly() for it in lists)
        return Forest(distances, predecessors, roots, self._terms, facing._towards)

    def matrix(
        self,
        sources: Iterable[Any],
        targets: Iterable[Any],
        *,
        workers: Workers = 1,
        delta: Optional[int] = None,
        progress: Progress = None,
        towards: bool = False,
    ) -> Matrix:
        """Returns the distance, in units, of each target from each source, or, with `towards`, from each target to each source.

        NumPy treats it as an array (uint64) with a row for each source and a column for each target. It has UNREACHED (2^64 - 1)
        for an unreachable target, and BEYOND (2^64 - 2) if the target has no distance up to `reach(n)` and some vertex is too far;
        `Matrix.floats`, `Matrix.masked` and `Matrix.frame` have neither. Without NumPy, `distances` is a `memoryview` of that
        shape, or a flat one if it is empty.

        `workers` threads compute the rows; "all" is one for each processor, at most 64. The search of a row goes no farther than its
        targets. The calling thread calls `progress`, if there is one, every few rows with the number of rows found and their total.
        NoSuchVertex, BadDelta, MemoryError: as for `tree`.

        >>> graph = Graph(4, [(1, 2, 3), (1, 3, 3), (2, 4, 2), (3, 4, 2)])
        >>> graph.matrix([1, 2], [4, 2]).tolist(), graph.matrix([4], [1, 2], towards=True).tolist()
        ([[5, 3], [2, 0]], [[5, 2]])
        """
        threads, rows = workers_of(workers), words([self._terms.number(source) for source in sources])
        columns, width = words([self._terms.number(target) for target in targets]), self._width(delta)
        _want_near()
        facing, many = self._facing(towards), len(columns)
        distances = zeros("Q", len(rows) * many)

        def call(at: int, end: int) -> Batch:
            return facing._kept.matrix(rows[at:end], columns, width, distances[at * many : end * many])

        for told in in_order(len(rows), threads, Pace(len(rows)), call, progress):
            if told.status != OK:
                raise facing._refused(told.status, told.vertex, told.index, None)
        begins, ends = (tuple(map(self._terms.name, it)) for it in (rows, columns))
        return Matrix(begins, ends, in_rows(distances, len(rows), many), self._terms, facing._towards)

    def pair(self, source: Any, target: Any, *, towards: bool = False) -> Optional[Pair]:
        """Returns the distance of a target, as a number of units, and its predecessor; None if there is no path.

        The search ends as soon as they are known. `length` of the result is the distance in the unit of your lengths (`Pair`).
        With `towards` they are the distance from the target to the source, and the next vertex on that path, which is then also
        called `next`.

        >>> graph = Graph(3, [(1, 2, 7), (2, 3, 1)])
        >>> graph.pair(1, 3), graph.pair(3, 1, towards=True)
        (Pair(distance=8, predecessor=2), Pair(distance=8, next=2))
        """
        begin, end = self._terms.number(source), self._terms.number(target)
        facing = self._facing(towards)
        found = facing._pair(begin, end)
        return found and pair_of(found[0], self._terms.name(found[1]), facing._towards, self._terms)

    def _pair(self, source: int, target: int) -> Optional[Tuple[int, int]]:
        """Returns the distance of a target, and the number of the vertex before it."""
        if not HAS_PAIR:
            tree = self._tree(source)
            told = Found(OK, tree.predecessors[target - 1], tree.distances[target - 1])
        else:
            told = self._kept.pair(source, target)
        if told.status != OK:
            raise self._refused(told.status, told.pred, told.index, source)
        return None if told.dist == UNREACHED else (told.dist, told.pred)

    def route(self, source: Any, target: Any, *, towards: bool = False) -> Optional[Route]:
        """Returns a shortest path as a `Route`: its vertices, as in `path`, its distance, length and arcs; None if there is no path.

        >>> graph = Graph(3, [(1, 2, 2.5), (2, 3, 4)], unit=0.5)
        >>> graph.route(1, 3), graph.route(1, 3).arcs, graph.route(3, 1)
        (Route(vertices=(1, 2, 3), distance=13, length=6.5), [0, 1], None)
        """
        begin, end, facing = self._terms.number(source), self._terms.number(target), self._facing(towards)
        found = facing._found(begin, end)
        return found and facing._route(*found, facing._steps())

    def routes(
        self, pairs: Any, workers: Workers = 1, *, towards: bool = False, progress: Progress = None
    ) -> List[Optional[Route]]:
        """Returns a list of the routes for these pairs of a source and a target, in order; None where there is no path.

        `pairs` is a list of pairs, an array of shape (k, 2), or a frame of two columns, with the sources first. Each route is the one
        that `route` returns, and its `arcs` are the rows of the arcs that it takes (`Route`). With `towards`, it leads from the target
        to the source. Pairs with the same source share one search, which ends with the last of their targets, and equal pairs share
        a route.

        `workers` threads search; "all" is one for each processor, at most 64. The calling thread calls `progress`, if there is one,
        every few sources with the number of pairs found and their total. The exceptions are those of `pair`: if it raises TooFar for
        one of the pairs, so does this call, and it returns no route. SptError: the library is older than 1.6.

        >>> graph = Graph(4, [(1, 2, 3), (1, 3, 3), (2, 4, 2), (3, 4, 2)])
        >>> [route and route.vertices for route in graph.routes([(1, 4), (1, 1), (4, 1)])]
        [(1, 2, 4), (1,), None]
        >>> graph.routes([(4, 1)], towards=True)
        [Route(vertices=(1, 2, 4), distance=5, length=5)]
        """
        threads, number = workers_of(workers), self._terms.number
        asked = [(number(source), number(target)) for source, target in _convert.pairs_of(pairs)]
        facing = self._facing(towards)
        _want_routes()
        found, ends = _by_source(asked)
        sources, steps = list(found), facing._steps()

        def call(at: int, end: int) -> None:
            for source in sources[at:end]:
                targets = list(found[source])
                found[source].update(zip(targets, facing._routes(source, targets, steps)))

        def report(done: int, total: int) -> None:
            if progress is not None:
                progress(ends[done - 1], ends[-1])

        for _ in in_order(len(sources), threads, Pace(len(sources)), call, report):
            pass
        return [found[source][target] for source, target in asked]

    def _routes(self, source: int, targets: List[int], steps: Steps) -> _Routes:
        """Returns the routes to several targets of a source, all by number. TooFar: one has no distance, and may be too far."""
        if len(targets) == 1:
            found = self._found(source, targets[0])
            return [found and self._route(*found, steps)]
        told, (distances, ends, vertices) = self._kept.routes(source, words(targets))
        if told.status != OK:
            raise self._refused(told.status, told.vertex, told.index, source)
        if BEYOND in distances:
            pair = self._kept.pair(source, targets[distances.tolist().index(BEYOND)])
            raise self._refused(pair.status, pair.pred, pair.index, source)
        routes: _Routes = []
        for distance, begin, end in zip(distances, [0, *ends], ends):
            there = distance != UNREACHED
            routes.append(self._route(distance, vertices[begin:end].tolist(), steps) if there else None)
        return routes

    def _found(self, source: int, target: int) -> Optional[Tuple[int, List[int]]]:
        """Returns the distance of a target, and the vertices from the source to it, all by number."""
        if not HAS_ROUTES:
            found = self._pair(source, target)
            if found is None:
                return None
            tree = self._tree(source, found[0] if HAS_NEAR else None)
            return found[0], (tree._back(source, target) or [])[::-1]
        told, vertices = self._kept.route(source, target)
        if told.status != OK:
            raise self._refused(told.status, told.vertex, told.index, source)
        return None if told.dist == UNREACHED else (told.dist, vertices)

    def _route(self, distance: int, vertices: List[int], steps: Steps) -> Route:
        """Returns the route with these vertices, given by number from the source to the target of its search."""
        return route_of(self._travelled(vertices), distance, self._terms, steps)

    def _travelled(self, vertices: List[int]) -> Tuple[Any, ...]:
        """Returns the names of vertices, given by number from the source to the target of a search, in the order of travel."""
        return self._terms.names_of(vertices[::-1] if self._towards else vertices)

    def _steps(self) -> Steps:
        """Returns how the arcs of its routes are found. These are in the order of travel, so `towards` doesn't reverse them."""
        return Steps(self._terms, self._given, self._is_turned != self._towards)

    def path(self, source: Any, target: Any, *, towards: bool = False) -> Optional[list[Any]]:
        """Returns the vertices of a shortest path, the one with the smallest-numbered predecessors; None if there is no path.

        They are in the order of travel: from the source to the target, or, with `towards`, from the target to the source.

        The search ends when the target is found, as that of `pair` does, so a short path takes little time. For several pairs use
        `routes`. The exceptions are those of `pair`. With a library older than 1.6 a long path takes up to twice as long as a tree.

        >>> graph = Graph(3, [(1, 2, 7), (2, 3, 1)])
        >>> graph.path(1, 3), graph.path(3, 1, towards=True)
        ([1, 2, 3], [1, 2, 3])
        """
        begin, end, facing = self._terms.number(source), self._terms.number(target), self._facing(towards)
        found = facing._found(begin, end)
        return found and list(facing._travelled(found[1]))

    def check(self, tree: Tree) -> Any:
        """Returns None if this is the tree from its source, otherwise the lowest vertex whose distance or predecessor is wrong.

        A tree with `towards` must have the paths to its source. ValueError: it has more or fewer entries than the graph has
        vertices. TypeError: its distances aren't unsigned 64-bit numbers, or its predecessors aren't unsigned 32-bit numbers.

        >>> graph = Graph(2, [(1, 2, 7)])
        >>> graph.check(graph.tree(1)) is None
        True
        """
        source, distances, predecessors = self._terms.number(tree.source), column(tree.distances, "Q"), column(tree.predecessors, "I")
        if len(distances) != self.n or len(predecessors) != self.n:
            raise ValueError(f"a tree of {self.n} vertices must have as many distances and predecessors")
        towards = getattr(tree, "towards", False)
        arcs = turned(self.arcs) if towards else self.arcs
        told = library.spt_check(address(arcs), self.m, self.n, source, address(distances), self.n, address(predecessors), self.n)
        if told.status == TOO_FAR:
            raise self._too_far(told.vertex, source, towards)
        if told.status not in (OK, WRONG):
            raise failure(told.status)
        return self._terms.name(told.vertex) if told.status == WRONG else None

    def _width(self, delta: Optional[int]) -> int:
        """Returns the width of a bucket, as the library takes it."""
        if delta is not None and not 1 <= delta <= reach(self.n):
            raise BadDelta(self.n, delta, reach(self.n))
        return delta or 0

    def _solve(self, sources: list[int], limit: Optional[int], delta: Optional[int]) -> _Solved:
        """Returns the trees of sources, or their parts within a limit, up to the first source without one, and the reason."""
        n, k, width = self.n, len(sources), self._width(delta)
        if limit is not None:
            return self._parts(sources, limit, width)
        distances, predecessors = zeros("Q", k * n), zeros("I", k * n)
        done, refused = self._call(sources, width, distances, predecessors)
        distances, predecessors = distances.toreadonly(), predecessors.toreadonly()
        trees, told = [], self._terms
        for source, low in zip(sources, range(0, done * n, n)):
            lists = distances[low : low + n], predecessors[low : low + n]
            trees.append(Tree(told.name(source), *lists, told, self._towards))
        return trees, refused

    def _call(
        self, sources: Iterable[Any], delta: int, distances: memoryview, predecessors: memoryview
    ) -> tuple[int, Optional[Exception]]:
        """Returns how many sources have their trees, and why the next one has none."""
        asked = words(sources)
        told = self._kept.trees(asked, delta, distances, predecessors)
        if told.status == OK:
            return told.done, None
        source = asked[told.done] if told.done < len(asked) else 0
        return told.done, self._refused(told.status, told.vertex, told.index, source)

    def _parts(self, sources: list[int], limit: int, delta: int) -> _Solved:
        """Returns the parts of the trees of sources, up to the first source without one, and the reason."""
        _want_near()
        trees: list[Tree] = []
        for source in sources:
            try:
                trees.append(self._part(source, limit, delta))
            except (MemoryError, SptError) as refused:
                return trees, refused
        return trees, None

    def _part(self, source: int, limit: int, delta: int) -> Tree:
        """Returns a part of the tree of a source: a list of its vertices if these are few, else of all vertices."""
        name = self._terms.name(source)
        told, listed = self._kept.part(source, limit) if HAS_PART else (Part(OK), None)
        if told.status != OK:
            raise self._refused(told.status, 0, 0, source)
        if listed is not None:
            return Tree._listed(name, listed, self._terms, self._towards)
        distances, predecessors = zeros("Q", self.n), zeros("I", self.n)
        whole = self._kept.within(source, limit, delta, distances, predecessors)
        if whole.status != OK:
            raise self._refused(whole.status, whole.vertex, whole.index, source)
        return Tree(name, distances.toreadonly(), predecessors.toreadonly(), self._terms, self._towards)

    def _refused(self, status: int, vertex: int, index: int, source: Optional[int]) -> Exception:
        """Returns the exception for a status. Sources, delta and limit were checked before the call."""
        if status == BAD_ARC:
            arc = tuple(self.arcs[3 * index : 3 * index + 3])
            return BadArc(self.n, index, arc, arc_fault(self.n, arc, Scale()))
        return self._too_far(vertex, source, self._towards) if status == TOO_FAR else failure(status)

    def _too_far(self, vertex: int, source: Optional[int], towards: bool) -> TooFar:
        name = self._terms.name
        return TooFar(None if source is None else name(source), name(vertex), self.unit, towards)
