"""Graphs from SciPy, NetworkX and frames. Their modules are imported only when needed."""

from __future__ import annotations

import array
import itertools
import math

from collections.abc import Mapping
from typing import Any, Iterable, Optional, Sequence

from ._buffers import in_bytes
from ._edges import Row, attributes, heads_of, repeated, rows_of, values_of
from ._faults import BadArc, BadDelta
from ._kinds import refuse_mixed
from ._lengths import Scale, joined, length_fault, scale_of, unsigned, whole_length, whole_lengths
from ._library import reach
from ._share import Workers

# SciPy's predecessor of a vertex that has none
_NONE = -9999
_PAIRS = "pairs are a list of a source and a target each, an array of shape (k, 2), or a frame of two columns"


def _by_function(nodes: Sequence[Any], rows: Sequence[Row], weight: Any) -> tuple[array.array[int], array.array[int], list[Any]]:
    """Returns the tails and heads of the edges, and their lengths by a function; without those that it leaves out."""
    numbers, tails, heads, lengths = dict(zip(nodes, itertools.count(1))), array.array("I"), array.array("I"), []
    for tail, head, data in ((tail, head, data) for tail, row in zip(nodes, rows) for head, data in row.items()):
        given = weight(tail, head, data)
        if given is not None:
            tails.append(numbers[tail])
            heads.append(numbers[head])
            lengths.append(given)
    return tails, heads, lengths


def _by_name(
    nodes: Sequence[Any], rows: Sequence[Row], weight: Any, several: bool
) -> tuple[array.array[int], array.array[int], list[Any]]:
    """Returns the tails and heads of the edges, and this attribute of each; 1 for each if it is None."""
    numbers = dict(zip(nodes, itertools.count(1)))
    tails, heads, edges = repeated(numbers.values(), map(len, rows)), heads_of(numbers, rows), values_of(rows)
    if several:
        counts, edges = list(map(len, edges)), values_of(edges)
        if len(edges) > len(heads):
            tails, heads = repeated(tails, counts), repeated(heads, counts)
    return tails, heads, [1] * len(edges) if weight is None else attributes(edges, weight, None)


def arcs_of_networkx(graph: Any, weight: Any, scale: Scale) -> tuple[tuple[Any, ...], memoryview]:
    """Returns the nodes, in the order of their numbers, and the arcs between them."""
    nodes, rows = rows_of(graph)
    if callable(weight):
        tails, heads, lengths = _by_function(nodes, rows, weight)
    else:
        tails, heads, lengths = _by_name(nodes, rows, weight, graph.is_multigraph())
    # (anything that isn't a plain number is checked one by one)
    whole = whole_lengths(_quick(lengths), scale) if set(map(type, lengths)) <= {int, float} else None
    if whole is None:
        edges = ((nodes[tail - 1], nodes[head - 1], given) for tail, head, given in zip(tails, heads, lengths))
        whole = memoryview(array.array("I", (_length_of_edge(*edge, weight, scale) for edge in edges)))
    return nodes, joined(memoryview(tails), memoryview(heads), whole)


def _quick(lengths: list[Any]) -> Any:
    """Returns the numbers as a NumPy array where NumPy is installed and has numbers of this kind."""
    try:
        import numpy
    except ImportError:
        return lengths
    numbers = numpy.array(lengths)
    return numbers if numbers.dtype.kind in "if" else lengths


def _length_of_edge(tail: Any, head: Any, given: Any, weight: Any, scale: Scale) -> int:
    if given is None:
        raise ValueError(f"edge ({tail!r}, {head!r}) has no {weight!r}: add one, or give a function as weight")
    try:
        return whole_length(given, scale)
    except ValueError as told:
        raise ValueError(f"edge ({tail!r}, {head!r}): {told}") from None


def _column(edges: Any, name: Any) -> Any:
    """Returns a column of a frame or of a mapping, or a level of a frame's index."""
    try:
        return edges[name]
    except KeyError:
        rows = getattr(getattr(edges, "index", None), "names", ())
        if name in rows:
            return edges.index.get_level_values(name)
        known = [*(it for it in rows if it is not None), *getattr(edges, "columns", edges)]
        raise KeyError(f"there is no column {name!r}: the columns are {', '.join(map(repr, known))}") from None


def _listed(column: Any) -> list[Any]:
    return list(column.tolist() if hasattr(column, "tolist") else column)


def _is_missing(name: Any) -> bool:
    """Whether it is None, NaN, or a missing value of pandas."""
    try:
        return name is None or bool(name != name)
    except TypeError:
        return True


def _by_dict(columns: Sequence[list[Any]]) -> tuple[Any, ...]:
    number = dict(zip(dict.fromkeys(itertools.chain(*columns)), itertools.count(1)))
    codes = (memoryview(array.array("I", map(number.__getitem__, it))) for it in columns)
    return tuple(number), *codes


def _by_frame(columns: Sequence[Any]) -> tuple[Any, ...]:
    import numpy
    import pandas

    codes, names = pandas.factorize(pandas.concat([pandas.Series(it) for it in columns], ignore_index=True))
    return names, *(unsigned(it + numpy.int64(1), 0) for it in _split(codes, columns))


def _by_array(columns: Sequence[Any]) -> tuple[Any, ...]:
    import numpy

    found, first, codes = numpy.unique(numpy.concatenate(columns), return_index=True, return_inverse=True)
    order = numpy.argsort(first)
    rank = numpy.empty(len(order), numpy.int64)
    rank[order] = numpy.arange(1, len(order) + 1)
    codes = rank[codes.reshape(-1)]
    return found[order], *(unsigned(it, 0) for it in _split(codes, columns))


def _split(codes: Any, columns: Sequence[Any]) -> list[Any]:
    """Returns the part of a NumPy array that belongs to each of these columns."""
    ends = list(itertools.accumulate(map(len, columns)))
    return [codes[begin:end] for begin, end in zip([0, *ends], ends)]


def _numbered(columns: Sequence[Any]) -> tuple[Any, ...]:
    """Returns the names in columns in order of appearance, and the number of each, from 1; a missing name may get the number 0."""
    dtype, *others = (getattr(it, "dtype", None) for it in columns)
    if dtype is None or any(it is None or it != dtype for it in others):
        return _by_dict(list(map(_listed, columns)))
    if all(hasattr(it, "array") for it in columns):
        return _by_frame(columns)
    if getattr(dtype, "kind", None) in ("i", "u"):
        return _by_array(columns)
    return _by_dict(list(map(_listed, columns)))


def nodes_of(nodes: Any) -> Any:
    """Returns the names in `nodes`, as a column. TypeError: it is a frame or a text. ValueError: a name is missing or appears twice."""
    if isinstance(nodes, (str, bytes)) or getattr(nodes, "ndim", 1) != 1:
        raise TypeError(f"nodes is a {type(nodes).__name__}: must be a list of names, or a column or the index of a frame")
    # (an index of several levels has tuples as names)
    column = nodes if hasattr(nodes, "dtype") and getattr(nodes, "nlevels", 1) == 1 else list(nodes)
    seen: set[Any] = set()
    for index, name in enumerate(_listed(column)):
        if _is_missing(name):
            raise ValueError(f"node {index} (row {index + 1}) has no name")
        if name in seen:
            raise ValueError(f"node {index} (row {index + 1}) has the name {name!r}, as one before it: give each vertex once")
        seen.add(name)
    return column


def arcs_of_frame(
    edges: Any, columns: Sequence[Any], scale: Scale, back: Any = None, nodes: Any = None
) -> tuple[Any, memoryview, Optional[memoryview]]:
    """Returns the names, in the order of their numbers, the arcs between them, and which rows lead back as well.

    The names in `nodes` come first. If there is a column `back`, the arcs of its two-way rows are added at the end, reversed, and these
    rows are the last result; it is None without such a column.
    """
    wanted = [*columns, *([] if back is None else [back])]
    found = [_column(edges, name) for name in wanted]
    rows = [len(it) for it in found]
    if len(set(rows)) > 1:
        told = f"{', '.join(map(str, rows[:-1]))} and {rows[-1]}"
        raise ValueError(f"columns of {told} rows: they must have the same number")
    tails, heads, lengths = found[:3]
    given = [] if nodes is None else [nodes_of(nodes)]
    titles = [*(["nodes"] * len(given)), *(f"column {name!r}" for name in columns[:2])]
    refuse_mixed(list(zip(titles, [*given, tails, heads])))
    names, *_, begins, ends = _numbered([*given, tails, heads])
    if 0 in begins or 0 in ends or not hasattr(names, "dtype") and any(map(_is_missing, names)):
        missing = ([_is_missing(it) for it in _listed(column)] for column in (tails, heads))
        index, (no_tail, _) = next((at, both) for at, both in enumerate(zip(*missing)) if any(both))
        raise ValueError(f"arc {index} (row {index + 1}) has no name for its {'tail' if no_tail else 'head'}")
    whole = whole_lengths(lengths, scale)
    if whole is None:
        raise _first_length(len(names), list(zip(*map(_listed, (tails, heads, lengths)))), scale)
    if back is None:
        return names, joined(begins, ends, whole), None
    lead_back = _flags(_listed(found[3]), back)
    turned = [array.array("I", itertools.compress(it, lead_back)) for it in (ends, begins, whole, range(rows[0]))]
    begins, ends, whole = (_behind(*both) for both in zip((begins, ends, whole), turned))
    return names, joined(begins, ends, whole), memoryview(turned[3])


def _behind(numbers: memoryview, more: array.array[int]) -> memoryview:
    return memoryview(array.array("I", numbers.tobytes()) + more)


def _flags(column: list[Any], name: Any) -> list[bool]:
    """Returns for each row whether it leads both ways. ValueError: a row has anything but True, False, 1 or 0."""
    if not set(map(type, column)) <= {bool}:
        for index, given in enumerate(column):
            if not _is_flag(given):
                raise ValueError(f"arc {index} (row {index + 1}): {given!r} in column {name!r} is not True or False, 1 or 0")
    return list(map(bool, column))


def _is_flag(given: Any) -> bool:
    try:
        return given in (0, 1)
    except (TypeError, ValueError):
        return False


def _first_length(n: int, arcs: Sequence[Any], scale: Scale) -> Exception:
    """Returns the reason why the first invalid length is invalid."""
    for index, (tail, head, length) in enumerate(arcs):
        why = length_fault(length, scale)
        if why:
            return BadArc(n, index, (tail, head, length), f"from {tail!r} to {head!r}: {why}")
    return ValueError("the lengths changed while they were read")


def pairs_of(given: Any) -> Sequence[Sequence[Any]]:
    """Returns pairs of vertices, given as a list, an array or a frame. ValueError, TypeError: they have the wrong form."""
    if hasattr(given, "columns") or isinstance(given, Mapping):
        titles = list(getattr(given, "columns", given))
        if len(titles) != 2:
            raise ValueError(f"columns {', '.join(map(repr, titles))}: {_PAIRS}")
        columns = [given.iloc[:, at] for at in range(2)] if hasattr(given, "iloc") else [given[title] for title in titles]
        return list(zip(*map(_listed, columns)))
    if getattr(given, "ndim", 1) != 1:
        if given.ndim != 2 or given.shape[1] != 2:
            raise ValueError(f"an array of shape {given.shape}: {_PAIRS}")
        return list(given.tolist())
    listed = list(given)
    for index, pair in enumerate(listed):
        if isinstance(pair, (str, bytes, set, frozenset)) or not hasattr(pair, "__len__"):
            raise TypeError(f"pair {index} is {pair!r}: {_PAIRS}")
        if len(pair) != 2:
            raise ValueError(f"pair {index} is {pair!r}: {_PAIRS}")
    return listed


def _entries(matrix: Any) -> tuple[tuple[int, ...], Any, Any, Any]:
    """Returns the shape of a matrix, and its entries as `scipy.sparse.csgraph` reads them: their rows, columns and numbers."""
    import numpy
    import scipy.sparse

    if scipy.sparse.issparse(matrix):
        # (this sums duplicate entries of a COO matrix)
        entries = matrix.tocsr().tocoo()
        return entries.shape, entries.row, entries.col, entries.data
    dense = numpy.asarray(matrix)
    if dense.dtype.kind not in "buif" or dense.ndim != 2:
        raise ValueError(f"an array of shape {dense.shape} and type {dense.dtype}: must be a matrix of numbers")
    if isinstance(matrix, numpy.ma.MaskedArray):
        is_entry = ~numpy.asarray(numpy.ma.getmaskarray(matrix))  # type: ignore[no-untyped-call]
    else:
        is_entry = numpy.isfinite(dense) & (dense != 0)
    row, column = numpy.nonzero(is_entry)
    return dense.shape, row, column, dense[row, column]


def arcs_of_matrix(matrix: Any, scale: Scale, unweighted: bool = False) -> tuple[int, memoryview]:
    """Returns the number of vertices of a matrix, and its arcs, each of length 1 if unweighted."""
    import numpy

    shape, row, column, lengths = _entries(matrix)
    if lengths.dtype.kind not in "buif":
        raise ValueError(f"entries of type {lengths.dtype}: must be numbers")
    if shape[0] != shape[1]:
        raise ValueError(f"a matrix of shape {shape} is not a graph: it must be square")
    if unweighted:
        lengths = numpy.ones(len(lengths), numpy.uint32)
    # an arc of infinite length, or of length 0 from a vertex to itself, makes no path shorter
    is_arc = ~((lengths == numpy.inf) | numpy.isnan(lengths) | ((lengths == 0) & (row == column)))
    row, column, lengths = row[is_arc], column[is_arc], lengths[is_arc]
    whole = whole_lengths(lengths, Scale() if unweighted else scale)
    if whole is None:
        raise _first_entry(zip(row.tolist(), column.tolist(), lengths), scale)
    tails, heads = (in_bytes((it + numpy.uint32(1)).astype(numpy.uint32), "I") for it in (row, column))
    return shape[0], joined(tails, heads, whole)


def _first_entry(entries: Iterable[Any], scale: Scale) -> Exception:
    """Why the first invalid entry is not a length."""
    for row, column, given in entries:
        why = length_fault(given.item(), scale)
        if why:
            stored = "" if given else " (SciPy reads a stored or unmasked 0 as an arc; eliminate_zeros() removes it)"
            return ValueError(f"entry {(row, column)}: {why}{stored}")
    return ValueError("the matrix changed while it was read")


def matrix_of_arcs(n: int, numbers: memoryview) -> Any:
    """Returns the sparse array of these arcs, with the shortest of parallel ones."""
    import numpy
    import scipy.sparse

    tail, head, length = (_rows(numbers)[:, at].astype(numpy.int64) for at in range(3))
    order = numpy.lexsort((length, head, tail))
    place = tail[order] * (n + 1) + head[order]
    kept = order[numpy.concatenate([[True], place[1:] != place[:-1]])] if len(order) else order
    return scipy.sparse.csr_array((length[kept].astype(float), (tail[kept] - 1, head[kept] - 1)), shape=(n, n))


def _rows(numbers: memoryview) -> Any:
    """Returns arcs as an array of three columns."""
    import numpy

    return numpy.asarray(numbers).reshape(-1, 3)


def dijkstra(
    csgraph: Any,
    directed: bool = True,
    indices: Any = None,
    return_predecessors: bool = False,
    unweighted: bool = False,
    limit: float = math.inf,
    min_only: bool = False,
    *,
    delta: Optional[int] = None,
    workers: Workers = 1,
    unit: Optional[float] = None,
    zero: Optional[str] = None,
) -> Any:
    """Returns distances and, if requested, predecessors, as `scipy.sparse.csgraph.dijkstra` does.

    Vertices are numbered from 0, as in SciPy. The distance of an unreachable vertex is `inf`, and a missing predecessor is -9999.

    csgraph: a sparse, dense or masked matrix, read as SciPy reads it (`Graph.from_scipy`), or a Graph, whose vertex v is v - 1
        here. Lengths are whole numbers from 1; fractions, negative lengths and lengths of 0 raise a ValueError. With a `unit`
        they may be any number above half of it.
    directed: if False, arcs lead both ways, and the shorter one counts if the matrix has both directions.
    indices: the sources, in any shape; all vertices if None. -1 is the last vertex.
    return_predecessors: whether to return a tuple of distances and predecessors.
    unweighted: whether each arc has length 1, whatever its entry is, even a fraction or 0.
    limit: vertices farther than this count as unreachable, and the search goes no farther.
    min_only: whether to return a single row, the distances from the nearest source. The tuple then also has these sources.
    delta, workers: as for `Graph.trees`; SciPy has neither. `min_only` uses one thread.
    unit: the length that counts as 1, as for `Graph`, if `csgraph` is a matrix. Distances and `limit` are in the unit of your lengths.
    zero: "unit" counts a stored 0, and what rounds to 0, as one unit, as `Graph.from_scipy` does.

    Distances are the same as SciPy's, and exact; with a unit they are those of the lengths rounded to whole units. If several
    predecessors are right, SciPy returns any of them and this function the smallest. A TooFar numbers its source and vertex from 1,
    as `Graph.tree` and `Graph.nearest` do; with a limit nothing is too far.
    """
    import numpy

    if not isinstance(directed, (bool, numpy.bool_)):
        raise TypeError(f"directed must be True or False, not {directed!r}; pass the sources as `indices`")
    if not limit >= 0:
        raise ValueError(f"limit must be >= 0, not {limit!r}")
    graph = _asked(csgraph, directed, unweighted, unit, zero)
    if delta is not None and not 1 <= delta <= reach(graph.n):
        raise BadDelta(graph.n, delta, reach(graph.n))
    sources = _sources(indices, graph.n)
    within = _within(graph, limit)
    if min_only:
        found = _from_nearest(graph, sources.reshape(-1), within, delta)
    else:
        found = _from_each(graph, sources, within, delta, workers)
    return found if return_predecessors else found[0]


def _within(graph: Any, limit: float) -> Optional[float]:
    """Returns SciPy's limit in the form that a tree takes. No distance is above the greatest, and without a unit all are whole."""
    if math.isinf(limit):
        return None
    if graph.unit is not None:
        return min(float(limit), float(graph._terms.told(reach(graph.n))))
    return min(math.floor(limit), reach(graph.n))


def _asked(csgraph: Any, directed: bool, unweighted: bool, unit: Any, zero: Any) -> Any:
    """Returns the graph that SciPy's function would search, with numbered vertices."""
    import numpy
    from ._graph import Graph

    if isinstance(csgraph, Graph):
        if unit is not None or zero is not None:
            raise TypeError(f"{'zero' if unit is None else 'unit'} is for a matrix: a Graph has its own")
        if directed and not unweighted:
            return csgraph._numbered(csgraph.unit)
        n, unit, arcs = csgraph.n, csgraph.unit, _rows(csgraph.arcs).copy()
        if unweighted:
            arcs[:, 2] = 1
    else:
        scale = scale_of(unit, zero)
        n, numbers = arcs_of_matrix(csgraph, scale, unweighted)
        unit, arcs = scale.unit, _rows(numbers)
    both = arcs if directed else numpy.concatenate([arcs, arcs[:, [1, 0, 2]]])
    return Graph(n, both)._numbered(None if unweighted else unit)


def _sources(indices: Any, n: int) -> Any:
    """Returns the sources, numbered from 0, in the given shape."""
    import numpy

    asked = numpy.arange(n) if indices is None else numpy.asarray(indices)
    if asked.size and asked.dtype.kind not in "iu":
        raise TypeError(f"indices of type {asked.dtype}: must be whole numbers")
    asked = asked.astype(numpy.int64)
    if ((asked < -n) | (asked >= n)).any():
        raise ValueError(f"indices out of range: a graph of {n} vertices has 0 to {n - 1}, or -1 to {-n} counted from the last")
    return numpy.where(asked < 0, asked + n, asked)


def _from_zero(vertices: memoryview) -> Any:
    """Returns the vertices as SciPy numbers them, with its value for a missing one."""
    import numpy

    told = numpy.asarray(vertices)
    return numpy.where(told == 0, _NONE, told.astype(numpy.int64) - 1).astype(numpy.int32)


def _from_each(graph: Any, sources: Any, within: Optional[float], delta: Optional[int], workers: Workers) -> tuple[Any, ...]:
    """Returns distances and predecessors, a row for each source, in the shape of the sources."""
    import numpy

    distances = numpy.empty((sources.size, graph.n))
    predecessors = numpy.empty((sources.size, graph.n), numpy.int32)
    asked = (sources.reshape(-1) + 1).tolist()
    for row, tree in enumerate(graph.trees(asked, within=within, workers=workers, delta=delta)):
        distances[row], predecessors[row] = tree.floats(), _from_zero(tree.predecessors)
    shape = (*sources.shape, graph.n)
    return distances.reshape(shape), predecessors.reshape(shape)


def _from_nearest(graph: Any, sources: Any, within: Optional[float], delta: Optional[int]) -> tuple[Any, ...]:
    """Returns distances from the nearest source, predecessors, and the nearest sources themselves."""
    forest = graph.nearest((sources + 1).tolist(), within=within, delta=delta)
    return forest.floats(), _from_zero(forest.predecessors), _from_zero(forest.sources)
