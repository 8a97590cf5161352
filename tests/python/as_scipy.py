"""This package in the place of SciPy's functions, for its own tests."""

import math

import numpy
import spt

from asked import Asked
from scipy.sparse import issparse
from scipy.sparse.csgraph import csgraph_from_dense, csgraph_to_dense
from scipy.sparse.csgraph import shortest_path as theirs


def only_ties(csgraph, directed, ours, theirs):
    """Asserts that predecessors are ours where there is one, and elsewhere ours the smaller of two."""
    lengths = csgraph_to_dense(csgraph_from_dense(csgraph), null_value=numpy.inf)
    lengths = lengths if directed else numpy.minimum(lengths, lengths.T)
    for source, head in zip(*numpy.nonzero(ours[1] != theirs[1])):
        mine, other = ours[1][source, head], theirs[1][source, head]
        for tail in (mine, other):
            assert ours[0][source, tail] + lengths[tail, head] == ours[0][source, head], (source, head, tail)
        assert mine < other, (source, head)


def look(csgraph, unweighted, *kinds):
    """The unit of the lengths of a graph, None where they are whole."""
    if issparse(csgraph):
        told = csgraph.tocsr().data
    else:
        dense = numpy.ma.filled(numpy.ma.asarray(csgraph).astype(float), numpy.inf)
        told = dense[numpy.isfinite(dense) & (dense != 0)]
    return Asked.look([] if unweighted else numpy.unique(told), *kinds)


def dijkstra(
    csgraph, directed=True, indices=None, return_predecessors=False, unweighted=False, limit=math.inf, min_only=False
):
    kinds = [name for name, is_so in (("within", limit < math.inf), ("nearest", min_only)) if is_so]
    unit = look(csgraph, unweighted, *kinds)
    return spt.dijkstra(csgraph, directed, indices, return_predecessors, unweighted, limit, min_only, unit=unit)


def shortest_path(
    csgraph, method="auto", directed=True, return_predecessors=False, unweighted=False, overwrite=False, indices=None
):
    """Ours where Dijkstra's algorithm is asked for or none is named, else SciPy's."""
    if method not in ("auto", "D"):
        return theirs(csgraph, method, directed, return_predecessors, unweighted, overwrite, indices)
    ours = spt.dijkstra(csgraph, directed, indices, return_predecessors, unweighted, unit=look(csgraph, unweighted))
    if not (Asked.has_ties and return_predecessors):
        return ours
    other = theirs(csgraph, "D", directed, return_predecessors, unweighted, overwrite, indices)
    only_ties(csgraph, directed, ours, other)
    return ours[0], other[1]
