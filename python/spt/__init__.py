"""Exact shortest paths from the proved engine spt, through its C library.

    >>> import spt
    >>> graph = spt.Graph(4, [(1, 2, 3), (1, 3, 3), (2, 4, 2), (3, 4, 2), (1, 4, 6)])
    >>> tree = graph.tree(1)
    >>> list(tree.distances), list(tree.predecessors)
    ([0, 3, 3, 5], [0, 1, 1, 2])
    >>> graph.path(1, 4)
    [1, 2, 4]

Vertices are numbered from 1; vertex v is at index v - 1 of a list. They have names if the graph is made from a frame or from a
NetworkX graph (`Graph.from_frame`, `Graph.from_networkx`). Lengths are whole numbers from 1 to 4294967295, or any numbers above 0
with a `unit`. If there are several shortest paths to a vertex, its predecessor is the smallest-numbered vertex before the last on
any of them, so there is exactly one right result. The distance of an unreachable vertex is UNREACHED, 2^64 - 1, which wraps
around in sums (`Tree.masked`, `Tree.floats`).

`Graph.routes` finds the paths of many pairs, and `Route.arcs` are the rows of the arcs that a path takes. With `towards=True` paths
lead to a source, and with `both_ways=True` each arc of a graph leads both ways. `Graph.save` packs a graph into a file, and
`Graph.load` reads it.

NetworkX 3.4 and later can leave its shortest paths to the package: NETWORKX_BACKEND_PRIORITY=spt (`spt._networkx`).
`python -m spt` answers from CSV files.

The package loads the library that $SPT_LIBRARY names, else the one beside its own files, else the one that the system's loader
finds. The repository's docs/PYTHON.md has recipes.
"""

from ._convert import dijkstra
from ._faults import BadArc, BadDelta, BadLimit, Fault, NoSuchVertex, SptError, TooFar
from ._graph import BEYOND, UNREACHED, Forest, Graph, Matrix, Pair, Tree
from ._library import LibraryNotFound, reach
from ._names import Names
from ._trees import Part, Route

__version__ = "1.6.0"
__all__ = [
    "BEYOND",
    "UNREACHED",
    "BadArc",
    "BadDelta",
    "BadLimit",
    "Fault",
    "Forest",
    "Graph",
    "LibraryNotFound",
    "Matrix",
    "Names",
    "NoSuchVertex",
    "Pair",
    "Part",
    "Route",
    "SptError",
    "TooFar",
    "Tree",
    "dijkstra",
    "reach",
]
