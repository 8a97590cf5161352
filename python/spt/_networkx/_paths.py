"""Dicts of paths, each of which is made when it is first looked at."""

from __future__ import annotations

from typing import Any, Callable, Dict, Iterator, List, Optional

from ._found import Found
from ._graph import Graph
from ._settings import setting


class _Later:
    """What stands for a path that isn't made. Nothing can write it, so that C code which reads the dict past its methods fails."""

    __slots__ = ()

    def __repr__(self) -> str:
        return "a path that is made when it is looked at"

    def __reduce__(self) -> str:
        raise TypeError("a path that isn't made can't be pickled")


_LATER = _Later()


class Paths(Dict[Any, Any]):
    """A dict of the paths from (or towards) sources, each made when it is first looked at.

    `items`, `values`, copies, comparisons and pickles make all of them; a copy or a pickle is a plain dict. A path that was handed
    out is never used for another one, since whoever has it may change it.
    """

    __slots__ = ("_found", "_graph", "_ranks", "_towards")

    def __init__(self, found: Found, graph: Graph, towards: bool) -> None:
        super().__init__(dict.fromkeys(found.nodes(graph.labels), _LATER))
        self._found: Optional[Found] = found
        self._graph, self._towards = graph, towards
        self._ranks: Any = None

    def _made(self, node: Any) -> List[Any]:
        """Returns the path of one node."""
        assert self._found is not None
        if self._ranks is None:
            self._ranks = self._found.ranks(self._graph.n)
        path, rank, before = [], int(self._ranks[self._graph.place(node)]), self._found.before
        while rank >= 0:
            path.append(rank)
            rank = before[rank]
        nodes: List[Any] = self._graph.labels[self._found.vertices[path]].tolist()
        return nodes if self._towards else nodes[::-1]

    def make_all(self) -> None:
        """Makes the paths that are missing."""
        if self._found is None:
            return
        nodes, before, towards = self._graph.labels[self._found.vertices].tolist(), self._found.before, self._towards
        made: List[List[Any]] = [[]] * len(nodes)
        for rank in self._found.order.tolist():
            front, node = made[before[rank]] if before[rank] >= 0 else [], nodes[rank]
            made[rank] = path = [node, *front] if towards else [*front, node]
            if dict.get(self, node) is _LATER:
                dict.__setitem__(self, node, path)
        self._found = self._ranks = None

    def __getitem__(self, node: Any) -> Any:
        path = dict.__getitem__(self, node)
        if path is _LATER:
            path = self._made(node)
            dict.__setitem__(self, node, path)
        return path

    def get(self, node: Any, default: Any = None) -> Any:
        return self[node] if node in self else default

    def setdefault(self, node: Any, default: Any = None) -> Any:
        return self[node] if node in self else dict.setdefault(self, node, default)

    def pop(self, node: Any, *default: Any) -> Any:
        if node in self:
            self[node]
        return dict.pop(self, node, *default)

    # (with a method of its own, `dict(paths)` asks for each path)
    def __iter__(self) -> Iterator[Any]:
        return dict.__iter__(self)

    def __reduce__(self) -> Any:
        self.make_all()
        return dict, (list(dict.items(self)),)

    def __ror__(self, other: Any) -> Any:
        return {**other, **self}


def _of_all(name: str) -> Callable[..., Any]:
    """Returns a dict's method that makes all paths first."""

    def call(self: Paths, *given: Any) -> Any:
        for each in (self, *given):
            if isinstance(each, Paths):
                each.make_all()
        return getattr(dict, name)(self, *given)

    return call


for _name in ("items", "values", "popitem", "copy", "__eq__", "__ne__", "__repr__", "__or__", "__ior__"):
    setattr(Paths, _name, _of_all(_name))


def paths_of(found: Found, graph: Graph, towards: bool = False) -> Dict[Any, List[Any]]:
    """Returns the path of each node that is reached, in the order of travel."""
    paths = Paths(found, graph, towards)
    if not setting("lazy_paths"):
        return dict(paths.items())
    return paths
