"""The vertices that the command line names, or a table of their names."""

from __future__ import annotations

from typing import Any, List, Sequence, Tuple

from ._refused import WRONG_LINE, Refused
from ._roads import Roads
from ._table import Table, bytes_of, table_of


def vertices_of(roads: Roads, option: str, names: Sequence[str], path: Any) -> List[Any]:
    """Returns the vertices with these names, or those in the first column of a file; one of the two must be given.

    `option` is that of a single name; with an s it is that of the file.
    """
    if bool(names) == (path is not None):
        told = f"{option} NAME or {option}s FILE is needed" if not names else f"{option} and {option}s can't be used together"
        raise Refused(told, WRONG_LINE)
    if path is not None:
        return _column(roads, _list(roads, path, 1), 0)
    for name in names:
        if roads.vertex(name) is None:
            raise Refused(f"{option}: {roads.unknown(name)}")
    return [roads.vertex(name) for name in names]


def pairs_of(roads: Roads, path: str) -> List[Tuple[Any, Any]]:
    """Returns the pairs in the first two columns of a file."""
    table = _list(roads, path, 2)
    return list(zip(_column(roads, table, 0), _column(roads, table, 1)))


def _list(roads: Roads, path: str, columns: int) -> Table:
    """Returns a table of names. Refused: it has too few columns, or its first row has names in place of a header."""
    table = table_of(path, bytes_of(path))
    if len(table.header) < columns:
        raise Refused(f"{path}: a header and {columns} columns of names are needed")
    title = next((it for it in table.header[:columns] if roads.vertex(it) is not None), None)
    if title is not None:
        raise Refused(f"{path}: row 1: {title!r} is a vertex, but the first row is for titles of columns: put one above it")
    return table


def _column(roads: Roads, table: Table, place: int) -> List[Any]:
    names = table.names(place)
    vertices = [roads.vertex(name) for name in names]
    if None in vertices:
        index = vertices.index(None)
        raise table.refused(index, place, roads.unknown(names[index]))
    return vertices
