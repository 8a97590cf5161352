"""The graph of a table or of a graph file, and the vertices and lengths in it as text."""

from __future__ import annotations

import io
import math

from argparse import Namespace
from decimal import Decimal
from typing import Any, Dict, List, Optional, Sequence, Union

from .._faults import BadArc
from .._graph import Graph
from .._lengths import MOST
from ._refused import WRONG_LINE, Refused
from ._table import Table, bytes_of, table_of

_PACKED = b"\x89"
# what a column of two-way rows may have
_FLAGS = {"1": True, "true": True, "yes": True, "0": False, "false": False, "no": False}


class Roads:
    """A graph, and how its vertices and lengths are written."""

    def __init__(self, path: str, graph: Graph, scale: Optional[Decimal], among: str, table: Optional[Table] = None) -> None:
        self.path, self.graph, self._scale, self._among, self._table = path, graph, scale, among, table
        self._names = names = graph.names
        self._by_text: Optional[Dict[str, Any]] = None if names is None else dict(zip(map(str, names), names))

    def vertex(self, text: str) -> Any:
        """Returns the vertex with this name or number; None if there is none."""
        if self._by_text is not None:
            return self._by_text.get(text)
        is_number = text.isascii() and text.isdigit() and text == str(int(text))
        return int(text) if is_number and 1 <= int(text) <= self.graph.n else None

    def unknown(self, text: str) -> str:
        """Returns why this text is no vertex."""
        return f"{text!r} is not {self._among} of {self.path}"

    def name(self, number: int) -> Any:
        """Returns how the vertex with this number is written; empty for 0, which is no vertex."""
        return (self._names[number - 1] if self._names else number) if number else ""

    def row(self, arc: int) -> int:
        """Returns the number of the row that an arc is from, or in the file of a graph that of the arc, from 1."""
        return arc + 1 if self._table is None else self._table.numbers[arc]

    def columns(self, titles: Sequence[str], others: Sequence[str]) -> List[List[str]]:
        """Returns the cells of these columns. Refused: there is no such column, or the answer has another column of this title."""
        for at, title in enumerate(titles):
            if title in (*others, *titles[:at]):
                raise Refused(f"--column {title}: the answer has a column of this title already", WRONG_LINE)
        return [] if self._table is None else [self._table.column(self._table.place(title)) for title in titles]

    def length(self, distance: int) -> str:
        """Returns a distance of the library in the unit of the table, in full."""
        return str(distance) if self._scale is None else format(self._scale * distance, "f")

    def limit(self, within: Optional[Decimal]) -> Union[None, int, float]:
        """Returns the greatest distance to search, as the graph takes it."""
        if within is None or self._scale is not None:
            return None if within is None else float(within)
        if within != int(within):
            raise Refused(f"--within {within}: must be a whole number, as the lengths have no unit", WRONG_LINE)
        return int(within)


def roads_of(asked: Namespace) -> Roads:
    """Returns the graph in the file that the command line names, read as its options say."""
    path = asked.roads
    data = bytes_of(path)
    if data.startswith(_PACKED) or path.endswith((".gr", ".gr.gz")):
        return _of_graph(path, io.BytesIO(data) if path == "-" else path, asked)
    table = table_of(path, data)
    missing = [f"--{name}" for name in ("from", "to", "length") if getattr(asked, f"{name}_column") is None]
    if missing:
        told = " and ".join(filter(None, [", ".join(missing[:-1]), missing[-1]]))
        raise Refused(f"{path}: {told}: not given: the columns are {table.titles()}", WRONG_LINE)
    return _of_table(table, asked)


def _of_graph(path: str, file: Any, asked: Namespace) -> Roads:
    columns = {"--from": asked.from_column, "--to": asked.to_column, "--length": asked.length_column}
    given = {**columns, "--unit": asked.unit, "--zero": asked.zero}
    option = next((name for name, value in given.items() if value is not None), None)
    option = "--both-ways with a column" if option is None and isinstance(asked.both_ways, str) else option
    option = "--column" if option is None and getattr(asked, "column", None) else option
    if option is not None:
        raise Refused(f"{path}: {option} is for tables: this is the file of a graph", WRONG_LINE)
    graph = Graph.read(file, both_ways=asked.both_ways)
    scale = None if graph.unit is None else Decimal(repr(graph.unit))
    return Roads(path, graph, scale, f"a vertex (1 to {graph.n})" if graph.names is None else "a vertex")


def _of_table(table: Table, asked: Namespace) -> Roads:
    titles = [asked.from_column, asked.to_column, asked.length_column]
    places = [table.place(title) for title in titles]
    columns = {"tail": table.names(places[0]), "head": table.names(places[1]), "length": _numbers(table, places[2], asked.unit)}
    both_ways = asked.both_ways
    if isinstance(both_ways, str):
        columns["both"], both_ways = _flags(table, table.place(both_ways)), "both"
    unit = None if asked.unit is None else float(asked.unit)
    try:
        graph = Graph.from_frame(columns, "tail", "head", "length", unit=unit, both_ways=both_ways, zero=asked.zero)
    except BadArc as told:
        cell = table.column(places[2])[told.index]
        raise table.refused(told.index, places[2], _length_fault(cell, asked.unit)) from None
    is_read_again = getattr(asked, "streets", False) or getattr(asked, "column", None)
    among = f"in the columns {titles[0]!r} and {titles[1]!r}"
    return Roads(table.path, graph, asked.unit, among, table if is_read_again else None)


def _numbers(table: Table, place: int, unit: Optional[Decimal]) -> List[float]:
    """Returns a column of numbers. Refused: a cell isn't one."""
    cells = table.column(place)
    try:
        return list(map(float, cells))
    except ValueError:
        index = next(index for index, cell in enumerate(cells) if not _is_number(cell))
        raise table.refused(index, place, _length_fault(cells[index], unit)) from None


def _is_number(cell: str) -> bool:
    try:
        float(cell)
    except ValueError:
        return False
    return True


def _length_fault(cell: str, unit: Optional[Decimal]) -> str:
    """Returns why the text of a cell is not a length."""
    if not cell:
        return "empty, but a length is needed"
    if not _is_number(cell) or not math.isfinite(float(cell)):
        point = ": write the decimals behind a point" if _is_number(cell.replace(",", ".", 1)) and "," in cell else ""
        return f"{cell!r} is not a number{point}"
    number = float(cell)
    if number <= 0:
        return f"{cell} is not a length: lengths are above 0{'' if number else '; --zero unit counts 0 as one unit'}"
    if unit is None:
        if number != int(number):
            return f"{cell} is a fraction: choose a unit, such as --unit 0.01"
        return f"{cell} is more than {MOST}: choose a --unit"
    if number / float(unit) < 1:
        return f"{cell} rounds to 0 in the unit {unit}: choose a smaller --unit, or --zero unit to count it as {unit}"
    return f"{cell} is more than {MOST} times the unit {unit}: choose a larger --unit"


def _flags(table: Table, place: int) -> List[bool]:
    """Returns for each row whether it leads both ways. Refused: a cell says neither."""
    cells = table.column(place)
    flags = [_FLAGS.get(cell.lower()) for cell in cells]
    if None in flags:
        index = flags.index(None)
        raise table.refused(index, place, f"{cells[index]!r} is not yes or no, true or false, 1 or 0")
    return list(map(bool, flags))
