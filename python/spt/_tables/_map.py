"""Answers as GeoJSON, which QGIS and web maps draw: a point for each vertex, a line for each pair or street."""

from __future__ import annotations

import json
import math

from argparse import Namespace
from typing import Any, Dict, Iterable, Iterator, List, Optional, Sequence, TextIO

from ._refused import WRONG_LINE, Refused
from ._roads import Roads
from ._table import Table, bytes_of, table_of

# of each vertex its longitude and latitude
Places = Dict[Any, List[float]]
# a feature of GeoJSON
Feature = Dict[str, Any]
# the titles of the coordinates' columns, unless they are named
_TITLES = {"x": "x", "y": "y"}
# the titles of columns of lengths
_NUMBERS = ("distance", "length")
# what the coordinates are, and the greatest
_DEGREES = (("longitude", 180), ("latitude", 90))


def places_of(roads: Roads, asked: Namespace) -> Optional[Places]:
    """Returns the places of all vertices, from the file that the command line names; None if it names none."""
    path, titles = getattr(asked, "places", None), {name: getattr(asked, name, None) for name in _TITLES}
    if path is None:
        given = next((name for name, title in titles.items() if title is not None), None)
        if given is not None:
            raise Refused(f"--{given}: a column of the file of --places, which isn't given", WRONG_LINE)
        return None
    table = table_of(path, bytes_of(path))
    columns = [table.place(titles[name] or usual) for name, usual in _TITLES.items()]
    numbers = [_degrees(table, place, *kind) for place, kind in zip(columns, _DEGREES)]
    places = dict(zip(map(roads.vertex, table.names(0)), map(list, zip(*numbers))))
    missing = next((name for name in map(roads.name, range(1, roads.graph.n + 1)) if name not in places), None)
    if missing is not None:
        raise Refused(f"{path}: no row for {missing!r}, which is in {roads.path}")
    return places


def _degrees(table: Table, place: int, kind: str, most: int) -> List[float]:
    """Returns a column of degrees. Refused: a cell isn't a number, or beyond the greatest."""
    found = []
    for index, cell in enumerate(table.column(place)):
        try:
            found.append(float(cell))
        except ValueError:
            found.append(math.nan)
        if not -most <= found[-1] <= most:
            told = f"{cell!r} is not a {kind}: GeoJSON has degrees, from -{most} to {most}"
            raise table.refused(index, place, told)
    return found


def write(file: TextIO, header: Sequence[str], rows: Iterable[Sequence[Any]], places: Places) -> None:
    """Writes the rows of an answer as the features of a map, a line of the file for each."""
    features = _routes(header, rows, places) if tuple(header[2:4]) == ("step", "vertex") else _features(header, rows, places)
    front = '{"type": "FeatureCollection", "features": [\n'
    for feature in features:
        file.write(f"{front}{json.dumps(feature, ensure_ascii=False)}")
        front = ",\n"
    file.write("\n]}\n" if front == ",\n" else f"{front}]}}\n")


def _features(header: Sequence[str], rows: Iterable[Sequence[Any]], places: Places) -> Iterator[Feature]:
    """Yields a point for each row about a vertex, or a straight line for each street, or pair that has a path."""
    at = header.index("vertex") if "vertex" in header[:2] else None
    first, last = {"pair": (2, 3), "to": (1, 0)}.get(header[0], (0, 1))
    for row in rows:
        if at is not None:
            yield _feature(header, row, [places[row[at]]])
            continue
        begin, end = row[first], row[last]
        ends = [begin] if begin == end else [begin, end]
        yield _feature(header, row, [places[it] for it in ends] if row[2] != "" else [])


def _routes(header: Sequence[str], rows: Iterable[Sequence[Any]], places: Places) -> Iterator[Feature]:
    """Yields a line for the path of each pair, from the rows of its vertices: from step 0 to the one with the distance."""
    titles, line = [*header[:2], header[4]], []  # type: List[str], List[List[float]]
    last: Optional[Sequence[Any]] = None
    for row in rows:
        if last is not None and row[2] in (0, ""):
            yield _feature(titles, [*last[:2], last[4]], line)
            line = []
        last = row
        if row[2] != "":
            line.append(places[row[3]])
    if last is not None:
        yield _feature(titles, [*last[:2], last[4]], line)


def _feature(titles: Sequence[str], cells: Sequence[Any], line: List[List[float]]) -> Feature:
    """Returns a feature with these properties, and a line of places; a single one is a point, and none is no geometry."""
    is_point, where = len(line) == 1, None  # type: bool, Optional[Feature]
    if line:
        where = {"type": "Point" if is_point else "LineString", "coordinates": line[0] if is_point else line}
    told = {title: _number(cell) if title in _NUMBERS else cell for title, cell in zip(titles, cells)}
    return {"type": "Feature", "properties": {it: None if cell == "" else cell for it, cell in told.items()}, "geometry": where}


def _number(cell: str) -> Any:
    """Returns a distance as a number of JSON."""
    return cell if not cell else float(cell) if "." in cell else int(cell)
