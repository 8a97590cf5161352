"""The rows of each command's answer. The first row is the header."""

from __future__ import annotations

import itertools

from argparse import Namespace
from typing import Any, Dict, Iterator, List, NamedTuple, Optional, Sequence, Tuple

from .._faults import TooFar
from .._graph import Graph
from .._share import Pace, Progress, in_order
from .._trees import BEYOND, Pair, Route
from ._lists import pairs_of, vertices_of
from ._roads import Roads

Row = Sequence[Any]
# how many targets of one source take longer one by one than the tree of the source
_MANY = 4
# between the names of a path
ARROW = " > "
# the titles of a table of streets
STREETS = ("pair", "step", "from", "to", "row", "length")


class Found(NamedTuple):
    """The distance of a target, the vertex before it (towards a source, the next one), and the names along the path, if asked for."""

    distance: int
    before: Any
    path: str = ""


def tree(roads: Roads, asked: Namespace, progress: Progress) -> Iterator[Row]:
    """Yields a row for each vertex that is reached, for each source in turn."""
    sources, within = vertices_of(roads, "--source", asked.source, asked.sources), roads.limit(asked.within)
    trees = roads.graph.trees(sources, within=within, workers=asked.workers, towards=asked.towards, progress=progress)
    yield ("to", "vertex", "distance", "next") if asked.towards else ("source", "vertex", "distance", "predecessor")
    for found in trees:
        for vertex, distance, predecessor in zip(*found.part()):
            yield found.source, roads.name(vertex), roads.length(distance), roads.name(predecessor)


def nearest(roads: Roads, asked: Namespace, progress: Progress) -> Iterator[Row]:
    """Yields a row for each vertex that is reached, with its nearest source."""
    sources, within = vertices_of(roads, "--source", asked.source, asked.sources), roads.limit(asked.within)
    found = roads.graph.nearest(sources, within=within, towards=asked.towards)
    yield ("vertex", "to", "distance", "next") if asked.towards else ("vertex", "source", "distance", "predecessor")
    for vertex, distance, predecessor in zip(*found.part()):
        yield roads.name(vertex), roads.name(found.sources[vertex - 1]), roads.length(distance), roads.name(predecessor)


def matrix(roads: Roads, asked: Namespace, progress: Progress) -> Iterator[Row]:
    """Yields a row for each source, with a cell for each target; or, with `--long`, a row for each source and each target."""
    sources = vertices_of(roads, "--source", asked.source, asked.sources)
    targets = vertices_of(roads, "--target", asked.target, asked.targets)
    found = roads.graph.matrix(sources, targets, workers=asked.workers, towards=asked.towards, progress=progress)
    begin, end = ("to", "from") if asked.towards else ("source", "target")
    yield (begin, end, "distance") if asked.long else (begin, *targets)
    # (where NumPy isn't installed, this is a memoryview, whose rows can't be taken)
    for source, distances in zip(sources, found.distances.tolist()):
        cells = ["" if distance >= BEYOND else roads.length(distance) for distance in distances]
        if asked.long:
            yield from ((source, target, cell) for target, cell in zip(targets, cells))
        else:
            yield source, *cells


def pairs(roads: Roads, asked: Namespace, progress: Progress) -> Iterator[Row]:
    """Yields a row for each pair, with empty cells if there is no path."""
    listed = pairs_of(roads, asked.pairs)
    if asked.paths:
        found = [route and _of_route(route, asked.towards) for route in _routes(roads, listed, asked, progress)]
    else:
        found = _found(roads.graph, listed, asked, progress)
    header = ("to", "from", "distance", "next") if asked.towards else ("source", "target", "distance", "predecessor")
    yield header + ("path",) * asked.paths
    for pair, told in zip(listed, found):
        cells = (roads.length(told.distance), told.before if told.distance else "", told.path) if told else ("", "", "")
        yield (*pair, *cells[: 2 + asked.paths])


def routes(roads: Roads, asked: Namespace, progress: Progress) -> Iterator[Row]:
    """Yields a row for each vertex on the path of each pair; one with empty cells if there is no path."""
    if asked.streets or asked.column:
        yield from _streets(roads, asked, progress)
        return
    listed = pairs_of(roads, asked.pairs)
    found = _routes(roads, listed, asked, progress)
    yield (*(("to", "from") if asked.towards else ("source", "target")), "step", "vertex", "distance")
    for pair, route in zip(listed, found):
        if route is None:
            yield (*pair, "", "", "")
            continue
        distances = itertools.accumulate(route._step_lengths(), initial=0)
        for step, (vertex, distance) in enumerate(zip(route.vertices, distances)):
            yield (*pair, step, vertex, roads.length(distance))


def _streets(roads: Roads, asked: Namespace, progress: Progress) -> Iterator[Row]:
    """Yields a row for each street on the path of each pair, in the order of travel; one with empty cells if there is no path."""
    columns = roads.columns(asked.column, STREETS)
    found = _routes(roads, pairs_of(roads, asked.pairs), asked, progress)
    yield (*STREETS, *asked.column)
    for number, route in enumerate(found, 1):
        if route is None:
            yield (number, *[""] * (len(STREETS) - 1 + len(columns)))
            continue
        ends, streets = zip(route.vertices, route.vertices[1:]), zip(route.arcs, route._step_lengths())
        for step, (pair, (arc, length)) in enumerate(zip(ends, streets), 1):
            yield (number, step, *pair, roads.row(arc), roads.length(length), *(cells[arc] for cells in columns))


def _routes(roads: Roads, listed: List[Tuple[Any, Any]], asked: Namespace, progress: Progress) -> List[Optional[Route]]:
    return roads.graph.routes(listed, asked.workers, towards=asked.towards, progress=progress)


def _of_route(route: Route, towards: bool) -> Found:
    before = route.vertices[1 if towards else -2] if route.distance else None
    return Found(route.distance, before, ARROW.join(map(str, route.vertices)))


def _found(graph: Graph, listed: List[Tuple[Any, Any]], asked: Namespace, progress: Progress) -> List[Optional[Found]]:
    """Returns what is found for each pair, without paths."""
    targets: Dict[Any, List[Any]] = {}
    for source, target in dict.fromkeys(listed):
        targets.setdefault(source, []).append(target)
    sources = list(targets)
    found: Dict[Tuple[Any, Any], Optional[Found]] = {}

    def call(at: int, end: int) -> None:
        for source in sources[at:end]:
            told = _of_source(graph, source, targets[source], asked.towards)
            found.update(((source, target), pair and Found(*pair)) for target, pair in zip(targets[source], told))

    for _ in in_order(len(sources), asked.workers, Pace(len(sources)), call, progress):
        pass
    return [found[pair] for pair in listed]


def _of_source(graph: Graph, source: Any, targets: List[Any], towards: bool) -> List[Optional[Pair]]:
    """Returns what is found for each of the targets of a source."""
    if len(targets) >= _MANY:
        try:
            return list(map(graph.tree(source, towards=towards).pair, targets))
        except TooFar:
            # the targets may still be near enough
            pass
    return [graph.pair(source, target, towards=towards) for target in targets]
