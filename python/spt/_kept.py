"""A graph that the library keeps between calls."""

from __future__ import annotations

import threading
import weakref

from contextlib import contextmanager
from ctypes import byref
from math import isqrt
from typing import Any, Callable, Iterator, List, NamedTuple, Optional, Sequence, Tuple

from ._buffers import address, in_bytes, zeros
from ._faults import SptError
from ._library import BAD_SIZE, IN_USE, MEMORY, OK, Answer, Batch, Found, FoundRoute, Packed, Part, Place, library
from ._packed import numbers_of

# a list of the vertices of a part, their distances and their predecessors
Listed = Tuple[memoryview, memoryview, memoryview]
# the most arcs of a packed graph
MOST_PACKED = 1 << 30
# the most places of a list for routes that is used again
_MOST_KEPT = 1 << 24


class FoundRoutes(NamedTuple):
    """The routes to several targets: the distance of each, the end of its route in the list, and the vertices of all routes."""

    distances: memoryview
    ends: memoryview
    vertices: memoryview


class _Room(NamedTuple):
    """A list for the vertices of routes, and its address and length, as the library takes them."""

    vertices: memoryview
    slice: Tuple[int, int]


def _room_of(places: int) -> _Room:
    vertices = zeros("I", places)
    return _Room(vertices, (address(vertices), places))


class _Handle:
    """A handle on a graph for one call at a time, with lists for the parts of trees and the routes that its calls find.

    The library refuses a place that another call is using (IN_USE). Here that can't happen: a thread takes a handle out of the list
    for its call, and fills a new one under a lock.
    """

    def __init__(self) -> None:
        self.place = Place()
        self.lists: Optional[Listed] = None
        self._room = _room_of(0)

    def listed(self, places: int) -> Listed:
        """Returns lists with this number of places."""
        if self.lists is None:
            self.lists = zeros("I", places), zeros("Q", places), zeros("I", places)
        return self.lists

    def room(self, places: int) -> _Room:
        """Returns a list with at least this number of places, which later calls use again unless it is very large."""
        if self._room.slice[1] >= places:
            return self._room
        made = _room_of(places)
        if places <= _MOST_KEPT:
            self._room = made
        return made


def _free(handles: List[_Handle]) -> None:
    for handle in handles:
        library.spt_graph_free(byref(handle.place))


def failure(status: int) -> Exception:
    """Returns the exception for a status that isn't about the arguments."""
    if status == MEMORY:
        return MemoryError("spt: no memory for a graph or a tree")
    if status == IN_USE:
        return SptError("another call of the library is using this graph's place")
    return SptError(f"the library returned status {status}")


class Kept:
    """A graph of n vertices and m arcs that the library keeps in its own form until this object is released.

    Several threads may use it. Each call takes a handle on the graph that no other call is using, and returns it for later calls, so
    that a near target or a small part takes time only for what the search touches. There are as many handles as there were calls at
    once, and each may hold 8 bytes per vertex.
    """

    def __init__(self) -> None:
        self._place, self._lock = Place(), threading.Lock()
        self._waiting: List[_Handle] = []
        # held while something is made at its first use, so that only one thread makes it
        self._once = threading.Lock()
        self._numbers: Optional[memoryview] = None
        self._turned: Optional[Kept] = None
        weakref.finalize(self, library.spt_graph_free, byref(self._place))
        weakref.finalize(self, _free, self._waiting)
        self._has(0, 0)

    def _has(self, n: int, m: int) -> None:
        self.n, self.m = n, m
        # how many vertices a part in a list may have, and the least limit, if any, that was too great for that
        self._places = n // 64 + 64
        self._large: Optional[int] = None
        # how many vertices a route may have at first
        self._usual = min(max(1024, 16 * isqrt(n)), n)

    @classmethod
    def of_arcs(cls, n: int, arcs: memoryview) -> Tuple[Kept, Answer]:
        """Returns the graph with these arcs, whose numbers it keeps too, and the result of making it."""
        kept = cls()
        told: Answer = library.spt_graph_new(address(arcs), len(arcs) // 3, n, byref(kept._place))
        kept._has(n, len(arcs) // 3)
        kept._numbers = arcs
        return kept, told

    @classmethod
    def of_packed(cls, data: memoryview) -> Tuple[Kept, Packed]:
        """Returns the graph that was packed into these bytes, and the result of making it."""
        kept = cls()
        told: Packed = library.spt_graph_load(byref(kept._place), address(data), data.nbytes)
        kept._has(told.n, told.m)
        return kept, told

    def both_ways(self) -> Kept:
        """Returns the graph with these arcs and, for each of them, one that leads back."""
        return self._made(library.spt_graph_both_ways, 2 * self.m)

    def turned(self) -> Kept:
        """Returns the graph with its arcs reversed. It is made once, and kept as long as this one."""
        with self._once:
            if self._turned is None:
                self._turned = self._made(library.spt_graph_turned, self.m)
            return self._turned

    def _made(self, call: Callable[[Any, Any], Answer], m: int) -> Kept:
        made = Kept()
        with self._shared() as (own, status):
            if status == OK:
                status = call(byref(made._place), byref(own.place)).status
        if status != OK:
            raise failure(status)
        made._has(self.n, m)
        return made

    def packed(self) -> memoryview:
        """Returns the words of the packed graph."""
        if self.m > MOST_PACKED:
            raise SptError(f"a graph of {self.m} arcs can't be packed: a packed graph has at most {MOST_PACKED}")
        made = zeros("I", self.n + 2 * self.m + 9)
        with self._shared() as (own, status):
            if status == OK:
                status = library.spt_graph_save(byref(own.place), address(made), made.nbytes).status
        if status != OK:
            raise failure(status)
        return made.toreadonly()

    @property
    def has_numbers(self) -> bool:
        """Whether the numbers of its arcs have been made."""
        return self._numbers is not None

    def numbers(self) -> memoryview:
        """Returns the numbers of its arcs: those that it was made from, else, made once, in the order of the packed graph."""
        with self._once:
            if self._numbers is None:
                self._numbers = numbers_of(self.packed())
            return self._numbers

    def trees(self, sources: memoryview, delta: int, distances: memoryview, predecessors: memoryview) -> Batch:
        """Writes the trees of the sources, up to the first source without one."""
        with self._shared() as (own, status):
            if status != OK:
                return Batch(status)
            told: Batch = library.spt_graph_trees(
                byref(own.place), address(sources), len(sources), delta,
                address(distances), len(distances), address(predecessors), len(predecessors),
            )
        return told

    def pair(self, source: int, target: int) -> Found:
        """Finds one target of a source. The search ends when it is found."""
        with self._shared() as (own, status):
            if status != OK:
                return Found(status)
            told: Found = library.spt_graph_pair(byref(own.place), source, target, 0)
        return told

    def route(self, source: int, target: int) -> Tuple[FoundRoute, List[int]]:
        """Finds one target of a source, and returns the vertices of its route. The search ends when it is found."""
        with self._shared() as (own, status):
            if status != OK:
                return FoundRoute(status), []
            room = own.room(self._usual)
            told: FoundRoute = library.spt_graph_route(byref(own.place), source, target, *room.slice)
            if told.count > len(room.vertices):
                room = own.room(min(2 * told.count, self.n))
                told = library.spt_graph_route(byref(own.place), source, target, *room.slice)
            return told, room.vertices[: told.count].tolist()

    def routes(self, source: int, targets: memoryview) -> Tuple[Answer, FoundRoutes]:
        """Finds one or more targets of a source, and returns their routes, by one search unless these are very long."""
        distances, ends = zeros("Q", len(targets)), zeros("Q", len(targets))
        given = tuple(_slices(targets, distances, ends))
        with self._shared() as (own, status):
            if status != OK:
                return Answer(status), FoundRoutes(distances, ends, zeros("I", 0))
            room = own.room(min(self._usual + 2 * len(targets) * isqrt(self.n), _MOST_KEPT))
            told: Answer = library.spt_graph_routes(byref(own.place), source, *given, *room.slice)
            if ends[-1] > len(room.vertices):
                room = own.room(max(ends[-1], min(2 * ends[-1], _MOST_KEPT)))
                told = library.spt_graph_routes(byref(own.place), source, *given, *room.slice)
            return told, FoundRoutes(distances, ends, in_bytes(room.vertices[: ends[-1]].tobytes(), "I"))

    def within(self, source: int, limit: int, delta: int, distances: memoryview, predecessors: memoryview) -> Answer:
        """Writes the part of a tree within a limit."""
        with self._shared() as (own, status):
            if status != OK:
                return Answer(status)
            told: Answer = library.spt_graph_within(byref(own.place), source, limit, delta, *_slices(distances, predecessors))
        return told

    def part(self, source: int, limit: int) -> Tuple[Part, Optional[Listed]]:
        """Returns the list of a part of a tree; None if it isn't a small one."""
        if self._large is not None and limit >= self._large:
            return Part(OK), None
        with self._shared() as (own, status):
            if status != OK:
                return Part(status), None
            lists = own.listed(self._places)
            told: Part = library.spt_graph_part(byref(own.place), source, limit, *_slices(*lists))
            if told.status == BAD_SIZE:
                self._large = limit
                return Part(OK), None
            vertices, distances, predecessors = (in_bytes(it[: told.count].tobytes(), it.format) for it in lists)
        return told, (vertices, distances, predecessors)

    def nearest(self, sources: memoryview, limit: int, delta: int, lists: Sequence[memoryview]) -> Answer:
        """Writes the distances, predecessors and roots of the forest of the sources."""
        with self._shared() as (own, status):
            if status != OK:
                return Answer(status)
            told: Answer = library.spt_graph_nearest(byref(own.place), *_slices(sources), limit, delta, *_slices(*lists))
        return told

    def matrix(self, sources: memoryview, targets: memoryview, delta: int, distances: memoryview) -> Batch:
        """Writes the distances of the targets from each of the sources, row by row."""
        with self._shared() as (own, status):
            if status != OK:
                return Batch(status)
            told: Batch = library.spt_graph_matrix(byref(own.place), *_slices(sources, targets), delta, *_slices(distances))
        return told

    @contextmanager
    def _shared(self) -> Iterator[Tuple[_Handle, int]]:
        """Yields a handle for a single call, and the status of making it."""
        try:
            own, status = self._waiting.pop(), OK
        except IndexError:
            own = _Handle()
            with self._lock:
                status = library.spt_graph_share(byref(self._place), byref(own.place)).status
        try:
            yield own, status
        finally:
            if status == OK:
                self._waiting.append(own)


def _slices(*lists: memoryview) -> Iterator[int]:
    """Yields the address and the length of each list."""
    for numbers in lists:
        yield from (address(numbers), len(numbers))
