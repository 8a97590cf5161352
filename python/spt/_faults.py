"""The library's errors, as exceptions."""

from __future__ import annotations

from typing import Any, Optional

KINDS = (
    "", "LongLine", "BadLine", "NoProblem", "SecondProblem", "OutOfRange", "TooMany", "TooFew", "Memory", "Read", "OtherForm",
    "OtherSum",
)


class SptError(Exception):
    """Any error from the library, except lack of memory, which is a MemoryError. It can be pickled, with its fields."""

    def __reduce__(self) -> tuple[Any, ...]:
        return _again, (type(self), self.args), self.__dict__


def _again(kind: type[SptError], told: tuple[Any, ...]) -> SptError:
    """Returns the exception with this message; its fields are set afterwards."""
    return kind.__new__(kind, *told)


class Fault(SptError, ValueError):
    """The first error in a text or a packed graph: its place, its kind, the field that is out of range, if any, and perhaps a hint.

    In a text, `line` is the number of the line, from 1, and `byte` is None. In a packed graph, `byte` is the number of bytes before
    the wrong word, and `line` is None. The kinds are those that the program `spt` reports. The fields are 'U' and 'V' (vertices),
    'W' (a length), 'N' and 'M' (the numbers of vertices and arcs), and 'E' (the end of a vertex's row). The hint, the second line
    of the message, says why or what to do, like the program's.
    """

    def __init__(
        self,
        name: str,
        line: Optional[int],
        number: int,
        field: Optional[str],
        hint: Optional[str] = None,
        *,
        byte: Optional[int] = None,
    ) -> None:
        self.line, self.byte, self.kind, self.number, self.field, self.hint = line, byte, KINDS[number], number, field, hint
        place = f"byte {byte}" if line is None else f"line {line}"
        first = f"{name}: {place}: {number} {self.kind}{' ' + field if field else ''}"
        super().__init__(f"{first}\n{hint}" if hint else first)


class BadArc(SptError, ValueError):
    """The arc at `index`, from 0, has an end that is not a vertex, or an invalid length. The arcs before it are valid."""

    def __init__(self, n: int, index: int, arc: tuple[Any, ...], why: Optional[str] = None) -> None:
        self.index, self.arc = index, arc
        super().__init__(f"arc {index} (row {index + 1}): {why or f'{arc} is not an arc of a graph with {n} vertices'}")


class NoSuchVertex(SptError, ValueError):
    """A source or target is not a vertex: it is 0 or above the number of vertices, or not a name in a graph with names.

    If the name is a number, and there is one that is the same as text, or the other way round, the message says so.
    """

    def __init__(self, n: int, vertex: Any, has_names: bool = False, other: Any = None) -> None:
        self.vertex = vertex
        if other is not None:
            kind = "text" if isinstance(other, str) else "a number"
            told = f"{vertex!r} is not a vertex name in this graph of {n} vertices, which has {other!r}, {kind}"
        elif has_names:
            told = f"{vertex!r} is not a vertex name in this graph of {n} vertices, which has names (Graph.names)"
        else:
            told = f"{vertex} is not a vertex of a graph with {n} vertices{': vertices are numbered from 1' if vertex == 0 else ''}"
        super().__init__(told)


class BadDelta(SptError, ValueError):
    """`delta` is below 1 or above `reach(n)`."""

    def __init__(self, n: int, delta: int, most: int) -> None:
        self.delta = delta
        super().__init__(f"delta {delta} is out of range: in a graph of {n} vertices it is from 1 to {most}")


class BadLimit(SptError, ValueError):
    """`within` is below 0 or above `reach(n)`, in the unit of the graph."""

    def __init__(self, n: int, limit: Any, most: Any) -> None:
        self.limit = limit
        super().__init__(f"within {limit} is out of range: in a graph of {n} vertices it is from 0 to {most}")


class TooFar(SptError, ArithmeticError):
    """The distance of `vertex`, the smallest such vertex, is above `reach(n)`, so this source has no tree.

    `source` is None if the distance is that from the nearest of several sources.
    """

    def __init__(self, source: Any, vertex: Any, unit: Optional[float] = None, towards: bool = False) -> None:
        self.source, self.vertex = source, vertex
        more = "" if unit is None else f": use a larger unit than {unit!r}, or `within`"
        way = "towards" if towards else "from"
        super().__init__(f"{way} {'the nearest source' if source is None else source}, vertex {vertex} is too far{more}")
