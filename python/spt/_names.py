"""The names of vertices, apart from any graph."""

from __future__ import annotations

from functools import cached_property
from typing import Any, Iterable, Iterator, Tuple

from ._faults import NoSuchVertex
from ._kinds import of_other_kind


class Names:
    """Names of vertices, which are numbered from 1 in this order. Several graphs may share them (`Graph.named`).

    Each is anything that can be a dict key. `given` is any iterable; a NumPy or pandas array becomes a tuple only when needed.
    ValueError: a name appears twice, as soon as a name is looked up.

    >>> names = Names(["Depot", "Mill", "Quay"])
    >>> len(names), names.number("Mill"), names.name(3), "Church" in names
    (3, 2, 'Quay', False)
    """

    def __init__(self, given: Iterable[Any]) -> None:
        self.given = given if isinstance(given, tuple) or hasattr(given, "dtype") else tuple(given)

    def __reduce__(self) -> tuple[Any, ...]:
        return Names, (self.given,)

    def __len__(self) -> int:
        return len(self.given)  # type: ignore[arg-type]

    def __iter__(self) -> Iterator[Any]:
        return iter(self.listed)

    def __contains__(self, name: object) -> bool:
        try:
            return name in self.numbers
        except TypeError:
            return False

    def __eq__(self, other: object) -> bool:
        return self is other or isinstance(other, Names) and self.listed == other.listed

    def __hash__(self) -> int:
        return hash(len(self))

    def __repr__(self) -> str:
        return f"Names of {len(self)} vertices"

    @cached_property
    def listed(self) -> Tuple[Any, ...]:
        """The names as a tuple, with that of vertex v at index v - 1."""
        return self.given if isinstance(self.given, tuple) else tuple(self.given.tolist())  # type: ignore[attr-defined]

    @cached_property
    def numbers(self) -> dict[Any, int]:
        """The number of each name."""
        numbers = dict(zip(self.listed, range(1, len(self) + 1)))
        if len(numbers) < len(self):
            twice = next(name for at, name in enumerate(self.listed, 1) if numbers[name] != at)
            raise ValueError(f"the name {twice!r} appears twice: each vertex needs a name of its own")
        return numbers

    def number(self, name: Any) -> int:
        """Returns the number of a vertex. NoSuchVertex: none has this name."""
        try:
            return self.numbers[name]
        except (KeyError, TypeError):
            other = of_other_kind(name)
            raise NoSuchVertex(len(self), name, True, None if other is None or other not in self else other) from None

    def name(self, number: int) -> Any:
        """Returns the name of the vertex with this number; None for 0, which is no vertex."""
        return self.listed[number - 1] if number else None


def names_for(given: Any, n: int) -> Names:
    """Returns the names of n vertices. ValueError: there are more or fewer."""
    names = given if isinstance(given, Names) else Names(given)
    if len(names) != n:
        raise ValueError(f"{len(names)} names for {n} vertices: each vertex needs one")
    return names
