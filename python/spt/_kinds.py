"""Names that are text, and names that are numbers: 7 and '7' name two vertices."""

from __future__ import annotations

import itertools
import numbers

from typing import Any, Iterable, Optional, Sequence, Tuple

# how many digits a text has at most that is taken for a number
_DIGITS = 40


def _kind_of(types: Iterable[type]) -> Optional[str]:
    """Returns what names of these types are, if all are text or all are numbers."""
    kinds = {"text" if issubclass(it, str) else "numbers" if issubclass(it, numbers.Number) else None for it in types}
    return kinds.pop() if len(kinds) == 1 else None


def _kind(column: Any) -> Optional[str]:
    """Returns whether all names in a column are text or numbers; None if neither, or if there are none."""
    if getattr(getattr(column, "dtype", None), "kind", None) in ("i", "u", "f"):
        return "numbers"
    return _kind_of(set(map(type, column)))


def refuse_mixed(columns: Sequence[Tuple[str, Any]]) -> None:
    """ValueError: the names in one of these columns are text, and those in another are numbers, so that no vertex is in both."""
    first = {title: next(iter(column), None) for title, column in columns}
    for (title, column), (other, against) in itertools.combinations(columns, 2):
        # (a look at the first names is enough for nearly all columns)
        if {_kind_of([type(first[title])]), _kind_of([type(first[other])])} != {"text", "numbers"}:
            continue
        kinds = _kind(column), _kind(against)
        if set(kinds) == {"text", "numbers"}:
            told = f"{title} has {kinds[0]}, such as {_shown(first[title])}, and {other} has {kinds[1]}, such as {_shown(first[other])}"
            raise ValueError(f"{told}: a vertex needs the same name in both, so make them all text or all numbers")


def _shown(name: Any) -> str:
    return repr(name.item() if hasattr(name, "dtype") and hasattr(name, "item") else name)


def of_other_kind(name: Any) -> Any:
    """Returns a number as text, or the whole number that a text reads as; None if it is neither."""
    if isinstance(name, str):
        return int(name) if name.isascii() and name.isdigit() and len(name) <= _DIGITS else None
    return str(name) if isinstance(name, numbers.Number) else None
