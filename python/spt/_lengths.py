"""The numbers of arcs, as the library takes them: which are invalid, why, and lengths in the caller's unit."""

from __future__ import annotations

import array
import itertools
import math
import operator

from collections.abc import Mapping
from typing import Any, Iterable, NamedTuple, Optional, Sequence

from ._buffers import in_bytes, is_buffer, kept, zeros
from ._faults import BadArc

MOST = 2**32 - 1
_WHOLE = f"is not a length: lengths are whole numbers from 1 to {MOST}"
_FRACTION = "; for fractions give a unit, such as unit=0.001"
_ZERO = '; zero="unit" counts 0 as one unit'
_FORMS = "arcs are triples of tail, head and length, an array of shape (m, 3), or their numbers in one flat list"
_FRAME = "for a frame or named columns use Graph.from_frame(edges, 'tail', 'head', 'length'), with your column names"


def unit_of(given: Any) -> Optional[float]:
    """Returns the unit as a float, None if there is none. ValueError: it is not a number above 0."""
    if given is None:
        return None
    unit = float(given)
    if not 0 < unit < math.inf:
        raise ValueError(f"unit {given!r}: must be a number above 0, the length that counts as 1")
    return unit


class Scale(NamedTuple):
    """How lengths become whole numbers: the length that counts as 1, None for whole lengths, and whether 0 counts as 1, too."""

    unit: Optional[float] = None
    takes_zero: bool = False


def scale_of(unit: Any, zero: Any) -> Scale:
    """Returns how lengths are counted. ValueError: the unit is not a number above 0, or `zero` is neither "unit" nor None."""
    if zero is not None and not (isinstance(zero, str) and zero == "unit"):
        raise ValueError(f'zero {zero!r}: must be "unit", which counts lengths of 0 as one unit, or None, which refuses them')
    return Scale(unit_of(unit), zero is not None)


def vertex_fault(n: int, given: Any) -> Optional[str]:
    """Returns why this is not a vertex; None if it is one."""
    if not _is_whole(given):
        return f"{given!r} is not a vertex: vertices are whole numbers from 1 to {n}"
    if given == 0:
        return f"0 is not a vertex of a graph with {n} vertices: vertices are numbered from 1; if yours start at 0, add 1 to each"
    return None if 1 <= given <= n else f"{int(given)} is not a vertex of a graph with {n} vertices"


def length_fault(given: Any, scale: Scale) -> Optional[str]:
    """Returns why this is not a length; None if it is one."""
    number = _float(given)
    if number == 0 and scale.takes_zero:
        return None
    return _whole_fault(given, number) if scale.unit is None else _unit_fault(given, number, scale.unit, scale.takes_zero)


def _whole_fault(given: Any, number: float) -> Optional[str]:
    """Returns why a number is not a whole length; None if it is one."""
    is_finite = abs(number) < math.inf
    is_whole = is_finite and number.is_integer()
    if is_whole and 1 <= number <= MOST:
        return None
    more = _ZERO if number == 0 else _FRACTION if is_finite and not is_whole and number > 0 else ""
    return f"{given!r} {_WHOLE}{more}"


def _unit_fault(given: Any, number: float, unit: float, takes_zero: bool) -> Optional[str]:
    """Returns why a number is not a length in this unit; None if it is one."""
    if not abs(number) < math.inf:
        return f"{given!r} is not a length: lengths are numbers above 0; leave out an arc without one"
    if number <= 0:
        told = f"{given!r} is not a length: lengths are above 0, and the smallest after rounding is the unit, {unit!r}"
        return told if number else f"{told}{_ZERO}"
    whole = round(number / unit) if number / unit <= 2 * MOST else math.inf
    if whole < 1 and not takes_zero:
        return f'{given!r} rounds to 0 in the unit {unit!r}: use a smaller unit, or zero="unit" to count it as {unit!r}'
    return None if whole <= MOST else f"{given!r} is more than {MOST} times the unit {unit!r}: use a larger unit"


def arc_fault(n: int, arc: Sequence[Any], scale: Scale) -> Optional[str]:
    """Returns why this is not an arc; None if it is one."""
    return vertex_fault(n, arc[0]) or vertex_fault(n, arc[1]) or length_fault(arc[2], scale)


def whole_length(given: Any, scale: Scale) -> int:
    """Returns a length as the library takes it, with halves rounded to even. ValueError: why it is not a length."""
    why = length_fault(given, scale)
    if why:
        raise ValueError(why)
    whole = int(given) if scale.unit is None else round(float(given) / scale.unit)
    return whole or 1


def _float(given: Any) -> float:
    """Returns a number as a float; NaN for anything else, such as strings and arrays, though Python converts some of them."""
    if isinstance(given, (str, bytes, bytearray)) or hasattr(given, "ndim") and given.ndim:
        return math.nan
    try:
        return float(given)
    except OverflowError:
        return math.inf
    except (TypeError, ValueError):
        return math.nan


def _is_whole(given: Any) -> bool:
    return isinstance(given, float) and given.is_integer() or _is_index(given)


def _is_index(given: Any) -> bool:
    try:
        operator.index(given)
    except TypeError:
        return False
    return True


def _numpy_of(column: Any) -> Any:
    """Returns a column of numbers as a NumPy array; None if that would need a look at each number."""
    if getattr(getattr(column, "dtype", None), "kind", None) not in ("b", "i", "u", "f"):
        return None
    import numpy

    numbers = numpy.asarray(column)
    # (nullable numbers of pandas have a kind, but are objects to NumPy)
    return column.to_numpy(dtype=float, na_value=math.nan) if numbers.dtype.kind == "O" else numbers


def unsigned(numbers: Any, least: int) -> Optional[memoryview]:
    """Returns a NumPy array as unsigned 32-bit numbers; None if any is below the least, too great or not whole."""
    import numpy

    is_right = (numbers >= least) & (numbers <= MOST)
    if numbers.dtype.kind == "f":
        is_right &= numbers == numpy.floor(numbers)
    return in_bytes(numpy.ascontiguousarray(numbers, numpy.uint32), "I") if is_right.all() else None


def whole_lengths(column: Any, scale: Scale) -> Optional[memoryview]:
    """Returns a column of lengths as the library takes them, with halves rounded to even; None if any is not a length."""
    lengths, unit = _numpy_of(column), scale.unit
    if lengths is not None:
        import numpy

        with numpy.errstate(all="ignore"):
            whole = lengths if unit is None else numpy.rint(lengths / unit)
            return unsigned(numpy.where((whole == 0) & (lengths >= 0), 1, whole) if scale.takes_zero else whole, 1)
    try:
        if unit is None:
            found = array.array("I", map(int, column))
            are_lengths = all(map(operator.eq, found, column))
        else:
            found = array.array("I", map(round, map(operator.truediv, map(float, column), itertools.repeat(unit))))
            # (Python converts strings to floats, too)
            are_lengths = not {str, bytes, bytearray} & set(map(type, column))
        if scale.takes_zero and are_lengths:
            found = array.array("I", (whole or int(given >= 0) for whole, given in zip(found, column)))
    except (ArithmeticError, TypeError, ValueError):
        return None
    return memoryview(found) if are_lengths and 0 not in found else None


def vertices(column: Any) -> Optional[memoryview]:
    """Returns a column of vertices as the library takes them; None if any is not an unsigned 32-bit number."""
    numbers = _numpy_of(column)
    if numbers is not None:
        return unsigned(numbers, 0)
    return _integers(map(int, column)) if all(map(_is_whole, column)) else None


def _integers(numbers: Iterable[Any]) -> Optional[memoryview]:
    """Returns numbers as the library takes them; None if any is not an unsigned 32-bit number."""
    try:
        return memoryview(array.array("I", numbers))
    except (OverflowError, TypeError):
        return None


def joined(tails: memoryview, heads: memoryview, lengths: memoryview) -> memoryview:
    """Returns the numbers of the arcs in these columns, in a read-only list."""
    numbers = zeros("I", 3 * len(tails))
    numbers[0::3], numbers[1::3], numbers[2::3] = tails, heads, lengths
    return numbers.toreadonly()


def _joined(tails: Any, heads: Any, lengths: Any, scale: Scale) -> Optional[memoryview]:
    """Returns the numbers of the arcs in columns of any numbers; None if any arc is invalid."""
    columns = vertices(tails), vertices(heads), whole_lengths(lengths, scale)
    return None if columns[0] is None or columns[1] is None or columns[2] is None else joined(columns[0], columns[1], columns[2])


def _without_zeros(numbers: memoryview) -> memoryview:
    """Returns the numbers of arcs with 1 for each length of 0."""
    return joined(numbers[0::3], numbers[1::3], memoryview(array.array("I", (it or 1 for it in numbers[2::3]))))


def numbers_of(n: int, arcs: Any, scale: Scale) -> memoryview:
    """Returns the numbers of arcs, given as triples or as one list in memory, in a read-only list.

    BadArc, TypeError: why the first invalid arc is invalid. ValueError, TypeError: they have the wrong form.
    """
    if is_buffer(arcs):
        view = _shaped(memoryview(arcs))
        numbers = _of_buffer(view, scale)
    else:
        listed = _triples(arcs)
        numbers = _of_triples(listed, scale)
    if numbers is None:
        raise _first_refused(n, _rows(view) if is_buffer(arcs) else listed, scale)
    return _without_zeros(numbers) if scale.takes_zero and scale.unit is None else numbers


def _of_buffer(view: memoryview, scale: Scale) -> Optional[memoryview]:
    if scale.unit is None:
        try:
            return kept(view)
        except TypeError as told:
            raise TypeError(f"{told}{_FRACTION}") from None
        except ValueError:
            return None
    try:
        import numpy
    except ImportError:
        return _of_triples(list(_rows(view)), scale)
    columns = numpy.asarray(view).reshape(-1, 3)
    return _joined(columns[:, 0], columns[:, 1], columns[:, 2], scale)


def _of_triples(listed: list[Any], scale: Scale) -> Optional[memoryview]:
    if scale.unit is None:
        numbers = _integers(itertools.chain.from_iterable(listed))
        return None if numbers is None else numbers.toreadonly()
    tails, heads, lengths = zip(*listed) if listed else ((), (), ())
    return _joined(tails, heads, lengths, scale)


def _shaped(view: memoryview) -> memoryview:
    """Returns the numbers of arcs. ValueError: they don't have the shape of arcs."""
    is_rows = view.ndim == 2 and view.shape[1] == 3  # type: ignore[index]
    if not is_rows and not (view.ndim == 1 and view.shape[0] % 3 == 0):  # type: ignore[index]
        raise ValueError(f"an array of shape {view.shape}: {_FORMS}")
    return view


def _rows(view: memoryview) -> Iterable[Any]:
    """Returns the arcs of a list, one after another."""
    numbers = memoryview(view.tobytes()).cast(view.format.lstrip("@=<")) if view.nbytes else view
    return zip(*[iter(numbers)] * 3)


def refuse_frame(given: Any) -> None:
    """TypeError: it is a frame, or has named columns."""
    if hasattr(given, "columns") or isinstance(given, Mapping) and any(isinstance(it, str) for it in given):
        raise TypeError(f"{type(given).__name__}: {_FRAME}")


def _triples(arcs: Any) -> list[Any]:
    """Returns the arcs as a list. ValueError: one doesn't have three numbers."""
    refuse_frame(arcs)
    listed = list(arcs)
    try:
        sizes = list(map(len, listed))
    except TypeError as error:
        raise TypeError(f"{error}: {_FORMS}") from error
    if not set(sizes) <= {3}:
        index = next(at for at, size in enumerate(sizes) if size != 3)
        raise ValueError(f"arc {index} (row {index + 1}) is {listed[index]!r}, which has {sizes[index]} numbers: {_FORMS}")
    return listed


def _first_refused(n: int, arcs: Iterable[Sequence[Any]], scale: Scale) -> Exception:
    """Returns the reason why the first invalid arc is invalid."""
    for index, arc in enumerate(arcs):
        why, are_whole = arc_fault(n, arc, scale), scale.unit is not None or all(map(_is_index, arc))
        if why or not are_whole:
            told = BadArc(n, index, tuple(arc), why or f"{arc[2]!r} {_WHOLE}{_FRACTION}")
            return told if are_whole else TypeError(str(told))
    return ValueError("the arcs changed while they were read")
