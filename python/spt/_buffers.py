"""Lists of numbers that C reads and writes in place."""

from __future__ import annotations

import array
import ctypes

from typing import Any, Iterable


class _Buffer(ctypes.Structure):
    """Py_buffer, as in CPython's stable ABI."""

    _fields_ = [
        ("buf", ctypes.c_void_p),
        ("obj", ctypes.py_object),
        ("len", ctypes.c_ssize_t),
        ("itemsize", ctypes.c_ssize_t),
        ("readonly", ctypes.c_int),
        ("ndim", ctypes.c_int),
        ("format", ctypes.c_char_p),
        ("shape", ctypes.c_void_p),
        ("strides", ctypes.c_void_p),
        ("suboffsets", ctypes.c_void_p),
        ("internal", ctypes.c_void_p),
    ]


_get = ctypes.pythonapi.PyObject_GetBuffer
_get.argtypes = [ctypes.py_object, ctypes.POINTER(_Buffer), ctypes.c_int]
_release = ctypes.pythonapi.PyBuffer_Release
_release.argtypes, _release.restype = [ctypes.POINTER(_Buffer)], None
# the address of an empty list, since no pointer may be null
_NOTHING = ctypes.c_uint64()
# bytes per number of each format
_BYTES = {"I": 4, "Q": 8}


def address(view: memoryview) -> int:
    """Returns the address of a list, which may be read-only. It stays valid while the view lives."""
    told = _Buffer()
    _get(view, ctypes.byref(told), 0)
    at = told.buf
    _release(ctypes.byref(told))
    return at or ctypes.addressof(_NOTHING)


def filled(format: str, places: int, number: int) -> memoryview:
    """Returns a new list of this format ('I' or 'Q') that holds the same number everywhere."""
    return memoryview(array.array(format, [number]) * places)


def zeros(format: str, places: int) -> memoryview:
    """Returns a new list of this format ('I' or 'Q') that C may write to."""
    return filled(format, places, 0)


def is_buffer(given: Any) -> bool:
    """Whether it is an array, a memoryview, or any other list with C's layout in memory."""
    try:
        memoryview(given)
    except TypeError:
        return False
    return True


def words(numbers: Any) -> memoryview:
    """Returns a flat list of unsigned 32-bit numbers: the given list itself if it is one and has no gaps, otherwise a copy.

    ValueError: a number is below 0 or above 4294967295. TypeError: it isn't a list of integers.
    """
    if not is_buffer(numbers):
        return _copied(numbers)
    view = memoryview(numbers)
    kind = _kind(view)
    if kind not in list("bBhHiIlLqQ"):
        raise TypeError(f"numbers of format {view.format!r}: must be integers, preferably unsigned 32-bit")
    if not view.nbytes:
        return zeros("I", 0)
    flat = _bytes(view, view.itemsize)
    signed = flat.cast({1: "b", 2: "h", 4: "i", 8: "q"}[view.itemsize])
    if kind.islower():
        return _copied(signed)
    unsigned = flat.cast(signed.format.upper())
    return unsigned if unsigned.format == "I" else _copied(unsigned)


def kept(numbers: Any) -> memoryview:
    """Like `words`, but returns a list that nobody can write to: a copy, unless the numbers are in `bytes`, which never change."""
    found = words(numbers)
    is_others = is_buffer(numbers) and found.obj is memoryview(numbers).obj and not isinstance(found.obj, bytes)
    return in_bytes(found.tobytes(), "I") if is_others else found.toreadonly()


def column(numbers: Any, format: str) -> memoryview:
    """Returns a flat, read-only list of this format ('I' or 'Q'): the given list itself if it is read-only, otherwise a copy.

    Unsigned numbers of the same size are accepted under any of C's names: NumPy calls 64-bit ones 'L'. ValueError: it has several
    dimensions. TypeError: it isn't a list of such numbers.
    """
    view = memoryview(numbers)
    if _kind(view) not in ("I", "L", "Q") or view.itemsize != _BYTES[format]:
        raise TypeError(f"numbers of format {view.format!r}: must be unsigned {8 * _BYTES[format]}-bit numbers")
    if view.ndim != 1:
        raise ValueError(f"a list of shape {view.shape}: must have one number for each vertex")
    return in_bytes(view if view.readonly else view.tobytes(), format)


def in_bytes(given: Any, format: str) -> memoryview:
    """Returns the numbers of this format ('I' or 'Q') with these bytes."""
    view = memoryview(given)
    return _bytes(view, _BYTES[format]).cast(format) if view.nbytes else zeros(format, 0).toreadonly()


def _kind(view: memoryview) -> str:
    """Returns C's letter for the numbers; numbers in the other byte order keep the sign for it."""
    return view.format.lstrip("@=<")


def _bytes(view: memoryview, size: int) -> memoryview:
    """Returns the bytes of a list: in place if they have no gaps and are aligned for numbers of this size, otherwise a copy."""
    is_plain = view.c_contiguous and len(view.format) == 1 and address(view) % size == 0
    return view.cast("B") if is_plain else memoryview(view.tobytes())


def _copied(numbers: Iterable[int]) -> memoryview:
    try:
        return memoryview(array.array("I", numbers))
    except OverflowError as error:
        raise ValueError("a number is below 0 or above 4294967295") from error
