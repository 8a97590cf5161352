"""The functions of spt.h, called through ctypes. A call releases the GIL."""

from __future__ import annotations

import ctypes
import os
import sys

from ctypes import POINTER, c_size_t, c_uint32, c_uint64, c_void_p

OK, BAD_SIZE, BAD_DELTA, BAD_ARC, NO_SUCH_VERTEX, TOO_FAR, MEMORY, BAD_TEXT, LONG_TEXT, WRONG, NO_GRAPH, BAD_LIMIT = range(12)
# a library before 1.5 has no such status
IN_USE = 12
MOST_VERTICES = 2**32 - 2
NAME = "libspt.so.1"
# the exit status of `python -m spt` without a library, as for any file that is refused
_NO_LIBRARY = 2


class LibraryNotFound(ImportError):
    """libspt.so was not found, or could not be loaded."""


class Answer(ctypes.Structure):
    """spt_answer"""

    _fields_ = [("status", c_uint32), ("vertex", c_uint32), ("index", c_uint64)]


class Batch(ctypes.Structure):
    """spt_batch"""

    _fields_ = [("status", c_uint32), ("vertex", c_uint32), ("index", c_uint64), ("done", c_uint64)]


class Found(ctypes.Structure):
    """spt_found"""

    _fields_ = [("status", c_uint32), ("pred", c_uint32), ("dist", c_uint64), ("index", c_uint64)]


class FoundRoute(ctypes.Structure):
    """spt_route"""

    _fields_ = [("status", c_uint32), ("vertex", c_uint32), ("dist", c_uint64), ("index", c_uint64), ("count", c_uint64)]


class Part(ctypes.Structure):
    """spt_part"""

    _fields_ = [("status", c_uint32), ("count", c_uint64)]


class Packed(ctypes.Structure):
    """spt_packed"""

    _fields_ = [
        ("status", c_uint32),
        ("n", c_uint32),
        ("m", c_uint64),
        ("kind", c_uint32),
        ("letter", c_uint32),
        ("byte", c_uint64),
    ]


class Saved(ctypes.Structure):
    """spt_saved"""

    _fields_ = [("status", c_uint32), ("count", c_uint64)]


class Place(ctypes.Structure):
    """spt_graph"""

    _fields_ = [("at", c_void_p), ("state", c_uint64)]


class Text(ctypes.Structure):
    """spt_text"""

    _fields_ = [
        ("status", c_uint32),
        ("n", c_uint32),
        ("m", c_uint64),
        ("kind", c_uint32),
        ("letter", c_uint32),
        ("line", c_uint64),
    ]


_SLICE = [c_void_p, c_size_t]
_FUNCTIONS = {
    "spt_reach": ([c_uint32], c_uint64),
    "spt_graph_new": ([*_SLICE, c_uint32, POINTER(Place)], Answer),
    "spt_graph_share": ([POINTER(Place), POINTER(Place)], Answer),
    "spt_graph_free": ([POINTER(Place)], c_uint32),
    "spt_graph_trees": ([POINTER(Place), *_SLICE, c_uint64, *_SLICE, *_SLICE], Batch),
    "spt_check": ([*_SLICE, c_uint32, c_uint32, *_SLICE, *_SLICE], Answer),
    "spt_gr": ([*_SLICE, *_SLICE], Text),
}
# functions that a library older than 1.6 may lack
_LATER = {
    "spt_graph_pair": ([POINTER(Place), c_uint32, c_uint32, c_uint64], Found),
    "spt_graph_within": ([POINTER(Place), c_uint32, c_uint64, c_uint64, *_SLICE, *_SLICE], Answer),
    "spt_graph_part": ([POINTER(Place), c_uint32, c_uint64, *_SLICE, *_SLICE, *_SLICE], Part),
    "spt_graph_nearest": ([POINTER(Place), *_SLICE, c_uint64, c_uint64, *_SLICE, *_SLICE, *_SLICE], Answer),
    "spt_graph_matrix": ([POINTER(Place), *_SLICE, *_SLICE, c_uint64, *_SLICE], Batch),
    "spt_graph_turned": ([POINTER(Place), POINTER(Place)], Answer),
    "spt_graph_both_ways": ([POINTER(Place), POINTER(Place)], Answer),
    "spt_graph_load": ([POINTER(Place), *_SLICE], Packed),
    "spt_graph_save": ([POINTER(Place), *_SLICE], Saved),
    "spt_graph_route": ([POINTER(Place), c_uint32, c_uint32, *_SLICE], FoundRoute),
    "spt_graph_routes": ([POINTER(Place), c_uint32, *_SLICE, *_SLICE, *_SLICE, *_SLICE], Answer),
}


def _path() -> str:
    beside = os.path.join(os.path.dirname(os.path.abspath(__file__)), "libspt.so")
    return os.environ.get("SPT_LIBRARY") or (beside if os.path.exists(beside) else NAME)


def _load() -> ctypes.CDLL:
    path = _path()
    try:
        library = ctypes.CDLL(path)
        later = {name: types for name, types in _LATER.items() if hasattr(library, name)}
        for name, (given, told) in {**_FUNCTIONS, **later}.items():
            function = getattr(library, name)
            function.argtypes, function.restype = given, told
    except (OSError, AttributeError) as error:
        why = f"spt: {error}; set SPT_LIBRARY to the path of libspt.so (docs/PYTHON.md)"
        if getattr(sys, "argv", [])[:1] == ["-m"]:
            # (`python -m spt` imports the package before its command line, and would add a traceback)
            print(why, file=sys.stderr)
            sys.exit(_NO_LIBRARY)
        raise LibraryNotFound(why) from error
    return library


library = _load()
HAS_PAIR = hasattr(library, "spt_graph_pair")
HAS_NEAR = hasattr(library, "spt_graph_nearest")
HAS_PART = hasattr(library, "spt_graph_part")
HAS_PACKED = hasattr(library, "spt_graph_load")
HAS_ROUTES = hasattr(library, "spt_graph_route") and hasattr(library, "spt_graph_routes")
# what the library takes as no limit
NO_LIMIT = 2**64 - 1


def reach(n: int) -> int:
    """Returns the greatest distance that a tree of n vertices can hold; 0 if there is no graph of n vertices.

    >>> reach(4)
    17592186044414
    """
    return int(library.spt_reach(n)) if 1 <= n <= MOST_VERTICES else 0
