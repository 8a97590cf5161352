"""Packed graphs: the numbers of their arcs."""

from __future__ import annotations

import array
import itertools
import operator

from ._buffers import zeros

# the numbers of words before the ends of rows, and after the arcs
_FRONT, _SUM = 4, 4


def numbers_of(words: memoryview) -> memoryview:
    """Returns the numbers of the arcs of a packed graph, given as its words, in its order, in a read-only list."""
    n, m = words[2], words[3]
    ends, rows = words[_FRONT : _FRONT + 1 + n], words[_FRONT + 1 + n : len(words) - _SUM]
    numbers = zeros("I", 3 * m)
    try:
        import numpy
    except ImportError:
        numbers[0::3], numbers[1::3], numbers[2::3] = _tails(ends), rows[0::2], rows[1::2]
    else:
        table = numpy.asarray(numbers).reshape(-1, 3)
        table[:, 0] = numpy.repeat(numpy.arange(1, n + 1, dtype=numpy.uintc), numpy.diff(numpy.asarray(ends)))
        table[:, 1:] = numpy.asarray(rows).reshape(-1, 2)
    return numbers.toreadonly()


def _tails(ends: memoryview) -> memoryview:
    """Returns the tail of each arc, from a 0 and the ends of the vertices' rows."""
    counts = map(operator.sub, ends[1:], ends)
    rows = itertools.starmap(itertools.repeat, zip(itertools.count(1), counts))
    return memoryview(array.array("I", itertools.chain.from_iterable(rows)))


def turned(numbers: memoryview) -> memoryview:
    """Returns the numbers of arcs with their ends exchanged."""
    made = zeros("I", len(numbers))
    made[0::3], made[1::3], made[2::3] = numbers[1::3], numbers[0::3], numbers[2::3]
    return made.toreadonly()
