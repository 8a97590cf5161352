"""Threads that compute rows in short calls to the library, so that an interrupt ends them soon and progress can be reported."""

from __future__ import annotations

import operator
import os
import threading

from collections import deque
from concurrent.futures import Future
from queue import SimpleQueue
from time import perf_counter
from typing import Any, Callable, Generic, Iterator, Literal, Optional, TypeVar, Union

T = TypeVar("T")
# how many threads compute: a number from 1, or "all" for one on each processor
Workers = Union[int, Literal["all"]]
# called to report progress: how many rows are done, and how many there are
Progress = Optional[Callable[[int, int], Any]]

# how long, in seconds, a call to the library should take, unless a single row takes longer
_AIM = 0.05
# by what factor the number of rows may grow from one call to the next
_GROWTH = 8
# how many threads "all" is at most, as in the program
MOST_WORKERS = 64


def workers_of(given: Any) -> int:
    """Returns the number of threads. ValueError: it is below 1, or a text other than "all". TypeError: it isn't a whole number."""
    if isinstance(given, str):
        if given != "all":
            raise ValueError(f'workers {given!r}: must be a number from 1, or "all" for all processors')
        return min(_processors(), MOST_WORKERS)
    try:
        workers = operator.index(given)
    except TypeError:
        raise TypeError(f'workers {given!r}: must be a number from 1, or "all" for all processors') from None
    if workers < 1:
        raise ValueError(f"{workers} workers: at least 1 is needed")
    return workers


def _processors() -> int:
    """Returns the number of processors that this process may use."""
    return len(os.sched_getaffinity(0)) if hasattr(os, "sched_getaffinity") else os.cpu_count() or 1


class Pace:
    """Chooses how many rows a call should have, from the time that earlier calls took; at most `most`."""

    def __init__(self, most: int) -> None:
        self._most, self.rows = max(1, most), 1

    def took(self, rows: int, seconds: float) -> None:
        """Records how long a call with this many rows took."""
        wanted = int(rows * _AIM / seconds) if seconds > 0 else _GROWTH * rows
        self.rows = max(1, min(wanted, _GROWTH * rows, self._most))


class _Crew(Generic[T]):
    """Threads that call a function for blocks of rows until they are let go.

    Unlike the threads of `concurrent.futures`, they don't keep the process from ending: a call for one row of a large graph takes a
    while, and the library only writes to lists that live as long as the call.
    """

    def __init__(self, threads: int, call: Callable[[int, int], T]) -> None:
        self._threads, self._call, self._is_over = threads, call, False
        self._tasks: SimpleQueue[Optional[tuple[Future[T], int, int]]] = SimpleQueue()
        for _ in range(threads):
            threading.Thread(target=self._work, daemon=True).start()

    def _work(self) -> None:
        while True:
            task = self._tasks.get()
            if task is None or self._is_over:
                return
            future, begin, end = task
            try:
                future.set_result(self._call(begin, end))
            except BaseException as error:
                future.set_exception(error)

    def ask(self, begin: int, end: int) -> Future[T]:
        future: Future[T] = Future()
        self._tasks.put((future, begin, end))
        return future

    def let_go(self) -> None:
        """Lets the threads end after their current calls. Nothing waits for them."""
        self._is_over = True
        for _ in range(self._threads):
            self._tasks.put(None)


def in_order(total: int, workers: int, pace: Pace, call: Callable[[int, int], T], progress: Progress) -> Iterator[T]:
    """Yields the results of a call for each block of rows, in the order of the rows.

    `workers` threads process the blocks, and as many blocks again are queued. If the consumer stops, for example because of an
    interrupt, no further call starts, and nothing waits for the running calls.
    """

    def timed(begin: int, end: int) -> T:
        start = perf_counter()
        told = call(begin, end)
        pace.took(end - begin, perf_counter() - start)
        return told

    crew, waiting, begin = _Crew(min(workers, total), timed), deque[tuple[int, "Future[T]"]](), 0
    try:
        while begin < total or waiting:
            while begin < total and len(waiting) < 2 * workers:
                end = min(begin + pace.rows, total)
                waiting.append((end, crew.ask(begin, end)))
                begin = end
            done, future = waiting.popleft()
            told = future.result()
            if progress is not None:
                progress(done, total)
            yield told
    finally:
        crew.let_go()
