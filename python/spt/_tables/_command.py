"""The command line as a whole: from its words to the rows of the answer, and the errors on the way."""

from __future__ import annotations

import contextlib
import csv
import io
import os
import secrets
import shutil
import sys

from argparse import Namespace
from time import monotonic
from typing import Iterator, List, Optional, TextIO

from .._faults import BadLimit, SptError
from .._share import Progress
from . import _answers, _map
from ._options import parser
from ._refused import WRONG_FILE, WRONG_LINE, Refused
from ._roads import roads_of

# how long, in seconds, a report of progress stays before the next one
_PAUSE = 1
_INTERRUPTED = 130


def main(words: Optional[List[str]] = None) -> int:
    """Answers a command line; that of this process if there are no words. Returns the exit status."""
    try:
        asked = parser().parse_args(words)
        _write(asked)
    except BrokenPipeError:
        # nobody reads the rest
        with contextlib.suppress(OSError, ValueError):
            os.dup2(os.open(os.devnull, os.O_WRONLY), sys.stdout.fileno())
        return WRONG_FILE
    except KeyboardInterrupt:
        return _INTERRUPTED
    except Exception as error:
        told, status = _told(error)
        print(f"spt: {told}", file=sys.stderr)
        return status
    return 0


def _told(error: Exception) -> tuple[str, int]:
    """Returns what is said about an error, and the exit status. Errors that nobody has thought of are raised again."""
    if isinstance(error, Refused):
        return str(error), error.status
    if isinstance(error, BadLimit):
        return f"--{error}", WRONG_LINE
    if isinstance(error, OSError):
        return f"{error.filename or 'output'}: {error.strerror or error}", WRONG_FILE
    if isinstance(error, MemoryError):
        return "not enough memory", WRONG_FILE
    if isinstance(error, (SptError, ValueError)):
        return str(error), WRONG_FILE
    raise error


def _write(asked: Namespace) -> None:
    inputs = [asked.roads, *(getattr(asked, name, None) for name in ("sources", "targets", "pairs", "places"))]
    if inputs.count("-") > 1:
        raise Refused("standard input twice: only one file can be `-`", WRONG_LINE)
    if asked.output is not None and any(_is_same(it, asked.output) for it in inputs if it is not None):
        raise Refused(f"{asked.output}: the output is an input", WRONG_LINE)
    roads = roads_of(asked)
    of_what = "pairs" if getattr(asked, "paths", False) else "sources"
    rows = getattr(_answers, asked.command)(roads, asked, _reporter(of_what) if getattr(asked, "progress", False) else None)
    # (errors in options and names come before the first row, and before a file is made)
    places, header = _map.places_of(roads, asked), next(rows)
    with _output(asked.output) as file:
        if places is not None:
            return _map.write(file, header, rows, places)
        table = csv.writer(file, lineterminator="\n")
        table.writerow(header)
        table.writerows(rows)


def _is_same(path: str, output: str) -> bool:
    """Whether both are one regular file."""
    try:
        return os.path.isfile(output) and os.path.samefile(path, output)
    except OSError:
        return False


@contextlib.contextmanager
def _output(path: Optional[str]) -> Iterator[TextIO]:
    """Yields a file for the answer; standard output if there is no path.

    A regular file is replaced as a whole, if all was written; otherwise it stays as it was.
    """
    if path is None:
        if sys.stdout is None:
            raise Refused("standard output is closed: -o OUT writes to a file")
        standard = io.TextIOWrapper(sys.stdout.buffer, encoding="utf-8", newline="")
        try:
            yield standard
        finally:
            standard.detach()
    elif os.path.exists(path) and not os.path.isfile(path):
        with open(path, "w", encoding="utf-8", newline="") as file:
            yield file
    else:
        try:
            with _replaced(os.path.realpath(path)) as file:
                yield file
        except OSError as error:
            error.filename = path
            raise


@contextlib.contextmanager
def _replaced(path: str) -> Iterator[TextIO]:
    """Yields a new file, which takes the place of the one with this path at the end, unless there is an error."""
    new = os.path.join(os.path.dirname(path), f".spt-{os.getpid()}-{secrets.token_hex(8)}.part")
    try:
        with open(new, "w", encoding="utf-8", newline="") as file:
            yield file
        with contextlib.suppress(FileNotFoundError):
            shutil.copymode(path, new)
        os.replace(new, path)
    finally:
        with contextlib.suppress(FileNotFoundError):
            os.remove(new)


def _reporter(of_what: str) -> Progress:
    """Returns a function that reports progress on standard error, about once a second and at the end."""
    begin = monotonic()
    last = begin

    def report(done: int, total: int) -> None:
        nonlocal last
        now = monotonic()
        if done == total or now - last >= _PAUSE:
            last = now
            left = (now - begin) / done * (total - done) if done else 0
            print(f"spt: {done} of {total} {of_what}, {now - begin:.0f} s, {left:.0f} s left", file=sys.stderr)

    return report
