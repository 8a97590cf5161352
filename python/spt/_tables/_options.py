"""The command line: its commands and options."""

from __future__ import annotations

from argparse import ArgumentParser, ArgumentTypeError, RawDescriptionHelpFormatter
from decimal import Decimal, InvalidOperation
from typing import Any, NoReturn

from .._share import MOST_WORKERS, workers_of
from ._answers import ARROW
from ._refused import WRONG_LINE, Refused

_ABOUT = """\
Shortest paths from a table of roads: names in, names out, lengths in the table's unit.

ROADS is a CSV file with a header, in which each row is a road, or a Parquet file if pandas can read it. It
may also be the file of a graph: a .gr file, or a packed one. Then vertices are numbers, or names if they are
beside it, and lengths are as in the file. The answer is CSV with a header, or GeoJSON if --places are given."""
_LISTS = """\
A FILE of names is a CSV file with a header; its other columns are ignored. One of the files may be `-` for
standard input.

Exit status: 0 done, 1 the command line is wrong, 2 a file or a name is refused."""


class _Parser(ArgumentParser):
    """Its errors have the exit status of a wrong command line."""

    def error(self, message: str) -> NoReturn:
        raise Refused(f"{message}\nfor help: {self.prog} --help", WRONG_LINE)


def parser() -> ArgumentParser:
    """Returns the parser of the command line."""
    form: dict[str, Any] = {"formatter_class": RawDescriptionHelpFormatter, "allow_abbrev": False}
    whole = _Parser(prog="python -m spt", description=_ABOUT, **form)
    commands = whole.add_subparsers(dest="command", metavar="COMMAND", required=True)
    for name, about in (
        ("tree", "Write the distance of each vertex from each source"),
        ("nearest", "Write the nearest source of each vertex"),
        ("matrix", "Write the distance from each source to each target"),
        ("pairs", "Write the distance for each pair of source and target"),
        ("routes", "Write each vertex, or each street, on the path of each pair of source and target"),
    ):
        command = commands.add_parser(name, help=about, description=f"{about}.", epilog=_LISTS, **form)
        _add_roads(command)
        _add_vertices(command, name)
        _add_ways(command, name)
    return whole


def _add_roads(command: ArgumentParser) -> None:
    command.add_argument("roads", metavar="ROADS", help="The roads: a CSV or Parquet file, a .gr file or a packed one")
    for name, about in (("from", "where a road begins"), ("to", "where it ends"), ("length", "how long it is")):
        command.add_argument(f"--{name}", dest=f"{name}_column", metavar="COLUMN", help=f"The column that says {about}")
    command.add_argument("--unit", metavar="U", type=_unit, help="Round lengths to multiples of U; needed for fractions")
    about = "Count lengths of 0, and what rounds to 0, as one unit, or as 1 without a unit"
    command.add_argument("--zero", choices=["unit"], help=about)
    command.add_argument(
        "--both-ways",
        metavar="COLUMN",
        nargs="?",
        const=True,
        default=False,
        help="Use each road in both directions, or those with yes, true or 1 in a COLUMN",
    )


def _add_vertices(command: ArgumentParser, name: str) -> None:
    if name in ("pairs", "routes"):
        about = "The pairs: a CSV file of names, in its first two columns"
        command.add_argument("--pairs", metavar="FILE", required=True, help=about)
        command.set_defaults(paths=name == "routes")
        if name == "pairs":
            about = f"Add a column with the names along the path, as in A{ARROW}B"
            command.add_argument("--paths", action="store_true", help=about)
        else:
            about = "Write each street on the path instead: the number of the pair, its ends, its row in ROADS and its length"
            command.add_argument("--streets", action="store_true", help=about)
            about = "Write streets, with this column of ROADS; can be repeated"
            command.add_argument("--column", metavar="COLUMN", action="append", default=[], help=about)
        return
    command.add_argument("--source", metavar="NAME", action="append", default=[], help="A source; can be repeated")
    command.add_argument("--sources", metavar="FILE", help="The sources: a CSV file of names, in its first column")
    if name == "matrix":
        command.add_argument("--target", metavar="NAME", action="append", default=[], help="A target; can be repeated")
        command.add_argument("--targets", metavar="FILE", help="The targets: a CSV file of names, in its first column")
        command.add_argument("--long", action="store_true", help="Write a row for each source and each target")


def _add_ways(command: ArgumentParser, name: str) -> None:
    if name in ("tree", "nearest"):
        command.add_argument("--within", metavar="L", type=_limit, help="The greatest distance to report, in the table's unit")
    command.add_argument("--towards", action="store_true", help="Write distances towards the sources")
    if name != "nearest":
        command.add_argument("--workers", metavar="N", type=_workers, default=1, help="The number of threads, or `all`")
        command.add_argument("--progress", action="store_true", help="Report progress on standard error")
    if name != "matrix":
        about = "Write GeoJSON instead of CSV, with the places in FILE: a CSV file of names, in its first column"
        command.add_argument("--places", metavar="FILE", help=about)
        for axis, kind in (("x", "longitude"), ("y", "latitude")):
            about = f"The column of --places with the {kind} in degrees (default: {axis})"
            command.add_argument(f"--{axis}", metavar="COLUMN", help=about)
    command.add_argument("-o", "--output", metavar="OUT", help="Write the output to a file instead of standard output")


def _number(text: str) -> Decimal:
    try:
        number = Decimal(text)
    except InvalidOperation:
        number = Decimal("nan")
    if not number.is_finite():
        raise ArgumentTypeError(f"{text!r} is not a number")
    return number


def _unit(text: str) -> Decimal:
    unit = _number(text)
    if not float(unit) > 0:
        raise ArgumentTypeError(f"{text!r} is not above 0")
    return unit


def _limit(text: str) -> Decimal:
    limit = _number(text)
    if limit < 0:
        raise ArgumentTypeError(f"{text!r} is below 0")
    return limit


def _workers(text: str) -> int:
    if text == "all":
        return workers_of(text)
    if not (text.isascii() and text.isdigit()) or not 1 <= int(text) <= MOST_WORKERS:
        raise ArgumentTypeError(f"{text!r} is not a number from 1 to {MOST_WORKERS}, or `all`")
    return int(text)
