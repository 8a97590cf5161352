"""Tables, read from CSV or Parquet files: columns of text, below a header."""

from __future__ import annotations

import csv
import gzip
import io
import sys
import zlib

from typing import Any, List, Sequence

from ._refused import Refused

# what the cells of a row may be divided by
_DELIMITERS = ",;\t"
_PARQUET = b"PAR1"


def bytes_of(path: str) -> bytes:
    """Returns the bytes of a file; `-` is standard input. It is a gzip file if its name ends in .gz. Refused: it is damaged."""
    if path == "-":
        if sys.stdin is None:
            raise Refused("standard input is closed")
        return sys.stdin.buffer.read()
    try:
        with gzip.open(path) if path.endswith(".gz") else open(path, "rb") as file:
            return file.read()
    except (gzip.BadGzipFile, EOFError, zlib.error) as told:
        raise Refused(f"{path}: not a gzip file, or a damaged one: {told}") from None


class Table:
    """A table: its header, and its rows of text, each with its number.

    Rows are numbered as a spreadsheet does: the header is row 1. Blank rows are left out.
    """

    def __init__(self, path: str, header: Sequence[str], rows: Sequence[Sequence[str]], numbers: Sequence[int]) -> None:
        self.path, self.header, self.rows, self.numbers = path, header, rows, numbers

    def titles(self) -> str:
        """Returns the titles of the columns, as a text for errors."""
        return ", ".join(self.header)

    def place(self, title: str) -> int:
        """Returns the place of the column with this title, from 0. Refused: there is no such column, or there are two."""
        if self.header.count(title) != 1:
            told = "no column" if title not in self.header else "more than one column"
            raise Refused(f"{self.path}: {told} {title!r}: the columns are {self.titles()}")
        return self.header.index(title)

    def column(self, place: int) -> List[str]:
        """Returns the cells of a column, without blanks around them."""
        return [row[place].strip() for row in self.rows]

    def refused(self, index: int, place: int, why: str) -> Refused:
        """Returns the error for a cell: its row, its column, and what is wrong with it."""
        return Refused(f"{self.path}: row {self.numbers[index]}, column {self.header[place]!r}: {why}")

    def names(self, place: int) -> List[str]:
        """Returns the cells of a column of names. Refused: one is empty."""
        names = self.column(place)
        if "" in names:
            raise self.refused(names.index(""), place, "empty, but a name is needed")
        return names


def table_of(path: str, data: bytes) -> Table:
    """Returns the table in a file with these bytes. Refused: it can't be read as a table, or has no rows."""
    table = _parquet(path, data) if data.startswith(_PARQUET) else _csv(path, data)
    if not table.rows:
        raise Refused(f"{path}: there are no rows below the header")
    return table


def _csv(path: str, data: bytes) -> Table:
    text = _text(path, data)
    reader = csv.reader(io.StringIO(text, newline=""), delimiter=_delimiter(text), skipinitialspace=True)
    try:
        found = [(number, row) for number, row in enumerate(reader, 1) if any(map(str.strip, row))]
    except csv.Error as told:
        raise Refused(f"{path}: line {reader.line_num}: {told}") from None
    if not found:
        raise Refused(f"{path}: the file is empty")
    header = [title.strip() for title in found[0][1]]
    for number, row in found[1:]:
        if len(row) != len(header):
            raise Refused(f"{path}: row {number}: {_cells(len(row))}, but the header has {len(header)}")
    return Table(path, header, [row for _, row in found[1:]], [number for number, _ in found[1:]])


def _cells(count: int) -> str:
    return "1 cell" if count == 1 else f"{count} cells"


def _text(path: str, data: bytes) -> str:
    try:
        return data.decode("utf-8-sig")
    except UnicodeDecodeError as told:
        line = data.count(b"\n", 0, told.start) + 1
        raise Refused(f"{path}: line {line}: not in UTF-8: save the file as CSV in UTF-8") from None


def _delimiter(text: str) -> str:
    """Returns what divides the cells of the first line that isn't blank: the comma, unless there are more of another."""
    first = next((line for line in io.StringIO(text) if line.strip()), "")
    return max(_DELIMITERS, key=first.count)


def _parquet(path: str, data: bytes) -> Table:
    try:
        import pandas

        frame = pandas.read_parquet(io.BytesIO(data))
    except ImportError as told:
        raise Refused(f"{path}: a Parquet file needs pandas and pyarrow: {' '.join(str(told).split())}") from None
    except (OSError, ValueError) as told:
        raise Refused(f"{path}: not a Parquet file, or a damaged one: {told}") from None
    columns = [[_plain(cell) for cell in frame[title].tolist()] for title in frame.columns]
    return Table(path, list(map(str, frame.columns)), list(zip(*columns)), range(2, len(frame) + 2))


def _plain(cell: Any) -> str:
    """Returns a cell as text, a missing one as the empty text."""
    return "" if cell is None or cell != cell else str(cell)
