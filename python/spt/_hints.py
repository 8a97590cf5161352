"""The second line of a Fault: the hint of the program `spt` for an invalid line of a graph file, or word of a packed one."""

from __future__ import annotations

import re

from typing import Optional

from ._library import MOST_VERTICES

_LINES = "a .gr file has one `p sp N M`, and `a U V W` for each of its M arcs"
_COUNT = "M in the line `p sp N M` must be the number of `a` lines"
_LENGTHS = "lengths are whole numbers from 1 to 4294967295"
_SPELLING = "numbers consist of digits only: no sign, no decimal point, no leading 0"
_COMMENT = "comments begin with `c` and a blank"
_FROM_ZERO = "vertices are numbered from 1; if yours start at 0, add 1 to each"
_LONG = "a line has at most 1024 bytes, and ends with an LF"
_MOST_ARCS = 1 << 30
_NO_PACKED = "no packed graph of spt; other binary files begin with the same byte, such as a PNG"
_NOT_PACKED = "no packed graph of spt; Graph.read takes the text of a graph, too"
_OTHER_FORM = "changed by a transfer in text mode, or of a newer form; copy it again in binary mode, or pack it again by spt pack"
_CHANGED = "the packed graph was cut or changed; copy it again, or pack it again by spt pack"
# the numbers that are known without the line
_RANGES = {"N": f"N is a number from 1 to {MOST_VERTICES}", "M": f"M is a number from 0 to {_MOST_ARCS}", "W": _LENGTHS}
# the first bytes of files that are not plain text, what these files are, and how to read them
_FORMS = (
    (b"\x1f\x8b", "compressed with gzip", "gzip.open(path), or a name that ends in .gz"),
    (b"BZh", "compressed with bzip2", "bz2.open(path)"),
    (b"\xfd7zXZ\0", "compressed with xz", "lzma.open(path)"),
    (b"\x28\xb5\x2f\xfd", "compressed with zstd", "its text"),
    (b"PK\x03\x04", "compressed with zip", "zipfile.ZipFile(path).open(name)"),
    (b"\xef\xbb\xbf", "begins with a byte order mark", "what comes after it"),
    (b"\xff\xfe", "text in UTF-16", "it in UTF-8"),
    (b"\xfe\xff", "text in UTF-16", "it in UTF-8"),
)
# what lines of other files look like
_OTHERS = (
    (r"p +aux +\S+ +ss\b|s +\S+$", "a .ss file"),
    (r"p +pairs\b|q +\S+ +\S+$", "a file of pairs"),
    (r"p +spt\b|v( +\S+){3}$|e +\S+$", "a tree file"),
    (r"p +rep\b", "a replay file"),
    (r"p +off\b", "a file of offers"),
)


def second_line(text: bytes, number: int, kind: str, field: Optional[str]) -> Optional[str]:
    """Returns the hint for this error in the line with this number, from 1, of a graph's text; None if there is none."""
    other = _other_form(text)
    if other:
        return other
    lines = text.split(b"\n", number)
    line = lines[number - 1] if number <= len(lines) else b""
    vertices = next((int(it[1]) for it in (re.match(rb"\s*p\s+sp\s+(\d+)\s", it) for it in lines[: number - 1]) if it), None)
    if kind == "OutOfRange":
        return _of_range(line, field, vertices)
    if kind in ("BadLine", "NoProblem"):
        return _of_form(line, vertices)
    return {"LongLine": _LONG, "SecondProblem": _LINES, "TooMany": _COUNT, "TooFew": _COUNT}.get(kind)


def word_line(data: bytes, byte: int, kind: str, field: Optional[str]) -> str:
    """Returns the hint for this error in the word of a packed graph that begins at this byte."""
    if not is_packed(data) and data:
        return _other_form(data) or _NOT_PACKED
    if kind == "OtherForm":
        return _OTHER_FORM if byte else _NO_PACKED
    return _RANGES[field] if field in ("N", "M") else _CHANGED


def is_packed(data: bytes) -> bool:
    """Whether the commands of the program take a file with this beginning for a packed one."""
    return data[:1] == b"\x89"


def _other_form(data: bytes) -> Optional[str]:
    """Returns the kind of a file that is neither plain text nor a packed graph, and how to read it; None if it isn't known."""
    return next((f"{what}; give {reader}" for begin, what, reader in _FORMS if data.startswith(begin)), None)


def _of_vertex(vertices: Optional[int]) -> str:
    return f"vertices are numbered from 1 to {'N, given in the line `p`' if vertices is None else vertices}"


def _of_range(line: bytes, field: Optional[str], vertices: Optional[int]) -> Optional[str]:
    """Returns the hint for a number that is out of range."""
    if field in _RANGES:
        return _RANGES[field]
    fields = line.split()
    is_zero = len(fields) == 4 and fields[1 if field == "U" else 2] == b"0"
    return _FROM_ZERO if is_zero else _of_vertex(vertices)


def _of_form(line: bytes, vertices: Optional[int]) -> str:
    """Returns the hint for a line that has no known form, or comes before the problem line."""
    try:
        told = " ".join(line.decode().split())
    except UnicodeDecodeError:
        told = ""
    if re.match(r"[#%;]|//|/\*|c\S", told):
        return _COMMENT
    for form, file in _OTHERS:
        if re.match(form, told):
            return f"a line of {file}, but a .gr file is expected"
    if vertices is None and told[:1] != "p":
        return f"no `p sp N M` line; {_LINES}"
    fields = told.split(" ")
    first = {"p": 2, "a": 1}.get(fields[0])
    wrong = [place for place in range(first or 4, 4) if len(fields) == 4 and not re.fullmatch("0|[1-9][0-9]*", fields[place])]
    return _of_number(fields, wrong[0], vertices) if wrong else _LINES


def _of_number(fields: list[str], place: int, vertices: Optional[int]) -> str:
    """Returns the hint for a field that is not a number."""
    field = fields[place]
    if re.fullmatch(r"\d*|\+.*", field, re.ASCII) or fields[0] == "p":
        return _SPELLING
    if place != 3:
        return _of_vertex(vertices)
    is_fraction = "." in field and not field.startswith("-")
    return f"{_LENGTHS}; multiply them all, for example by 1000" if is_fraction else _LENGTHS
