"""The files of a graph: its text or its packed form, and beside a packed file its names and unit, in JSON."""

from __future__ import annotations

import contextlib
import errno
import gzip
import io
import json
import math
import os
import secrets
import shutil

from typing import Any, BinaryIO, Callable, Iterator, Optional, Tuple

from ._terms import Terms

# the JSON file beside a packed graph begins with the number of its form
_FORM = 1
_FRONT = b'{"spt": '
# the names that JSON restores as they were
_PLAIN = (str, int, float, bool, type(None))
# a packed graph ends with a sum of this many bytes
_SUM = 16


def given_file(file: Any) -> Tuple[bytes, str, Optional[str]]:
    """Returns the bytes of a file, its name in errors, and its path; None if it was open, or the bytes were given themselves.

    It is a gzip file if it ends in .gz. TypeError: it is open for reading text.
    """
    if isinstance(file, (bytes, bytearray, memoryview)):
        return bytes(file), "gr", None
    if hasattr(file, "read"):
        data, name = file.read(), str(getattr(file, "name", "gr"))
        if isinstance(data, str):
            raise TypeError(f"{name} is open for reading text: open it for bytes, with mode 'rb'")
        return data, name, None
    path = os.fspath(file)
    with gzip.open(path) if path.endswith(".gz") else open(path, "rb") as opened:
        return opened.read(), path, path


# ## Names and units


def beside(path: str) -> str:
    """Returns the path of the JSON file for a packed graph."""
    return f"{path}.json"


def text_of(terms: Terms, packed: memoryview) -> Optional[str]:
    """Returns the text of the JSON file for the graph with these words; None if it has no names and no unit.

    TypeError: JSON can't restore a name as it was.
    """
    if terms.names is None and terms.unit is None:
        return None
    names = terms.names and [_plain(number, name) for number, name in enumerate(terms.names, 1)]
    told = {"spt": _FORM, "n": packed[2], "m": packed[3], "sum": _sum(packed), "unit": terms.unit, "names": names}
    return json.dumps(told) + "\n"


def _sum(packed: Any) -> str:
    return memoryview(packed).cast("B")[-_SUM:].hex()


def _plain(number: int, name: Any) -> Any:
    """Returns a name in a form that JSON restores as it was: for a number of NumPy, the plain number."""
    plain = name.item() if hasattr(name, "dtype") and hasattr(name, "item") else name
    if type(plain) not in _PLAIN or isinstance(plain, float) and not math.isfinite(plain):
        raise TypeError(
            f"vertex {number} has the name {name!r}, a {type(name).__name__}, which JSON can't restore:"
            " names to be saved are strings, numbers, True, False and None"
        )
    return plain


def terms_of(path: Optional[str], n: int, m: int, packed: bytes) -> Terms:
    """Returns the names and the unit of the packed graph in this file. They are in the JSON file beside it, if there is one.

    ValueError: the JSON file isn't one that `save` writes, or it belongs to another graph.
    """
    if path is None:
        return Terms(n, None, None)
    try:
        with open(beside(path), "rb") as file:
            told = _parsed(path, file.read())
    except FileNotFoundError:
        return Terms(n, None, None)
    if (told.get("n"), told.get("m"), told.get("sum")) != (n, m, _sum(packed)):
        told_of = f"{beside(path)} has the names or the unit of another graph than {path}"
        raise ValueError(f"{told_of}: save the graph again, or move the file")
    unit, names = told.get("unit"), told.get("names")
    if not _is_unit(unit) or not _are_names(names, n):
        raise ValueError(_other_file(path))
    return Terms(n, names and tuple(names), unit and float(unit))


def _other_file(path: str) -> str:
    return f"{beside(path)} isn't what Graph.save wrote beside {path}: save the graph again, or move the file"


def _parsed(path: str, text: bytes) -> dict[str, Any]:
    try:
        told = json.loads(text)
    except ValueError:
        told = None
    if not isinstance(told, dict) or "spt" not in told:
        raise ValueError(_other_file(path))
    if told["spt"] != _FORM:
        raise ValueError(f"{beside(path)} has the form {told['spt']!r}, and this version of spt reads form {_FORM}")
    return told


def _is_unit(unit: Any) -> bool:
    return unit is None or type(unit) in (int, float) and 0 < unit < math.inf


def _are_names(names: Any, n: int) -> bool:
    if not isinstance(names, list):
        return names is None
    return len(names) == n and set(map(type, names)) <= set(_PLAIN) and len(set(names)) == n


# ## Saving


def save(file: Any, terms: Terms, packed: memoryview) -> None:
    """Writes the words of a packed graph to a file, and the names and the unit, if there are any, to the JSON file beside it.

    TypeError: JSON can't restore a name as it was. ValueError: there are names or a unit, but the file has no path of its own.
    FileExistsError: another file has the name of the JSON file. FileNotFoundError, IsADirectoryError, NotADirectoryError: there
    can't be a file of this path.
    """
    text = text_of(terms, packed)
    is_open = hasattr(file, "write")
    path = "" if is_open else os.fspath(file)
    if not is_open:
        _refuse_folders(path)
    if not is_open and _is_replaced(path):
        _refuse_others(path)
        _replace(path, packed, text)
        return
    if text is not None:
        where = "an open file" if is_open else path
        raise ValueError(f"{where} takes no names and no unit beside the packed graph: give the path of a file")
    if is_open:
        _write(file, packed)
    else:
        with open(path, "wb") as opened:
            _write(opened, packed)


def _is_replaced(path: str) -> bool:
    """Whether a file of this name is replaced as a whole. Devices and pipes are written to instead."""
    return os.path.isfile(path) or not os.path.exists(path)


def _refuse_folders(path: str) -> None:
    """IsADirectoryError: it is a folder. FileNotFoundError, NotADirectoryError: there is no folder that a file of this name is in."""
    if os.path.isdir(path) or path.endswith(os.sep):
        raise IsADirectoryError(f"{path} is a folder: save to a file in it, such as {os.path.join(path, 'graph.spt')}")
    folder = os.path.dirname(os.path.realpath(path))
    if os.path.isdir(folder):
        return
    if os.path.exists(folder):
        raise NotADirectoryError(f"can't save to {path}: {folder} is a file, not a folder")
    raise FileNotFoundError(f"can't save to {path}: there is no folder {folder}; make it first")


def _refuse_others(path: str) -> None:
    """FileExistsError: `save` didn't write the file that has the name of the JSON file."""
    try:
        with open(beside(path), "rb") as file:
            is_ours = file.read(len(_FRONT)) == _FRONT
    except FileNotFoundError:
        return
    if not is_ours:
        raise FileExistsError(f"{beside(path)} isn't what Graph.save wrote: save under another name, or move the file")


def _replace(path: str, packed: memoryview, text: Optional[str]) -> None:
    """Puts a packed graph into a file, and the text into its JSON file; without a text, removes the JSON file of an earlier graph.

    Both are written to new files first, so that the old ones stay as they were unless everything was written.
    """
    with contextlib.ExitStack() as stack:
        put_graph = stack.enter_context(_new(path, packed))
        put_text = None if text is None else stack.enter_context(_new(beside(path), memoryview(text.encode())))
        put_graph()
        if put_text:
            put_text()
        else:
            with contextlib.suppress(FileNotFoundError):
                os.remove(beside(path))


@contextlib.contextmanager
def _new(path: str, data: memoryview) -> Iterator[Callable[[], None]]:
    """Makes a new file with these bytes in the folder of `path`, and yields a function that puts it in place of `path`.

    Without that call the new file is removed again. If `path` is a link, the file that it leads to is replaced. The new file gets
    the mode of the old one.
    """
    place = os.path.realpath(path)
    new = os.path.join(os.path.dirname(place), f".spt-{os.getpid()}-{secrets.token_hex(8)}.part")
    try:
        with open(new, "xb") as opened:
            if path.endswith(".gz"):
                with gzip.GzipFile("", "wb", fileobj=opened, mtime=0) as file:
                    _write(file, data)
            else:
                _write(opened, data)
            opened.flush()
            _sync(opened)
        with contextlib.suppress(FileNotFoundError):
            shutil.copymode(place, new)
        yield lambda: os.replace(new, place)
    finally:
        with contextlib.suppress(FileNotFoundError):
            os.remove(new)


def _sync(opened: BinaryIO) -> None:
    """Waits until a file is on the disk, if its file system supports that."""
    try:
        os.fsync(opened.fileno())
    except OSError as told:
        if told.errno not in (errno.EINVAL, errno.ENOTSUP):
            raise


def _write(file: Any, data: memoryview) -> None:
    """Writes all data to an open file, which may take less at a time."""
    left = data.cast("B")
    while left:
        taken = file.write(left)
        if taken is None and not isinstance(file, io.RawIOBase):
            # (some classes of files return nothing)
            taken = len(left)
        if not taken:
            raise OSError(f"{len(left)} bytes are left that the file doesn't take")
        left = left[taken:]
