"""Makes the wheel of this package, with the library in it: what `pip install ./python` and `pip wheel ./python` call.

    python3 python/packing.py FOLDER     puts it there, without pip

Nothing but Python is needed where dist/ has the library of these sources; else build/libraries proves and builds it. Nothing is
written beside these files. The same files give the same wheel, byte for byte.
"""

from __future__ import annotations

import ast
import base64
import contextlib
import hashlib
import importlib.util
import io
import os
import re
import subprocess
import sys
import tempfile
import zipfile

from typing import Any, Iterable, Optional

FOLDER = os.path.dirname(os.path.abspath(__file__))
HOME = os.path.dirname(FOLDER)
# the oldest time that a zip file can tell
TIME = (1980, 1, 1, 0, 0, 0)


def build_wheel(wheel_directory: str, config_settings: Any = None, metadata_directory: Optional[str] = None) -> str:
    """Puts the wheel into a folder, and answers its name."""
    library = _library()
    files = {**{name: _bytes(name) for name in _sources()}, "spt/libspt.so": library}
    return _packed(wheel_directory, f"py3-none-{platform_of(library)}", files)


def _sources() -> list[str]:
    """The files of the package, and the module that NetworkX reads while it is imported."""
    found = (os.path.relpath(os.path.join(at, name), FOLDER) for at, _, names in os.walk(f"{FOLDER}/spt") for name in names)
    return sorted([*(name for name in found if name.endswith((".py", ".typed"))), "_spt_networkx.py"])


def _bytes(*path: str) -> bytes:
    with open(os.path.join(FOLDER, *path), "rb") as file:
        return file.read()


def _library() -> bytes:
    """libspt.so of these sources."""
    if not os.path.exists(f"{HOME}/build/libraries"):
        sys.exit(f"spt: {FOLDER} stands in no checkout of the repository, which has the library for the wheel")
    with tempfile.TemporaryDirectory() as prefix:
        made = subprocess.run([f"{HOME}/build/libraries", prefix], stdout=sys.stderr)
        if made.returncode:
            sys.exit(f"spt: build/libraries {prefix}: status {made.returncode}: there is no libspt.so for the wheel")
        with open(f"{prefix}/lib/libspt.so", "rb") as file:
            return file.read()


def platform_of(library: bytes) -> str:
    """The oldest platform that has all symbols of the GNU C library which the library takes."""
    versions = {tuple(map(int, it)) for it in re.findall(rb"GLIBC_(\d+)\.(\d+)", library)}
    return "manylinux_{}_{}_x86_64".format(*max(versions, default=(2, 5)))


def table(name: str) -> dict[str, Any]:
    """A table of pyproject.toml that has strings and lists of strings, which are written as Python's are.

    Python reads TOML from 3.11 on.
    """
    text = _bytes("pyproject.toml").decode() + "\n["
    inside = text[text.index(f"[{name}]\n") :].split("\n[", 1)[0]
    return {key: ast.literal_eval(value) for key, value in re.findall(r'^([\w-]+) = (".*?"|\[.*?\])$', inside, re.M | re.S)}


def _metadata(project: dict[str, Any]) -> str:
    lines = [
        "Metadata-Version: 2.1",
        f"Name: {project['name']}",
        f"Version: {project['version']}",
        f"Summary: {project['description']}",
        f"License: {project['license']}",
        f"Requires-Python: {project['requires-python']}",
        "Description-Content-Type: text/markdown",
        "License-File: LICENSE",
        *(f"Classifier: {it}" for it in project["classifiers"]),
    ]
    for name, needed in table("project.optional-dependencies").items():
        lines += [f"Provides-Extra: {name}", *(f"Requires-Dist: {it}; extra == '{name}'" for it in needed)]
    return "\n".join([*lines, "", _bytes(project["readme"]).decode()])


def _packed(folder: str, tag: str, files: dict[str, bytes]) -> str:
    """Puts a wheel of these files into a folder, and answers its name."""
    project = table("project")
    name = f"{project['name']}-{project['version']}"
    with open(f"{HOME}/LICENSE", "rb") as licence:
        told = {"LICENSE": licence.read(), "METADATA": _metadata(project).encode()}
    told["entry_points.txt"] = _bytes("spt.dist-info", "entry_points.txt")
    told["WHEEL"] = f"Wheel-Version: 1.0\nGenerator: spt\nRoot-Is-Purelib: false\nTag: {tag}\n".encode()
    files = {**files, **{f"{name}.dist-info/{it}": text for it, text in told.items()}}
    record = f"{name}.dist-info/RECORD"
    rows = [*(_row(it, text) for it, text in files.items()), f"{record},,\n"]
    wheel = f"{name}-{tag}.whl"
    with open(os.path.join(folder, wheel), "wb") as out:
        out.write(_zipped([*files.items(), (record, "".join(rows).encode())]))
    return wheel


def _row(name: str, text: bytes) -> str:
    """The line of RECORD about a file."""
    digest = base64.urlsafe_b64encode(hashlib.sha256(text).digest()).rstrip(b"=").decode()
    return f"{name},sha256={digest},{len(text)}\n"


def _zipped(files: Iterable[tuple[str, bytes]]) -> bytes:
    out = io.BytesIO()
    with zipfile.ZipFile(out, "w") as packed:
        for name, text in files:
            # not compressed, which other versions of zlib do in other ways
            entry = zipfile.ZipInfo(name, TIME)
            entry.external_attr = (0o100755 if name.endswith(".so") else 0o100644) << 16
            packed.writestr(entry, text)
    return out.getvalue()


def _leave_nothing() -> None:
    """Takes away what Python keeps beside this file once it is imported."""
    kept = importlib.util.cache_from_source(__file__)
    with contextlib.suppress(OSError):
        os.remove(kept)
        os.rmdir(os.path.dirname(kept))


if __name__ == "__main__":
    if len(sys.argv) != 2:
        sys.exit("usage: python3 python/packing.py FOLDER")
    os.makedirs(sys.argv[1], exist_ok=True)
    print(os.path.join(sys.argv[1], build_wheel(sys.argv[1])))
else:
    _leave_nothing()
