#!/usr/bin/env python3
"""Installs the Python package in fresh virtual environments, by pip alone and without network, and finds a tree with it.

Usage: python3 tests/wheel.py

It does so by this Python and by the system's, where they have venv and pip (Debian: python3-venv), and says so where not; with
SPT_ALL=1 that counts as failed where neither has. The package must carry the library, which is looked for nowhere else then,
name the version of the GNU C library that its symbols need, and leave nothing in the checkout. In an environment that has NetworkX and
NumPy too (Debian: python3-networkx) it must serve NetworkX, by the switch that NetworkX has for backends from 3.4 on. The last line is
'N passed, M failed'.
"""

import configparser
import os
import re
import shutil
import subprocess
import sys
import tempfile
import zipfile

sys.dont_write_bytecode = True
from harness import HOME, Count, link_networkx  # noqa: E402

SYSTEM = "/usr/bin/python3"
SECONDS = 600
# what other commands keep in the checkout, and what the library is built in where dist/ has that of other sources
OTHERS = {".git", ".spt", "out"}

PROGRAM = f"""
import spt
tree = spt.Graph.read({HOME + "/examples/diamond.gr"!r}).tree(1)
print(spt.__file__)
print(*sorted({{line.split()[-1] for line in open("/proc/self/maps") if "libspt" in line}}))
print(spt.__version__)
for vertex in range(1, 5):
    print("v", vertex, *tree.pair(vertex))
"""


# what NetworkX finds of the package, as it looks for its backends, and what that says where there is no NumPy
BACKEND = """
from importlib.metadata import entry_points
(backend,), (info,) = (entry_points(group=f"networkx.{group}") for group in ("backends", "backend_info"))
told = info.load()()
backend = backend.load()
print(told["backend_name"], len(told["functions"]), all(hasattr(backend, name) for name in told["functions"]))
print(backend.can_run("has_path", (), {}))
"""


# what NetworkX answers by the installed package, and whether it asked it itself
SERVED = """
import networkx, spt._networkx as backend
graph = networkx.path_graph(300)
if hasattr(networkx, "config"):
    print("by", networkx.config.backend_priority.algos, networkx.shortest_path_length(graph, 0, 299, weight="w"))
    print(type(networkx.single_source_dijkstra_path(graph, 0)).__module__)
else:
    read = backend.convert_from_nx(graph, edge_attrs={"w": 1})
    print("by", ["spt"], backend.shortest_path_length(read, 0, 299, weight="w"))
    print(type(backend.single_source_dijkstra_path(backend.convert_from_nx(graph, edge_attrs={"weight": 1}), 0)).__module__)
print(networkx.__version__, sorted({line.split()[-1] for line in open("/proc/self/maps") if "libspt" in line}))
"""

def run(*words, **known):
    """What a command prints, and its status, in a folder that isn't the checkout, where nothing tells of a library."""
    hidden = ("SPT_LIBRARY", "PYTHONPATH", "PYTHONDONTWRITEBYTECODE", "LD_LIBRARY_PATH")
    known = {**{name: it for name, it in os.environ.items() if name not in hidden and not name.startswith("PIP_")}, **known}
    known = {**known, "PIP_CONFIG_FILE": os.devnull, "PIP_DISABLE_PIP_VERSION_CHECK": "1", "PIP_NO_INDEX": "1"}
    told = subprocess.run(words, cwd="/", env=known, timeout=SECONDS, stdout=subprocess.PIPE, stderr=subprocess.STDOUT, text=True)
    return told.returncode, told.stdout


def checkout():
    """The files of the checkout, and when each was written."""
    found = {}
    for folder, inner, files in os.walk(HOME):
        inner[:] = [name for name in inner if name not in OTHERS]
        found.update((os.path.join(folder, name), os.stat(os.path.join(folder, name)).st_mtime_ns) for name in files)
        found[folder] = None
    return found


def version():
    """That of the library's header."""
    with open(f"{HOME}/include/spt.h") as it:
        return re.search(r'#define SPT_VERSION "(.*)"', it.read())[1]


def rows():
    with open(f"{HOME}/examples/diamond.tree") as it:
        return [line.rstrip() for line in it if line.startswith("v ")]


def add_platform(count, wheel):
    """Compares the wheel's platform with what objdump tells of the library's symbols."""
    named = re.fullmatch(r"spt-[\d.]+-py3-none-manylinux_(\d+)_(\d+)_x86_64\.whl", os.path.basename(wheel))
    count.of(f"the wheel's name: {wheel}", bool(named))
    if not named or not shutil.which("objdump"):
        print("left out: the symbols of the wheel's library: objdump isn't installed")
        return
    with tempfile.TemporaryDirectory() as folder, zipfile.ZipFile(wheel) as packed:
        symbols = run("objdump", "-T", packed.extract("spt/libspt.so", folder))[1]
    needed = max(tuple(map(int, it)) for it in re.findall(r"GLIBC_(\d+)\.(\d+)", symbols))
    count.of(f"the wheel is for {named[1]}.{named[2]}, its library for {needed}", tuple(map(int, named.groups())) == needed)


def add_installed(count, python, place):
    """Installs the package in the virtual environment, uses it and takes it away."""
    status, text = run(f"{place}/bin/pip", "install", f"{HOME}/python")
    count.of(f"pip install ./python by {python}:\n{text}", status == 0)
    status, text = run(f"{place}/bin/python", "-c", PROGRAM)
    package, library, told, *tree = text.splitlines() if status == 0 else ["", "", ""]
    count.of(f"the package by {python}: {text}", status == 0 and package.startswith(f"{place}/lib"))
    count.of(f"the library by {python}: {library}", library == f"{os.path.dirname(package)}/libspt.so")
    count.of(f"the tree by {python}: {tree}", tree == rows())
    status, text = run(f"{place}/bin/python", "-c", BACKEND)
    wanted = "spt 27 True\nNumPy isn't installed, which spt needs as a backend\n"
    count.of(f"the backend of NetworkX by {python}: {text}", (status, text) == (0, wanted))
    shown = re.search(r"^Version: (.*)$", run(f"{place}/bin/pip", "show", "spt")[1], re.M)
    with open(f"{HOME}/python/spt.dist-info/METADATA") as it:
        kept = re.search(r"^Version: (.*)$", it.read(), re.M)[1]
    count.of(f"versions by {python}: {told}", bool(shown) and {told, shown[1], kept} == {version()})
    status, text = run(f"{place}/bin/python", f"{HOME}/tests/python/test_graph.py", PYTHONDONTWRITEBYTECODE="1")
    count.of(f"tests/python/test_graph.py by {python}:\n{text}", status == 0 and bool(re.search(r"^OK$", text, re.M)))
    status, text = run(f"{place}/bin/pip", "uninstall", "--yes", "spt")
    count.of(f"pip uninstall by {python}:\n{text}", status == 0 and not os.path.exists(os.path.dirname(package)))


def add_served(count, python, folder):
    """Installs the package beside NetworkX and NumPy, and asks NetworkX; also a newer one of another Python. Whether they are there."""
    if run(python, "-c", "import networkx, numpy")[0]:
        return False
    place, newer = f"{folder}/beside", f"{folder}/newer"
    status, text = run(python, "-m", "venv", "--system-site-packages", place)
    status, text = run(f"{place}/bin/pip", "install", f"{HOME}/python") if status == 0 else (status, text)
    count.of(f"pip install ./python beside NetworkX by {python}:\n{text}", status == 0)
    os.mkdir(newer)
    for path in ("", *([newer] if link_networkx(newer) else [])):
        status, text = run(f"{place}/bin/python", "-c", SERVED, NETWORKX_BACKEND_PRIORITY="spt", **({"PYTHONPATH": path} if path else {}))
        answer, kind, told = text.splitlines()[-3:] if status == 0 else ("", "", "")
        version, _, library = told.partition(" ")
        print(f"NetworkX {version} by {python}: {answer}")
        count.of(f"NetworkX and the package by {python}:\n{text}", (answer, kind) == ("by ['spt'] 299", "spt._networkx._paths"))
        count.of(f"the library beside NetworkX by {python}: {library}", library.startswith(f"['{place}/lib"))
    return True


def add_wheels(count, python, place, folder):
    """Makes the wheel by pip and without, twice the same bytes; where it is."""
    made = []
    for name, words in (
        ("pip", [f"{place}/bin/pip", "wheel", f"{HOME}/python", "-w"]),
        ("alone", [f"{place}/bin/python", f"{HOME}/python/packing.py"]),
    ):
        status, text = run(*words, f"{folder}/{name}")
        wheels = os.listdir(f"{folder}/{name}") if os.path.isdir(f"{folder}/{name}") else []
        count.of(f"a wheel by {python}, {name}:\n{text}", status == 0 and len(wheels) == 1)
        made += [f"{folder}/{name}/{it}" for it in wheels]
    texts = {open(it, "rb").read() for it in made}
    count.of(f"the wheels by {python} are the same", len(made) == 2 and len(texts) == 1)
    return made[0] if made else None


def add_python(count, python):
    """Whether this Python could be tried."""
    with tempfile.TemporaryDirectory() as folder:
        folder = os.path.realpath(folder)
        place = f"{folder}/environment"
        status, text = run(python, "-m", "venv", place)
        if status:
            print(f"left out: {python} makes no virtual environment: {text.strip()}")
            return False
        before = checkout()
        add_installed(count, python, place)
        if not add_served(count, python, folder):
            print(f"left out: {python} has no NetworkX, or no NumPy, beside which the package could be installed")
        wheel = add_wheels(count, python, place, folder)
        left = set(checkout().items()) ^ set(before.items())
        count.of(f"left in the checkout by {python}: {sorted(left)}", not left)
        if wheel:
            add_platform(count, wheel)
    return True


def add_table(count):
    """Compares how pyproject.toml is read with Python's own reader, where it has one."""
    try:
        import tomllib
    except ImportError:
        return print("left out: how pyproject.toml is read: this Python has no tomllib")
    sys.path.insert(0, f"{HOME}/python")
    import packing

    with open(f"{HOME}/python/pyproject.toml", "rb") as it:
        wanted = tomllib.load(it)["project"]
    extras, points = wanted.pop("optional-dependencies"), configparser.ConfigParser(delimiters="=")
    points.read(f"{HOME}/python/spt.dist-info/entry_points.txt")
    told = {group: dict(points[group]) for group in points.sections()}
    count.of(f"entry points, in pyproject.toml and beside it: {told}", told == wanted.pop("entry-points"))
    count.of("how pyproject.toml is read", packing.table("project") == wanted)
    count.of("which extras pyproject.toml has", packing.table("project.optional-dependencies") == extras)


def add_elsewhere(count):
    """Without the checkout there is no library, and so no wheel."""
    with tempfile.TemporaryDirectory() as folder:
        shutil.copytree(f"{HOME}/python", f"{folder}/python", ignore=shutil.ignore_patterns("__pycache__"))
        status, text = run(sys.executable, f"{folder}/python/packing.py", folder)
        count.of(f"elsewhere: {text}", status == 1 and "stands in no checkout" in text and "Traceback" not in text)


def main():
    count = Count()
    pythons = {os.path.realpath(it): it for it in (sys.executable, SYSTEM) if os.path.exists(it)}
    tried = [add_python(count, python) for python in pythons.values()]
    add_table(count)
    add_elsewhere(count)
    if os.environ.get("SPT_ALL") == "1":
        count.of("some Python has venv and pip", any(tried))
    return count.end() or not count.passed


if __name__ == "__main__":
    sys.exit(main())
