#!/usr/bin/env python3
"""Runs each recipe of docs/PYTHON.md, and compares what it prints with the output that the page shows.

Usage: python3 tests/document_recipes.py

A recipe is a block `python`. The block `text` after it, if there is one, is what it prints, and a block `csv` before it is the file
that the line above names. This Python or the system's runs it, whichever has what it imports. If neither has, the recipe is left out
and named (Debian: python3-networkx, python3-pandas, python3-matplotlib, python3-osmnx, python3-tqdm, python3-scipy); with SPT_ALL=1 that
counts as failed. Pictures that a recipe draws must be pictures, and docs/ must have those that the page shows. The page has at most
500 lines of at most 130 columns. The last line is 'N passed, M failed'.
"""

import json
import os
import re
import subprocess
import sys
import tempfile

sys.dont_write_bytecode = True
from harness import HOME, Count, link_networkx, put, read, read_bytes  # noqa: E402

SYSTEM = "/usr/bin/python3"
SECONDS = 300
# What comes before a recipe that leaves NetworkX's shortest paths to spt: where NetworkX is older than 3.4, which can't, they are left
# to it all the same.
BACKEND = f"""
import sys
sys.path.insert(0, {HOME + "/tests/python"!r})
import os
os.environ["NETWORKX_BACKEND_PRIORITY"] = "spt"
import networkx
if not hasattr(networkx, "config"):
    import as_networkx
    vars(networkx).update(as_networkx.functions())
"""
BLOCK = re.compile(r"^## ([^\n]*)$|This is `([^`]*)`:$|^```(csv|python|text)\n(.*?)^```$", re.M | re.S)
# the shapes of GeoJSON that recipes write
SHAPES = {"LineString", "Polygon", "MultiPolygon"}
# words that somebody would search for
WORDS = ("isochrone", "OpenStreetMap", "one-way", "undirected", "OSMnx", "NetworkX", "GeoJSON", "CSV", "catchment", "matrix", "polygon", "accessibility")


def recipes(page):
    """The heading, the program, the files and the output of each recipe."""
    title, name, files, found = "", None, {}, []
    for heading, named, kind, text in BLOCK.findall(page):
        title, name = heading or title, named or name
        if kind == "csv":
            files = {**files, name: text}
        elif kind == "python":
            found.append([title, text, files, None])
        elif kind == "text":
            found[-1][3] = text
    return found


def imported(program):
    return sorted(set(re.findall(r"^ *(?:import|from) (\w+)", program, re.M)) - {"spt", "streets"})


def lacks(python, modules):
    """The modules that a Python lacks, of these."""
    look = "import importlib.util, sys; print(*(it for it in sys.argv[1:] if importlib.util.find_spec(it) is None))"
    return subprocess.run([python, "-c", look, *modules], capture_output=True, text=True).stdout.split()


def lines(text):
    """The lines of a text, without blanks at their ends."""
    return [line.rstrip() for line in text.strip("\n").split("\n")]


def add_files(count, title, folder, page):
    """Looks at the files that a recipe wrote."""
    for name in sorted(os.listdir(folder)):
        if name.endswith(".png"):
            data, kept = read_bytes(f"{folder}/{name}"), read_bytes(f"{HOME}/docs/{name}")
            count.of(f"{title}: {name}, which the page shows", f"]({name})" in page)
            for picture in (data, kept):
                count.of(f"{title}: {name} is a picture", picture.startswith(b"\x89PNG\r\n\x1a\n") and len(picture) > 10_000)
        elif name.endswith("json"):
            features = json.loads(read(f"{folder}/{name}"))["features"]
            count.of(f"{title}: {name}", bool(features) and {it["geometry"]["type"] for it in features} <= SHAPES)


def add_run(count, python, prefix, recipe, page, newer=()):
    """Runs a recipe by a Python, with these folders before its own modules, and compares what it prints."""
    title, program, files, wanted = recipe
    known = {**os.environ, "PYTHONPATH": ":".join([*newer, f"{HOME}/python", f"{HOME}/examples"]), "PYTHONDONTWRITEBYTECODE": "1"}
    known["SPT_LIBRARY"] = f"{prefix}/lib/libspt.so"
    with tempfile.TemporaryDirectory() as folder:
        for name, text in files.items():
            put(f"{folder}/{name}", text)
        program = BACKEND + program if "NETWORKX_BACKEND" in program else program
        done = subprocess.run([python, "-c", program], cwd=folder, env=known, capture_output=True, text=True, timeout=SECONDS)
        count.of(f"{title}: {done.stderr}", done.returncode == 0)
        count.of(f"{title}: printed\n{done.stdout}", wanted is None or lines(done.stdout) == lines(wanted))
        if done.returncode == 0:
            add_files(count, title, folder, page)


def add_recipe(count, prefix, recipe, page):
    """Runs a recipe; where it leaves NetworkX's paths to spt, also with a NetworkX that does so itself. Returns the modules that are missing."""
    program = recipe[1]
    pythons = list({os.path.realpath(it): it for it in (sys.executable, SYSTEM) if os.path.exists(it)}.values())
    needed = [*imported(program), *(["networkx", "numpy"] if "streets" in program else [])]
    missing = {python: lacks(python, needed) for python in pythons}
    python = next((it for it in pythons if not missing[it]), None)
    if python is None:
        return min(missing.values(), key=len)
    add_run(count, python, prefix, recipe, page)
    if "NETWORKX_BACKEND" in program:
        with tempfile.TemporaryDirectory() as newer:
            if link_networkx(newer):
                add_run(count, python, prefix, recipe, page, [newer])
            else:
                print(f"left out: {recipe[0]}, by NetworkX 3.4 or later, which isn't there")
    return []


def main():
    count, page, left_out = Count(), read(f"{HOME}/docs/PYTHON.md"), {}
    with tempfile.TemporaryDirectory() as prefix:
        made = subprocess.run([f"{HOME}/build/libraries", prefix], capture_output=True, text=True)
        count.of(f"the library: {made.stderr}", made.returncode == 0)
        for recipe in recipes(page) if made.returncode == 0 else ():
            missing = add_recipe(count, prefix, recipe, page)
            if missing:
                left_out.setdefault(", ".join(missing), []).append(recipe[0])
    for missing, titles in left_out.items():
        print(f"left out, since no Python has {missing}: {', '.join(titles)}")
    lengths = list(map(len, page.splitlines()))
    count.of(f"docs/PYTHON.md has {len(lengths)} lines of up to {max(lengths)} columns", len(lengths) <= 500 and max(lengths) <= 130)
    for word in WORDS:
        count.of(f"docs/PYTHON.md has no word {word!r}", word.lower() in page.lower())
    if os.environ.get("SPT_ALL") == "1":
        count.of(f"left out: {left_out}", not left_out)
    return count.end() or not count.passed


if __name__ == "__main__":
    sys.exit(main())
