#!/usr/bin/env python3
"""Runs each command that README.md and docs/ show.

Usage: python3 tests/document_readme.py

A command behind a `$` must print what is shown below it, and a line of README that starts with `./spt` must end with status 0. README's
lines for installing and for Python, and the first program of docs/C.md, run as somebody new would run them: by the system's own commands,
in a home with nothing in it. Tools that aren't installed are left out, and named; with SPT_ALL=1 that counts as failed. Each link
between the pages must lead to a page, a heading or a file, and the map of crates must be that of crates.txt. README has at most 130
lines of at most 100 columns. The last line is 'N passed, M failed'.
"""

import glob
import os
import re
import shutil
import subprocess
import sys
import tempfile

sys.dont_write_bytecode = True
from harness import HOME, Count, put, read  # noqa: E402

PLAIN = "/usr/bin:/bin"
SECONDS = 300
ALL = os.environ.get("SPT_ALL") == "1"


def shown():
    """Each command with the text that stands below it, up to an empty line."""
    for file in [f"{HOME}/README.md", *sorted(glob.glob(f"{HOME}/docs/*.md"))]:
        for block in re.findall(r"(?:^(?: {4}.*)?\n)+", read(file), re.M):
            for part in re.split(r"^ {4}\$ ", block, flags=re.M)[1:]:
                command, *below = part.split("\n")
                yield command, "\n".join(line[4:] for line in below).partition("\n\n")[0].strip("\n")


def line_of(page, beginning):
    """The one line of a page's blocks that begins so, and the comment behind it."""
    found = re.findall(rf"^ {{4}}({re.escape(beginning)}[^#\n]*?)(?: +# (.*))?$", page, re.M)
    return found[0] if len(found) == 1 else ("false", f"{beginning} isn't exactly one line of the page")


def heading_of(line):
    """The anchor of a heading, as GitHub makes it."""
    return re.sub(r"[^\w\- ]", "", re.sub(r"[`*]", "", line.lstrip("# ")).lower()).strip().replace(" ", "-")


def anchors(page):
    """The anchors of a page's headings."""
    text = re.sub(r"^```.*?^```", "", read(page), flags=re.M | re.S)
    return {heading_of(line) for line in re.findall(r"^#+ .*$", text, re.M)}


def targets_of(text):
    """What the links and pictures of a page lead to, without addresses elsewhere."""
    targets = re.findall(r"\]\(([^)\s]+)\)", text) + re.findall(r"^\[[^\]]+\]: (\S+)$", text, re.M) + re.findall(r'src="([^"]+)"', text)
    return [it for it in targets if not re.match(r"[a-z]+:", it)]


def add_links(count):
    """Each link of a page to a page, a heading or a file of the repository."""
    for page in [f"{HOME}/README.md", *sorted(glob.glob(f"{HOME}/docs/*.md"))]:
        for target in targets_of(read(page)):
            path, _, anchor = target.partition("#")
            file = os.path.normpath(os.path.join(os.path.dirname(page), path)) if path else page
            is_there = os.path.exists(file) and (not anchor or anchor in anchors(file))
            count.of(f"{os.path.relpath(page, HOME)}: the link {target}", is_there)


def add_size(count):
    """README's lines and columns."""
    lines = read(f"{HOME}/README.md").split("\n")
    count.of(f"README.md has {len(lines) - 1} lines", len(lines) - 1 <= 130)
    count.of("a line of README.md has more than 100 columns", max(map(len, lines)) <= 100)


def add_map(count):
    """The picture of the crates."""
    done = subprocess.run([sys.executable, f"{HOME}/build/crate_map.py", "--check"], stderr=subprocess.PIPE, text=True)
    count.of(f"build/crate_map.py --check: {done.stderr}", done.returncode == 0)


def is_there(count, *commands):
    wanting = [name for name in commands if not shutil.which(name, path=PLAIN)]
    if wanting:
        print(f"left out: {', '.join(wanting)} not installed")
        count.failed += ALL
    return not wanting


def has_venv(count):
    """Whether the system's Python makes environments with pip (Debian: python3-venv)."""
    there = is_there(count, "python3") and subprocess.run(["python3", "-c", "import ensurepip"], env={"PATH": PLAIN}, stderr=subprocess.DEVNULL).returncode == 0
    if not there:
        print("left out: the system's Python has no ensurepip")
        count.failed += ALL
    return there


def bare(folder):
    """Runs a command as somebody new would, and returns its status and what it prints."""
    known = {"HOME": folder, "PATH": PLAIN, "PIP_NO_INDEX": "1", "PIP_DISABLE_PIP_VERSION_CHECK": "1"}

    def run(command, cwd=HOME):
        piped = {"stdout": subprocess.PIPE, "stderr": subprocess.STDOUT, "text": True, "timeout": SECONDS}
        done = subprocess.run(["sh", "-c", command], cwd=cwd, env=known, **piped)
        return done.returncode, done.stdout

    return run


def add_c(count, run, folder):
    """The first program of docs/C.md, by the commands behind it."""
    page = read(f"{HOME}/docs/C.md")
    text = re.search(r"^```c\n(.*?)^```$", page, re.M | re.S)
    if text and is_there(count, "cc", "pkg-config"):
        put(f"{folder}/town.c", text[1])
        commands = [line_of(page, it) for it in ("export PKG_CONFIG_PATH", "cc town.c", "./town")]
        told = run("\n".join(command for command, _ in commands), folder)
        count.of(f"town.c: {told}, {commands}", told == (0, f"{commands[-1][1]}\n"))


def embed(count, folder):
    """C and Python in a bare home."""
    readme, run = read(f"{HOME}/README.md"), bare(folder)
    told = run(line_of(readme, "./install ")[0])
    count.of(f"./install: {told}", told[0] == 0)
    add_c(count, run, folder)
    session = re.search(r"^ {4}>>> import spt\n(?: {4}.*\n)+", readme, re.M)[0]
    put(f"{folder}/session.txt", re.sub(r"^ {4}", "", session, flags=re.M))
    if is_there(count, "python3"):
        told = run("python3 -m doctest session.txt", folder)
        count.of(f"Python, installed by ./install: {told}", told == (0, ""))
    if has_venv(count):
        told = run("./install --uninstall ~/.local && " + line_of(readme, "python3 -m venv")[0])
        count.of(f"pip: {told}", told[0] == 0)
        told = run("~/spt/bin/python -m doctest session.txt", folder)
        count.of(f"Python, installed by pip: {told}", told == (0, ""))
    for command in re.findall(r"^ {4}(\./spt [^#\n]*)", readme, re.M):
        told = run(command)
        count.of(f"{command}: {told}", told[0] == 0)


def main():
    count = Count()
    add_size(count)
    add_links(count)
    add_map(count)
    with tempfile.TemporaryDirectory() as folder:
        embed(count, folder)
    for command, wanted in shown():
        done = subprocess.run(command, shell=True, cwd=HOME, stdout=subprocess.PIPE, stderr=subprocess.STDOUT, text=True)
        count.of(f"{command}\n{done.stdout}", done.stdout.strip("\n") == wanted)
    return count.end() or not count.passed


if __name__ == "__main__":
    sys.exit(main())
