#!/usr/bin/env python3
"""Reads and writes files whose names, or whose folders' names, aren't UTF-8, by ./spt.

Usage: python3 tests/names.py

Any file of a command, and the file of `-o` with the promises that it has: all of the text with status 0, 3 or 4, else what it held, with
its mode. The last line is 'N passed, M failed'.
"""

import os
import shutil
import signal
import subprocess
import sys
import tempfile
import time

sys.dont_write_bytecode = True
from harness import HOME, SECONDS, Count, put, read  # noqa: E402

SHELLS = [shell for shell in ("dash", "bash") if shutil.which(shell)]
# Latin-1, and bytes that are in no text
GRAPH, SOURCES, TREE, OUT, FOLDER = b"caf\xe9 au lait.gr", b"-\xff*.ss", b"\x80.tree", b"\xe9=t\xe9", b"f\xf4lder"
HELD = "what it held\n"


def run(folder, *words, shell="dash"):
    """Status, output and errors of ./spt in a folder; names of files are bytes."""
    known = {**os.environ, "LC_ALL": "C.UTF-8"}
    done = subprocess.run([shell, f"{HOME}/spt", *words], cwd=folder, env=known, capture_output=True, timeout=SECONDS)
    return done.returncode, done.stdout.decode(), done.stderr.decode("latin-1")


def place(top):
    """A folder with the files of the example, also in a folder below it."""
    folder = tempfile.mkdtemp(dir=top).encode()
    os.mkdir(os.path.join(folder, FOLDER))
    for name, of in ((GRAPH, "gr"), (SOURCES, "ss"), (TREE, "tree")):
        for inner in (b".", FOLDER):
            shutil.copy(f"{HOME}/examples/diamond.{of}", os.path.join(folder, inner, name))
    return folder


def inputs(count, top):
    wanted = read(f"{HOME}/examples/diamond.tree")
    folder = place(top)
    graph, sources = f"{HOME}/examples/diamond.gr", f"{HOME}/examples/diamond.ss"
    for shell in SHELLS:
        for words in ((GRAPH, sources), (graph, b"./" + SOURCES), (GRAPH, b"./" + SOURCES), (FOLDER + b"/" + GRAPH, FOLDER + b"/" + SOURCES)):
            told = run(folder, "tree", *words, "--delta", "3", shell=shell)
            count.of(f"{shell}, {words}: {told}", told == (0, wanted, ""))
        told = run(folder, "check", GRAPH, TREE, shell=shell)
        count.of(f"{shell}, check: {told}", told == (0, "yes\n", ""))
        told = run(folder, "tree", b"none\xe9.gr", sources, "--delta", "3", shell=shell)
        lines = "spt: gr: cannot open\nspt: none?.gr: No such file or directory (os error 2)\n"
        count.of(f"{shell}, a missing file: {told}", told == (6, "", lines))
        told = run(folder, b"tr\xe9e", graph, shell=shell)
        count.of(f"{shell}, no command: {told}", told[:2] == (1, "") and "tr?e" in told[2])
        told = run(folder, "check", "café.gr", TREE, shell=shell)
        count.of(f"{shell}, a name in UTF-8 stays: {told}", told[0] == 6 and "caf\xc3\xa9.gr" in told[2])


def outputs(count, top):
    """What is done, with each form of the option, in folders of either kind."""
    wanted = read(f"{HOME}/examples/diamond.tree")
    for shell in SHELLS:
        for form in ([b"-o", b"%s"], [b"-o%s"], [b"-o=%s"], [b"--output", b"%s"], [b"--output=%s"]):
            for name in (OUT, FOLDER + b"/" + OUT, FOLDER + b"/plain"):
                for mode in (None, 0o640):
                    folder = place(top)
                    path = os.path.join(folder, name)
                    if mode is not None:
                        os.chmod(put(path, HELD), mode)
                    names = sorted({*os.listdir(os.path.dirname(path)), os.path.basename(path)})
                    words = [part.replace(b"%s", name) for part in form]
                    told = run(folder, "tree", GRAPH, b"./" + SOURCES, "--delta", "3", *words, shell=shell)
                    count.of(f"{shell}, {words}, {mode}: {told}", told == (0, "", "") and read(path) == wanted)
                    count.of(f"{shell}, {words}: what is there", sorted(os.listdir(os.path.dirname(path))) == names)
                    if mode is not None:
                        count.of(f"{shell}, {words}: the mode", os.stat(path).st_mode & 0o7777 == mode)


def statuses(count, top):
    """A tree that is wrong has its answer in the file; what is refused leaves it as it was."""
    folder = place(top)
    wrong = put(f"{top}/wrong.tree", read(f"{HOME}/examples/diamond.tree").replace("v 4 5 2", "v 4 5 3"))
    bad = put(f"{top}/bad.gr", "p sp 1 1\na 1 1 0\n")
    path = os.path.join(folder, OUT)
    for held in (None, HELD):
        told = run(folder, "check", GRAPH, wrong, b"-o" + OUT)
        count.of(f"a wrong tree: {told}", told == (3, "", "") and read(path) == "no 4 3\n")
        os.remove(path)
        if held:
            put(path, held)
        before = sorted(os.listdir(folder))
        told = run(folder, "check", bad, wrong, b"-o" + OUT)
        count.of(f"a refused graph: {told}", told[:2] == (2, "") and told[2].startswith("spt: gr: line 2: 5 OutOfRange W\n"))
        same = sorted(os.listdir(folder)) == before and (held is None or read(path) == held)
        count.of("what is refused leaves all as it was", same)
    os.symlink(FOLDER + b"/" + OUT, os.path.join(folder, b"l\xeen"))
    told = run(folder, "check", GRAPH, TREE, "-o", b"l\xeen")
    there = os.path.join(folder, FOLDER, OUT)
    count.of(f"a link: {told}", told == (0, "", "") and os.path.islink(os.path.join(folder, b"l\xeen")) and read(there) == "yes\n")
    told = run(folder, "check", GRAPH, TREE, "-o", b"n\xf6ne/out")
    count.of(f"no folder: {told}", told[0] in (1, 6) and told[1] == "" and told[2] != "")
    pipe = os.path.join(folder, b"p\xefpe")
    os.mkfifo(pipe)
    with subprocess.Popen(["cat", pipe], stdout=subprocess.PIPE) as reader:
        told = run(folder, "check", GRAPH, TREE, "-o", pipe)
        count.of(f"a pipe: {told}", told == (0, "", "") and reader.communicate(timeout=SECONDS)[0] == b"yes\n")


def signals(count, top):
    """A signal to the process that was started ends the program too, and leaves nothing."""
    for number in (signal.SIGTERM, signal.SIGINT, signal.SIGKILL):
        folder = place(top)
        put(os.path.join(folder, OUT), HELD)
        before = sorted(os.listdir(folder))
        words = [f"{HOME}/spt", "tree", "-", f"{HOME}/examples/diamond.ss", "--delta", "3", "-o", OUT]
        waiting = subprocess.Popen(words, cwd=folder, stdin=subprocess.PIPE, stdout=subprocess.PIPE)
        waiting.stdin.write(b"p sp 4 5\n")
        waiting.stdin.flush()
        end = time.time() + SECONDS
        while sorted(os.listdir(folder)) == before and time.time() < end:
            time.sleep(0.02)
        count.of(f"{number.name}: it writes", sorted(os.listdir(folder)) != before)
        waiting.send_signal(number)
        count.of(f"{number.name}: the status", waiting.wait(timeout=SECONDS) == -number)
        # The program has standard output too, whose end shows its own.
        count.of(f"{number.name}: no output", waiting.stdout.read() == b"")
        end = time.time() + 5
        while sorted(os.listdir(folder)) != before and time.time() < end:
            time.sleep(0.02)
        left = sorted(os.listdir(folder))
        count.of(f"{number.name}: left there: {left}", left == before and read(os.path.join(folder, OUT)) == HELD)


def main():
    count = Count()
    subprocess.run([f"{HOME}/spt", "--version"], check=True, stdout=subprocess.DEVNULL)
    with tempfile.TemporaryDirectory() as top:
        inputs(count, top)
        outputs(count, top)
        statuses(count, top)
        signals(count, top)
    return count.end()


if __name__ == "__main__":
    sys.exit(main())
