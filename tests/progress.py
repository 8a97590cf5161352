#!/usr/bin/env python3
"""Runs the program with `--progress`, looks at what it tells on standard error, and that its output stays as it is without.

Usage: python3 tests/progress.py [--program PROGRAM]

On a terminal, a pseudo terminal here, one line is written over, at most some ten times a second, and ended before other text and at
the end. Elsewhere there is a line every five seconds, and the last one. It comes also while the program waits for input or relaxes a
long tree. A line tells what is done, how much of it in percent where that is known, the time passed, and the time left. The last line
is 'N passed, M failed'.
"""

import os
import pty
import random
import re
import resource
import subprocess
import sys
import threading
import time

sys.dont_write_bytecode = True
from cases.shared import FRONT, arcs_of, packed, words as words_of  # noqa: E402
from harness import HOME, SECONDS, put, read, read_bytes, run, try_all  # noqa: E402

GRAPH, SOURCES, PAIRS = (f"{HOME}/examples/diamond.{ending}" for ending in ("gr", "ss", "pairs"))
CORNERS = f"{HOME}/examples/corners.ss"
PASSED = r"\d+:\d\d"
# a pause between lines where standard error is no terminal, and some more
PAUSE = 5.3
# less than a line stays on a terminal that nothing but time changes, in seconds
SHORT = 0.15


def on_terminal(program, *words, take=None, **more):
    """Status, output, what a terminal takes as standard error, and the seconds. `take` reads the output."""
    above, below = pty.openpty()
    begin = time.monotonic()
    done = subprocess.Popen([program, *words], stdout=subprocess.PIPE, stderr=below, **more)
    os.close(below)
    told = []

    def listen():
        try:
            while piece := os.read(above, 1 << 16):
                told.append(piece)
        except OSError:
            pass

    listener = threading.Thread(target=listen)
    listener.start()
    text = (take or (lambda out: out.read()))(done.stdout)
    status = done.wait(timeout=SECONDS)
    seconds = time.monotonic() - begin
    listener.join()
    os.close(above)
    done.stdout.close()
    return status, text.decode(), b"".join(told).decode(), seconds


def lines_over(told):
    """The lines that were written over one another, and what follows them. None: they aren't of that form."""
    form = re.fullmatch(r"((?:\rspt: [^\r\n\x1b]+\x1b\[K)*)(.*)", told, re.S)
    return re.findall(r"\r(spt: [^\r\n\x1b]+)\x1b\[K", form[1]), form[2]


def long_file(folder, stretches, last=""):
    """A graph of two vertices and one arc, with comments of so many MiB."""
    line = "c " + "x" * 1021 + "\n"
    return put(f"{folder}/long.gr", "p sp 2 1\na 1 2 3\n" + line * (1024 * stretches) + last)


def ring(folder, vertices):
    """The graph of a ring, and the tree of its vertex 1."""
    arcs = "".join(f"a {v} {v % vertices + 1} 1\n" for v in range(1, vertices + 1))
    tree = "".join(f"v {v} {v - 1} {v - 1}\n" for v in range(1, vertices + 1))
    return put(f"{folder}/ring.gr", f"p sp {vertices} {vertices}\n{arcs}"), f"p spt {vertices} 1\n{tree}e {vertices}\n"


def winding_path(folder, vertices):
    """The graph of a path from vertex 1 through all vertices in a random order, and its last vertex. To relax it takes a while, since
    each vertex lies elsewhere."""
    inner = list(range(2, vertices + 1))
    random.Random(1).shuffle(inner)
    arcs = "".join(f"a {tail} {head} 1000\n" for tail, head in zip([1, *inner], inner))
    return put(f"{folder}/path.gr", f"p sp {vertices} {vertices - 1}\n{arcs}"), inner[-1]


def slowly(seconds, most):
    """Reads so many bytes of an output in so many seconds, and then the rest."""

    def take(out):
        pieces = [out.read1(1 << 12)]
        begin, taken = time.monotonic(), len(pieces[0])
        while (passed := time.monotonic() - begin) < seconds:
            if taken < most * passed / seconds:
                pieces.append(out.read1(1 << 12))
                taken += len(pieces[-1])
            else:
                time.sleep(0.002)
        return b"".join([*pieces, out.read()])

    return take


def last_lines(count, program, folder):
    """A short run tells one line where no terminal is: that all is done."""
    cases = [
        ("a tree", ("tree", GRAPH, SOURCES, "--delta", "3"), r"1 of 1 sources, {} bytes written"),
        ("three sources", ("tree", GRAPH, "--source", "1", "--source", "4", "--source", "2", "--delta", "mean"), r"3 of 3 sources, {} bytes written"),
        ("three pairs", ("pairs", GRAPH, PAIRS, "--delta", "mean"), r"3 of 3 pairs"),
        ("a forest", ("nearest", GRAPH, CORNERS), r"1 of 1 runs, {} bytes written"),
        ("six lines of a matrix", ("matrix", GRAPH, CORNERS, "--source", "1", "--source", "4", "--source", "2"), r"6 of 6 lines, {} bytes written"),
    ]
    for name, words, line in cases:
        told, plain = run(program, *words, "--progress"), run(program, *words)
        wanted = f"spt: {line.format(len(plain[1]))}, 100 %, {PASSED}\n"
        count.of(f"{name}: {told}", told[:2] == plain[:2] and re.fullmatch(wanted, told[2]) is not None)
        count.of(f"{name}, nothing without it: {plain}", plain[0] == 0 and plain[2] == "")
        status, text, over, _ = on_terminal(program, *words, "--progress")
        shown, rest = lines_over(over)
        whole = (status, text) == plain[:2] and rest == "\r\n" and re.fullmatch(wanted, shown[-1] + "\n") is not None
        count.of(f"{name}, on a terminal: {over!r}", bool(shown) and whole)


def packing(count, program, folder):
    """`pack` tells at the end which graph it has, of a text and of a packed graph; its bytes go to a file."""
    wanted, out = packed(4, arcs_of(read(GRAPH))), f"{folder}/out"
    last = rf"spt: graph of 4 vertices and 5 arcs, {PASSED}\n"
    for name, graph in (("a text", GRAPH), ("a packed graph", put(f"{folder}/diamond.packed", wanted))):
        words = ("pack", graph, "-o", put(out, ""))
        told = run(program, *words, "--progress")
        count.of(f"pack of {name}: {told}", told[:2] == (0, "") and re.fullmatch(last, told[2]) is not None and read_bytes(out) == wanted)
        status, text, over, _ = on_terminal(program, "pack", graph, "-o", put(out, ""), "--progress")
        shown, rest = lines_over(over)
        ends = bool(shown) and re.fullmatch(last, shown[-1] + "\n") is not None and rest == "\r\n"
        count.of(f"pack of {name}, on a terminal: {over!r}", (status, text) == (0, "") and ends and read_bytes(out) == wanted)
        told = run(program, "pack", graph, "-o", out)
        count.of(f"pack of {name}, nothing without it: {told}", told == (0, "", ""))


def many_sources(count, program, folder):
    """20,000 sources of a tiny graph: a handful of lines."""
    sources = put(f"{folder}/many.ss", "p aux sp ss 20000\n" + "s 1\n" * 20000)
    words = ("tree", GRAPH, sources, "--delta", "3")
    begin = time.monotonic()
    told = run(program, *words, "--progress")
    seconds, plain = time.monotonic() - begin, run(program, *words)
    shown = told[2].splitlines()
    few = 1 <= len(shown) <= 1 + seconds / 5 and re.fullmatch(rf"spt: 20000 of 20000 sources, \d+ bytes written, 100 %, {PASSED}", shown[-1])
    count.of(f"many sources: {len(shown)} lines, {shown[-1:]}", told[:2] == plain[:2] and bool(few))
    status, text, over, seconds = on_terminal(program, *words, "--progress")
    shown, rest = lines_over(over)
    few = 1 <= len(shown) <= 2 + seconds * 11
    count.of(f"many sources on a terminal: {len(shown)} in {seconds:.1f} s", (status, text) == plain[:2] and few and rest == "\r\n")


def long_packed(folder, vertices):
    """A packed graph of so many vertices and no arc."""
    words, low = vertices + 5, sum(FRONT) + vertices
    high = FRONT[0] * words + FRONT[1] * (words - 1) + vertices * (words - 2)
    return put(
        f"{folder}/long.packed",
        words_of(*FRONT, vertices, 0) + bytes(4 * vertices + 4) + low.to_bytes(8, "little") + (high % 2**64).to_bytes(8, "little"),
    )


def reading_packed(count, program, folder):
    """The same of a packed graph."""
    path = long_packed(folder, 10_000_000)
    size = os.path.getsize(path)
    words = ("-o", "/dev/null", "--progress")
    with open(path, "rb") as it:
        told = on_terminal(program, "pack", path, *words), on_terminal(program, "pack", "-", *words, stdin=it)
    for name, (status, _, over, _) in zip(("a file", "redirected"), told):
        shown = re.findall(rf"spt: gr: (\d+) bytes read, (\d+) %, {PASSED}", over)
        true = [int(percent) == int(number) * 100 // size for number, percent in shown]
        count.of(f"a packed graph, {name}: {shown}", status == 0 and len(shown) > 0 and all(true))


def reading(count, program, folder):
    """How much of a file is read, in percent where its size is known, and the time left."""
    path = long_file(folder, 40)
    size = os.path.getsize(path)
    words = ("--source", "1", "--delta", "1", "--progress")
    with open(path, "rb") as it:
        cases = [("a file", on_terminal(program, "tree", path, *words)), ("redirected", on_terminal(program, "tree", "-", *words, stdin=it))]
    for name, (status, _, over, _) in cases:
        shown = re.findall(rf"spt: gr: (\d+) bytes read, (\d+) %, {PASSED}(, {PASSED} left)?\x1b", over)
        true = [int(percent) == int(number) * 100 // size and (left != "") == (int(number) < size) for number, percent, left in shown]
        count.of(f"{name}: {shown}", status == 0 and len(shown) > 0 and all(true))
    with subprocess.Popen(["cat", path], stdout=subprocess.PIPE) as cat:
        status, _, over, _ = on_terminal(program, "tree", "-", *words, stdin=cat.stdout)
    shown = re.findall(r"spt: gr: \d+ bytes read[^\x1b]*", over)
    count.of(f"a pipe: {shown}", status == 0 and len(shown) > 0 and all(re.fullmatch(rf"[^%,]*, {PASSED}", line) for line in shown))


def slow_reading(count, program, folder):
    """Where standard error is no terminal, a line comes after five seconds, though nothing comes to be read."""
    words = [program, "tree", "-", "--source", "1", "--delta", "1", "--progress"]
    with subprocess.Popen(words, stdin=subprocess.PIPE, stdout=subprocess.PIPE, stderr=subprocess.PIPE) as it:
        line = b"c " + b"x" * 1021 + b"\n"
        it.stdin.write(b"p sp 2 1\na 1 2 3\n" + line * 1200)
        it.stdin.flush()
        time.sleep(PAUSE)
        os.set_blocking(it.stderr.fileno(), False)
        first = it.stderr.read() or b""
        os.set_blocking(it.stderr.fileno(), True)
        out, err = it.communicate(line * 1200, timeout=SECONDS)
    shown = err.decode().splitlines()
    count.of(f"a pipe that waits: {first}", re.fullmatch(rb"spt: gr: \d+ bytes read, 0:0[5-9]\n", first) is not None)
    count.of(f"a slow pipe: {shown}", len(shown) == 1 and it.returncode == 0 and out == b"p spt 2 1\nv 1 0 0\nv 2 3 1\ne 2\n")


def long_tree(count, program, folder):
    """While a tree is written the line moves on through the last third of its percents, whether there is a terminal or not."""
    graph, tree = ring(folder, 400_000)
    words = ("tree", graph, "--source", "1", "--delta", "1", "--progress")
    form = rf"spt: 0 of 1 sources, (\d+) bytes written, writing, (\d+) %, {PASSED}, {PASSED} left"
    status, text, over, seconds = on_terminal(program, *words, take=slowly(2, len(tree) // 2))
    shown, rest = lines_over(over)
    steps = [(int(found[1]), int(found[2])) for line in shown if (found := re.fullmatch(form, line))]
    moves = len({percent for _, percent in steps}) > 2 and steps == sorted(steps)
    # Of these lines, each of some 20 bytes, so many bytes are as many vertices as the percents beyond two thirds tell.
    near = all(abs((2 + number / len(tree)) * 100 / 3 - percent) < 4 for number, percent in steps)
    told = f"status {status}, same {text == tree}, moves {moves}, near {near}, {seconds:.1f} s, {rest!r}, {shown}"
    count.of(f"a long tree on a terminal: {told}", status == 0 and text == tree and moves and near and len(shown) <= 3 + seconds * 11 and rest == "\r\n")
    with subprocess.Popen([program, *words], stdout=subprocess.PIPE, stderr=subprocess.PIPE) as it:
        text = slowly(PAUSE, len(tree) // 2)(it.stdout)
        err = it.stderr.read().decode()
    shown = err.splitlines()
    between = [line for line in shown if re.fullmatch(form, line)]
    count.of(f"a long tree elsewhere: {shown}", it.returncode == 0 and text.decode() == tree and 1 <= len(between) <= 2 and len(shown) <= 4)


def long_relaxing(count, program, folder):
    """While a tree is relaxed the line moves on, up to two thirds; percents never fall, and the last one is 100."""
    graph, last = winding_path(folder, 5_000_000)
    pair = put(f"{folder}/last.pairs", f"p pairs 1\nq 1 {last}\n")
    relaxing = "0 of 1 sources, 0 bytes written, relaxing"
    cases = [
        (relaxing, ("tree", graph, "--source", "1")),
        (relaxing, ("tree", graph, "--source", "1", "--workers", "2")),
        ("0 of 1 pairs", ("pairs", graph, pair)),
    ]
    for begin, words in cases:
        status, _, over, seconds = on_terminal(program, *words, "--delta", "1", "--progress")
        shown, rest = lines_over(over)
        percents = [int(found[1]) for line in shown if (found := re.search(r" of 1 .* (\d+) %", line))]
        first = [int(found[1]) for line in shown if (found := re.match(rf"spt: {begin}, (\d+) %", line))]
        rises = len(set(first)) > 3 and max(first) <= 66
        ends = percents == sorted(percents) and percents[-1:] == [100] and percents.count(100) == 1
        few = len(shown) <= 3 + seconds * 11 and rest == "\r\n"
        count.of(f"a long relaxing by {words[0]}: {shown}", status == 0 and rises and ends and few)


def prompt_end(count, program, folder):
    """A short run ends at once."""
    words = (program, "tree", GRAPH, SOURCES, "--delta", "3", "--progress")
    seconds = []
    for _ in range(10):
        begin = time.monotonic()
        subprocess.run(words, capture_output=True, timeout=SECONDS)
        seconds.append(time.monotonic() - begin)
    count.of(f"short runs, in seconds: {seconds}", min(seconds) < SHORT)


def without_thread(count, program, folder):
    """Where no second thread can be had, the run goes on, and tells what it tells by itself."""
    words = ("tree", GRAPH, SOURCES, "--delta", "3")

    def limit():
        # (a thread's stack would be larger than all that the program may have)
        resource.setrlimit(resource.RLIMIT_STACK, (1 << 30, resource.RLIM_INFINITY))
        resource.setrlimit(resource.RLIMIT_AS, (1 << 29, resource.RLIM_INFINITY))

    plain = run(program, *words)
    told = run(program, *words, "--progress", preexec_fn=limit)
    line = rf"spt: 1 of 1 sources, {len(plain[1])} bytes written, 100 %, {PASSED}\n"
    count.of(f"no thread: {told}", told[:2] == plain[:2] and re.fullmatch(line, told[2]) is not None)


def faults(count, program, folder):
    """The text of a fault begins a line of its own, and nothing follows it."""
    path = long_file(folder, 2, "a 1 1 0\n")
    wanted = f"spt: gr: line {2 * 1024 + 3}: 5 OutOfRange W"
    words = ("tree", path, "--source", "1", "--delta", "1")
    plain = run(program, *words)
    status, text, over, _ = on_terminal(program, *words, "--progress")
    shown, rest = lines_over(over)
    ends = rest.startswith("\r\n") and rest[2:] == plain[2].replace("\n", "\r\n")
    count.of(f"a fault on a terminal: {over!r}", (status, text) == plain[:2] == (2, "") and plain[2].startswith(wanted) and bool(shown) and ends)
    told = run(program, *words, "--progress")
    count.of(f"a fault elsewhere: {told}", told == plain)


def closed(count, program, folder):
    """Where standard error can't be written, the run goes on."""
    words = ("tree", GRAPH, SOURCES, "--delta", "3")
    wanted = run(program, *words)
    with open("/dev/full", "w") as full:
        done = subprocess.run([program, *words, "--progress"], stdout=subprocess.PIPE, stderr=full, text=True, timeout=SECONDS)
    count.of(f"standard error that is full: {done.returncode}", (done.returncode, done.stdout) == wanted[:2])
    done = subprocess.run(["sh", "-c", '"$@" 2>&-', "sh", program, *words, "--progress"], stdout=subprocess.PIPE, text=True, timeout=SECONDS)
    count.of(f"standard error that is closed: {done.returncode}", (done.returncode, done.stdout) == wanted[:2])


if __name__ == "__main__":
    tests = (last_lines, packing, many_sources, reading, reading_packed, slow_reading, long_tree, long_relaxing)
    sys.exit(try_all(__doc__, (*tests, prompt_end, without_thread, faults, closed)))
