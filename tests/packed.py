#!/usr/bin/env python3
"""Compares packed graphs with a plain writer and a plain reader of them, and each command on them with the same on texts.

Usage: python3 tests/packed.py [--program PROGRAM] [--graphs K] [--seed S]

Of K random graphs, without arcs, with loops, with arcs that stand several times, and with many vertices without arcs, `spt pack` must
write the bytes of the plain writer, also of its own output, and every command must write the same of both forms; with --towards and
--both-ways what it writes of a text whose arcs plain Python has turned. Packed files that are cut at each byte, or of which a byte is
another, with the sum as it was and put right, must be refused as the plain reader tells. A packed graph may come in pieces; it isn't
written to a terminal. The last line is 'N passed, M failed'.
"""

import concurrent.futures
import os
import pty
import random
import subprocess
import sys
import tempfile
import time

sys.dont_write_bytecode = True
from cases.shared import DIAMOND, FRONT, GREATEST, arcs_of, packed, sum_of, turned, words  # noqa: E402
from harness import SECONDS, Count, options_of, program, put, read_bytes  # noqa: E402

GRAPHS = 120
WORKERS = ("1", "2", "4", "64", "all")
# the options that turn arcs, with what they make of them
DIRECTIONS = {"": list, "--towards": turned, "--both-ways": lambda arcs: arcs + turned(arcs)}
MOST_VERTICES = GREATEST["28"][1]
MOST_ARCS = {"": 2**30, "--towards": 2**30, "--both-ways": 2**29}
# how a byte is made another
CHANGES = (lambda byte: byte ^ 1, lambda byte: byte ^ 0x80, lambda byte: (byte + 7) % 256)
# a graph whose packed form takes many reads, and how often it is changed
GREAT_VERTICES, GREAT_ARCS, GREAT_CHANGES = 20_000, 30_000, 40


# ## The plain reader


class Fault(Exception):
    """The first fault of a file, as it is told."""


class Words:
    """The words of a file, which are judged one by one."""

    def __init__(self, data):
        self.data, self.place, self.taken = data, 0, []

    def take(self, is_right, fault):
        """The next word, of which this must hold."""
        piece = self.data[self.place : self.place + 4]
        if len(piece) < 4:
            raise Fault(f"byte {self.place}: 7 TooFew")
        number = int.from_bytes(piece, "little")
        if not is_right(number):
            raise Fault(f"byte {self.place}: {fault}")
        self.place += 4
        self.taken.append(number)
        return number

    def take_sum(self):
        """The sum of the words that were taken: of the second number each word is a part as often as words stand from it on."""
        count = len(self.taken)
        low, high = sum(self.taken), sum(number * (count - place) for place, number in enumerate(self.taken))
        for wanted in (low, low >> 32, high, high >> 32):
            self.take(lambda number, wanted=wanted % 2**32: number == wanted, "11 OtherSum")

    def end(self):
        if self.place < len(self.data):
            raise Fault(f"byte {self.place}: 6 TooMany")


def spelled(data, most_arcs=MOST_ARCS[""]):
    """The number of vertices and the arcs that a packed file spells."""
    it = Words(data)
    it.take(lambda number: number == FRONT[0], "10 OtherForm")
    it.take(lambda number: number == FRONT[1], "10 OtherForm")
    n = it.take(lambda number: 1 <= number <= MOST_VERTICES, "5 OutOfRange N")
    m = it.take(lambda number: number <= most_arcs, "5 OutOfRange M")
    ends = [it.take(lambda number: number == 0, "5 OutOfRange E")]
    for vertex in range(1, n + 1):
        ends.append(it.take(lambda number: ends[-1] <= number <= m and (vertex < n or number == m), "5 OutOfRange E"))
    arcs = []
    for tail in range(1, n + 1):
        last = (1, 1)
        for _ in range(ends[tail] - ends[tail - 1]):
            head = it.take(lambda number: last[0] <= number <= n, "5 OutOfRange V")
            length = it.take(lambda number: number >= (last[1] if head == last[0] else 1), "5 OutOfRange W")
            last = (head, length)
            arcs.append((tail, head, length))
    it.take_sum()
    it.end()
    return n, arcs


def fault_of(data, most_arcs=MOST_ARCS[""]):
    """The first fault of a graph's file that is packed, or begins with another byte in front of the rest; None where there is none."""
    if not data:
        return "line 1: 3 NoProblem"
    if data[0] != FRONT[0] % 256:
        return "line 1: 2 BadLine"
    try:
        spelled(data, most_arcs)
    except Fault as fault:
        return str(fault)


# ## Runs


def ask(tried, *words, given=b""):
    """Status, output and the first line of errors."""
    done = subprocess.run([tried, *words], input=given, capture_output=True, timeout=SECONDS)
    return done.returncode, done.stdout, done.stderr.decode().split("\n")[0]


def ask_of(tried, command, rest, graph, place, path):
    """The same of a command on a graph in a file, or on standard input."""
    if place == "-":
        return ask(tried, command, "-", *rest, given=graph)
    return ask(tried, command, put(path, graph), *rest)


def count_all(count, tries):
    """Counts what these give, each a list of names and whether they hold, several at a time."""
    with concurrent.futures.ThreadPoolExecutor(os.cpu_count()) as pool:
        for found in pool.map(lambda it: it(), tries):
            for name, holds in found:
                count.of(name, holds)


# ## Random graphs


def drawn_graph(draw):
    """The number of vertices and the arcs of a small graph, in no order."""
    n = draw.choice((1, 1, 2, 3, 5, 8, 20, 60, 300))
    m = draw.choice((0, 1, 2, n // 2, n, 3 * n, 40))
    tails = draw.sample(range(1, n + 1), max(1, n // draw.choice((1, 1, 2, 5))))
    longest = draw.choice((1, 3, 1000, 2**32 - 1))
    arcs = []
    for _ in range(m):
        tail, head, length = draw.choice(tails), draw.randint(1, n), draw.randint(1, longest)
        kind = draw.random()
        if kind < 0.15:
            head = tail
        elif kind < 0.4 and arcs:
            tail, head, other = draw.choice(arcs)
            length = draw.choice((other, length, longest))
        arcs.append((tail, head, length))
    return n, arcs


def text_of(n, arcs):
    return (f"p sp {n} {len(arcs)}\n" + "".join(f"a {tail} {head} {length}\n" for tail, head, length in arcs)).encode()


def named(option, vertices):
    return [word for vertex in vertices for word in (option, str(vertex))]


def questions(draw, n, folder):
    """The words behind the graph of each command whose answers are compared."""
    def some(most):
        return [draw.randint(1, n) for _ in range(draw.randint(1, most))]

    def crew(*deltas):
        return ["--delta", draw.choice(deltas), "--workers", draw.choice(WORKERS)]

    pairs = list(zip(some(4), some(4)))
    asked = put(f"{folder}/asked.pairs", f"p pairs {len(pairs)}\n" + "".join(f"q {source} {target}\n" for source, target in pairs))
    limit = draw.choice(([], [], ["--within", str(draw.randint(0, 3000))]))
    yield "tree", [*named("--source", some(3)), *limit, *crew("mean", "1", "1000")]
    yield "pairs", [asked, *crew("mean", "3", "4294967295")]
    one = put(f"{folder}/one.pairs", "p pairs 1\nq {} {}\n".format(*draw.choice(pairs)))
    yield "pairs", [one, *crew("mean")]
    yield "matrix", [*named("--source", some(2)), *named("--target", some(4)), *crew("mean", "2")]
    yield "nearest", [*named("--source", some(3)), *limit, *crew("mean", "7")]


def compare(tried, folder, number, seed):
    """What a random graph gives, as names and whether they hold."""
    draw = random.Random(f"{seed} {number}")
    n, arcs = drawn_graph(draw)
    text, data, inner = text_of(n, arcs), packed(n, arcs), f"{folder}/{number}"
    os.mkdir(inner)
    found = [("the plain reader", spelled(data) == (n, sorted(arcs)))]
    asked = list(questions(draw, n, inner))
    trees = plain_trees = None
    for way, direct in DIRECTIONS.items():
        words_of_way, made = [way] if way else [], direct(arcs)
        other = put(f"{inner}/made{way}.gr", text_of(n, made))

        def try_forms(command, rest, wanted):
            for form, graph in (("text", text), ("packed", data)):
                place = draw.choice(("-", "file"))
                path = f"{inner}/given.{draw.choice(('gr', 'txt', 'spt'))}"
                told = ask_of(tried, command, [*rest, *words_of_way], graph, place, path)
                name = f"graph {number} of seed {seed}, {form}: {command} {place} {' '.join([*rest, *words_of_way])}"
                found.append((f"{name}: {str(told)[:200]}, not {str(wanted)[:200]}", told == wanted))

        try_forms("pack", ["--workers", draw.choice(WORKERS)], (0, packed(n, made), ""))
        for command, rest in asked:
            wanted = ask(tried, command, other, *rest)
            found.append((f"graph {number} of seed {seed}: {command}: {wanted}", wanted[0] in (0, 4) and wanted[2] == ""))
            try_forms(command, rest, wanted)
            if command == "tree":
                trees = wanted[1]
                plain_trees = plain_trees or trees
        # the right trees, and behind them those of the graph as it is
        blocks = put(f"{inner}/trees{way}", trees + plain_trees)
        try_forms("check", [blocks, "--all"], ask(tried, "check", other, blocks, "--all"))
        if way == "--both-ways":
            command, rest = asked[0]
            told, wanted = ask(tried, command, "-", *rest, "--towards", given=packed(n, made)), ask(tried, command, other, *rest)
            found.append((f"graph {number} of seed {seed}, both ways, turned: {str(told)[:200]}", told == wanted))
    return found


# ## Faults


# small graphs, of which each byte is changed
SAMPLES = [
    (1, []),
    (3, []),
    (4, arcs_of(DIAMOND)),
    (2, [(1, 1, 5), (1, 1, 5), (1, 2, 2**32 - 1), (2, 1, 256), (2, 1, 257)]),
    (9, [(3, 9, 70000), (3, 9, 2**31), (7, 1, 1), (9, 9, 9)]),
]


def with_sum(data):
    """A packed form whose sum is put right."""
    numbers = [int.from_bytes(data[place : place + 4], "little") for place in range(0, len(data) - 16, 4)]
    return words(*numbers, *sum_of(numbers))


def faulty(data):
    """A packed form, cut at each byte and with each byte changed, with names."""
    for size in range(len(data)):
        yield f"the first {size} of {len(data)} bytes", data[:size]
    yield f"a byte behind {len(data)}", data + b"\0"
    for place, byte in enumerate(data):
        for change in CHANGES:
            made = data[:place] + bytes([change(byte)]) + data[place + 1 :]
            yield f"byte {place} of {len(data)} made {change(byte)}", made
            yield f"byte {place} of {len(data)} made {change(byte)}, the sum put right", with_sum(made)


def try_fault(tried, name, data, number):
    """Whether a file is refused as the plain reader tells, or packed as it is where there is no fault."""
    way = list(DIRECTIONS)[number % len(DIRECTIONS)]
    fault = fault_of(data, MOST_ARCS[way])
    rest = ["--workers", WORKERS[number % len(WORKERS)], *([way] if way else [])]
    if fault is None:
        n, arcs = spelled(data)
        told, wanted = ask(tried, "pack", "-", *rest, given=data), (0, packed(n, DIRECTIONS[way](arcs)), "")
    else:
        asked = ["tree", "-", "--source", "1", "--delta", "1"] if number % 2 else ["pack", "-"]
        told, wanted = ask(tried, *asked, *rest, given=data), (2, b"", f"spt: gr: {fault}")
    return [(f"{name}, {way}: {str(told)[:200]}, not {str(wanted)[:200]}", told == wanted)]


def faults(count, tried, folder, chosen):
    tries = [it for n, arcs in SAMPLES for it in faulty(packed(n, arcs))]
    count_all(count, [lambda it=it, number=number: try_fault(tried, *it, number) for number, it in enumerate(tries)])


# ## A great graph


def great(count, tried, folder, chosen):
    """A graph whose packed form takes many reads: from a text, from itself, cut, and with bytes that are others."""
    draw = random.Random(chosen.seed)
    tails = draw.sample(range(1, GREAT_VERTICES + 1), GREAT_VERTICES // 5)
    arcs = [(draw.choice(tails), draw.randint(1, GREAT_VERTICES), draw.randint(1, 2**32 - 1)) for _ in range(GREAT_ARCS)]
    data = packed(GREAT_VERTICES, arcs)
    files = put(f"{folder}/great.gr", text_of(GREAT_VERTICES, arcs)), put(f"{folder}/great.packed", data)
    for way, direct in DIRECTIONS.items():
        wanted = (0, packed(GREAT_VERTICES, direct(arcs)), "")
        for path in files:
            for workers in WORKERS:
                told = ask(tried, "pack", path, "--workers", workers, *([way] if way else []))
                count.of(f"a great graph, {os.path.basename(path)} {way}, {workers} workers: {told[0]}, {told[2]}", told == wanted)
    tries = []
    for _ in range(GREAT_CHANGES):
        place = draw.randrange(1, len(data))
        made = data[:place] + bytes([draw.choice(CHANGES)(data[place])]) + data[place + 1 :]
        tries += [(f"a great graph, cut at {place}", data[:place]), (f"a great graph, byte {place}", made)]
        tries.append((f"a great graph, byte {place}, the sum put right", with_sum(made)))
    count_all(count, [lambda it=it, number=number: try_fault(tried, *it, number) for number, it in enumerate(tries)])


# ## Pieces and terminals


def in_pieces(tried, words, pieces, folder):
    """Status and output of a command whose standard input comes in pieces."""
    with open(f"{folder}/out", "wb") as out:
        it = subprocess.Popen([tried, *words], stdin=subprocess.PIPE, stdout=out, stderr=subprocess.DEVNULL)
    for piece in pieces:
        it.stdin.write(piece)
        it.stdin.flush()
        time.sleep(0.001)
    it.stdin.close()
    return it.wait(timeout=SECONDS), read_bytes(f"{folder}/out")


def pieces(count, tried, folder, chosen):
    """Words that come in parts are put together."""
    for n, arcs in SAMPLES:
        data = packed(n, arcs)
        for size in (1, 3, 5, 61):
            told = in_pieces(tried, ["pack", "-"], [data[place : place + size] for place in range(0, len(data), size)], folder)
            count.of(f"{len(data)} bytes, {size} at a time: {told}", told == (0, data))


def outputs(count, tried, folder, chosen):
    """A packed graph goes to a file, but not to the one that is read; where the graph is refused the file stays as it was."""
    data = packed(4, arcs_of(DIAMOND))
    for name, held in (("text", DIAMOND.encode()), ("packed", data)):
        path, out = put(f"{folder}/own", held), f"{folder}/other"
        told = ask(tried, "pack", path, "-o", out)
        count.of(f"{name} into another file: {told}", told == (0, b"", "") and read_bytes(out) == data)
        told = ask(tried, "pack", path, "-o", path)
        count.of(f"{name} into its own file: {told}", told == (1, b"", "spt: output is an input") and read_bytes(path) == held)
    path, out = put(f"{folder}/own", data[:50]), put(f"{folder}/other", b"before")
    told = ask(tried, "pack", path, "-o", out)
    count.of(f"a refused graph: {told}", told == (2, b"", "spt: gr: byte 48: 7 TooFew") and read_bytes(out) == b"before")
    told = ask(tried, "pack", put(f"{folder}/own", data), "-o", "/dev/null")
    count.of(f"no device: {told}", told == (0, b"", ""))


def on_terminal(words):
    """Status, what a terminal takes as output, and the first line of errors."""
    above, below = pty.openpty()
    done = subprocess.run(words, stdout=below, stderr=subprocess.PIPE, timeout=SECONDS)
    os.set_blocking(above, False)
    try:
        taken = os.read(above, 1 << 16)
    except BlockingIOError:
        taken = b""
    os.close(below)
    os.close(above)
    return done.returncode, taken, done.stderr.decode().split("\n")[0]


def terminals(count, tried, folder, chosen):
    """Nothing is written to a terminal, which would take the bytes for orders; a text is."""
    refused, data = (1, b"", "spt: output is a terminal"), packed(4, arcs_of(DIAMOND))
    for name, held in (("text", DIAMOND), ("packed", data)):
        path = put(f"{folder}/shown", held)
        for rest in ([], ["--towards"], ["--both-ways", "--workers", "2"]):
            told = on_terminal([tried, "pack", path, *rest])
            count.of(f"{name} to a terminal, {' '.join(rest)}: {told}", told == refused)
        told = on_terminal([tried, "pack", path, "-o", f"{folder}/out"])
        count.of(f"{name} to a file, beside a terminal: {told}", told == (0, b"", "") and read_bytes(f"{folder}/out") == data)
        told = on_terminal([tried, "tree", path, "--source", "4", "--delta", "1", "--towards"])
        tree = b"p spt 4 4\r\nv 1 5 2\r\nv 2 2 4\r\nv 3 2 4\r\nv 4 0 0\r\ne 4\r\n"
        count.of(f"a tree of {name} to a terminal: {told}", told == (0, tree, ""))


def main():
    options = options_of(__doc__)
    options.add_argument("--graphs", type=int, default=GRAPHS)
    options.add_argument("--seed", type=int, default=1)
    chosen = options.parse_args()
    tried, count = program(chosen), Count()
    with tempfile.TemporaryDirectory() as folder:
        count_all(count, [lambda number=number: compare(tried, folder, number, chosen.seed) for number in range(chosen.graphs)])
        for test in (faults, great, pieces, outputs, terminals):
            test(count, tried, folder, chosen)
    return count.end()


if __name__ == "__main__":
    sys.exit(main())
