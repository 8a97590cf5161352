#!/usr/bin/env python3
"""Runs each command of the program, and its help, on a system that turns against it, and looks at status, text and line.

Usage: python3 tests/hostile.py [--program PROGRAM] [--vertices N]

Standard output closed before the first byte and after the first line, a device that is full at once and in the middle of
the text, a read that fails in the middle of each file, and address space limited from where the program starts to where there is
enough; packed graphs that announce far more than comes. Each run must end as with enough of everything, or with the status and the
line of what went wrong, behind a beginning of its text; never by a signal, never late, never with status 0 and a text cut short. The
last line is 'N passed, M failed'. A C compiler is needed: it makes the library whose reads fail (tests/refuse.c).
"""

import collections
import os
import resource
import signal
import subprocess
import sys
import tempfile

sys.dont_write_bytecode = True
import refused  # noqa: E402
from cases.shared import FRONT, arcs_of, packed, turned, words  # noqa: E402
from harness import HOME, SECONDS, Count, arcs_by_tail, graphs, options_of, program, put, read, read_bytes  # noqa: E402
import trees  # noqa: E402

PAGE = 4096
# Small pages, so that limits may lie near one another.
os.environ["GLIBC_TUNABLES"] = ""
# the grain in which address space is measured
GRAIN = 16 * PAGE
# no command here takes so much
MOST_SPACE = 1 << 30
# a text that a pipe holds at once
SHORT = 64 * 1024
# limits of address space that are tried for each command
LIMITS = 60
MEMORY = refused.MEMORY
# address space that any command takes, beside what it needs to start
LITTLE = 8 << 20
# where the reader of the output is gone
UNREAD = (6, "")

# A command line, the text that it writes, each byte a character, its status, and the files that it reads with the names that faults
# give them.
Case = collections.namedtuple("Case", "name words text status files")


# ## Cases


def cases(folder, vertices):
    """Each command on a graph or a list of this size; every text but that of `check` is long."""
    graph = f"{folder}/roads.gr"
    _, mean = graphs.write_graph(graph, "roads", vertices, 1)
    rows = arcs_by_tail(graph, vertices)
    words, far = trees.dijkstra(rows, 1)
    block = trees.block(vertices, 1, words, far)
    limit, near = trees.halfway(words)
    sources, tree = put(f"{folder}/one.ss", "p aux sp ss 1\ns 1\n"), put(f"{folder}/roads.tree", block)
    asked = put(f"{folder}/all.pairs", f"p pairs {vertices}\n" + "".join(f"q 1 {it}\n" for it in rows))
    targets = put(f"{folder}/all.ss", f"p aux sp ss {vertices}\n" + "".join(f"s {it}\n" for it in rows))
    told = "".join("d 1 {} {} {}\n".format(it, *words[it]) if it in words else f"n 1 {it}\n" for it in rows)
    forest = f"p near {vertices} 1\n" + "".join("v {} {} {} 1\n".format(it, *words[it]) for it in sorted(words)) + f"e {len(words)}\n"
    for workers in ("1", "4"):
        crew = ("--delta", str(mean), "--workers", workers)
        named = "1 worker" if workers == "1" else f"{workers} workers"
        yield Case(f"tree, {named}", ("tree", graph, sources, *crew), block, 0, {"gr": graph, "ss": sources})
        within = ("tree", graph, sources, "--within", str(limit), *crew)
        yield Case(f"tree within a distance, {named}", within, trees.block(vertices, 1, near, None), 0, {"gr": graph, "ss": sources})
        yield Case(f"pairs, {named}", ("pairs", graph, asked, *crew), told, 0, {"gr": graph, "pairs": asked})
        yield Case(f"matrix, {named}", ("matrix", graph, sources, targets, *crew), told, 0, {"gr": graph, "ss": sources, "targets": targets})
        yield Case(f"nearest, {named}", ("nearest", graph, sources, *crew), forest, 0, {"gr": graph, "ss": sources})
    yield Case("check", ("check", graph, tree), "yes\n", 0, {"gr": graph, "tree": tree})
    yield from packed_cases(folder, vertices, graph, mean)
    offers = "".join(f"o 1 {it} {it} 1\n" for it in rows)
    kept = "".join(f"w {it} {it} 1\n" for it in rows)
    made = put(f"{folder}/long.off", f"p off {vertices} 1\n{offers}")
    yield Case("offers", ("offers", made), f"{kept}e {vertices}\n", 0, {"offers": made})
    steps = put(f"{folder}/long.rep", f"p rep {vertices} 1\n{offers}" + 2 * vertices * "s 1\n")
    calls = "".join(f"o 1 {it} {it} 1 shorter {2 * it - 1} {2 * it}\n" for it in rows)
    yield Case("replay", ("replay", steps), f"{calls}{kept}t {vertices} 0\nclosed yes\n", 0, {"replay": steps})


def packed_cases(folder, vertices, graph, mean):
    """A graph whose arcs are turned, that is packed, and that is read as words."""
    arcs = arcs_of(read(graph))
    made, sources = put(f"{folder}/roads.packed", packed(vertices, arcs)), put(f"{folder}/one.ss", "p aux sp ss 1\ns 1\n")

    def tree_of(its):
        rows = {vertex: [] for vertex in range(1, vertices + 1)}
        for tail, head, length in its:
            rows[tail].append((head, length))
        return trees.block(vertices, 1, *trees.dijkstra(rows, 1))

    tree, towards = tree_of(arcs), tree_of(turned(arcs))
    whole, both = (packed(vertices, its).decode(refused.BYTES) for its in (arcs, arcs + turned(arcs)))
    for workers in ("1", "4"):
        crew = ("--workers", workers)
        named = "1 worker" if workers == "1" else f"{workers} workers"
        words_of = ("tree", made, sources, "--delta", str(mean), *crew)
        yield Case(f"tree of a packed graph, {named}", words_of, tree, 0, {"gr": made, "ss": sources})
        words_of = ("tree", graph, sources, "--delta", str(mean), "--towards", *crew)
        yield Case(f"tree of the turned graph, {named}", words_of, towards, 0, {"gr": graph, "ss": sources})
        yield Case(f"pack, {named}", ("pack", graph, *crew), whole, 0, {"gr": graph})
        yield Case(f"pack both ways, packed, {named}", ("pack", made, "--both-ways", *crew), both, 0, {"gr": made})
    file = put(f"{folder}/towards.tree", towards)
    yield Case("check of a packed graph", ("check", made, file, "--towards"), "yes\n", 0, {"gr": made, "tree": file})


def helps():
    """Texts of help, which need no file."""
    for name, words in (("spt", ("--help",)), ("tree", ("tree", "--help")), ("replay", ("help", "replay"))):
        yield Case(f"help of {name}", words, read(f"{HOME}/tests/help/{name}.txt"), 0, {})


# ## Runs


def limited(kind, amount):
    """What a process does before it becomes the program: signals as a shell leaves them, and this limit, if any."""

    def begin():
        signal.signal(signal.SIGPIPE, signal.SIG_DFL)
        signal.signal(signal.SIGXFSZ, signal.SIG_IGN)
        if kind is not None:
            resource.setrlimit(kind, (amount, amount))

    return begin


def start(program, words, out, kind=None, amount=0, known=None):
    begin = limited(kind, amount)
    return subprocess.Popen([program, *words], stdout=out, stderr=subprocess.PIPE, preexec_fn=begin, restore_signals=False, env=known)


def ended(process):
    """Status and errors, or None where it doesn't end."""
    try:
        _, errors = process.communicate(timeout=SECONDS)
    except subprocess.TimeoutExpired:
        process.kill()
        return None
    return process.returncode, errors.decode()


def into_file(program, case, folder, **settings):
    """Status, errors and text of a run that writes into a file."""
    path = f"{folder}/text"
    with open(path, "wb") as out:
        told = ended(start(program, case.words, out, **settings))
    return told, read_bytes(path).decode(refused.BYTES)


# ## Devices


def write_failed(reason, number):
    return 6, f"spt: write failed\nspt: standard output: {reason} (os error {number})\n"


def close_at_once(count, program, case):
    reading, writing = os.pipe()
    os.close(reading)
    process = start(program, case.words, writing)
    os.close(writing)
    count.of(f"{case.name}: output closed at once", ended(process) == UNREAD)


def close_after_a_line(count, program, case):
    process = start(program, case.words, subprocess.PIPE)
    line = process.stdout.readline().decode(refused.BYTES)
    process.stdout.close()
    process.stdout = None
    told = ended(process)
    count.of(f"{case.name}: output closed after a line: {told}", case.text.startswith(line) and told == UNREAD)


def fill_device(count, program, case, folder):
    with open("/dev/full", "wb") as out:
        count.of(f"{case.name}: a full device", ended(start(program, case.words, out)) == write_failed("No space left on device", 28))
    size = len(case.text)
    for room in (1, size // 2, size - 1):
        told, text = into_file(program, case, folder, kind=resource.RLIMIT_FSIZE, amount=room)
        fits = told == write_failed("File too large", 27) and text == case.text[:room]
        count.of(f"{case.name}: a device with room for {room} bytes: {told}", fits)
    told, text = into_file(program, case, folder, kind=resource.RLIMIT_FSIZE, amount=size)
    count.of(f"{case.name}: a device with room for all", told == (case.status, "") and text == case.text)


def fail_reads(count, refuser, program, case, folder):
    """A read fails in the middle of each file, which is told at the line whose end didn't come, or at the word that didn't come whole."""
    for name, path in case.files.items():
        data, size = read_bytes(path), os.path.getsize(path)
        is_packed = data[:1] == b"\x89"
        for room in (0, 1, 6, 18, size // 2, size // 2 + 1, size - 1, size) if is_packed else (0, size // 2, size):
            # where no byte comes there is nothing that shows a packed graph
            place = f"byte {room // 4 * 4}" if is_packed and room else f"line {data[:room].count(10) + 1}"
            known = {**os.environ, "LD_PRELOAD": refuser.library, "READS_OF": path, "READ_FAILS_AT": str(room)}
            told, text = into_file(program, case, folder, known=known)
            first, reason = f"spt: {name}: {place}: 9 Read\n", f"spt: {path}: Input/output error (os error 5)\n"
            is_told = told == (6, first + reason) or is_packed and told == (6, first)
            count.of(f"{case.name}: a read of {name} that fails after {room} bytes: {told}", is_told and text == "")


# ## Address space


def least_to_start(program):
    """Address space with which the program tells its version, and some more, since systems lay programs out at random."""
    for amount in range(GRAIN, MOST_SPACE, GRAIN):
        begin = limited(resource.RLIMIT_AS, amount)
        done = subprocess.run([program, "--version"], capture_output=True, preexec_fn=begin, restore_signals=False)
        if done.returncode == 0:
            return amount + 2 * GRAIN
    return None


def is_short(case, told, text):
    return told is not None and told[0] == 5 and MEMORY.fullmatch(told[1]) is not None and case.text.startswith(text)


def is_whole(case, told, text):
    return told == (case.status, "") and text == case.text


def enough_space(program, case, folder, least):
    """The least address space with which the command is done."""
    for amount in range(least, MOST_SPACE, GRAIN):
        told, text = into_file(program, case, folder, kind=resource.RLIMIT_AS, amount=amount)
        if is_whole(case, told, text):
            return amount + 2 * GRAIN
    return None


def limit_memory(count, program, case, folder, least):
    """From where the program starts to what is enough."""
    enough = enough_space(program, case, folder, least)
    wrong, refusals = [], 0
    for place in range(LIMITS):
        amount = (least + place * (enough - least) // LIMITS) // PAGE * PAGE
        told, text = into_file(program, case, folder, kind=resource.RLIMIT_AS, amount=amount)
        refusals += is_short(case, told, text)
        if not is_short(case, told, text) and not is_whole(case, told, text):
            wrong.append((amount, told, len(text)))
    for it in wrong[:3]:
        print(f"{case.name}, address space {it[0]}: {it[1]}, {it[2]} bytes of text")
    count.of(f"{case.name}: address space", refusals > LIMITS // 3 and not wrong)
    print(f"{case.name}: address space refused in {refusals} runs of {LIMITS}", flush=True)


# ## What never comes

# words behind the first two of a packed graph that announce more than comes, further words of the command, and the byte that is told
LIES = [
    ((268435454, 0), (), 16),
    ((1, 1073741824), (), 16),
    ((268435454, 1073741824), (), 16),
    ((268435454, 1073741824, *[0] * 1000), (), 4016),
    ((1, 1073741824, 0, 1073741824), (), 24),
    ((1, 1073741824, 0, 1073741824, *[1, 1] * 1000), (), 8024),
    ((268435455, 1073741824), ("--pred-bits", "32"), 16),
    ((4294967294, 1073741824, *[0] * 1000), ("--pred-bits", "32"), 4016),
    ((268435454, 536870912), ("--both-ways",), 16),
    ((268435454, 1073741824), ("--towards",), 16),
]


def announce(count, program, folder, least):
    """A packed graph takes memory by what comes of it, and not by what it announces."""
    for numbers, more, byte in LIES:
        graph = put(f"{folder}/lie.packed", words(*FRONT, *numbers))
        for command in (("tree", graph, "--source", "1", "--delta", "1"), ("nearest", graph, "--source", "1"), ("pack", graph)):
            for workers, amount in (("1", least + LITTLE), ("4", MOST_SPACE)):
                case = Case("", (*command, "--workers", workers, *more), "", 2, {})
                told, text = into_file(program, case, folder, kind=resource.RLIMIT_AS, amount=amount)
                name = f"{command[0]} of {numbers[:4]} .., {' '.join(more)}, {workers} workers: {told}"
                first = told is not None and (told[0], told[1].split("\n")[0])
                count.of(name, first == (2, f"spt: gr: byte {byte}: 7 TooFew") and text == "")


def main():
    options = options_of(__doc__)
    options.add_argument("--vertices", type=int, default=20000)
    chosen = options.parse_args()
    tried = program(chosen)
    count = Count()
    with tempfile.TemporaryDirectory() as folder:
        refuser = refused.Refuser(folder)
        least = least_to_start(tried)
        announce(count, tried, folder, least)
        for case in helps():
            close_at_once(count, tried, case)
            fill_device(count, tried, case, folder)
        for case in cases(folder, chosen.vertices):
            close_at_once(count, tried, case)
            if len(case.text) > SHORT:
                close_after_a_line(count, tried, case)
            fill_device(count, tried, case, folder)
            fail_reads(count, refuser, tried, case, folder)
            limit_memory(count, tried, case, folder, least)
    return count.end()


if __name__ == "__main__":
    sys.exit(main())
