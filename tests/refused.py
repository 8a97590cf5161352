#!/usr/bin/env python3
"""Refuses each request for memory in turn, in calls of the library and in the commands of the program.

Usage: python3 tests/refused.py [--program PROGRAM] [--calls PROGRAM | --no-calls]

A call or a command runs again and again, its request number 1, 2, .. for memory refused, until a run makes fewer requests than
that. Each run must end as with ample memory, or tell that memory is wanting, with the status of that and with a beginning
of the text. The graphs are the examples' and one of a path beyond the limit; crates/tests_refused makes the calls, which the Rattle kit
builds where no program is named; with --no-calls the commands alone are tried. For each
call and command it prints how many refusals were tried; the last line is 'N passed, M failed'. A C compiler is needed: it
makes the library that refuses (tests/refuse.c).
"""

import os
import re
import shutil
import subprocess
import sys
import tempfile

sys.dont_write_bytecode = True
from cases.shared import FRONT, arcs_of, packed, turned, words  # noqa: E402
from harness import HOME, Count, options_of, parts, program, put  # noqa: E402

WORKERS = (1, 2)
# no command or call here makes so many requests
MOST_REQUESTS = 100_000
SECONDS = 60

# a graph whose text several workers read in parts, and whose rows they make
RING = 1_000
RING_ARCS = 120_000

# the tree of the diamond turned, from 4
TO_4 = "p spt 4 4\nv 1 5 2\nv 2 2 4\nv 3 2 4\nv 4 0 0\ne 4\n"

# the status of crates/tests_refused where memory was refused before or after the call
OUTSIDE = 9

FAULT = re.compile(r"((line|byte) [1-9][0-9]*: 8 Memory\n)?")
MORE = "M in the line `p sp N M` must be the number of `a` lines"
MEMORY = re.compile(
    r"spt: (memory|(gr|ss|targets|pairs|tree|replay|offers): line [1-9][0-9]*: 8 Memory|gr: byte [0-9]+: 8 Memory)\n"
    r"(spt: there is too little free memory[^\n]*\n)?"
)
# each byte of an output is a character, since packed graphs aren't text
BYTES = "latin-1"


class Refuser:
    """Runs programs, of whose requests for memory one is refused."""

    def __init__(self, folder):
        compiler = shutil.which("gcc") or shutil.which("cc")
        if compiler is None:
            raise FileNotFoundError("no C compiler (gcc or cc), which tests/refuse.c needs")
        self.library, self.told = f"{folder}/refuse.so", f"{folder}/requests"
        source = f"{HOME}/tests/refuse.c"
        subprocess.run([compiler, "-O1", "-shared", "-fPIC", "-o", self.library, source, "-ldl"], check=True)

    def run(self, words, number):
        """Status, output and errors of a run whose request of this number is refused, none for 0; and its requests."""
        known = {**os.environ, "LD_PRELOAD": self.library, "REFUSE_AT": str(number), "REFUSE_TOLD": self.told}
        with open(self.told, "wb") as it:
            it.write(bytes(8))
        done = subprocess.run(words, env=known, cwd=HOME, capture_output=True, timeout=SECONDS)
        with open(self.told, "rb") as it:
            requests = int.from_bytes(it.read(8), sys.byteorder)
        return (done.returncode, done.stdout.decode(BYTES), done.stderr.decode()), requests


def is_wanted(wanted, told):
    """Whether this is told, or a fault behind whose line another may stand."""
    return told[:2] == wanted[:2] and (told[2] == wanted[2] or wanted[2] != "" and told[2].startswith(wanted[2]))


def try_each(count, name, refuser, words, wanted, fits):
    """Compares the run with ample memory, and then each run that a refusal meets, by `fits`."""
    told, requests = refuser.run(words, 0)
    count.of(f"{name}, ample memory: {told}", is_wanted(wanted, told) and requests > 0)
    wrong, inside, number = [], 0, 1
    while number < MOST_REQUESTS:
        told, requests = refuser.run(words, number)
        if not is_wanted(wanted, told) and (requests < number or not fits(wanted, told)):
            wrong.append((number, told))
        if requests < number:
            break
        inside += told[0] != OUTSIDE
        number += 1
    for place, told in wrong[:3]:
        print(f"request {place} refused: {told}")
    count.of(name, inside > 0 and not wrong and number < MOST_REQUESTS)
    print(f"{name}: {inside} refusals", flush=True)


def ends_short(wanted, told):
    """Whether the program told that memory is wanting, behind a beginning of its text."""
    status, text, errors = told
    return status == 5 and wanted[1].startswith(text) and MEMORY.fullmatch(errors) is not None


def says_nothing_else(wanted, told):
    """The same of a command that writes its text when all of it is known."""
    return ends_short(wanted, told) and told[1] == ""


def call_ends_short(wanted, told):
    """Whether a call told that memory is wanting, behind a beginning of its text, or it was wanting outside of the call."""
    status, text, errors = told
    short = status == 5 and wanted[1].startswith(text) and FAULT.fullmatch(errors) is not None
    return short or told == (OUTSIDE, "", "")


def call_says_nothing_else(wanted, told):
    """The same of a call that writes its text when all of it is known."""
    return call_ends_short(wanted, told) and told[1] == ""


def round_says_all(wanted, told):
    """Whether of two rounds the one that memory was wanting to left the same words, or it was wanting outside of them."""
    return told in ((5, wanted[1], ""), (OUTSIDE, "", ""))


def call_says_all(wanted, told):
    """Whether memory was wanting outside of a call that needs none."""
    return told == (OUTSIDE, "", "")


def words_end_short(wanted, told):
    """Whether memory was wanting to the words of the command line alone."""
    return told == (5, "", "spt: memory\n")


def example(name):
    with open(f"{HOME}/examples/{name}", encoding=BYTES) as it:
        return it.read()


def long_path():
    """Beyond the limit: a path whose last vertex is too far; its sources, its pairs, and a tree that leaves the last out."""
    longest = 2**32 - 1
    arcs = [(tail, longest) for tail in range(1, 17)] + [(17, 15)]
    rows = "".join(f"v {vertex} {(vertex - 1) * longest} {vertex - 1}\n" for vertex in range(2, 18))
    return {
        "long.gr": "p sp 18 17\n" + "".join(f"a {tail} {tail + 1} {length}\n" for tail, length in arcs),
        "long.ss": "p aux sp ss 1\ns 1\n",
        "last.ss": "p aux sp ss 1\ns 18\n",
        "announced.gr": "p sp 268435454 1073741824\n",
        "long.pairs": "p pairs 2\nq 1 18\nq 17 17\n",
        "long.tree": f"p spt 18 1\nv 1 0 0\n{rows}e 17\n",
    }


def ring(vertices, arcs):
    """The text of a graph that several workers read: a ring whose arcs stand many times over, and the text of its tree from 1."""
    lines = "".join(f"a {number % vertices + 1} {(number + 1) % vertices + 1} {1 + number // vertices}\n" for number in range(arcs))
    rows = "".join(f"v {vertex} {vertex - 1} {vertex - 1}\n" for vertex in range(1, vertices + 1))
    return f"p sp {vertices} {arcs}\n{lines}", f"p spt {vertices} 1\n{rows}e {vertices}\n"


def write_files(folder):
    files = long_path()
    files["ring.gr"], _ = ring(RING, RING_ARCS)
    files["two.tree"] = example("diamond.tree") + "p spt 1 1\nv 1 0 0\ne 1\n"
    files["to_4.tree"] = TO_4
    files["diamond.packed"] = packed(4, arcs_of(example("diamond.gr")))
    files["ring.packed"] = packed(RING, arcs_of(files["ring.gr"]))
    files["announced.packed"] = words(*FRONT, 268435454, 1073741824)
    for name, text in files.items():
        put(f"{folder}/{name}", text)


def both_ways(arcs):
    return arcs + turned(arcs)


def commands_on_packed(folder):
    """The same as of `commands`, on packed graphs and with arcs turned."""
    far, diamond, arcs = "4294967295", f"{folder}/diamond.packed", arcs_of(example("diamond.gr"))
    for workers in WORKERS:
        crew = ["--workers", str(workers)]
        yield ["tree", diamond, "examples/diamond.ss", "--delta", "3", *crew], ((0, example("diamond.tree"), ""), ends_short)
        yield ["tree", diamond, "--source", "4", "--delta", "3", "--towards", *crew], ((0, TO_4, ""), ends_short)
        yield ["tree", "examples/diamond.gr", "--source", "1", "--delta", "3", "--both-ways", *crew], (
            (0, example("diamond.tree"), ""), ends_short)
        yield ["tree", f"{folder}/long.gr", "--source", "18", "--delta", far, "--towards", *crew], ((4, "x 18 1\n", ""), ends_short)
        yield ["pairs", diamond, "examples/diamond.pairs", "--delta", "3", "--both-ways", *crew], (
            (0, "d 1 4 5 2\nd 1 1 0 0\nd 4 1 5 2\n", ""), says_nothing_else)
        yield ["matrix", diamond, "--source", "1", "--source", "4", "--target", "1", "--towards", *crew], (
            (0, "d 1 1 0 0\nd 4 1 5 2\n", ""), ends_short)
        yield ["nearest", diamond, "examples/depots.ss", *crew], (
            (0, "p near 4 2\nv 1 0 0 1\nv 2 3 1 1\nv 3 0 0 3\nv 4 2 3 3\ne 4\n", ""), says_nothing_else)
        yield ["pack", "examples/diamond.gr", *crew], ((0, packed(4, arcs).decode(BYTES), ""), ends_short)
        yield ["pack", diamond, "--towards", *crew], ((0, packed(4, turned(arcs)).decode(BYTES), ""), ends_short)
        yield ["pack", diamond, "--both-ways", *crew], ((0, packed(4, both_ways(arcs)).decode(BYTES), ""), ends_short)
        # a reader takes no memory by what is announced
        for command in (["tree", f"{folder}/announced.packed", "--source", "1", "--delta", "1"], ["pack", f"{folder}/announced.packed"]):
            yield [*command, *crew], ((2, "", "spt: gr: byte 16: 7 TooFew\n"), ends_short)
    text, tree = ring(RING, RING_ARCS)
    ring_arcs = arcs_of(text)
    both = packed(RING, both_ways(ring_arcs)).decode(BYTES)
    for workers in (2, 4):
        crew = ["--workers", str(workers)]
        yield ["tree", f"{folder}/ring.packed", "--source", "1", "--delta", "mean", *crew], ((0, tree, ""), ends_short)
        yield ["pack", f"{folder}/ring.gr", *crew], ((0, packed(RING, ring_arcs).decode(BYTES), ""), ends_short)
        yield ["pack", f"{folder}/ring.packed", "--both-ways", *crew], ((0, both, ""), ends_short)
    yield ["check", diamond, "examples/diamond.tree"], ((0, "yes\n", ""), says_nothing_else)
    yield ["check", diamond, f"{folder}/to_4.tree", "--towards"], ((0, "yes\n", ""), says_nothing_else)
    yield ["check", "--all", diamond, f"{folder}/two.tree", "--both-ways"], ((3, "yes\nno 1 0 1\n", ""), says_nothing_else)
    yield ["pack", "examples/diamond.gr", "-o", f"{folder}/out"], ((0, "", ""), ends_short)


def commands(folder):
    """Each command: its words, what it writes with ample memory, and what it may end with otherwise."""
    yield from commands_on_packed(folder)
    far, one = "4294967295", "d 17 17 0 0\n"
    for workers in WORKERS:
        crew = ["--workers", str(workers)]
        yield ["tree", "examples/diamond.gr", "examples/diamond.ss", "--delta", "3", *crew], (
            (0, example("diamond.tree"), ""), ends_short)
        yield ["tree", f"{folder}/long.gr", f"{folder}/long.ss", "--delta", far, *crew], ((4, "x 1 18\n", ""), ends_short)
        yield ["tree", f"{folder}/long.gr", f"{folder}/long.ss", "--delta", far, "--within", far, *crew], (
            (0, f"p spt 18 1\nv 1 0 0\nv 2 {far} 1\ne 2\n", ""), ends_short)
        yield ["pairs", "examples/diamond.gr", "examples/diamond.pairs", "--delta", "3", *crew], (
            (0, "d 1 4 5 2\nd 1 1 0 0\nn 4 1\n", ""), says_nothing_else)
        yield ["pairs", f"{folder}/long.gr", f"{folder}/long.pairs", "--delta", far, *crew], (
            (4, f"x 1 18\n{one}", ""), says_nothing_else)
        yield ["matrix", "examples/diamond.gr", "examples/corners.ss", "examples/corners.ss", *crew], (
            (0, "d 1 1 0 0\nd 1 4 5 2\nn 4 1\nd 4 4 0 0\n", ""), ends_short)
        yield ["matrix", f"{folder}/long.gr", f"{folder}/last.ss", "--source", "1", "--source", "17", *crew], (
            (4, "x 1 18\nd 17 18 15 17\n", ""), ends_short)
        yield ["nearest", "examples/diamond.gr", "examples/depots.ss", *crew], (
            (0, "p near 4 2\nv 1 0 0 1\nv 2 3 1 1\nv 3 0 0 3\nv 4 2 3 3\ne 4\n", ""), says_nothing_else)
        yield ["nearest", f"{folder}/long.gr", "--source", "1", *crew], ((4, "x 18\n", ""), says_nothing_else)
        yield ["nearest", f"{folder}/long.gr", f"{folder}/long.ss", "--within", far, *crew], (
            (0, f"p near 18 1\nv 1 0 0 1\nv 2 {far} 1 1\ne 2\n", ""), says_nothing_else)
    _, tree = ring(RING, RING_ARCS)
    for workers in (2, 4):
        crew = ["--workers", str(workers)]
        yield ["tree", f"{folder}/ring.gr", "--source", "1", "--delta", "mean", *crew], ((0, tree, ""), ends_short)
    yield ["tree", f"{folder}/ring.gr", "--source", "1", "--source", "1", "--delta", "mean", "--workers", "2"], ((0, 2 * tree, ""), ends_short)
    # a reader takes no memory by what is announced
    yield ["tree", f"{folder}/announced.gr", f"{folder}/long.ss", "--delta", far], (
        (2, "", f"spt: gr: line 2: 7 TooFew\nspt: {folder}/announced.gr: {MORE}\n"), words_end_short)
    yield ["check", "examples/diamond.gr", "examples/diamond.tree"], ((0, "yes\n", ""), says_nothing_else)
    yield ["check", f"{folder}/long.gr", f"{folder}/long.tree"], ((3, "no 18 5\n", ""), says_nothing_else)
    yield ["check", "--all", "examples/diamond.gr", f"{folder}/two.tree"], ((3, "yes\nno 1 0 1\n", ""), says_nothing_else)
    for name in ("diamond", "kept", "lost_exchange", "not_closed"):
        yield ["replay", f"examples/{name}.rep"], ((0, example(f"{name}.report"), ""), ends_short)
    with open(f"{HOME}/docs/lost_exchange.svg", encoding=BYTES) as it:
        yield ["replay", "examples/lost_exchange.rep", "--svg"], ((0, it.read(), ""), says_nothing_else)
    yield ["offers", "examples/offers.off"], ((0, example("offers.words"), ""), ends_short)
    yield ["offers", "examples/offers.off", "-o", f"{folder}/out"], ((0, "", ""), ends_short)


def try_commands(count, refuser, program, folder):
    for words, (wanted, fits) in commands(folder):
        name = " ".join(os.path.basename(word) for word in words)
        try_each(count, name, refuser, [program, *words], wanted, fits)


def texts_of_calls():
    """What each call answers with ample memory, of the diamond and of the path beyond the limit."""
    path = long_path()
    tree, far = example("diamond.tree"), "x 1 18\n"
    arcs = path["long.gr"].split("\n", 1)[1]
    pairs, far_pairs = "d 1 4 5 2\nn 4 1\n", f"{far}d 17 17 0 0\n"
    yield "read_gr", (example("diamond.gr").split("\n", 1)[1], path["long.gr"])
    diamond_rows = "a 1 2 3\na 1 3 3\na 1 4 6\na 2 4 2\na 3 4 2\n"
    yield "read_packed", (f"p sp 4 5\n{diamond_rows}", path["long.gr"])
    yield "read_ss", ("s 1\n", "s 1\n")
    yield "read_pairs", ("q 1 4\nq 4 1\n", "q 1 18\nq 17 17\n")
    yield "read_tree", (tree, path["long.tree"])
    yield "write_tree_in_pages", (tree, path["long.tree"])
    yield "build", (diamond_rows, arcs)
    for name in ("run_source", "run_source_with", "run_by_team"):
        yield name, (tree, far)
    yield "run_pair", (f"{(5 << 28) + 2}\n", far)
    yield "run_batch", (f"{tree}1 0 {len(tree)}\n", f"{far}1 1 {len(far)}\n")
    yield "run_pairs", (f"{pairs}2 0 {len(pairs)}\n", f"{far_pairs}2 1 {len(far_pairs)}\n")
    row, far_row = "d 1 4 5 2\nd 1 1 0 0\n", f"{far}d 1 1 0 0\n"
    yield "run_matrix", (f"{row}2 0 {len(row)}\n", f"{far_row}2 1 {len(far_row)}\n")
    forest, far_forest = "p near 4 1\nv 1 0 0 1\nv 2 3 1 1\nv 3 3 1 1\nv 4 5 2 1\ne 4\n", "x 18\n"
    yield "run_nearest", (f"{forest}1 0 {len(forest)}\n", f"{far_forest}1 1 {len(far_forest)}\n")
    yield "run", (f"b 0\nb 1\nb 2\nb 3\n{tree}", "".join(f"b {bucket}\n" for bucket in range(17)) + far)
    yield "run_targets", ("5 2\n0 0\n", "x 18\n0 0\n")
    yield "check", ("yes\n", "no 18 5\n")
    for name in ("read_replay", "replay"):
        yield name, (example("diamond.report"), example("lost_exchange.report"))
    yield "read_offers", ("p off 1 2\n", "p off 1 2\n")
    # where two workers meet, on a graph of its own
    yield "round", ("w 1 0 0\nw 2 1 1\nw 3 1 1\nw 4 2 2\nw 5 2 3\n",)


# What else a call may end with.
FITS = {"run_pairs": call_says_nothing_else, "round": round_says_all, "write_tree_in_pages": call_says_all}


def try_calls(count, refuser, program):
    for name, texts in texts_of_calls():
        fits = FITS.get(name, call_ends_short)
        for sample, text in zip(("diamond", "long"), texts):
            for workers in WORKERS if name.startswith(("run", "round")) else WORKERS[:1]:
                words = [name, sample, str(workers)]
                try_each(count, " ".join(words), refuser, [program, *words], (0, text, ""), fits)


def main():
    options = options_of(__doc__)
    options.add_argument("--calls", metavar="PROGRAM", help="this tests_refused, as it is, in place of a build")
    options.add_argument("--no-calls", action="store_true", help="the commands of the program alone")
    chosen = options.parse_args()
    count = Count()
    with tempfile.TemporaryDirectory() as folder:
        try:
            refuser = Refuser(folder)
        except FileNotFoundError as error:
            print(f"refused: {error}")
            count.of("refusals", False)
        else:
            if not chosen.no_calls:
                try_calls(count, refuser, chosen.calls or parts.build_ours("tests_refused", "read_gr", "diamond", "1"))
            write_files(folder)
            try_commands(count, refuser, program(chosen), folder)
    return count.end()


if __name__ == "__main__":
    sys.exit(main())
