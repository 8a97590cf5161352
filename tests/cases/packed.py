"""Packed graphs in place of texts, `spt pack`, and graphs with their arcs turned or both ways."""

import dataclasses

from .shared import ALONE, ALONE_TREE, DIAMOND, DIAMOND_TREE, FROM_1, FRONT, GREATEST, LONGEST, Case, arcs_of, packed, path, summed, words

WORKERS = (1, 2, 64)
# the form of a text of cases: each character is one byte
BYTES = "latin-1"

# The diamond: what the file is, its vertices and arcs, where rows end, the arcs by tail, and the sum.
WORDS = (*FRONT, 4, 5, 0, 3, 4, 5, 5, 2, 3, 3, 3, 4, 6, 4, 2, 4, 2, 0x556A5DD1, 0, 0x55CAEA2C, 6)
PACKED = words(*WORDS).decode(BYTES)
# the same with its arcs turned, and with both
TURNED = words(*FRONT, 4, 5, 0, 0, 1, 2, 5, 1, 3, 1, 3, 1, 6, 2, 2, 3, 2, 0x556A5DBF, 0, 0x55CAE981, 6).decode(BYTES)
BOTH_ENDS, BOTH_SUM = (0, 3, 5, 7, 10), (0x556A5DF6, 0, 0xABF295F4, 9)
BOTH_ARCS = (2, 3, 3, 3, 4, 6, 1, 3, 4, 2, 1, 3, 4, 2, 1, 6, 2, 2, 3, 2)
BOTH = words(*FRONT, 4, 10, *BOTH_ENDS, *BOTH_ARCS, *BOTH_SUM).decode(BYTES)

# texts of the diamond's graph: its lines in another order, and in another spelling
TEXTS = [
    DIAMOND,
    "p sp 4 5\na 3 4 2\na 1 4 6\na 2 4 2\na 1 3 3\na 1 2 3\n",
    "p sp 4 5\na 1 4 6\na 3 4 2\na 1 3 3\na 1 2 3\na 2 4 2\n",
    "c of four vertices\n\n p  sp\t4 5 \r\na 1 3 3\r\nc\na 1\t2 3\na 1 4 6\na 3 4 2 \na 2 4 2",
]

# a graph without arcs; a loop, and the loop both ways
ALONE_PACKED = words(*FRONT, 1, 0, 0, 0, 0x556A5D97, 0, 0xFF64277B, 1).decode(BYTES)
LOOP = "p sp 1 1\na 1 1 5\n"
LOOP_BOTH = words(*FRONT, 1, 2, 0, 2, 1, 5, 1, 5, 0x556A5DA7, 0, 0x550D9E09, 3).decode(BYTES)
PARALLEL = "p sp 2 4\na 2 1 7\na 1 2 5\na 1 2 5\na 1 2 4\n"

# name, words, graph, its packed form
PACKS = [
    *(("pack", "", text, PACKED) for text in (*TEXTS, PACKED)),
    ("pack --towards", "--towards", DIAMOND, TURNED),
    ("pack --towards", "--towards", PACKED, TURNED),
    ("turned twice", "--towards", TURNED, PACKED),
    ("pack --both-ways", "--both-ways", DIAMOND, BOTH),
    ("pack --both-ways", "--both-ways", PACKED, BOTH),
    ("both ways of the turned", "--both-ways", TURNED, BOTH),
    ("both ways, turned", "--towards", BOTH, BOTH),
    ("no arcs", "", ALONE, ALONE_PACKED),
    ("no arcs", "", ALONE_PACKED, ALONE_PACKED),
    ("no arcs", "--towards", ALONE, ALONE_PACKED),
    ("no arcs", "--both-ways", ALONE, ALONE_PACKED),
    ("a loop", "", LOOP, summed(*FRONT, 1, 1, 0, 1, 1, 5).decode(BYTES)),
    ("a loop", "--towards", LOOP, summed(*FRONT, 1, 1, 0, 1, 1, 5).decode(BYTES)),
    ("a loop stands twice", "--both-ways", LOOP, LOOP_BOTH),
    ("parallel arcs", "", PARALLEL, summed(*FRONT, 2, 4, 0, 3, 4, 2, 4, 2, 5, 2, 5, 1, 7).decode(BYTES)),
    ("parallel arcs", "--towards", PARALLEL, summed(*FRONT, 2, 4, 0, 1, 4, 2, 7, 1, 4, 1, 5, 1, 5).decode(BYTES)),
    (
        "parallel arcs",
        "--both-ways",
        PARALLEL,
        summed(*FRONT, 2, 8, 0, 4, 8, 2, 4, 2, 5, 2, 5, 2, 7, 1, 4, 1, 5, 1, 5, 1, 7).decode(BYTES),
    ),
    ("the longest arc", "", f"p sp 2 1\na 2 2 {LONGEST}\n", summed(*FRONT, 2, 1, 0, 0, 1, 2, LONGEST).decode(BYTES)),
    ("layouts", "--pred-bits 20", DIAMOND, PACKED),
    ("layouts", "--pred-bits 24", PACKED, PACKED),
    ("layouts", "--pred-bits 32 --both-ways", DIAMOND, BOTH),
]

THREE = "p pairs 3\nq 1 4\nq 1 1\nq 4 1\n"
TO_4 = "p spt 4 4\nv 1 5 2\nv 2 2 4\nv 3 2 4\nv 4 0 0\ne 4\n"
FROM_4 = "p spt 4 4\nv 4 0 0\ne 1\n"
OF_2_BOTH_WAYS = "p spt 4 2\nv 1 3 2\nv 2 0 0\nv 3 4 4\nv 4 2 2\ne 4\n"
OF_2 = "p spt 4 2\nv 2 0 0\nv 4 2 2\ne 2\n"
FOREST = "p near 4 2\nv 1 0 0 1\nv 2 3 1 1\nv 3 0 0 3\nv 4 2 3 3\ne 4\n"
TOWARDS_FOREST = "p near 4 2\nv 1 3 2 2\nv 2 0 0 2\nv 3 0 0 3\ne 3\n"
LISTS = {"1.ss": FROM_1, "4.ss": "p aux sp ss 1\ns 4\n", "three.pairs": THREE}

# On the diamond, in the place of whose file `@` stands: words, status, text. With `check` the tree or forest stands in front.
ANSWERS = [
    ("tree @ 1.ss --delta 3", 0, DIAMOND_TREE),
    ("tree @ --source 4 --source 1 --delta mean", 0, FROM_4 + DIAMOND_TREE),
    ("tree @ 1.ss --delta 3 --within 3", 0, "p spt 4 1\nv 1 0 0\nv 2 3 1\nv 3 3 1\ne 3\n"),
    ("tree @ 4.ss --delta 3 --towards", 0, TO_4),
    ("tree @ --source 4 --towards --delta mean --pred-bits 20", 0, TO_4),
    ("tree @ --source 1 --source 4 --delta 1 --towards", 0, "p spt 4 1\nv 1 0 0\ne 1\n" + TO_4),
    ("tree @ 4.ss --delta 3 --towards --within 2", 0, "p spt 4 4\nv 2 2 4\nv 3 2 4\nv 4 0 0\ne 3\n"),
    ("tree @ --source 2 --delta 3 --both-ways", 0, OF_2_BOTH_WAYS),
    ("tree --both-ways @ --delta 100 --source 1", 0, DIAMOND_TREE),
    ("pairs @ three.pairs --delta 3", 0, "d 1 4 5 2\nd 1 1 0 0\nn 4 1\n"),
    ("pairs @ three.pairs --delta 3 --towards", 0, "n 1 4\nd 1 1 0 0\nd 4 1 5 2\n"),
    ("pairs @ three.pairs --delta mean --both-ways", 0, "d 1 4 5 2\nd 1 1 0 0\nd 4 1 5 2\n"),
    ("matrix @ 4.ss --source 1 --source 4", 0, "d 1 4 5 2\nd 4 4 0 0\n"),
    ("matrix @ 1.ss --source 1 --source 4 --towards", 0, "d 1 1 0 0\nd 4 1 5 2\n"),
    ("matrix @ --source 2 --target 3 --target 1 --both-ways", 0, "d 2 3 4 4\nd 2 1 3 2\n"),
    ("nearest @ --source 3 --source 1", 0, FOREST),
    ("nearest @ --source 3 --source 2 --towards", 0, TOWARDS_FOREST),
    ("nearest @ --source 3 --source 1 --both-ways", 0, FOREST),
    ("nearest @ 4.ss --both-ways --within 2", 0, "p near 4 1\nv 2 2 4 4\nv 3 2 4 4\nv 4 0 0 4\ne 3\n"),
]
CHECKS = [
    (DIAMOND_TREE, "check @ g.tree", 0, "yes\n"),
    (TO_4, "check @ g.tree --towards", 0, "yes\n"),
    (FROM_4, "check @ g.tree --towards", 3, "no 1 3\n"),
    (FROM_4, "check @ g.tree", 0, "yes\n"),
    (TO_4, "check @ g.tree", 3, "no 1 4\n"),
    (OF_2_BOTH_WAYS, "check @ g.tree --both-ways", 0, "yes\n"),
    (DIAMOND_TREE, "check @ g.tree --both-ways", 0, "yes\n"),
    (OF_2, "check @ g.tree --both-ways", 3, "no 1 3\n"),
    (FOREST, "check @ g.tree", 0, "yes\n"),
    (TOWARDS_FOREST, "check @ g.tree --towards", 0, "yes\n"),
    (FOREST, "check @ g.tree --both-ways --pred-bits 32", 0, "yes\n"),
    (TO_4 + FROM_4, "check @ g.tree --all --towards", 3, "yes\nno 4 1 3\n"),
    ("p spt 4 4\nv 2 2 4\nv 3 2 4\nv 4 0 0\ne 3\n", "check @ g.tree --towards --within 2", 0, "yes\n"),
]


def changed(*places):
    """The diamond's packed form with other words at some places, its sum as it was."""
    made = list(WORDS)
    for place, word in places:
        made[place] = word
    return words(*made).decode(BYTES)


# the examples of the specification: what the diamond's packed form is made to, and the fault
EXAMPLES = [
    (PACKED[:50], "byte 48: 7 TooFew"),
    (PACKED + "x", "byte 92: 6 TooMany"),
    (changed((2, 0)), "byte 8: 5 OutOfRange N"),
    (changed((3, 1073741825)), "byte 12: 5 OutOfRange M"),
    (changed((5, 0)), "byte 64: 5 OutOfRange W"),
    (changed((6, 1)), "byte 24: 5 OutOfRange E"),
    (changed((1, 0x021A0A0D)), "byte 4: 10 OtherForm"),
    ("", "line 1: 3 NoProblem"),
]

# places with their words in place of those of the diamond, and the fault
CHANGES = [
    # another first byte is that of a text
    ([(0, 0x54505388)], "line 1: 2 BadLine"),
    ([(0, 0x54505489)], "byte 0: 10 OtherForm"),
    ([(0, 0x89)], "byte 0: 10 OtherForm"),
    ([(0, 0x55505389)], "byte 0: 10 OtherForm"),
    ([(1, 0x001A0A0D)], "byte 4: 10 OtherForm"),
    # CR LF that became LF, and what stands before 0x1A
    ([(1, 0x04011A0A)], "byte 4: 10 OtherForm"),
    ([(1, 0x021A0A0D), (2, 0)], "byte 4: 10 OtherForm"),
    ([(2, 268435455)], "byte 8: 5 OutOfRange N"),
    ([(2, 4294967295)], "byte 8: 5 OutOfRange N"),
    ([(2, 0), (3, 4294967295)], "byte 8: 5 OutOfRange N"),
    ([(3, 4294967295)], "byte 12: 5 OutOfRange M"),
    ([(4, 1)], "byte 16: 5 OutOfRange E"),
    ([(4, 4294967295)], "byte 16: 5 OutOfRange E"),
    # an end above m, below the one before, and the last that isn't m
    ([(5, 6)], "byte 20: 5 OutOfRange E"),
    ([(5, 4294967295)], "byte 20: 5 OutOfRange E"),
    ([(6, 2)], "byte 24: 5 OutOfRange E"),
    ([(7, 6)], "byte 28: 5 OutOfRange E"),
    ([(8, 4)], "byte 32: 5 OutOfRange E"),
    ([(7, 4), (8, 4)], "byte 32: 5 OutOfRange E"),
    ([(8, 6)], "byte 32: 5 OutOfRange E"),
    ([(3, 6)], "byte 32: 5 OutOfRange E"),
    ([(3, 4)], "byte 28: 5 OutOfRange E"),
    ([(3, 0)], "byte 20: 5 OutOfRange E"),
    # with a vertex more or less, words of ends and of arcs change places
    ([(2, 5)], "byte 36: 5 OutOfRange E"),
    ([(2, 3)], "byte 32: 5 OutOfRange V"),
    ([(9, 0)], "byte 36: 5 OutOfRange V"),
    ([(9, 5)], "byte 36: 5 OutOfRange V"),
    ([(9, 4294967295)], "byte 36: 5 OutOfRange V"),
    ([(9, 4)], "byte 44: 5 OutOfRange V"),
    ([(11, 1)], "byte 44: 5 OutOfRange V"),
    ([(13, 2)], "byte 52: 5 OutOfRange V"),
    ([(15, 0)], "byte 60: 5 OutOfRange V"),
    ([(17, 5)], "byte 68: 5 OutOfRange V"),
    ([(10, 0)], "byte 40: 5 OutOfRange W"),
    ([(14, 0)], "byte 56: 5 OutOfRange W"),
    ([(18, 0)], "byte 72: 5 OutOfRange W"),
    # the same head twice, with a length that falls
    ([(11, 2), (12, 2)], "byte 48: 5 OutOfRange W"),
    ([(13, 3), (14, 2)], "byte 56: 5 OutOfRange W"),
    # the first of two faults is told
    ([(9, 0), (10, 0)], "byte 36: 5 OutOfRange V"),
    ([(10, 0), (19, 0)], "byte 40: 5 OutOfRange W"),
    ([(6, 1), (9, 0)], "byte 24: 5 OutOfRange E"),
    # other graphs, with the sum of this one
    ([(11, 2)], "byte 76: 11 OtherSum"),
    ([(18, 1)], "byte 76: 11 OtherSum"),
    ([(18, 4294967295)], "byte 76: 11 OtherSum"),
    ([(6, 5), (7, 5)], "byte 76: 11 OtherSum"),
    # where a word grows by what another falls
    ([(10, 4), (12, 2)], "byte 84: 11 OtherSum"),
    ([(19, 0x556A5DD0)], "byte 76: 11 OtherSum"),
    ([(20, 1)], "byte 80: 11 OtherSum"),
    ([(21, 0x55CAEA2D)], "byte 84: 11 OtherSum"),
    ([(22, 7)], "byte 88: 11 OtherSum"),
    ([(22, 0)], "byte 88: 11 OtherSum"),
]

# words of a form without a sum, or with a wrong one behind it, and the fault
OTHERS = [
    # it takes no memory: no word comes
    (words(*FRONT, 268435454, 1073741824), "byte 16: 7 TooFew"),
    (words(*FRONT, 1, 1073741824, 0, 1073741824), "byte 24: 7 TooFew"),
    (words(*FRONT, 1, 1073741824, 0, 1073741823), "byte 20: 5 OutOfRange E"),
    (words(*FRONT, 268435454, 0, 0, 0, 0), "byte 28: 7 TooFew"),
    # a sum that leaves out the two first words, none at all, and one of other order
    (words(*FRONT, 1, 0, 0, 0, 1, 0, 4, 0), "byte 24: 11 OtherSum"),
    (words(*FRONT, 1, 0, 0, 0), "byte 24: 7 TooFew"),
    (words(*FRONT, 1, 0, 0, 0, 0xFF64277B, 1, 0x556A5D97, 0), "byte 24: 11 OtherSum"),
    (words(*FRONT, 1, 0, 0, 0, 0x556A5D97, 0, 0xFF64277B, 0), "byte 36: 11 OtherSum"),
    (summed(*FRONT, 1, 0, 0, 0) + b"\n", "byte 40: 6 TooMany"),
    (summed(*FRONT, 1, 0, 0, 0) + summed(*FRONT, 1, 0, 0, 0), "byte 40: 6 TooMany"),
    # the words of the other order of bytes
    (summed(*FRONT, 1 << 24, 0, 0, 0), "byte 24: 5 OutOfRange E"),
]

# in place of GR, which isn't packed and none of a graph: command, fault
ELSEWHERE = [
    ("tree g.gr p --delta 1", "ss: line 1: 2 BadLine"),
    ("tree g.gr p --delta 1 --workers 2", "ss: line 1: 2 BadLine"),
    ("tree p p --delta 1", "ss: line 1: 2 BadLine"),
    ("pairs g.gr p --delta 1", "pairs: line 1: 2 BadLine"),
    ("nearest g.gr p", "ss: line 1: 2 BadLine"),
    ("matrix g.gr p --source 1", "targets: line 1: 2 BadLine"),
    ("matrix g.gr p --target 1", "ss: line 1: 2 BadLine"),
    ("matrix g.gr p p", "ss: line 1: 2 BadLine"),
    ("check g.gr p", "tree: line 1: 2 BadLine"),
    ("check g.gr p --all", "tree: line 1: 2 BadLine"),
    ("check p p", "tree: line 1: 2 BadLine"),
    ("replay p", "replay: line 1: 2 BadLine"),
    ("offers p", "offers: line 1: 2 BadLine"),
]

# texts that pack refuses, and their fault
REFUSED_TEXTS = [
    ("", "line 1: 3 NoProblem"),
    ("a 1 2 3\n", "line 1: 3 NoProblem"),
    ("p sp 2 1\na 1 3 1\n", "line 2: 5 OutOfRange V"),
    ("p sp 2 1\na 1 2 0\n", "line 2: 5 OutOfRange W"),
    ("p sp 2 1\na 1 2 03\n", "line 2: 2 BadLine"),
    ("p sp 2 2\na 1 2 5\n", "line 3: 7 TooFew"),
    ("p sp 2 1\na 1 2 5\na 1 2 5\n", "line 3: 6 TooMany"),
    ("p sp 1 1073741825\n", "line 1: 5 OutOfRange M"),
    ("p sp 268435455 0\n", "line 1: 5 OutOfRange N"),
    ("p sp 268435454 1073741824\n", "line 2: 7 TooFew"),
    ("\x89", "byte 0: 7 TooFew"),
    ("\x89\n", "byte 0: 7 TooFew"),
    ("\x89SPT", "byte 4: 7 TooFew"),
    ("\x89spt", "byte 0: 10 OtherForm"),
    # the mark isn't the first byte
    ("\n" + PACKED, "line 2: 2 BadLine"),
    (" " + PACKED, "line 1: 2 BadLine"),
]

# what commands a graph may be given to, with no other file that could be refused
READERS = [
    "tree @ --source 1 --delta 1",
    "pairs @ none.pairs --delta mean",
    "matrix @ --source 1 --target 1",
    "nearest @ --source 1",
    "check @ none.tree",
    "pack @",
]
READERS_FILES = {"none.pairs": "p pairs 0\n", "none.tree": "p spt 1 1\ne 0\n"}
DIRECTIONS = ("--towards", "--both-ways")

# Words that are no order.
REFUSED_WORDS = [
    *(f"{reader.replace('@', 'g.gr')} --towards --both-ways" for reader in READERS),
    *(f"{reader.replace('@', 'no.gr')} --both-ways --towards" for reader in READERS),
    *(f"{command} g.rep {way}" for command in ("replay", "offers") for way in DIRECTIONS),
    "tree g.gr --source 1 --delta 1 --towards=4",
    "tree g.gr --source 1 --delta 1 --toward",
    "tree g.gr --source 1 --delta 1 --both",
    "pack",
    "pack g.gr g.gr",
    "pack g.gr --delta 1",
    "pack g.gr --within 1",
    "pack g.gr --source 1",
    "pack g.gr --sources 1-1",
    "pack g.gr --far-ok",
    "pack g.gr --pred-bits 21",
    "pack g.gr --workers 0",
    "pack g.gr --workers 65",
    "pack g.gr --workers",
    "pack g.gr -o",
]


# ## Cases


def by_workers(cases):
    """Each case with some numbers of workers."""
    return [dataclasses.replace(case, line=f"{case.line} --workers {workers}") for case in cases for workers in WORKERS]


def placed(name, words, graph, files, status, text):
    """The case with the graph in a file, whatever its name, and on standard input."""
    for place in ("g.gr", "g.txt", "-"):
        yield Case(name, words.replace("@", place), {**files, place: graph}, status, text)


def refused(name, graph, fault, ways=("",)):
    """A graph that is refused, by two commands, also where its arcs would be turned."""
    for way in ways:
        line = f"{way} ".lstrip()
        yield from placed(name, f"tree {line}@ g.ss --delta 1", graph, {"g.ss": ""}, 2, f"gr: {fault}")
        yield from placed(name, f"pack {line}@", graph, {}, 2, f"gr: {fault}")


def answers():
    for form, graph in (("a text", DIAMOND), ("packed", PACKED)):
        for words, status, text in ANSWERS:
            yield from placed(f"answers, {form}", words, graph, LISTS, status, text)


def checks():
    for form, graph in (("a text", DIAMOND), ("packed", PACKED)):
        for tree, words, status, text in CHECKS:
            yield from placed(f"checks, {form}", words, graph, {"g.tree": tree}, status, text)


def far():
    """A path of which one end is too far from the other."""
    graph = path(17, "15\n")
    for form in (graph, packed(18, arcs_of(graph)).decode(BYTES)):
        files = {"g.gr": form, "g.pairs": "p pairs 2\nq 1 18\nq 18 1\n"}
        yield Case("too far", "tree g.gr --source 1 --delta 1", files, 4, "x 1 18\n")
        yield Case("too far", "tree g.gr --source 18 --delta 1 --towards", files, 4, "x 18 1\n")
        yield Case("too far", "tree g.gr --source 18 --delta 1 --towards --far-ok", files, 0, "x 18 1\n")
        yield Case("too far", "pairs g.gr g.pairs --delta 1 --towards", files, 4, "n 1 18\nx 18 1\n")
        yield Case("too far", "pairs g.gr g.pairs --delta 1 --both-ways", files, 4, "x 1 18\nx 18 1\n")
        yield Case("too far", "nearest g.gr --source 18 --towards", files, 4, "x 1\n")


def greatest():
    """The greatest numbers of vertices and of arcs, and those behind them."""
    for bits, (_, most) in GREATEST.items():
        for n, fault in ((most, "byte 16: 7 TooFew"), (most + 1, "byte 8: 5 OutOfRange N")):
            files = {"g.gr": words(*FRONT, n, 0).decode(BYTES), **READERS_FILES}
            for reader in READERS:
                yield Case("greatest vertices", f"{reader.replace('@', 'g.gr')} --pred-bits {bits}", files, 2, f"gr: {fault}")
    for way, most in (("", 1073741824), (" --towards", 1073741824), (" --both-ways", 536870912)):
        for m, in_text, in_words in (
            (most, "line 2: 7 TooFew", "byte 16: 7 TooFew"),
            (most + 1, "line 1: 5 OutOfRange M", "byte 12: 5 OutOfRange M"),
        ):
            for reader in READERS:
                line = f"{reader.replace('@', 'g.gr')}{way}"
                yield Case("greatest arcs", line, {"g.gr": f"p sp 1 {m}\n", **READERS_FILES}, 2, f"gr: {in_text}")
                yield Case("greatest arcs", line, {"g.gr": words(*FRONT, 1, m).decode(BYTES), **READERS_FILES}, 2, f"gr: {in_words}")


def faults():
    for graph, fault in EXAMPLES:
        yield from refused("examples of faults", graph, fault, ("", *DIRECTIONS))
    for places, fault in CHANGES:
        yield from refused("other words", changed(*places), fault)
    for graph, fault in OTHERS:
        yield from refused("other forms", graph.decode(BYTES), fault)
    for k in range(1, len(PACKED)):
        yield from refused("ended after each byte", PACKED[:k], f"byte {k // 4 * 4}: 7 TooFew")
    for graph, fault in REFUSED_TEXTS:
        yield from placed("refused texts", "pack @", graph, {}, 2, f"gr: {fault}")


def cases():
    made = [case for name, words, graph, text in PACKS for case in placed(name, f"pack @ {words}".strip(), graph, {}, 0, text)]
    made += [*answers(), *far(), *faults()]
    made += placed("a graph alone", "tree @ --source 1 --delta 1", ALONE_PACKED, {}, 0, ALONE_TREE)
    made = by_workers(made)
    made += [*checks(), *greatest()]
    made += [Case("pack by all workers", "pack g.gr --workers all", {"g.gr": graph}, 0, PACKED) for graph in (*TEXTS, PACKED)]
    made += [Case("output to standard output", "pack g.gr -o -", {"g.gr": graph}, 0, PACKED) for graph in (DIAMOND, PACKED)]
    for places, fault in CHANGES:
        files = {"g.gr": changed(*places), **READERS_FILES}
        made += [Case("faults by each command", reader.replace("@", "g.gr"), files, 2, f"gr: {fault}") for reader in READERS]
    made += [Case("in another place", line, {"g.gr": DIAMOND, "p": PACKED}, 2, fault) for line, fault in ELSEWHERE]
    made += [Case("refused words", line, {"g.gr": DIAMOND, "g.rep": "p rep 1 1\n"}, 1, None) for line in REFUSED_WORDS]
    made += [
        # the graph is opened first, and read first
        Case("files in order", "pack no.gr", {}, 6, "gr: cannot open"),
        Case("files in order", "tree p no.ss --delta 1", {"p": PACKED}, 6, "ss: cannot open"),
        Case("files in order", "tree p p.ss --delta 1", {"p": PACKED[:50], "p.ss": PACKED}, 2, "gr: byte 48: 7 TooFew"),
        Case("standard input twice", "tree - - --delta 1 --towards", {"-": PACKED}, 1, "standard input twice"),
        Case("no such vertex", "tree p --source 5 --delta 1 --towards", {"p": PACKED}, 2, "source 5: no such vertex"),
        Case("no such vertex", "matrix p --source 1 --target 9 --both-ways", {"p": PACKED}, 2, "source 9: no such vertex"),
    ]
    return made
