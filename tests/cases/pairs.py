"""`spt pairs`."""

from .shared import ALONE, DIAMOND, GREATEST, Case, by_teams, path

# three pairs of the diamond's graph, and their lines
THREE = "p pairs 3\nq 1 4\nq 1 1\nq 4 1\n"
THREE_TEXT = "d 1 4 5 2\nd 1 1 0 0\nn 4 1\n"

FAR = path(17, "15\n")
TO_LAST = "p pairs 1\nq 1 18\n"
LONG_ARC = "p sp 3 1\na 1 2 4294967295\n"
FROM_ONE = "p pairs 4\nq 1 2\nq 1 3\nq 1 1\nq 3 1\n"

# name, bits of the predecessor, graph, pairs, status, lines
ANSWERS = [
    ("diamond", "28", DIAMOND, THREE, 0, THREE_TEXT),
    ("beyond the limit", "28", FAR, "p pairs 3\nq 1 17\nq 1 18\nq 18 1\n", 4, "d 1 17 68719476720 16\nx 1 18\nn 18 1\n"),
    ("later and shorter", "28", "p sp 3 3\na 1 3 10\na 1 2 1\na 2 3 1\n", "p pairs 1\nq 1 3\n", 0, "d 1 3 2 2\n"),
    (
        "repeated pairs",
        "28",
        DIAMOND,
        "p pairs 4\nq 1 4\nq 4 4\nq 1 4\nq 4 4\n",
        0,
        "d 1 4 5 2\nd 4 4 0 0\nd 1 4 5 2\nd 4 4 0 0\n",
    ),
    ("alone", "28", ALONE, "p pairs 1\nq 1 1\n", 0, "d 1 1 0 0\n"),
    (
        "sources among each other",
        "28",
        DIAMOND,
        "p pairs 7\nq 1 3\nq 2 4\nq 1 4\nq 3 2\nq 2 2\nq 1 2\nq 3 4\n",
        0,
        "d 1 3 3 1\nd 2 4 2 2\nd 1 4 5 2\nn 3 2\nd 2 2 0 0\nd 1 2 3 1\nd 3 4 2 3\n",
    ),
    (
        "too far beside within",
        "28",
        FAR,
        "p pairs 4\nq 1 18\nq 1 2\nq 17 18\nq 1 17\n",
        4,
        "x 1 18\nd 1 2 4294967295 1\nd 17 18 15 17\nd 1 17 68719476720 16\n",
    ),
    ("no walk beside too far", "32", LONG_ARC, FROM_ONE, 4, "x 1 2\nx 1 2\nd 1 1 0 0\nn 3 1\n"),
    ("no walk beside too far", "28", LONG_ARC, FROM_ONE, 0, "d 1 2 4294967295 1\nn 1 3\nd 1 1 0 0\nn 3 1\n"),
    ("layouts", "20", FAR, TO_LAST, 0, "d 1 18 68719476735 17\n"),
    ("layouts", "24", FAR, TO_LAST, 0, "d 1 18 68719476735 17\n"),
    ("layouts", "32", FAR, TO_LAST, 4, "x 1 2\n"),
    ("no pairs", "28", DIAMOND, "p pairs 0\n", 0, ""),
]

# pairs in the graph of the diamond, and their fault
REFUSED = [
    ("p pairs 1\nq 1 9\n", "source 9: no such vertex"),
    ("p pairs 1\nq 8 9\n", "source 8: no such vertex"),
    ("p pairs 3\nq 1 4\nq 4 5\nq 6 1\n", "source 5: no such vertex"),
    ("", "pairs: line 1: 3 NoProblem"),
    ("q 1 1\n", "pairs: line 1: 3 NoProblem"),
    ("p pairs 1\n", "pairs: line 2: 7 TooFew"),
    # it takes no memory: no pair comes
    ("p pairs 1048576\n", "pairs: line 2: 7 TooFew"),
    ("p pairs 0\nq 1 1\n", "pairs: line 2: 6 TooMany"),
    ("p pairs 1\nq 1 2\nq 1 2\n", "pairs: line 3: 6 TooMany"),
    ("p pairs 0\np pairs 0\n", "pairs: line 2: 4 SecondProblem"),
    ("p pairs 1\nq 1\n", "pairs: line 2: 2 BadLine"),
    ("p pairs 1\nq 0 1\n", "pairs: line 2: 5 OutOfRange S"),
    ("p pairs 1\nq 0 0\n", "pairs: line 2: 5 OutOfRange S"),
    ("p pairs 1\nq 1 0\n", "pairs: line 2: 5 OutOfRange T"),
    ("p pairs 1\nq 1 268435455\n", "pairs: line 2: 5 OutOfRange T"),
    ("p pairs 1048577\n", "pairs: line 1: 5 OutOfRange K"),
]


def greatest():
    """The greatest target of a layout, and the number behind it."""
    for bits, (_, most) in GREATEST.items():
        for target, fault in ((most, f"source {most}: no such vertex"), (most + 1, "pairs: line 2: 5 OutOfRange T")):
            files = {"g.gr": ALONE, "g.pairs": f"p pairs 1\nq {most} {target}\n"}
            yield Case("greatest pairs", f"pairs g.gr g.pairs --delta 1 --pred-bits {bits}", files, 2, fault)


def cases():
    made = [
        Case(name, f"pairs g.gr g.pairs --pred-bits {bits}", {"g.gr": gr, "g.pairs": pairs}, status, text)
        for name, bits, gr, pairs, status, text in ANSWERS
    ]
    made += [Case("refused pairs", "pairs g.gr g.pairs", {"g.gr": DIAMOND, "g.pairs": pairs}, 2, fault) for pairs, fault in REFUSED]
    made = by_teams(made)
    made += [
        Case("few options", f"pairs g.gr g.pairs {options}", {"g.gr": DIAMOND, "g.pairs": THREE}, 0, THREE_TEXT)
        for options in ("--delta=3", "--delta mean", "--delta 3 --workers all")
    ]
    made += greatest()
    far = {"g.gr": FAR, "g.pairs": TO_LAST}
    made += [
        Case("far vertices that are fine", "pairs g.gr g.pairs --delta 1", far, 4, "x 1 18\n"),
        Case("far vertices that are fine", "pairs --far-ok g.gr g.pairs --delta 1", far, 0, "x 1 18\n"),
    ]
    return made
