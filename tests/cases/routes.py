"""`spt pairs --routes`: the worked examples of routes, and what the option refuses and leaves as it is."""

from .pairs import FAR, REFUSED, THREE
from .shared import ALONE, DIAMOND, Case, by_teams

# two ways of the same length from 1 to 5, and an arc that is as long; the same without the arc
DIRECT = "p sp 5 6\na 1 4 2\na 1 3 2\na 4 2 1\na 3 2 1\na 2 5 1\na 1 5 4\n"
TWO_WAYS = "p sp 5 5\na 1 4 2\na 1 3 2\na 4 2 1\na 3 2 1\na 2 5 1\n"
TO_FIVE = "p pairs 1\nq 1 5\n"

# name, options, graph, pairs, status, lines
ANSWERS = [
    ("routes of the diamond", "", DIAMOND, THREE, 0, "r 1 4 5 1 2 4\nr 1 1 0 1\nn 4 1\n"),
    ("routes towards", "--towards", DIAMOND, THREE, 0, "n 1 4\nr 1 1 0 1\nr 4 1 5 4 2 1\n"),
    ("routes both ways", "--both-ways", DIAMOND, THREE, 0, "r 1 4 5 1 2 4\nr 1 1 0 1\nr 4 1 5 4 2 1\n"),
    (
        "a route beside a vertex that is too far",
        "",
        FAR,
        "p pairs 3\nq 1 3\nq 1 18\nq 18 1\n",
        4,
        "r 1 3 8589934590 1 2 3\nx 1 18\nn 18 1\n",
    ),
    ("the direct arc", "", DIRECT, TO_FIVE, 0, "r 1 5 4 1 5\n"),
    ("the smallest vertex each time from the target back", "", TWO_WAYS, TO_FIVE, 0, "r 1 5 4 1 3 2 5\n"),
    ("a vertex alone", "", ALONE, "p pairs 1\nq 1 1\n", 0, "r 1 1 0 1\n"),
    ("no pairs", "", DIAMOND, "p pairs 0\n", 0, ""),
    (
        "a pair twice and several targets of a source",
        "",
        DIAMOND,
        "p pairs 5\nq 1 4\nq 1 3\nq 1 4\nq 2 4\nq 1 2\n",
        0,
        "r 1 4 5 1 2 4\nr 1 3 3 1 3\nr 1 4 5 1 2 4\nr 2 4 2 2 4\nr 1 2 3 1 2\n",
    ),
]


def cases():
    made = [
        Case(name, f"pairs g.gr g.pairs --routes {options}".rstrip(), {"g.gr": gr, "g.pairs": pairs}, status, text)
        for name, options, gr, pairs, status, text in ANSWERS
    ]
    made += [Case("refused pairs", "pairs g.gr g.pairs --routes", {"g.gr": DIAMOND, "g.pairs": pairs}, 2, fault) for pairs, fault in REFUSED]
    made = by_teams(made)
    files = {"g.gr": DIAMOND, "g.pairs": THREE}
    made += [
        Case("where the option stands", f"pairs {words} --delta 3", files, 0, "r 1 4 5 1 2 4\nr 1 1 0 1\nn 4 1\n")
        for words in ("--routes g.gr g.pairs", "g.gr --routes g.pairs", "g.gr g.pairs --routes --workers 2")
    ]
    far = {"g.gr": FAR, "g.pairs": "p pairs 1\nq 1 18\n"}
    made += [Case("far vertices that are fine", "pairs g.gr g.pairs --routes --far-ok --delta 1", far, 0, "x 1 18\n")]
    return made
