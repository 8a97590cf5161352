"""`spt nearest`."""

from .shared import ALONE, DIAMOND, FROM_1, FROM_NONE, GREATEST, Case, by_teams, path


def listed(*vertices):
    return f"p aux sp ss {len(vertices)}\n" + "".join(f"s {vertex}\n" for vertex in vertices)


FAR = path(17, "4294967295\n")
TIE = "p sp 3 2\na 3 1 5\na 2 1 5\n"
OF_1_AND_3 = "p near 4 2\nv 1 0 0 1\nv 2 3 1 1\nv 3 0 0 3\nv 4 2 3 3\ne 4\n"
OF_2_AND_3 = "p near 4 2\nv 2 0 0 2\nv 3 0 0 3\nv 4 2 2 2\ne 3\n"
OF_1 = "p near 4 1\nv 1 0 0 1\nv 2 3 1 1\nv 3 3 1 1\nv 4 5 2 1\ne 4\n"
OF_4 = "p near 4 1\nv 4 0 0 4\ne 1\n"
OF_1_AND_4 = "p near 4 2\nv 1 0 0 1\nv 2 3 1 1\nv 3 3 1 1\nv 4 0 0 4\ne 4\n"
OF_NONE = "p near 4 0\ne 0\n"
# the path's first 17 vertices from the first one
ROWS = "v 1 0 0 1\n" + "".join(f"v {vertex} {(vertex - 1) * 4294967295} {vertex - 1} 1\n" for vertex in range(2, 18))

# name, words behind the files, graph, sources, status, text
ANSWERS = [
    ("sources 1 and 3", "", DIAMOND, listed(1, 3), 0, OF_1_AND_3),
    ("a source twice", "", DIAMOND, listed(3, 1, 3), 0, OF_1_AND_3),
    ("no source", "", DIAMOND, FROM_NONE, 0, OF_NONE),
    ("a tie goes to the smaller predecessor", "", DIAMOND, listed(2, 3), 0, OF_2_AND_3),
    ("and not to the smaller source", "", TIE, listed(3, 2), 0, "p near 3 2\nv 1 5 2 2\nv 2 0 0 2\nv 3 0 0 3\ne 3\n"),
    ("a source on another's way", "", "p sp 2 1\na 1 2 1\n", listed(1, 2), 0, "p near 2 2\nv 1 0 0 1\nv 2 0 0 2\ne 2\n"),
    ("one source", "", DIAMOND, FROM_1, 0, OF_1),
    ("alone", "", ALONE, FROM_1, 0, "p near 1 1\nv 1 0 0 1\ne 1\n"),
    ("all are sources", "", DIAMOND, listed(4, 3, 2, 1), 0, "p near 4 4\n" + "".join(f"v {v} 0 0 {v}\n" for v in range(1, 5)) + "e 4\n"),
    ("beyond the limit of a word", "", FAR, FROM_1, 4, "x 18\n"),
    ("the source at the other end", "", FAR, listed(1, 18), 0, f"p near 18 2\n{ROWS}v 18 0 0 18\ne 18\n"),
    ("another layout", "--pred-bits 24", FAR, FROM_1, 0, f"p near 18 1\n{ROWS}v 18 73014444015 17 1\ne 18\n"),
    ("at the greatest distance", "--pred-bits 32", "p sp 2 1\na 1 2 4294967294\n", FROM_1, 0, "p near 2 1\nv 1 0 0 1\nv 2 4294967294 1 1\ne 2\n"),
    ("above the greatest distance", "--pred-bits 32", "p sp 2 1\na 1 2 4294967295\n", FROM_1, 4, "x 2\n"),
    ("within 0", "--within 0", DIAMOND, listed(1, 3), 0, "p near 4 2\nv 1 0 0 1\nv 3 0 0 3\ne 2\n"),
    ("within 2", "--within 2", DIAMOND, listed(1, 3), 0, "p near 4 2\nv 1 0 0 1\nv 3 0 0 3\nv 4 2 3 3\ne 3\n"),
    ("within 3", "--within 3", DIAMOND, listed(1, 3), 0, OF_1_AND_3),
    ("within all", "--within 68719476734", DIAMOND, listed(1, 3), 0, OF_1_AND_3),
    ("within 0 of no source", "--within 0", DIAMOND, FROM_NONE, 0, OF_NONE),
    ("no far vertex within", "--within 68719476734", FAR, FROM_1, 0, f"p near 18 1\n{ROWS}e 17\n"),
    ("no far vertex within less", "--within 68719476719", FAR, FROM_1, 0, f"p near 18 1\n{ROWS[:ROWS.rindex('v 17')]}e 16\n"),
    ("far vertices that are fine", "--far-ok", FAR, FROM_1, 0, "x 18\n"),
]

# graph, and its fault
REFUSED_GRAPHS = [
    ("", "line 1: 3 NoProblem"),
    ("p sp 2 1\na 1 3 1\n", "line 2: 5 OutOfRange V"),
    ("p sp 2 1\na 1 2 0\n", "line 2: 5 OutOfRange W"),
    ("p sp 2 1\na 1 2 03\n", "line 2: 2 BadLine"),
    ("p sp 1 0\np sp 1 0\n", "line 2: 4 SecondProblem"),
    ("p sp 2 1\na 1 2 5\na 1 2 5\n", "line 3: 6 TooMany"),
    ("p sp 1 1\n", "line 2: 7 TooFew"),
]

# sources in the graph of the diamond, and their fault
REFUSED_SOURCES = [
    (listed(5), "source 5: no such vertex"),
    (listed(1, 9, 5), "source 9: no such vertex"),
    ("", "ss: line 1: 3 NoProblem"),
    ("p sp ss 0\n", "ss: line 1: 2 BadLine"),
    ("p aux sp ss 0\np aux sp ss 0\n", "ss: line 2: 4 SecondProblem"),
    ("p aux sp ss 1048577\n", "ss: line 1: 5 OutOfRange K"),
    ("p aux sp ss 1\ns 0\n", "ss: line 2: 5 OutOfRange V"),
    ("p aux sp ss 0\ns 1\n", "ss: line 2: 6 TooMany"),
    ("p aux sp ss 1\n", "ss: line 2: 7 TooFew"),
]

FILES = {"g.gr": DIAMOND, "some.ss": listed(4, 1, 4), "bad.gr": "a 1 2 3\n", "bad.ss": "p aux sp ss 1\n"}

# line, text
CHOSEN = [
    ("g.gr some.ss", OF_1_AND_4),
    ("g.gr some.ss --sources 2-3", OF_1_AND_4),
    ("g.gr some.ss --sources 2-2", OF_1),
    ("g.gr some.ss --sources 3-9", OF_4),
    ("g.gr some.ss --sources 4-9", OF_NONE),
    ("g.gr --source 1", OF_1),
    ("--source 4 g.gr --source=1", OF_1_AND_4),
    ("g.gr --source 3 --source 1 --source 3", OF_1_AND_3),
    ("g.gr --source 2 --source 3 --within 17592186044414 --pred-bits 20", OF_2_AND_3),
    ("g.gr --source 1 --within 0", "p near 4 1\nv 1 0 0 1\ne 1\n"),
    ("g.gr some.ss --delta mean", OF_1_AND_4),
    ("g.gr some.ss --delta 3 --workers all", OF_1_AND_4),
    ("g.gr some.ss --pred-bits 32 --far-ok", OF_1_AND_4),
]

# line, text of standard input, text
PIPED = [
    ("- some.ss", DIAMOND, OF_1_AND_4),
    ("g.gr -", listed(1, 3), OF_1_AND_3),
    ("g.gr - --sources 1-1", listed(1, 3), OF_1),
    ("- --source 2 --source 3", DIAMOND, OF_2_AND_3),
]

# line, status, fault
FAULTS = [
    ("- -", 1, "standard input twice"),
    ("no.gr no.ss", 6, "gr: cannot open"),
    ("g.gr no.ss", 6, "ss: cannot open"),
    ("no.gr --source 1", 6, "gr: cannot open"),
    ("bad.gr bad.ss", 2, "gr: line 1: 3 NoProblem"),
    ("g.gr bad.ss --sources 1-1", 2, "ss: line 2: 7 TooFew"),
    ("no.gr no.ss --sources 2-1", 1, "sources are not A-B"),
    ("no.gr no.ss --sources 0-1", 1, "sources are not A-B"),
    ("g.gr --source 4 --source 5 --source 6", 2, "source 5: no such vertex"),
    ("no no --delta 68719476735", 1, "delta out of range"),
    ("no no --within 68719476735", 1, "limit out of range"),
    ("no no --within 1099511627775 --pred-bits 24", 1, "limit out of range"),
    ("no no --within 4294967295 --pred-bits 32", 1, "limit out of range"),
    ("no no --within 17592186044414", 1, "limit out of range"),
    ("no no --delta 68719476735 --within 68719476735", 1, "delta out of range"),
    ("- - --within 68719476735", 1, "limit out of range"),
]


def greatest():
    """The greatest distances and vertices of a layout, and the numbers behind them."""
    for bits, (dist, most) in GREATEST.items():
        words = f"--pred-bits {bits}"
        yield Case("greatest limits", f"nearest g.gr g.ss {words} --within {dist}", {"g.gr": DIAMOND, "g.ss": listed(1, 3)}, 0, OF_1_AND_3)
        for source, fault in ((most, f"source {most}: no such vertex"), (most + 1, "ss: line 2: 5 OutOfRange V")):
            yield Case("greatest sources", f"nearest g.gr g.ss {words}", {"g.gr": ALONE, "g.ss": listed(source)}, 2, fault)


def cases():
    made = [
        Case(name, f"nearest g.gr g.ss {words}".rstrip(), {"g.gr": gr, "g.ss": ss}, status, text) for name, words, gr, ss, status, text in ANSWERS
    ]
    made += [
        Case("refused graphs", "nearest g.gr g.ss", {"g.gr": gr, "g.ss": FROM_NONE}, 2, f"gr: {fault}") for gr, fault in REFUSED_GRAPHS
    ]
    made += [Case("refused sources", "nearest g.gr g.ss", {"g.gr": DIAMOND, "g.ss": ss}, 2, fault) for ss, fault in REFUSED_SOURCES]
    made = by_teams(made)
    made += [Case("chosen sources", f"nearest {line}", FILES, 0, text) for line, text in CHOSEN]
    made += [Case("standard input", f"nearest {line}", {**FILES, "-": given}, 0, text) for line, given, text in PIPED]
    made += [Case("faults of the line", f"nearest {line}", FILES, status, fault) for line, status, fault in FAULTS]
    return [*made, *greatest()]
