"""`spt tree`."""

from .shared import ALONE, ALONE_TREE, DIAMOND, DIAMOND_TREE, FROM_1, FROM_NONE, GREATEST, LONGEST, Case, by_teams, path, path_tree

FAR = path(17, "15\n")
FIVE = "p spt 2 1\nv 1 0 0\nv 2 5 1\ne 2\n"
ONE_LINE = "p sp 2 1\na 1 2 5"

# name, bits of the predecessor, graph, sources, status, trees
TREES = [
    ("alone", "28", ALONE, FROM_1, 0, ALONE_TREE),
    ("diamond", "28", DIAMOND, FROM_1, 0, DIAMOND_TREE),
    ("parallel arcs", "28", "p sp 2 3\na 1 2 5\na 1 2 4\na 1 1 1\n", FROM_1, 0, "p spt 2 1\nv 1 0 0\nv 2 4 1\ne 2\n"),
    ("unreached", "28", "p sp 3 1\na 1 2 7\n", "p aux sp ss 1\ns 2\n", 0, "p spt 3 2\nv 2 0 0\ne 1\n"),
    ("source lists", "28", ALONE, FROM_NONE, 0, ""),
    ("source lists", "28", ALONE, "p aux sp ss 2\ns 1\ns 1\n", 0, ALONE_TREE + ALONE_TREE),
    ("source lists", "28", DIAMOND, "p aux sp ss 2\ns 1\ns 4\n", 0, DIAMOND_TREE + "p spt 4 4\nv 4 0 0\ne 1\n"),
    ("at the limit", "28", path(17, "14\n"), FROM_1, 0, path_tree("v 18 68719476734 17\ne 18\n")),
    ("beyond the limit", "28", FAR, FROM_1, 4, "x 1 18\n"),
    ("beyond the limit", "28", path(18, "15\na 1 18 9\n"), FROM_1, 0, path_tree("v 18 9 1\ne 18\n")),
    (
        "some source too far",
        "28",
        FAR,
        "p aux sp ss 3\ns 18\ns 1\ns 17\n",
        4,
        "p spt 18 18\nv 18 0 0\ne 1\nx 1 18\np spt 18 17\nv 17 0 0\nv 18 15 17\ne 2\n",
    ),
    ("light and heavy", "28", "p sp 3 2\na 1 2 3\na 1 3 4\n", FROM_1, 0, "p spt 3 1\nv 1 0 0\nv 2 3 1\nv 3 4 1\ne 3\n"),
    ("layouts", "20", FAR, FROM_1, 0, path_tree("v 18 68719476735 17\ne 18\n")),
    ("layouts", "32", path(17, "14\n"), FROM_1, 4, "x 1 2\n"),
    ("layouts", "24", "p sp 1048575 0\n", FROM_NONE, 0, ""),
    ("too few", "28", ONE_LINE, FROM_1, 0, FIVE),
    ("too few", "28", "p sp 2 1\r\na 1 2 5\r\n", FROM_1, 0, FIVE),
    ("too few", "28", "p\tsp 2 1\na 1\t2 5\n", FROM_1, 0, FIVE),
    ("too few", "28", "p sp 2 1\r\na\t1 2 5  ", FROM_1, 0, FIVE),
    ("too few", "28", "p sp 2 1  \na 1 2 5 \n", FROM_1, 0, FIVE),
    ("too few", "28", "\np sp 2 1\n\na 1 2 5\n\n", FROM_1, 0, FIVE),
]

# name, graph, fault; the graph is read first: no sources are
REFUSED_GRAPHS = [
    ("no problem line", "a 1 2 3\n", "line 1: 3 NoProblem"),
    ("no problem line", "a 1 2 3\np sp 3 1\n", "line 1: 3 NoProblem"),
    ("no problem line", "", "line 1: 3 NoProblem"),
    ("no problem line", "c\n\n", "line 3: 3 NoProblem"),
    ("no problem line", "p sp 1 0\np sp 1 0\n", "line 2: 4 SecondProblem"),
    ("no problem line", "p sp 1\n", "line 1: 2 BadLine"),
    ("no problem line", "p spt 1 0\n", "line 1: 2 BadLine"),
    ("ranges", "p sp 2 1\na 1 3 1\n", "line 2: 5 OutOfRange V"),
    ("ranges", "p sp 2 1\na 0 3 1\n", "line 2: 5 OutOfRange U"),
    ("ranges", "p sp 2 1\na 1 2 0\n", "line 2: 5 OutOfRange W"),
    ("ranges", "p sp 2 1\na 1 2 4294967296\n", "line 2: 5 OutOfRange W"),
    ("ranges", "p sp 2 1\na 1 2 03\n", "line 2: 2 BadLine"),
    ("ranges", "p sp 2 1\na 1 2 3 4\n", "line 2: 2 BadLine"),
    ("ranges", "p sp 2 1\na 3 1 x\n", "line 2: 2 BadLine"),
    ("ranges", "p sp 268435455 0\n", "line 1: 5 OutOfRange N"),
    ("ranges", "p sp 0 0\n", "line 1: 5 OutOfRange N"),
    ("ranges", "p sp 1 1073741825\n", "line 1: 5 OutOfRange M"),
    ("too few", "p sp 2 2\na 1 2 5", "line 3: 7 TooFew"),
    ("too few", "p sp 1 1\n", "line 2: 7 TooFew"),
    ("too many", "p sp 2 1\na 1 2 5\na 1 2 5\n", "line 3: 6 TooMany"),
    # it takes no memory: no arc comes
    ("announced but absent", "p sp 268435454 1073741824\n", "line 2: 7 TooFew"),
    ("carriage returns", "p sp 1 0\r\r\n", "line 1: 2 BadLine"),
    ("carriage returns", "p sp 1 0\r \n", "line 1: 2 BadLine"),
    ("carriage returns", "p sp 1\r0\n", "line 1: 2 BadLine"),
    ("carriage returns", "\rp sp 1 0\n", "line 1: 2 BadLine"),
    ("carriage returns", "p sp 1 0\n\r\r\n", "line 2: 2 BadLine"),
    ("other bytes", "p sp 1\0" "0\n", "line 1: 2 BadLine"),
    ("other bytes", "p sp 1\v0\n", "line 1: 2 BadLine"),
    ("other bytes", "p sp 1\xa00\n", "line 1: 2 BadLine"),
    ("other bytes", "p sp 1 0\n\0\n", "line 2: 2 BadLine"),
    ("other bytes", "p sp 1 0\n\v\n", "line 2: 2 BadLine"),
    ("other bytes", "p sp 1 0\n\xff\n", "line 2: 2 BadLine"),
    ("other bytes", "p sp 1 0\ncc\n", "line 2: 2 BadLine"),
]

# name, graph that is taken
TAKEN_GRAPHS = [
    ("ranges", "p sp 2 1\na 1 2 4294967295\n"),
    ("lines without a field", "\np sp 1 0\r\n  \n"),
    ("lines without a field", "\r\np sp 1 0\n\t \r\n"),
    ("lines without a field", " \tp  sp\t1 0 \t\n"),
    ("carriage returns", "p sp 1 0\r"),
    ("carriage returns", "p sp 1 0 \r\n"),
    ("other bytes", "p sp 1 0\nc \0\v\xff\n"),
]

# sources in a graph of one vertex, and their fault
REFUSED_SOURCES = [
    ("p aux sp ss 1\ns 2\n", "source 2: no such vertex"),
    ("p aux sp ss 4\ns 1\ns 9\ns 7\ns 4\n", "source 9: no such vertex"),
    ("", "ss: line 1: 3 NoProblem"),
    ("s 1\n", "ss: line 1: 3 NoProblem"),
    ("p sp ss 0\n", "ss: line 1: 2 BadLine"),
    ("p aux sp ss 1\ns 01\n", "ss: line 2: 2 BadLine"),
    ("p aux sp ss 0\np aux sp ss 0\n", "ss: line 2: 4 SecondProblem"),
    ("p aux sp ss 1048577\n", "ss: line 1: 5 OutOfRange K"),
    ("p aux sp ss 1\ns 0\n", "ss: line 2: 5 OutOfRange V"),
    ("p aux sp ss 1\n", "ss: line 2: 7 TooFew"),
    ("p aux sp ss 1048576\n", "ss: line 2: 7 TooFew"),
    ("p aux sp ss 0\ns 1\n", "ss: line 2: 6 TooMany"),
    ("p aux sp ss 1\ns 1\ns 2\n", "ss: line 3: 6 TooMany"),
]

OPTIONS = [
    "g.gr g.ss --delta=3",
    "--workers=2 --delta 3 g.gr g.ss",
    "- g.ss --delta 3",
    "g.gr g.ss --delta 3 --far-ok",
    "g.gr g.ss --delta 17592186044414 --pred-bits 20",
    "g.gr g.ss --delta 1099511627774 --pred-bits 24",
    "g.gr g.ss --delta 68719476734 --pred-bits 28",
    "g.gr g.ss --delta 4294967294 --pred-bits 32",
    "g.gr g.ss --delta mean",
    "g.gr g.ss --delta=mean --pred-bits 32 --workers 2",
    "g.gr g.ss --delta 3 --workers all",
    "g.gr g.ss --delta 3 --workers=+64",
]

# In the graph of the diamond vertex 4 ends its walks; three sources stand in the file.
CHOSEN = {"g.gr": DIAMOND, "g.ss": "p aux sp ss 3\ns 4\nc\ns 1\ns 4\n", "none.ss": FROM_NONE}
LAST = "p spt 4 4\nv 4 0 0\ne 1\n"
SOURCES_BY_HAND_AND_BY_PLACE = [
    ("g.gr --source 1", DIAMOND_TREE),
    ("--source 4 g.gr --source=1", LAST + DIAMOND_TREE),
    ("g.gr g.ss --sources 2-2", DIAMOND_TREE),
    ("g.gr g.ss --sources 1-2", LAST + DIAMOND_TREE),
    ("g.gr g.ss --sources 3-9", LAST),
    ("g.gr g.ss --sources 3-4294967295", LAST),
    ("g.gr g.ss --sources 4-9", ""),
    ("g.gr none.ss --sources 1-1", ""),
]

FAULTY = {
    "g.gr": DIAMOND,
    "bad.gr": "a 1 2 3\n",
    "g.ss": "p aux sp ss 3\ns 4\ns 1\ns 5\n",
    "bad.ss": "p aux sp ss 3\ns 4\ns 1\n",
}
REFUSED_CHOICES = [
    ("g.gr --source 4 --source 5", 2, "source 5: no such vertex"),
    ("g.gr --source 268435455", 2, "source 268435455: no such vertex"),
    ("no.gr --source 1", 6, "gr: cannot open"),
    ("bad.gr --source 1", 2, "gr: line 1: 3 NoProblem"),
    ("g.gr g.ss --sources 2-3", 2, "source 5: no such vertex"),
    ("g.gr bad.ss --sources 1-1", 2, "ss: line 4: 7 TooFew"),
    ("bad.gr bad.ss --sources 1-1", 2, "gr: line 1: 3 NoProblem"),
    ("no.gr no.ss --sources 1-1", 6, "gr: cannot open"),
    ("g.gr no.ss --sources 1-1", 6, "ss: cannot open"),
    ("- - --sources 1-1", 1, "standard input twice"),
    ("no.gr no.ss --sources 0-1", 1, "sources are not A-B"),
    ("no.gr no.ss --sources 1", 1, "sources are not A-B"),
    ("no.gr no.ss --sources 1-", 1, "sources are not A-B"),
    ("no.gr no.ss --sources 1-2-3", 1, "sources are not A-B"),
    ("g.gr g.ss --sources 3-2", 1, "sources are not A-B"),
    ("g.gr g.ss --sources 4294967295-1", 1, "sources are not A-B"),
    ("g.gr g.ss --sources 2-0", 1, "sources are not A-B"),
]

# The part of a tree within a distance: the limit and other words, graph, sources, trees. No vertex is too far.
NEAR = "p spt 4 1\nv 1 0 0\nv 2 3 1\nv 3 3 1\ne 3\n"
WITHIN = [
    ("--within 0", DIAMOND, FROM_1, "p spt 4 1\nv 1 0 0\ne 1\n"),
    ("--within 2", DIAMOND, FROM_1, "p spt 4 1\nv 1 0 0\ne 1\n"),
    ("--within 3", DIAMOND, FROM_1, NEAR),
    ("--within=4 --far-ok", DIAMOND, FROM_1, NEAR),
    ("--within 5", DIAMOND, FROM_1, DIAMOND_TREE),
    ("--within +6", DIAMOND, FROM_1, DIAMOND_TREE),
    ("--within 17592186044414 --pred-bits 20", DIAMOND, FROM_1, DIAMOND_TREE),
    ("--within 4294967294 --pred-bits 32", DIAMOND, FROM_1, DIAMOND_TREE),
    ("--within 3", DIAMOND, "p aux sp ss 3\ns 4\ns 1\ns 1\n", "p spt 4 4\nv 4 0 0\ne 1\n" + NEAR + NEAR),
    ("--within 3 --sources 2-2", DIAMOND, "p aux sp ss 3\ns 4\ns 1\ns 4\n", NEAR),
    ("--within 3", DIAMOND, FROM_NONE, ""),
    # a vertex beyond the limit is relaxed from within it alone
    ("--within 5", "p sp 4 4\na 1 2 5\na 1 3 6\na 3 4 1\na 2 4 9\n", FROM_1, "p spt 4 1\nv 1 0 0\nv 2 5 1\ne 2\n"),
    ("--within 68719476734", path(17, f"{LONGEST}\n"), FROM_1, path_tree("e 17\n")),
    ("--within 68719476734", FAR, "p aux sp ss 2\ns 1\ns 17\n", path_tree("e 17\n") + "p spt 18 17\nv 17 0 0\nv 18 15 17\ne 2\n"),
    ("--within 4294967295", FAR, FROM_1, f"p spt 18 1\nv 1 0 0\nv 2 {LONGEST} 1\ne 2\n"),
    ("--within 4294967294", FAR, FROM_1, "p spt 18 1\nv 1 0 0\ne 1\n"),
]
FAULTS_WITHIN = [
    ("g.gr --source 4 --source 5", 2, "source 5: no such vertex"),
    ("no.gr g.ss", 6, "gr: cannot open"),
    ("g.gr bad.ss", 2, "ss: line 4: 7 TooFew"),
    ("g.gr g.ss --sources 0-1", 1, "sources are not A-B"),
]

# no file is opened: there is none
LIMIT_OUT_OF_RANGE = [
    "tree no no --delta 3 --within 1099511627775 --pred-bits 24",
    "tree no no --delta mean --within 68719476735",
    "tree no no --delta 68719476734 --within 17592186044414",
    "tree no no --delta 3 --within 4294967295 --pred-bits 32",
    "tree no --source 1 --delta 3 --within 4294967295 --pred-bits 32",
    "tree - - --delta 3 --within 68719476735",
    "tree no no --sources 2-1 --delta 3 --within 68719476735",
]
DELTA_OUT_OF_RANGE = [
    "tree no no --delta 1099511627775 --pred-bits 24",
    "tree no no --delta 17592186044414 --pred-bits 24",
    "tree no no --delta 68719476735 --pred-bits 28",
    "tree no no --delta 17592186044414 --pred-bits 28",
    "tree no no --delta 4294967295 --pred-bits 32",
    "tree no no --delta 17592186044414 --pred-bits 32",
    "pairs no no --delta 68719476735",
    "tree no no --delta 68719476735 --within 68719476735",
]


def ended_after(k):
    """The fault of the first k bytes of the diamond's text: nothing; a part of the problem line; or the whole of it and a part of the
    five lines of eight bytes each."""
    if k == 0:
        return "line 1: 3 NoProblem"
    if k < 8:
        return "line 1: 2 BadLine"
    line, place = divmod(max(0, k - 9), 8)
    if place == 0:
        return f"line {line + 2}: 7 TooFew"
    if place == 7:
        return f"line {line + 3}: 7 TooFew"
    return f"line {line + 2}: 2 BadLine"


def greatest():
    """The greatest vertices of a layout, and the numbers behind them."""
    for bits, (_, most) in GREATEST.items():
        words = f"--pred-bits {bits} --delta 1"
        for n, fault in ((most, "line 2: 2 BadLine"), (most + 1, "line 1: 5 OutOfRange N")):
            yield Case("greatest vertices", f"tree g.gr g.ss {words}", {"g.gr": f"p sp {n} 0\nq", "g.ss": ""}, 2, f"gr: {fault}")
        for source, fault in ((most, f"source {most}: no such vertex"), (most + 1, "ss: line 2: 5 OutOfRange V")):
            files = {"g.gr": ALONE, "g.ss": f"p aux sp ss 1\ns {source}\n"}
            yield Case("greatest sources", f"tree g.gr g.ss {words}", files, 2, fault)


def cases():
    made = [
        Case(name, f"tree g.gr g.ss --pred-bits {bits}", {"g.gr": gr, "g.ss": ss}, status, text)
        for name, bits, gr, ss, status, text in TREES
    ]
    made += [Case(name, "tree g.gr g.ss", {"g.gr": gr, "g.ss": ""}, 2, f"gr: {fault}") for name, gr, fault in REFUSED_GRAPHS]
    made += [Case("refused sources", "tree g.gr g.ss", {"g.gr": ALONE, "g.ss": ss}, 2, fault) for ss, fault in REFUSED_SOURCES]
    made += [Case("sources by hand and by place", f"tree {line}", CHOSEN, 0, text) for line, text in SOURCES_BY_HAND_AND_BY_PLACE]
    made += [Case("within a distance", f"tree g.gr g.ss {line}", {"g.gr": gr, "g.ss": ss}, 0, text) for line, gr, ss, text in WITHIN]
    made.append(Case("within a distance", "tree g.gr --source 1 --within 3", {"g.gr": DIAMOND}, 0, NEAR))
    made = by_teams(made)
    made += [Case(name, "tree g.gr g.ss --delta 1", {"g.gr": gr, "g.ss": FROM_NONE}, 0, "") for name, gr in TAKEN_GRAPHS]
    made += [
        Case("ended after each byte", "tree g.gr g.ss --delta 1", {"g.gr": DIAMOND[:k], "g.ss": FROM_NONE}, 2, f"gr: {ended_after(k)}")
        for k in range(48)
    ]
    made += [
        Case("ended after each byte", "tree g.gr g.ss --delta 1", {"g.gr": DIAMOND[:k], "g.ss": FROM_1}, 0, DIAMOND_TREE) for k in (48, 49)
    ]
    made += [
        Case("options", f"tree {line}", {"g.gr": DIAMOND, "-": DIAMOND, "g.ss": FROM_1}, 0, DIAMOND_TREE) for line in OPTIONS
    ]
    made += [Case("refused choices", f"tree --delta 1 {line}", FAULTY, status, fault) for line, status, fault in REFUSED_CHOICES]
    made += [Case("delta out of range", line, {}, 1, "delta out of range") for line in DELTA_OUT_OF_RANGE]
    made += [Case("faults within a distance", f"tree --delta 1 --within 3 {line}", FAULTY, status, fault) for line, status, fault in FAULTS_WITHIN]
    made += [Case("limit out of range", line, {}, 1, "limit out of range") for line in LIMIT_OUT_OF_RANGE]
    made += greatest()
    far = {"g.gr": FAR, "g.ss": FROM_1}
    made += [
        Case("far vertices that are fine", "tree g.gr g.ss --delta 1", far, 4, "x 1 18\n"),
        Case("far vertices that are fine", "tree g.gr g.ss --delta 1 --far-ok", far, 0, "x 1 18\n"),
        Case(
            "graph of another layout",
            "tree g.gr g.ss --delta 1 --pred-bits 20",
            {"g.gr": "p sp 1048575 0\n", "g.ss": FROM_1},
            2,
            "gr: line 1: 5 OutOfRange N",
        ),
    ]
    return made
