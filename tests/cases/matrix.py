"""`spt matrix`."""

from .shared import ALONE, DIAMOND, GREATEST, Case, by_teams, path


def listed(*vertices):
    return f"p aux sp ss {len(vertices)}\n" + "".join(f"s {vertex}\n" for vertex in vertices)


FAR = path(17, "15\n")

# name, bits of the predecessor, graph, sources, targets, status, lines
ANSWERS = [
    (
        "sources 1 and 4, targets 4, 1, 4",
        "28",
        DIAMOND,
        listed(1, 4),
        listed(4, 1, 4),
        0,
        "d 1 4 5 2\nd 1 1 0 0\nd 1 4 5 2\nd 4 4 0 0\nn 4 1\nd 4 4 0 0\n",
    ),
    ("the order of both files", "28", DIAMOND, listed(3, 1), listed(2, 4), 0, "n 3 2\nd 3 4 2 3\nd 1 2 3 1\nd 1 4 5 2\n"),
    ("a source twice", "28", DIAMOND, listed(1, 1), listed(3), 0, "d 1 3 3 1\nd 1 3 3 1\n"),
    ("beyond the limit", "28", FAR, listed(1, 18), listed(17, 18, 1), 4, "d 1 17 68719476720 16\nx 1 18\nd 1 1 0 0\nn 18 17\nd 18 18 0 0\nn 18 1\n"),
    ("within another layout", "24", FAR, listed(1), listed(18), 0, "d 1 18 68719476735 17\n"),
    ("a far vertex that is no target", "28", FAR, listed(1), listed(17), 0, "d 1 17 68719476720 16\n"),
    ("alone", "28", ALONE, listed(1), listed(1), 0, "d 1 1 0 0\n"),
    ("no sources", "28", DIAMOND, listed(), listed(1), 0, ""),
    ("no targets", "28", DIAMOND, listed(1), listed(), 0, ""),
]

# sources, targets, and their fault in the graph of the diamond
REFUSED = [
    (listed(9), listed(8), "source 9: no such vertex"),
    (listed(1), listed(4, 8, 9), "source 8: no such vertex"),
    (listed(1, 5), listed(6), "source 5: no such vertex"),
    ("p aux sp ss 1\n", "", "ss: line 2: 7 TooFew"),
    (listed(1), "", "targets: line 1: 3 NoProblem"),
    (listed(9), "p aux sp ss 1\n", "targets: line 2: 7 TooFew"),
    (listed(1), "p aux sp ss 0\ns 1\n", "targets: line 2: 6 TooMany"),
    (listed(1), "p aux sp ss 1\ns 0\n", "targets: line 2: 5 OutOfRange V"),
    (listed(1), "p aux sp ss 1048577\n", "targets: line 1: 5 OutOfRange K"),
    (listed(1), "p aux sp ss 0\np aux sp ss 0\n", "targets: line 2: 4 SecondProblem"),
    (listed(1), "p pairs 0\n", "targets: line 1: 2 BadLine"),
]

FILES = {"g.gr": DIAMOND, "some.ss": listed(4, 1, 4), "all.ss": listed(4, 1)}
OF_1 = "d 1 4 5 2\nd 1 1 0 0\n"
OF_4 = "d 4 4 0 0\nn 4 1\n"

# line, text
CHOSEN = [
    ("g.gr all.ss all.ss", OF_4 + OF_1),
    ("g.gr some.ss all.ss --sources 2-3", OF_1 + OF_4),
    ("g.gr some.ss all.ss --sources 4-9", ""),
    ("g.gr all.ss --source 1", OF_1),
    ("--source 4 g.gr all.ss --source=1", OF_4 + OF_1),
    ("g.gr some.ss --target 4", "d 4 4 0 0\nd 1 4 5 2\nd 4 4 0 0\n"),
    ("g.gr all.ss --target 1 --target 4 --target 1", "n 4 1\nd 4 4 0 0\nn 4 1\nd 1 1 0 0\nd 1 4 5 2\nd 1 1 0 0\n"),
    ("--target=4 g.gr some.ss --sources 2-3", "d 1 4 5 2\nd 4 4 0 0\n"),
    ("g.gr some.ss --sources 4-9 --target 1", ""),
    ("g.gr --source 1 --target 4", "d 1 4 5 2\n"),
    ("g.gr --target 1 --source 4 --target 4 --source 1", "n 4 1\nd 4 4 0 0\nd 1 1 0 0\nd 1 4 5 2\n"),
    ("--source 4 --target 1 g.gr --workers 2", "n 4 1\n"),
    ("g.gr some.ss all.ss --delta mean", OF_4 + OF_1 + OF_4),
    ("g.gr some.ss all.ss --delta 3 --workers all", OF_4 + OF_1 + OF_4),
    ("g.gr some.ss all.ss --pred-bits 32 --far-ok", OF_4 + OF_1 + OF_4),
]

# line, text of standard input, text
PIPED = [
    ("- some.ss all.ss", DIAMOND, OF_4 + OF_1 + OF_4),
    ("g.gr - all.ss", listed(1), OF_1),
    ("g.gr all.ss -", listed(4, 1), OF_4 + OF_1),
    ("g.gr - --source 1", listed(4, 1), OF_1),
    ("g.gr - --target 4 --target 1", listed(1), OF_1),
    ("- all.ss --target 4 --target 1", DIAMOND, OF_4 + OF_1),
    ("- --source 1 --target 4 --target 1", DIAMOND, OF_1),
]

# line, status, fault
FAULTS = [
    ("- - all.ss", 1, "standard input twice"),
    ("- all.ss -", 1, "standard input twice"),
    ("g.gr - -", 1, "standard input twice"),
    ("- - --source 1", 1, "standard input twice"),
    ("- - --target 1", 1, "standard input twice"),
    ("no.gr no.ss no.ss", 6, "gr: cannot open"),
    ("g.gr no.ss no.targets", 6, "ss: cannot open"),
    ("g.gr all.ss no.targets", 6, "targets: cannot open"),
    ("g.gr no.targets --source 1", 6, "targets: cannot open"),
    ("g.gr no.ss --target 1", 6, "ss: cannot open"),
    ("no.gr --source 1 --target 1", 6, "gr: cannot open"),
    ("g.gr all.ss all.ss --sources 2-1", 1, "sources are not A-B"),
    ("g.gr all.ss all.ss --delta 68719476735", 1, "delta out of range"),
    ("g.gr all.ss --source 5", 2, "source 5: no such vertex"),
    ("g.gr all.ss --target 1 --target 5 --target 6", 2, "source 5: no such vertex"),
    ("g.gr --source 1 --source 7 --target 5", 2, "source 7: no such vertex"),
    ("g.gr --source 1 --target 4294967294 --pred-bits 20", 2, "source 4294967294: no such vertex"),
    ("g.gr all.ss --target 1 --sources 0-1", 1, "sources are not A-B"),
]


def greatest():
    """The greatest target of a layout, and the number behind it."""
    for bits, (_, most) in GREATEST.items():
        for target, fault in ((most, f"source {most}: no such vertex"), (most + 1, "targets: line 2: 5 OutOfRange V")):
            files = {"g.gr": ALONE, "g.ss": listed(1), "t.ss": listed(target)}
            yield Case("greatest targets", f"matrix g.gr g.ss t.ss --pred-bits {bits}", files, 2, fault)


def cases():
    made = [
        Case(name, f"matrix g.gr g.ss t.ss --pred-bits {bits}", {"g.gr": gr, "g.ss": sources, "t.ss": targets}, status, text)
        for name, bits, gr, sources, targets, status, text in ANSWERS
    ]
    made += [
        Case("refused lists", "matrix g.gr g.ss t.ss", {"g.gr": DIAMOND, "g.ss": sources, "t.ss": targets}, 2, fault)
        for sources, targets, fault in REFUSED
    ]
    made = by_teams(made)
    made += [Case("chosen lists", f"matrix {line}", FILES, 0, text) for line, text in CHOSEN]
    made += [Case("standard input", f"matrix {line}", {**FILES, "-": given}, 0, text) for line, given, text in PIPED]
    made += [Case("faults of the line", f"matrix {line}", FILES, status, fault) for line, status, fault in FAULTS]
    far = {"g.gr": FAR, "g.ss": listed(1), "t.ss": listed(18)}
    made.append(Case("far vertices that are fine", "matrix g.gr g.ss t.ss --far-ok", far, 0, "x 1 18\n"))
    return [*made, *greatest()]
