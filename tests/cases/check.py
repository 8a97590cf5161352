"""`spt check`, of one tree or forest and of all trees of a file."""

from .shared import ALONE, ALONE_TREE, DIAMOND, DIAMOND_TREE, GREATEST, LONGEST, Case, in_layouts, path, path_tree

FAR, NEAR = path(17, "15\n"), path_tree("e 17\n")
TWICE = "p sp 2 2\na 1 2 5\na 1 2 3\n"
LONG_ARC, LONG_TREE = "p sp 2 1\na 1 2 4294967295\n", "p spt 2 1\nv 1 0 0\nv 2 4294967295 1\ne 2\n"


def to_2(distance):
    return f"p spt 2 1\nv 1 0 0\nv 2 {distance} 1\ne 2\n"


def diamond(row):
    return f"p spt 4 1\nv 1 0 0\nv 2 3 1\nv 3 3 1\n{row}\ne 4\n"


# name, graph, tree, status, verdict, in each layout
IN_EACH_LAYOUT = [
    ("check", DIAMOND, DIAMOND_TREE, 0, "yes\n"),
    ("check", DIAMOND, diamond("v 4 5 3"), 3, "no 4 3\n"),
    ("check", DIAMOND, diamond("v 4 4 2"), 3, "no 4 4\n"),
    ("check", ALONE, ALONE_TREE, 0, "yes\n"),
    ("check", ALONE, "p spt 1 1\ne 0\n", 3, "no 1 2\n"),
    ("check", ALONE, DIAMOND_TREE, 3, "no 0 1\n"),
    ("check", ALONE, "p spt 2 1\ne 0\n", 3, "no 0 1\n"),
    ("parallel arcs", TWICE, to_2(5), 3, "no 2 3\n"),
    ("parallel arcs", TWICE, to_2(4), 3, "no 2 3\n"),
    ("parallel arcs", TWICE, to_2(3), 0, "yes\n"),
]

# name, bits of the predecessor, graph, tree, status, verdict
VERDICTS = [
    ("beyond the limit", "28", FAR, NEAR, 3, "no 18 5\n"),
    # words with fewer bits of predecessor hold that distance
    ("beyond the limit", "24", FAR, NEAR, 3, "no 18 3\n"),
    ("beyond the limit", "20", FAR, NEAR, 3, "no 18 3\n"),
    ("layouts", "28", LONG_ARC, LONG_TREE, 0, "yes\n"),
]

# The part of the diamond's tree up to 3, and forests of the diamond.
PART = "p spt 4 1\nv 1 0 0\nv 2 3 1\nv 3 3 1\ne 3\n"


def forest(fourth="v 4 2 3 3", third="v 3 0 0 3", second="v 2 3 1 1", first="p near 4 2"):
    return f"{first}\nv 1 0 0 1\n{second}\n{third}\n{fourth}\ne 4\n"


# The forest of the long path from its first vertex, without the last.
FAR_FOREST = "p near 18 1\nv 1 0 0 1\n" + "".join(f"v {v} {(v - 1) * LONGEST} {v - 1} 1\n" for v in range(2, 18)) + "e 17\n"

# words, graph, tree or forest, status, verdict, in each layout
WITHIN = [
    ("--within 3", DIAMOND, PART, 0, "yes\n"),
    ("", DIAMOND, PART, 3, "no 4 3\n"),
    ("--within 2", DIAMOND, PART, 3, "no 2 6\n"),
    ("--within 4", DIAMOND, PART, 0, "yes\n"),
    ("--within 5", DIAMOND, PART, 3, "no 4 3\n"),
    ("--within 5", DIAMOND, DIAMOND_TREE, 0, "yes\n"),
    ("--within 4", DIAMOND, DIAMOND_TREE, 3, "no 4 6\n"),
    ("--within 0", DIAMOND, "p spt 4 1\nv 1 0 0\ne 1\n", 0, "yes\n"),
    ("--within 0", DIAMOND, "p spt 4 1\ne 0\n", 3, "no 1 2\n"),
    ("--within 3", DIAMOND, "p spt 3 1\nv 1 0 0\ne 1\n", 3, "no 0 1\n"),
    ("--within 3 --all", DIAMOND, PART + DIAMOND_TREE + "p spt 4 4\nv 4 0 0\ne 1\n", 3, "yes\nno 1 4 6\nyes\n"),
    ("", DIAMOND, forest(), 0, "yes\n"),
    ("", DIAMOND, forest("v 4 2 3 1"), 3, "no 4 7\n"),
    ("", DIAMOND, forest(first="p near 4 3"), 3, "no 0 1\n"),
    ("", DIAMOND, forest(first="p near 5 2"), 3, "no 0 1\n"),
    ("", DIAMOND, forest(third="v 3 0 0 1"), 3, "no 3 2\n"),
    ("", DIAMOND, forest(third="v 3 1 0 3"), 3, "no 3 2\n"),
    ("", DIAMOND, forest(second="v 2 2 1 1"), 3, "no 2 4\n"),
    ("", DIAMOND, forest(second="v 2 4 1 1"), 3, "no 2 3\n"),
    ("", DIAMOND, "p near 4 2\nv 2 0 0 2\nv 3 0 0 3\nv 4 2 2 2\ne 3\n", 0, "yes\n"),
    ("", DIAMOND, "p near 4 2\nv 2 0 0 2\nv 3 0 0 3\nv 4 2 3 3\ne 3\n", 3, "no 4 3\n"),
    ("", DIAMOND, "p near 4 0\ne 0\n", 0, "yes\n"),
    ("", "p sp 2 1\na 1 2 1\n", "p near 2 2\nv 1 0 0 1\nv 2 0 0 2\ne 2\n", 0, "yes\n"),
    ("--within 3", DIAMOND, forest(), 0, "yes\n"),
    ("--within 2", DIAMOND, forest(), 3, "no 2 6\n"),
    ("--within 2", DIAMOND, "p near 4 2\nv 1 0 0 1\nv 3 0 0 3\nv 4 2 3 3\ne 3\n", 0, "yes\n"),
    ("", DIAMOND, "p near 4 2\nv 1 0 0 1\nv 3 0 0 3\nv 4 2 3 3\ne 3\n", 3, "no 2 3\n"),
]

# A vertex that is too far plays no part with a limit.
FAR_WITHIN = [
    ("--within 68719476734", path_tree("e 17\n"), 0, "yes\n"),
    ("", FAR_FOREST, 3, "no 18 5\n"),
    ("--within 68719476734", FAR_FOREST, 0, "yes\n"),
]

# no file is opened: there is none
LIMIT_OUT_OF_RANGE = [
    "check no no --within 68719476735",
    "check no no --within 4294967295 --pred-bits 32",
    "check no no --all --within 1099511627775 --pred-bits 24",
    "check - - --within 17592186044414",
]

# forest that is refused, fault
REFUSED_FORESTS = [
    ("p near 1 1", "line 1: 7 TooFew"),
    ("p near 1\n", "line 1: 2 BadLine"),
    ("p nearer 1 1\n", "line 1: 2 BadLine"),
    ("p near 0 0\n", "line 1: 5 OutOfRange N"),
    ("p near 1 2\n", "line 1: 5 OutOfRange K"),
    ("p near 2 1\np near 2 1\n", "line 2: 4 SecondProblem"),
    ("p near 2 1\np spt 2 1\n", "line 2: 2 BadLine"),
    ("p near 2 1\nv 1 0 0\n", "line 2: 2 BadLine"),
    ("p near 2 1\nx 2\n", "line 2: 2 BadLine"),
    ("p near 2 1\nv 3 0 0 1\n", "line 2: 5 OutOfRange V"),
    ("p near 2 1\nv 2 0 0 2\nv 2 0 0 2\n", "line 3: 5 OutOfRange V"),
    ("p near 2 1\nv 1 68719476735 3 3\n", "line 2: 5 OutOfRange D"),
    ("p near 2 1\nv 1 0 3 3\n", "line 2: 5 OutOfRange P"),
    ("p near 2 1\nv 1 0 0 0\n", "line 2: 5 OutOfRange S"),
    ("p near 2 1\nv 1 0 0 3\n", "line 2: 5 OutOfRange S"),
    ("p near 2 1\nv 1 0 0 1\ne 2\n", "line 3: 5 OutOfRange R"),
    ("p near 2 1\nv 1 0 0 1\ne 1\nx", "line 4: 6 TooMany"),
    ("p near 2 1\nv 1 0 0 1\ne 1", "line 3: 7 TooFew"),
]

# name, tree that is refused, fault
REFUSED = [
    ("ends", ALONE_TREE + "x", "line 4: 6 TooMany"),
    ("ends", ALONE_TREE + "\n", "line 4: 6 TooMany"),
    ("ends", "p spt 1 1\nv 1 0 0\ne 1", "line 3: 7 TooFew"),
    ("ends", "p spt 1 1\nv 1 0 0\ne 2\n", "line 3: 5 OutOfRange R"),
    ("ends", "x 1 18\n", "line 1: 2 BadLine"),
    ("order of lines", "", "line 1: 3 NoProblem"),
    ("order of lines", "v 1 0 0\n", "line 1: 3 NoProblem"),
    ("order of lines", "e 0\n", "line 1: 3 NoProblem"),
    ("order of lines", "p", "line 1: 7 TooFew"),
    ("order of lines", "p spt 1 1\n", "line 2: 7 TooFew"),
    ("order of lines", "p spt 1 1\nv 0", "line 2: 7 TooFew"),
    ("order of lines", "p spt 2 1\nv 1 0 0\np spt 2 1\n", "line 3: 4 SecondProblem"),
    ("order of lines", "p spt 2 1\nv 2 3 1\nv 1 0 0\n", "line 3: 5 OutOfRange V"),
    ("order of lines", "p spt 2 1\nv 1 0 0\nv 1 0 0\n", "line 3: 5 OutOfRange V"),
    ("ranges", "p spt 0 0\n", "line 1: 5 OutOfRange N"),
    ("ranges", "p spt 2 3\n", "line 1: 5 OutOfRange S"),
    ("ranges", "p spt 2 0\n", "line 1: 5 OutOfRange S"),
    ("ranges", "p spt 2 1\nv 0 0 0\n", "line 2: 5 OutOfRange V"),
    ("ranges", "p spt 2 1\nv 3 0 0\n", "line 2: 5 OutOfRange V"),
    # the leftmost field is told
    ("ranges", "p spt 2 1\nv 3 68719476735 3\n", "line 2: 5 OutOfRange V"),
    ("ranges", "p spt 2 1\nv 1 68719476735 3\n", "line 2: 5 OutOfRange D"),
    ("ranges", "p spt 2 1\nv 1 0 3\n", "line 2: 5 OutOfRange P"),
    # as long as a number may be
    ("ranges", "p spt 2 1\nv 1 18446744073709551616 0\n", "line 2: 5 OutOfRange D"),
    ("ranges", "p spt 2 1\nv 1 0 99999999999999999999999999999\n", "line 2: 5 OutOfRange P"),
    ("ranges", "p spt 2 1\ne 18446744073709551615\n", "line 2: 5 OutOfRange R"),
]

# a second line that is none of a tree
SPELLINGS = [
    "v  1 0 0",
    "v 1 0 0 ",
    " v 1 0 0",
    "v 1 0 0\r",
    "v\t1 0 0",
    "v 01 0 0",
    "v 1 0 00",
    "v 1 +0 0",
    "v 1 0",
    "v 1 0 0 0",
    "V 1 0 0",
    "c remark",
    "",
    "x 1 1",
    "e",
    "p sp 1 1",
]

# The trees of the diamond from each vertex, one block behind the other.
BLOCKS = (
    "p spt 4 1\nv 1 0 0\nv 2 3 1\nv 3 3 1\nv 4 5 2\ne 4\n"
    "p spt 4 2\nv 2 0 0\nv 4 2 2\ne 2\n"
    "p spt 4 3\nv 3 0 0\nv 4 2 3\ne 2\n"
    "p spt 4 4\nv 4 0 0\ne 1\n"
)

# name, blocks, status, verdicts
VERDICTS_OF_BLOCKS = [
    ("one block", DIAMOND_TREE, 0, "yes\n"),
    ("four blocks", BLOCKS, 0, "yes\nyes\nyes\nyes\n"),
    (
        "no in the middle",
        "p spt 4 2\nv 2 0 0\nv 4 2 2\ne 2\np spt 4 2\nv 2 0 0\nv 4 3 2\ne 2\np spt 3 2\nv 2 0 0\ne 1\np spt 4 2\nv 2 0 0\nv 4 2 2\ne 2\n",
        3,
        "yes\nno 2 4 3\nno 2 0 1\nyes\n",
    ),
    ("no at the end", "p spt 4 4\nv 4 0 0\ne 1\np spt 4 1\ne 0\n", 3, "yes\nno 1 1 2\n"),
]

# what stands behind the four blocks, and its fault
REFUSED_BLOCKS = [
    ("p spt 4 1\nv 5 0 0\n", "line 19: 5 OutOfRange V"),
    ("p spt 4 1\nv 1 0 0\ne 2\n", "line 20: 5 OutOfRange R"),
    ("p spt 4 1\nv 1 0 0\ne 1", "line 20: 7 TooFew"),
    ("p spt 4 1\n", "line 19: 7 TooFew"),
    ("p spt 4 1\np spt 4 1\n", "line 19: 4 SecondProblem"),
    ("v 1 0 0\n", "line 18: 3 NoProblem"),
    ("e 0\n", "line 18: 3 NoProblem"),
    ("x 1 18\n", "line 18: 2 BadLine"),
    ("c\n", "line 18: 2 BadLine"),
    ("\n", "line 18: 2 BadLine"),
    ("p", "line 18: 7 TooFew"),
]


def star():
    """A star of 5,000 arcs, where the distances of vertices 40 and 4,000 are greater than their arcs, and its tree."""
    heads = range(2, 5002)
    graph = "p sp 5001 5000\n" + "".join(f"a 1 {head} {head}\n" for head in heads)
    rows = "".join(f"v {head} {head + (head in (40, 4000))} 1\n" for head in heads)
    return {"g.gr": graph, "g.tree": f"p spt 5001 1\nv 1 0 0\n{rows}e 5001\n"}


def greatest():
    """The greatest numbers of a layout, and those behind them; the graph has one vertex, and the tree more."""
    for bits, (far, most) in GREATEST.items():
        line = f"check g.gr g.tree --pred-bits {bits}"
        for tree, fault in (
            (f"p spt {most} {most}\ne 0\n", None),
            (f"p spt {most + 1} 1\ne 0\n", "tree: line 1: 5 OutOfRange N"),
            (f"p spt 2 1\nv 2 {far} 2\ne 1\n", None),
            (f"p spt 2 1\nv 2 {far + 1} 2\ne 1\n", "tree: line 2: 5 OutOfRange D"),
        ):
            files = {"g.gr": ALONE, "g.tree": tree}
            yield Case("greatest numbers", line, files, 3, "no 0 1\n") if fault is None else Case("greatest numbers", line, files, 2, fault)


def cases():
    line = "check g.gr g.tree"
    made = in_layouts(Case(name, line, {"g.gr": gr, "g.tree": tree}, status, text) for name, gr, tree, status, text in IN_EACH_LAYOUT)
    made += in_layouts([Case("lowest vertex is told", line, star(), 3, "no 40 3\n")])
    made += [
        Case(name, f"{line} --pred-bits {bits}", {"g.gr": gr, "g.tree": tree}, status, text) for name, bits, gr, tree, status, text in VERDICTS
    ]
    made += [Case(name, line, {"g.gr": ALONE, "g.tree": tree}, 2, f"tree: {fault}") for name, tree, fault in REFUSED]
    made += [
        Case("spellings", line, {"g.gr": ALONE, "g.tree": f"p spt 1 1\n{second}\n"}, 2, "tree: line 2: 2 BadLine") for second in SPELLINGS
    ]
    made += in_layouts(Case("within", f"{line} {words}".strip(), {"g.gr": gr, "g.tree": tree}, status, text) for words, gr, tree, status, text in WITHIN)
    made += [
        Case("within", f"{line} {words}".strip(), {"g.gr": path(17, f"{LONGEST}\n"), "g.tree": tree}, status, text)
        for words, tree, status, text in FAR_WITHIN
    ]
    made += [Case("limit out of range", words, {}, 1, "limit out of range") for words in LIMIT_OUT_OF_RANGE]
    made += [Case("refused forests", line, {"g.gr": DIAMOND, "g.tree": tree}, 2, f"tree: {fault}") for tree, fault in REFUSED_FORESTS]
    # with --all trees alone are read
    made += [Case("refused forests", f"{line} --all", {"g.gr": DIAMOND, "g.tree": forest()}, 2, "tree: line 1: 2 BadLine")]
    made += greatest()
    made += [
        # the graph is read first
        Case("files in order", line, {"g.gr": "", "g.tree": ""}, 2, "gr: line 1: 3 NoProblem"),
        Case("layouts", f"{line} --pred-bits 20", {"g.gr": "p sp 1048575 0\n", "g.tree": ""}, 2, "gr: line 1: 5 OutOfRange N"),
        Case("layouts", f"{line} --pred-bits 32", {"g.gr": LONG_ARC, "g.tree": LONG_TREE}, 2, "tree: line 3: 5 OutOfRange D"),
        # one block alone is taken without the word
        Case("blocks", line, {"g.gr": DIAMOND, "g.tree": BLOCKS}, 2, "tree: line 7: 6 TooMany"),
        Case("blocks", f"{line} --all", {"g.gr": DIAMOND, "g.tree": ""}, 2, "tree: line 1: 3 NoProblem"),
    ]
    made += [Case(name, f"{line} --all", {"g.gr": DIAMOND, "g.tree": tree}, status, text) for name, tree, status, text in VERDICTS_OF_BLOCKS]
    made += [
        Case("refused blocks", "check --all g.gr g.tree", {"g.gr": DIAMOND, "g.tree": BLOCKS + behind}, 2, f"tree: {fault}")
        for behind, fault in REFUSED_BLOCKS
    ]
    return made
