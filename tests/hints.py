#!/usr/bin/env python3
"""Compares the second lines of faults, which say why or what to do, with what they are about.

Usage: python3 tests/hints.py [--program PROGRAM]

Files that aren't there, files in other forms than plain text, from a path and from standard input, and what they are told to be read
by, which is then done where that program is there, whatever their names; graphs with too many vertices for the layout; packed graphs that
are changed, cut, or in the place of another file; numbers that are no vertices, with their lines; the mistakes that lines have most often; words that name no places, no delta and no limit; a reader that is gone.
The last line is 'N passed, M failed'.
"""

import bz2
import gzip
import io
import lzma
import os
import resource
import shutil
import subprocess
import sys
import tempfile
import zipfile

sys.dont_write_bytecode = True
from harness import HOME, SECONDS, put, read_bytes, run, try_all  # noqa: E402

GRAPH, SOURCES, TREE = (f"{HOME}/examples/diamond.{ending}" for ending in ("gr", "ss", "tree"))


def zipped(data):
    made = io.BytesIO()
    with zipfile.ZipFile(made, "w", zipfile.ZIP_DEFLATED) as it:
        it.writestr("diamond.gr", data)
    return made.getvalue()


def zstd(data):
    """One frame of zstd with one block as it is; a small text alone."""
    return bytes.fromhex("28b52ffd20") + bytes([len(data)]) + (len(data) << 3 | 1).to_bytes(3, "little") + data


# what a file is, how it is made of a text, how it is told, and what reads it
FORMS = [
    ("gzip", gzip.compress, "compressed with gzip", "zcat"),
    ("bzip2", bz2.compress, "compressed with bzip2", "bzcat"),
    ("xz", lzma.compress, "compressed with xz", "xzcat"),
    ("zstd", zstd, "compressed with zstd", "zstdcat"),
    ("zip", zipped, "compressed with zip", "funzip"),
    ("a byte order mark", lambda data: b"\xef\xbb\xbf" + data, "begins with a byte order mark", "tail -c +4"),
    ("UTF-16", lambda data: b"\xff\xfe" + data.decode().encode("utf-16-le"), "text in UTF-16", "iconv -f UTF-16 -t UTF-8"),
    ("UTF-16 of the other order", lambda data: b"\xfe\xff" + data.decode().encode("utf-16-be"), "text in UTF-16", "iconv -f UTF-16 -t UTF-8"),
]


# what is told of the lines of each file
GR = "a .gr file has one `p sp N M`, and `a U V W` for each of its M arcs"
SS = "a .ss file has one `p aux sp ss K`, and `s V` for each of its K sources"
PAIRS = "a file of pairs has one `p pairs K`, and `q S T` for each of its K pairs"
BLOCK = "a tree file has one `p spt N S`, `v V D P` for each vertex, and `e R`, separated by one space"
OFFERS = "a file of offers has one `p off N K`, and `o A V D P` for each offer"
RUN = "a replay file has one `p rep N K`, and lines i, o, r, a and s: see spt replay --help"
MOST_OFFERS = "a file of offers has at most 1048576 offers"
MOST_CALLS = "a replay file has at most 1048576 calls and 16777216 steps"
NO_PROBLEM = f"no `p sp N M` line; {GR}"
COMMENT = "comments begin with `c` and a blank"
LENGTHS = "lengths are whole numbers from 1 to 4294967295"
SPELLING = "numbers consist of digits only: no sign, no decimal point, no leading 0"
FROM_ZERO = "vertices are numbered from 1; if yours start at 0, add 1 to each"
ARCS = "M is a number from 0 to 1073741824; with --both-ways, to 536870912"
FARTHEST = "; --pred-bits 20 allows up to 17592186044414"
TOO_FAR = "an x line: a vertex was too far from its source"


def second(told):
    """The second line of a refusal that is told in two lines."""
    lines = told[2].split("\n")
    return lines[1] if told[1] == "" and len(lines) == 3 and lines[2] == "" else None


def forms(count, program, folder):
    for name, made, what, tool in FORMS:
        graph = put(f"{folder}/packed", made(read_bytes(GRAPH)))
        rest = (SOURCES, "--delta", "3")
        told = run(program, "tree", graph, *rest)
        wanted = f"spt: {graph}: {what}; use {tool} {graph} | spt tree - .."
        count.of(f"a graph, {name}: {told}", told[0] == 2 and second(told) == wanted)
        told = run(program, "tree", "-", *rest, given=read_bytes(graph))
        wanted = f"spt: standard input: {what}; use {tool} | spt tree - .."
        count.of(f"a graph on standard input, {name}: {told}", told[0] == 2 and second(told) == wanted)
        if shutil.which(tool.split()[0]):
            plain = subprocess.run([*tool.split(), graph], capture_output=True, timeout=SECONDS).stdout
            told = run(program, "tree", "-", *rest, given=plain)
            count.of(f"what {tool} makes of it: {told}", told == (0, read_bytes(TREE).decode(), ""))
        tree = put(f"{folder}/packed", made(read_bytes(TREE)))
        told = run(program, "check", GRAPH, tree)
        wanted = f"spt: {tree}: {what}; use {tool} {tree} | spt check .. -"
        count.of(f"a tree, {name}: {told}", told[0] == 2 and second(told) == wanted)


def plain(count, program, folder):
    """Of a file that begins otherwise no form is told."""
    for data in (b"", b"\x1f", b"begins otherwise\n"):
        graph = put(f"{folder}/plain", data)
        told = run(program, "tree", graph, SOURCES, "--delta", "3")
        count.of(f"a graph that begins with {data}: {told}", told[0] == 2 and second(told) == f"spt: {graph}: {NO_PROBLEM}")


def reasons(count, program, folder):
    none = f"{folder}/none"
    cases = [
        (("tree", none, SOURCES, "--delta", "3"), f"spt: gr: cannot open\nspt: {none}: No such file or directory (os error 2)\n"),
        (("check", GRAPH, none), f"spt: tree: cannot open\nspt: {none}: No such file or directory (os error 2)\n"),
        (("replay", f"{GRAPH}/none"), f"spt: replay: cannot open\nspt: {GRAPH}/none: Not a directory (os error 20)\n"),
        (("check", GRAPH, folder), f"spt: tree: line 1: 9 Read\nspt: {folder}: Is a directory (os error 21)\n"),
        (
            ("check", GRAPH, TREE, "-o", f"{none}/out"),
            f"spt: output: cannot write\nspt: {none}/out: No such file or directory (os error 2)\n",
        ),
        (("check", GRAPH, TREE, "-o", folder), f"spt: output: cannot write\nspt: {folder}: Is a directory (os error 21)\n"),
        (("check", GRAPH, TREE, "-o", "/dev/full"), "spt: write failed\nspt: /dev/full: No space left on device (os error 28)\n"),
    ]
    for words, lines in cases:
        told = run(program, *words)
        count.of(f"{' '.join(words)}: {told}", told == (6, "", lines))
    for command, number in (("tree", "1"), ("nearest", "4294967294"), ("matrix", "7")):
        words = (command, GRAPH, number) + (("--delta", "mean") if command == "tree" else (SOURCES,) if command == "matrix" else ())
        told = run(program, *words)
        meant = f"spt: {number}: No such file or directory (os error 2); for vertex {number} use --source {number}\n"
        count.of(f"{' '.join(words)}: {told}", told == (6, "", f"spt: ss: cannot open\n{meant}"))


def layouts(count, program, folder):
    cases = [
        (268435455, "28", "32"),
        (1048575, "20", "24"),
        (16777215, "20", "28"),
        (4294967294, "28", "32"),
        (4294967295, "28", None),
        (0, "28", None),
        (10**30, "28", None),
    ]
    for vertices, layout, wanted in cases:
        graph = put(f"{folder}/large.gr", f"c many vertices\np sp {vertices} 0\n".encode())
        told = run(program, "tree", graph, "--source", "1", "--delta", "3", "--pred-bits", layout)
        lines = "spt: gr: line 2: 5 OutOfRange N\n"
        ranged = f"N is a number from 1 to {2 ** int(layout) - 2}\n"
        more = f"{vertices} vertices; use --pred-bits {wanted}\n" if wanted is not None else ranged
        count.of(f"{vertices} vertices: {told}", told == (2, "", f"{lines}spt: {graph}: {more}"))
        told = run(program, "tree", "-", "--source", "1", "--delta", "3", "--pred-bits", layout, given=read_bytes(graph))
        count.of(f"{vertices} vertices on standard input: {told}", told == (2, "", f"{lines}spt: standard input: {ranged}"))
    graph = put(f"{folder}/large.gr", b"c many vertices\n\n p  sp 268435455 0 \n")
    told = run(program, "check", graph, TREE, "--pred-bits", "20")
    wanted = f"spt: gr: line 3: 5 OutOfRange N\nspt: {graph}: 268435455 vertices; use --pred-bits 32\n"
    count.of(f"vertices between blanks: {told}", told == (2, "", wanted))


# the words of the diamond's packed text, and what is told of other ones
PACKED = [0x54505389, 0x011A0A0D, 4, 5, 0, 3, 4, 5, 5, 2, 3, 3, 3, 4, 6, 4, 2, 4, 2, 0x556A5DD1, 0, 0x55CAEA2C, 6]
NONE = "no packed graph of spt; other binary files begin with the same byte, such as a PNG"
OTHER_FORM = "changed by a transfer in text mode, or of a newer form; copy it again in binary mode, or pack it again by spt pack"
CHANGED = "the packed graph was cut or changed; copy it again, or pack it again by spt pack"
RANGE = "N is a number from 1 to 268435454"


def packed_text(changes=()):
    """The diamond's packed text with some words changed, each by its place."""
    return b"".join(dict(changes).get(place, word).to_bytes(4, "little") for place, word in enumerate(PACKED))


# a packed graph: what is wrong, its bytes, its fault, and what is told of that; and what is told where it comes by standard input
PACKED_GRAPHS = [
    ("CR LF as LF", packed_text().replace(b"\r\n", b"\n"), "byte 4: 10 OtherForm", OTHER_FORM, OTHER_FORM),
    ("LF as CR LF", packed_text().replace(b"\n", b"\r\n"), "byte 4: 10 OtherForm", OTHER_FORM, OTHER_FORM),
    ("a newer form", packed_text([(1, 0x021A0A0D)]), "byte 4: 10 OtherForm", OTHER_FORM, OTHER_FORM),
    ("a picture", b"\x89PNG\r\n\x1a\n" + bytes(100), "byte 0: 10 OtherForm", NONE, NONE),
    ("a byte that is no text's", b"\x89", "byte 0: 7 TooFew", CHANGED, CHANGED),
    ("50 bytes", packed_text()[:50], "byte 48: 7 TooFew", CHANGED, CHANGED),
    ("a byte behind", packed_text() + b"x", "byte 92: 6 TooMany", CHANGED, CHANGED),
    ("another sum", packed_text([(19, 0x556A5DD2)]), "byte 76: 11 OtherSum", CHANGED, CHANGED),
    ("a row's end before the one before", packed_text([(6, 1)]), "byte 24: 5 OutOfRange E", CHANGED, CHANGED),
    ("a head of 0", packed_text([(9, 0)]), "byte 36: 5 OutOfRange V", CHANGED, CHANGED),
    ("lengths that fall", packed_text([(5, 0)]), "byte 64: 5 OutOfRange W", CHANGED, CHANGED),
    ("an arc too many for any graph", packed_text([(3, 1073741825)]), "byte 12: 5 OutOfRange M", ARCS, ARCS),
    ("no vertices", packed_text([(2, 0)]), "byte 8: 5 OutOfRange N", RANGE, RANGE),
    ("many vertices", packed_text([(2, 268435455)]), "byte 8: 5 OutOfRange N", "268435455 vertices; use --pred-bits 32", RANGE),
    ("vertices for no layout", packed_text([(2, 4294967295)]), "byte 8: 5 OutOfRange N", RANGE, RANGE),
]

# a command, its words before a packed graph and behind it, the name of the file that it takes it for, and what it expects
PLACES = [
    ("tree", (GRAPH,), ("--delta", "3"), "ss", ", which goes in the place of GR, but a .ss file"),
    ("matrix", (GRAPH, SOURCES), (), "targets", ", which goes in the place of GR, but a .ss file"),
    ("pairs", (GRAPH,), ("--delta", "3"), "pairs", ", which goes in the place of GR, but a file of pairs"),
    ("check", (GRAPH,), (), "tree", ", which goes in the place of GR, but a tree file"),
    ("replay", (), (), "replay", ", but a replay file"),
    ("offers", (), (), "offers", ", but a file of offers"),
]


def packed(count, program, folder):
    graph = put(f"{folder}/graph", packed_text())
    told = run(program, "tree", graph, SOURCES, "--delta", "3")
    count.of(f"the diamond, packed: {told}", told == (0, read_bytes(TREE).decode(), ""))
    told = run(program, "tree", graph, "--source", "12", "--delta", "3")
    count.of(f"no vertex of it: {told}", told == (2, "", "spt: source 12: no such vertex\nspt: --source 12: the graph has 4 vertices\n"))
    for command, before, behind, file, wanted in PLACES:
        told = run(program, command, *before, graph, *behind)
        lines = f"spt: {file}: line 1: 2 BadLine\nspt: {graph}: a packed graph{wanted} is expected\n"
        count.of(f"a packed graph for {command}: {told}", told == (2, "", lines))
    for name, data, fault, wanted, unread_wanted in PACKED_GRAPHS:
        graph = put(f"{folder}/graph", data)
        told = run(program, "tree", graph, SOURCES, "--delta", "3")
        count.of(f"packed, {name}: {told}", told == (2, "", f"spt: gr: {fault}\nspt: {graph}: {wanted}\n"))
        told = run(program, "tree", "-", SOURCES, "--delta", "3", given=data)
        count.of(f"packed, {name}, on standard input: {told}", told == (2, "", f"spt: gr: {fault}\nspt: standard input: {unread_wanted}\n"))


# a list of sources or pairs for the diamond, which has 4 vertices: its text, words behind it, the number that is no vertex, and
# what is told of the place where it stands
NAMED = [
    ("pairs", "p pairs 2\nq 1 4\nq 1 12\n", (), 12, "line 3: target 12; "),
    ("pairs", "c\np pairs 3\n\nq 4 1\nq 12 13\nq 1 12\n", (), 12, "line 5: source 12; "),
    ("pairs", "p pairs 2\n q\t1  5\r\nq 5 1\n", (), 5, "line 2: target 5; "),
    ("pairs", "p pairs 2\nq 5 5\nq 6 1", (), 5, "line 2: source 5; "),
    ("tree", "p aux sp ss 3\ns 4\nc s 9\ns 9\ns 9\n", (), 9, "line 4: source 9; "),
    ("tree", "p aux sp ss 4\ns 9\ns 1\ns 7\ns 9\n", ("--sources", "2-4"), 7, "line 4: source 7; "),
    ("tree", "p aux sp ss 4\ns 9\ns 1\ns 2\ns 9\n", ("--sources=2-9",), 9, "line 5: source 9; "),
]


def vertices(count, program, folder):
    graph = put(f"{folder}/four.gr", b"c of 4 vertices\n\n" + read_bytes(GRAPH))
    for command, text, words, vertex, place in NAMED:
        first = f"spt: source {vertex}: no such vertex\n"
        path = put(f"{folder}/list", text.encode())
        told = run(program, command, graph, path, "--delta", "3", *words)
        count.of(f"{command}, {text}: {told}", told == (2, "", f"{first}spt: {path}: {place}the graph has 4 vertices\n"))
        told = run(program, command, graph, "-", "--delta", "3", *words, given=text.encode())
        role = f"target {vertex}: " if "target" in place else ""
        count.of(f"{command} on standard input, {text}: {told}", told == (2, "", f"{first}spt: {role}the graph has 4 vertices\n"))
        told = run(program, command, "-", path, "--delta", "3", *words, given=read_bytes(graph))
        count_unknown = "vertices are numbered from 1 to N, given in the line `p sp N M`"
        count.of(f"{command} beside standard input, {text}: {told}", told == (2, "", f"{first}spt: {path}: {place}{count_unknown}\n"))
    told = run(program, "tree", graph, "--source", "4", "--source", "12", "--delta", "3")
    count.of(f"--source 12: {told}", told == (2, "", "spt: source 12: no such vertex\nspt: --source 12: the graph has 4 vertices\n"))
    targets = b"p aux sp ss 2\ns 1\ns 9\n"
    first = "spt: source 9: no such vertex\n"
    told = run(program, "matrix", graph, "-", "--source", "1", given=targets)
    count.of(f"a target on standard input: {told}", told == (2, "", f"{first}spt: target 9: the graph has 4 vertices\n"))
    path = put(f"{folder}/targets", targets)
    told = run(program, "matrix", graph, path, "--source", "1")
    count.of(f"a target of a file: {told}", told == (2, "", f"{first}spt: {path}: line 3: target 9; the graph has 4 vertices\n"))
    told = run(program, "matrix", graph, "--source", "1", "--target", "4", "--target", "9")
    count.of(f"--target 9: {told}", told == (2, "", f"{first}spt: --target 9: the graph has 4 vertices\n"))
    told = run(program, "matrix", graph, "--source", "9", "--target", "9")
    count.of(f"--source 9 and --target 9: {told}", told == (2, "", f"{first}spt: --source 9: the graph has 4 vertices\n"))
    told = run(program, "matrix", graph, path, path)
    count.of(f"a source and a target: {told}", told == (2, "", f"{first}spt: {path}: line 3: source 9; the graph has 4 vertices\n"))


# of a graph: what is wrong, its text, its fault, and what is told of that; and what is told where it comes by standard input
GRAPHS = [
    ("a fraction as a length", "p sp 2 1\na 1 2 3.5\n", "line 2: 2 BadLine", f"{LENGTHS}; multiply them all, for example by 1000", GR),
    ("a negative length", "p sp 2 1\na 1 2 -3\n", "line 2: 2 BadLine", LENGTHS, GR),
    ("a negative fraction", "p sp 2 1\na 1 2 -3.5\n", "line 2: 2 BadLine", LENGTHS, GR),
    ("a length in exponents", "p sp 2 1\na 1 2 1e3\n", "line 2: 2 BadLine", LENGTHS, GR),
    ("a length of 0", "p sp 2 1\na 1 2 0\n", "line 2: 5 OutOfRange W", LENGTHS, LENGTHS),
    ("a great length", "p sp 2 1\na 1 2 4294967296\n", "line 2: 5 OutOfRange W", LENGTHS, LENGTHS),
    ("a leading 0", "p sp 2 1\na 1 2 03\n", "line 2: 2 BadLine", SPELLING, GR),
    ("a sign", "p sp 2 1\na +1 2 3\n", "line 2: 2 BadLine", SPELLING, GR),
    ("a vertex of 0", "p sp 2 1\na 0 1 3\n", "line 2: 5 OutOfRange U", FROM_ZERO, "vertices are numbered from 1 to N, given in the line `p`"),
    (
        "a vertex above N",
        "p sp 2 1\na 1 3 3\n",
        "line 2: 5 OutOfRange V",
        "vertices are numbered from 1 to 2",
        "vertices are numbered from 1 to N, given in the line `p`",
    ),
    ("a negative vertex", "p sp 2 1\na -1 2 3\n", "line 2: 2 BadLine", "vertices are numbered from 1 to 2", GR),
    ("a fraction as a vertex", "p sp 2 1\na 1.0 2 3\n", "line 2: 2 BadLine", "vertices are numbered from 1 to 2", GR),
    ("a name as a vertex", "p sp 2 1\na 1 home 3\n", "line 2: 2 BadLine", "vertices are numbered from 1 to 2", GR),
    ("a comment with #", "# roads\np sp 1 0\n", "line 1: 2 BadLine", COMMENT, GR),
    ("a comment with %", "p sp 1 0\n  %% roads\n", "line 2: 2 BadLine", COMMENT, GR),
    ("a comment with //", "p sp 1 0\n//roads\n", "line 2: 2 BadLine", COMMENT, GR),
    ("a comment whose c stands at a word", "crossings\np sp 1 0\n", "line 1: 2 BadLine", COMMENT, GR),
    ("an edge list", "1 2 5\n2 3 1\n", "line 1: 2 BadLine", NO_PROBLEM, GR),
    ("an edge list without lengths", "1 2\n2 3\n", "line 1: 2 BadLine", NO_PROBLEM, GR),
    ("a table with commas", "from,to,length\n1,2,5\n", "line 1: 2 BadLine", NO_PROBLEM, GR),
    ("arcs alone", "a 1 2 5\n", "line 1: 3 NoProblem", NO_PROBLEM, NO_PROBLEM),
    ("nothing", "", "line 1: 3 NoProblem", NO_PROBLEM, NO_PROBLEM),
    ("arcs without their letter", "p sp 2 1\n1 2 5\n", "line 2: 2 BadLine", GR, GR),
    ("arcs without lengths", "p sp 2 1\na 1 2\n", "line 2: 2 BadLine", GR, GR),
    ("half of a problem line", "p sp 2\n", "line 1: 2 BadLine", GR, GR),
    ("two problem lines", "p sp 1 0\np sp 1 0\n", "line 2: 4 SecondProblem", GR, GR),
    ("too few arcs", "p sp 2 2\na 1 2 5\n", "line 3: 7 TooFew", *["M in the line `p sp N M` must be the number of `a` lines"] * 2),
    ("too many arcs", "p sp 2 0\na 1 2 5\n", "line 2: 6 TooMany", *["M in the line `p sp N M` must be the number of `a` lines"] * 2),
    ("an arc too many for any graph", "p sp 2 1073741825\n", "line 1: 5 OutOfRange M", ARCS, ARCS),
    ("a long line", "c" + 1024 * " ", "line 1: 1 LongLine", *["a line has at most 1024 bytes, and ends with an LF"] * 2),
    ("text that is no UTF-8", "p sp 1 0\n\xff\n", "line 2: 2 BadLine", GR, GR),
    ("a list of sources", "c\np aux sp ss 1\ns 1\n", "line 2: 2 BadLine", "a line of a .ss file, but a .gr file is expected; see spt tree --help", GR),
    ("sources alone", "s 1\n", "line 1: 2 BadLine", "a line of a .ss file, but a .gr file is expected; see spt tree --help", GR),
    ("a tree", "p spt 1 1\nv 1 0 0\ne 1\n", "line 1: 2 BadLine", "a line of a tree file, but a .gr file is expected; see spt tree --help", GR),
    ("pairs", "p pairs 1\nq 1 1\n", "line 1: 2 BadLine", "a line of a file of pairs, but a .gr file is expected; see spt tree --help", GR),
]

# of another file, beside the diamond's graph: the command, the name of its file, and the same
OTHERS = [
    ("tree", "ss", "p aux sp ss 1\ns 0\n", "line 2: 5 OutOfRange V", FROM_ZERO),
    ("tree", "ss", "p aux sp ss 1\ns 1.5\n", "line 2: 2 BadLine", "vertices are numbered from 1 to N, given in the line `p`"),
    ("tree", "ss", "p aux sp ss 1\ns 01\n", "line 2: 2 BadLine", SPELLING),
    ("tree", "ss", "1\n4\n", "line 1: 2 BadLine", f"no `p aux sp ss K` line; {SS}"),
    ("tree", "ss", "s 1\n", "line 1: 3 NoProblem", f"no `p aux sp ss K` line; {SS}"),
    ("tree", "ss", "p aux sp ss 2\ns 1\n", "line 3: 7 TooFew", "K in the line `p aux sp ss K` must be the number of `s` lines"),
    ("tree", "ss", "p aux sp ss 1048577\n", "line 1: 5 OutOfRange K", "K is a number from 0 to 1048576"),
    ("tree", "ss", "p sp 1 0\n", "line 1: 2 BadLine", "a line of a .gr file, but a .ss file is expected; see spt tree --help"),
    ("tree", "ss", "c\na 1 2 3\n", "line 2: 2 BadLine", "a line of a .gr file, but a .ss file is expected; see spt tree --help"),
    ("pairs", "pairs", "p aux sp ss 1\ns 1\n", "line 1: 2 BadLine", "a line of a .ss file, but a file of pairs is expected; see spt pairs --help"),
    ("pairs", "pairs", "p pairs 1\nq 0 1\n", "line 2: 5 OutOfRange S", FROM_ZERO),
    ("pairs", "pairs", "p pairs 1\nq 1 2 # home\n", "line 2: 2 BadLine", PAIRS),
    ("pairs", "pairs", "p pairs 2\nq 1 2\n", "line 3: 7 TooFew", "K in the line `p pairs K` must be the number of `q` lines"),
    ("check", "tree", "p spt 4 1\nv 1 0 0\ne 1\np spt 4 2\nv 2 0 0\ne 1\n", "line 4: 6 TooMany", "the file has several blocks; use --all"),
    ("check", "tree", "p spt 4 1\nv 1 0 0\ne 1\n\n", "line 4: 6 TooMany", BLOCK),
    ("check", "tree", "p spt 4 1\nv 1 0 0\nv 1 0 0\ne 2\n", "line 3: 5 OutOfRange V", "V is from 1 to N, and greater than V of the `v` line before"),
    ("check", "tree", "p spt 4 1\nv 1 0 0\ne 2\n", "line 3: 5 OutOfRange R", "R in the line `e R` must be the number of `v` lines"),
    ("check", "tree", "p spt 4 1\nv 1 0 0\n", "line 3: 7 TooFew", "the file ends before the line `e R`: it is incomplete"),
    ("check", "tree", "p spt 4 1\nv 1 68719476735 0\n", "line 2: 5 OutOfRange D", "D is a number from 0 to 68719476734"),
    ("check", "tree", "p spt  4 1\n", "line 1: 2 BadLine", BLOCK),
    ("check", "tree", "c of the diamond\n", "line 1: 2 BadLine", f"no `p spt N S` line; {BLOCK}"),
    ("check", "tree", "# of the diamond\n", "line 1: 2 BadLine", "a tree file has no comments"),
    ("check", "tree", "x 1 4\n", "line 1: 2 BadLine", f"{TOO_FAR}; --pred-bits 20 reaches farther"),
    ("check", "tree", "p spt 4 1\nv 1 0 0\ne 1\nx 2 4\n", "line 4: 6 TooMany", f"{TOO_FAR}; --pred-bits 20 reaches farther"),
    ("check", "tree", "p sp 1 0\n", "line 1: 2 BadLine", "a line of a .gr file, but a tree file is expected; see spt check --help"),
]


def lines(count, program, folder):
    for name, text, fault, wanted, unread_wanted in GRAPHS:
        graph = put(f"{folder}/graph", text.encode("latin-1"))
        told = run(program, "tree", graph, SOURCES, "--delta", "3")
        count.of(f"{name}: {told}", told == (2, "", f"spt: gr: {fault}\nspt: {graph}: {wanted}\n"))
        told = run(program, "tree", "-", SOURCES, "--delta", "3", given=read_bytes(graph))
        count.of(f"{name} on standard input: {told}", told == (2, "", f"spt: gr: {fault}\nspt: standard input: {unread_wanted}\n"))
    for command, file, text, fault, wanted in OTHERS:
        path = put(f"{folder}/other", text.encode())
        told = run(program, command, GRAPH, path, *([] if command == "check" else ["--delta", "3"]))
        count.of(f"{command}, {text}: {told}", told == (2, "", f"spt: {file}: {fault}\nspt: {path}: {wanted}\n"))
    for layout, vertices, wanted in (("20", 4, "no layout reaches farther"), ("28", 1048575, "--pred-bits 24 reaches farther")):
        graph = put(f"{folder}/graph", f"p sp {vertices} 0\n".encode())
        tree = put(f"{folder}/tree", b"x 1 4\n")
        told = run(program, "check", graph, tree, "--all", "--pred-bits", layout)
        count.of(f"an x line in layout {layout}: {told}", told[0] == 2 and second(told) == f"spt: {tree}: {TOO_FAR}; {wanted}")
    path = put(f"{folder}/offers", b"p off 1 2\no 3 1 1 1\n")
    told = run(program, "offers", path)
    count.of(f"an actor above K: {told}", told == (2, "", f"spt: offers: line 2: 5 OutOfRange A\nspt: {path}: {OFFERS}\n"))
    within = "vertices are numbered from 1 to N, given in the line `p`"
    runs = [
        ("o 1 2 5 0", "V", within),
        ("o 1 0 5 1", "V", FROM_ZERO),
        ("a 1 0 1 3", "U", FROM_ZERO),
        ("a 1 1 2 3", "V", within),
        ("a 1 1 1 0", "L", LENGTHS),
        ("i 1 5 1\ni 1 4 1", "V", RUN),
    ]
    for text, field, wanted in runs:
        path = put(f"{folder}/run.rep", f"p rep 1 1\n{text}\n".encode())
        told = run(program, "replay", path)
        line = 2 + text.count("\n")
        count.of(f"replay, {text}: {told}", told == (2, "", f"spt: replay: line {line}: 5 OutOfRange {field}\nspt: {path}: {wanted}\n"))
    for command, text, wanted in (("offers", "p off 1 1\n" + "o 1 1 5 3\n" * 1048577, MOST_OFFERS), ("replay", "p rep 1 1\n" + "r 1 1\n" * 1048577, MOST_CALLS)):
        path = put(f"{folder}/many", text.encode())
        told = run(program, command, path)
        count.of(f"{command}, too many lines: {told}", told == (2, "", f"spt: {command}: line 1048578: 6 TooMany\nspt: {path}: {wanted}\n"))
    path = put(f"{folder}/offers", b"p off 1 2\no 1 1 1\n")
    told = run(program, "offers", path)
    count.of(f"an offer of nothing: {told}", told == (2, "", f"spt: offers: line 2: 2 BadLine\nspt: {path}: {OFFERS}\n"))


def words(count, program, folder):
    """Of places that are none, and of deltas that a layout doesn't have."""
    spelled = "give two numbers with a `-` between them, as in 1-100"
    cases = [
        ("2-1", "the last place is before the first"),
        ("2-0", "the last place is before the first"),
        ("0-3", "places are counted from 1"),
        ("x", spelled),
        ("1-", spelled),
        ("1-2-3", spelled),
        ("2-1\x1b[31m\nx", spelled),
    ]
    for word, wanted in cases:
        told = run(program, "tree", GRAPH, SOURCES, "--delta", "3", f"--sources={word}")
        shown = word.replace("\x1b", "?").replace("\n", "?")
        count.of(f"places {word!r}: {told}", told == (1, "", f"spt: sources are not A-B\nspt: --sources {shown}: {wanted}\n"))
    for layout, most in (("32", 4294967294), ("28", 68719476734), ("24", 1099511627774)):
        for command in ("tree", "pairs"):
            told = run(program, command, GRAPH, SOURCES, "--delta", str(most + 1), "--pred-bits", layout)
            wanted = f"spt: delta out of range\nspt: delta is from 1 to {most} with --pred-bits {layout}, or mean{FARTHEST}\n"
            count.of(f"delta {most + 1} in layout {layout}: {told}", told == (1, "", wanted))
        told = run(program, "tree", GRAPH, SOURCES, "--delta", "mean", "--within", str(most + 1), "--pred-bits", layout)
        wanted = f"spt: limit out of range\nspt: the limit is from 0 to {most} with --pred-bits {layout}{FARTHEST}\n"
        count.of(f"limit {most + 1} in layout {layout}: {told}", told == (1, "", wanted))


def several(count, program, folder):
    """Of faults that are told of no file alone: what a user does about them."""
    once = "spt: standard input twice\nspt: only one file can be standard input; give the other by its path\n"
    for words in (("tree", "-", "-", "--delta", "3"), ("check", "-", "-"), ("matrix", GRAPH, "-", "-")):
        told = run(program, *words)
        count.of(f"{' '.join(words)}: {told}", told == (1, "", once))
    steps = put(f"{folder}/steps.rep", "p rep 1 1\n" + 61 * "s 1\n")
    told = run(program, "replay", steps, "--svg")
    wanted = "spt: replay: more than 60 steps\nspt: a picture shows at most 60 steps; without --svg the report has them all\n"
    count.of(f"a picture of 61 steps: {told}", told == (2, "", wanted))
    main, other = os.openpty()
    done = subprocess.run([program, "pack", GRAPH], stdout=other, stderr=subprocess.PIPE, timeout=SECONDS)
    os.close(other)
    os.close(main)
    wanted = b"spt: output is a terminal\nspt: a packed graph is no text; give a file with -o\n"
    count.of(f"pack to a terminal: {done}", (done.returncode, done.stderr) == (1, wanted))


def memory(count, program, folder):
    """What is told where memory is short."""
    graph = put(f"{folder}/large.gr", "p sp 100000000 0\n")
    few = "there is too little free memory; with several sources, fewer --workers need less"
    cases = [
        (("tree", graph, "--source", "1", "--delta", "3"), few),
        (("matrix", graph, "--source", "1", "--target", "2"), few),
        (("nearest", graph, "--source", "1"), "there is too little free memory; spt nearest --help says how much is needed"),
        (("check", graph, TREE), "there is too little free memory; spt check --help says how much is needed"),
        (("pack", graph), "there is too little free memory for this file"),
    ]

    def begin():
        resource.setrlimit(resource.RLIMIT_AS, (200 << 20, 200 << 20))

    for words, wanted in cases:
        told = run(program, *words, preexec_fn=begin)
        count.of(f"{words[0]} in little memory: {told}", told == (5, "", f"spt: memory\nspt: {wanted}\n"))


# a name, how a line shows it, and how the shell has it
NAMES = [
    ("it's; rm -rf x.gz", "it's; rm -rf x.gz", "'it'\\''s; rm -rf x.gz'"),
    ("two words", "two words", "'two words'"),
    ("$HOME", "$HOME", "'$HOME'"),
    ("a~`b*?", "a~`b*?", "'a~`b*?'"),
    ("Straße", "Straße", "'Straße'"),
    ("plain-1.2_3,4+5:6@7%8=9", "plain-1.2_3,4+5:6@7%8=9", "plain-1.2_3,4+5:6@7%8=9"),
    ("a\x1b[31mb\n\tc\x7f", "a?[31mb??c?", None),
    ("a\u0085b\u202ec\u2066d", "a?b?c?d", None),
]


def names(count, program, folder):
    for name, shown, word in NAMES:
        inner = tempfile.mkdtemp(dir=folder)
        put(f"{inner}/{name}", gzip.compress(read_bytes(GRAPH)))
        done = subprocess.run([program, "tree", name, SOURCES, "--delta", "3"], cwd=inner, capture_output=True, timeout=SECONDS)
        told = done.returncode, done.stdout.decode(), done.stderr.decode()
        tool = "zcat" if word is None else f"zcat {word}"
        wanted = f"spt: gr: line 1: 2 BadLine\nspt: {shown}: compressed with gzip; use {tool} | spt tree - ..\n"
        count.of(f"a file {name!r}: {told}", told == (2, "", wanted))
        if word is not None:
            given = subprocess.run(f"zcat {word}", shell=True, cwd=inner, capture_output=True, timeout=SECONDS).stdout
            count.of(f"what the shell reads of {word}", given == read_bytes(GRAPH))
        told = run(program, "tree", f"{inner}/none/{name}", SOURCES, "--delta", "3")
        wanted = f"spt: gr: cannot open\nspt: {inner}/none/{shown}: No such file or directory (os error 2)\n"
        count.of(f"no file {name!r}: {told}", told == (6, "", wanted))
    inner = tempfile.mkdtemp(dir=folder)
    put(f"{inner}/-x.gz", gzip.compress(read_bytes(GRAPH)))
    done = subprocess.run([program, "tree", "--delta", "3", "--", "-x.gz", SOURCES], cwd=inner, capture_output=True, timeout=SECONDS)
    wanted = "spt: gr: line 1: 2 BadLine\nspt: -x.gz: compressed with gzip; use zcat ./-x.gz | spt tree - ..\n"
    count.of(f"a file -x.gz: {done}", done.stderr.decode() == wanted)
    done = subprocess.run([os.fsencode(program), b"replay", b"\xff.rep"], capture_output=True, timeout=SECONDS)
    wanted = b"spt: an argument is not UTF-8\nspt: use - and a redirection, as in spt tree - SS .. < GR > OUT\n"
    count.of(f"a name that is no UTF-8: {done}", (done.returncode, done.stdout, done.stderr) == (1, b"", wanted))


def unread(count, program, folder):
    """Nobody reads the output, which is no fault that a user wants to be told of, but where it was to go to a file."""
    graph = put(f"{folder}/many.gr", b"p sp 100000 0\n")
    words = [program, "tree", graph, *(word for it in range(1, 2000) for word in ("--source", str(it))), "--delta", "3"]
    broken = b"spt: write failed\nspt: /dev/stdout: Broken pipe (os error 32)\n"
    for told, errors in ((words, b""), ([program, "--help"], b""), ([*words, "-o", "/dev/stdout"], broken)):
        reading, writing = os.pipe()
        os.close(reading)
        done = subprocess.run(told, stdout=writing, stderr=subprocess.PIPE, timeout=SECONDS)
        os.close(writing)
        count.of(f"{told[1]} that nobody reads: {done}", (done.returncode, done.stderr) == (6, errors))


if __name__ == "__main__":
    sys.exit(try_all(__doc__, (forms, plain, reasons, layouts, packed, vertices, lines, words, several, memory, names, unread)))
