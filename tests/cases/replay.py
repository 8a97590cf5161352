"""`spt replay`."""

from .shared import GREATEST, Case, in_layouts

LOST_EXCHANGE = "p rep 1 2\no 1 1 5 3\no 2 1 5 2\ns 1\ns 2\ns 1\ns 2\ns 2\n"
LOST_EXCHANGE_REPORT = "o 1 1 5 3 shorter 1 3\no 2 1 5 2 smaller 2 5\nw 1 5 2\nt 2 1\nclosed yes\n"

NOTHING = "t 0 0\nclosed yes\n"

# name, replay, report
REPORTS = [
    ("lost exchange", LOST_EXCHANGE, LOST_EXCHANGE_REPORT),
    ("lost exchange, a further step", LOST_EXCHANGE + "s 1\n", LOST_EXCHANGE_REPORT),
    (
        "kept",
        "p rep 1 2\no 1 1 5 3\no 2 1 6 1\ns 1\ns 2\ns 1\ns 2\n",
        "o 1 1 5 3 shorter 1 3\no 2 1 6 1 kept 2 4\nw 1 5 3\nt 1 1\nclosed yes\n",
    ),
    (
        "relaxation",
        "p rep 2 1\ni 1 0 0\na 1 1 2 7\ns 1\ns 1\ns 1\n",
        "r 1 1 0 0 1 1\no 1 2 7 1 shorter 2 3\nw 1 0 0\nw 2 7 1\nt 1 0\nclosed yes\n",
    ),
    ("relaxation, a step less", "p rep 2 1\ni 1 0 0\na 1 1 2 7\ns 1\ns 1\n", "r 1 1 0 0 1 1\nw 1 0 0\nt 0 0\nclosed no\n"),
    ("read of unreached", "p rep 1 1\nr 1 1\ns 1\ns 1\n", "r 1 1 none 1 1\nt 0 0\nclosed yes\n"),
    (
        "relaxations",
        "p rep 4 2\ni 1 0 0\na 1 1 2 3\na 2 1 3 3\na 1 2 4 2\na 2 3 4 2\n"
        "s 1\ns 1\ns 1\ns 2\ns 2\ns 2\ns 1\ns 2\ns 2\ns 1\ns 2\ns 1\ns 1\n",
        "r 1 1 0 0 1 1\no 1 2 3 1 shorter 2 3\nr 2 1 0 0 4 4\no 2 3 3 1 shorter 5 6\nr 1 2 3 1 7 7\nr 2 3 3 1 8 8\n"
        "o 2 4 5 3 shorter 9 11\no 1 4 5 2 smaller 10 13\nw 1 0 0\nw 2 3 1\nw 3 3 1\nw 4 5 2\nt 4 1\nclosed yes\n",
    ),
    (
        "relaxation from another distance",
        "p rep 3 2\ni 1 0 0\ni 2 9 1\na 1 2 3 1\no 2 2 4 1\ns 1\ns 1\ns 1\ns 2\ns 2\n",
        "r 1 2 9 1 1 1\no 1 3 10 2 shorter 2 3\no 2 2 4 1 shorter 4 5\nw 1 0 0\nw 2 4 1\nw 3 10 2\nt 2 0\nclosed no\n",
    ),
    (
        "three actors",
        "p rep 1 3\no 1 1 9 1\no 2 1 8 1\no 3 1 7 1\ns 1\ns 2\ns 3\ns 1\ns 2\ns 3\ns 2\ns 3\ns 3\n",
        "o 1 1 9 1 shorter 1 4\no 2 1 8 1 shorter 2 7\no 3 1 7 1 shorter 3 9\nw 1 7 1\nt 3 3\nclosed yes\n",
    ),
    # in any order, with comments, tabs and a CR, and without the last LF
    (
        "lines",
        "c a comment\np rep 2 2\r\ns 2\na 1 1 2 7\n\n i\t2 9 1 \nr 2 1\no 1 2 4 1\ns 1\nc\ns 1\ns 1",
        "r 2 1 none 1 1\nr 1 1 none 2 2\no 1 2 4 1 shorter 3 4\nw 2 4 1\nt 1 0\nclosed yes\n",
    ),
    ("problem lines", "p rep 65536 64\n", NOTHING),
    ("ranges", "p rep 2 2\ni 2 0 0\ni 1 0 0\n", "w 1 0 0\nw 2 0 0\nt 0 0\nclosed yes\n"),
    ("ranges", "p rep 2 2\na 2 2 2 4294967295\ns 2\n", "r 2 2 none 1 1\nt 0 0\nclosed yes\n"),
    ("lines", "p rep 1 1\nc " + "x" * 1022, NOTHING),
    # as many items as there may be, of which one is done
    ("many items", "p rep 1 1\n" + "r 1 1\n" * 1048576 + "s 1\n", "r 1 1 none 1 1\nt 0 0\nclosed yes\n"),
]

# name, replay that is refused, fault
REFUSED = [
    ("lines", "p rep 1 1\nc " + "x" * 1023 + "\n", "line 2: 1 LongLine"),
    ("lines", "c " + "x" * 1023, "line 1: 1 LongLine"),
    ("lines", "c " + "x" * 1022, "line 2: 3 NoProblem"),
    ("lines", "p rep 1 1\no 1 1 5", "line 2: 2 BadLine"),
    ("lines", "p rep 1 1\n\xff\n", "line 2: 2 BadLine"),
    ("problem lines", "c\n\n", "line 3: 3 NoProblem"),
    ("problem lines", "", "line 1: 3 NoProblem"),
    ("problem lines", "s 1\n", "line 1: 3 NoProblem"),
    ("problem lines", "r 1 1\n", "line 1: 3 NoProblem"),
    ("problem lines", "o 1 1 1 1\n", "line 1: 3 NoProblem"),
    ("problem lines", "a 1 1 1 1\n", "line 1: 3 NoProblem"),
    ("problem lines", "i 1 1 1\n", "line 1: 3 NoProblem"),
    ("problem lines", "p rep 1 1\np rep 1 1\n", "line 2: 4 SecondProblem"),
    ("problem lines", "p rep 1 1\ns 1\np rep 1 1\n", "line 3: 4 SecondProblem"),
    ("problem lines", "p rep 0 1\n", "line 1: 5 OutOfRange N"),
    ("problem lines", "p rep 65537 1\n", "line 1: 5 OutOfRange N"),
    ("problem lines", "p rep 65537 65\n", "line 1: 5 OutOfRange N"),
    ("problem lines", "p rep 1 0\n", "line 1: 5 OutOfRange K"),
    ("problem lines", "p rep 1 65\n", "line 1: 5 OutOfRange K"),
    ("ranges", "p rep 1 2\ni 1 0 0\ni 1 0 0\n", "line 3: 5 OutOfRange V"),
    ("ranges", "p rep 2 2\ni 2 0 0\no 1 2 0 0\ni 2 0 0\n", "line 4: 5 OutOfRange V"),
    # the leftmost field is told
    ("ranges", "p rep 2 1\ni 1 0 0\ni 1 68719476735 0\n", "line 3: 5 OutOfRange V"),
    ("ranges", "p rep 2 1\ni 1 0 0\ni 2 68719476735 0\n", "line 3: 5 OutOfRange D"),
    ("too many items", "p rep 1 1\n" + "r 1 1\n" * 1048577, "line 1048578: 6 TooMany"),
]

# a first line that is no problem line, and a second line that is none of a replay
FIRST_LINES = ["p rep 1", "p rep 1 1 1", "p rep 1 01", "p off 1 1", "q"]
SECOND_LINES = ["x 1", "s 01", "o 1 1 5", "o 1 1 5 3 4", "r 1", "a 1 1 1", "i 1 0", "s", "s 1 1", "s -1", "o 1 1 00 0"]

# a second line behind `p rep 2 2`, and the field that is out of its range
RANGES = [
    ("o 3 1 0 0", "A"),
    ("o 0 1 0 0", "A"),
    ("o 1 3 0 0", "V"),
    ("o 1 0 0 0", "V"),
    ("r 3 1", "A"),
    ("r 2 3", "V"),
    ("a 3 1 1 1", "A"),
    ("a 1 0 1 1", "U"),
    ("a 1 3 0 0", "U"),
    ("a 1 1 3 1", "V"),
    ("a 1 1 1 0", "L"),
    ("a 1 1 1 4294967296", "L"),
    ("i 3 0 0", "V"),
    ("s 0", "A"),
    ("s 3", "A"),
    ("s 99999999999999999999", "A"),
]


def greatest():
    """The greatest word of a layout, and the numbers behind it."""
    for bits, (far, most) in GREATEST.items():
        line = f"replay f.rep --pred-bits {bits}"
        yield Case("layouts", line, {"f.rep": f"p rep 1 1\ni 1 {far} {most}\n"}, 0, f"w 1 {far} {most}\nt 0 0\nclosed yes\n")
        for item, letter in ((f"i 1 {far + 1} {most}", "D"), (f"i 1 {far} {most + 1}", "P"), (f"o 1 1 {far + 1} 0", "D"), (f"o 1 1 0 {most + 1}", "P")):
            yield Case("layouts", line, {"f.rep": f"p rep 1 1\n{item}\n"}, 2, f"replay: line 2: 5 OutOfRange {letter}")


def cases():
    line = "replay f.rep"
    made = in_layouts(Case(name, line, {"f.rep": text}, 0, report) for name, text, report in REPORTS)
    made += [Case(name, line, {"f.rep": text}, 2, f"replay: {fault}") for name, text, fault in REFUSED]
    made += [Case("lines", line, {"f.rep": f"{first}\n"}, 2, "replay: line 1: 2 BadLine") for first in FIRST_LINES]
    made += [Case("lines", line, {"f.rep": f"p rep 1 1\n{second}\n"}, 2, "replay: line 2: 2 BadLine") for second in SECOND_LINES]
    made += [
        Case("ranges", line, {"f.rep": f"p rep 2 2\n{second}\n"}, 2, f"replay: line 2: 5 OutOfRange {letter}") for second, letter in RANGES
    ]
    made += greatest()
    made += [
        Case("layouts", "replay --pred-bits=32 f.rep", {"f.rep": "p rep 1 1\ni 1 4294967294 4294967294\n"}, 0, "w 1 4294967294 4294967294\nt 0 0\nclosed yes\n"),
        Case("steps of a picture", "replay f.rep --svg", {"f.rep": "p rep 1 1\n" + "s 1\n" * 61}, 2, "replay: more than 60 steps"),
    ]
    return made
