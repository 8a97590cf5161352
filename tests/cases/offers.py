"""`spt offers`."""

from .shared import GREATEST, Case

OFFERS, LEFT = "p off 1 2\no 1 1 9 1\no 1 1 7 4\no 2 1 7 2\no 2 1 8 3\n", "w 1 7 2\ne 1\n"

# name, bits of the predecessor, offers, words
WORDS = [
    ("no offer", "28", "p off 2 1\n", "e 0\n"),
    ("no offer", "28", "p off 65536 64\n", "e 0\n"),
    (
        "words by rising vertex",
        "28",
        "p off 4 3\no 3 4 1 0\no 1 2 68719476734 268435454\no 2 1 0 0\n",
        "w 1 0 0\nw 2 68719476734 268435454\nw 4 1 0\ne 3\n",
    ),
    ("layouts", "24", "p off 1 1\no 1 1 68719476735 0\n", "w 1 68719476735 0\ne 1\n"),
    ("lines", "28", "c\np off 1 1\r\n\n\to 1 1 5 3 ", "w 1 5 3\ne 1\n"),
    ("ranges", "28", "p off 2 2\no 2 2 0 0\n", "w 2 0 0\ne 1\n"),
    # as many offers as there may be
    ("many offers", "28", "p off 1 1\n" + "o 1 1 5 3\n" * 1048576, "w 1 5 3\ne 1\n"),
]

# name, offers that are refused, fault
REFUSED = [
    ("ranges", "p off 1 1\no 1 1 4294967294 4294967294\n", "line 2: 5 OutOfRange P"),
    ("ranges", "p off 1 1\no 2 1 5 0\n", "line 2: 5 OutOfRange A"),
    ("ranges", "p off 1 1\no 1 2 5 0\n", "line 2: 5 OutOfRange V"),
    ("ranges", "p off 2 2\no 0 1 0 0\n", "line 2: 5 OutOfRange A"),
    ("ranges", "p off 2 2\no 3 3 0 0\n", "line 2: 5 OutOfRange A"),
    ("ranges", "p off 2 2\no 2 0 0 0\n", "line 2: 5 OutOfRange V"),
    ("ranges", "p off 2 2\no 2 3 0 0\n", "line 2: 5 OutOfRange V"),
    ("problem lines", "", "line 1: 3 NoProblem"),
    ("problem lines", "o 1 1 1 1\n", "line 1: 3 NoProblem"),
    ("problem lines", "p off 1 1\np off 1 1\n", "line 2: 4 SecondProblem"),
    ("problem lines", "p off 0 1\n", "line 1: 5 OutOfRange N"),
    ("problem lines", "p off 65537 1\n", "line 1: 5 OutOfRange N"),
    ("problem lines", "p off 1 0\n", "line 1: 5 OutOfRange K"),
    ("problem lines", "p off 1 65\n", "line 1: 5 OutOfRange K"),
    ("problem lines", "p rep 1 1\n", "line 1: 2 BadLine"),
    ("lines", "c " + "x" * 1023, "line 1: 1 LongLine"),
    ("lines", "c " + "x" * 1022, "line 2: 3 NoProblem"),
    ("too many offers", "p off 1 1\n" + "o 1 1 5 3\n" * 1048577, "line 1048578: 6 TooMany"),
]

# a second line that is none of offers
LINES = ["r 1 1", "a 1 1 1 1", "i 1 0 0", "s 1", "o 1 1 5", "o 1 1 5 3 4", "o 1 1 05 3"]


def many_actors():
    """64 actors with 16 offers each: actor A's last one is (65 - A, A)."""
    rows = "".join(f"o {actor} 2 {(15 - k) * 64 + 65 - actor} {actor}\n" for actor in range(1, 65) for k in range(16))
    return f"p off 2 64\n{rows}"


def greatest():
    """The greatest word of a layout, and the numbers behind it."""
    for bits, (far, most) in GREATEST.items():
        line = f"offers f.off --pred-bits {bits}"
        yield Case("layouts", line, {"f.off": f"p off 1 1\no 1 1 {far} {most}\n"}, 0, f"w 1 {far} {most}\ne 1\n")
        yield Case("layouts", line, {"f.off": f"p off 1 1\no 1 1 {far + 1} 0\n"}, 2, "offers: line 2: 5 OutOfRange D")
        yield Case("layouts", line, {"f.off": f"p off 1 1\no 1 1 0 {most + 1}\n"}, 2, "offers: line 2: 5 OutOfRange P")


def cases():
    made = [Case(name, f"offers f.off --pred-bits {bits}", {"f.off": text}, 0, words) for name, bits, text, words in WORDS]
    made += [Case(name, "offers f.off", {"f.off": text}, 2, f"offers: {fault}") for name, text, fault in REFUSED]
    made += [Case("lines", "offers f.off", {"f.off": f"p off 1 1\n{line}\n"}, 2, "offers: line 2: 2 BadLine") for line in LINES]
    made += [Case("offers", "offers f.off", {"f.off": OFFERS}, 0, LEFT)] * 20
    made += [Case("many actors", "offers f.off", {"f.off": many_actors()}, 0, "w 2 1 64\ne 1\n")] * 5
    made += greatest()
    return made
