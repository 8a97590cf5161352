"""What cases are made of, and the files that several of them use."""

import dataclasses
import struct

# the greatest distance and the greatest predecessor of a word, by the bits of its predecessor
GREATEST = {
    "20": (17592186044414, 1048574),
    "24": (1099511627774, 16777214),
    "28": (68719476734, 268435454),
    "32": (4294967294, 4294967294),
}
LAYOUTS = tuple(GREATEST)

# deltas and numbers of workers, which change no byte
TEAMS = [
    f"--delta {delta} --workers {workers}"
    for delta, counts in ((1, (1, 2, 64)), (2, (1, 2, 64)), (3, (2,)), (5, (64,)), (100, (1, 2, 64)), (4294967294, (1, 2, 64)))
    for workers in counts
]

# the statuses with which a command has written its text on standard output
DONE = (0, 3, 4)


@dataclasses.dataclass(frozen=True)
class Case:
    """A command line, the files that it finds, and what it must do.

    The words of the line stand with one blank between two. The text of the file `-` is standard input. Each character of a text is one
    byte. The text that is told stands on standard output where the command is done, and else on standard error: its first line, behind
    `spt: `, or all of it, or its beginning, where that is asked for.
    """

    name: str
    line: str
    files: dict
    status: int
    text: str
    is_whole: bool = False
    is_begun: bool = False


def by_teams(cases):
    """Each case with some deltas and numbers of workers."""
    return [dataclasses.replace(case, line=f"{case.line} {team}") for case in cases for team in TEAMS]


def in_layouts(cases):
    """Each case in every layout."""
    return [dataclasses.replace(case, line=f"{case.line} --pred-bits {bits}") for case in cases for bits in LAYOUTS]


# a graph of one vertex, and its tree
ALONE = "p sp 1 0\n"
ALONE_TREE = "p spt 1 1\nv 1 0 0\ne 1\n"

# a graph with a tie, and its tree from vertex 1
DIAMOND = "p sp 4 5\na 1 2 3\na 1 3 3\na 2 4 2\na 3 4 2\na 1 4 6\n"
DIAMOND_TREE = "p spt 4 1\nv 1 0 0\nv 2 3 1\nv 3 3 1\nv 4 5 2\ne 4\n"

# vertex 1 as the only source; no source
FROM_1 = "p aux sp ss 1\ns 1\n"
FROM_NONE = "p aux sp ss 0\n"

LONGEST = 4294967295


def path(arcs, last):
    """A path of 18 vertices with so many arcs in its file: 16 of the greatest length, one of this length, and what follows."""
    return f"p sp 18 {arcs}\n" + "".join(f"a {tail} {tail + 1} {LONGEST}\n" for tail in range(1, 17)) + f"a 17 18 {last}"


def path_tree(end):
    """The tree of its first 17 vertices from the first one, and what follows."""
    rows = "".join(f"v {vertex} {(vertex - 1) * LONGEST} {vertex - 1}\n" for vertex in range(2, 18))
    return f"p spt 18 1\nv 1 0 0\n{rows}{end}"


# ## Packed graphs

# The two words with which a packed graph begins.
FRONT = (0x54505389, 0x011A0A0D)


def words(*numbers):
    """The bytes of words of 32 bits."""
    return struct.pack(f"<{len(numbers)}I", *numbers)


def sum_of(numbers):
    """The four words of the sum of words."""
    low = high = 0
    for number in numbers:
        low = (low + number) % 2**64
        high = (high + low) % 2**64
    return low % 2**32, low >> 32, high % 2**32, high >> 32


def summed(*numbers):
    """The bytes of words and of their sum."""
    return words(*numbers, *sum_of(numbers))


def packed(n, arcs):
    """The packed form of a graph, of arcs in any order, each a tail, a head and a length."""
    counts, rows = [0] * (n + 1), []
    for tail, head, length in sorted(arcs):
        counts[tail] += 1
        rows += [head, length]
    ends = [0] * (n + 1)
    for vertex in range(1, n + 1):
        ends[vertex] = ends[vertex - 1] + counts[vertex]
    return summed(*FRONT, n, len(rows) // 2, *ends, *rows)


def turned(arcs):
    """The arcs with their tails and heads exchanged."""
    return [(head, tail, length) for tail, head, length in arcs]


def arcs_of(text):
    """The arcs of a graph's text in the usual spelling."""
    return [tuple(map(int, line.split()[1:])) for line in text.split("\n") if line.startswith("a ")]
