#!/usr/bin/env python3
"""Tests what the sums of dist/edits stand on: which edits a table has, what the crates below a crate state to it (build/stated.py), and for
which crates a run keeps a sum.

Usage: python3 tests/edit_sums.py

The last line is 'N passed, M failed'.
"""

import sys
import tempfile

sys.dont_write_bytecode = True
import edits  # noqa: E402
from harness import Count, put  # noqa: E402
from stated import stated_to  # noqa: E402

HEADS = """ghost use Rattle.std.specs.Prelude.{\u25cc\u2261\u25cc, \u25cc<\u25cc};
ghost use Rattle.low.specs.Width.{IsWidth};
ghost use Rattle.low.specs.Hidden.{IsHidden};
use crate :: word :: Word ;
pub struct Row { width : u32 , }
impl Row {
pub fn width ( & self ) -> u32
        ensures width { IsWidth result } ;
pub fn height ( & self ) -> u32
        ensures height { result \u2261 1 } ;
fn hidden ( & self ) -> u32
        ensures hidden { IsHidden result } ;
}
pub trait Measure {
fn measure ( & self ) -> u32
        ensures measure { result < 9 } ;
}
"""
WIDTH = "use Rattle.low.specs.Most.{most}\nabbrev pub IsWidth : \u2115 \u2192 Type 0\nIsWidth n = n < most\n"
MOST = "pub most : \u2115\nmost = 7\n"
HIDDEN = "abbrev pub IsHidden : \u2115 \u2192 Type 0\nIsHidden n = n < 3\n"
LEMMA = "pub less : 1 < 2\nless = search\n"
OWN = "use low::Row;\n\npub fn twice(row: &Row) -> u32 {\n    2 * row.width()\n}\n"
# the file, the text and what stands in its place; what the crate above is told changes with the first ones and not with the others
TOLD = [
    ("lang/src/lib.rt", "IsWidth result", "IsWidth (result + 1)"),
    ("lang/src/lib.rt", "result < 9", "result < 8"),
    ("lang/src/lib.rt", "width : u32", "width : u64"),
    ("lang/src/lib.rt", "specs.Width.{IsWidth}", "specs.Most.{IsWidth}"),
    ("lang/src/lib.rt", "pub fn width", "fn width"),
    ("lang/antt/specs/Width.antt", "n < most", "n < most + 1"),
    ("lang/antt/specs/Most.antt", "most = 7", "most = 8"),
]
UNTOLD = [
    ("lang/src/lib.rt", "result \u2261 1", "result \u2261 2"),
    ("lang/src/lib.rt", "IsHidden result", "IsHidden (result + 1)"),
    ("lang/src/lib.rt", "fn hidden", "fn covered"),
    ("lang/antt/specs/Hidden.antt", "n < 3", "n < 4"),
    ("lang/antt/proofs/Less.antt", "1 < 2", "2 < 3"),
]


ONE = "file: src/lib.rt\nold: 1 }\nnew: 2 }\ntwin: 1  }\n"
TWO = "file: specs/Two.antt\nold: n = 2\nnew: n = 3\n"
# tables that aren't read
WRONG = {
    "a name twice": f"edit: one\n{ONE}\nedit: one\n{TWO}",
    "a name of two words": f"edit: one two\n{ONE}",
    "a line before any name": ONE,
    "a line of another kind": f"edit: one\nfle: src/lib.rt\n{ONE}",
}


class Made:
    """A crate with its folder and its library, over others."""

    def __init__(self, name, folder, below):
        self.name, self.folder, self.rlib, self.deps = name, folder, f"{folder}/out/rlib/{name}.rlib", below

    def below(self):
        return self.deps


def told(folder, changed=None, own=OWN):
    """What a crate is told by one below it, with one text put in place of another in a file of that one's library."""
    low = Made("low", f"{folder}/low", [])
    high = Made("high", f"{folder}/high", [low])
    files = {"lang/src/lib.rt": HEADS, "lang/antt/specs/Width.antt": WIDTH, "lang/antt/specs/Most.antt": MOST}
    files.update({"lang/antt/specs/Hidden.antt": HIDDEN, "lang/antt/proofs/Less.antt": LEMMA})
    for path, text in files.items():
        if changed and changed[0] == path:
            assert text.count(changed[1]) == 1, changed
            text = text.replace(*changed[1:])
        put(f"{low.rlib}/{path}", text)
    put(f"{high.folder}/src/lib.rt", own)
    return stated_to(high)


def is_refused(folder, table):
    put(f"{folder}/edits.txt", table)
    try:
        edits.table_of(folder)
    except SystemExit:
        return True
    return False


def read_tables(count, folder):
    """Each edit of a table, with the functions that it changes; a table that isn't well formed is refused, so that no edit goes unseen."""
    for name, text in {"src/lib.rt": "pub fn one() -> u64 { 1 }\n", "specs/Two.antt": "n = 2\n", "edits.txt": f"edit: one\n{ONE}\nedit: two\n{TWO}"}.items():
        put(f"{folder}/{name}", text)
    count.of("the table", edits.table_of(folder) == {"one": ONE, "two": TWO})
    names = {it.name: [function.name for function in it.functions] for it in edits.edits_of(Made("made", folder, []))}
    count.of(f"the functions {names}", names == {"one": ["one"], "two": []})
    for why, table in WRONG.items():
        count.of(f"{why} is read", is_refused(folder, table))


def keep_sums(count):
    """A crate keeps its sum only where each of its edits was refused."""
    sums = {"all": "a", "some": "b", "wrong": "c", "both": "d", "before": "e"}
    outcomes = {"all": [True, True], "some": [True, None, None], "wrong": [True, False], "both": [False, None]}
    count.of("what is kept", edits.told(sums, outcomes) == {"all": "a", "some": "left", "before": "e"})


def main():
    count = Count()
    keep_sums(count)
    with tempfile.TemporaryDirectory() as folder:
        read_tables(count, folder)
    with tempfile.TemporaryDirectory() as folder:
        count.of("without a library nothing is told", stated_to(Made("high", folder, [Made("low", f"{folder}/none", [])])) is None)
        before = told(folder)
        for change in TOLD:
            count.of(f"{change} is told", told(folder, change) != before)
        for change in UNTOLD:
            count.of(f"{change} isn't told", told(folder, change) == before)
        naming = OWN.replace("row.width()", "row.height()")
        count.of("a function that is named is told", told(folder, UNTOLD[0], naming) != told(folder, None, naming))
        citing = "ghost use Rattle.low.proofs.Less.{less};\n" + OWN.replace("pub fn twice", "#[tactic(auto, using(less))]\npub fn twice")
        count.of("a lemma that is named is told", told(folder, UNTOLD[4], citing) != told(folder, None, citing))
    return count.end()


if __name__ == "__main__":
    sys.exit(main())
