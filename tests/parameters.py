#!/usr/bin/env python3
"""Whether a call of each function can be read in one glance: none takes more than 6 parameters, `self` counted.

More of them hide a type that wants a name. Those that have more for a reason stand in EXCEPTIONS, a line each.

Usage: python3 tests/parameters.py

It prints each other function that takes more, those with the most first, and each exception that no longer applies. The last line is
'N passed, M failed'.
"""

import glob
import os
import re
import sys

sys.dont_write_bytecode = True
from harness import HOME, read  # noqa: E402

PARAMETERS = 6
# what a C program calls, whose parameters are C's
OF_C = "a C program calls it"
# what is specified with these parameters, before which the runtime's handle and the allocator stand
SPECIFIED = "its parameters are specified, and the runtime's handle and the allocator stand before them"
# what does the same for a listener
LIKE_SPECIFIED = "it takes what run_batch takes, whose parameters are specified, and a limit"
# what does the same for two lists
LIKE_MATRIX = "it takes what run_batch_told takes, and the targets"
# what does the same for one forest
LIKE_NEAREST = "it takes what run_batch_told takes"
# what stands between a function whose parameters are specified and what it calls
BETWEEN = "it hands on what the function above takes"
EXCEPTIONS = {
    ("spt_c", "spt_tree"): OF_C,
    ("spt_c", "spt_trees"): OF_C,
    ("spt_c", "spt_graph_within"): OF_C,
    ("spt_c", "spt_graph_part"): OF_C,
    ("spt_c", "spt_graph_nearest"): OF_C,
    ("spt_c", "spt_graph_routes"): OF_C,
    ("sp_phase", "run_source_with"): SPECIFIED,
    ("sp_phase", "run_pair"): SPECIFIED,
    ("sp_phase", "run_pair_with"): SPECIFIED,
    ("sp_jobs", "run_batch"): SPECIFIED,
    ("sp_jobs", "run_batch_told"): LIKE_SPECIFIED,
    ("sp_jobs", "answer_batch"): BETWEEN,
    ("sp_pairs", "run_pairs"): SPECIFIED,
    ("sp_jobs", "answer_matrix"): BETWEEN,
    ("sp_jobs", "run_matrix_told"): LIKE_MATRIX,
    ("sp_jobs", "run_nearest_told"): LIKE_NEAREST,
}
# a comment, a string or a character, any of which may hold brackets; a lifetime has no closing quote
PASSED_OVER = re.compile(r"//[^\n]*|/\*.*?\*/|\"(?:\\.|[^\"\\])*\"|b?'(?:\\[^\n]*?|[^'\\\n])'", re.S)
HEAD = re.compile(r"\bfn\s+(\w+)\s*(?=[<(])")
OPENS, CLOSES = "(<[{", ")>]}"


def blanked(text):
    """The text with blanks in place of what is passed over, each line where it was."""
    return PASSED_OVER.sub(lambda met: re.sub(r"[^\n]", " ", met[0]), text)


def bracketed(text, at):
    """What stands in the brackets that open here, in parts by the commas that stand in no further bracket, and where they close."""
    parts, depth, start = [], 0, at + 1
    for k in range(at, len(text)):
        # the > of an arrow closes nothing
        if text[k] in OPENS:
            depth += 1
        elif text[k] in CLOSES and text[k - 1 : k + 1] not in ("->", "=>"):
            depth -= 1
        if depth == 0 or depth == 1 and text[k] == ",":
            parts.append(text[start:k].strip())
            start = k + 1
        if depth == 0:
            return [part for part in parts if part], k + 1
    raise ValueError(f"the bracket at {at} isn't closed")


def functions(text):
    """The name of each function with a head in a text, the number of its line, and its parameters. (`fn(u32)` is a type, without a name.)"""
    text = blanked(text)
    for head in HEAD.finditer(text):
        at = head.end()
        if text[at] == "<":
            at = bracketed(text, at)[1]
            at += len(text[at:]) - len(text[at:].lstrip())
        yield head[1], text.count("\n", 0, head.start()) + 1, bracketed(text, at)[0]


def main():
    passed, failed, spared = 0, [], set()
    for path in sorted(glob.glob(f"{HOME}/crates/*/src/**/*.rt", recursive=True)):
        place = os.path.relpath(path, HOME)
        crate = place.split("/")[1]
        for name, number, parameters in functions(read(path)):
            if len(parameters) > PARAMETERS and (crate, name) not in EXCEPTIONS:
                failed.append((len(parameters), f"{place}:{number}: {name} takes {len(parameters)} parameters"))
                continue
            passed += 1
            if len(parameters) > PARAMETERS:
                spared.add((crate, name))
    for _, line in sorted(failed, key=lambda it: (-it[0], it[1])):
        print(line)
    gone = [it for it in EXCEPTIONS if it not in spared]
    for crate, name in gone:
        print(f"{crate}: no function {name} takes more than {PARAMETERS} parameters: it is no exception")
    print(f"{passed} passed, {len(failed) + len(gone)} failed")
    return 1 if failed or gone else 0


if __name__ == "__main__":
    sys.exit(main())
