#!/usr/bin/env python3
"""Tries the edits of crates/CRATE/edits.txt, many at a time: the prover must refuse each for what its contract says.

A function's proof stands on its own body and on the contracts of others. So edits in the bodies of several functions don't touch
each other, and one check of these functions tells of all: each edit is refused where a function that it changes is not proved, for
its own body and not only for what it calls. Proofs look into functions without a contract, though; so an edit of such a one never
goes with one of a function that names it. What isn't refused so is tried alone, in a check of the whole crate, as `rt ci` tries what
stands in crates/CRATE/must-fail.

A refusal shows something where a clause of a contract is left open, or an invariant that carries one. Else it may be that a written
answer merely no longer fits, or a bound: then the edit's twin, a harmless change in the same place, must be proved, and the edit shows
nothing where it isn't.

An edit begins with a line `edit: NAME`. Then come `file: FILE`, and for each place in the file `old: TEXT`, which stands there once, and
`new: TEXT`. What its twin has in a place stands behind, as `twin: TEXT`; the prover must accept the twins, which tests/twins.py tries.

Usage: python3 tests/edits.py [--over-gate] [--changed] [--minutes N] [--list] [CRATE..]

--over-gate takes the libraries that `rt ci` has just proved in this folder; else what the crates below state is taken as build/check.py
has it, and built first where it isn't at hand.
--changed leaves out the crates of which dist/edits says that all their edits were refused: with these edits, of these sources of the
crate, over what the crates below it state (build/stated.py), by a kit of this logic. A run writes that list to .spt/edits, where a sum of a
crate that it doesn't try stays, and build/release puts it into dist/.
--minutes begins no check once so many minutes have passed. The edits for which there was no time are told by their number, and the next
run tries their crates first.
--list tries nothing, and tells the crates whose edits would be tried, with the number of each one's edits.
The last line is 'N passed, M failed'.
"""

import argparse
import dataclasses
import hashlib
import os
import re
import subprocess
import sys
import tempfile
import time

HOME = os.path.dirname(os.path.dirname(os.path.realpath(__file__)))
sys.dont_write_bytecode = True
sys.path.insert(0, f"{HOME}/build")
import check  # noqa: E402
from stated import stated_to  # noqa: E402

rt = check.rt
HEAD = re.compile(r"( *)(?:pub(?:\([a-z]+\))? )?(?:const )?(?:unsafe )?(?:extern \"C\" )?fn (\w+)")
# what a check says of a function that isn't proved for its own body, and not only for what it calls
WRONG = r"^fn {}::(\S+): (?:not proved|no proof)(?!: it calls)"
# a goal that it leaves open, with its place
OPEN = re.compile(r"^note: (?:\./)?(src/\S+?):(\d+):\d+: it is not proved .*?\(`([^`]+)`\)", re.M)
# one of a clause of a contract, or of an invariant: of a loop, or of a type; others are bounds, and what a function that is called requires
OF_A_CLAUSE = re.compile(r"(?:returns|loop|invariant_of)\b")
# a line of an edit behind its name
LINE = re.compile(r"(?:file|old|new|twin):(?: |$)")
# the lines of an edit's twin, with a place that the twin alone changes
OF_TWIN = re.compile(r"^(?:old: .*\n)?twin: .*\n", re.M)
OWNER = re.compile(r"(?:pub )?(?:unsafe )?(?:impl|trait)\b")
OF_A_TRAIT = re.compile(r".* for \W*(?:mut )?(?:\w+::)*(\w+)")
INHERENT = re.compile(r"(?:impl(?:<.*?>)?|(?:pub )?trait) (\w+)")
JOBS = ["--jobs", "1"]
KEPT = f"{HOME}/dist/edits"
MADE = f"{HOME}/.spt/edits"
# how a comment line begins, by the ending of its file
COMMENT = {".rt": "//", ".antt": "--"}
# in place of the sum of a crate for some of whose edits there was no time
LEFT = "left"
# more than any crate has edits
LATEST = 1_000_000


@dataclasses.dataclass(frozen=True)
class Function:
    """A function of a crate, with its text, and whether it has clauses of its own or of its trait. A method has an owner, which is not
    plain in an impl of a trait and in one of a type from another file."""

    module: str
    owner: str
    is_plain: bool
    name: str
    text: str
    has_clauses: bool

    def asked(self):
        """What `rattle check --only` takes: the end of the function's path, or its module where its path isn't plain."""
        if not self.is_plain:
            return self.module
        return "::".join(it for it in (self.owner or self.module, self.name) if it)

    def is_named(self, path):
        """Whether a line of the verdict that speaks of this path speaks of the function, or of a closure in it."""
        module = (f"{self.module}::" if self.module else "") + "(?:fn::)?"
        before = rf"(?:\w+::)*{self.owner}[\w+]*::" if self.owner else module
        return bool(re.match(rf"{before}{self.name}\b", path))


@dataclasses.dataclass(frozen=True)
class Edit:
    """An edit: its name, its text, its lines but for its twin's, and the functions that it changes, none where some line of it is in none."""

    name: str
    text: str
    lines: str
    functions: frozenset


def function_at(file, text, number):
    """The function at a line, counted from 0; None where the line is in none."""
    lines = text.split("\n")
    for first in range(number, -1, -1):
        head = HEAD.match(lines[first])
        if head:
            # the brace that ends a body, also an empty one, stands as far in as the head
            end = next(it for it in range(first, len(lines)) if re.fullmatch(rf"{head[1]}(?:\S.*)?\}}[,;]*", lines[it]))
            module = re.fullmatch(r"src/(.*)\.rt", file)[1].replace("/", "::")
            module = "" if module in ("lib", "main") else module
            owner, is_of_a_trait = owner_of(lines, first) if head[1] else ("", False)
            is_plain = not owner or not is_of_a_trait and bool(re.search(rf"\b(?:struct|enum) {owner}\b", text))
            # A body whose brace stands on a line of its own stands behind clauses.
            has_clauses = is_of_a_trait or head[1] + "{" in lines[first:end]
            found = Function(module, owner, is_plain, head[2], "\n".join(lines[first : end + 1]), has_clauses)
            return found if number <= end else None
    return None


def owner_of(lines, first):
    """The type or the trait whose method begins at this line, and whether it is a trait's."""
    head = next(lines[it] for it in range(first, -1, -1) if OWNER.match(lines[it]))
    of_a_trait = OF_A_TRAIT.match(head)
    return (of_a_trait or INHERENT.match(head))[1], bool(of_a_trait) or "trait " in head


def changes(lines, folder):
    """The file, the number and the new text of each line that an edit changes; None where it doesn't fit. No line is added."""
    texts, why = rt.edited(lines, folder)
    if why:
        return None
    both = {file: (rt.rtlib.text_of(f"{folder}/{file}").split("\n"), text.split("\n")) for file, text in texts.items()}
    return [(file, number, new) for file, (before, after) in both.items() for number, new in enumerate(after) if new != before[number]]


def functions_of(lines, folder):
    """The functions that an edit changes; none where it changes something else. A helper may stand in place of a comment."""
    found = set()
    for file, number, _ in changes(lines, folder) or ():
        text = rt.rtlib.text_of(f"{folder}/{file}")
        if not file.startswith("src/"):
            return frozenset()
        if not text.split("\n")[number].lstrip().startswith("//"):
            found.add(function_at(file, text, number))
    return frozenset() if None in found else frozenset(found)


def table_of(folder):
    """The texts of a crate's edits by their names; none where it has no edits."""
    path, found, name = f"{folder}/edits.txt", {}, None
    for number, line in enumerate(rt.rtlib.text_of(path).split("\n") if os.path.isfile(path) else [], 1):
        if line.startswith("edit: "):
            name = line.removeprefix("edit: ")
            if name in found or not re.fullmatch(r"\w+", name):
                sys.exit(f"{path}:{number}: an edit before has this name, or it is none")
            found[name] = ""
        elif line and (name is None or not LINE.match(line)):
            sys.exit(f"{path}:{number}: this is no line of an edit")
        elif line:
            found[name] += f"{line}\n"
    return found


def edits_of(crate):
    for name, text in sorted(table_of(crate.folder).items()):
        lines = OF_TWIN.sub("", text)
        yield Edit(name, text, lines, functions_of(lines, crate.folder))


def looks_into(one, other):
    """Whether the proof of one function may look into the other."""
    return not other.has_clauses and bool(re.search(rf"\b{other.name}\b", one.text))


def meet(one, other):
    """Whether one of two edits may change what is found of the other."""
    pairs = [(mine, its) for mine in one.functions for its in other.functions]
    return any(mine == its or looks_into(mine, its) or looks_into(its, mine) for mine, its in pairs)


def parts_of(edits):
    """The edits in parts in which none meets another."""
    parts = []
    for edit in edits:
        part = next((it for it in parts if not any(meet(edit, other) for other in it)), None)
        if part is None:
            parts.append([edit])
        else:
            part.append(edit)
    return parts


def together(crate, part):
    """The texts of the files with all edits of a part in place."""
    merged = {}
    for edit in part:
        for file, number, new in changes(edit.lines, crate.folder):
            merged.setdefault(file, rt.rtlib.text_of(f"{crate.folder}/{file}").split("\n"))[number] = new
    return {file: "\n".join(lines) for file, lines in merged.items()}


def only(part):
    """The words that ask a check for the functions that the edits of a part change."""
    asked = sorted({it.asked() for edit in part for it in edit.functions})
    return [*JOBS, *[word for it in asked for word in ("--only", it)]]


def verdict(crate, part, kept):
    """What a check of the functions says with all edits of a part in place; None where the prover doesn't get so far."""
    texts = together(crate, part)
    said = rt.checked(crate, texts, only(part), kept).stdout
    lines = said.rstrip("\n").split("\n")
    return said if lines[-1].startswith("only=") and not any(rt.unread(it, texts) for it in lines) else None


def left_open(crate, said):
    """The functions in which a check leaves a clause open, or an invariant that carries one."""
    found = set()
    for file, number, goal in OPEN.findall(said):
        text, number = rt.rtlib.text_of(f"{crate.folder}/{file}"), int(number) - 1
        # a function's place is that of its first attribute
        number += next(k for k, line in enumerate(text.split("\n")[number:]) if not line.lstrip().startswith("#["))
        if OF_A_CLAUSE.match(goal):
            found.add(function_at(file, text, number))
    return found


def refusals(crate, part, kept):
    """Of the edits of a part that are refused, whether that shows something by itself, by their names; halves are tried where the prover
    doesn't get so far."""
    said = verdict(crate, part, kept)
    if said is None:
        middle = len(part) // 2
        return {**refusals(crate, part[:middle], kept), **refusals(crate, part[middle:], kept)} if middle else {}
    wrong, is_open = re.findall(WRONG.format(crate.name), said, re.M), left_open(crate, said)
    found = [edit for edit in part if any(it.is_named(path) for it in edit.functions for path in wrong)]
    return {edit.name: not is_open.isdisjoint(edit.functions) for edit in found}


# What the last check of each crate said, whoever called it.
HEARD = {}


def listening(crate, *given, check=rt.checked):
    ran = check(crate, *given)
    HEARD[crate.name] = ran.stdout
    return ran


rt.checked = listening


def is_refusal(outcome):
    """Whether the kit's answer to an edit that was tried alone says that it was refused: some kits answer that, others how the check ended."""
    return outcome in [getattr(rt, ending, True) for ending in ("REFUSED", "AT_LIMIT")]


def alone(crate, edit, kept):
    """Whether an edit that is tried alone is refused, whether the refusal shows something by itself, and what is said of it."""
    with tempfile.TemporaryDirectory() as folder:
        path = f"{folder}/{edit.name}.edit"
        with open(path, "w") as file:
            file.write(edit.lines)
        outcome, said = rt.must_fail(crate, path, JOBS, kept)
    shows = is_refusal(outcome) and bool(left_open(crate, HEARD.get(crate.name, "")))
    return is_refusal(outcome), shows, said.replace("must-fail ", "alone: ").replace(".edit", "")


def lines_of_twin(text):
    """The lines of the twin of an edit with this text, as those of an edit."""
    lines = [line for line in text.split("\n") if not line.startswith("new:")]
    return "\n".join(f"new: {line[len('twin: '):]}" if line.startswith("twin: ") else line for line in lines)


def twin_of(crate, edit):
    """The twin of an edit, as an edit; None where it has none."""
    lines = lines_of_twin(edit.text)
    if not changes(lines, crate.folder):
        return None
    changed = functions_of(lines, crate.folder)
    # where one of the two changes more than functions, the whole crate tells
    return Edit(edit.name, edit.text, lines, edit.functions | changed if edit.functions and changed else frozenset())


def proved(crate, part, kept):
    """The names of the twins of a part that are proved; halves are tried where not all are."""
    said = rt.checked(crate, together(crate, part), only(part), kept).stdout.rstrip("\n").split("\n")[-1]
    if re.fullmatch(r"only=(\d+) proved=\1|logic=proved.*", said):
        return [twin.name for twin in part]
    middle = len(part) // 2
    return proved(crate, part[:middle], kept) + proved(crate, part[middle:], kept) if middle else []


def proved_twins(crate, edits, kept, kept_whole):
    """The names of those of the edits whose twins are proved."""
    twins = [twin for twin in (twin_of(crate, edit) for edit in edits) if twin]
    apart = [proved(crate, part, kept) for part in parts_of([it for it in twins if it.functions])]
    whole = [proved(crate, [it], kept_whole) for it in twins if not it.functions]
    return {name for names in [*apart, *whole] for name in names}


def tried(crate, is_over):
    """For each edit of the crate whether it is refused, and shows something; None where the time was over before. What is said of it is
    printed."""
    edits, said = list(edits_of(crate)), {}
    with tempfile.TemporaryDirectory() as kept, tempfile.TemporaryDirectory() as kept_whole:
        shown, late = tried_together(crate, [it for it in edits if it.functions], kept, is_over)
        # the whole crate tells of the others, and of their twins
        edits = [it if it.name in shown else dataclasses.replace(it, functions=frozenset()) for it in edits if it.name not in late]
        for edit in edits:
            said[edit.name] = f"{crate.name}/{edit.name}: refused"
            if edit.name not in shown and is_over():
                late.add(edit.name)
            elif edit.name not in shown:
                is_refused, shows, said[edit.name] = alone(crate, edit, kept_whole)
                if is_refused:
                    shown[edit.name] = shows
        doubted = [it for it in edits if shown.get(it.name) is False]
        if is_over():
            late.update(it.name for it in doubted)
        else:
            tell_doubted(doubted, proved_twins(crate, doubted, kept, kept_whole), shown, said)
    print("\n".join(said[name] for name in said if name not in late), flush=True)
    wrong = [name for name in table_of(crate.folder) if name not in late and not shown.get(name)]
    print("".join(f"failed: the edit {crate.name}/{name}\n" for name in wrong), end="", flush=True)
    return [None if name in late else name not in wrong for name in table_of(crate.folder)]


def tried_together(crate, edits, kept, is_over):
    """Of edits of functions, whether the refusal of each that is refused shows something, by their names, and those for which there was no time."""
    shown, late = {}, set()
    for part in parts_of(edits):
        if is_over():
            late.update(it.name for it in part)
        else:
            shown.update(refusals(crate, part, kept))
    return shown, late


def tell_doubted(doubted, twins, shown, said):
    """Says of each edit that no open clause refuses whether it shows something: it does where its twin is among those that are proved."""
    for name in (it.name for it in doubted):
        shown[name] = name in twins
        said[name] += ", by no clause that is left open; its twin is proved" if shown[name] else ", but SHOWS NOTHING: no clause is left open, and no twin is proved"


def sum_of(crate):
    """The digest of everything that the answers of a crate's edits depend on: the edits, the crate's sources without comments, what the crates
    below state, and the kit's logic. None if a library below isn't at hand."""
    stated = stated_to(crate)
    if stated is None:
        return None
    logic = subprocess.run(["rt", "version"], capture_output=True, check=True, text=True).stdout.partition("logic ")[2]
    said = [logic, *sources_of(crate), stated, *(f"{edit.name}\n{edit.text}" for edit in edits_of(crate))]
    return hashlib.sha256("\n".join(said).encode()).hexdigest()


def sources_of(crate):
    """The crate's line in crates.txt, and each of its files with its name and without comment lines, which change no answer."""
    with open(f"{HOME}/crates.txt") as file:
        yield from (line for line in file if re.match(rf"{crate.name}[ :]", line))
    script = 'home=$1; . "$home/build/program.sh"; cd "$home"; find_sources "$2"'
    found = subprocess.run(["sh", "-c", script, "sh", HOME, crate.name], capture_output=True, check=True, text=True).stdout
    for path in sorted(found.rstrip("\0").split("\0")):
        with open(os.path.join(HOME, path)) as file:
            lines = [line for line in file if not line.lstrip().startswith(COMMENT.get(os.path.splitext(path)[1], "\0"))]
        yield f"{path}\n{''.join(lines)}"


def kept_sums(*places):
    """The sum of each crate all of whose edits were refused, as the first of these files that is there has it."""
    for place in places:
        if os.path.isfile(place):
            with open(place) as file:
                return dict(line.split() for line in file)
    return {}


def keep(sums):
    os.makedirs(os.path.dirname(MADE), exist_ok=True)
    with open(MADE, "w") as file:
        file.writelines(f"{name} {sums[name]}\n" for name in sorted(sums))


def lanes(crates, left, is_over):
    """A lane of the kit for each crate: its work, its memory, and the call."""

    def task(crate):
        return [], work_of(crate, left), rt.need(crate), lambda given, jobs: tried(crate, is_over)

    return {(it.name, "edits"): task(it) for it in crates}


def work_of(crate, left):
    """The work of a crate, of which the kit begins with the most: its edits, and more where some of them were left."""
    return len(table_of(crate.folder)) + (LATEST if crate.name in left else 0)


def is_provided(crates):
    """Whether what the crates below these state is at hand, kept from before or built now."""
    os.makedirs(check.KEPT, exist_ok=True)
    below = {dep.name for crate in crates for dep in crate.below()}
    return all(check.provide(dep, os.cpu_count()) for dep in rt.rtlib.crates_below(HOME) if dep.name in below)


def main():
    options = argparse.ArgumentParser(description=__doc__, formatter_class=argparse.RawDescriptionHelpFormatter)
    options.add_argument("--over-gate", action="store_true")
    options.add_argument("--changed", action="store_true")
    options.add_argument("--minutes", type=int)
    options.add_argument("--list", action="store_true")
    options.add_argument("crates", nargs="*")
    chosen = options.parse_args()
    end = None if chosen.minutes is None else time.monotonic() + 60 * chosen.minutes
    os.chdir(HOME)
    rt.rtlib.guarded()
    if chosen.over_gate:
        rt.rtlib.Crate = rt.Crate
        rt.Crate.cuts_libraries = True
    crates = [it for it in rt.rtlib.crates_below(HOME) if os.path.isfile(f"{it.folder}/edits.txt")]
    names = {it.name for it in crates}
    crates = [it for it in crates if not chosen.crates or it.name in chosen.crates]
    if not chosen.over_gate and not is_provided(crates):
        return 1
    sums, before = {it.name: sum_of(it) for it in crates}, kept_sums(KEPT) if chosen.changed else {}
    refused_before = [it for it in crates if sums[it.name] and before.get(it.name) == sums[it.name]]
    for crate in refused_before:
        print(f"{crate.name}: its edits were refused before, of the same sources over the same statements")
    crates = [it for it in crates if it not in refused_before]
    if chosen.list:
        print("\n".join(f"{it.name}: {len(list(edits_of(it)))}" for it in crates))
        return 0
    known = kept_sums(MADE, KEPT)
    left = {name for name, its in known.items() if its == LEFT}
    found = rt.in_lanes(lanes(crates, left, lambda: end is not None and time.monotonic() >= end)) if crates else {}
    outcomes = {name: its for (name, _), its in found.items()}
    others = {name: its for name, its in known.items() if name in names and name not in sums}
    keep({**others, **told(sums, outcomes)})
    return ended(outcomes)


def told(sums, outcomes):
    """What is kept of the crates: the sum where all edits were refused, and that some are left where none was wrong and the time was over."""
    of_all = {name: its for name, its in sums.items() if its and all(outcomes.get(name, []))}
    return {**of_all, **{name: LEFT for name, its in outcomes.items() if None in its and False not in its}}


def ended(outcomes):
    """Prints how many edits were left, and the last line; the status."""
    late = {name: its.count(None) for name, its in outcomes.items() if None in its}
    if late:
        each = ", ".join(f"{name} {late[name]}" for name in sorted(late))
        print(f"no time was left for {sum(late.values())} edits, which the next run tries first: {each}")
    passed, failed = (sum(its.count(it) for its in outcomes.values()) for it in (True, False))
    print(f"{passed} passed, {failed} failed")
    return 1 if failed else 0


if __name__ == "__main__":
    sys.exit(main())
