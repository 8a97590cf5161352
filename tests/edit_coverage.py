#!/usr/bin/env python3
"""Whether each public function whose contract ensures something has an edit of crates/CRATE/edits.txt or crates/CRATE/must-fail, and
whether each edit and its twin fit the sources: what they change stands there once.

An edit is a function's where it changes its body, or that of the one function that its body passes on to: a body that is a call and
nothing else. Public are the functions that a crate's root file exports, the methods of its types, also those of traits, and what C
calls. A function ensures something where it has an `ensures`, or its trait has one, or the impl of the trait says what the trait's
clauses mean there, where it is none of this repository's. A law, whose body is empty, has nothing to change, and is left out.

Usage: python3 tests/edit_coverage.py [--list]

It prints for each crate how many of its public functions ensure something, and how many of these have an edit; which edits don't fit; the
functions that have no edit and stand in no line of EXCEPTIONS, and the lines that no longer apply. --list prints the functions of EXCEPTIONS too, as the
lines of a table to put in its place. The last line is 'N passed, M failed'.
"""

import argparse
import dataclasses
import glob
import os
import re
import sys

sys.dont_write_bytecode = True
import edits as tried  # noqa: E402
from harness import HOME, Count, read  # noqa: E402

NONE_YET = "none yet"
OF_A_FIELD = "it lends out a field, and nothing else of that type lives as long"
OF_THE_SYSTEM = "of the files that the system keeps nothing is known, so every body meets its clauses; tests/outputs.py tells whether it is right"
OF_TESTS = "it makes what tests run on, which tell whether it is right"
# by the path of a function, with its crate
EXCEPTIONS = {
    "sp_disk::errors::Errors::stream": OF_A_FIELD,
    "sp_disk::host::Host::close": OF_THE_SYSTEM,
    "sp_disk::host::Host::make": OF_THE_SYSTEM,
    "sp_disk::host::Host::open": OF_THE_SYSTEM,
    "sp_disk::host::Host::open_device": OF_THE_SYSTEM,
    "sp_disk::host::Host::remove": OF_THE_SYSTEM,
    "sp_disk::host::Host::rename": OF_THE_SYSTEM,
    "sp_disk::host::Host::status": OF_THE_SYSTEM,
    "sp_disk::host::Host::stderr": OF_THE_SYSTEM,
    "sp_disk::host::Host::stdin": OF_THE_SYSTEM,
    "sp_disk::host::Host::stdout": OF_THE_SYSTEM,
    "sp_disk::host::Host::words": OF_THE_SYSTEM,
    "sp_disk::host::HostDevice::write": OF_THE_SYSTEM,
    "sp_disk::host::HostPart::flush": OF_THE_SYSTEM,
    "sp_disk::host::HostPart::sync": OF_THE_SYSTEM,
    "sp_disk::host::HostPart::write": OF_THE_SYSTEM,
    "sp_disk::output::Output::device": OF_TESTS,
    "sp_phase::store::Store::graph": OF_A_FIELD,
    "sp_phase::store::Store::table": OF_A_FIELD,
    "tests_samples::arcs_of": OF_TESTS,
    "tests_samples::graph_of": OF_TESTS,
    "tests_samples::rounds::any_tasks": OF_TESTS,
}
ENSURES = re.compile(r"^\s*ensures\*? ", re.M)
# what says in the impl of a trait what the trait's clauses mean there
MEANS = re.compile(r"^\s*ghost (?!use\b)\w+ *=", re.M)
OF_C = re.compile(r'\s*pub extern "C" fn')
TRAIT = re.compile(r"impl\b.*?(\w+)(?:<[^{]*>)? for ")
WORD = re.compile(r"[A-Za-z_]\w*")
# a body that is one call, of a function by its path or of a method
CALL = re.compile(r"(?:return )?(?P<before>(?:\w+::)*|(?:\w+\.)+)(?P<name>\w+)(?:::<[^(]*>)?\((?P<rest>(?:[^(){};]|\(\))*)\)\??;?", re.S)


@dataclasses.dataclass(frozen=True)
class Public:
    """A function of a crate: what the edits know of it, whether others can call it, whether it ensures something, and its body."""

    crate: str
    function: tried.Function
    is_public: bool
    ensures: bool
    body: str

    def name(self):
        it = self.function
        return "::".join(part for part in (self.crate, it.module, it.owner, it.name) if part)


def exported(crate):
    """The names that a crate's root file makes public."""
    text = read(f"{HOME}/crates/{crate}/src/lib.rt")
    names = set(re.findall(r"^pub (?:const )?(?:fn|struct|enum|trait|type) (\w+)", text, re.M))
    for one, several in re.findall(r"^pub use [\w:]*?(?:(\w+)|\{([^}]*)\});", text, re.M):
        names |= set(WORD.findall(one or several))
    return names


def block(lines, first):
    """The lines of the item at the margin whose first line this is."""
    return lines[first : next(it for it in range(first, len(lines)) if lines[it].startswith("}")) + 1]


def ensured_by_traits():
    """The traits of this repository, and those of their methods that have an `ensures` there, each with its trait."""
    traits, found = set(), set()
    for path in glob.glob(f"{HOME}/crates/*/src/**/*.rt", recursive=True):
        lines = read(path).split("\n")
        for number, line in enumerate(lines):
            trait = re.match(r"(?:pub )?trait (\w+)", line)
            if trait:
                traits.add(trait[1])
            for head, text in methods(block(lines, number)) if trait else ():
                if ENSURES.search(text):
                    found.add((trait[1], head))
    return traits, found


def methods(lines):
    """The name and the text of each method of a trait: from its head up to the next one's."""
    heads = [it for it, line in enumerate(lines) if tried.HEAD.match(line)]
    for head, end in zip(heads, [*heads[1:], len(lines)]):
        yield tried.HEAD.match(lines[head])[2], "\n".join(lines[head:end])


def parted(text):
    """A function's head with its clauses, and its body; None in place of the body where it has none."""
    lines = text.split("\n")
    indent = re.match(r" *", lines[0])[0]
    for number, line in enumerate(lines):
        # behind clauses the brace that begins the body stands on a line of its own, as far in as the head
        if re.fullmatch(rf"{indent}\S.*\{{|{indent}\{{", line):
            return "\n".join(lines[: number + 1]), "\n".join(lines[number + 1 : -1]).strip()
        if re.fullmatch(rf"{indent}(?:\S.*)?\{{.*\}}", line):
            return "\n".join(lines[: number + 1]), line[line.index("{") + 1 : -1].strip()
    return text, None


def functions(crate, ensured):
    """The functions of a crate that aren't of its tests."""
    public = exported(crate)
    for path in sorted(glob.glob(f"{HOME}/crates/{crate}/src/**/*.rt", recursive=True)):
        file = os.path.relpath(path, f"{HOME}/crates/{crate}")
        if "/tests" in file:
            continue
        text = read(path)
        lines = text.split("\n")
        owner = None
        for number, line in enumerate(lines):
            if tried.OWNER.match(line):
                owner = number
            head = tried.HEAD.match(line)
            if not head or head[1] and (owner is None or "trait " in lines[owner].split("{")[0]):
                continue
            it = tried.function_at(file, text, number)
            contract, body = parted(it.text)
            trait = TRAIT.match(lines[owner]) if head[1] else None
            traits, those = ensured
            means = bool(trait) and ((trait[1], it.name) in those or trait[1] not in traits and bool(MEANS.search("\n".join(block(lines, owner)))))
            is_called = bool(OF_C.match(line)) or (bool(trait) or line.lstrip().startswith(("pub fn", "pub const fn"))) and (it.owner or it.name) in public
            yield Public(crate, it, is_called, means or bool(ENSURES.search(contract)), body)


def passed_on(one, of_all):
    """The function that a function's body passes on to, where the body is that call and nothing else; of several of the name none."""
    call = CALL.fullmatch(one.body or "")
    if not call:
        return None
    named = [it for it in of_all if it.function.name == call["name"] and it is not one]
    of = re.split(r"::|\.", call["before"])[-2] if call["before"] else ""
    if call["before"] == "self." or of == "Self":
        named = [it for it in named if it.function.owner == one.function.owner and it.crate == one.crate]
    elif call["before"].endswith("."):
        named = [it for it in named if it.function.owner]
    else:
        named = [it for it in named if it.function.owner == (of if of[:1].isupper() else "")]
    found = [it for it in named if it.crate == one.crate] or named
    return found[0] if len(found) == 1 else None


def edits_of(crate):
    """The texts of a crate's edits by their names, of its table and of must-fail/."""
    alone = {os.path.basename(path).removesuffix(".edit"): read(path) for path in glob.glob(f"{crate.folder}/must-fail/*.edit")}
    return {**tried.table_of(crate.folder), **alone}


def edited(crate):
    """The functions of a crate that an edit changes."""
    found = set()
    for text in edits_of(crate).values():
        found |= tried.functions_of(tried.OF_TWIN.sub("", text), crate.folder)
    return {(crate.name, it) for it in found}


def fit(count, crate):
    """Whether each edit of a crate fits the sources, and its twin."""
    for name, text in edits_of(crate).items():
        for kind, lines in (("edit", tried.OF_TWIN.sub("", text)), ("twin", tried.lines_of_twin(text))):
            why = tried.rt.edited(lines, crate.folder)[1]
            count.of(f"{crate.name}/{name}: the {kind} doesn't fit: {why}", not why)


def has_edit(one, of_all, of_edits):
    """Whether an edit changes the function, or the one that it passes on to."""
    seen = []
    while one and one not in seen:
        if (one.crate, one.function) in of_edits:
            return True
        seen.append(one)
        one = passed_on(one, of_all)
    return False


def table(names):
    """The lines of EXCEPTIONS for these functions, each with its reason."""
    words = {value: name for name, value in globals().items() if name.isupper() and isinstance(value, str)}
    return "\n".join(f'    "{name}": {words[reason]},' for name, reason in sorted(names.items()))


def main():
    options = argparse.ArgumentParser(description=__doc__, formatter_class=argparse.RawDescriptionHelpFormatter)
    options.add_argument("--list", action="store_true")
    chosen = options.parse_args()
    os.chdir(HOME)
    all_crates = tried.rt.rtlib.crates_below(HOME)
    crates = [it for it in all_crates if os.path.exists(f"{it.folder}/src/lib.rt")]
    ensured = ensured_by_traits()
    of_all = [it for crate in crates for it in functions(crate.name, ensured)]
    of_edits = set().union(*(edited(it) for it in crates))
    count, without = Count(), set()
    for crate in all_crates:
        fit(count, crate)
    for crate in crates:
        asked = [it for it in of_all if it.crate == crate.name and it.is_public and it.ensures and it.body]
        none = [it.name() for it in asked if not has_edit(it, of_all, of_edits)]
        without |= set(none)
        if asked:
            print(f"{crate.name}: {len(asked)} public functions ensure something, {len(asked) - len(none)} have an edit")
        for it in asked:
            count.of(f"{it.name()} has no edit", it.name() not in none or it.name() in EXCEPTIONS)
    for name in sorted(EXCEPTIONS.keys() - without):
        count.of(f"{name} has an edit, or isn't there: it is no exception", False)
    if chosen.list:
        print(table({name: EXCEPTIONS.get(name, NONE_YET) for name in without}))
    return count.end()


if __name__ == "__main__":
    sys.exit(main())
