"""What crates state to one that uses them: all that the prover takes of them there.

A library in out/rlib has it as text: the heads of functions with their clauses, types, definitions and lemmas, with no body of a
function. Of these texts a crate takes the functions that it names and the methods of traits, all types, and each definition and lemma
that the crate itself, such a head or another of them names. So what was found of a crate still holds where only bodies, private
functions and what nothing of the crate names have changed below it.
"""

import os
import re

PUBLIC = re.compile(r"\s*(?:# \[.*?\] )*pub (?!\()")
FUNCTION = re.compile(r"\s*(?:# \[.*?\] )*(?:pub (?:\( \w+ \) )?)?(?:const |unsafe |extern \"C\" )*fn (\w+)")
# what a crate takes only where it names it; modules it takes by what they hold
BY_NAME = re.compile(r"(?:# \[.*?\] )*(?:pub (?:\( \w+ \) )?)?(?:const|static) (\w+)")
MODULE = re.compile(r"(?:pub (?:\( \w+ \) )?)?mod \w+ ;|(?:pub )?mod \w+$")
# the head of a block all of whose functions other crates see, and may call without naming them
OF_A_TRAIT = re.compile(r"(?:# \[.*?\] )*(?:(?:pub )?(?:unsafe )?trait |(?:unsafe )?impl\b.* for )")
IMPORT = re.compile(r"\s*(?:ghost )?(pub )?use (.*?);?$")
NAME = re.compile(r"\w+")
# a definition or a lemma by its whole path, in antt or in an attribute
PATH = re.compile(r"\bRattle(?:\.[\w◌-]+)+|\b\w+::(?:specs|proofs)(?:::\w+)+")
# where a definition or a lemma begins
DECLARED = re.compile(r"(?:(?:pub|abbrev|opaque|private|mutual|instance) )*(?:(?:record|data) )?(?:pub )?(\S+)(?= .*:(?:\s|$)|:)")


def texts_below(folder, ending):
    """The texts of the files with this ending in a folder, by their paths there."""
    found = {}
    for place, _, files in os.walk(folder):
        for file in files:
            if file.endswith(ending):
                with open(os.path.join(place, file)) as text:
                    found[os.path.relpath(os.path.join(place, file), folder)] = text.read()
    return found


def of_use(lines, words):
    """The lines of a file of heads but for those of functions and constants that no crate with these words names, and of what is visible
    below; a head ends with a semicolon that stands apart."""
    block, is_left_out = "", False
    for line in lines:
        if line[:1].strip() and line.rstrip().endswith("{"):
            block = line
        elif line[:1] == "}":
            block = ""
        function, constant = FUNCTION.match(line), BY_NAME.match(line)
        if function and not OF_A_TRAIT.match(block):
            is_left_out = not PUBLIC.match(line) or function[1] not in words
        elif constant:
            is_left_out = constant[1] not in words
        if not is_left_out and not MODULE.match(line):
            yield line.replace("pub ( crate ) ", "")
        elif line.rstrip().endswith(" ;"):
            is_left_out = False


def imported(line):
    """Of a line that imports, where from and the names; None of any other."""
    found = IMPORT.match(line)
    if not found:
        return None
    place, _, names = found[2].partition("{")
    if not names:
        place, _, names = place.strip().rpartition(" ")
    return place.strip(" .:"), [it.strip() for it in names.rstrip(" };").split(",") if it.strip()]


def is_named(name, words, text):
    """Whether a text with these words may mean what is imported by this name, which may be that of an operator, as ◌≡◌ is."""
    parts = [it for it in name.split("◌") if it]
    return all(it in text for it in parts) and words.issuperset(it for it in parts if NAME.fullmatch(it))


def with_imports(imports, others):
    """A text, behind those of the imports whose names it has."""
    text = "\n".join(others)
    words = set(NAME.findall(text))
    used = [f"{place} {name}" for place, names in imports for name in names if is_named(name, words, text)]
    return "\n".join([*used, text]) if text.strip() else ""


def head_of(text, words):
    """The heads of a file that a crate with these words may stand on, behind what they name of the file's imports; and what they use by these."""
    lines = [line for line in of_use(text.split("\n"), words) if not line.startswith("pub use") or words & set(NAME.findall(line))]
    # a block that is empty now says nothing
    lines = re.sub(r"^(?:# \[(?!.* for ).*?\] )*impl (?!.* for )[^\n]*\{\n(?:\s*(?:ghost )?use [^\n]*\n)*\}$", "", "\n".join(lines), flags=re.M).split("\n")
    imports, others = [imported(line) for line in lines if imported(line)], [line for line in lines if line and not imported(line)]
    return with_imports(imports, others), list(uses_of(imports, "\n".join(others)))


def parts_of(text):
    """What a file of definitions and lemmas imports, and the lines of each of these by its name. A line further in, and an equation of an
    operator, go on with what stands before."""
    imports, parts, name = [], {}, ""
    for line in text.split("\n"):
        if line.startswith(("use ", "--", "mod ", "pub mod ")) or not line.strip():
            imports += [imported(line)] if line.startswith("use ") else []
            continue
        if line[:1].strip():
            found = DECLARED.match(line)
            first = line.split()[0]
            name = found[1] if found else first if first in parts else "" if line.startswith("module ") else name
        parts.setdefault(name, []).append(line)
    return imports, parts


def uses_of(imports, text):
    """The modules and names that a text uses by these imports, or by whole paths; a module that is used as a whole comes without a name."""
    words = set(NAME.findall(text))
    for place, names in imports:
        for name in names:
            if not place or place.endswith(" as"):
                yield place.removesuffix(" as") or name, None
            elif is_named(name, words, text):
                yield place, name
                yield f"{place}.{name}", None
    for path in PATH.findall(text):
        place, _, name = path.replace("::", ".").removeprefix("Rattle.").rpartition(".")
        yield f"Rattle.{place}", name
        yield f"Rattle.{place}.{name}", None


class Definitions:
    """A file of definitions and lemmas, and which of them are reached."""

    def __init__(self, text):
        self.imports, self.parts = parts_of(text)
        self.reached = set()

    def reach(self, name):
        """Reaches what has this name, or where no part has it, what names it; the parts that are new."""
        wanted = self.parts if name is None else {name} if name in self.parts else {it for it in self.parts if name in NAME.findall(self.text(it))}
        new = set(wanted) - self.reached
        self.reached |= new
        return new

    def text(self, part):
        return "\n".join(self.parts[part])

    def uses(self, part):
        """What a part uses, of other modules and of its own, which is told by None."""
        text = self.text(part)
        yield from uses_of(self.imports, text)
        words = set(NAME.findall(text))
        yield from ((None, it) for it in self.parts if it in words or it and not NAME.fullmatch(it) and it.strip("◌") in text)

    def told(self):
        lines = [line for part in self.parts if part in self.reached for line in self.parts[part]]
        return with_imports(self.imports, lines)


def named_of(modules, uses):
    """The definitions and lemmas of these files that are used, and those that such a one uses in turn, by their files."""
    files = {module: Definitions(text) for module, text in modules.items()}
    left = list(uses)
    while left:
        module, name = left.pop()
        if module in files:
            file = files[module]
            left += [(place or module, it) for part in file.reach(name) for place, it in file.uses(part)]
    return {module: file.told() for module, file in files.items()}


def own_uses(text):
    """What a file of the crate itself uses."""
    lines = text.split("\n")
    imports = [imported(line) for line in lines if imported(line)]
    return uses_of(imports, "\n".join(line for line in lines if not imported(line)))


def stated_to(crate):
    """What the crates below a crate state to it, as one text; None where the library of one isn't at hand."""
    below = sorted(crate.below(), key=lambda it: it.name)
    if not all(os.path.isdir(f"{it.rlib}/lang") for it in below):
        return None
    own = [text for part in ("src", "specs", "proofs") for text in texts_below(f"{crate.folder}/{part}", "t").values()]
    words = set(NAME.findall("\n".join(own)))
    heads, modules, uses = {}, {}, [it for text in own for it in own_uses(text)]
    for it in below:
        for path, text in texts_below(f"{it.rlib}/lang/src", ".rt").items():
            heads[f"{it.name}/{path}"], used = head_of(text, words)
            uses += used
        for path, text in texts_below(f"{it.rlib}/lang/antt", ".antt").items():
            modules[f"Rattle.{it.name}." + path.removesuffix(".antt").replace("/", ".")] = text
    told = {**heads, **named_of(modules, uses)}
    return "\n".join(f"{name}\n{text}" for name, text in sorted(told.items()) if text)
