"""Which words are refused, for every command: options that exclude one another, both ends of each range, defaults, options that stand twice,
values and files that are missing, and words that the command doesn't know. `lacking` reads from the sources what must be in the tables."""

import glob
import re

from harness import HOME, read

from .shared import DIAMOND, DIAMOND_TREE, FROM_1, GREATEST, Case, arcs_of, packed

FILES = {
    "g.gr": DIAMOND,
    "g.ss": FROM_1,
    "t.ss": "p aux sp ss 1\ns 4\n",
    "g.pairs": "p pairs 1\nq 1 4\n",
    "g.tree": DIAMOND_TREE,
    "g.rep": "p rep 1 1\n",
    "g.off": "p off 1 1\no 1 1 2 3\n",
}
TO_4 = "d 1 4 5 2\n"
FOREST = "p near 4 1\nv 1 0 0 1\nv 2 3 1 1\nv 3 3 1 1\nv 4 5 2 1\ne 4\n"

# by each command the files and the options that it needs, and what it then writes
NEEDED = {
    "tree": (("g.gr", "g.ss"), {"--delta": "3"}, DIAMOND_TREE),
    "pairs": (("g.gr", "g.pairs"), {"--delta": "3"}, TO_4),
    "matrix": (("g.gr", "g.ss", "t.ss"), {}, TO_4),
    "nearest": (("g.gr", "g.ss"), {}, FOREST),
    "check": (("g.gr", "g.tree"), {}, "yes\n"),
    "pack": (("g.gr",), {}, packed(4, arcs_of(DIAMOND)).decode("latin-1")),
    "replay": (("g.rep",), {}, "t 0 0\nclosed yes\n"),
    "offers": (("g.off",), {}, "w 1 2 3\ne 1\n"),
}
COMMANDS = tuple(NEEDED)
# the names of a command's files, as usage has them
FILE_NAMES = {
    "tree": ("GR", "SS"),
    "pairs": ("GR", "PAIRS"),
    "matrix": ("GR", "SOURCES", "TARGETS"),
    "nearest": ("GR", "SS"),
    "check": ("GR", "TREE"),
    "pack": ("GR",),
    "replay": ("FILE",),
    "offers": ("FILE",),
}

RUNS = ("tree", "pairs", "matrix", "nearest")
LISTS = ("tree", "matrix", "nearest")
IN_GRAPHS = (*RUNS, "check", "pack")
# the commands of each flag
FLAGS = {
    "--towards": IN_GRAPHS,
    "--both-ways": IN_GRAPHS,
    "--far-ok": RUNS,
    "--progress": (*RUNS, "pack"),
    "--routes": ("pairs",),
    "--all": ("check",),
    "--svg": ("replay",),
}
# the name of each option's value, its commands, and a value that changes nothing there, where there is one
VALUED = {
    "--delta": ("D", RUNS, "3"),
    "--workers": ("W", (*RUNS, "pack"), "2"),
    "--within": ("L", ("tree", "nearest", "check"), "5"),
    "--source": ("V", LISTS, None),
    "--target": ("V", ("matrix",), None),
    "--sources": ("A-B", LISTS, "1-1"),
    "--pred-bits": ("P", COMMANDS, "28"),
    "--output": ("OUT", COMMANDS, "-"),
}
REPEATED = ("--source", "--target")

# Words of a command of which two exclude one another, as they are read, and what each stands for in an error.
CONFLICTS = [
    *((command, words, *first) for command in IN_GRAPHS for words, first in (
        ("--towards --both-ways", ("--towards", "--both-ways")),
        ("--both-ways --towards", ("--both-ways", "--towards")),
    )),
    *((command, words, *first) for command in ("tree", "nearest") for words, first in (
        ("g.ss --source 1", ("[SS]", "--source <V>")),
        ("--source 1 g.ss", ("--source <V>", "[SS]")),
        ("--source 1 --sources 1-1", ("--source <V>", "--sources <A-B>")),
        ("--sources 1-1 --source 1", ("--sources <A-B>", "--source <V>")),
    )),
    ("matrix", "g.ss --source 1 --sources 1-1", "--source <V>", "--sources <A-B>"),
    ("matrix", "g.ss --sources 1-1 --source 1", "--sources <A-B>", "--source <V>"),
    ("matrix", "g.ss t.ss --source 1", "[TARGETS]", "--source <V>"),
    ("matrix", "--source 1 g.ss t.ss", "--source <V>", "[TARGETS]"),
    ("matrix", "g.ss t.ss --target 4", "[TARGETS]", "--target <V>"),
    ("matrix", "--target 4 g.ss t.ss", "--target <V>", "[TARGETS]"),
    # a single list is none too many, unless both are given by number
    ("matrix", "g.ss --source 1 --target 4", "[SOURCES]", "--source <V> --target <V>"),
    ("matrix", "--target 4 --source 1 g.ss", "[SOURCES]", "--source <V> --target <V>"),
    ("matrix", "g.ss t.ss --source 1 --target 4", "[TARGETS]", "--source <V> --target <V>"),
]
# by what stands for it in an error, the name that an argument has in the sources
NAMES = {"[SS]": "SS", "[SOURCES]": "SS", "[TARGETS]": "TARGETS"}


def excluded():
    """Each two arguments that exclude one another by the table, as the sources name them."""
    for _, _, one, other in CONFLICTS:
        for each in re.findall(r"--[\w-]+|\[\w+\]", other):
            yield frozenset(NAMES.get(word, word.split()[0].strip("-")) for word in (one, each))


# the files and options that stand in for a file, or are missing: the words behind the graph, and what is missing
MISSING = [
    ("tree", "--delta 3", "<SS>"),
    ("tree", "--delta 3 --sources 1-1", "<SS>"),
    ("tree", "g.ss", "--delta <D>"),
    ("tree", "--source 1", "--delta <D>"),
    ("tree", "", "--delta <D> <SS>"),
    ("pairs", "--delta 3", "<PAIRS>"),
    ("pairs", "g.pairs", "--delta <D>"),
    ("pairs", "", "--delta <D> <PAIRS>"),
    ("matrix", "", "<SOURCES> <TARGETS>"),
    ("matrix", "g.ss", "<TARGETS>"),
    ("matrix", "--source 1", "<SOURCES>"),
    ("matrix", "--target 4", "<SOURCES>"),
    ("matrix", "--target 4 --sources 1-1", "<SOURCES>"),
    ("nearest", "", "<SS>"),
    ("nearest", "--sources 1-1", "<SS>"),
    ("check", "", "<TREE>"),
]
# which an option may stand in for, as the sources have them
UNLESS = {("SS", "source"), ("SS", "source target"), ("TARGETS", "source"), ("TARGETS", "target")}

# the ends of each option's numbers, and the greatest number that clap reads for them
RANGES = {
    "source": (1, 2**32 - 2, 2**63 - 1),
    "target": (1, 2**32 - 2, 2**63 - 1),
    "within": (0, 2**44 - 2, 2**64 - 1),
    "delta": (1, 2**44 - 2, 2**64 - 1),
    "workers": (1, 64, 2**63 - 1),
}
# each option's value where it isn't given, and the commands for which that is so; each other option has none
DEFAULTS = {"delta": ("mean", ("matrix", "nearest")), "workers": ("1", VALUED["--workers"][1]), "pred-bits": ("28", COMMANDS)}
BITS = ("20", "24", "28", "32")


def line_of(command, *words, without=(), files=None):
    """The line of a command that has what it needs, but for these, and these words."""
    needed, options, _ = NEEDED[command]
    more = [word for option, value in options.items() if option not in without for word in (option, value)]
    return " ".join([command, *(needed if files is None else files), *more, *filter(None, words)])


def done(name, command, line):
    return Case(name, line, FILES, 0, NEEDED[command][2])


def refused(name, line, text):
    """Words that are refused, of whose text this is the beginning, up to the end of a line."""
    return Case(name, line, FILES, 1, text + "\n", is_begun=True)


def conflicts():
    for command, words, one, other in CONFLICTS:
        line = line_of(command, *words.split(), files=NEEDED[command][0][:1] if re.search(r"source|target", words) else None)
        several = other.count("<") > 1
        told = ":" + "".join(f"\n  {each} <V>" for each in re.findall(r"--\w+", other)) if several else f" '{other}'"
        yield refused("what excludes one another", line, f"error: the argument '{one}' cannot be used with{told}")
    for words in ("matrix --source 1 t.ss", "matrix g.ss --target 4", "matrix --source 1 --target 4", "tree --source 1", "nearest --source 1"):
        command, words = words.split(" ", 1)
        yield done("what doesn't", command, line_of(command, words, files=("g.gr",)))
    for command in LISTS:
        yield done("places of a file", command, line_of(command, "--sources 1-1"))


def missing():
    for command, words, lacking in MISSING:
        line = " ".join(filter(None, [command, "g.gr", words]))
        yield refused("what is missing", line, of_missing(re.findall(r"--\w+ <\w>|<\w+>", lacking)))
    for command in COMMANDS:
        options = [f"{option} <{VALUED[option][0]}>" for option in NEEDED[command][1]]
        yield refused("nothing but the command", command, of_missing([*options, *(f"<{name}>" for name in FILE_NAMES[command])]))


def of_missing(names):
    return "error: the following required arguments were not provided:" + "".join(f"\n  {name}" for name in names) + "\n"


def wrong(option, value, why):
    return f"error: invalid value '{value}' for '--{option} <{VALUED[f'--{option}'][0]}>': {why}"


def with_number(command, option, value, *more):
    """The line of a command whose option has this number, in place of the file that it stands in for."""
    files, without = NEEDED[command][0], ()
    if option == "source":
        files = files[:1] + files[2:]
    elif option == "target":
        files = files[:-1]
    elif option == "delta":
        without = ("--delta",)
    return line_of(command, f"--{option}={value}", *more, without=without, files=files)


def ranges():
    """One number inside of each end, and one outside."""
    for option, (low, high, most) in RANGES.items():
        for command in VALUED[f"--{option}"][1]:
            farthest = ("--pred-bits 20",) if option in ("delta", "within") else ()
            for value in (low - 1, high + 1, most):
                why = f"{value} is not in {low}..={high}" if value >= 0 else "invalid digit found in string"
                yield refused("outside of a range", with_number(command, option, value, *farthest), wrong(option, value, why))
            yield refused("beyond every number", with_number(command, option, most + 1), wrong(option, most + 1, "number too large to fit in target type"))
            for value, why in (("x", "invalid digit found in string"), ("1.5", "invalid digit found in string"), ("", "cannot parse integer from empty string")):
                yield refused("what is no number", with_number(command, option, value), wrong(option, value, why))
            yield from inside(command, option, low, high, farthest)


def inside(command, option, low, high, farthest):
    if option == "within":
        small = {"tree": "p spt 4 1\nv 1 0 0\ne 1\n", "nearest": "p near 4 1\nv 1 0 0 1\ne 1\n", "check": "no 2 6\n"}[command]
        yield Case("the lowest limit", with_number(command, option, low), FILES, 3 if command == "check" else 0, small)
        yield done("the greatest limit", command, with_number(command, option, high, *farthest))
    elif option in ("source", "target"):
        lowest = with_number(command, option, low)
        yield Case("the lowest vertex", lowest, FILES, 0, "d 1 1 0 0\n") if option == "target" else done("the lowest vertex", command, lowest)
        yield Case("the greatest vertex", with_number(command, option, high), FILES, 2, f"source {high}: no such vertex")
    else:
        for value in (low, high, {"delta": "mean", "workers": "all"}[option]):
            yield done("an end of a range", command, with_number(command, option, value, *farthest))


def layouts():
    """The greatest delta and limit of each layout, and one more; no other layouts."""
    for command in COMMANDS:
        for bits in range(16, 37):
            if str(bits) in BITS:
                yield done("a layout", command, line_of(command, f"--pred-bits {bits}"))
            else:
                possible = f"\n  [possible values: {', '.join(BITS)}]"
                yield refused("no layout", line_of(command, f"--pred-bits {bits}"), f"error: invalid value '{bits}' for '--pred-bits <P>'{possible}")
        for option, fault in (("delta", "delta out of range"), ("within", "limit out of range")):
            if command not in VALUED[f"--{option}"][1]:
                continue
            for bits in BITS:
                most = GREATEST[bits][0]
                yield done(f"greatest {option}", command, with_number(command, option, most, f"--pred-bits {bits}"))
                if bits != BITS[0]:
                    yield Case(f"{option} beyond it", with_number(command, option, most + 1, f"--pred-bits {bits}"), FILES, 1, fault)


def places():
    for command in LISTS:
        for word in ("1-1", "1-4294967295", "01-1"):
            yield done("places", command, line_of(command, f"--sources {word}"))
        for word in ("0-1", "2-1", "1-4294967296", "1", "1-", "a-b", "1-2-3", "1,2", "0-0", "-"):
            yield Case("no places", line_of(command, f"--sources={word}"), FILES, 1, "sources are not A-B")


def defaults():
    """What isn't given is as if its default were, and not as if another value were, as far as that shows."""
    for option, (value, commands) in DEFAULTS.items():
        for command in commands:
            yield done(f"no {option}", command, line_of(command))
            yield done(f"the default of {option}", command, line_of(command, f"--{option} {value}"))
    most = GREATEST[DEFAULTS["pred-bits"][0]][0]
    for option, fault in (("delta", "delta out of range"), ("within", "limit out of range")):
        for command in VALUED[f"--{option}"][1]:
            yield done(f"greatest {option} without a layout", command, with_number(command, option, most))
            yield Case(f"{option} beyond it without a layout", with_number(command, option, most + 1), FILES, 1, fault)


def twice():
    for command in COMMANDS:
        for flag, commands in FLAGS.items():
            if command in commands:
                yield refused("a flag twice", line_of(command, flag, flag), f"error: the argument '{flag}' cannot be used multiple times")
        for option, (name, commands, value) in VALUED.items():
            if command in commands and option not in REPEATED:
                words = [option, value, option, value]
                yield refused("an option twice", line_of(command, *words, without=(option,)), f"error: the argument '{option} <{name}>' cannot be used multiple times")
    for command in COMMANDS:
        yield refused("an option by both names", line_of(command, "-o out --output out"), "error: the argument '--output <OUT>' cannot be used multiple times")
    yield Case("two targets", "matrix g.gr g.ss --target 4 --target 4", FILES, 0, 2 * TO_4)
    yield Case("two sources", "matrix g.gr t.ss --source 1 --source 1", FILES, 0, 2 * TO_4)
    yield Case("two sources", "tree g.gr --source 1 --source 1 --delta 3", FILES, 0, 2 * DIAMOND_TREE)
    yield Case("two sources", "nearest g.gr --source 1 --source 1", FILES, 0, FOREST)


def unknown():
    """Words of other commands, and of none; values that an option lacks, and values that a flag has."""
    for command in COMMANDS:
        for option, commands in [*FLAGS.items(), *((option, its[1]) for option, its in VALUED.items())]:
            if command not in commands:
                yield refused("an option of others", line_of(command, option), f"error: unexpected argument '{option}' found")
            elif option in FLAGS:
                yield refused("a flag with a value", line_of(command, f"{option}=1"), f"error: unexpected value '1' for '{option}' found; no more were expected")
            else:
                name = VALUED[option][0]
                yield refused("no value", line_of(command, option, without=(option,)), f"error: a value is required for '{option} <{name}>' but none was supplied")
        for word in ("--nonsense", "--Towards", "--out", "--predbits", "-x", "-w", "-d", "--version", "-V"):
            yield refused("no option", line_of(command, word), f"error: unexpected argument '{word}' found")
        yield refused("one file too many", line_of(command, "g.gr"), "error: unexpected argument 'g.gr' found")
        for word in (command[:-1], command.upper(), command + "s", f"{command}1"):
            if word not in COMMANDS:
                yield refused("no command", word, f"error: unrecognized subcommand '{word}'")
        yield refused("a command twice", line_of(command, command), f"error: unexpected argument '{command}' found")
    for word in ("--nonsense", "-x", "-o", "--pred-bits", "-"):
        text = f"unrecognized subcommand '{word}'" if word == "-" else f"unexpected argument '{word}' found"
        yield refused("no option without a command", word, f"error: {text}")
    yield refused("help of no command", "help nonsense", "error: unrecognized subcommand 'nonsense'")


def cases():
    return [case for table in (conflicts, missing, ranges, layouts, places, defaults, twice, unknown) for case in table()]


# ## What the sources have

CRATES = ("sp_cli", "sp_options", "sp_tools", "sp_command", "spt")
CONSTANT = re.compile(r"const (\w+): (?:&(?:'static )?str|\w+) =\s*(\"[^\"]*\"|[\d_]+);")
# the head of an argument, by its name, or by the function of another that makes it; what follows up to the next head, or the end of the function
HEAD = re.compile(r"(?:Arg::new|flag|file|valued|Given::option)\(\s*alloc,\s*([\w:]+|\"[^\"]+\")|Lists::(sources)\(alloc\)")
# what excludes arguments, or asks for them, in ways that `lacking` doesn't read
UNREAD = re.compile(
    r"\b(conflicts_with_all|exclusive|overrides_with\w*|ArgGroup::\w+|required_if\w*|required_unless_present_any|default_value_if\w*"
    r"|default_missing\w*|args_conflicts\w*|requires\w*)\("
)


def sources():
    paths = [path for crate in CRATES for path in glob.glob(f"{HOME}/crates/{crate}/src/**/*.rt", recursive=True)]
    return {path: re.sub(r"//[^\n]*", "", read(path)) for path in sorted(paths) if "/tests" not in path}


def constants(texts):
    """What each constant is, that is a text or a number; the greatest number of workers stands in a crate of its own."""
    words = [read(path) for path in glob.glob(f"{HOME}/crates/sp_word/src/*.rt")]
    return dict(CONSTANT.findall("\n".join([*words, *texts])))


def facts(text, known):
    """Of each argument that a text builds, its name and what is asked of it. Each file may have constants of the same name."""
    known = {**known, **constants([text])}

    def value(word):
        word = word.strip().split("::")[-1]
        return known.get(word, word).strip('"')

    heads = list(HEAD.finditer(text))
    for head, after in zip(heads, [*heads[1:], None]):
        body = text[head.end() : after.start() if after else len(text)].split("\n}\n")[0].split("\n    }\n")[0]
        name = "SS" if head[2] else value(head[1])
        yield name, {
            "conflicts_with": [value(word) for word in re.findall(r"\.conflicts_with\(([^)]*)\)", body)],
            "required_unless_present": [value(word) for word in re.findall(r"\.required_unless_present\(([^)]*)\)", body)],
            "required_unless_present_all": re.findall(r"\.required_unless_present_all\(([^)]*)\)", body),
            "default_value": [value(word) for word in re.findall(r"\.default_value\(([^)]*)\)", body)],
        }


def lacking():
    """What the sources have and the tables lack, or the other way round, a line each."""
    texts = sources()
    known = constants(texts.values())
    whole = "\n".join(texts.values())
    told = [f"{found[1]}: a way to exclude or to ask for arguments that the check of the tables can't read" for found in UNREAD.finditer(whole)]
    built = [fact for text in texts.values() for fact in facts(text, known)]
    for kind in ("conflicts_with", "required_unless_present", "required_unless_present_all", "default_value"):
        read_off, there = sum(len(its[kind]) for _, its in built), len(re.findall(rf"\.{kind}\(", whole))
        if read_off != there:
            told.append(f"{kind} stands {there} times in the sources, and {read_off} of them could be read")
    pairs = {" ".join(sorted(pair)) for pair in excluded()}
    told += difference("words that exclude one another", pairs, {" ".join(sorted((name, other))) for name, its in built for other in its["conflicts_with"]})
    unless = {(name, other) for name, its in built for other in its["required_unless_present"]}
    unless |= {(name, "source target") for name, its in built for other in its["required_unless_present_all"]}
    told += difference("what is missing unless an option stands in for it", UNLESS, unless)
    told += difference("defaults", {value for value, _ in DEFAULTS.values()}, {value for _, its in built for value in its["default_value"]})
    ends = {tuple(int(known.get(end, end).replace("_", "")) for end in found) for found in re.findall(r"\.range\((\d+)\.\.=(\w+)", whole)}
    told += difference("ranges", {its[:2] for its in RANGES.values()}, ends)
    options = {name.strip("-") for name in (*FLAGS, *VALUED)}
    told += difference("options", options, {name for name, _ in built if name.islower() and name not in ("id", "name")})
    bits = tuple(re.findall(r'"(\d+)"', re.search(r"SPELLINGS[^=]*=\s*\[([^]]*)\]", whole)[1]))
    told += difference("layouts", set(BITS), set(bits))
    return told


def difference(what, table, found):
    return [f"{what}: {each} is in the sources alone" for each in sorted(found - table)] + [f"{what}: {each} is in the table alone" for each in sorted(table - found)]
