"""Command lines that are no order, and files that can't be had."""

from .shared import ALONE, FROM_1, LAYOUTS, Case

REPLAY = {"f.rep": "p rep 1 1\n"}
HELP = "\nFor more information, try '--help'.\n"
BITS = f"  [possible values: {', '.join(LAYOUTS)}]\n"

LIMIT = "spt: L is a whole number from 0 to 17592186044414\n"
MEAN = "spt: use --delta mean if you know no better width\n"
SOURCE = "spt: a source is a number from 1 to N; give each its own --source\n"
DELTA = "spt: D is a whole number from 1 to 17592186044414, or mean\n"
WORKERS = "spt: W is a number from 1 to 64, or all\n"
TOO_MANY = "spt: too many files are named; put quotes around a name that has blanks\n"
COMMAND = "spt: name a command first: tree, pairs, matrix, nearest, check, pack, replay or offers\n"
SIGN = "spt: numbers are whole, and have no sign\n"
HYPHEN = "spt: an option of several letters begins with --; write ./ before a file name that begins with -\n"
WITHIN = "spt: --within is an option of tree, nearest and check\n"
NOT_BOTH = "spt: give the sources in a file, or each with --source V, but not both\n"

# name, line, text on standard error, what stands below the line on help
TOLD = [
    ("unknown command", "solve f.rep", "error: unrecognized subcommand 'solve'\n\nUsage: spt <COMMAND>\n", COMMAND),
    ("an option in place of a command", "--within 3", "error: unexpected argument '--within' found\n\nUsage: spt <COMMAND>\n", COMMAND),
    ("an option before the command", "--delta 3 tree f.rep f.rep", "error: unexpected argument '--delta' found\n\n  tip: 'tree --delta' exists\n\nUsage: spt <COMMAND>\n", COMMAND),
    ("no file", "replay", "error: the following required arguments were not provided:\n  <FILE>\n\nUsage: spt replay <FILE>\n", ""),
    ("one file too many", "replay f.rep g.rep", "error: unexpected argument 'g.rep' found\n\nUsage: spt replay [OPTIONS] <FILE>\n", TOO_MANY),
    ("other pred bits", "replay f.rep --pred-bits 21", f"error: invalid value '21' for '--pred-bits <P>'\n{BITS}", ""),
    ("no pred bits", "replay f.rep --pred-bits", f"error: a value is required for '--pred-bits <P>' but none was supplied\n{BITS}", ""),
    (
        "no delta",
        "tree f.rep f.rep",
        "error: the following required arguments were not provided:\n  --delta <D>\n\nUsage: spt tree --delta <D> <GR> <SS>\n",
        MEAN,
    ),
    (
        "no delta of pairs",
        "pairs f.rep f.rep",
        "error: the following required arguments were not provided:\n  --delta <D>\n\nUsage: spt pairs --delta <D> <GR> <PAIRS>\n",
        MEAN,
    ),
    (
        "two sources in one word",
        "tree f.rep --source 1,5 --delta 3",
        "error: invalid value '1,5' for '--source <V>': invalid digit found in string\n",
        SOURCE,
    ),
    ("source of none", "nearest f.rep --source 0", "error: invalid value '0' for '--source <V>': 0 is not in 1..=4294967294\n", SOURCE),
    (
        "delta beyond every layout",
        "tree f.rep f.rep --delta 17592186044415 --pred-bits=20",
        "error: invalid value '17592186044415' for '--delta <D>': 17592186044415 is not in 1..=17592186044414\n",
        DELTA,
    ),
    ("delta of none", "tree f.rep f.rep --delta 0", "error: invalid value '0' for '--delta <D>': 0 is not in 1..=17592186044414\n", DELTA),
    (
        "delta that is no number",
        "pairs f.rep f.rep --delta means",
        "error: invalid value 'means' for '--delta <D>': invalid digit found in string\n",
        DELTA,
    ),
    (
        "delta that looks like an option",
        "tree f.rep f.rep --delta=-1",
        "error: invalid value '-1' for '--delta <D>': invalid digit found in string\n",
        DELTA,
    ),
    (
        "delta beyond every number",
        "tree f.rep f.rep --delta 18446744073709551616",
        "error: invalid value '18446744073709551616' for '--delta <D>': number too large to fit in target type\n",
        DELTA,
    ),
    (
        "limit beyond every layout",
        "tree f.rep f.rep --delta 3 --within 17592186044415 --pred-bits=20",
        "error: invalid value '17592186044415' for '--within <L>': 17592186044415 is not in 0..=17592186044414\n",
        LIMIT,
    ),
    (
        "limit beyond every layout",
        "check f.rep f.rep --within 17592186044415",
        "error: invalid value '17592186044415' for '--within <L>': 17592186044415 is not in 0..=17592186044414\n",
        LIMIT,
    ),
    (
        "limit that is no number",
        "tree f.rep f.rep --delta 3 --within far",
        "error: invalid value 'far' for '--within <L>': invalid digit found in string\n",
        LIMIT,
    ),
    (
        "limit below 0",
        "tree f.rep f.rep --delta 3 --within=-1",
        "error: invalid value '-1' for '--within <L>': invalid digit found in string\n",
        LIMIT,
    ),
    (
        "limit beyond every number",
        "tree f.rep f.rep --delta 3 --within 18446744073709551616",
        "error: invalid value '18446744073709551616' for '--within <L>': number too large to fit in target type\n",
        LIMIT,
    ),
    (
        "two limits",
        "tree f.rep f.rep --delta 3 --within 3 --within 3",
        "error: the argument '--within <L>' cannot be used multiple times\n\nUsage: spt tree [OPTIONS] --delta <D> <GR> [SS]\n",
        "",
    ),
    (
        "limit of a forest beyond every layout",
        "nearest f.rep f.rep --within 17592186044415",
        "error: invalid value '17592186044415' for '--within <L>': 17592186044415 is not in 0..=17592186044414\n",
        LIMIT,
    ),
    (
        "no sources of a forest",
        "nearest f.rep",
        "error: the following required arguments were not provided:\n  <SS>\n\nUsage: spt nearest <GR> <SS>\n",
        "spt: give the sources in a file SS, or each with --source V\n",
    ),
    (
        "no sources",
        "tree f.rep --delta 3",
        "error: the following required arguments were not provided:\n  <SS>\n\nUsage: spt tree --delta <D> <GR> <SS>\n",
        "spt: give the sources in a file SS, or each with --source V\n",
    ),
    (
        "no pairs",
        "pairs f.rep --delta 3",
        "error: the following required arguments were not provided:\n  <PAIRS>\n\nUsage: spt pairs --delta <D> <GR> <PAIRS>\n",
        "",
    ),
    (
        "delta of a word",
        "tree f.rep f.rep --delta auto",
        "error: invalid value 'auto' for '--delta <D>': invalid digit found in string\n",
        DELTA,
    ),
    (
        "other option of a word",
        "tree f.rep f.rep --delta 3 --workers auto",
        "error: invalid value 'auto' for '--workers <W>': invalid digit found in string\n",
        WORKERS,
    ),
    (
        "workers of a beginning of all",
        "tree f.rep f.rep --delta 3 --workers al",
        "error: invalid value 'al' for '--workers <W>': invalid digit found in string\n",
        WORKERS,
    ),
    ("no workers", "tree f.rep f.rep --delta 3 --workers 0", "error: invalid value '0' for '--workers <W>': 0 is not in 1..=64\n", WORKERS),
    ("more workers than 64", "pairs f.rep f.rep --delta 3 --workers 65", "error: invalid value '65' for '--workers <W>': 65 is not in 1..=64\n", WORKERS),
    (
        "no value of delta",
        "tree f.rep --source 1 --delta --within 3",
        "error: a value is required for '--delta <D>' but none was supplied\n",
        DELTA,
    ),
    (
        "no value of the limit",
        "tree f.rep --source 1 --delta mean --within",
        "error: a value is required for '--within <L>' but none was supplied\n",
        LIMIT,
    ),
    (
        "no value of a source",
        "tree f.rep --source --within 3 --delta mean",
        "error: a value is required for '--source <V>' but none was supplied\n",
        SOURCE,
    ),
    (
        "no value of workers",
        "tree f.rep f.rep --delta 3 --workers",
        "error: a value is required for '--workers <W>' but none was supplied\n",
        WORKERS,
    ),
    (
        "no value of the output",
        "tree f.rep f.rep --delta 3 -o",
        "error: a value is required for '--output <OUT>' but none was supplied\n",
        "spt: OUT is the file for the output, or - for standard output\n",
    ),
    (
        "no value of places",
        "tree f.rep f.rep --delta 3 --sources",
        "error: a value is required for '--sources <A-B>' but none was supplied\n",
        "spt: A-B is two numbers with a `-` between them, as in 1-100\n",
    ),
    (
        "a limit of pairs",
        "pairs f.rep f.rep --delta 3 --within 3",
        "error: unexpected argument '--within' found\n\nUsage: spt pairs --delta <D> <GR> <PAIRS>\n",
        WITHIN,
    ),
    (
        "a limit of a matrix",
        "matrix f.rep f.rep --within 3",
        "error: unexpected argument '--within' found\n\nUsage: spt matrix <GR> <SOURCES> [TARGETS]\n",
        WITHIN,
    ),
    (
        "a target of trees",
        "tree f.rep --target 1 --delta 3",
        "error: unexpected argument '--target' found\n\nUsage: spt tree --delta <D> <GR> [SS]\n",
        "spt: --target is an option of matrix\n",
    ),
    (
        "a limit below 0 in a word of its own",
        "tree f.rep --source 1 --delta mean --within -3",
        "error: unexpected argument '-3' found\n\nUsage: spt tree [OPTIONS] --delta <D> <GR> [SS]\n",
        SIGN,
    ),
    (
        "a source below 0",
        "tree f.rep --source -1 --delta mean",
        "error: unexpected argument '-1' found\n\nUsage: spt tree [OPTIONS] --delta <D> <GR> [SS]\n",
        SIGN,
    ),
    (
        "one hyphen before a long option",
        "tree f.rep f.rep --delta 3 -within 4",
        "error: unexpected argument '-w' found\n\nUsage: spt tree [OPTIONS] --delta <D> <GR> [SS]\n",
        HYPHEN,
    ),
    (
        "sources in a file and by number",
        "tree f.rep f.rep --source 1 --delta 3",
        "error: the argument '[SS]' cannot be used with '--source <V>'\n\nUsage: spt tree --delta <D> <GR> <SS>\n",
        NOT_BOTH,
    ),
    (
        "two sources behind one option",
        "nearest f.rep --source 1 2",
        "error: the argument '--source <V>' cannot be used with '[SS]'\n\nUsage: spt nearest --source <V> <GR> [SS]\n",
        NOT_BOTH,
    ),
    (
        "places of sources by number",
        "tree f.rep --source 1 --sources 1-2 --delta mean",
        "error: the argument '--source <V>' cannot be used with '--sources <A-B>'\n\nUsage: spt tree --delta <D> --source <V> <GR> [SS]\n",
        "spt: --sources selects from a file of sources; --source V gives a source itself\n",
    ),
    # what a terminal would do as it is told
    (
        "control characters",
        "replay f.rep g\x1b[31m\x07\x7f\r\t.rep",
        "error: unexpected argument 'g?[31m????.rep' found\n\nUsage: spt replay [OPTIONS] <FILE>\n",
        TOO_MANY,
    ),
]

# Values out of range or spelled otherwise, words of other commands, and words that are missing, with whatever text.
REFUSED = [
    "replay f.rep --pred-bits 028",
    "replay f.rep --pred-bits +28",
    "replay f.rep --pred-bits -28",
    "replay f.rep --pred-bits 28.0",
    "replay f.rep --pred-bits 0x1c",
    "replay f.rep --pred-bits ",
    "replay f.rep --pred-bits \t28",
    "replay f.rep --pred-bits 256",
    "tree f.rep f.rep --delta 1 --pred-bits 21",
    "check f.rep f.rep --pred-bits 21",
    "offers f.rep --pred-bits 21",
    "tree f.rep f.rep --delta 0",
    "tree f.rep f.rep --delta -1",
    "tree f.rep f.rep --delta 1.5",
    "tree f.rep f.rep --delta ",
    "tree f.rep f.rep --delta x",
    "tree f.rep f.rep --delta Mean",
    "tree f.rep f.rep --delta mean5",
    "tree f.rep f.rep --delta 18446744073709551616",
    "tree f.rep f.rep --delta 1 --within",
    "tree f.rep f.rep --delta 1 --within=",
    "tree f.rep f.rep --delta 1 --within 1.5",
    "tree f.rep f.rep --delta 1 --within mean",
    "pairs f.rep f.rep --delta 1 --within 3",
    "matrix f.rep f.rep f.rep --within 3",
    "tree f.rep f.rep --delta 1 --workers 0",
    "tree f.rep f.rep --delta 1 --workers 65",
    "tree f.rep f.rep --delta 1 --workers -1",
    "tree f.rep f.rep --delta 1 --workers 2.0",
    "tree f.rep f.rep --delta 1 --workers ",
    "tree f.rep f.rep --delta 1 --workers 4294967297",
    "tree f.rep f.rep --delta 1 --workers All",
    "tree f.rep f.rep --delta 1 --workers all1",
    "pairs f.rep f.rep --delta 1 --workers 64,1",
    "tree f.rep --delta 1",
    "tree f.rep --delta 1 --source 0",
    "tree f.rep --delta 1 --source 4294967295",
    "tree f.rep --delta 1 --sources 1-1",
    "tree f.rep f.rep --delta 1 --source 1",
    "tree f.rep --delta 1 --source 1 --sources 1-1",
    "nearest f.rep --sources 1-1",
    "nearest f.rep f.rep --source 1",
    "matrix f.rep",
    "matrix f.rep f.rep",
    "matrix f.rep --source 1",
    "matrix f.rep --target 1",
    "matrix f.rep --source 1 --target 0",
    "matrix f.rep --source 1 --target 4294967295",
    "matrix f.rep f.rep f.rep --target 1",
    "matrix f.rep f.rep f.rep --source 1",
    "matrix f.rep f.rep --source 1 --target 1",
    "matrix f.rep --source 1 --target 1 --sources 1-1",
    "tree f.rep f.rep --delta 1 --target 1",
    "nearest f.rep f.rep --delta 0",
    "nearest f.rep f.rep --within -1",
    "nearest f.rep f.rep --within 1.5",
    "nearest f.rep f.rep f.rep",
    "check f.rep f.rep --delta 1",
    "check f.rep",
    "offers f.rep --workers 2",
    "offers",
]

FILES = {"empty": "", "alone.gr": ALONE, "one.ss": FROM_1, "bad.gr": "a 1 2 3\n", "bad.pairs": "p pairs 1\n"}

# The graph is opened first, and the other file before the graph is read; the graph is read first.
FILES_IN_ORDER = [
    ("tree --delta 1 - -", 1, "standard input twice"),
    ("pairs --delta 1 - -", 1, "standard input twice"),
    ("check - -", 1, "standard input twice"),
    ("tree --delta 1 no.gr no.ss", 6, "gr: cannot open"),
    ("tree --delta 1 no.gr one.ss", 6, "gr: cannot open"),
    ("tree --delta 1 empty no.ss", 6, "ss: cannot open"),
    ("pairs --delta 1 no.gr no.pairs", 6, "gr: cannot open"),
    ("pairs --delta 1 alone.gr no.pairs", 6, "pairs: cannot open"),
    ("pairs --delta 1 bad.gr no.pairs", 6, "pairs: cannot open"),
    ("pairs --delta 1 bad.gr bad.pairs", 2, "gr: line 1: 3 NoProblem"),
    ("nearest - -", 1, "standard input twice"),
    ("nearest no.gr no.ss", 6, "gr: cannot open"),
    ("nearest empty no.ss", 6, "ss: cannot open"),
    ("nearest bad.gr bad.pairs", 2, "gr: line 1: 3 NoProblem"),
    ("check no.gr no.tree", 6, "gr: cannot open"),
    ("check empty no.tree", 6, "tree: cannot open"),
    ("replay no.rep", 6, "replay: cannot open"),
    ("tree --delta 1 alone.gr one.ss -o alone.gr", 1, "output is an input"),
    ("tree --delta 1 bad.gr one.ss -o ./one.ss", 1, "output is an input"),
    ("tree --delta 1 no.gr bad.gr -o bad.gr", 1, "output is an input"),
    ("tree --delta 1 no.gr bad.gr -o no.gr", 6, "gr: cannot open"),
    ("tree --delta 68719476735 bad.gr one.ss -o bad.gr", 1, "output is an input"),
    ("matrix alone.gr one.ss bad.gr -o bad.gr", 1, "output is an input"),
    ("offers no.off", 6, "offers: cannot open"),
]


def cases():
    made = [Case(name, line, REPLAY, 1, text + HELP + more, is_whole=True) for name, line, text, more in TOLD]
    made += [Case("refused words", line, REPLAY, 1, None) for line in REFUSED]
    made += [Case("files in order", line, FILES, status, fault) for line, status, fault in FILES_IN_ORDER]
    made += [Case(f"version by {word}", word, {}, 0, "spt 1.6.0\n") for word in ("--version", "-V")]
    made += [Case("output to standard output", "check alone.gr none.tree -o -", {"alone.gr": ALONE, "none.tree": "p spt 1 1\ne 0\n"}, 3, "no 1 2\n")]
    return made
