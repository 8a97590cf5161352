#!/usr/bin/env python3
"""Makes the manual page and the completions of shells from the program's help, as it stands in tests/help.

Usage: python3 share/make.py [FOLDER]

It writes spt.1, spt.bash, _spt (for zsh) and spt.fish into the folder, this one where none is named.
"""

import collections
import itertools
import os
import re
import sys
import textwrap

HERE = os.path.dirname(os.path.realpath(__file__))
HELP = os.path.join(os.path.dirname(HERE), "tests", "help")
# what the help calls a value that is a file
FILE = "OUT"

# What the manual page is of, and when that was made so; both change with a release.
DATE = "2026-12-02"
# the widest room beside a list for its terms
WIDEST = 24
VERSION = os.path.join(os.path.dirname(HERE), "crates", "sp_order", "src", "order.rt")

# An option: its word, the name of its value (none: it has none), the values that it may have, or that are words (none: any), what it is,
# and its whole entry in the help: the words, and the text.
Option = collections.namedtuple("Option", "word value values about head text")
# A command: its name, what it does, its usage, the texts before and behind its options, those options, and an example.
Command = collections.namedtuple("Command", "name about usage description arguments options rest example")


# ## What the help says


def help_of(name):
    with open(os.path.join(HELP, f"{name}.txt")) as it:
        return it.read()


def option_of(entry):
    """An option, by its entry of a long help, None where it is none."""
    found = re.match(r"  (?:-\w, |    )--([\w-]+)(?: <([\w-]+)>)?(?:\.\.\.)?\n", entry)
    if not found:
        return None
    head, text = entry.split("\n", 1)
    text = textwrap.dedent(re.sub(r"^ +$", "", text, flags=re.M)).strip("\n")
    whole = " ".join(text.split())
    values = re.search(r"\[possible values: ([^\]]*)\]|, or `(mean|all)`", whole)
    listed = (values[1] or values[2]).split(", ") if values else []
    return Option(found[1], found[2], listed, re.split(r"[,;.]| \(", whole)[0], head.strip(), text)


def command_of(name, about):
    before, after = help_of(name).split("\nUsage: ", 1)
    usage, after = after.split("\n", 1)
    arguments, after = after.split("\nOptions:\n", 1)
    entries = re.split(r"\n\n(?=  (?:-\w, |    )--)", re.split(r"\n\n(?=\S)", after, maxsplit=1)[0])
    rest = re.split(r"\n\n(?=\S)", after, maxsplit=1)[1]
    found = re.search(r"^Example: (.*?(?:\n\n|\Z))", rest, re.M | re.S)
    example = found[1][0].upper() + found[1][1:]
    options = [it for it in map(option_of, entries) if it]
    return Command(name, about, usage, before.partition("\n\n")[2], arguments, options, rest.replace(found[0], ""), example)


def commands():
    """The commands of the program, in the order of its help."""
    listed = re.search(r"^Commands:\n((?:  .*\n)+)", help_of("spt"), re.M)[1]
    return [command_of(name, about) for name, about in re.findall(r"^  (\w+) +(.*)$", listed, re.M) if name != "help"]


# ## The manual page


def escaped(text):
    """Text as it is, for roff."""
    text = text.replace("\\", "\\e").replace("-", "\\-").replace("'", "\\(aq").replace("`", "\\(ga")
    return re.sub(r"^(?=[.])", r"\\&", text, flags=re.M)


def prose(text):
    """A paragraph, in which words between backquotes are bold."""
    words = re.split(r"`([^`]*)`", " ".join(text.split()))
    return "".join(f"\\fB{escaped(word)}\\fR" if place % 2 else escaped(word) for place, word in enumerate(words)) + "\n"


def described(lines):
    """The rows of a list, each with what it says, or None where the lines are no such list."""
    starts = [found.end() for found in (re.match(r"  \S.*?   *(?=\S)", line) for line in lines) if found and found[0].endswith("  ")]
    if not starts:
        return None
    start = max(set(starts), key=starts.count)
    rows = []
    for line in lines:
        if rows and not line[:start].strip():
            rows[-1][1].append(line.strip())
        elif len(line) > start and line[start - 1] == " " != line[start]:
            rows.append((line[:start].strip(), [line[start:]]))
        else:
            return None
    return [(term, " ".join(said)) for term, said in rows]


def roff(text):
    """Text with paragraphs, and lists and lines of files that are indented."""
    page = ""
    for is_indented, lines in itertools.groupby(text.split("\n"), lambda line: line[:1] == " " if line.strip() else None):
        lines = list(lines)
        rows = described(lines) if is_indented else None
        if is_indented is None:
            continue
        if rows:
            page += list_of(rows)
        elif is_indented:
            page += f".RS 4\n.nf\n{escaped(textwrap.dedent(chr(10).join(lines)))}\n.fi\n.RE\n"
        else:
            page += f".PP\n{prose(' '.join(lines))}"
    return page


def list_of(rows):
    """A list of terms, each with what it says, which begins beside them where they are short."""
    width = max(len(term) for term, _ in rows) + 2
    head = f".TP {width}\n" if width <= WIDEST else ".TP\n"
    return "".join(f"{head}\\fB{escaped(term)}\\fR\n{prose(said)}" for term, said in rows)


def option_entries(of_all):
    """The entry of each option, once for all commands where it is the same."""
    known = {}
    for command in of_all:
        for option in command.options:
            known.setdefault((option.head, option.text), []).append(command.name)
    page = ""
    for (head, text), names in known.items():
        of = "" if len(names) == len(of_all) else f" ({', '.join(names)})"
        page += f".TP\n\\fB{escaped(head)}\\fR{of}\n"
        page += roff(text).replace(".PP\n", "", 1).replace(".PP\n", ".IP\n").replace(".RS 4\n", ".RS 11\n")
    return page


def manual(of_all):
    whole = help_of("spt")
    with open(VERSION) as it:
        version = re.search(r'\.version\("([^"]*)"\)', it.read())[1]
    told, statuses, example, documents = whole.split("\n\nOptions:\n")[1].split("\n\n", 1)[1].split("\n\n")
    page = '.\\" Made by share/make.py from what spt --help prints.\n'
    page += f'.TH SPT 1 "{DATE}" "spt {version}" "User Commands"\n.nh\n.ad l\n'
    page += ".SH NAME\nspt \\- shortest\\-path trees of road networks\n.SH SYNOPSIS\n"
    page += "".join(f".B {escaped(command.usage)}\n.br\n" for command in of_all)
    page += f".SH DESCRIPTION\n{roff(told)}"
    page += "".join(f".TP\n\\fBspt {command.name}\\fR\n{prose(command.about)}" for command in of_all)
    for command in of_all:
        page += f".SH {command.name.upper()}\n{roff(command.description)}{roff(command.rest)}"
    page += f".SH OPTIONS\n{option_entries(of_all)}"
    page += f".SH EXIT STATUS\n{roff(statuses.partition(chr(10))[2])}"
    page += f".SH EXAMPLES\n{roff(example.partition(chr(10))[2])}"
    page += "".join(f".SS spt {command.name}\n{roff(command.example)}" for command in of_all)
    return page + f".SH SEE ALSO\n.BR zcat (1),\n.BR parallel (1)\n{roff(documents)}"


# ## Completions


def bash(of_all):
    cases = ""
    for command in of_all:
        words = " ".join(f"--{option.word}" for option in command.options)
        cases += f"        {command.name}) words='{words}' ;;\n"
    values = ""
    for word, listed in sorted({(it.word, " ".join(it.values)) for command in of_all for it in command.options if it.value and it.value != FILE}):
        values += f"        --{word}) words='{listed}' ;;\n"
    names = " ".join(command.name for command in of_all)
    return f"""# Made by share/make.py from what spt --help prints.
_spt() {{
    local words='' word=${{COMP_WORDS[COMP_CWORD]}}
    if [ "$COMP_CWORD" = 1 ]; then
        mapfile -t COMPREPLY < <(compgen -W '{names} help --help --version' -- "$word")
        return
    fi
    case ${{COMP_WORDS[COMP_CWORD - 1]}} in
{values}        *) words=none ;;
    esac
    if [ "$words" != none ]; then
        mapfile -t COMPREPLY < <(compgen -W "$words" -- "$word")
        return
    fi
    case ${{COMP_WORDS[1]}} in
{cases}        *) words='' ;;
    esac
    case $word in
        -*) mapfile -t COMPREPLY < <(compgen -W "$words" -- "$word") ;;
        *) mapfile -t COMPREPLY < <(compgen -f -- "$word") ;;
    esac
}}
complete -o filenames -F _spt spt
"""


def quoted(text):
    return text.replace("'", "'\\''").replace("[", "\\[").replace("]", "\\]").replace(":", "\\:")


def zsh(of_all):
    listed = "\n".join(f"        '{command.name}:{quoted(command.about)}'" for command in of_all)
    cases = ""
    for command in of_all:
        rows = [f"'--{it.word}[{quoted(it.about)}]{zsh_value(it)}'" for it in command.options] + ["'*:file:_files'"]
        cases += f"        {command.name}) _arguments {' '.join(rows)} ;;\n"
    return f"""#compdef spt
# Made by share/make.py from what spt --help prints.
_spt() {{
    local -a commands=(
{listed}
    )
    if (( CURRENT == 2 )); then
        _describe command commands
        return
    fi
    local command=$words[2]
    shift words
    (( CURRENT-- ))
    case $command in
{cases}    esac
}}
_spt "$@"
"""


def zsh_value(option):
    if not option.value:
        return ""
    if option.value == FILE:
        return ":file:_files"
    return f":value:({' '.join(option.values)})" if option.values else ":value: "


def fish(of_all):
    rows = ["# Made by share/make.py from what spt --help prints."]
    for command in of_all:
        about = command.about.replace("'", "\\'")
        rows.append(f"complete -c spt -n __fish_use_subcommand -f -a {command.name} -d '{about}'")
    for command in of_all:
        for option in command.options:
            about = option.about.replace("'", "\\'")
            value = " -r" if option.value == FILE else f" -x -a '{' '.join(option.values)}'" if option.value else ""
            rows.append(f"complete -c spt -n '__fish_seen_subcommand_from {command.name}' -l {option.word}{value} -d '{about}'")
    return "\n".join(rows) + "\n"


def files():
    """The text of each file, by its name."""
    of_all = list(commands())
    return {"spt.1": manual(of_all), "spt.bash": bash(of_all), "_spt": zsh(of_all), "spt.fish": fish(of_all)}


def main():
    folder = sys.argv[1] if len(sys.argv) > 1 else HERE
    for name, text in files().items():
        with open(os.path.join(folder, name), "w") as it:
            it.write(text)
    return 0


if __name__ == "__main__":
    sys.exit(main())
