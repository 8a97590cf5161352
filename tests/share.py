#!/usr/bin/env python3
"""Compares the manual page and the completions of share/ with the program's help, completes words in bash, installs, and uninstalls.

Usage: python3 tests/share.py

That tests/help has the program's help is tested by ./test. The last line is 'N passed, M failed'.
"""

import os
import re
import shutil
import subprocess
import sys
import tempfile

sys.dont_write_bytecode = True
from cases.shared import LAYOUTS  # noqa: E402
from harness import HOME, Count  # noqa: E402

sys.path.insert(0, f"{HOME}/share")
import make  # noqa: E402

INSTALLED = [
    "bin/spt",
    "lib/spt/manifest",
    "lib/spt/run.sh",
    "lib/spt/spt",
    "share/man/man1/spt.1",
    "share/bash-completion/completions/spt",
    "share/zsh/site-functions/_spt",
    "share/fish/vendor_completions.d/spt.fish",
]
# where it was built here or released from these sources
PACKAGE = "lib/python3/dist-packages"
LIBRARY = ["include/spt.h", "lib/libspt.a", "lib/libspt.so", "lib/libspt.so.1", "lib/pkgconfig/spt.pc"]
LIBRARY += [f"{PACKAGE}/spt/__init__.py", f"{PACKAGE}/spt/libspt.so", f"{PACKAGE}/spt/_networkx/__init__.py", f"{PACKAGE}/_spt_networkx.py"]

COMMANDS = {"tree", "pairs", "matrix", "nearest", "check", "pack", "replay", "offers"}

# where the system's plain commands are
PLAIN = "/usr/bin:/bin"

# what bash offers behind these words
COMPLETE = """
. "$0"
COMP_WORDS=("$@")
COMP_CWORD=$(($# - 1))
_spt
printf '%s\\n' "${COMPREPLY[@]}"
"""


def completed(*words):
    done = subprocess.run(["bash", "-c", COMPLETE, f"{HOME}/share/spt.bash", *words], capture_output=True, text=True, cwd=f"{HOME}/examples")
    return done.stdout.split()


def compare_files(count):
    for name, text in make.files().items():
        with open(f"{HOME}/share/{name}") as it:
            count.of(f"share/{name} (python3 share/make.py makes it anew)", it.read() == text)


def complete_words(count):
    count.of("completion of a command", completed("spt", "tr") == ["tree"])
    count.of("completion of all commands", COMMANDS <= set(completed("spt", "")))
    count.of("completion of an option", completed("spt", "tree", "--wo") == ["--workers"])
    count.of("completion of an option whose value has a hyphen", completed("spt", "tree", "--sources") == ["--sources"])
    count.of("no completion of places", completed("spt", "tree", "--sources", "") == [])
    for name in ("_spt", "spt.fish"):
        with open(f"{HOME}/share/{name}") as it:
            count.of(f"--sources in {name}", re.search(r"--sources\[|-l sources -x", it.read()) is not None)
    count.of("completion of a value", completed("spt", "check", "--pred-bits", "2") == [it for it in LAYOUTS if it.startswith("2")])
    count.of("completion of a word for a value", completed("spt", "tree", "--delta", "m") == ["mean"])
    count.of("completion of a file", completed("spt", "tree", "diamond.g") == ["diamond.gr"])
    count.of("completion of a file to pack", completed("spt", "pack", "diamond.g") == ["diamond.gr"])
    for command in ("tree", "pairs", "matrix", "nearest", "check", "pack"):
        count.of(f"completion of --towards of {command}", completed("spt", command, "--to") == ["--towards"])
        count.of(f"completion of --both-ways of {command}", completed("spt", command, "--bo") == ["--both-ways"])
    count.of("completion of a layout to pack", completed("spt", "pack", "--pred-bits", "3") == ["32"])
    count.of("no completion of another command's option", completed("spt", "pack", "--del") == completed("spt", "replay", "--to") == [])
    count.of("completion of a file of output", completed("spt", "tree", "--output", "diamond.t") == ["diamond.tree"])


COLUMNS = 80
SECTIONS = ["NAME", "SYNOPSIS", "DESCRIPTION", "OPTIONS", "EXIT STATUS", "EXAMPLES", "SEE ALSO"]


def is_narrow(text):
    return max(map(len, text.split("\n"))) <= COLUMNS


def help_texts(count):
    """What the program prints of itself fits a terminal, and tests/help has it, in short and in long."""
    names = [command.name for command in make.commands()]
    for words in [["--help"], ["-h"], *([name, word] for name in names for word in ("--help", "-h"))]:
        text = subprocess.run([f"{HOME}/spt", *words], capture_output=True, text=True).stdout
        count.of(f"spt {' '.join(words)} at {COLUMNS} columns", text != "" and is_narrow(text))
        name = words[0].replace("--help", "spt") + ("_short" if len(words) == 2 and words[1] == "-h" else "")
        if name != "-h":
            count.of(f"tests/help/{name}.txt", os.path.isfile(f"{HOME}/tests/help/{name}.txt") and make.help_of(name) == text)


def page_at_80():
    """The manual page as a terminal of 80 columns shows it, and what the formatter tells; None where there is no formatter."""
    if not shutil.which("groff"):
        return None
    words = ["groff", "-man", "-ww", "-Tutf8", f"-rLL={COLUMNS - 2}n", "-P-cbou", f"{HOME}/share/spt.1"]
    done = subprocess.run(words, capture_output=True, text=True)
    return done.stdout, done.stderr


def render(count):
    """The page has all that a page has, and no fault that the system's formatter would tell of, where there is one."""
    with open(f"{HOME}/share/spt.1") as it:
        source = it.read()
    version = subprocess.run([f"{HOME}/spt", "--version"], capture_output=True, text=True).stdout.strip()
    head = re.search(r'^\.TH SPT 1 "\d{4}-\d\d-\d\d" "(.*?)"', source, re.M)
    count.of(f"version and date in the head of the manual page: {head}", head is not None and head[1] == version)
    sections = re.findall(r"^\.SH (.*)$", source, re.M)
    count.of(f"sections of the manual page: {sections}", [it for it in sections if it in SECTIONS] == SECTIONS)
    examples = source.split(".SH EXAMPLES\n")[-1].split(".SH SEE ALSO")[0]
    count.of("an example of each command", all(f"spt {command.name}" in examples for command in make.commands()))
    shown = page_at_80()
    if shown is None:
        print("left out: groff isn't installed")
        return
    count.of(f"the manual page: {shown[1]}", not shown[1] and "--pred-bits" in shown[0] and "--sources <A-B>" in shown[0])
    wide = [line for line in shown[0].split("\n") if len(line) > COLUMNS]
    count.of(f"the manual page at {COLUMNS} columns: {wide[:3]}", not wide)


def below(folder):
    """What stands below a folder, but for git's own files."""
    found = set()
    for at, folders, files in os.walk(folder):
        folders[:] = [name for name in folders if name != ".git"]
        found |= {os.path.relpath(os.path.join(at, name), folder) for name in folders + files}
    return found


def install(*words, cwd=None, **known):
    """Status, output and errors of ./install, without the kit and what is in this environment."""
    done = subprocess.run([f"{HOME}/install", *words], cwd=cwd, env={"PATH": PLAIN, **known}, capture_output=True, text=True)
    return done.returncode, done.stdout, done.stderr


def is_library_made():
    words = ["sh", "-c", 'home=$0; . "$home/build/program.sh"; library "$(library_sources)"', HOME]
    return bool(subprocess.run(words, check=True, stdout=subprocess.PIPE, text=True).stdout.strip())


def works(prefix):
    """Whether the program that was installed runs."""
    words = [f"{prefix}/bin/spt", "check", f"{HOME}/examples/diamond.gr", f"{HOME}/examples/diamond.tree"]
    return subprocess.run(words, capture_output=True, text=True).stdout == "yes\n"


def python_finds(prefix):
    """The folder of the library that the installed package loads, once it has answered a tree."""
    text = """
import spt
assert list(spt.Graph(3, [(1, 2, 5), (2, 3, 4)]).tree(1).distances) == [0, 5, 9]
with open("/proc/self/maps") as it:
    print({line.split(None, 5)[5].strip() for line in it if "libspt" in line})
"""
    known = {"PATH": PLAIN, "PYTHONPATH": f"{prefix}/{PACKAGE}", "PYTHONDONTWRITEBYTECODE": "1"}
    done = subprocess.run([sys.executable, "-c", text], env=known, cwd="/", capture_output=True, text=True)
    return done.stdout.strip() == str({os.path.realpath(f"{prefix}/lib/libspt.so")})


def install_all(count):
    """Each form of the prefix, without the kit; nothing is left in the checkout."""
    before, made = below(HOME), is_library_made()
    wanted = set(INSTALLED + LIBRARY * made)
    with tempfile.TemporaryDirectory() as folder:
        for words in (["a prefix"], ["--prefix=a prefix"], ["--prefix", "a prefix"], ["--", "a prefix"]):
            told = install(*words, cwd=folder)
            found = below(f"{folder}/a prefix")
            count.of(f"{words}: {told}", told[0] == 0 and wanted <= found and os.listdir(folder) == ["a prefix"])
            count.of("whether the library is installed is told", ("not installed: the library for C" in told[1]) != made)
            count.of("the library is installed where it is told", made == os.path.isfile(f"{folder}/a prefix/lib/libspt.so"))
            count.of("the installed program", works(f"{folder}/a prefix"))
            count.of("the installed package", python_finds(f"{folder}/a prefix") or not made)
            shutil.rmtree(f"{folder}/a prefix")
    count.of(f"left in the checkout: {below(HOME) ^ before}", below(HOME) == before)


def ask_for_help(count):
    """Help and what is refused install nothing."""
    with tempfile.TemporaryDirectory() as folder:
        for word in ("--help", "-h"):
            told = install(word, cwd=folder)
            count.of(f"{word}: {told}", told[0] == 0 and "Usage: ./install [OPTIONS] PREFIX\n" in told[1] and told[2] == "")
            count.of(f"{word} at 80 columns", max(map(len, told[1].split("\n"))) <= 80)
            told = install("prefix", word, cwd=folder)
            count.of(f"{word} behind a prefix: {told}", told[0] == 0 and "Usage" in told[1])
        for words in ([], [""], ["--prefix="], ["--prefix"], ["--perfix=a"], ["-p", "a"], ["a", "b"], ["a", "--prefix=b"], ["--"]):
            told = install(*words, cwd=folder)
            is_told = told[0] == 1 and told[1] == "" and told[2].startswith("install: ") and told[2].endswith("; see ./install --help\n")
            count.of(f"{words}: {told}", is_told)
        told = install("a", cwd=folder, DESTDIR=folder)
        count.of(f"DESTDIR and a prefix that isn't absolute: {told}", told[0] == 1)
        told = install("--uninstall", "a", cwd=folder)
        count.of(f"nothing to uninstall: {told}", told[0] == 1 and told[2].startswith("install: nothing to remove"))
        count.of("nothing was installed", os.listdir(folder) == [])


def install_for_packages(count):
    """DESTDIR stands in no file, and all works once it is moved."""
    with tempfile.TemporaryDirectory() as folder:
        place = f"{folder}/made"
        told = install("--prefix=/opt/an spt of a test", cwd=folder, DESTDIR=place)
        prefix = f"{place}/opt/an spt of a test"
        count.of(f"DESTDIR: {told}", told[0] == 0 and set(INSTALLED) <= below(prefix))
        count.of("nothing at the prefix itself", not os.path.exists("/opt/an spt of a test"))
        named = []
        for name in sorted(below(prefix)):
            path = f"{prefix}/{name}"
            if os.path.islink(path):
                named += [name] * os.path.isabs(os.readlink(path))
            elif os.path.isfile(path):
                with open(path, "rb") as it:
                    named += [name] * (folder.encode() in it.read())
        count.of(f"these name DESTDIR: {named}", not named)
        os.rename(prefix, f"{folder}/moved")
        count.of("the program, moved", works(f"{folder}/moved"))
        count.of("the package, moved", python_finds(f"{folder}/moved") or not is_library_made())


def install_at_home(count):
    """Below ~/.local, also by a ~ that the shell leaves as it is, the package stands where python3 looks for it."""
    with tempfile.TemporaryDirectory() as folder:
        known = {"PATH": PLAIN, "HOME": folder}
        for words in (["--prefix=~/.local"], ["--prefix=.local"], [f"{folder}/.local"]):
            told = install(*words, cwd=folder, HOME=folder)
            count.of(f"{words}: {told}", told[0] == 0 and works(f"{folder}/.local") and os.listdir(folder) == [".local"])
            if shutil.which("python3", path=PLAIN) and is_library_made():
                done = subprocess.run(["python3", "-c", "import spt; print(spt.__file__)"], env=known, cwd="/", capture_output=True, text=True)
                count.of(f"{words}, import spt: {done}", done.stdout.startswith(f"{folder}/.local/lib/python3"))
            told = install("--uninstall", *words, cwd=folder, HOME=folder)
            count.of(f"{words}, uninstalled: {told}, {os.listdir(folder)}", told[0] == 0 and os.listdir(folder) == [])
        told = install("--prefix=.local", "--python=.local/my packages", cwd=folder)
        wanted = f"{folder}/.local/my packages/spt/__init__.py"
        count.of(f"--python: {told}", told[0] == 0 and os.path.isfile(wanted) == is_library_made())
        told = install("--prefix=.local", "--python=elsewhere", cwd=folder)
        count.of(f"--python elsewhere: {told}", told[0] == 1 and not os.path.exists(f"{folder}/elsewhere"))


def uninstall(count):
    """What was there before is there afterwards, and nothing else; also where an earlier install had more files."""
    with tempfile.TemporaryDirectory() as folder:
        for name in ("bin/own", f"{PACKAGE}/own.py", "lib/pkgconfig/own.pc", "share/man/man1/own.1"):
            os.makedirs(os.path.dirname(f"{folder}/{name}"), exist_ok=True)
            open(f"{folder}/{name}", "w").close()
        before = below(folder)
        for again in range(2):
            told = install(folder)
            count.of(f"installed: {told}", told[0] == 0 and set(INSTALLED) <= below(folder))
            if again:
                os.makedirs(f"{folder}/lib/spt/old")
                open(f"{folder}/lib/spt/old/file", "w").close()
                with open(f"{folder}/lib/spt/manifest", "a") as it:
                    it.write("file lib/spt/old/file\nfolder lib/spt/old\n")
                install(folder)
                count.of("a file of an earlier install is gone", not os.path.exists(f"{folder}/lib/spt/old"))
            known = {"PATH": PLAIN, "PYTHONPATH": f"{folder}/{PACKAGE}"}
            subprocess.run([sys.executable, "-c", "import spt"], env=known, stderr=subprocess.DEVNULL)
            told = install("--uninstall", f"--prefix={folder}")
            count.of(f"uninstalled: {told}, {below(folder) ^ before}", told[0] == 0 and below(folder) == before)
        install(f"{folder}/new/one")
        install("--uninstall", f"{folder}/new/one")
        count.of("a folder that was made is gone", not os.path.exists(f"{folder}/new/one"))


def tell_system(count):
    """Where the C library is missing or may be older, a program that doesn't run is told so in one line; one that runs runs."""
    with tempfile.TemporaryDirectory() as folder:
        os.symlink("libc-2.31.so", f"{folder}/libc.so.6")
        for name, status in (("failing", 1), ("running", 0)):
            with open(f"{folder}/{name}", "w") as it:
                it.write(f"#!/bin/sh\necho {name} \"$@\"; echo loader >&2; exit {status}\n")
            os.chmod(f"{folder}/{name}", 0o755)
        told = "spt: the program doesn't run here: it needs the GNU C library 2.34 or later, on x86-64\n"
        for setting in (f"loader={folder}/none", f"libraries={folder}/libc.so.6"):
            words = ["sh", "-c", f'. "$0"; {setting}; run "$@"', f"{HOME}/share/run.sh"]
            done = subprocess.run([*words, f"{folder}/failing", "tree"], capture_output=True, text=True)
            count.of(f"{setting}, failing: {done}", (done.returncode, done.stdout, done.stderr) == (126, "", told))
            done = subprocess.run([*words, f"{folder}/running", "tree"], capture_output=True, text=True)
            count.of(f"{setting}, running: {done}", (done.returncode, done.stdout, done.stderr) == (0, "running tree\n", "loader\n"))
        done = subprocess.run(["sh", "-c", '. "$0"; run "$@"', f"{HOME}/share/run.sh", f"{folder}/failing", "x"], capture_output=True, text=True)
        count.of(f"this system: {done}", (done.returncode, done.stdout, done.stderr) == (1, "failing x\n", "loader\n"))


def newest(path):
    """The newest version of the C library that a file of the release asks for."""
    with open(path, "rb") as it:
        return max(tuple(map(int, found.split(b"."))) for found in re.findall(rb"GLIBC_(\d+\.\d+)", it.read()))


def tell_versions(count):
    """The documents and the line above name the version of the C library that the release needs, and no older one."""
    for file, pages in (("spt", ["docs/USAGE.md", "share/run.sh"]), ("library/libspt.so", ["docs/C.md"])):
        needed = newest(f"{HOME}/dist/{file}")
        for page in pages:
            with open(f"{HOME}/{page}") as it:
                told = re.findall(r"GNU\s+C\s+library\s+(\d+)\.(\d+)\s+or\s+later", it.read())
            count.of(f"{page}: {told}, {file} needs {needed}", told != [] and all(tuple(map(int, it)) == needed for it in told))


def main():
    count = Count()
    compare_files(count)
    complete_words(count)
    help_texts(count)
    render(count)
    install_all(count)
    ask_for_help(count)
    install_for_packages(count)
    install_at_home(count)
    uninstall(count)
    tell_system(count)
    tell_versions(count)
    return count.end()


if __name__ == "__main__":
    sys.exit(main())
