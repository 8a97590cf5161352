#!/usr/bin/env python3
"""Starts ./spt in small repositories of one crate: at once where no code has changed, and never the program of other code.

Usage: python3 tests/start.py

What a start doesn't see, a proof or a time that was set back, is seen once all sources are read, as tests and ./install do. Each repository has a stand-in of the program in .spt/, or in dist/, and an `rt` that builds nothing, so that a start which wants to
build ends with status 70. The last line is 'N passed, M failed'.
"""

import concurrent.futures
import os
import shutil
import subprocess
import sys
import tempfile
import time

sys.dont_write_bytecode = True
from harness import HOME, Count, put, read  # noqa: E402

# what has changed within this time is read again at the next start
SETTLED = 2.2
SOURCE = "crates/spt/src/main.rt"
PROOF = "crates/sp_one/proofs/it's one\nfile.antt"
FILES = {
    "crates.txt": "spt: sp_one\nsp_one:\nsp_other:\n",
    "HANDLES": "Handles allowed: none.\n",
    SOURCE: "fn main() {}\n",
    "crates/sp_one/src/lib.rt": "pub fn one() -> u64 { 1 }\n",
    "crates/sp_one/proofs/lib/one/Answers.antt": "one\n",
    PROOF: "two\n",
    "crates/sp_one/edits.txt": "edit: two\nfile: src/lib.rt\nold: 1 }\nnew: 2 }\n",
    "crates/sp_one/src/tests/more.rt": "fn more() {}\n",
    "crates/sp_other/src/lib.rt": "pub fn other() {}\n",
}
# It tells which files are summed, and sums them.
SUM = '#!/bin/sh\nprintf "%s\\n" "$@" >> "$SUMMED"\nexec {} "$@"\n'


class Repository:
    """A repository with a stand-in of the program, that was built from its sources."""

    def __init__(self, folder, where=".spt"):
        self.home = f"{folder}/it's a repository"
        for name, text in FILES.items():
            put(f"{self.home}/{name}", text)
        for name in ("spt", "build", "share/run.sh"):
            copy = shutil.copytree if os.path.isdir(f"{HOME}/{name}") else shutil.copy
            os.makedirs(os.path.dirname(f"{self.home}/{name}"), exist_ok=True)
            copy(f"{HOME}/{name}", f"{self.home}/{name}")
        put(f"{folder}/bin/rt", "raise SystemExit(1)\n", 0o755)
        put(f"{folder}/bin/sha256sum", SUM.format(shutil.which("sha256sum")), 0o755)
        self.summed = f"{folder}/summed"
        self.known = {**os.environ, "PATH": f"{folder}/bin:{os.environ['PATH']}", "SUMMED": self.summed}
        put(f"{self.home}/{where}/spt", '#!/bin/sh\necho the program "$@"\n', 0o755)
        put(f"{self.home}/{where}/sources", self.sources())

    def sources(self):
        words = ["sh", "-c", 'home=$0; . "$home/build/program.sh"; sources', self.home]
        return subprocess.run(words, check=True, env=self.known, stdout=subprocess.PIPE, text=True).stdout

    def path(self, name):
        return f"{self.home}/{name}"

    def start(self, *words, cwd="/"):
        """Status and output of a start, and whether it has read the sources."""
        put(self.summed, "")
        done = subprocess.run([*(words or [self.path("spt")]), "a word"], cwd=cwd, env=self.known, capture_output=True, text=True)
        return done.returncode, done.stdout, SOURCE in read(self.summed)

    def forget(self):
        """What tests and ./install do before they ask which program is that of these sources."""
        subprocess.run(["sh", "-c", 'home=$0; . "$home/build/program.sh"; forget_stamp', self.home], check=True)

    def is_stamped(self):
        return os.path.isfile(self.path(".spt/code"))


QUICK = (0, "the program a word\n", False)
SLOW = (0, "the program a word\n", True)
BUILDS = (70, "", True)


def keep_times(path, before):
    os.utime(path, ns=(before.st_atime_ns, before.st_mtime_ns))


def edit(path, line="// one more line\n"):
    with open(path, "a") as it:
        it.write(line)


def edit_in_place(path):
    """Another text of the same length and the same time."""
    before = os.stat(path)
    with open(path, "r+") as it:
        it.write("F")
    keep_times(path, before)


def replace(path):
    """Another file of the same name, length and time."""
    before = os.stat(path)
    put(f"{path}.new", read(path).replace("n", "N", 1))
    keep_times(f"{path}.new", before)
    os.replace(f"{path}.new", path)


def put_away(path):
    os.rename(path, f"{path}.old")


CHANGES = {
    "a source edited": lambda its: edit(its.path(SOURCE)),
    "a source replaced, length and time as before": lambda its: replace(its.path(SOURCE)),
    "a source added": lambda its: put(its.path("crates/sp_one/src/new.rt"), ""),
    "a source added in a new folder": lambda its: put(its.path("crates/sp_one/specs/new/New.antt"), ""),
    "a source removed": lambda its: os.remove(its.path("crates/sp_one/src/lib.rt")),
    "a source renamed": lambda its: put_away(its.path("crates/sp_one/src/lib.rt")),
    "the folder of sources renamed": lambda its: put_away(its.path("crates/sp_one/src")),
    "a proof edited, and git's list written": lambda its: (edit(its.path(PROOF)), put(its.path(".git/index"), "new")),
    "a crate put away": lambda its: put_away(its.path("crates/sp_one")),
    "the handles edited": lambda its: edit(its.path("HANDLES")),
    "one crate more": lambda its: put(its.path("crates.txt"), FILES["crates.txt"].replace("sp_one\n", "sp_one sp_other\n", 1)),
}
UNSEEN = {
    "a source edited in place, length and time as before": lambda its: edit_in_place(its.path(SOURCE)),
    "a proof edited": lambda its: edit(its.path(PROOF)),
    "a proof removed": lambda its: os.remove(its.path("crates/sp_one/proofs/lib/one/Answers.antt")),
}
HARMLESS = {
    "a source touched": lambda its: os.utime(its.path(SOURCE)),
    "git's list written": lambda its: put(its.path(".git/index"), "new"),
    "what makes the sum edited": lambda its: edit(its.path("build/program.sh"), "# one more line\n"),
    "another text put beside the sources": lambda its: put(its.path("crates/sp_one/src/notes.md"), "one\n"),
}
STAMPS = {
    "a stamp that is cut in a line": lambda its: put(its.path(".spt/code"), read(its.path(".spt/code"))[:100]),
    "a stamp that is cut behind a line": lambda its: put(its.path(".spt/code"), read(its.path(".spt/code")).rsplit("digest", 1)[0]),
    "a stamp that is cut in the digest": lambda its: put(its.path(".spt/code"), read(its.path(".spt/code"))[:-9]),
    "a stamp that is empty": lambda its: put(its.path(".spt/code"), ""),
    "a stamp that is no text": lambda its: put(its.path(".spt/code"), b"\0\xff\n\n;digest"),
    "a text that no shell takes": lambda its: put(its.path(".spt/code"), "(;')\n" + read(its.path(".spt/code"))),
    "a stamp that is gone": lambda its: os.remove(its.path(".spt/code")),
}
ELSEWHERE = {
    "nothing changed": lambda its: None,
    "the time of a source set back": lambda its: os.utime(its.path(SOURCE), (1, 1)),
    "an edit of a contract edited": lambda its: edit(its.path("crates/sp_one/edits.txt")),
    "a test edited": lambda its: edit(its.path("crates/sp_one/src/tests/more.rt")),
    "a crate edited that the program doesn't use": lambda its: edit(its.path("crates/sp_other/src/lib.rt")),
}


def try_change(folder, where, change, *wanted):
    """What is wrong with the starts before a change, which makes the stamp, and behind it."""
    its = Repository(folder, where)
    time.sleep(SETTLED)
    before = [its.start(), its.start()]
    if before != [SLOW, QUICK] or not its.is_stamped():
        return f"before: {before}"
    change(its)
    after = [its.start() for _ in wanted]
    if wanted == (QUICK,):
        its.forget()
        after.append(its.start())
        wanted = (QUICK, SLOW if change in ELSEWHERE.values() else BUILDS)
    return None if after == list(wanted) else f"after: {after}"


def try_changes(count, folder):
    """All changes of the tables at once, since a repository has to settle."""
    tried = {}
    with concurrent.futures.ThreadPoolExecutor(8) as pool:
        for where in (".spt", "dist"):
            for changes, wanted in ((CHANGES, [BUILDS]), (UNSEEN, [QUICK]), (HARMLESS, [SLOW]), (STAMPS, [SLOW, QUICK]), (ELSEWHERE, [QUICK])):
                for name, change in changes.items():
                    place = f"{folder}/{where} {len(tried)}"
                    tried[f"{name}, the program in {where}"] = pool.submit(try_change, place, where, change, *wanted)
    for name, task in tried.items():
        count.of(f"{name}; {task.result()}", task.result() is None)


def try_lately(count, folder):
    """What has changed lately is read again, so that a change at once after a start shows, whatever the clock tells of it."""
    its = Repository(folder)
    count.of("new sources", [its.start(), its.start()] == [SLOW, SLOW])
    with open(its.path(SOURCE), "r+") as it:
        it.write("F")
    count.of("a source edited at once, its length as before", its.start() == BUILDS)


def try_places(count, folder):
    """Each way to name ./spt, and many starts at once."""
    its = Repository(folder)
    time.sleep(SETTLED)
    with concurrent.futures.ThreadPoolExecutor(8) as pool:
        found = list(pool.map(lambda _: its.start()[:2], range(16)))
    count.of(f"many starts at once: {found}", found == [SLOW[:2]] * 16)
    count.of(f"left behind: {os.listdir(its.path('.spt'))}", sorted(os.listdir(its.path(".spt"))) == ["code", "sources", "spt"])
    os.symlink(its.path("spt"), f"{folder}/link")
    os.symlink("link", f"{folder}/second")
    its.known["CDPATH"] = its.home
    for words, cwd in ([f"{folder}/link"], "/"), (["./second"], folder), (["./spt"], its.home), (["sh", "spt"], its.home), (["bash", "spt"], its.home), (["bash", "share/../spt"], its.home), (["../spt"], its.path("share")):
        count.of(f"{words} in {cwd}", its.start(*words, cwd=cwd) == QUICK)


def try_alone(count, folder):
    """With a stamp a start is the shell alone, which finds no other command here; a name that says more to a shell has no stamp."""
    its = Repository(folder)
    time.sleep(SETTLED)
    its.start()
    its.known["PATH"] = "/nowhere"
    told = its.start()
    count.of(f"no command on the path: {told}", told == QUICK)
    its = Repository(f"{folder}/other")
    put(its.path("crates/sp_one/src/a;b.rt"), "")
    put(its.path(".spt/sources"), its.sources())
    time.sleep(SETTLED)
    count.of("a name with a semicolon", [its.start(), its.start(), its.is_stamped()] == [SLOW, SLOW, False])


def try_without_stamp(count, folder):
    """Where .spt/ can't be written, a start is as right, and only slower."""
    its = Repository(folder, "dist")
    put(its.path(".spt"), "")
    time.sleep(SETTLED)
    count.of("no folder .spt", [its.start(), its.start()] == [SLOW, SLOW])
    edit_in_place(its.path(SOURCE))
    count.of("no folder .spt, a source edited", its.start() == BUILDS)


def main():
    count = Count()
    for tried in (try_changes, try_lately, try_places, try_alone, try_without_stamp):
        with tempfile.TemporaryDirectory() as folder:
            tried(count, folder)
    return count.end()


if __name__ == "__main__":
    sys.exit(main())
