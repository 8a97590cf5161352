#!/usr/bin/env python3
"""Proves and builds the program of crates/spt: each crate that it uses, once those below it are proved, on all processors.

Usage: python3 build/build.py

Each crate is proved from nothing, over what the crates below it state, as the gate does it: that is sooner than over what checks while
one writes have kept (`rt check`), which holds their proofs too. A crate that an earlier run proved from the same sources isn't
proved again. It tells on standard error which crates are done and which are at work. What the prover says of a crate stays in
.spt/logs.
"""

import os
import shutil
import sys
import threading
import time

sys.dont_write_bytecode = True
import kit  # noqa: E402

HOME = os.path.dirname(os.path.dirname(os.path.realpath(__file__)))
LOGS = os.path.join(HOME, ".spt", "logs")
PROGRAM = "spt"
# The prover's lists are large: in large pages, where the system has them, it takes a seventh less time.
LARGE_PAGES = {"GLIBC_TUNABLES": "glibc.malloc.hugetlb=1"}
FOLDER = os.path.join(HOME, "crates", PROGRAM)

rt = kit.load("rt")


class Progress:
    """How many crates are proved and which are at work, told whenever that changes."""

    def __init__(self, count):
        self.count, self.proved, self.at_work = count, 0, []
        self.begun, self.lock = time.time(), threading.Lock()

    def begin(self, name):
        with self.lock:
            self.at_work.append(name)
            self.tell()

    def end(self, name, is_proved):
        with self.lock:
            self.at_work.remove(name)
            self.proved += is_proved
            self.tell()

    def tell(self):
        self.say(f"{self.proved} of {self.count} crates proved, at work: {', '.join(self.at_work) or 'none'}")

    def say(self, text):
        print(f"spt: {text}; {time.time() - self.begun:.0f} s", file=sys.stderr, flush=True)


def log_of(name):
    return os.path.join(LOGS, name)


def build(crate, jobs, to, *flags):
    """Whether the crate is proved from nothing, and built."""
    words = crate.words(["--jobs", str(jobs)], keeps=False)
    return crate.call(rt.rtlib.RATTLE, "build", *words, *flags, "-o", to) == 0


def proved_library(crate, jobs):
    """Whether a library is proved, in this run or in an earlier one of the same sources."""
    folder = os.path.dirname(crate.rlib)
    stamp, kept = crate.stamp(), os.path.join(folder, "statements")
    if rt.rtlib.text_of(kept) == stamp and os.path.isdir(crate.rlib):
        return True
    shutil.rmtree(folder, ignore_errors=True)
    os.makedirs(folder)
    is_proved = build(crate, jobs, crate.rlib, "--statements") and crate.stamp() == stamp
    if is_proved:
        with open(kept, "w") as file:
            file.write(stamp)
    return is_proved


def linked_program(crate, jobs):
    """Whether the program is proved over its libraries, built and linked."""
    os.makedirs(os.path.join(crate.folder, "out"), exist_ok=True)
    made = f"out/{crate.name}"
    toolchain = ["--toolchain", f"{rt.KIT}/toolchain"]
    if not build(crate, jobs, f"{made}.o", *toolchain, "--backend", "llvm"):
        return False
    words = ["--target", "x86_64-unknown-linux-gnu", *toolchain, "-o", made, f"{made}.o"]
    of_c = [f"{rt.KIT}/c/libos_c.a", f"{rt.KIT}/c/liblibc_c.a"]
    return crate.call(f"{rt.KIT}/bin/rattle-link", *words, *of_c) == 0


def done(progress, crate, given, jobs):
    """Whether a crate is proved and built, where those below it are."""
    if not all(given[it.name, "proof"] for it in crate.below()):
        return False
    progress.begin(crate.name)
    with open(log_of(crate.name), "w") as crate.out:
        is_done = (linked_program if crate.is_program else proved_library)(crate, jobs)
    progress.end(crate.name, is_done)
    return is_done


def main():
    os.environ.update({**LARGE_PAGES, **os.environ})
    shutil.rmtree(LOGS, ignore_errors=True)
    os.makedirs(LOGS)
    os.chdir(FOLDER)
    rt.rtlib.guarded()
    crates = rt.rtlib.crates_below(FOLDER)
    progress = Progress(len(crates))

    def task(crate):
        waits = [(it.name, "proof") for it in crate.below()]
        return waits, crate.count(rb"\n"), rt.need(crate), lambda given, jobs: done(progress, crate, given, jobs)

    # (no other rt works in these folders meanwhile)
    held = rt.rtlib.lock(crates)
    found = rt.in_lanes({(it.name, "proof"): task(it) for it in crates})
    for folder in held:
        os.close(folder)
    wrong = [name for (name, _), is_done in found.items() if not is_done and os.path.isfile(log_of(name))]
    for name in wrong[:1]:
        with open(log_of(name)) as log:
            print(log.read(), file=sys.stderr)
    progress.say("not proved" if wrong else "proved and built")
    return 1 if wrong else 0


if __name__ == "__main__":
    sys.exit(main())
