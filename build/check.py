#!/usr/bin/env python3
"""Checks crates while one writes them, over what the crates below state and without their proofs: sooner than `rt check`.

Usage: python3 build/check.py [--jobs N] [--tests] [--run] [--above] [CRATE..]

The crates below are built as they are, their statements alone, once for each state of their sources; what is built is kept in
.spt/statements, or in the folder that SPT_STATEMENTS names, which several clones may share. A check keeps what it has proved in the
crate's out/incremental, so that the next one proves only what has changed.

--tests checks the crates' tests too, --run builds and runs those (as `rt test` does), --above checks the crates too that use these. A
program is built and linked as well. Nothing of this is a verdict: the gate proves each crate from nothing.

With no crate nothing is proved: in a few seconds it tells what the gate would refuse of all crates before it proves them, a file that isn't
laid out as `rt fmt` does it, or one that no crate reads. Of the crates that it checks it tells the layout too.
"""

import argparse
import fcntl
import os
import shutil
import subprocess
import sys
import tempfile
import time

sys.dont_write_bytecode = True
import kit  # noqa: E402

HOME = os.path.dirname(os.path.dirname(os.path.realpath(__file__)))
KEPT = os.environ.get("SPT_STATEMENTS") or os.path.join(HOME, ".spt", "statements")

rt = kit.load("rt")


def provide(crate, jobs):
    """Whether the statements of a library are at hand, in its out/rlib: kept from before, or built now."""
    folder, stamp = os.path.dirname(crate.rlib), crate.stamp()
    if rt.rtlib.text_of(f"{folder}/statements") == stamp and os.path.isdir(crate.rlib):
        return True
    kept = os.path.join(KEPT, f"{crate.name}-{stamp[:24]}")
    with open(f"{kept}.lock", "w") as lock:
        fcntl.flock(lock, fcntl.LOCK_EX)
        if not os.path.isdir(kept):
            with tempfile.TemporaryDirectory(dir=KEPT) as made:
                library = os.path.join(made, f"{crate.name}.rlib")
                words = crate.words(["--jobs", str(jobs)], keeps=False)
                if crate.call(rt.rtlib.RATTLE, "build", *words, "--statements", "-o", library) != 0:
                    return False
                with open(os.path.join(made, "statements"), "w") as file:
                    file.write(stamp)
                subprocess.run(["cp", "-a", made, f"{kept}.new"], check=True)
            os.rename(f"{kept}.new", kept)
    shutil.rmtree(folder, ignore_errors=True)
    os.makedirs(os.path.dirname(folder), exist_ok=True)
    return subprocess.run(["cp", "-al", kept, folder]).returncode == 0


def linked(crate, jobs):
    """Whether a program is built and linked over its libraries."""
    made, toolchain = f"out/{crate.name}", ["--toolchain", f"{rt.KIT}/toolchain"]
    words = crate.words(["--jobs", str(jobs)], keeps=False)
    if crate.call(rt.rtlib.RATTLE, "build", *words, *toolchain, "--backend", "llvm", "-o", f"{made}.o") != 0:
        return False
    of_c = [f"{rt.KIT}/c/libos_c.a", f"{rt.KIT}/c/liblibc_c.a"]
    return crate.call(f"{rt.KIT}/bin/rattle-link", "--target", "x86_64-unknown-linux-gnu", *toolchain, "-o", made, f"{made}.o", *of_c) == 0


def laid_out(crate):
    """Whether all files of a crate are as `rt fmt` lays them out, which the gate wants."""
    if rt.rtlib.fmt(crate.folder, "--check", sys.stdout) == 0:
        return True
    print(f"check: {crate.name}: run rt fmt in its folder", flush=True)
    return False


def would_begin(all_crates):
    """Whether the gate would prove these crates at all."""
    for name in sorted(os.listdir(f"{HOME}/crates")):
        rt.rtlib.stop_on_unread(f"{HOME}/crates/{name}", all_crates)
    wrong = [it.name for it in all_crates if not laid_out(it)]
    print(f"check: {len(all_crates)} crates, {len(wrong)} not laid out: nothing is proved")
    return not wrong


def checked(crate, chosen):
    """Whether a crate is proved, over its libraries; a program is linked, and tests are checked and run where that is asked."""
    if not all(provide(it, chosen.jobs) for it in crate.below()):
        return False
    crate.out = sys.stdout
    os.makedirs(f"{crate.folder}/out/incremental", exist_ok=True)
    words = crate.words(["--jobs", str(chosen.jobs)])
    if crate.call(rt.rtlib.RATTLE, "check", *words, "--incremental", "out/incremental") != 0:
        return False
    if crate.is_program and not linked(crate, chosen.jobs):
        return False
    if not (chosen.tests or chosen.run) or not crate.has_tests():
        return True
    crate.allowed = ("Threads", "Wait")
    flags = ["--jobs", str(chosen.jobs)]
    return not crate.verdict_on_tests(flags) and not (chosen.run and crate.run(flags, [], tests=True))


def main():
    options = argparse.ArgumentParser(description=__doc__, formatter_class=argparse.RawDescriptionHelpFormatter)
    options.add_argument("--jobs", type=int, default=2)
    options.add_argument("--tests", action="store_true")
    options.add_argument("--run", action="store_true")
    options.add_argument("--above", action="store_true")
    options.add_argument("crates", nargs="*")
    chosen = options.parse_args()
    os.makedirs(KEPT, exist_ok=True)
    os.chdir(HOME)
    rt.rtlib.guarded()
    all_crates = rt.rtlib.crates_below(HOME)
    if not chosen.crates:
        return 0 if would_begin(all_crates) else 1
    unknown = {*chosen.crates} - {it.name for it in all_crates}
    if unknown:
        sys.exit(f"check: no crate is named {', '.join(sorted(unknown))}")

    def is_meant(crate):
        return crate.name in chosen.crates or chosen.above and any(it.name in chosen.crates for it in crate.below())

    wrong = []
    for crate in filter(is_meant, all_crates):
        begun = time.time()
        is_proved = checked(crate, chosen) and laid_out(crate)
        print(f"check: {crate.name} {'proved' if is_proved else 'NOT PROVED'}; {time.time() - begun:.0f} s", flush=True)
        wrong += [] if is_proved else [crate.name]
    return 1 if wrong else 0


if __name__ == "__main__":
    sys.exit(main())
