#!/usr/bin/env python3
"""Tries that the innocent twins of edits are proved.

An edit that the prover must refuse shows something only if a harmless change at the same place is accepted. Such a change stands in the
edit, in crates/CRATE/edits.txt or as crates/CRATE/must-fail/NAME.edit: behind an `old: TEXT`, and its `new: TEXT`, a line `twin: TEXT` has
what the twin puts there. A place without such a line stays as it is; one with such a line alone is changed by the twin and not by the edit.
All twins of a crate that don't change the same line are put into a copy of the repository at once, and `rt check` must prove the
crate there; where it doesn't, halves are tried, down to one alone. The gate leaves it out: run it when edits or twins change.

Usage: python3 tests/twins.py [--over-gate] [CRATE[/NAME]..]

--over-gate takes the libraries that `rt ci` has just proved in this folder, for several crates side by side.
The last line is 'N passed, M failed'.
"""

import argparse
import concurrent.futures
import glob
import os
import shutil
import subprocess
import sys
import tempfile

HOME = os.path.dirname(os.path.dirname(os.path.realpath(__file__)))
sys.path[:0] = [f"{HOME}/build", f"{HOME}/tests"]
sys.dont_write_bytecode = True
import kit  # noqa: E402
from edits import table_of  # noqa: E402


def edits():
    """The crate, the name and the text of each edit."""
    for path in sorted(glob.glob(f"{HOME}/crates/*/edits.txt")):
        folder = os.path.dirname(path)
        for name, text in sorted(table_of(folder).items()):
            yield os.path.basename(folder), name, text
    for path in sorted(glob.glob(f"{HOME}/crates/*/must-fail/*.edit")):
        with open(path) as it:
            yield path.split("/")[-3], os.path.basename(path).removesuffix(".edit"), it.read()


def twins(chosen):
    """The crate, the name and the changes of each twin that is asked for."""
    for crate, name, text in edits():
        made = changes(text)
        if made and (not chosen or crate in chosen or f"{crate}/{name}" in chosen):
            yield crate, name, made


def changes(text):
    """The file, the old and the new text of each change that the twin of an edit makes, in order."""
    file, old, made = None, None, []
    for line in text.splitlines():
        if line.startswith("file: "):
            file = line[len("file: ") :].strip()
        elif line.startswith("old: "):
            old = line[len("old: ") :]
        elif line.startswith("twin: "):
            made.append((file, old, line[len("twin: ") :]))
    return made


def texts_of(folder, made):
    """The text of each file that is changed."""
    texts = {}
    for file, _, _ in made:
        with open(f"{folder}/{file}") as it:
            texts[file] = it.read()
    return texts


def write_all(folder, texts):
    for file, text in texts.items():
        with open(f"{folder}/{file}", "w") as it:
            it.write(text)


def changed(texts, made):
    """The texts with the new line of each change in place of the old, or None where one doesn't stand there once."""
    after = dict(texts)
    for file, old, new in made:
        if after[file].count(old) != 1:
            return None
        after[file] = after[file].replace(old, new)
    return after


def parted(folder, chosen):
    """The twins with their changes, in parts whose changes can all be put in, and of which none has two that change the same line."""
    parts = []
    for name, made in chosen.items():
        lines = {(file, old) for file, old, _ in made}
        if changed(texts_of(folder, made), made) is None:
            print(f"{name}: an old text doesn't stand in its file once")
            continue
        for part in parts:
            together = [change for _, others in part for change in others] + made
            is_apart = not any(change[:2] in lines for change in together[: -len(made)])
            if is_apart and changed(texts_of(folder, together), together) is not None:
                part.append((name, made))
                break
        else:
            parts.append([(name, made)])
    return parts


def proved(folder, check, part):
    """The names of the twins of a part that are proved."""
    made = [change for _, changes_made in part for change in changes_made]
    before = texts_of(folder, made)
    write_all(folder, changed(before, made))
    done = subprocess.run(check, cwd=folder, stdout=subprocess.PIPE, stderr=subprocess.STDOUT, text=True)
    write_all(folder, before)
    if done.returncode == 0 and "logic=proved" in done.stdout:
        return [name for name, _ in part]
    if len(part) == 1:
        print("\n".join(done.stdout.splitlines()[-15:]))
        return []
    middle = len(part) // 2
    return proved(folder, check, part[:middle]) + proved(folder, check, part[middle:])


def tried(copy, crate, check, chosen):
    """Whether each twin of the crate, a name with its changes, is proved."""
    folder = f"{copy}/crates/{crate}"
    well = {name for part in parted(folder, chosen) for name in proved(folder, check, part)}
    for name in chosen:
        print(f"{'proved' if name in well else 'failed'}: {crate}/{name}", flush=True)
    return [name in well for name in chosen]


def checks_over_gate():
    """For each crate the check of a copy of it, over the libraries that `rt ci` has proved here."""
    rt = kit.load("rt")
    rt.rtlib.Crate = rt.Crate
    rt.Crate.cuts_libraries = True
    return {it.name: [rt.rtlib.RATTLE, "check", *it.words(["--jobs", "1"], keeps=False)] for it in rt.rtlib.crates_below(HOME)}


def main():
    options = argparse.ArgumentParser(description=__doc__, formatter_class=argparse.RawDescriptionHelpFormatter)
    options.add_argument("--over-gate", action="store_true")
    options.add_argument("twins", nargs="*")
    given = options.parse_args()
    chosen, outcomes = {}, []
    for crate, name, made in twins(given.twins):
        chosen.setdefault(crate, {})[name] = made
    checks = checks_over_gate() if given.over_gate else {it: ["rt", "check"] for it in chosen}
    # (an rt keeps others out of the crates below it)
    lanes = len(os.sched_getaffinity(0)) if given.over_gate else 1
    with tempfile.TemporaryDirectory() as folder, concurrent.futures.ThreadPoolExecutor(lanes) as pool:
        copy = f"{folder}/copy"
        left_out = (".git", ".spt", "out") if given.over_gate else (".git", ".spt")
        shutil.copytree(HOME, copy, symlinks=True, ignore=shutil.ignore_patterns(*left_out))
        for made in pool.map(lambda it: tried(copy, it, checks[it], chosen[it]), chosen):
            outcomes += made
    print(f"{sum(outcomes)} passed, {len(outcomes) - sum(outcomes)} failed")
    return 0 if outcomes and all(outcomes) else 1


if __name__ == "__main__":
    sys.exit(main())
