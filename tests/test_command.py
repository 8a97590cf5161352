#!/usr/bin/env python3
"""Calls ./test itself: what it can't try it refuses, and `./test program`, in a small repository, reports each failure.

Usage: python3 tests/test_command.py

All is done without the Rattle kit on the path. The last line is 'N passed, M failed'.
"""

import os
import shutil
import subprocess
import sys
import tempfile

sys.dont_write_bytecode = True
from harness import HOME, Count, put  # noqa: E402

PLAIN = "/usr/bin:/bin"
NAMES = ["one", "two", "refused", "edit_coverage", "edit_sums", "edits", "twins", "harness"]
SCRIPT = 'import sys\nprint("tried", *sys.argv[1:])\nprint("3 passed, {} failed")\n'


def test(*words, home=HOME):
    """Status, output and errors of ./test."""
    done = subprocess.run([f"{home}/test", *words], cwd="/", env={"PATH": PLAIN}, capture_output=True, text=True)
    return done.returncode, done.stdout, done.stderr


def ask(count):
    """What can't be tried is refused with a hint, and isn't counted as passed."""
    for words in (["nonsense"], ["--nonsense"], ["clauses", "nonsense"], ["harness"], ["."], ["crates/sp_word"], ["program", "x"], [""]):
        status, output, errors = test(*words)
        is_told = errors.startswith("test: ") and "./test --" in errors and errors.count("\n") == 1
        count.of(f"{words}: {status}, {output}, {errors}", (status, output) == (1, "") and is_told)
    for words in ([], ["quick"], ["clauses", "sp_word"]):
        status, output, errors = test(*words)
        count.of(f"{words} without the kit: {status}, {output}, {errors}", (status, output) == (1, "") and "`./test program`" in errors)


def repository(home):
    """One of two crates, with stand-ins of scripts, of the program and of the library."""
    for name in ("test", "build/program.sh"):
        os.makedirs(os.path.dirname(f"{home}/{name}"), exist_ok=True)
        shutil.copy(f"{HOME}/{name}", f"{home}/{name}")
    for name, text in {"crates.txt": "spt:\nspt_c:\n", "HANDLES": "", "crates/spt/src/main.rt": "1", "crates/spt_c/src/lib.rt": "2"}.items():
        put(f"{home}/{name}", text)
    for name in NAMES:
        put(f"{home}/tests/{name}.py", SCRIPT.format(0))
    for name, sources, file in (("dist", "sources", "spt"), ("dist/library", "library_sources", "libspt.so")):
        words = ["sh", "-c", f'home=$0; . "$home/build/program.sh"; {sources}', home]
        put(f"{home}/{name}/sources", subprocess.run(words, check=True, stdout=subprocess.PIPE, text=True).stdout)
        put(f"{home}/{name}/{file}", "", 0o755)


def run_program(count, home):
    """Each script once but those that need the kit; the last line but one says what wasn't checked. One that fails counts."""
    repository(home)
    status, output, errors = test("program", home=home)
    told = output.strip().split("\n")
    begun = [line for line in told if line.startswith("tests/")]
    count.of(f"program: {status}, {output}, {errors}", status == 0 and begun == ["tests/one.py", "tests/refused.py", "tests/two.py"])
    count.of("refused.py makes no calls", "tried --no-calls" in told and told.count("tried") == 2)
    count.of("nothing failed", "once more" not in output)
    count.of("what wasn't checked", told[-2].startswith("no proof was checked") and told[-1] == "9 passed, 0 failed")
    put(f"{home}/tests/two.py", SCRIPT.format(2).replace('print("3', 'print("failed: a name")\nprint("3'))
    put(f"{home}/tests/one.py", "raise SystemExit('no count')\n")
    status, output, _ = test("program", home=home)
    count.of(f"some fail: {status}, {output}", status == 1 and output.endswith("\n6 passed, 3 failed\n"))
    again = output.partition("what failed, once more:\n")[2]
    count.of(f"what failed is told at the end: {again}", again.startswith("of tests/one.py: 1 failed\nof tests/two.py: 2 failed\nfailed: a name\n"))
    put(f"{home}/crates/spt_c/src/lib.rt", "3")
    status, output, errors = test("program", home=home)
    count.of(f"other sources: {status}, {output}, {errors}", (status, output) == (1, "") and "of these sources" in errors)


def main():
    count = Count()
    ask(count)
    with tempfile.TemporaryDirectory() as folder:
        run_program(count, f"{folder}/a repository")
    return count.end()


if __name__ == "__main__":
    sys.exit(main())
