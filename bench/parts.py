"""What benchmarks and tests share: the programs that they run, each built first where it isn't yet from these sources."""

import hashlib
import os
import shutil
import subprocess
import sys

HOME = os.path.dirname(os.path.dirname(os.path.abspath(__file__)))
MADE = os.path.join(HOME, ".spt")

# Large lists in large pages, as ./spt has them, for the programs that are compared too.
os.environ.setdefault("GLIBC_TUNABLES", "glibc.malloc.hugetlb=1")


def sources():
    """What the program is made from, as one number."""
    known = hashlib.sha256()
    paths = [os.path.join(HOME, "crates.txt"), os.path.join(HOME, "HANDLES")]
    for folder, below, names in os.walk(os.path.join(HOME, "crates")):
        below[:] = [name for name in below if name != "out"]
        paths += [os.path.join(folder, name) for name in names if name.endswith((".rt", ".antt"))]
    for path in sorted(paths):
        with open(path, "rb") as file:
            known.update(path.encode() + b"\0" + file.read() + b"\0")
    return known.hexdigest()


def program():
    """The program that `./spt` runs, which it builds first where there is none of these sources: all of them are read."""
    subprocess.run(["sh", "-c", 'home=$0; . "$home/build/program.sh"; forget_stamp', HOME], check=True)
    subprocess.run([os.path.join(HOME, "spt"), "--version"], check=True, stdout=subprocess.DEVNULL)
    words = ["sh", "-c", 'home=$0; . "$home/build/program.sh"; program "$(sources)"', HOME]
    return subprocess.run(words, check=True, capture_output=True, text=True).stdout.strip()


def as_users_run(program, words):
    """The words by which ./spt would run this program: what is asked of the C library is asked for it too (share/run.sh)."""
    return ["sh", "-c", 'unset GLIBC_TUNABLES; . "$0"; run "$@"', f"{HOME}/share/run.sh", program, *words]


def build_ours(name="bench_engine", *words):
    """The program of a crate, proved, built and run with these words first where it isn't yet from these sources. It is kept as
    `spt` keeps its own."""
    crate = os.path.join(HOME, "crates", name)
    program, stamp = os.path.join(MADE, name), os.path.join(MADE, name + ".sources")
    wanted = sources()
    if os.path.exists(program) and os.path.exists(stamp):
        with open(stamp) as file:
            if file.read() == wanted:
                return program
    if shutil.which("rt") is None:
        sys.exit(f"{name}: the Rattle kit's command rt isn't on the path (README.md)")
    print(f"{name}: building crates/{name}: it and what it uses is proved, which takes some minutes", file=sys.stderr)
    done = subprocess.run(["rt", "run", "--", *words], cwd=crate, capture_output=True, text=True)
    built = os.path.join(crate, "out", name)
    if done.returncode != 0 or not os.path.exists(built):
        sys.exit(f"{done.stdout}{done.stderr}{name}: the build failed")
    os.makedirs(MADE, exist_ok=True)
    shutil.copy(built, program)
    with open(stamp, "w") as file:
        file.write(wanted)
    return program


def build_plain(folder, name):
    """A C++ program of this folder, or None where there is no compiler."""
    compiler = shutil.which("g++") or shutil.which("c++")
    if compiler is None:
        return None
    program = os.path.join(folder, name)
    source = os.path.join(HOME, "bench", name + ".cpp")
    subprocess.run([compiler, "-O3", "-march=x86-64-v2", "-std=c++17", "-pthread", "-o", program, source], check=True)
    return program
