#!/usr/bin/env python3
"""Builds the programs of tests/c with the library for C, by each C compiler that is there, and runs them.

Usage: python3 tests/library_c.py [--archive ARCHIVE] [--program PROGRAM]

The library is installed below a folder by build/libraries, and found there by pkg-config where that is there. The programs try
every refusal, memory refused at each request, and the trees of the example and of a graph of 100,000 vertices, which must be the
bytes of `spt tree`, by one thread and by four at once; a graph that is kept and shared by four threads; a place that is in use,
and one that four threads use at once. They run under the sanitizers of addresses and of undefined behaviour, those of kept graphs
with threads also under the one of threads. What the header gives is tried in C and in C++. The library must show `spt_*` alone,
each by the version that brought it, also to a program that was linked with a library without versions; take nothing but memory from
outside, and have no data that is written. The examples of docs/C.md must print what stands below them there. A tool that
isn't there is left out, and said so; with SPT_ALL=1 it counts as failed, and so does it where there is no compiler at all. The last
line is 'N passed, M failed'.
"""

import os
import re
import shlex
import shutil
import subprocess
import sys
import tempfile

sys.dont_write_bytecode = True
from harness import HOME, Count, graphs, options_of, program  # noqa: E402

COMPILERS = {"gcc": "g++", "clang": "clang++"}
STRICT = ["-std=c11", "-D_GNU_SOURCE", "-O1", "-g", "-pthread", "-Wall", "-Wextra", "-Werror"]
STRICT_CXX = ["-x", "c++", "-std=c++11", "-O1", "-g", "-Wall", "-Wextra", "-Werror"]
SANITIZED = ["-fsanitize=address,undefined", "-fno-sanitize-recover=all"]
THREADS = ["-fsanitize=thread"]
# the sanitizer of threads doesn't see the atomic steps of the library, so it leaves out the memory that these order
UNSEEN = ["env", "TSAN_OPTIONS=ignore_noninstrumented_modules=1"]
WRAPPED = ["-Wl,--wrap=malloc,--wrap=realloc,--wrap=free"]
# what the library takes from the C library
TAKEN = {"malloc", "realloc", "free", "memcpy", "memmove", "memset"}
# which version of the library had each function first
BROUGHT = {"SPT_1.0": {"spt_check", "spt_gr", "spt_graph_free", "spt_graph_new", "spt_graph_share", "spt_graph_trees", "spt_pair",
                       "spt_reach", "spt_tree", "spt_trees"},
           "SPT_1.1": {"spt_graph_counts", "spt_graph_pair", "spt_version"},
           "SPT_1.2": {"spt_graph_matrix", "spt_graph_nearest", "spt_graph_within"},
           "SPT_1.3": {"spt_graph_part"},
           "SPT_1.4": {"spt_graph_both_ways", "spt_graph_load", "spt_graph_save", "spt_graph_turned"},
           "SPT_1.6": {"spt_graph_route", "spt_graph_routes"}}
# a program that is linked with a library whose symbols have no versions, as that of 1.0.0 was
OLD = """#include <spt.h>
int main(void) {
    const spt_arc arcs[] = {{1, 2, 7}, {2, 3, 1}};
    spt_found told = spt_pair(arcs, 2, 3, 1, 3, 0);
    return told.status == SPT_OK && told.dist == 8 && spt_reach(1) == 17592186044414 ? 0 : 1;
}
"""
VERTICES, SOURCES, SEED = 100_000, 4, 1
SECONDS = 300


def told(words, **more):
    """Status, output and errors of a command."""
    done = subprocess.run(words, capture_output=True, timeout=SECONDS, **more)
    return done.returncode, done.stdout, done.stderr


def flags(prefix, static):
    """What a compiler is given so that it finds the library below this folder, and a program at its start."""
    if static:
        return [f"-I{prefix}/include", f"{prefix}/lib/libspt.a"]
    if shutil.which("pkg-config") is None:
        return [f"-I{prefix}/include", f"-L{prefix}/lib", "-lspt", f"-Wl,-rpath,{prefix}/lib"]
    known = dict(os.environ, PKG_CONFIG_PATH=f"{prefix}/lib/pkgconfig")
    found = subprocess.run(["pkg-config", "--cflags", "--libs", "spt"], check=True, capture_output=True, text=True, env=known)
    return [*shlex.split(found.stdout), f"-Wl,-rpath,{prefix}/lib"]


def build(count, compiler, folder, name, link, *more):
    """The program of a file of tests/c, or None where the compiler refuses it."""
    program = f"{folder}/{name}.{compiler}"
    strict = STRICT_CXX if compiler in COMPILERS.values() else STRICT
    link = ["-x", "none", *link] if strict is STRICT_CXX else link
    words = [compiler, *strict, *more, "-o", program, f"{HOME}/tests/c/{name}.c", *link]
    status, out, err = told(words)
    count.of(f"{compiler} {name}.c: {(out + err).decode()}", status == 0)
    return program if status == 0 else None


def add_counts(count, name, words):
    """Runs a program that counts what holds."""
    status, out, err = told(words)
    last = re.search(rb"^(\d+) passed, (\d+) failed\n\Z", out, re.M)
    if status == 0 and last and not err:
        count.passed += int(last[1])
        return
    print((out + err).decode(errors="replace"))
    count.of(name, False)


def same_trees(count, name, program, files, wanted):
    """The trees by one thread, by four at once, and by one call for all sources."""
    gr, ss, delta = files
    for way in (["1"], ["4"], ["1", "together"]):
        status, out, err = told([program, gr, ss, str(delta), *way])
        count.of(f"{name}, {' '.join(way)}: {err.decode()}", status == 0 and out == wanted)


def great_graph(folder, program):
    """The files of a graph of 100,000 vertices, the mean length of its arcs, and its trees by the program."""
    gr, ss = f"{folder}/great.gr", f"{folder}/great.ss"
    _, mean = graphs.write_graph(gr, "roads", VERTICES, SEED)
    graphs.write_sources(ss, VERTICES, SOURCES, SEED)
    done = subprocess.run([program, "tree", gr, ss, "--delta", str(mean)], check=True, stdout=subprocess.PIPE)
    return (gr, ss, mean), done.stdout


def try_compiler(count, compiler, prefix, folder, great, wanted):
    static, shared = flags(prefix, True), flags(prefix, False)
    for name, more in (("refusals", []), ("near", []), ("routes", []), ("packed", []), ("memory", WRAPPED), ("in_use", WRAPPED), ("header", [])):
        program = build(count, compiler, folder, name, static, *SANITIZED, *more)
        if program:
            add_counts(count, f"{compiler} {name}", [program])
    try_cxx(count, COMPILERS[compiler], static, folder)
    # what threads do to a graph and to a place that they share, seen by two sanitizers
    for name, link, watched in (("graph", static, SANITIZED), ("graph", static, THREADS), ("threads", static, SANITIZED),
                                ("threads", shared, THREADS)):
        program = build(count, compiler, folder, name, link, *watched)
        if program:
            add_counts(count, f"{compiler} {name} {watched[0]}", [*UNSEEN, program])
    for kind, link in (("static", static), ("shared", shared)):
        program = build(count, compiler, folder, "tree", link, *SANITIZED)
        if program:
            with open(f"{HOME}/examples/diamond.tree", "rb") as it:
                diamond = [f"{HOME}/examples/diamond.{ending}" for ending in ("gr", "ss")] + [3]
                same_trees(count, f"{compiler}, {kind}, the diamond", program, diamond, it.read())
            same_trees(count, f"{compiler}, {kind}, {VERTICES} vertices", program, great, wanted)
    header = ["-Wall", "-Wextra", "-Werror", "-pedantic", "-fsyntax-only", "-include", f"{prefix}/include/spt.h", "/dev/null"]
    for words in (["-x", "c", "-std=c99"], ["-x", "c++", "-std=c++11"]):
        status, _, err = told([compiler, *words, *header])
        count.of(f"{compiler} {' '.join(words)} spt.h: {err.decode()}", status == 0)


def try_cxx(count, compiler, link, folder):
    """What the header gives, in C++."""
    if shutil.which(compiler) is None:
        print(f"left out: {compiler} isn't installed")
        count.failed += os.environ.get("SPT_ALL") == "1"
        return
    program = build(count, compiler, folder, "header", link, *SANITIZED)
    if program:
        add_counts(count, f"{compiler} header", [program])


def symbols(words, path):
    """The names that nm tells, without the versions themselves."""
    status, out, _ = told(["nm", *words, path])
    return set(re.findall(r" [B-Zb-z] (\w+)", out.decode())) if status == 0 else None


def versions(path):
    """The functions of each version that a library shows."""
    status, out, _ = told(["nm", "-D", "--defined-only", path])
    found = {}
    for name, version in re.findall(r" T (\w+)@@(\S+)$", out.decode(), re.M):
        found.setdefault(version, set()).add(name)
    return found if status == 0 else None


def try_old_program(count, compiler, prefix, folder):
    """A program that was linked with a library without versions runs with this one."""
    old = f"{folder}/old"
    os.makedirs(old, exist_ok=True)
    with open(f"{old}/old.c", "w") as it:
        it.write(OLD)
    shared = ["-shared", "-nostdlib", "-Wl,-soname,libspt.so.1", "-o", f"{old}/libspt.so"]
    made = told([compiler, *shared, "-Wl,--whole-archive", f"{prefix}/lib/libspt.a", "-Wl,--no-whole-archive", "-lc"])
    count.of(f"a library without versions: {made[2].decode()}", made[0] == 0 and versions(f"{old}/libspt.so") == {})
    made = told([compiler, *STRICT, "-o", f"{old}/old", f"{old}/old.c", f"-I{prefix}/include", f"-L{old}", "-lspt"])
    count.of(f"a program of it: {made[2].decode()}", made[0] == 0)
    if made[0] == 0:
        known = dict(os.environ, LD_LIBRARY_PATH=f"{prefix}/lib", LD_BIND_NOW="1")
        count.of("it runs with the library", told([f"{old}/old"], env=known) == (0, b"", b""))


def inspect(count, prefix):
    """What the library shows and takes, and that it has no data that is written."""
    with open(f"{prefix}/include/spt.h") as it:
        text = it.read()
    declared = set(re.findall(r"^\w+ (spt_\w+)\(", text, re.M))
    archive, shared = f"{prefix}/lib/libspt.a", f"{prefix}/lib/libspt.so"
    for words, path in ((["-g", "--defined-only"], archive), (["-D", "--defined-only"], shared)):
        shown = symbols(words, path)
        count.of(f"{path} shows what the header declares: {shown}", shown == declared)
    count.of(f"{shared} shows each by its version: {versions(shared)}", versions(shared) == BROUGHT)
    number = re.search(r'^#define SPT_VERSION "([0-9.]+)"$', text, re.M)
    count.of("the file has the header's version", number and os.path.exists(f"{shared}.{number[1]}"))
    for words, path in ((["-g", "-u"], archive), (["-D", "-u"], shared)):
        taken = symbols(words, path)
        count.of(f"{path} takes memory alone: {taken}", taken is not None and taken <= TAKEN)
    status, out, _ = told(["size", "-A", archive])
    written = re.findall(r"^\.(?:data(?!\.rel\.ro)|bss|tdata|tbss|init_array|ctors)\S* +(\d+)", out.decode(), re.M)
    # one byte of .bss is the address of blocks of no bytes, and is never written
    count.of(f"no data that is written: {written}", status == 0 and sum(map(int, written)) <= 1)


def try_page(count, compiler, prefix, folder):
    """Each C example of docs/C.md prints what stands in the next block."""
    with open(f"{HOME}/docs/C.md") as it:
        examples = re.findall(r"^```c\n(.*?)^```\n.*?^```text\n(.*?)^```\n", it.read(), re.M | re.S)
    count.of("examples of docs/C.md", bool(examples))
    for number, (source, wanted) in enumerate(examples, 1):
        path = f"{folder}/example{number}"
        with open(f"{path}.c", "w") as it:
            it.write(source)
        status, _, err = told([compiler, *STRICT, "-o", path, f"{path}.c", *flags(prefix, False)])
        count.of(f"example {number} of docs/C.md: {err.decode()}", status == 0)
        if status == 0:
            count.of(f"example {number} of docs/C.md", told([path]) == (0, wanted.encode(), b""))


def try_all(count, chosen, folder):
    prefix = f"{folder}/a prefix"
    words = [f"{HOME}/build/libraries", prefix] + ([chosen.archive] if chosen.archive else [])
    status, _, err = told(words)
    count.of(f"the library: {err.decode()}", status == 0)
    if status != 0:
        return
    inspect(count, prefix)
    great, wanted = great_graph(folder, program(chosen))
    missing = [it for it in (*COMPILERS, "pkg-config") if shutil.which(it) is None]
    for tool in missing:
        print(f"left out: {tool} isn't installed")
        count.failed += os.environ.get("SPT_ALL") == "1"
    for compiler in COMPILERS:
        if compiler not in missing:
            try_compiler(count, compiler, prefix, folder, great, wanted)
            try_page(count, compiler, prefix, folder)
            try_old_program(count, compiler, prefix, folder)
    count.of("a C compiler", not set(COMPILERS) <= set(missing))


def main():
    options = options_of(__doc__)
    options.add_argument("--archive", type=os.path.abspath, help="this static library in place of the one of crates/spt_c")
    chosen = options.parse_args()
    count = Count()
    with tempfile.TemporaryDirectory() as folder:
        try_all(count, chosen, folder)
    return count.end() or not count.passed


if __name__ == "__main__":
    sys.exit(main())
