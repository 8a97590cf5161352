#!/usr/bin/env python3
"""Makes the package for Debian, installs it below a folder, runs what is in it, and removes it; and compares the sums of a release.

Usage: python3 tests/deb.py

Lintian finds no fault in it, and its version lies between that of the last release and the next one. dpkg knows the C library of this system there, and nothing else, and so tests what the package depends on. Without dpkg-deb, or where
this isn't root, what can't be done is left out, and said so; with SPT_ALL=1 that counts as failed, and the package is installed on this
system too, where it has none of that name, and removed again. The last line is 'N passed, M failed'.
"""

import glob
import gzip
import hashlib
import os
import re
import shutil
import subprocess
import sys
import tempfile

sys.dont_write_bytecode = True
from document_readme import targets_of  # noqa: E402
from share import below, is_library_made  # noqa: E402
from harness import HOME, Count, parts, put, read, read_bytes  # noqa: E402

SECONDS = 300
ALL = os.environ.get("SPT_ALL") == "1"
WANTED = [
    "bin/spt",
    "lib/spt/spt",
    "lib/spt/run.sh",
    "share/man/man1/spt.1.gz",
    "share/doc/spt/copyright",
    "share/doc/spt/changelog.gz",
    "share/doc/spt/README.md",
    "share/doc/spt/CHANGELOG.md",
    "share/doc/spt/docs/USAGE.md",
    "share/doc/spt/docs/PYTHON.md",
    "share/doc/spt/docs/C.md",
    "share/doc/spt/examples/town.gr",
    "share/doc/spt/examples/cluster/trees_by_parallel.sh",
    "share/bash-completion/completions/spt",
    "share/zsh/vendor-completions/_spt",
    "share/fish/vendor_completions.d/spt.fish",
    "include/spt.h",
    "lib/libspt.a",
    "lib/libspt.so",
    "lib/libspt.so.1",
    "lib/pkgconfig/spt.pc",
    "lib/python3/dist-packages/spt/__init__.py",
    "lib/python3/dist-packages/spt/py.typed",
    "lib/python3/dist-packages/spt/_networkx/__init__.py",
    "lib/python3/dist-packages/_spt_networkx.py",
]
# A program in C over the library, and what it prints.
C = r"""
#include <spt.h>
#include <stdio.h>
int main(void) {
    spt_arc arcs[] = {{1, 2, 7}, {2, 3, 1}};
    uint64_t dist[3];
    uint32_t pred[3];
    if (spt_tree(arcs, 2, 3, 1, 0, dist, 3, pred, 3).status != SPT_OK) return 1;
    printf("%d\n", (int)dist[2]);
    return 0;
}
"""
PYTHON = "import spt; print(spt.__file__, list(spt.Graph(3, [(1, 2, 7), (2, 3, 1)]).tree(1).distances))"
# what NetworkX finds of the package, as it looks for its backends
BACKEND = """
from importlib.metadata import entry_points, version
print(version("spt"), *(it.load().__name__ for group in ("backends", "backend_info") for it in entry_points(group=f"networkx.{group}")))
"""


def run(*words, **known):
    """Status, and output with errors."""
    told = {"stdout": subprocess.PIPE, "stderr": subprocess.STDOUT, "text": True, "timeout": SECONDS}
    done = subprocess.run(words, **told, **known)
    return done.returncode, done.stdout


def left_out(count, why):
    print(f"left out: {why}")
    count.failed += ALL


def build(count, folder):
    """The package, which is the same however and whenever it is made, and leaves nothing in the checkout."""
    before, made = below(HOME), []
    for name, known in (("one", {}), ("other", {"TZ": "Asia/Tokyo", "LC_ALL": "C.UTF-8"})):
        place = f"{folder}/{name}"
        os.mkdir(place)
        words = ["sh", "-c", 'umask "$0" && "$@"', "022" if name == "one" else "077", f"{HOME}/build/deb", place]
        told = run(*words, cwd="/", env={**os.environ, **known})
        count.of(f"the package: {told}", told[0] == 0 and os.listdir(place) == [os.path.basename(told[1].strip())])
        made.append(told[1].strip().split("\n")[-1])
    with open(made[0], "rb") as one, open(made[1], "rb") as other:
        count.of("the same bytes twice", one.read() == other.read())
    later = run(f"{HOME}/build/deb", f"{folder}/other", env={**os.environ, "SOURCE_DATE_EPOCH": "1000000000"})
    listed = run("dpkg-deb", "-c", made[1], env={**os.environ, "TZ": "UTC"})[1]
    count.of(f"the day that is asked for: {later}", later[0] == 0 and set(re.findall(r"\d{4}-\d\d-\d\d", listed)) == {"2001-09-09"})
    count.of(f"left in the checkout: {below(HOME) ^ before}", below(HOME) == before)
    return made[0]


def needed_libc(*files):
    """The newest version of the C library that the symbols of these files have, as objdump tells."""
    found = []
    for file in files:
        found += re.findall(r"GLIBC_([\d.]+)", subprocess.run(["objdump", "-T", file], check=True, capture_output=True, text=True).stdout)
    return max(found, key=lambda it: [int(part) for part in it.split(".")])


def control(count, package, folder):
    """What the package says of itself."""
    told = dict(line.split(": ", 1) for line in run("dpkg-deb", "-f", package)[1].split("\n") if ": " in line and line[0] != " ")
    version = run(f"{HOME}/spt", "--version")[1].strip()
    wanted = re.escape(version) + (r"(\+git\d{12}\.[0-9a-f]+|\+unreleased)" if is_between(read(f"{HOME}/CHANGELOG.md")) else "")
    count.of(f"name and version: {told}", re.fullmatch(wanted, f"{told['Package']} {told['Version']}") and told["Architecture"] == "amd64")
    unpacked = f"{folder}/unpacked"
    subprocess.run(["dpkg-deb", "-x", package, unpacked], check=True)
    subprocess.run(["dpkg-deb", "-e", package, f"{folder}/control"], check=True)
    if shutil.which("objdump"):
        wanted = needed_libc(f"{unpacked}/usr/lib/spt/spt", f"{unpacked}/usr/lib/libspt.so")
        count.of(f"the C library: {told['Depends']}", told["Depends"] == f"libc6 (>= {wanted})")
    else:
        left_out(count, "objdump isn't installed (Debian: binutils)")
    size = int(run("du", "-sk", "--apparent-size", unpacked)[1].split()[0])
    count.of(f"size: {told['Installed-Size']}, {size}", abs(int(told["Installed-Size"]) - size) < 100)
    with gzip.open(f"{unpacked}/usr/share/man/man1/spt.1.gz") as it, open(f"{HOME}/share/spt.1", "rb") as page:
        count.of("the manual page", it.read() == page.read())
    count.of("who owns it", set(re.findall(r"^\S+ (\S+)", run("dpkg-deb", "-c", package)[1], re.M)) == {"root/root"})


def documents(count, folder):
    """Each link of a document leads to a file of the package, and the examples are those of the sources."""
    place = f"{folder}/unpacked/usr/share/doc/spt"
    for page in [f"{place}/README.md", f"{place}/CHANGELOG.md", *glob.glob(f"{place}/docs/*.md")]:
        for target in targets_of(read(page)):
            path = target.partition("#")[0] or os.path.basename(page)
            count.of(f"{page}: the link {target}", os.path.exists(os.path.join(os.path.dirname(page), path)))
    count.of("the examples", run("diff", "-r", "-x", "__pycache__", f"{HOME}/examples", f"{place}/examples") == (0, ""))


def is_between(changes):
    """Whether something has changed since the last release."""
    return bool(re.search(r"^## Unreleased\n+(?!## )\S", changes, re.M))


def judge(count, package, folder):
    """Lintian, and the program of the release, which lacks only its names for debuggers."""
    if shutil.which("lintian"):
        told = run("lintian", "--fail-on", "error,warning", "--no-tag-display-limit", package)
        count.of(f"lintian: {told}", told[0] == 0)
    else:
        left_out(count, "lintian isn't installed")
    for name in (f"{folder}/unpacked/usr/lib/spt/spt", f"{HOME}/dist/spt"):
        shutil.copy(name, f"{folder}/plain")
        subprocess.run(["strip", "--remove-section=.comment", "--remove-section=.note", f"{folder}/plain"], check=True)
        with open(f"{folder}/plain", "rb") as it:
            plain = it.read()
        count.of(f"{name} is the program that runs", name == f"{HOME}/dist/spt" or plain == read_bytes(name))
    if run("cmp", f"{HOME}/dist/spt", parts.program())[0] == 0:
        count.of("the program of dist/", plain == read_bytes(f"{folder}/unpacked/usr/lib/spt/spt"))
    fields = [told.split() for told in read(f"{folder}/control/shlibs").splitlines()]
    count.of(f"shlibs: {fields}", [it[:3] for it in fields] == [["libspt", "1", "spt"]])


def version_of(package):
    return run("dpkg-deb", "-f", package, "Version")[1].strip()


def is_newer(one, other):
    return run("dpkg", "--compare-versions", one, "gt", other)[0] == 0


def versions(count, package, folder):
    """Of a release, of what was changed since, and of what has no git beside it: each is newer than the one before, and older than the next."""
    if run("git", "clone", "-q", HOME, f"{folder}/clone")[0]:
        return left_out(count, "git isn't installed, or this is no checkout")
    shutil.copytree(f"{HOME}/build", f"{folder}/clone/build", dirs_exist_ok=True)
    made = {}
    for name, edit in (("release", release), ("changed", change), ("without git", lambda clone: shutil.rmtree(f"{clone}/.git"))):
        edit(f"{folder}/clone")
        os.makedirs(f"{folder}/{name}")
        told = run(f"{folder}/clone/build/deb", f"{folder}/{name}")
        count.of(f"{name}: {told}", told[0] == 0)
        made[name] = version_of(told[1].strip())
    number = run(f"{HOME}/spt", "--version")[1].split()[1]
    count.of(f"versions: {made}", made["release"] == number and made["without git"] == f"{number}+unreleased")
    after = ".".join([*number.split(".")[:2], str(int(number.split(".")[2]) + 1)])
    for name in ("changed", "without git"):
        count.of(f"{made[name]}, {name}", is_newer(made[name], number) and is_newer(after, made[name]))
    if is_between(read(f"{HOME}/CHANGELOG.md")):
        count.of(f"the next commit: {made['changed']}, {version_of(package)}", is_newer(made["changed"], version_of(package)))


def commit(clone, changes, date):
    put(f"{clone}/CHANGELOG.md", changes)
    who = {"GIT_AUTHOR_NAME": "a", "GIT_AUTHOR_EMAIL": "a@b", "GIT_COMMITTER_NAME": "a", "GIT_COMMITTER_EMAIL": "a@b", "GIT_COMMITTER_DATE": date}
    subprocess.run(["git", "-C", clone, "commit", "-qam", "-"], check=True, env={**os.environ, **who})


def release(clone):
    commit(clone, "# Changelog\n\n## Unreleased\n\n## 0.0.1\n- One.\n", "2099-01-01T00:00Z")


def change(clone):
    commit(clone, "# Changelog\n\n## Unreleased\n\n- Two.\n\n## 0.0.1\n- One.\n", "2099-01-02T00:00Z")


def works(count, root, known):
    """What stands below a root runs: the program, the manual page, the library for C and the package of Python."""
    files = [f"{HOME}/examples/diamond.{ending}" for ending in ("gr", "ss", "tree")]
    with open(files[2]) as it:
        told = run(f"{root}/usr/bin/spt", "tree", *files[:2], "--delta", "mean", env=known)
        count.of(f"spt tree: {told}", told == (0, it.read()))
    if shutil.which("man"):
        told = run("man", "-l", f"{root}/usr/share/man/man1/spt.1.gz", env={**known, "MANWIDTH": "80", "LC_ALL": "C.UTF-8"})
        count.of("the manual page", told[0] == 0 and "EXIT STATUS" in told[1] and "--sources <A-B>" in told[1])
    else:
        left_out(count, "man isn't installed (Debian: man-db)")
    with tempfile.TemporaryDirectory() as folder:
        with open(f"{folder}/short.c", "w") as it:
            it.write(C)
        if shutil.which("cc") and shutil.which("pkg-config"):
            asked = {**known, "PKG_CONFIG_PATH": f"{root}/usr/lib/pkgconfig"}
            flags = run("pkg-config", "--cflags", "--libs", "spt", env=asked)[1].split()
            told = run("cc", "-o", f"{folder}/short", f"{folder}/short.c", *flags)
            count.of(f"a program in C: {told}", told == (0, ""))
            told = run(f"{folder}/short", env={**known, "LD_LIBRARY_PATH": f"{root}/usr/lib"})
            count.of(f"which runs: {told}", told == (0, "8\n"))
        else:
            left_out(count, "cc or pkg-config isn't installed")
    python = "/usr/bin/python3" if os.path.exists("/usr/bin/python3") else sys.executable
    asked = {**known, "PYTHONPATH": f"{root}/usr/lib/python3/dist-packages"} if root else known
    told = run(python, "-c", PYTHON, env=asked, cwd="/")
    count.of(f"import spt: {told}", told == (0, f"{root}/usr/lib/python3/dist-packages/spt/__init__.py [0, 7, 8]\n"))
    told, version = run(python, "-c", BACKEND, env=asked, cwd="/"), run(f"{HOME}/spt", "--version")[1].split()[-1]
    count.of(f"the backend of NetworkX: {told}", told == (0, f"{version} spt._networkx get_info\n"))


def install_below(count, package, root):
    """Installs it below a root, runs it there, and removes it: nothing but dpkg's own lists is left."""
    os.makedirs(f"{root}/var/lib/dpkg/updates")
    os.makedirs(f"{root}/var/lib/dpkg/info")
    with open(f"{root}/var/lib/dpkg/status", "w") as it:
        it.write(run("dpkg-query", "-s", "libc6")[1] + "\n")
    dpkg = ["dpkg", f"--root={root}", "--force-script-chrootless"]
    for _ in range(2):
        told = run(*dpkg, "-i", package)
        count.of(f"dpkg -i: {told}", told[0] == 0 and all(os.path.isfile(f"{root}/usr/{name}") for name in WANTED))
        count.of("the sums that dpkg compares", run(*dpkg, "-V", "spt") == (0, ""))
        works(count, root, {"PATH": os.environ["PATH"]})
        told = run(*dpkg, "-r", "spt")
        count.of(f"dpkg -r: {told}, {os.listdir(root)}", told[0] == 0 and not os.path.exists(f"{root}/usr"))


def install_here(count, package):
    """The same on this system, where it has no such package and nothing in its places."""
    places = [f"/usr/{name}" for name in WANTED]
    if run("dpkg-query", "-s", "spt")[0] == 0 or any(map(os.path.exists, places)):
        return left_out(count, "this system has an spt already")
    told = run("dpkg", "-i", package)
    try:
        count.of(f"dpkg -i on this system: {told}", told[0] == 0 and all(map(os.path.isfile, places)))
        works(count, "", {"PATH": "/usr/bin:/bin"})
        told = run("sh", "-c", "cd / && spt --version && man -w spt", env={"PATH": "/usr/bin:/bin"})
        count.of(f"spt and its manual by their names: {told}", told[0] == 0)
    finally:
        told = run("dpkg", "--purge", "spt")
    count.of(f"dpkg --purge: {told}", told[0] == 0 and not any(map(os.path.exists, [*places, "/usr/lib/spt", os.path.dirname(places[-1])])))


def packages(count, folder):
    if not shutil.which("dpkg-deb") or not is_library_made():
        return left_out(count, "dpkg-deb isn't installed, or the library isn't made")
    package = build(count, folder)
    control(count, package, folder)
    documents(count, folder)
    judge(count, package, folder)
    versions(count, package, folder)
    count.of("no folder", run(f"{HOME}/build/deb", f"{folder}/none")[0] == 1)
    if os.geteuid() != 0 or not shutil.which("dpkg"):
        return left_out(count, "installing a package, which root does by dpkg")
    install_below(count, package, f"{folder}/root")
    if ALL:
        install_here(count, package)


def sums(count, folder):
    """The sums of a folder, and those of the release: of each file there, and right."""
    place = f"{folder}/a folder"
    os.makedirs(f"{place}/inner")
    for name in ("two", "inner/one", "-x"):
        with open(f"{place}/{name}", "w") as it:
            it.write(name)
    for _ in range(2):
        told = run(f"{HOME}/build/sums", place)
        count.of(f"build/sums: {told}", told == (0, "") and os.listdir(place).count("SHA256SUMS") == 1)
    with open(f"{place}/SHA256SUMS") as it:
        wanted = "".join(f"{hashlib.sha256(name.encode()).hexdigest()}  {name}\n" for name in ("-x", "inner/one", "two"))
        count.of("what they are", it.read() == wanted)
    count.of("sha256sum -c", run("sha256sum", "-c", "--strict", "SHA256SUMS", cwd=place)[0] == 0)
    with open(f"{place}/two", "a") as it:
        it.write("more")
    count.of("sha256sum -c of another file", run("sha256sum", "-c", "SHA256SUMS", cwd=place)[0] == 1)
    told = run("sha256sum", "-c", "--strict", "--quiet", "SHA256SUMS", cwd=f"{HOME}/dist")
    count.of(f"the sums of the release: {told}", told == (0, ""))
    listed = set()
    if os.path.exists(f"{HOME}/dist/SHA256SUMS"):
        with open(f"{HOME}/dist/SHA256SUMS") as it:
            listed = {line.rstrip("\n").split("  ", 1)[1] for line in it}
    there = {name for name in below(f"{HOME}/dist") if os.path.isfile(f"{HOME}/dist/{name}")} - {"SHA256SUMS"}
    count.of(f"each file of the release has its sum: {there ^ listed}", there == listed)


def main():
    count = Count()
    with tempfile.TemporaryDirectory() as folder:
        packages(count, folder)
        sums(count, folder)
    return count.end()


if __name__ == "__main__":
    sys.exit(main())
