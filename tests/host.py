#!/usr/bin/env python3
"""Tries each call that the program makes of the system (crates/sp_disk/src/host.rt), and each failure of it that can be made here.

Usage: python3 tests/host.py [--program PROGRAM]

Inputs that can't be opened or read, and outputs that can't be made, written or renamed, end with status 6 and the system's reason; the file
of -o then holds what it held, and no part is left beside it. What can be had is done: long names and paths, links, pipes, files that change
while they are read or written, and streams that are closed. A file that is replaced hands on its rights, its owner and its group as far
as the user may give them. What root may do, and what nobody else may, is tried as a user without rights, on file systems of a few pages,
or is left out, and said so. The last line is 'N passed, M failed'.
"""

import concurrent.futures
import contextlib
import ctypes
import errno
import os
import shutil
import socket
import stat
import subprocess
import sys
import tempfile
import time

sys.dont_write_bytecode = True
from harness import HOME, SECONDS, put, read, read_bytes, try_all  # noqa: E402

TEXTS = {name: read(f"{HOME}/examples/diamond.{ending}") for name, ending in (("g.gr", "gr"), ("g.ss", "ss"), ("g.tree", "tree"), ("g.rep", "rep"))}
TEXTS |= {"g.pairs": "p pairs 1\nq 1 4\n", "g.off": "p off 1 1\no 1 1 2 3\n"}
WHOLE = TEXTS["g.tree"]
HELD = "what it held\n"
CANNOT_WRITE, WRITE_FAILED = "spt: output: cannot write", "spt: write failed"
# a user who owns nothing here, and a group
USER, GROUP = 65534, 12346
IS_ROOT = os.getuid() == 0
# the system's limits on the bytes of a name, and on those of a path with its end
NAME, PATH = 255, 4096
# names that files may have
STRANGE = ["n" * NAME, "two words", "it's", 'a "name"', "two\nlines", "dollar$HOME`x`*?[a]", "back\\slash", "größe", ".hidden"]
# the most links that the system follows
LINKS = 40
# by the file that FILE stands for, as errors call it, the words of a command
ROLES = [
    ("gr", "tree FILE g.ss --delta 3"),
    ("ss", "tree g.gr FILE --delta 3"),
    ("ss", "nearest g.gr FILE"),
    ("pairs", "pairs g.gr FILE --delta 3"),
    ("gr", "matrix FILE --source 1 --target 4"),
    ("targets", "matrix g.gr g.ss FILE"),
    ("gr", "check FILE g.tree"),
    ("tree", "check g.gr FILE"),
    ("gr", "pack FILE"),
    ("replay", "replay FILE"),
    ("offers", "offers FILE"),
]
TREE = ("tree", "g.gr", "g.ss", "--delta", "3")


class Place:
    """A folder with the files of the example and one that is to be replaced, and runs of the program in it."""

    def __init__(self, program, top, user=None):
        self.program, self.folder, self.user = program, tempfile.mkdtemp(dir=top), user
        for name, text in TEXTS.items():
            put(f"{self.folder}/{name}", text)
        put(self.path("out"), HELD)
        if user is not None:
            self.give("", "out", owner=user)

    def path(self, name):
        return os.path.join(self.folder, name) if name else self.folder

    def give(self, *names, owner):
        for name in names:
            os.chown(self.path(name), owner, owner)

    def start(self, *words, **more):
        """A run as the user of this place, if it has one."""
        if self.user is not None:
            more = {"user": self.user, "group": self.user, "extra_groups": [], **more}
        streams = {"stdin": subprocess.DEVNULL, "stdout": subprocess.PIPE, "stderr": subprocess.PIPE}
        return subprocess.Popen([self.program, *words], cwd=self.folder, **{**streams, **more})

    def run(self, *words, **more):
        """Status, output, and the first two lines of the errors."""
        return ended(self.start(*words, **more))

    def kept(self):
        """What lies here: the names, what they are, and what the files hold."""
        return kept_in(self.folder)


def ended(process):
    """Status, output, and the first two lines of the errors of a run."""
    out, err = process.communicate(timeout=SECONDS)
    lines = (err or b"").decode(errors="replace").split("\n") + ["", ""]
    return process.returncode, (out or b"").decode(), lines[0], lines[1]


def kept_in(folder):
    found = {}
    for where, folders, names in os.walk(folder):
        for name in folders + names:
            path = os.path.join(where, name)
            its = os.lstat(path)
            held = os.readlink(path) if stat.S_ISLNK(its.st_mode) else None
            if stat.S_ISREG(its.st_mode) and os.access(path, os.R_OK):
                held = read_bytes(path)
            found[path] = (stat.S_IFMT(its.st_mode), stat.S_IMODE(its.st_mode), its.st_uid, its.st_gid, held)
    return found


def reason(path, number):
    """The second line of an error that the system has a reason for."""
    return f"spt: {path}: {os.strerror(number)} (os error {number})"


def bound(folder, name):
    """A socket in a folder."""
    # a socket's path may have 107 bytes at most
    number = os.open(folder, os.O_RDONLY)
    with socket.socket(socket.AF_UNIX) as it:
        it.bind(f"/proc/self/fd/{number}/{name}")
    os.close(number)


def chain(place, name, links, end):
    """So many links in a row, the first of this name, the last of which leads to the end."""
    for number in range(links):
        os.symlink(end if number == links - 1 else f"{name}{number + 1}", place.path(name if number == 0 else f"{name}{number}"))


def long_path(name, length=PATH - 1):
    """A path of so many bytes to this name."""
    return "./" * ((length - len(name)) // 2) + "/" * ((length - len(name)) % 2) + name


def furnish(place):
    """Puts into a place what can't be opened, or read."""
    os.mkdir(place.path("folder"))
    os.symlink("none", place.path("to_none"))
    os.symlink("none/none", place.path("to_none_below"))
    os.symlink("folder", place.path("to_folder"))
    os.symlink("to_itself", place.path("to_itself"))
    chain(place, "loop", 2, "loop")
    chain(place, "far", LINKS + 1, "g.gr")
    bound(place.folder, "socket")
    os.chmod(place.path("socket"), 0o777)
    put(place.path("locked/file"), HELD)
    put(place.path("unreadable"), HELD, 0)
    os.chmod(place.path("locked"), 0)


# paths that can't be opened, and the system's reason; those behind the line are open to root
UNOPENED = [
    ("none", errno.ENOENT),
    ("", errno.ENOENT),
    ("none/none", errno.ENOENT),
    ("g.gr/", errno.ENOTDIR),
    ("g.gr/none", errno.ENOTDIR),
    ("to_none", errno.ENOENT),
    ("to_none_below", errno.ENOENT),
    ("to_itself", errno.ELOOP),
    ("loop", errno.ELOOP),
    ("far", errno.ELOOP),
    ("socket", errno.ENXIO),
    ("n" * (NAME + 1), errno.ENAMETOOLONG),
    (long_path("g.gr", PATH), errno.ENAMETOOLONG),
]
FORBIDDEN = [("unreadable", errno.EACCES), ("locked/file", errno.EACCES), ("locked/none", errno.EACCES)]
# paths that are opened, and can't be read
UNREAD = [
    ("folder", errno.EISDIR),
    ("folder/", errno.EISDIR),
    (".", errno.EISDIR),
    ("to_folder", errno.EISDIR),
    # no page of the process is there
    ("/proc/self/mem", errno.EIO),
]


def unopened(count, program, folder):
    """Each file of each command by a path that can't be opened or read: status 6, the system's reason, and nothing written or left."""
    for user in users(program, folder):
        place = Place(program, folder, user)
        furnish(place)
        paths = [(path, number, "cannot open") for path, number in UNOPENED + (FORBIDDEN if user is not None or not IS_ROOT else [])]
        paths += [(path, number, "line 1: 9 Read") for path, number in UNREAD]
        before = place.kept()
        with concurrent.futures.ThreadPoolExecutor(os.cpu_count()) as pool:
            tries = []
            for role, (file, line) in enumerate(ROLES):
                for at, (path, number, kind) in enumerate(paths):
                    # each path meets each kind of output in some role
                    out = ((), ("-o", "out"), ("-o", "new"))[(role + at) % 3]
                    words = [*(path if word == "FILE" else word for word in line.split()), *out]
                    tries.append((words, (6, "", f"spt: {file}: {kind}", reason(path, number)), pool.submit(place.run, *words)))
            for words, wanted, told in tries:
                count.of(f"{str(words)[:200]} as {user}: {str(told.result())[:200]}", told.result() == wanted)
        count.of(f"nothing is written or left, as {user}", place.kept() == before)
        os.chmod(place.path("locked"), 0o700)


def users(program, folder):
    """Who runs the program: this user, and where this is root one without rights, if such a one can reach the program."""
    return [None, USER] if can_be_user(program, folder) else [None]


def can_be_user(program, folder):
    if not IS_ROOT:
        return False
    os.chmod(folder, 0o755)
    try:
        return subprocess.run([program, "--version"], cwd=folder, stdout=subprocess.DEVNULL, user=USER, group=USER, extra_groups=[]).returncode == 0
    except OSError:
        return False


def opened(count, program, folder):
    """Paths that lead to a file, whatever their length and by whatever links, are read."""
    place = Place(program, folder)
    for name in [*STRANGE, "tab\there", "-g.gr", "sub/-", "g.gr.gz"]:
        put(place.path(name), TEXTS["g.gr"])
        told = place.run("tree", f"./{name}", *TREE[2:])
        count.of(f"a graph called {name!r}: {told}", told == (0, WHOLE, "", ""))
    os.symlink("g.gr", place.path("to_graph"))
    os.link(place.path("g.gr"), place.path("hard"))
    os.symlink("/dev/fd/0", place.path("to_stdin"))
    os.symlink("/dev/null", place.path("to_null"))
    chain(place, "far", LINKS, "g.gr")
    for path in (long_path("g.gr"), "to_graph", "hard", "far", "sub/../g.gr", ".//g.gr", place.path("g.gr")):
        told = place.run("tree", path, *TREE[2:])
        count.of(f"a graph by {path[:60]}: {told}", told == (0, WHOLE, "", ""))
    told = place.run("tree", "--delta", "3", "--", "-g.gr", "g.ss")
    count.of(f"a graph behind --: {told}", told == (0, WHOLE, "", ""))
    for path in ("-", "/dev/stdin", "/dev/fd/0", "/proc/self/fd/0", "to_stdin"):
        with open(place.path("g.gr"), "rb") as it:
            told = place.run("tree", path, *TREE[2:], stdin=it)
        count.of(f"a graph from standard input by {path}: {told}", told == (0, WHOLE, "", ""))
    for path in ("/dev/null", "to_null"):
        told = place.run("tree", path, *TREE[2:])
        count.of(f"an empty graph by {path}: {told}", told[:3] == (2, "", "spt: gr: line 1: 3 NoProblem"))
    # standard input is read from where it stands
    with open(put(place.path("behind.gr"), "no line of a graph\n" + TEXTS["g.gr"]), "rb", buffering=0) as it:
        it.seek(len("no line of a graph\n"))
        told = place.run("tree", "-", *TREE[2:], stdin=it)
    count.of(f"standard input behind a line: {told}", told == (0, WHOLE, "", ""))
    for role in ("g.gr", "g.ss"):
        os.mkfifo(place.path(f"fifo_{role}"))
        process = place.start(*(f"fifo_{role}" if word == role else word for word in TREE))
        put(place.path(f"fifo_{role}"), TEXTS[role])
        told = ended(process)
        count.of(f"{role} from a pipe with a name: {told}", told == (0, WHOLE, "", ""))


def furnish_outputs(place):
    """Puts into a place what no output can replace."""
    furnish(place)
    chain(place, "farther", LINKS + 1, "none")
    os.symlink("locked/file", place.path("to_locked"))
    os.mkdir(place.path("bare"))
    put(place.path("bare/out"), HELD)
    os.symlink("bare/none", place.path("to_bare"))
    os.mkfifo(place.path("fifo"), 0o444)
    put(place.path("g.gr.d/out"), HELD)
    for name in ("bare", "g.gr.d"):
        os.chmod(place.path(name), 0o555)


# outputs that can't be made, and the system's reason, if the words have to have this one; those behind the line are open to root
UNMADE = [
    ("", errno.ENOENT),
    ("none/out", errno.ENOENT),
    ("new/", None),
    ("out/", errno.ENOTDIR),
    ("out/new", errno.ENOTDIR),
    ("folder", errno.EISDIR),
    ("folder/", errno.EISDIR),
    (".", errno.EISDIR),
    ("..", errno.EISDIR),
    ("/", errno.EISDIR),
    ("to_folder", errno.EISDIR),
    ("to_none_below", errno.ENOENT),
    ("to_itself", errno.ELOOP),
    ("loop", errno.ELOOP),
    ("farther", errno.ELOOP),
    ("socket", errno.ENXIO),
    ("n" * (NAME + 1), errno.ENAMETOOLONG),
    (long_path("new", PATH), errno.ENAMETOOLONG),
    ("/proc/none", None),
]
NOT_ALLOWED = [
    ("locked/file", errno.EACCES),
    ("locked/new", errno.EACCES),
    ("to_locked", errno.EACCES),
    ("bare/out", errno.EACCES),
    ("bare/new", errno.EACCES),
    ("to_bare", errno.EACCES),
    ("g.gr.d/out", errno.EACCES),
    ("fifo", errno.EACCES),
    ("/dev/mem", None),
]


def unmade(count, program, folder):
    """An output that can't be made: status 6, the system's reason, and nothing written or left."""
    for user in users(program, folder):
        place = Place(program, folder, user)
        furnish_outputs(place)
        paths = UNMADE + (NOT_ALLOWED if user is not None or not IS_ROOT else [])
        before = place.kept()
        for path, number in paths:
            for command in (TREE, ("check", "g.gr", "g.tree"), ("replay", "g.rep")):
                told = place.run(*command, "-o", path)
                wanted = (6, "", CANNOT_WRITE)
                is_told = told[:3] == wanted and (number is None or told[3] == reason(path, number))
                count.of(f"{command[0]} -o {path[:60]} as {user}: {str(told)[:200]}", is_told)
        count.of(f"nothing is written or left, as {user}", place.kept() == before)
        for name in ("locked", "bare", "g.gr.d"):
            os.chmod(place.path(name), 0o700)


def made(count, program, folder):
    """Outputs by long names, strange names and links are made or replaced; a file with two names leaves what it held to the other one."""
    for user in users(program, folder):
        place = Place(program, folder, user)
        os.mkdir(place.path("sub"))
        if user is not None:
            place.give("sub", owner=user)
        chain(place, "far", LINKS, "out")
        chain(place, "farther", LINKS, "end")
        for name in [*STRANGE, "-new", "sub/../new2", "sub//new", long_path("out"), "far", "farther"]:
            told = place.run(*TREE, f"--output={name}")
            end = {"far": "out", "farther": "end", long_path("out"): "out"}.get(name, name)
            count.of(f"-o {name[:60]!r} as {user}: {told}", told == (0, "", "", "") and read(place.path(end)) == WHOLE)
        links = [name for name in os.listdir(place.folder) if os.path.islink(place.path(name))]
        count.of(f"links stay, as {user}: {links}", len(links) == 2 * LINKS)
        os.link(put(place.path("one"), HELD), place.path("other"))
        told = place.run(*TREE, "-o", "one")
        count.of(f"a file with two names as {user}: {told}", told == (0, "", "", "") and read(place.path("one")) == WHOLE and read(place.path("other")) == HELD)
        count.of(f"no part is left, as {user}", parts(place) == [])


def parts(place, below=""):
    return [name for name in os.listdir(place.path(below)) if name.startswith(".spt-")]


class Waiting:
    """A run into a file that waits for its graph from standard input, once it has begun its part and opened the file of sources."""

    def __init__(self, place, out="out", sources="g.ss", **more):
        self.place = place
        self.process = place.start("tree", "-", sources, "--delta", "3", "-o", out, stdin=subprocess.PIPE, **more)
        self.has_begun = is_soon(lambda: sources in self.opened() or self.process.poll() is not None)

    def opened(self):
        """The names of the files that it has opened."""
        folder = f"/proc/{self.process.pid}/fd"
        try:
            return [os.path.basename(os.readlink(f"{folder}/{number}")) for number in os.listdir(folder)]
        except OSError:
            return []

    def end(self):
        with contextlib.suppress(BrokenPipeError):
            self.process.stdin.write(TEXTS["g.gr"].encode())
            self.process.stdin.flush()
        return ended(self.process)


def is_soon(holds):
    end = time.monotonic() + 20
    while time.monotonic() < end:
        if holds():
            return True
        time.sleep(0.002)
    return holds()


def append(path, text):
    with open(path, "a") as it:
        it.write(text)


def changed_inputs(count, program, folder):
    """A file is read as it was opened, whatever its name leads to later; what is written to it meanwhile is read."""
    two = "p aux sp ss 1\ns 2\n"
    cases = [
        ("removed", lambda path: os.remove(path), (0, "", "", "")),
        ("renamed", lambda path: os.rename(path, f"{path}.old"), (0, "", "", "")),
        ("replaced", lambda path: os.replace(put(f"{path}.new", two), path), (0, "", "", "")),
        ("made unreadable", lambda path: os.chmod(path, 0), (0, "", "", "")),
        ("grown by a comment", lambda path: append(path, "c more\n"), (0, "", "", "")),
        ("grown by a source", lambda path: append(path, "s 2\n"), (2, "", "spt: ss: line 3: 6 TooMany")),
        ("emptied", lambda path: os.truncate(path, 0), (2, "", "spt: ss: line 1: 3 NoProblem")),
        ("cut", lambda path: os.truncate(path, len("p aux sp ss 1\n")), (2, "", "spt: ss: line 2: 7 TooFew")),
    ]
    for name, change, wanted in cases:
        place = Place(program, folder)
        waiting = Waiting(place)
        begun = len(parts(place))
        change(place.path("g.ss"))
        told = waiting.end()
        text = WHOLE if wanted[0] == 0 else HELD
        whole = told[: len(wanted)] == wanted and read(place.path("out")) == text and parts(place) == []
        count.of(f"the sources are {name} meanwhile: {told}", waiting.has_begun and begun == 1 and whole)


def changed_outputs(count, program, folder):
    """What becomes of the file of an output, its part or its folder meanwhile."""
    cannot = (6, "", CANNOT_WRITE)

    def to_folder(place):
        os.remove(place.path("sub/out"))
        os.mkdir(place.path("sub/out"))

    def to_full_folder(place):
        to_folder(place)
        put(place.path("sub/out/its"), HELD)

    def remove_part(place):
        os.remove(place.path(f"sub/{parts(place, 'sub')[0]}"))

    done = (0, "", "")
    cases = [
        ("it is removed", lambda place: os.remove(place.path("sub/out")), done),
        ("it is replaced", lambda place: os.replace(put(place.path("sub/new"), "new"), place.path("sub/out")), done),
        ("it is written to", lambda place: append(place.path("sub/out"), "more\n"), done),
        ("it becomes a folder", to_folder, (*cannot, errno.EISDIR)),
        ("it becomes a folder with a file", to_full_folder, (*cannot, errno.EISDIR)),
        ("its part is removed", remove_part, (*cannot, errno.ENOENT)),
        ("its folder is removed", lambda place: shutil.rmtree(place.path("sub")), (*cannot, errno.ENOENT)),
    ]
    for name, change, wanted in cases:
        place = Place(program, folder)
        put(place.path("sub/out"), HELD)
        waiting = Waiting(place, "sub/out")
        begun = len(parts(place, "sub"))
        change(place)
        before = place.kept()
        told = waiting.end()
        if wanted[0] == 0:
            whole = told[:3] == wanted and read(place.path("sub/out")) == WHOLE
        else:
            # but for the part, nothing has changed
            left = {path: held for path, held in before.items() if "/.spt-" not in path}
            whole = told[:3] == wanted[:3] and told[3] == reason("sub/out", wanted[3]) and place.kept() == left
        is_left = os.path.isdir(place.path("sub")) and parts(place, "sub") != []
        count.of(f"{name} meanwhile: {told}", waiting.has_begun and begun == 1 and whole and not is_left)


def forbidden_meanwhile(count, program, folder):
    """As a user without rights: a name that can't be had once the part is written."""
    if USER not in users(program, folder):
        print("left out: a user without rights, whom this user can't become, or who can't reach the program")
        return
    # in a folder of this kind only its owner and theirs may replace files
    place = Place(program, folder, USER)
    os.mkdir(place.path("sticky"))
    os.chmod(place.path("sticky"), 0o1777)
    put(place.path("sticky/out"), HELD, 0o666)
    told = place.run(*TREE, "-o", "sticky/out")
    kept = read(place.path("sticky/out")) == HELD and os.listdir(place.path("sticky")) == ["out"]
    count.of(f"a file of another in a sticky folder: {told}", told == (6, "", CANNOT_WRITE, reason("sticky/out", errno.EPERM)) and kept)
    os.chown(place.path("sticky/out"), USER, USER)
    told = place.run(*TREE, "-o", "sticky/out")
    count.of(f"a file of one's own there: {told}", told == (0, "", "", "") and read(place.path("sticky/out")) == WHOLE)
    # the system doesn't let the part be removed either
    place = Place(program, folder, USER)
    waiting = Waiting(place)
    os.chmod(place.folder, 0o555)
    os.chown(place.folder, 0, 0)
    told = waiting.end()
    count.of(f"the folder is closed meanwhile: {told}", told == (6, "", CANNOT_WRITE, reason("out", errno.EACCES)) and read(place.path("out")) == HELD)


def rights(count, program, folder):
    """A new file has the rights that the mask leaves; one that is replaced hands on its own, and its owner and group where the user may."""
    for mask in (0, 0o002, 0o027, 0o077, 0o777):
        place = Place(program, folder)
        os.chmod(place.path("out"), 0o640)
        for name, wanted in (("new", 0o666 & ~mask), ("out", 0o640)):
            told = place.run(*TREE, "-o", name, umask=mask)
            count.of(f"{name} by mask {mask:o}: {told}", told == (0, "", "", "") and stat.S_IMODE(os.stat(place.path(name)).st_mode) == wanted)
    if USER not in users(program, folder):
        print("left out: owners and groups, which root alone may give")
        return
    # owner and group of the file, its rights, groups of the user, and what the file has then; no group's members get rights that they hadn't
    cases = [
        ("one's own", USER, USER, 0o640, [], (USER, USER, 0o640)),
        ("one's own that nobody may write", USER, USER, 0o400, [], (USER, USER, 0o400)),
        ("one's own, of a group of one's own", USER, GROUP, 0o664, [GROUP], (USER, GROUP, 0o664)),
        ("another's, of a group of one's own", 0, GROUP, 0o664, [GROUP], (USER, GROUP, 0o664)),
        ("another's", 0, 0, 0o644, [], (USER, USER, 0o644)),
        ("another's, which its group alone may read", 0, GROUP, 0o640, [], (USER, USER, 0o600)),
        ("another's, which its group alone may not read", 0, GROUP, 0o604, [], (USER, USER, 0o600)),
        ("another's, whose group may write", 0, GROUP, 0o664, [], (USER, USER, 0o644)),
    ]
    for name, owner, group, mode, groups, wanted in cases:
        place = Place(program, folder, USER)
        os.chown(place.path("out"), owner, group)
        os.chmod(place.path("out"), mode)
        told = place.run(*TREE, "-o", "out", extra_groups=groups)
        found = os.stat(place.path("out"))
        has = (found.st_uid, found.st_gid, stat.S_IMODE(found.st_mode))
        count.of(f"a file that is {name}: {told}, {has}", told == (0, "", "", "") and has == wanted and read(place.path("out")) == WHOLE)
    place = Place(program, folder)
    os.chown(place.path("out"), USER, GROUP)
    os.chmod(place.path("out"), 0o604)
    waiting = Waiting(place)
    found = [os.stat(place.path(part)) for part in parts(place)]
    own = [(its.st_uid, its.st_gid, stat.S_IMODE(its.st_mode)) for its in found]
    told = waiting.end()
    count.of(f"the part has them too: {told}, {own}", told == (0, "", "", "") and own == [(USER, GROUP, 0o604)])


RING = 20000


@contextlib.contextmanager
def mounted(path, options):
    """A small file system in a folder. Whether it is there."""
    os.mkdir(path)
    words = ["mount", "-t", "tmpfs", "-o", options, "none", path]
    done = IS_ROOT and shutil.which("mount") and subprocess.run(words, capture_output=True).returncode == 0
    try:
        yield done
    finally:
        if done:
            subprocess.run(["umount", path], check=True)


def alone():
    """Gives this process file systems of its own, so that none that it mounts outlives it. Whether that could be done."""
    new_namespace = 0x00020000
    return IS_ROOT and ctypes.CDLL(None).unshare(new_namespace) == 0 and subprocess.run(["mount", "--make-rprivate", "/"], capture_output=True).returncode == 0


def file_systems(count, program, folder):
    """A file system without room for the text, without room for a file, and one that is read alone."""
    if not alone():
        print("left out: file systems that are full or read-only, which root alone may mount")
        return
    ring = put(f"{folder}/ring.gr", f"p sp {RING} {RING}\n" + "".join(f"a {v} {v % RING + 1} 1\n" for v in range(1, RING + 1)))
    words = ("tree", ring, "--source", "1", "--delta", "mean")
    for held in (None, HELD):
        for name, options, wanted, number in (
            ("no room for the text", "size=16k", WRITE_FAILED, errno.ENOSPC),
            ("no room for a file", f"nr_inodes={2 if held else 1}", CANNOT_WRITE, errno.ENOSPC),
            ("a file system that is only read", "size=64k", CANNOT_WRITE, errno.EROFS),
        ):
            place = Place(program, folder)
            with mounted(place.path("small"), options) as done:
                if not done:
                    print(f"left out: {name}, since nothing can be mounted here")
                    continue
                if held is not None:
                    put(place.path("small/out"), held)
                if number == errno.EROFS:
                    subprocess.run(["mount", "-o", "remount,ro", place.path("small")], check=True)
                before = kept_in(place.path("small"))
                told = place.run(*words, "-o", "small/out")
                whole = told == (6, "", wanted, reason("small/out", number)) and kept_in(place.path("small")) == before
                count.of(f"{name}, a file that held {held!r}: {told}", whole)
                if number == errno.EROFS:
                    told = place.run("tree", "g.gr", "small/out", "--delta", "3")
                    missing = (6, "", "spt: ss: cannot open", reason("small/out", errno.ENOENT))
                    count.of(f"{name}, an input: {told}", told == missing if held is None else told[:3] == (2, "", "spt: ss: line 1: 2 BadLine"))
    place = Place(program, folder)
    with mounted(place.path("small"), "size=64k") as done:
        if done:
            # a link leads into another file system, where the part is made, since no name can be had across
            os.symlink("small/out", place.path("link"))
            waiting = Waiting(place, "link")
            there = (len(parts(place)), len(parts(place, "small")))
            told = waiting.end()
            whole = told == (0, "", "", "") and read(place.path("small/out")) == WHOLE and there == (0, 1) and parts(place, "small") == []
            count.of(f"a link into another file system: {told}, {there}", whole)


def closing(*numbers):
    """What a process does before it becomes the program: closes these streams."""

    def begin():
        for number in numbers:
            os.close(number)

    return begin


def closed(count, program, folder):
    """Standard input, output and error that are closed, or open the wrong way."""
    done = (0, "", "", "")
    place = Place(program, folder)
    for words in (("tree", "-", "--source", "1", "--delta", "3"), ("pack", "-"), ("replay", "-"), ("offers", "-")):
        for out in ((), ("-o", "out"), ("-o", "new")):
            told = place.run(*words, *out, preexec_fn=closing(0))
            whole = told[:2] == (6, "") and told[2].endswith((": cannot open", ": line 1: 9 Read"))
            count.of(f"{words}, {out}, standard input closed: {told}", whole and read(place.path("out")) == HELD and not os.path.exists(place.path("new")))
    told = place.run("tree", "-", "--source", "1", "--delta", "3", stdin=os.open(place.folder, os.O_RDONLY))
    count.of(f"a folder as standard input: {told}", told == (6, "", "spt: gr: line 1: 9 Read", reason("standard input", errno.EISDIR)))
    told = place.run("tree", "-", "--source", "1", "--delta", "3", stdin=os.open(place.path("g.gr"), os.O_WRONLY))
    count.of(f"standard input that is only written: {told}", told == (6, "", "spt: gr: line 1: 9 Read", reason("standard input", errno.EBADF)))
    for words in (TREE, ("check", "g.gr", "g.tree"), ("replay", "g.rep"), ("offers", "g.off"), ("pack", "g.gr"), ("pairs", "g.gr", "g.pairs", "--delta", "3")):
        told = place.run(*words, preexec_fn=closing(1))
        count.of(f"{words}, standard output closed: {told}", told == (6, "", WRITE_FAILED, reason("standard output", errno.EBADF)))
        told = place.run(*words, stdout=os.open(place.path("g.ss"), os.O_RDONLY))
        count.of(f"{words}, standard output that is only read: {told}", told == (6, "", WRITE_FAILED, reason("standard output", errno.EBADF)))
    count.of("the file that was only read", read(place.path("g.ss")) == TEXTS["g.ss"])
    for numbers in ((0,), (1,), (2,), (0, 1), (0, 2), (1, 2), (0, 1, 2)):
        place = Place(program, folder)
        for name in ("out", "new"):
            told = place.run(*TREE, "-o", name, preexec_fn=closing(*numbers))
            count.of(f"-o {name}, {numbers} closed: {told}", told == done and read(place.path(name)) == WHOLE)
    for status, words in (
        (0, ("--version",)),
        (1, ("tree",)),
        (1, (*TREE, "-o", "g.gr")),
        (2, ("check", "g.gr", "g.gr")),
        (3, ("check", "g.gr", put(place.path("wrong.tree"), WHOLE.replace("v 4 5 2", "v 4 5 3")))),
        (6, ("tree", "none", *TREE[2:])),
        (6, (*TREE, "-o", "none/out")),
    ):
        for name, more in (
            ("closed", {"preexec_fn": closing(2)}),
            ("full", {"stderr": os.open("/dev/full", os.O_WRONLY)}),
            ("only read", {"stderr": os.open(place.path("g.ss"), os.O_RDONLY)}),
        ):
            told = place.run(*words, **more)
            count.of(f"{words}, standard error {name}: {told}", told[0] == status)
    count.of("no part is left", parts(place) == [])


def gone(count, program, folder):
    """Pipes with names as outputs: the reader may come late, and may go; what was written is told to have failed."""
    place = Place(program, folder)
    os.mkfifo(place.path("fifo"))
    os.symlink("fifo", place.path("to_fifo"))
    for path in ("fifo", "to_fifo"):
        process = place.start(*TREE, "-o", path)
        text = read(place.path("fifo"))
        told = ended(process)
        count.of(f"-o {path}: {told}", told == (0, "", "", "") and text == WHOLE)
        process = place.start("tree", "-", "g.ss", "--delta", "3", "-o", path, stdin=subprocess.PIPE)
        os.close(os.open(place.path("fifo"), os.O_RDONLY))
        process.stdin.write(TEXTS["g.gr"].encode())
        process.stdin.flush()
        told = ended(process)
        count.of(f"-o {path}, whose reader has gone: {told}", told == (6, "", WRITE_FAILED, reason(path, errno.EPIPE)))
    count.of("the pipe stays", stat.S_ISFIFO(os.lstat(place.path("fifo")).st_mode) and os.path.islink(place.path("to_fifo")))
    for path in ("/dev/full", "to_full"):
        if path == "to_full":
            os.symlink("/dev/full", place.path(path))
        told = place.run(*TREE, "-o", path)
        count.of(f"-o {path}: {told}", told == (6, "", WRITE_FAILED, reason(path, errno.ENOSPC)))
    count.of("the device stays", stat.S_ISCHR(os.stat("/dev/full").st_mode) and os.path.islink(place.path("to_full")) and parts(place) == [])
    # a refused command opens a device, and writes nothing to it
    process = place.start("tree", "g.ss", *TREE[2:], "-o", "fifo")
    text = read(place.path("fifo"))
    told = ended(process)
    count.of(f"a refused graph, -o fifo: {told}", told[:3] == (2, "", "spt: gr: line 1: 2 BadLine") and text == "")


def same_file(count, program, folder):
    """Standard input by a path is the file that it comes from: no output replaces it."""
    place = Place(program, folder)
    os.symlink("/dev/fd/0", place.path("to_stdin"))
    before = place.kept()
    for path in ("/dev/stdin", "/dev/fd/0", "/proc/self/fd/0", "to_stdin", long_path("g.gr")):
        with open(place.path("g.gr"), "rb") as it:
            told = place.run("tree", "-", *TREE[2:], "-o", path, stdin=it)
        count.of(f"-o {path[:60]}: {told}", told[:3] == (1, "", "spt: output is an input") and place.kept() == before)


# system calls that fail under strace: whose, how, what the run ends with, and whether a part may be left
INJECTED = [
    ("rights can't be set", "fchmod,fchmodat,chmod:error=EPERM", TREE, (0, "", "", ""), False),
    ("no owner can be given", "chown,lchown,fchown,fchownat:error=EPERM", TREE, (0, "", "", ""), False),
    ("no random numbers", "getrandom:error=ENOSYS", TREE, (0, "", "", ""), False),
    ("a part can't be removed", "unlink,unlinkat:error=EACCES", ("check", "g.gr", "g.gr"), (2, ""), True),
]


def injected(count, program, folder):
    """Calls that the system refuses though they are no part of what was asked for: all else is as without."""
    for name, what, words, wanted, may_be_left in INJECTED:
        place = Place(program, folder)
        os.chmod(place.path("out"), 0o640)
        tracing = ["strace", "-f", "-o", "log", "-e", f"trace={what.split(':')[0]}", "-e", f"inject={what}"]
        if shutil.which("strace") is None:
            print("left out: calls that strace lets fail, which isn't there")
            return
        process = subprocess.Popen([*tracing, program, *words, "-o", "out"], cwd=place.folder, stdout=subprocess.PIPE, stderr=subprocess.PIPE)
        told = ended(process)
        log = read(place.path("log")) if os.path.exists(place.path("log")) else ""
        if not log or "strace:" in told[2]:
            print(f"left out: {name}, since strace may not look")
            continue
        mode = stat.S_IMODE(os.stat(place.path("out")).st_mode)
        whole = told[: len(wanted)] == wanted and read(place.path("out")) == (WHOLE if wanted[0] == 0 else HELD)
        is_left = len(parts(place)) == (1 if may_be_left else 0)
        count.of(f"{name}: {told}, {mode:o}", "(INJECTED)" in log and whole and is_left and mode & ~0o640 == 0)


def keeps_output(program, folder):
    """Whether progress that nobody can see, since standard error is closed, is no part of an output."""
    place = Place(program, folder)
    words = ("tree", "-", *TREE[2:], "--progress", "-o", "out")
    process = place.start(*words, stdin=subprocess.PIPE, preexec_fn=closing(2))
    head, rest = TEXTS["g.gr"].split("\n", 1)
    # the first report comes after a MiB, and the first line on what is no terminal five seconds behind it
    process.stdin.write(f"{head}\n{'c more' * 100}\n".encode() + f"c {'x' * 1000}\n".encode() * 1100)
    process.stdin.flush()
    time.sleep(5.5)
    process.stdin.write(rest.encode())
    told = ended(process)
    return told == (0, "", "", "") and read(place.path("out")) == WHOLE


def lacks_input(program, folder):
    """Whether a closed standard input can't be read, though another file is opened."""
    place = Place(program, folder)
    told = place.run("tree", "-", *TREE[2:], preexec_fn=closing(0))
    return told[:2] == (6, "")


def numbers_of_closed(count, program, folder):
    """No file of a command takes the number of a stream that is closed."""
    count.of("with standard error closed, the file of -o has no lines of --progress", keeps_output(program, folder))
    count.of("with standard input closed, no other file is read in its place", lacks_input(program, folder))


if __name__ == "__main__":
    tests = (unopened, opened, unmade, made, changed_inputs, changed_outputs, forbidden_meanwhile, rights, closed, gone, same_file, injected, file_systems, numbers_of_closed)
    sys.exit(try_all(__doc__, tests))
