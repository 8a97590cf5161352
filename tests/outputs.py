#!/usr/bin/env python3
"""Runs the program with `-o FILE`, and looks at FILE, at what lies beside it, and at standard output.

Usage: python3 tests/outputs.py [--program PROGRAM]

FILE takes the text of a command that was done, with status 0, 3 or 4, and standard output stays empty. Where a command is refused,
the disk is full, or a signal ends the program, FILE holds what it held. No other file is left there but by a signal, and that one
keeps no later run from its work. Links lead to the file that is replaced; devices and pipes are written to. A file that
the command reads is never replaced, by whatever name. A file that is replaced
hands on its mode. However many runs have the same FILE, each status is true, FILE has the whole text of one of them at each moment,
and no file of the user's is touched. What the system is asked for, and what follows where it refuses, is seen by strace, where that
is there. The last line is 'N passed, M failed'.
"""

import glob
import os
import random
import re
import resource
import shutil
import signal
import stat
import subprocess
import sys
import tempfile
import threading
import time

sys.dont_write_bytecode = True
from harness import HOME, SECONDS, put, read, try_all  # noqa: E402

GRAPH, SOURCES, TREE = (f"{HOME}/examples/diamond.{ending}" for ending in ("gr", "ss", "tree"))
HELD = "what it held\n"
CANNOT_WRITE = "spt: output: cannot write\n"


def run(program, *words, room=None):
    """Status, output and errors; with room for so many bytes in any file."""

    def begin():
        signal.signal(signal.SIGXFSZ, signal.SIG_IGN)
        if room is not None:
            resource.setrlimit(resource.RLIMIT_FSIZE, (room, room))

    done = subprocess.run([program, *words], capture_output=True, text=True, timeout=SECONDS, preexec_fn=begin)
    return done.returncode, done.stdout, done.stderr.split("\n", 1)[0] + "\n" if done.stderr else ""


def tree(path):
    return ("tree", GRAPH, SOURCES, "--delta", "3", "-o", path)


def done(count, program, folder):
    """What ends with status 0, 3 or 4 has its text in the file, whether there was one or not."""
    wrong = put(f"{folder}/wrong.tree", read(TREE).replace("v 4 5 2", "v 4 5 3"))
    arcs = "".join(f"a {tail} {tail + 1} 4294967295\n" for tail in range(1, 18))
    far = put(f"{folder}/far.gr", f"p sp 18 17\n{arcs}")
    cases = [
        ("tree", tree, 0, read(TREE)),
        ("check", lambda path: ("check", GRAPH, wrong, "-o", path), 3, "no 4 3\n"),
        ("too far", lambda path: ("tree", far, "--source", "1", "--delta", "9", f"--output={path}"), 4, "x 1 18\n"),
    ]
    for name, words, status, text in cases:
        for held in (None, HELD):
            with tempfile.TemporaryDirectory(dir=folder) as inner:
                path = f"{inner}/out"
                if held is not None:
                    put(path, held)
                told = run(program, *words(path))
                whole = told == (status, "", "") and os.listdir(inner) == ["out"] and read(path) == text
                count.of(f"{name} into a file that held {held!r}: {told}", whole)


def undone(count, program, folder):
    """What is refused, fails, or can't be written leaves the file as it was, and nothing beside it."""
    bad = put(f"{folder}/bad.gr", "p sp 1 1\na 1 1 0\n")
    cases = [
        ("a refused graph", ("tree", bad, SOURCES, "--delta", "3"), None, (2, "", "spt: gr: line 2: 5 OutOfRange W\n")),
        ("a refused delta", ("tree", GRAPH, SOURCES, "--delta", "68719476735"), None, (1, "", "spt: delta out of range\n")),
        ("a missing graph", ("tree", f"{folder}/no.gr", SOURCES, "--delta", "3"), None, (6, "", "spt: gr: cannot open\n")),
        ("a full disk", ("tree", GRAPH, SOURCES, "--delta", "3"), 10, (6, "", "spt: write failed\n")),
    ]
    for name, words, room, wanted in cases:
        for held in (None, HELD):
            with tempfile.TemporaryDirectory(dir=folder) as inner:
                path = f"{inner}/out"
                if held is not None:
                    put(path, held)
                told = run(program, *words, "-o", path, room=room)
                names = [] if held is None else ["out"]
                whole = told == wanted and os.listdir(inner) == names and (held is None or read(path) == held)
                count.of(f"{name}, a file that held {held!r}: {told}", whole)


def unmade(count, program, folder):
    for name, path in (("no such folder", f"{folder}/none/out"), ("a folder", folder), ("no name", "")):
        before = sorted(os.listdir(folder))
        told = run(program, *tree(path))
        count.of(f"{name}: {told}", told == (6, "", CANNOT_WRITE) and sorted(os.listdir(folder)) == before)


def straight(count, program, folder):
    """Devices and pipes are written to, and stay what they are."""
    told = run(program, *tree("/dev/full"))
    count.of(f"a full device: {told}", told == (6, "", "spt: write failed\n"))
    told = run(program, *tree("/dev/null"))
    count.of(f"no device: {told}", told == (0, "", "") and not os.path.exists("/dev/null.part"))
    told = run(program, *tree("/dev/stdout"))
    count.of(f"standard output by its path: {told}", told == (0, read(TREE), ""))
    told = run(program, *tree("-"))
    count.of(f"standard output: {told}", told == (0, read(TREE), ""))
    pipe = f"{folder}/pipe"
    os.mkfifo(pipe)
    with subprocess.Popen(["cat", pipe], stdout=subprocess.PIPE, text=True) as reader:
        told = run(program, *tree(pipe))
        text, _ = reader.communicate(timeout=SECONDS)
    count.of(f"a pipe: {told}", told == (0, "", "") and text == read(TREE))


def links(count, program, folder):
    """A link stays; the file that it leads to is replaced, or made where it is missing."""
    with tempfile.TemporaryDirectory(dir=folder) as inner:
        put(f"{inner}/out", HELD)
        os.symlink("out", f"{inner}/link")
        told = run(program, *tree(f"{inner}/link"))
        names = sorted(os.listdir(inner)) == ["link", "out"] and os.path.islink(f"{inner}/link")
        count.of(f"a link to a file: {told}", told == (0, "", "") and names and read(f"{inner}/out") == read(TREE))
    with tempfile.TemporaryDirectory(dir=folder) as inner:
        os.mkdir(f"{inner}/sub")
        os.symlink("sub/next", f"{inner}/link")
        os.symlink("../out", f"{inner}/sub/next")
        told = run(program, *tree(f"{inner}/link"))
        stay = os.path.islink(f"{inner}/link") and os.path.islink(f"{inner}/sub/next")
        names = sorted(os.listdir(inner)) == ["link", "out", "sub"] and os.listdir(f"{inner}/sub") == ["next"]
        whole = told == (0, "", "") and os.path.isfile(f"{inner}/out") and read(f"{inner}/out") == read(TREE)
        count.of(f"links whose end is missing: {told}", whole and stay and names)
    with tempfile.TemporaryDirectory(dir=folder) as inner:
        os.symlink("link", f"{inner}/link")
        told = run(program, *tree(f"{inner}/link"))
        stays = os.path.islink(f"{inner}/link") and os.listdir(inner) == ["link"]
        count.of(f"a link to itself: {told}", told == (6, "", CANNOT_WRITE) and stays)


# words before -o, and by each option or place what that input is for its command; FILE is the input that -o names
INPUTS = [
    ("tree FILE one.ss --delta 3", "g.gr", "the graph"),
    ("tree g.gr FILE --delta mean", "one.ss", "the file of sources"),
    ("tree FILE --source 1 --delta mean", "g.gr", "the graph"),
    ("pairs FILE one.pairs --delta 3", "g.gr", "the graph"),
    ("pairs g.gr FILE --delta 3", "one.pairs", "the file of pairs"),
    ("matrix FILE --source 1 --target 2", "g.gr", "the graph"),
    ("matrix g.gr FILE two.ss", "one.ss", "the file of sources"),
    ("matrix g.gr one.ss FILE", "two.ss", "the file of targets"),
    ("matrix g.gr --source 1 FILE", "two.ss", "the file of targets"),
    ("nearest FILE --source 1", "g.gr", "the graph"),
    ("nearest g.gr FILE", "one.ss", "the file of sources"),
    ("check FILE g.tree", "g.gr", "the graph"),
    ("check g.gr FILE", "g.tree", "the tree file"),
    ("check g.gr FILE --all", "g.tree", "the tree file"),
    ("pack FILE", "g.gr", "the graph"),
    ("pack FILE --towards", "g.packed", "the graph"),
    ("replay FILE", "run.rep", "the replay file"),
    ("replay FILE --svg", "run.rep", "the replay file"),
    ("offers FILE", "made.off", "the file of offers"),
]
TEXTS = {
    "g.gr": read(GRAPH),
    "one.ss": read(SOURCES),
    "two.ss": "p aux sp ss 1\ns 2\n",
    "one.pairs": "p pairs 1\nq 1 4\n",
    "g.tree": read(TREE),
    "run.rep": "p rep 1 1\n",
    "made.off": "p off 1 1\no 1 1 2 3\n",
}


def told_in(program, folder, words, given=None, output=subprocess.PIPE):
    """Status, output and errors of a run in a folder, with this file as standard input."""
    with open(given or os.devnull, "rb") as file:
        done = subprocess.run([program, *words], cwd=folder, stdin=file, stdout=output, stderr=subprocess.PIPE, text=True, timeout=SECONDS)
    return done.returncode, done.stdout or "", done.stderr


def inputs(count, program, folder):
    """A file of the command isn't replaced by its output, whatever names both have: that is told before any file is read."""
    with tempfile.TemporaryDirectory(dir=folder) as inner:
        for name, text in TEXTS.items():
            put(f"{inner}/{name}", text)
        packed = subprocess.run([program, "pack", f"{inner}/g.gr"], capture_output=True, timeout=SECONDS).stdout
        put(f"{inner}/g.packed", packed)
        os.mkdir(f"{inner}/sub")
        for name in os.listdir(inner):
            if name != "sub":
                os.symlink(f"../{name}", f"{inner}/sub/link_{name}")
                os.link(f"{inner}/{name}", f"{inner}/sub/hard_{name}")
        os.symlink("link_g.gr", f"{inner}/sub/next_g.gr")
        held = held_in(inner)
        for line, name, role in INPUTS:
            ways = [name, f"./{name}", f"sub/../{name}", f"{inner}/{name}", f"sub/link_{name}", f"sub/hard_{name}"]
            tries = [(name, out, name, None) for out in ways]
            tries += [(f"sub/hard_{name}", name, f"sub/hard_{name}", None), (f"sub/link_{name}", f"sub/hard_{name}", f"sub/link_{name}", None)]
            tries += [("-", name, "standard input", f"{inner}/{name}"), ("-", f"sub/link_{name}", "standard input", f"{inner}/sub/hard_{name}")]
            for path, out, shown, given in tries:
                words = [path if word == "FILE" else word for word in line.split()]
                told = told_in(program, inner, [*words, "-o", out], given)
                wanted = (1, "", f"spt: output is an input\nspt: -o names {role}, {shown}; name another file\n")
                count.of(f"{' '.join(words)} -o {out}: {told}", told == wanted and held_in(inner) == held)
        told = told_in(program, inner, ["tree", "sub/next_g.gr", "one.ss", "--delta", "3", "--output=./sub/link_g.gr"])
        count.of(f"a link to a link: {told}", told[0] == 1 and held_in(inner) == held)
        # standard output that is one of the files, by its path
        with open(f"{inner}/g.gr", "a") as end:
            told = told_in(program, inner, ["tree", "g.gr", "one.ss", "--delta", "3", "-o", "/dev/stdout"], output=end)
        count.of(f"standard output by its path: {told}", told[0] == 1 and held_in(inner) == held)
        # what is wrong besides is told later
        for words in ("tree no.gr one.ss --delta 3 -o one.ss", "tree g.gr one.ss --delta 68719476735 -o g.gr", "tree one.ss g.gr --delta 3 -o g.gr"):
            told = told_in(program, inner, words.split())
            count.of(f"{words}: {told}", told[0] == 1 and told[2].startswith("spt: output is an input\n") and held_in(inner) == held)


def held_in(folder):
    """The names below a folder, and what its files hold."""
    found = {}
    for where, folders, names in os.walk(folder):
        found.update({os.path.join(where, name): None for name in folders})
        for name in names:
            with open(os.path.join(where, name), "rb") as file:
                found[os.path.join(where, name)] = file.read()
    return found


def others(count, program, folder):
    """Any other file is written: one that is new, one with the same text, and one with the same name elsewhere. A device may be both."""
    words = ["tree", "g.gr", "one.ss", "--delta", "3", "-o"]
    with tempfile.TemporaryDirectory(dir=folder) as inner:
        for name, text in TEXTS.items():
            put(f"{inner}/{name}", text)
        put(f"{inner}/copy.gr", TEXTS["g.gr"])
        put(f"{inner}/sub/g.gr", HELD)
        for out in ("new.gr", "copy.gr", "sub/g.gr", "two.ss"):
            told = told_in(program, inner, [*words, out])
            count.of(f"into {out}: {told}", told == (0, "", "") and read(f"{inner}/{out}") == TEXTS["g.tree"] and read(f"{inner}/g.gr") == TEXTS["g.gr"])
        told = told_in(program, inner, ["tree", "-", "one.ss", "--delta", "3", "-o", "new.gr"], f"{inner}/g.gr")
        count.of(f"standard input, into another file: {told}", told == (0, "", "") and read(f"{inner}/new.gr") == TEXTS["g.tree"])
        told = told_in(program, inner, ["tree", "g.gr", "--source", "1", "--delta", "3", "-o", "one.ss"])
        count.of(f"into a file that this run doesn't read: {told}", told == (0, "", "") and read(f"{inner}/one.ss") == TEXTS["g.tree"])
        told = told_in(program, inner, ["tree", "/dev/null", "--source", "1", "--delta", "3", "-o", "/dev/null"])
        wanted = "spt: gr: line 1: 3 NoProblem\n"
        count.of(f"a device as both: {told}", told[0] == 2 and told[2].startswith(wanted))
        told = told_in(program, inner, ["tree", "-", "--source", "1", "--delta", "3", "-o", "/dev/null"])
        count.of(f"a device as standard input and as the output: {told}", told[0] == 2 and told[2].startswith(wanted))


def parts(folder, pid):
    """The files that the process of this number is writing there."""
    return [path for path in glob.glob(f"{folder}/.spt-{pid}-*.part") if re.search(r"-[0-9a-f]{16}\.part$", path)]


class Waiting:
    """A run into a file that waits for the end of its graph, once it has begun its own file."""

    def __init__(self, program, path, source="1", before=(), **more):
        words = [*before, program, "tree", "-", "--source", source, "--delta", "3", "-o", path]
        self.run = subprocess.Popen(words, stdin=subprocess.PIPE, stdout=subprocess.DEVNULL, stderr=subprocess.DEVNULL, **more)
        self.run.stdin.write(b"p sp 2 1\n")
        self.run.stdin.flush()
        self.parts, begin = [], time.monotonic()
        while not self.parts and self.run.poll() is None and time.monotonic() < begin + 20:
            self.parts = parts(os.path.dirname(path), self.run.pid)

    def end(self):
        self.run.stdin.write(b"a 1 2 7\n")
        self.run.stdin.close()
        return self.run.wait(timeout=SECONDS)

    def kill(self, number):
        self.run.send_signal(number)
        self.run.wait(timeout=SECONDS)
        self.run.stdin.close()
        return self.run.returncode == -number


# the texts of a run that waits, by its source
TWO = {"1": "p spt 2 1\nv 1 0 0\nv 2 7 1\ne 2\n", "2": "p spt 2 2\nv 2 0 0\ne 1\n"}


def killed(count, program, folder):
    """A run that a signal ends while it waits for its graph; and the next one."""
    for number in (signal.SIGKILL, signal.SIGTERM, signal.SIGINT):
        with tempfile.TemporaryDirectory(dir=folder) as inner:
            path = put(f"{inner}/out", HELD)
            waiting = Waiting(program, path)
            held = read(path)
            ended = waiting.kill(number)
            count.of(f"a run that is ended by {number.name}", ended and len(waiting.parts) == 1 and held == HELD and read(path) == HELD)
            told = run(program, *tree(path))
            left = [name for name in os.listdir(inner) if f"{inner}/{name}" not in waiting.parts]
            count.of(f"the run after it: {told}", told == (0, "", "") and left == ["out"] and read(path) == read(TREE))


def two_at_once(count, program, folder):
    """Both have written the whole text; the one that ends later has the file."""
    for first, last in (("1", "2"), ("2", "1")):
        with tempfile.TemporaryDirectory(dir=folder) as inner:
            path = put(f"{inner}/out", HELD)
            runs = {source: Waiting(program, path, source) for source in TWO}
            told = []
            for source in (first, last):
                told.append((runs[source].end(), read(path) == TWO[source]))
            count.of(f"two runs at once, {first} first: {told}", told == [(0, True)] * 2 and os.listdir(inner) == ["out"])


def own_names(count, program, folder):
    """Files of the user's that are called as parts of others are stay."""
    with tempfile.TemporaryDirectory(dir=folder) as inner:
        names = ["out.part", ".out.part", ".spt-1-0123456789abcdef.part", "out~"]
        for name in names:
            put(f"{inner}/{name}", name)
        told = run(program, *tree(f"{inner}/out"))
        kept = all(os.path.exists(f"{inner}/{name}") and read(f"{inner}/{name}") == name for name in names)
        there = sorted(os.listdir(inner)) == sorted([*names, "out"])
        count.of(f"files of the user's beside it: {told}", told == (0, "", "") and kept and there and read(f"{inner}/out") == read(TREE))


def mode_of(path):
    return stat.S_IMODE(os.stat(path).st_mode)


def modes(count, program, folder):
    """A file that is replaced hands on its mode, and nobody else may read what is to replace it; a new file has that of any."""
    old = os.umask(0o022)
    try:
        for mode in (0o600, 0o640, 0o755, 0o664, 0o400):
            with tempfile.TemporaryDirectory(dir=folder) as inner:
                path = put(f"{inner}/out", HELD)
                os.chmod(path, mode)
                waiting = Waiting(program, path)
                now = [mode_of(part) for part in waiting.parts]
                kept = waiting.end() == 0 and mode_of(path) == mode and read(path) == TWO["1"]
                count.of(f"a file of mode {mode:o}", kept and len(now) == 1 and now[0] & ~mode == 0)
        with tempfile.TemporaryDirectory(dir=folder) as inner:
            told = run(program, *tree(f"{inner}/out"))
            count.of(f"a new file: {told}", told == (0, "", "") and mode_of(f"{inner}/out") == 0o644)
        if os.getuid() == 0:
            with tempfile.TemporaryDirectory(dir=folder) as inner:
                path = put(f"{inner}/out", HELD)
                os.chown(path, 12345, 12346)
                os.chmod(path, 0o640)
                told = run(program, *tree(path))
                found = os.stat(path)
                kept = (found.st_uid, found.st_gid, mode_of(path)) == (12345, 12346, 0o640)
                count.of(f"the owner of a file: {told}", told == (0, "", "") and kept)
    finally:
        os.umask(old)


# A ring of so many vertices, whose trees take several writes.
RING = 20000


def ring_tree(source):
    """Along arcs of length 1 each vertex is one farther than the one before it, and the one before the source the farthest."""
    rows = "".join(f"v {v} {(v - source) % RING} {0 if v == source else (v - 2) % RING + 1}\n" for v in range(1, RING + 1))
    return f"p spt {RING} {source}\n{rows}e {RING}\n".encode()


class Reader(threading.Thread):
    """Reads a file again and again, and keeps what is none of the texts."""

    def __init__(self, path, texts):
        super().__init__()
        self.path, self.texts, self.strange, self.times, self.is_over = path, texts, [], 0, False

    def run(self):
        while not self.is_over:
            try:
                with open(self.path, "rb") as it:
                    text = it.read()
            except OSError as error:
                text = str(error).encode()
            if text not in self.texts:
                self.strange.append(text[:40])
            self.times += 1


def round_of(words, draw, sources, span):
    """Runs one writer for each source, and ends some of them by signals, each within this span.

    Whether no writer fails, the sources of those that ended well, and the processes of the others."""
    runs, ends = [], []
    for source in sources:
        it = subprocess.Popen([*words, str(source)], stdout=subprocess.DEVNULL, stderr=subprocess.DEVNULL)
        runs.append(it)
        if draw.random() < 0.75:
            number = draw.choice((signal.SIGKILL, signal.SIGTERM, signal.SIGINT))
            ends.append(threading.Timer(draw.random() * span, it.send_signal, [number]))
            ends[-1].start()
    for it in runs:
        it.wait(timeout=SECONDS)
    for it in ends:
        it.join()
    done = [source for source, it in zip(sources, runs) if it.returncode == 0]
    true = all(it.returncode in (0, -signal.SIGKILL, -signal.SIGTERM, -signal.SIGINT) for it in runs)
    return true, done, [it.pid for it in runs if it.returncode != 0]


def span_of(words):
    """How long a writer takes alone once it has begun, in seconds: the shortest time of a few. What it takes to begin it is left out."""
    spans = []
    for _ in range(5):
        writer = subprocess.Popen([*words, "1"], stdout=subprocess.DEVNULL)
        begun = time.monotonic()
        if writer.wait() != 0:
            raise RuntimeError(f"{' '.join(words)} ended with status {writer.returncode}")
        spans.append(time.monotonic() - begun)
    return min(spans)


def writers(count, program, folder):
    """Two and twenty writers of one file, some ended by signals, a hundred times in all: it has an old or a new text, whole."""
    draw = random.Random(7)
    graph = put(f"{folder}/ring.gr", f"p sp {RING} {RING}\n" + "".join(f"a {v} {v % RING + 1} 1\n" for v in range(1, RING + 1)))
    texts = {ring_tree(source): source for source in range(1, 61)}
    own = {"out.part": "mine", "notes": "mine too"}
    for several, rounds in ((2, 60), (20, 40)):
        with tempfile.TemporaryDirectory(dir=folder) as inner:
            for name, text in own.items():
                put(f"{inner}/{name}", text)
            path, before, ended, wrong, done_in_all = f"{inner}/out", 1, [], [], 0
            with open(path, "wb") as it:
                it.write(ring_tree(1))
            words = [program, "tree", graph, "--delta", "1", "-o", path, "--source"]
            span, share = span_of(words), 0.8
            reader = Reader(path, texts)
            reader.start()
            for number in range(rounds):
                sources = draw.sample(range(1, 61), several)
                true, done, more = round_of(words, draw, sources, share * span)
                # a timer may come late on a busy machine: signals come sooner where none has ended a writer, and later where some have
                share = min(0.8, 1.2 * share) if more else max(0.02, 0.6 * share)
                with open(path, "rb") as it:
                    now = texts.get(it.read())
                may = sources if done else [*sources, before]
                if not true or now not in may:
                    wrong.append((number, now, done))
                before, ended, done_in_all = now, ended + more, done_in_all + len(done)
            reader.is_over = True
            reader.join()
            count.of(f"{several} writers, {rounds} times: {wrong[:3]}", wrong == [])
            count.of(f"{several} writers, some ended: {len(ended)}, {done_in_all}", len(ended) > rounds // 4 and done_in_all > rounds // 4)
            count.of(f"{several} writers, read meanwhile: {reader.strange[:3]}", reader.strange == [] and reader.times > rounds)
            left = {f"{inner}/{name}" for name in os.listdir(inner)} - {path} - {part for pid in ended for part in parts(inner, pid)}
            kept = all(os.path.exists(f"{inner}/{name}") and read(f"{inner}/{name}") == text for name, text in own.items())
            count.of(f"{several} writers, what lies beside: {left}", left == {f"{inner}/{name}" for name in own} and kept)


def signals(count, program, folder):
    """Run as ./spt does it, a signal leaves nothing behind: one for the run alone, and one for all that the terminal runs."""
    before = ("sh", "-c", '. "$1"; shift; run "$@"', "sh", f"{HOME}/share/run.sh")
    for number in (signal.SIGTERM, signal.SIGINT, signal.SIGHUP):
        for to_all in (False, True):
            with tempfile.TemporaryDirectory(dir=folder) as inner:
                path = put(f"{inner}/out", HELD)
                waiting = Waiting(program, path, before=before, start_new_session=True)
                begun = [name for name in os.listdir(inner) if name.startswith(".spt-")]
                (os.killpg if to_all else os.kill)(waiting.run.pid, number)
                status = waiting.run.wait(timeout=SECONDS)
                waiting.run.stdin.close()
                end = time.monotonic() + 20
                while os.listdir(inner) != ["out"] and time.monotonic() < end:
                    time.sleep(0.01)
                told = status in (-number, 128 + number) and len(begun) == 1
                count.of(f"{number.name}, to all: {to_all}: {status}", told and os.listdir(inner) == ["out"] and read(path) == HELD)


def calls(folder, program, path, *more):
    """Status and first line of a run under strace, and the calls that keep its text, in order. None where strace isn't there."""
    if shutil.which("strace") is None:
        return None
    log = f"{folder}/calls"
    traced = ["strace", "-f", "-o", log, "-e", "trace=fsync,fdatasync,rename,renameat,renameat2", *more, program]
    told = run(traced[0], *traced[1:], *tree(path))
    if not os.path.exists(log) or "strace:" in told[2] or not (text := read(log)):
        return None
    names = re.findall(r"^\d+ +(fsync|fdatasync|rename)(?:at2?)?\(", text, re.M)
    os.remove(log)
    return told, names


def asked(count, program, folder):
    """What was written is on the disk before it takes its name, and what the disk refuses is told."""
    done, none = (0, "", ""), (6, "", CANNOT_WRITE)
    cases = [
        ("in order", (), done, ["fsync", "rename"]),
        ("a disk that fails", ("-e", "inject=fsync:error=EIO"), none, ["fsync"]),
        ("a disk that is full", ("-e", "inject=fsync:error=ENOSPC"), none, ["fsync"]),
        ("a file system without the call", ("-e", "inject=fsync:error=EINVAL"), done, ["fsync", "rename"]),
        ("a name that can't be had", ("-e", "inject=rename,renameat,renameat2:error=EACCES"), none, ["fsync", "rename"]),
    ]
    for name, more, wanted, order in cases:
        with tempfile.TemporaryDirectory(dir=folder) as inner:
            path = put(f"{inner}/out", HELD)
            seen = calls(folder, program, path, *more)
            if seen is None:
                print("strace isn't there, or may not look: what the system is asked for is not seen")
                return
            text = read(TREE) if wanted == done else HELD
            count.of(f"{name}: {seen}", seen == (wanted, order) and os.listdir(inner) == ["out"] and read(path) == text)


if __name__ == "__main__":
    tests = (done, undone, unmade, straight, links, inputs, others, killed, signals, two_at_once, own_names, modes, writers, asked)
    sys.exit(try_all(__doc__, tests))
