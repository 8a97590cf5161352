#!/usr/bin/env python3
"""Ends the program by signals while it writes a file of `-o`, and looks at what is left in the folder, and at how it ended.

Usage: python3 tests/signals.py

A stand-in in place of the program, run by the command that ./install makes, writes .spt-PID-x.part and waits; so does the program
itself, by ./spt, until it has its graph. The process that was started must end by the signal, as if there were no script around the
program, and soon nothing may be left in the folder or among temporary files, whenever it was killed. The last line is 'N passed, M
failed'.
"""

import glob
import os
import shutil
import signal
import subprocess
import sys
import tempfile
import time

sys.dont_write_bytecode = True
from harness import HOME, Count, read  # noqa: E402

SECONDS = 30
# how long what is left may be there
SOON = 5
SIGNALS = (signal.SIGINT, signal.SIGTERM, signal.SIGHUP, signal.SIGKILL)
SHELLS = [shell for shell in ("dash", "bash") if shutil.which(shell)]
# how often a run is killed, and within which time
KILLS = 100
WITHIN = 0.03

# It writes its own file into the folder $FOLDER, tells its number and the first line of its input, and waits.
STAND_IN = f"""#!{sys.executable}
import os, signal, sys, time
signal.signal(signal.SIGINT, signal.SIG_DFL)
with open(f"{{os.environ['FOLDER']}}/.spt-{{os.getpid()}}-x.part", "w") as part:
    part.write("a beginning")
print(os.getpid(), sys.argv[1:], sys.stdin.readline().strip(), flush=True)
if os.environ.get("ENDS"):
    os.rename(part.name, os.environ["ENDS"])
    sys.exit(3)
time.sleep({SECONDS})
"""


def install(prefix):
    """The command that ./install makes, over the stand-in."""
    for name, place in (("spt", "bin/spt"), ("run.sh", "lib/spt/run.sh")):
        os.makedirs(os.path.dirname(f"{prefix}/{place}"), exist_ok=True)
        shutil.copy(f"{HOME}/share/{name}", f"{prefix}/{place}")
    with open(f"{prefix}/lib/spt/spt", "w") as it:
        it.write(STAND_IN)
    os.chmod(f"{prefix}/lib/spt/spt", 0o755)
    return f"{prefix}/bin/spt"


def is_soon(holds):
    end = time.time() + SOON
    while time.time() < end:
        if holds():
            return True
        time.sleep(0.02)
    return holds()


class Place:
    """A folder for output, one for temporary files, and what a command is started with to use them."""

    def __init__(self, top):
        self.folder, self.temporary = tempfile.mkdtemp(dir=top), tempfile.mkdtemp(dir=top)

    def start(self, *words, inner=None, **known):
        known = {**os.environ, "FOLDER": inner or self.folder, "TMPDIR": self.temporary, **known}
        pipe = subprocess.PIPE
        return subprocess.Popen(words, cwd=self.folder, env=known, stdin=pipe, stdout=pipe, text=True, start_new_session=True)

    def is_clean(self, *names):
        return is_soon(lambda: sorted(os.listdir(self.folder)) == sorted(names) and os.listdir(self.temporary) == [])


def begin(place, *words, **known):
    """The stand-in once it writes and waits, and what it told."""
    process = place.start(*words, **known)
    process.stdin.write("its input\n")
    process.stdin.flush()
    return process, process.stdout.readline().split()


def wait(process):
    process.stdin.close()
    process.stdout.close()
    return process.wait(timeout=SECONDS)


def each_signal(count, top, command):
    """By each shell, each way to name a file, and each signal, to the process alone and to its group."""
    for shell in SHELLS:
        for words in (["-o", "out"], ["-oout"], ["-o=out"], ["--output", "out"], ["--output=out"]):
            for number in SIGNALS:
                place = Place(top)
                process, told = begin(place, shell, command, "tree", *words, "rest")
                name = f"{shell}, {words}, {number.name}"
                count.of(f"{name}: it is the process that was started: {told}", told[:1] == [str(process.pid)])
                count.of(f"{name}: its words and its input: {told}", told[1:] == f"{['tree', *words, 'rest']} its input".split())
                count.of(f"{name}: it writes", os.listdir(place.folder) == [f".spt-{process.pid}-x.part"])
                process.send_signal(number)
                status = wait(process)
                count.of(f"{name}: {status}", status == -number)
                count.of(f"{name}: left there: {os.listdir(place.folder)}", place.is_clean())
    for number in SIGNALS:
        if number != signal.SIGKILL or shutil.which("setsid"):
            place = Place(top)
            process, _ = begin(place, command, "tree", "-o", "out")
            os.killpg(process.pid, number)
            count.of(f"{number.name} to the group", wait(process) == -number and place.is_clean())


def at_any_time(count, top, command):
    """Killed at times of the first few ms, alone and with its group, no run leaves anything, whatever it was about to do."""
    for shell in SHELLS:
        place = Place(top)
        for number in range(KILLS):
            process = place.start(shell, command, "tree", "-o", "out")
            time.sleep(WITHIN * number / KILLS)
            (os.killpg if number % 2 else os.kill)(process.pid, signal.SIGKILL)
            wait(process)
        left = f"{os.listdir(place.folder)[:3]}, {os.listdir(place.temporary)[:3]}"
        count.of(f"{shell}, killed within {WITHIN} s: left: {left}", place.is_clean())


def places(count, top, command):
    """The folder of the file that a link leads to; files of others, and devices, stay."""
    place = Place(top)
    inner = tempfile.mkdtemp(dir=top, prefix="a * folder ")
    os.symlink(f"{inner}/new", f"{place.folder}/link")
    process, _ = begin(place, command, "tree", "-o", "link", inner=inner)
    process.kill()
    count.of("the folder that a link leads to", wait(process) == -signal.SIGKILL and place.is_clean("link"))
    count.of("nothing is left there", is_soon(lambda: os.listdir(inner) == []))
    process, _ = begin(place, command, "tree", "-o", f"{inner}/new", inner=inner)
    process.kill()
    wait(process)
    count.of("a path with blanks and a star", is_soon(lambda: os.listdir(inner) == []))
    names = [".spt-1-x.part", ".spt-x-x.part", "out.part"]
    for name in names:
        open(f"{inner}/{name}", "w").close()
    process, _ = begin(place, command, "tree", "-o", f"{inner}/new", inner=inner)
    open(f"{inner}/.spt-{process.pid}0-x.part", "w").close()
    process.kill()
    left = [*names, f".spt-{process.pid}0-x.part"]
    wait(process)
    count.of("files of others stay", is_soon(lambda: sorted(os.listdir(inner)) == sorted(left)))


def ends(count, top, command):
    """What ends by itself has its output and its status, and its reader sees the end."""
    place = Place(top)
    process, told = begin(place, command, "tree", "-o", "out", ENDS=f"{place.folder}/out")
    rest = process.stdout.read()
    count.of(f"an end with status 3: {told}", wait(process) == 3 and rest == "" and place.is_clean("out"))
    words = ["sh", "-c", '"$0" tree -o out & wait; echo all', command]
    known = {**os.environ, "FOLDER": place.folder, "TMPDIR": place.temporary, "ENDS": f"{place.folder}/out"}
    done = subprocess.run(words, cwd=place.folder, env=known, capture_output=True, text=True, timeout=SECONDS)
    count.of(f"a shell that waits: {done}", done.stdout.endswith("all\n") and place.is_clean("out"))


def without(count, top, command):
    """Without an option for output no process is made aside; without setsid all goes on."""
    place = Place(top)
    tools = tempfile.mkdtemp(dir=top)
    for name in ("mktemp", "mkfifo", "setsid", "sleep"):
        with open(f"{tools}/{name}", "w") as it:
            it.write(f"#!/bin/sh\necho {name} >> '{top}/called'\nexit 1\n")
        os.chmod(f"{tools}/{name}", 0o755)
    known = {"PATH": f"{tools}:{os.environ['PATH']}", "ENDS": f"{place.folder}/out"}
    for words in (["tree", "x"], ["tree", "--", "-o", "x"], ["tree", "-o", "-"], ["tree", "-o", "/dev/null"]):
        process, told = begin(place, command, *words, **known)
        status = wait(process)
        count.of(f"{words}: {status}, {told}", status == 3 and not os.path.exists(f"{top}/called") and place.is_clean("out"))
    process, told = begin(place, command, "tree", "-o", "out", **known)
    count.of(f"no setsid: {told}", wait(process) == 3 and place.is_clean("out"))
    called = read(f"{top}/called").split()
    count.of(f"no file is made aside: {called}", "setsid" in called and not {"mktemp", "mkfifo"} & set(called))


def program(count, top):
    """The program itself, by ./spt, while it waits for its graph."""
    for number in SIGNALS:
        place = Place(top)
        with open(f"{place.folder}/out", "w") as it:
            it.write("what it held\n")
        process = place.start(f"{HOME}/spt", "tree", "-", f"{HOME}/examples/diamond.ss", "--delta", "3", "-o", "out")
        process.stdin.write("p sp 4 5\n")
        process.stdin.flush()
        pattern = f"{place.folder}/.spt-{process.pid}-*.part"
        is_soon(lambda: glob.glob(pattern) or process.poll() is not None)
        count.of(f"{number.name}: a file of its own: {os.listdir(place.folder)}", len(glob.glob(pattern)) == 1)
        process.send_signal(number)
        count.of(f"{number.name}: the status", wait(process) == -number)
        count.of(f"{number.name}: left there: {os.listdir(place.folder)}", place.is_clean("out"))
        with open(f"{place.folder}/out") as it:
            count.of(f"{number.name}: what it held", it.read() == "what it held\n")


def main():
    count = Count()
    subprocess.run([f"{HOME}/spt", "--version"], check=True, stdout=subprocess.DEVNULL)
    with tempfile.TemporaryDirectory() as top:
        command = install(f"{top}/a prefix")
        each_signal(count, top, command)
        at_any_time(count, top, command)
        places(count, top, command)
        ends(count, top, command)
        without(count, top, command)
        program(count, top)
    return count.end()


if __name__ == "__main__":
    sys.exit(main())
