"""Submissions in whose place somebody puts other things while they are read: a FIFO that nobody writes to, a link to a
device, a link to a file elsewhere. Each call ends in time, each submission has its row, and where links are refused none
is read by a link. And FIFOs in place of the files of exercises and examples: nothing waits for them."""

import os
import shutil
import stat
import subprocess
import sys
import time

from program import EXAMPLES, LAB, ROOT, Tally, write

RIGHT = b" .entry 0\n QUIT\n .data 1\n"
SECRET = b" .entry 0\n QUIT\n .data 2\n"
# a file of the system that looks like an empty one, and makes root wait for its bytes; the verdicts on one by a link to it
KERNEL, EMPTY = "/proc/kmsg", {b"not read", b"source fault"}
# how often one name stands on a line, and how many lines are tried of each kind
TIMES, LINES = 100, 4
# after so many seconds a call hangs
IN_TIME = 90
# an exercise, and what is asked of it; of each of its files who needs it, and says so of one that can't be read
EXERCISE = "01_hand_over"
ASKED = {"list": (), "judge": ("1",), "page": ("1", "--page", "made.html"), "play": ("1", "--play", "made.html"),
         "hint": ("1", "--hint", "1"), "reset": ("1", "--reset")}
NEEDED = {"task.md": set(ASKED), "start.asm": {"judge", "page", "play", "reset"}, "original.asm": {"reset"},
          "advice": {"judge", "page", "play"}, "hints.md": {"hint"}}
# what a gallery needs, in its folders of exercises and of examples
GALLERY = (f"exercises/{EXERCISE}/task.md", f"exercises/{EXERCISE}/wrong/a.asm", "exercises/levels", "examples/lock.asm",
           "examples/lock.lost_update.schedule")
NO_FILE = b"it is no regular file"
# what swaps: it puts a regular file and something else in turn under a name, each for as long, until it is ended
SWAPPER = """
import os, sys
path, kind, target = sys.argv[1:]
new, idle = path + ".new", path + ".idle"
def make(name):
    with open(name, "wb") as file:
        file.write(%r)
print("begins", flush=True)
while True:
    make(new)
    os.rename(new, path)
    make(idle)
    os.mkfifo(new) if kind == "fifo" else os.symlink(target, new)
    os.rename(new, path)
""" % RIGHT


def verdicts(words):
    """The verdicts of a call, how it ended and after how many seconds; None where it hangs."""
    begin = time.monotonic()
    try:
        ended = subprocess.run([LAB, *words], capture_output=True, timeout=IN_TIME, check=False)
    except subprocess.TimeoutExpired:
        return None
    rows = [line.split(b"\t")[1] for line in ended.stdout.splitlines()[1:]]
    return rows, ended.returncode, time.monotonic() - begin


def swapped(tally, folder, kind, target, options, wanted):
    """Calls while something else is swapped in: only these verdicts come, and in time."""
    path = os.path.join(folder, f"{kind}.asm")
    # (what an earlier one has left there may be a FIFO, or lead elsewhere)
    if os.path.lexists(path):
        os.unlink(path)
    write(folder, f"{kind}.asm", RIGHT)
    expect = write(folder, "one.expect", b"word 0 1\n")
    swapper = subprocess.Popen([sys.executable, "-c", SWAPPER, path, kind, target], stdout=subprocess.PIPE)
    swapper.stdout.readline()
    try:
        seen = set()
        for _ in range(LINES):
            found = verdicts(["grade", "--expect", expect, "--seeds", "1", *options, *[path] * TIMES])
            tally.runs += 1
            if tally.check(f"a {kind} swapped in with {options} hangs nobody", found is not None):
                rows, status, _ = found
                tally.check(f"a {kind} swapped in with {options}: {len(rows)} rows", len(rows) == TIMES)
                tally.check(f"a {kind} swapped in with {options}: {set(rows) - wanted}", set(rows) <= wanted)
                tally.check(f"a {kind} swapped in with {options}: status {status}", status in (0, 1, 3))
                seen |= set(rows)
        tally.check(f"a {kind} swapped in with {options} was met: {seen}", len(seen) > 1)
    finally:
        swapper.kill()
        swapper.communicate()


def standing(tally, folder):
    """What is no regular file is refused at once, by whatever name it is reached."""
    expect = write(folder, "one.expect", b"word 0 1\n")
    fifo, latin = os.path.join(folder, "stands.asm"), os.path.join(folder, os.fsdecode(b"\xFF.asm"))
    os.mkfifo(fifo)
    os.mkfifo(latin)
    names = {"zero": "/dev/zero", "tty": "/dev/tty", "fifo": fifo, "random": "/dev/random", "self": "self.asm"}
    for name, target in names.items():
        os.symlink(target, os.path.join(folder, f"{name}.asm"))
    paths = [fifo, latin, *(os.path.join(folder, f"{name}.asm") for name in names)]
    found = verdicts(["grade", "--expect", expect, "--seeds", "1", *paths])
    tally.runs += 1
    tally.check(f"what is no regular file: {found}", found is not None and found[0] == [b"not read"] * len(paths))
    kernel = os.path.join(folder, "kernel.asm")
    os.symlink(KERNEL, kernel)
    found = verdicts(["grade", "--expect", expect, "--seeds", "1", kernel])
    tally.runs += 1
    tally.check(f"a file that waits for its bytes: {found}", found is not None and set(found[0]) <= EMPTY)


def said(words, folder):
    """How a call in a folder ended, and what it said; None where it hangs."""
    try:
        ended = subprocess.run([LAB, *words], capture_output=True, timeout=IN_TIME, check=False, cwd=folder)
    except subprocess.TimeoutExpired:
        return None
    return ended.returncode, ended.stdout + ended.stderr


def held(tally, what, path, words, folder, is_needed):
    """A call while a FIFO has the name of a file: it ends, says so if it needs the file, and leaves the FIFO."""
    os.rename(path, path + ".away")
    os.mkfifo(path)
    found = said(words, folder)
    tally.runs += 1
    tally.check(f"{what} hangs", found is not None)
    if found is not None:
        tally.check(f"{what}: {found}", (NO_FILE in found[1]) == is_needed and (found[0] != 0 or not is_needed))
    tally.check(f"{what} leaves it", stat.S_ISFIFO(os.lstat(path).st_mode))
    os.rename(path + ".away", path)


def exercises(tally, folder):
    """A FIFO in place of each file of an exercise, and of a gallery."""
    at = os.path.join(folder, "held")
    taken = os.path.join(at, "exercises", EXERCISE)
    shutil.copytree(os.path.join(ROOT, "exercises", EXERCISE), taken)
    for name, needed in NEEDED.items():
        for what, words in ASKED.items():
            held(tally, f"exercise, {what}, with a FIFO as {name}", os.path.join(taken, name), ["exercise", *words], at,
                 what in needed)
    os.mkdir(os.path.join(at, "examples"))
    for name in ("lock.asm", "lock.lost_update.schedule"):
        shutil.copy(os.path.join(EXAMPLES, name), os.path.join(at, "examples"))
    shutil.copy(os.path.join(taken, "original.asm"), os.path.join(taken, "wrong/a.asm"))
    write(at, "exercises/levels", b"")
    for name in GALLERY:
        held(tally, f"gallery with a FIFO as {name}", os.path.join(at, name), ["gallery", "made"], at, True)


def part(_, folder):
    """All of them, by a user who may write to what is swapped in: another one can be made to wait at a FIFO."""
    tally = Tally()
    os.chmod(folder, 0o755)
    elsewhere = os.path.join(folder, "elsewhere")
    os.mkdir(elsewhere)
    secret = write(elsewhere, "secret.asm", SECRET)
    standing(tally, folder)
    exercises(tally, folder)
    not_read = {b"right", b"not read"}
    swapped(tally, folder, "fifo", "", [], not_read)
    swapped(tally, folder, "fifo", "", ["--no-links"], not_read)
    swapped(tally, folder, "device", "/dev/zero", [], not_read)
    swapped(tally, folder, "wait", KERNEL, [], not_read | EMPTY)
    swapped(tally, folder, "link", secret, ["--no-links"], not_read)
    swapped(tally, folder, "link", secret, [], not_read | {b"wrong"})
    return tally
