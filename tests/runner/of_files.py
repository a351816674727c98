"""The files that the lab writes: which links it follows, and that a file which is there stays the same file. More of it, with
other users and swaps meanwhile, is in tests/hostile/others.py."""

import os
import shutil
import stat
import subprocess
import tempfile

import checks
import tool
from of_exercises import EXERCISES
from of_lab import lab

ONE = b" .entry 0\n QUIT\n .data 0\n"
# a stream that waits forever for a word that nobody fills, beside one that loops
WAITS = b" .entry a\n .entry b\n .data 0, 0\na: NOP\n LOAD.S r0, r0, 0\n QUIT\nb: SKIP ALWAYS, 0, b\n"
EXERCISE = "01_hand_over"
LOOSE, NEAT = b" .entry 0\n .data 0\nQUIT\n", b"        .entry 0\n        .data 0\n        QUIT\n"
# paths that the lab chooses, and the command lines that write there
DERIVED = [("one.image", ["asm", "one.asm"]), ("1.schedule", ["explore", "one.asm", "--keep", "."]),
           ("1_finished.html", ["explore", "one.asm", "--pages", "."]),
           ("one.html", ["grade", "--expect", "wanted", "--seeds", "1", "--pages", ".", "one.asm"]),
           ("one.txt", ["grade", "--expect", "wanted", "--seeds", "1", "--feedback", ".", "one.asm"]),
           ("waiting_0.0_stem.schedule", ["explore", "waits.asm", "--waiting", "--keep", "."]),
           ("waiting_0.0.schedule", ["explore", "waits.asm", "--waiting", "--keep", "."]),
           (f"{EXERCISE}.play.html", ["gallery", ".", "--exercises", "given", "--examples", "none"]),
           (f"{EXERCISE}.run.html", ["gallery", ".", "--exercises", "given", "--examples", "none"]),
           ("index.html", ["gallery", ".", "--exercises", "given", "--examples", "none"])]
NAMED = [["asm", "one.asm", "--out", "named"], ["page", "one.asm", "--out", "named"], ["picture", "one.asm", "--out", "named"]]
LINK = b"not written: it is a link, and you did not name it as the output\n"
IRREGULAR = b"not written: it is not a regular file\n"


def lay_link(path):
    os.symlink("other", path)


def lay_loose_link(path):
    os.symlink("nowhere", path)


def lay_second_name(path):
    os.link(os.path.join(os.path.dirname(path), "other"), path)


@checks.others("lab/files_not_named")
def not_named():
    """What is at a path that the lab chose is left alone, unless it is a regular file with one name."""
    for name, words in DERIVED:
        for lay, reason in ((lay_link, LINK), (lay_loose_link, LINK), (lay_second_name, LINK), (os.mkfifo, IRREGULAR),
                            (os.mkdir, IRREGULAR)):
            yield f"{words[0]}, {name}, {lay.__name__}", lambda case=(name, words, lay, reason): left_alone(*case)
        yield f"{words[0]}, {name}, a file", lambda case=(name, words): written_over(*case)


def begun(folder):
    """The files of a case."""
    for name, text in (("one.asm", ONE), ("waits.asm", WAITS), ("wanted", b"word 0 1\n"), ("other", b"other's")):
        tool.write(os.path.join(folder, name), text)
    shutil.copytree(os.path.join(EXERCISES, EXERCISE), os.path.join(folder, "given", EXERCISE))
    os.mkdir(os.path.join(folder, "none"))


def seen(folder):
    """What is in a folder: kinds, and contents of files."""
    found = {}
    for name in sorted(os.listdir(folder)):
        path = os.path.join(folder, name)
        kind = os.lstat(path).st_mode
        found[name] = kind, tool.read(path) if stat.S_ISREG(kind) else None
    return found


def left_alone(name, words, lay, reason):
    with tempfile.TemporaryDirectory(prefix="mta-case-") as folder:
        begun(folder)
        lay(os.path.join(folder, name))
        before = seen(folder)
        ended = lab(*words, folder=folder)
        after = seen(folder)
        left = {other: after.get(other) for other in before}
        return (1, True, before), (ended.status, f"{name}: ".encode() + reason in ended.err, left)


def written_over(name, words):
    with tempfile.TemporaryDirectory(prefix="mta-case-") as folder:
        begun(folder)
        lab(*words, folder=folder)
        path = os.path.join(folder, name)
        whole, before = tool.read(path), os.lstat(path).st_ino
        tool.write(path, b"before")
        lab(*words, folder=folder)
        return (True, whole, before), (len(whole) > 0, tool.read(path), os.lstat(path).st_ino)


@checks.others("lab/files_of_a_reset")
def of_a_reset():
    """A reset writes over a program only after it is kept, and follows no link."""
    for name, lay, reason in (("start.old.asm", lay_link, LINK), ("start.old.asm", lay_loose_link, LINK),
                              ("start.old.asm", lay_second_name, LINK), ("start.old.asm", os.mkfifo, IRREGULAR),
                              ("start.old.asm", os.mkdir, IRREGULAR), ("start.asm", lay_link, LINK),
                              ("start.asm", lay_second_name, LINK), ("start.asm", os.mkdir, b"")):
        yield f"{name}, {lay.__name__}", lambda case=(name, lay, reason): reset_beside(*case)
    yield "a file", reset_twice


def exercise_in(folder):
    """An exercise with the program of a student, and his other file."""
    begun(folder)
    place = os.path.join(folder, "given", EXERCISE)
    tool.write(os.path.join(place, "start.asm"), ONE)
    tool.write(os.path.join(place, "other"), ONE)
    return place


def reset_beside(name, lay, reason):
    with tempfile.TemporaryDirectory(prefix="mta-case-") as folder:
        place = exercise_in(folder)
        if name == "start.asm":
            os.unlink(os.path.join(place, name))
        lay(os.path.join(place, name))
        before = seen(place)
        ended = lab("exercise", "1", "--reset", "--folder", "given", folder=folder)
        after = seen(place)
        left = {other: after.get(other) for other in before}
        return (1, True, before), (ended.status, f"{name}: ".encode() + reason in ended.err, left)


def reset_twice():
    with tempfile.TemporaryDirectory(prefix="mta-case-") as folder:
        place = exercise_in(folder)
        original = tool.read(os.path.join(place, "original.asm"))
        call = ("exercise", "1", "--reset", "--folder", "given")
        statuses = [lab(*call, folder=folder).status for _ in range(2)]
        return ([0, 0], original, ONE, ONE), (statuses, *(tool.read(os.path.join(place, name)) for name in (
            "start.asm", "start.old.asm", "other")))


@checks.others("lab/files_named")
def named():
    """A file that is there stays the same file, with its permissions and its other names; a link that is named is followed."""
    for words in NAMED:
        yield f"{words[0]}", lambda words=words: same_file(words, lambda path: None)
        yield f"{words[0]}, a second name", lambda words=words: same_file(words, lambda path: os.link(path, path + ".second"))
        yield f"{words[0]}, a link", lambda words=words: through_link(words)


def same_file(words, lay):
    with tempfile.TemporaryDirectory(prefix="mta-case-") as folder:
        begun(folder)
        path = os.path.join(folder, "named")
        lab(*words, folder=folder)
        whole = tool.read(path)
        tool.write(path, b"before" * 100_000)
        os.chmod(path, 0o640)
        lay(path)
        before, names = os.lstat(path), sorted(os.listdir(folder))
        ended = lab(*words, folder=folder)
        after = os.lstat(path)
        return ((0, whole, before.st_ino, before.st_mode, names),
                (ended.status, tool.read(path), after.st_ino, after.st_mode, sorted(os.listdir(folder))))


def through_link(words):
    with tempfile.TemporaryDirectory(prefix="mta-case-") as folder:
        begun(folder)
        lay_link(os.path.join(folder, "named"))
        before = os.stat(os.path.join(folder, "other")).st_ino
        ended = lab(*words, folder=folder)
        path = os.path.join(folder, "other")
        return ((0, True, before, False), (ended.status, os.path.islink(os.path.join(folder, "named")), os.stat(path).st_ino,
                                           tool.read(path) == b"other's"))


@checks.others("lab/files_of_new")
def new():
    """`new` makes both files or none, and takes no name that is a link."""
    for name in ("a.asm", "a.expect"):
        for lay in (lay_link, lay_loose_link, lay_second_name, os.mkfifo, os.mkdir):
            yield f"{name}, {lay.__name__}", lambda name=name, lay=lay: new_beside(name, lay)


def new_beside(name, lay):
    with tempfile.TemporaryDirectory(prefix="mta-case-") as folder:
        begun(folder)
        lay(os.path.join(folder, name))
        before = seen(folder)
        ended = lab("new", "a", folder=folder)
        return ((1, f"mta_lab: {name}: there is a file of this name\n".encode(), before), (ended.status, ended.err, seen(folder)))


@checks.others("lab/files_of_fmt")
def laid_out():
    """`fmt` leaves a file that has changed since it was read. A FIFO that it reads after it holds it up."""
    for how in ("in place", "by a new file", "away", "by a FIFO"):
        yield how, lambda how=how: changed(how)


def changed(how):
    with tempfile.TemporaryDirectory(prefix="mta-case-") as folder:
        path, fifo, later = (os.path.join(folder, name) for name in ("a.asm", "b.asm", "later"))
        tool.write(path, LOOSE)
        os.mkfifo(fifo)
        process = subprocess.Popen([tool.LAB, "fmt", "a.asm", "b.asm"], cwd=folder, stderr=subprocess.PIPE)
        with open(fifo, "wb") as held:
            if how == "in place":
                tool.write(path, NEAT + b"; mine\n")
            elif how == "by a new file":
                tool.write(later, NEAT + b"; mine\n")
                os.rename(later, path)
            else:
                os.unlink(path)
            if how == "by a FIFO":
                os.mkfifo(path)
            held.write(NEAT)
        try:
            err = process.communicate(timeout=tool.PATIENCE)[1]
        finally:
            process.kill()
        why = b"it is not a regular file" if how == "by a FIFO" else b"it has changed since it was read"
        left = None if how in ("away", "by a FIFO") else NEAT + b"; mine\n"
        found = tool.read(path) if os.path.isfile(path) else None
        return ((1, b"mta_lab: a.asm: not written: " + why + b"\n", left), (process.returncode, err, found))
