"""The files that the lab writes where another user owns the folder, or may write to it: names that he takes first, a helper
of his that swaps files all the while, links that he lays, access lists. Nobody gets a file that he had not, no file gives
more rights than before, and nobody is stopped. Most of it needs root's rights, to be the other user too."""

import os
import shutil
import stat
import struct
import subprocess
import threading
import time

from lab import LAB, example, lab
from program import ROOT, Tally, read, write

LOCK, RACE = example("lock.asm"), example("fetch_add.asm")
GRADED = example("grading/submissions")
EXERCISES, EXERCISE = os.path.join(ROOT, "exercises"), "01_hand_over"
# a stream that adds to a word: a space of one end
ONE = b".entry go\n.data 0\ngo: LIT r1, 1\nFADD.N r1, r0, 0\nQUIT\n"
# a stream that waits forever for a word that nobody fills, beside one that loops
WAITS = b" .entry a\n .entry b\n .data 0, 0\na: NOP\n LOAD.S r0, r0, 0\n QUIT\nb: SKIP ALWAYS, 0, b\n"
LOOSE, NEAT = b" .entry 0\n .data 0\nQUIT\n", b"        .entry 0\n        .data 0\n        QUIT\n"
# the user who owns the folder, and others: user and group
OWNER, FRIEND, MEMBER, STRANGER = (1234, 4321), (1235, 4322), (1236, 4321), (1237, 4323)
# how often each race is run, and how many names another user takes
RACES, NAMES = 60, 1000
LIST = "system.posix_acl_access"
FOR_NEW = "system.posix_acl_default"


def as_user(user):
    """Makes a new process one of this user and group."""
    def change():
        os.setgroups([])
        os.setgid(user[1])
        os.setuid(user[0])
    return change


def room(folder, name, owner=OWNER):
    """An empty folder of another user, in which root may write too."""
    path = os.path.join(folder, name)
    shutil.rmtree(path, ignore_errors=True)
    os.mkdir(path)
    os.chmod(folder, 0o755)
    os.chown(path, *owner)
    return path


def owned(folder, name, data, mode=0o644, owner=OWNER):
    """A file of another user."""
    path = write(folder, name, data)
    os.chmod(path, mode)
    os.chown(path, *owner)
    return path


def kinds(path):
    """What a file is, but for its content and its times."""
    about = os.lstat(path)
    return about.st_ino, about.st_mode, about.st_uid, about.st_gid


def left(folder):
    return sorted(os.listdir(folder))


def emptied(folder):
    """Takes all files of a folder away, also where another process renames them meanwhile."""
    while left(folder):
        for name in left(folder):
            try:
                os.unlink(os.path.join(folder, name))
            except FileNotFoundError:
                pass


class Helper:
    """A process of another user, which calls a function again and again until it is stopped."""

    def __init__(self, user, act):
        self.child = os.fork()
        if self.child == 0:
            as_user(user)()
            while True:
                try:
                    act()
                except OSError:
                    pass

    def __enter__(self):
        return self

    def __exit__(self, *_):
        os.kill(self.child, 9)
        os.waitpid(self.child, 0)


def swapped(tally, folder):
    """Whoever owns the folder renames a file of root's over each name that begins as the lab's: it stays root's, with its
    rights; and the file that was written stays his."""
    for words in (["page", LOCK, "--out"], ["asm", LOCK, "--out"]):
        at = room(folder, "swapped")
        made = os.path.join(at, "made")

        def act(at=at):
            for name in os.listdir(at):
                if name.startswith(".mta_lab-"):
                    os.rename(os.path.join(at, "secret"), os.path.join(at, name))

        met = 0
        with Helper(OWNER, act):
            for number in range(RACES):
                owned(at, "made", b"before")
                secret = os.open(os.path.join(at, "secret"), os.O_CREAT | os.O_WRONLY, 0o600)
                ended = lab([*words, made])
                about = os.fstat(secret)
                os.close(secret)
                tally.runs += 1
                met += "secret" not in left(at)
                tally.check(f"{words[0]} beside a swap, {number}: root's file is {about.st_uid}'s, of mode {about.st_mode:o}",
                            (about.st_uid, about.st_gid, stat.S_IMODE(about.st_mode)) == (0, 0, 0o600))
                tally.check(f"{words[0]} beside a swap, {number}: {ended}", ended.status in (0, 1))
                tally.check(f"{words[0]} beside a swap leaves an owner", kinds(made)[2:] == OWNER)
                emptied(at)
        tally.check(f"{words[0]} beside a swap: the helper has met none of {RACES} files", met > 0)


def turned(tally, folder):
    """A path that the lab chose is turned from a file into a link to one of root's and back all the while: root's stays."""
    at, one = room(folder, "turned"), write(folder, "one.asm", ONE)
    secret = write(folder, "secret", b"root's")
    path, link, file = (os.path.join(at, name) for name in ("1.schedule", "link", "file"))

    def act():
        with open(file, "wb"):
            pass
        os.rename(file, path)
        os.symlink(secret, link)
        os.rename(link, path)

    with Helper(OWNER, act):
        for number in range(RACES):
            ended = lab(["explore", one, "--keep", at])
            tally.runs += 1
            tally.check(f"explore beside a turn, {number}: {ended}", ended.status in (0, 1) and read(secret) == b"root's")


def names(tally, folder):
    """A thousand files of another user, by the names that were the lab's once, stop nobody, and stay."""
    at = room(folder, "names")
    for number in range(NAMES):
        owned(at, f".mta_lab-{number}.new", b"his")
    for is_there in (False, True):
        ended = lab(["asm", LOCK, "--out", os.path.join(at, "made")])
        tally.runs += 1
        tally.check(f"asm beside {NAMES} names, {is_there}: {ended}", ended.is_done() and len(left(at)) == NAMES + 1)
    tally.check("they stay", all(read(os.path.join(at, f".mta_lab-{it}.new")) == b"his" for it in range(NAMES)))


def access_list(*entries):
    """An access list of (tag, rights, id) as the system keeps it."""
    return struct.pack("<I", 2) + b"".join(struct.pack("<HHI", *entry) for entry in entries)


NO_ID = 0xFFFFFFFF
USER, NAMED, GROUP, NAMED_GROUP, MASK, OTHERS = 1, 2, 4, 8, 16, 32
# the mode of each file, and its list: shared with a friend; with a friend's group; kept from a friend; kept from its group
LISTS = [
    ((USER, 6, NO_ID), (NAMED, 6, FRIEND[0]), (GROUP, 0, NO_ID), (MASK, 6, NO_ID), (OTHERS, 0, NO_ID)),
    ((USER, 6, NO_ID), (GROUP, 0, NO_ID), (NAMED_GROUP, 4, FRIEND[1]), (MASK, 4, NO_ID), (OTHERS, 0, NO_ID)),
    ((USER, 6, NO_ID), (NAMED, 0, FRIEND[0]), (GROUP, 4, NO_ID), (MASK, 4, NO_ID), (OTHERS, 4, NO_ID)),
    ((USER, 6, NO_ID), (GROUP, 0, NO_ID), (NAMED_GROUP, 4, FRIEND[1]), (MASK, 4, NO_ID), (OTHERS, 4, NO_ID)),
]


def may(path, user):
    """Whether a user may read a file, and write to it."""
    child = os.fork()
    if child == 0:
        as_user(user)()
        os._exit(os.access(path, os.R_OK) + 2 * os.access(path, os.W_OK))
    return os.waitstatus_to_exitcode(os.waitpid(child, 0)[1])


def rights(path):
    return [may(path, user) for user in (OWNER, FRIEND, MEMBER, STRANGER)]


def list_of(path):
    """The access list of a file; None where it has none."""
    return os.getxattr(path, LIST) if LIST in os.listxattr(path) else None


def lists(tally, folder):
    """A file with an access list has it after it was written over, by its owner and by root: nobody gets a right, and
    nobody loses one. A list that the folder has for new files gives an old file nothing."""
    at = room(folder, "lists")
    try:
        os.setxattr(write(at, "tried", b""), LIST, access_list(*LISTS[0]))
    except OSError as error:
        print(f"others: no access lists here ({error.strerror}), and none is tried")
        return
    os.unlink(os.path.join(at, "tried"))
    for setup in (None, as_user(OWNER)):
        for number, entries in enumerate(LISTS):
            path = owned(at, "made", b"before", 0o600)
            os.setxattr(path, LIST, access_list(*entries))
            before = kinds(path), list_of(path), rights(path)
            ended = lab(["asm", LOCK, "--out", path], setup=setup)
            tally.runs += 1
            after = kinds(path), list_of(path), rights(path)
            tally.check(f"asm over a file with list {number}: {ended}", ended.is_done() and left(at) == ["made"])
            tally.check(f"list {number}: {before[2]} may what {after[2]} may", before == after)
            os.unlink(path)
        path = owned(at, "made", b"before", 0o640)
        os.setxattr(at, FOR_NEW, access_list(*LISTS[0]))
        before = kinds(path), os.listxattr(path), rights(path)
        ended = lab(["asm", LOCK, "--out", path], setup=setup)
        tally.runs += 1
        tally.check(f"asm in a folder with a list for new files: {ended}",
                    ended.is_done() and before == (kinds(path), os.listxattr(path), rights(path)))
        os.removexattr(at, FOR_NEW)
        os.unlink(path)


def modes(tally, folder):
    """A file of another user, of another group or of any mode is the same file after it was written over."""
    at = room(folder, "modes")
    os.chmod(at, 0o777)
    for mode in (0o600, 0o640, 0o660, 0o644, 0o666, 0o622, 0o4755):
        for owner in (OWNER, (0, OWNER[1]), (OWNER[0], 0)):
            for setup in (None, as_user(OWNER)):
                path = owned(at, "made", b"before", mode, owner)
                os.chmod(path, mode)
                before = kinds(path)
                ended = lab(["asm", LOCK, "--out", path], setup=setup)
                tally.runs += 1
                after = kinds(path)
                # (a write takes the bits away by which a program runs as its owner)
                same = after == (before[0], before[1] & ~0o6000, *before[2:]) or after == before
                tally.check(f"asm over a file of {owner}, mode {mode:o}: {ended}", ended.status in (0, 1) and same)
                tally.check(f"asm over it has done it: {ended}", (ended.status == 0) == (read(path) != b"before"))
                os.unlink(path)


def laid(at, name, secret):
    """Lays each kind of link, and a FIFO, under a name; gives what each is called."""
    path = os.path.join(at, name)
    os.symlink(secret, path)
    yield "a link"
    os.unlink(path)
    os.symlink(os.path.join(at, "nowhere"), path)
    yield "a link to nothing"
    os.unlink(path)
    os.link(secret, path)
    yield "a second name"
    os.unlink(path)
    os.mkfifo(path)
    yield "a FIFO"
    os.unlink(path)


def links(tally, folder):
    """A path that the lab chose is no link, no second name of a file and no FIFO: it is left, and this is said. A path that
    the user named may be each of them but a FIFO that nobody reads."""
    at, secrets = room(folder, "links"), room(folder, "secrets")
    secret = write(secrets, "secret", b"root's")
    source, waits = write(at, "one.asm", ONE), write(at, "waits.asm", WAITS)
    racing = os.path.join(GRADED, "racing.asm")
    wanted = write(folder, "wanted.expect", b"word 8 2\nfinished\n")
    given, task = room(folder, "given"), room(folder, f"given/{EXERCISE}")
    shutil.copytree(os.path.join(EXERCISES, EXERCISE), task, dirs_exist_ok=True)
    owned(task, "start.asm", ONE)
    gallery = ["gallery", at, "--exercises", given, "--examples", secrets]
    for place, name, words in (
        (at, "one.image", ["asm", source]),
        (at, "1.schedule", ["explore", source, "--keep", at]),
        (at, "1_finished.html", ["explore", source, "--pages", at]),
        (at, "waiting_0.0_stem.schedule", ["explore", waits, "--waiting", "--keep", at]),
        (at, "waiting_0.0.schedule", ["explore", waits, "--waiting", "--keep", at]),
        (at, "racing.html", ["grade", "--expect", wanted, "--seeds", "20", "--pages", at, racing]),
        (at, "racing.txt", ["grade", "--expect", wanted, "--seeds", "20", "--feedback", at, racing]),
        (at, f"{EXERCISE}.play.html", gallery),
        (at, f"{EXERCISE}.run.html", gallery),
        (at, "index.html", gallery),
        (task, "start.old.asm", ["exercise", "1", "--reset", "--folder", given]),
    ):
        path, there = os.path.join(place, name), left(place)
        for what in laid(place, name, secret):
            before = kinds(path)
            ended = lab(words)
            tally.runs += 1
            said = f"{name}: not written: it is ".encode() + (b"not a regular file" if what == "a FIFO" else b"a link")
            tally.check(f"{words[0]} at {what}: {ended}", ended.status == 1 and said in ended.err)
            tally.check(f"{words[0]} leaves {what}", kinds(path) == before)
            tally.check(f"{words[0]} leaves nothing hidden", not any(it.startswith(".") for it in left(place)))
            tally.check(f"{words[0]} leaves what {what} leads to", read(secret) == b"root's")
        ended = lab(words)
        tally.check(f"{words[0]} at nothing: {ended}", ended.status != 1 and name in left(place))
        ended = lab(words)
        tally.check(f"{words[0]} at its own file: {ended}", ended.status != 1 and name in left(place))
        for new in set(left(place)) - set(there):
            os.unlink(os.path.join(place, new))
    for what in laid(at, "run.html", secret):
        before = kinds(os.path.join(at, "run.html"))
        ended = lab(["exercise", "1", "--watch", "--folder", given], b"p\nq\n", setup=lambda: os.chdir(at))
        tally.runs += 1
        tally.check(f"exercise --watch at {what}: {ended}", ended.status == 0 and b"run.html: not written: it is " in ended.err)
        tally.check(f"exercise --watch leaves {what}",
                    kinds(os.path.join(at, "run.html")) == before and read(secret) == b"root's")
    tally.check("a reset keeps the program", read(os.path.join(task, "start.asm")) == read(os.path.join(task, "original.asm")))
    os.symlink(secret, os.path.join(at, "named"))
    ended = lab(["asm", source, "--out", os.path.join(at, "named")])
    tally.check(f"asm at a link that is named: {ended}", ended.is_done() and read(secret) != b"root's")


def new_files(tally, folder):
    """`new` makes both files or none, also where one comes while it makes the other."""
    at = room(folder, "new")
    os.symlink("nowhere", os.path.join(at, "link.expect"))
    ended = lab(["new", os.path.join(at, "link")])
    tally.check(f"new at a link: {ended}", ended.status == 1 and left(at) == ["link.expect"])
    os.unlink(os.path.join(at, "link.expect"))
    os.mkdir(os.path.join(at, "closed"), 0o555)
    ended = lab(["new", os.path.join(at, "closed/a")], setup=as_user(OWNER))
    tally.check(f"new in a closed folder: {ended}", ended.status == 1 and left(os.path.join(at, "closed")) == [])
    os.rmdir(os.path.join(at, "closed"))
    paths = [os.path.join(at, name) for name in ("a.asm", "a.expect")]
    for mine, his in (paths, paths[::-1]):
        def act(mine=mine, his=his):
            if os.path.lexists(mine):
                os.close(os.open(his, os.O_CREAT | os.O_EXCL | os.O_WRONLY))

        with Helper(OWNER, act):
            for number in range(RACES):
                ended = lab(["new", os.path.join(at, "a")])
                tally.runs += 1
                about = {path: os.lstat(path) for path in paths if os.path.lexists(path)}
                if ended.status == 0:
                    holds = [it.st_uid for it in about.values()] == [0, 0] and all(it.st_size for it in about.values())
                else:
                    holds = b": there is a file of this name" in ended.err and all(
                        (it.st_uid, it.st_size) == (OWNER[0], 0) for it in about.values())
                tally.check(f"new beside another, {number}: {ended}, {left(at)}", holds)
                for path in paths:
                    if os.path.lexists(path):
                        os.unlink(path)


def edited(tally, folder):
    """`fmt` leaves a file that has changed since it was read: a FIFO holds it up between."""
    at = room(folder, "edited")
    for how in ("in place", "by a new file", "away"):
        path, fifo = write(at, "a.asm", LOOSE), os.path.join(at, "b.asm")
        os.mkfifo(fifo)
        changed = b"; mine\n" + LOOSE
        process = subprocess.Popen([LAB, "fmt", path, fifo], stdout=subprocess.PIPE, stderr=subprocess.PIPE)
        # (it opens the FIFO after it has read the file)
        with open(fifo, "wb") as held:
            if how == "in place":
                write(at, "a.asm", changed)
            elif how == "by a new file":
                os.rename(write(at, "next", changed), path)
            else:
                os.unlink(path)
            held.write(NEAT)
        out, err = process.communicate()
        tally.runs += 1
        tally.check(f"fmt of a file that changed {how}: {process.returncode}, {out}, {err}",
                    process.returncode == 1 and out == b"" and b"a.asm: not written: it has changed since it was read" in err)
        tally.check(f"fmt leaves a file that changed {how}", read(path) == (None if how == "away" else changed))
        emptied(at)


def without_room(tally, folder):
    """On a disk that has room for the new content once, and not twice, the old content stays."""
    at = room(folder, "small")
    if subprocess.run(["mount", "-t", "tmpfs", "-o", "size=256k", "none", at], capture_output=True, check=False).returncode:
        print("others: no small disk can be made here, and none is tried")
        return
    try:
        size = os.path.getsize(page_in(folder))
        fill = 256 * 1024 - size - 16 * 1024
        write(at, "fill", b"f" * max(fill, 0))
        path = write(at, "made", b"before")
        before = kinds(path)
        ended = lab(["page", LOCK, "--out", path])
        tally.runs += 1
        tally.check(f"page of {size} bytes on a small disk: {ended}",
                    ended.status == 1 and b"made: write failed: No space left on device" in ended.err)
        tally.check("page on a small disk leaves what was there",
                    (read(path), kinds(path), left(at)) == (b"before", before, ["fill", "made"]))
    finally:
        subprocess.run(["umount", at], check=False)


def page_in(folder):
    """The page of an example."""
    path = os.path.join(folder, "page.html")
    lab(["page", LOCK, "--out", path])
    return path


def watched(tally, folder):
    """A new file has all of its bytes as soon as its name is there."""
    at, whole = room(folder, "watched"), os.path.getsize(page_in(folder))
    path, sizes, is_over = os.path.join(at, "made"), set(), threading.Event()

    def look():
        while not is_over.is_set():
            try:
                sizes.add(os.stat(path).st_size)
            except FileNotFoundError:
                pass

    watcher = threading.Thread(target=look)
    watcher.start()
    for _ in range(RACES // 2):
        ended = lab(["page", LOCK, "--out", path])
        tally.runs += 1
        tally.check(f"page that is watched: {ended}", ended.is_done())
        time.sleep(0.002)
        os.unlink(path)
    is_over.set()
    watcher.join()
    tally.check(f"a new file is seen with {sizes} bytes, not {whole} alone", sizes == {whole})


def part(_, folder):
    """All of it."""
    tally = Tally()
    if os.geteuid() != 0:
        print("others: without root's rights nobody is another user, and nothing is tried")
        return tally
    os.umask(0o022)
    for of in (swapped, turned, names, lists, modes, links, new_files, edited, without_room, watched):
        of(tally, folder)
    return tally
