"""The files that the lab writes: onto devices, FIFOs and sockets; over the run's own inputs by any name; beside files of
others; by several runs at once; with the owner and the permissions of what is replaced; where nothing can be written. No file
is lost, and nothing stays beside what was asked for."""

import os
import shutil
import socket
import stat
import subprocess
import threading

from lab import LAB, example, lab
from program import Tally, read, write
from refusing import interposer, refused_allocation

LOCK, RACE = example("lock.asm"), example("fetch_add.asm")
ENDS = example("lock.ends.schedule")
# a stream that adds to a word: a space of one end
ONE = b".entry go\n.data 0\ngo: LIT r1, 1\nFADD.N r1, r0, 0\nQUIT\n"
NOBODY, OTHER = 65_534, (1234, 4321)
# how many runs write to one path at once, and how often
WRITERS, ROUNDS = 4, 30


def is_root():
    return os.geteuid() == 0


def as_nobody():
    """Takes the rights of the superuser from a new process, if it has them."""
    if is_root():
        os.setgroups([])
        os.setgid(NOBODY)
        os.setuid(NOBODY)


def room(folder, name):
    """An empty folder that all may write to."""
    path = os.path.join(folder, name)
    shutil.rmtree(path, ignore_errors=True)
    os.mkdir(path)
    os.chmod(folder, 0o755)
    os.chmod(path, 0o777)
    return path


def seen(folder):
    """What lies in a folder, and what it is: kind and permissions, owner, device, content or where a link leads."""
    found = {}
    for name in sorted(os.listdir(folder)):
        path = os.path.join(folder, name)
        about = os.lstat(path)
        kept = os.readlink(path) if stat.S_ISLNK(about.st_mode) else None
        if stat.S_ISREG(about.st_mode):
            kept = read(path)
        found[name] = (about.st_mode, about.st_uid, about.st_gid, about.st_rdev, kept)
    return found


def remove(path):
    """Takes a file away, where it is there."""
    if os.path.lexists(path):
        os.unlink(path)


def writers(source, path):
    """The commands that write to a path, each with its standard input."""
    return [
        (["asm", source, "--out", path], b""),
        (["page", source, "--out", path], b""),
        (["page", source, "--seeds", "0", "1", "--out", path], b""),
        (["picture", source, "--steps", "50", "--out", path], b""),
        (["debug", source], b"save " + os.fsencode(path) + b"\nquit\n"),
    ]


def is_told(words, ended, *texts):
    """Whether a run says all of these: `debug` in its answers with status 0, the others with status 1."""
    told = ended.out if words[0] == "debug" else ended.err
    return ended.status == (0 if words[0] == "debug" else 1) and all(text in told for text in texts)


def wholes(folder):
    """What each of the writers writes into a file that is new, of the lock example."""
    found = []
    for words, text in writers(LOCK, os.path.join(folder, "whole")):
        lab(words, text)
        found.append(read(os.path.join(folder, "whole")))
        os.unlink(os.path.join(folder, "whole"))
    return found


def drained(path, words, text):
    """A run that writes to a FIFO, and what came out of it."""
    got = []
    reader = threading.Thread(target=lambda: got.append(read(path)))
    reader.start()
    ended = lab(words, text)
    if stat.S_ISREG(os.lstat(path).st_mode) or ended.status != 0:
        # (nobody has opened it: the reader is let go)
        os.close(os.open(path, os.O_RDWR | os.O_NONBLOCK))
    reader.join(10)
    return ended, got[0] if got else None


def fifos(tally, folder):
    """A FIFO gets all the bytes, and stays one."""
    at = room(folder, "fifos")
    given = wholes(at)
    path = os.path.join(at, "fifo")
    for whole, (words, text) in zip(given, writers(LOCK, path)):
        os.mkfifo(path)
        ended, got = drained(path, words, text)
        tally.runs += 1
        tally.check(f"{words[0]} to a FIFO: {ended}", ended.status == 0 and got == whole)
        tally.check(f"{words[0]} leaves the FIFO", list(seen(at)) == ["fifo"] and stat.S_ISFIFO(os.lstat(path).st_mode))
        os.unlink(path)


def specials(tally, folder):
    """Devices and sockets stay what they are: the one is written to, the other refused by its name."""
    at = room(folder, "specials")
    names = {"socket": b"socket: write failed: "}
    socket.socket(socket.AF_UNIX).bind(os.path.join(at, "socket"))
    if is_root():
        os.mknod(os.path.join(at, "null"), stat.S_IFCHR | 0o666, os.makedev(1, 3))
        os.mknod(os.path.join(at, "full"), stat.S_IFCHR | 0o666, os.makedev(1, 7))
        names.update({"null": None, "full": b"full: write failed: No space left on device"})
    else:
        print("outputs: without root's rights no device is made, and none is tried")
    for name in list(names):
        os.symlink(name, os.path.join(at, "to_" + name))
        names["to_" + name] = names[name]
    before = seen(at)
    for name, refusal in names.items():
        for words, text in writers(LOCK, os.path.join(at, name)):
            ended = lab(words, text)
            tally.runs += 1
            done = ended.status == 0 if refusal is None else is_told(words, ended, refusal)
            tally.check(f"{words[0]} to {name}: {ended}", done)
            tally.check(f"{words[0]} leaves {name}", seen(at) == before)
    one = write(folder, "one.asm", ONE)
    os.symlink("socket", os.path.join(at, "1.schedule"))
    before = seen(at)
    ended = lab(["explore", one, "--keep", at])
    tally.runs += 1
    tally.check(f"explore to a socket: {ended}", (ended.status, ended.out) == (1, lab(["explore", one]).out))
    tally.check("explore leaves the socket", seen(at) == before)


def names_of(at, name):
    """Other names of a file in a folder: with a dot, over the folder's parent, from the root, a hard link, a link, a link
    to a link, and one over a folder that is a link."""
    path = os.path.join(at, name)
    os.link(path, os.path.join(at, "hard"))
    os.symlink(name, os.path.join(at, "soft"))
    os.symlink(os.path.join(at, "soft"), os.path.join(at, "softer"))
    os.symlink(".", os.path.join(at, "here"))
    return [name, "./" + name, f"../{os.path.basename(at)}/{name}", path, "hard", "soft", "softer", f"here/{name}"]


def over_inputs(tally, folder):
    """No run writes over a file that it has read, by whatever name, and it names both."""
    for name, data, commands in (
        ("l.asm", read(LOCK), lambda out: writers("l.asm", out)),
        ("l.asm", read(LOCK), lambda out: [(["asm", "-", "--out", out], "l.asm"), (["debug", "-"], None)][:1]),
        ("s.schedule", read(ENDS), lambda out: [
            (["page", LOCK, "s.schedule", "--out", out], b""), (["picture", LOCK, "s.schedule", "--out", out], b""),
            (["debug", LOCK, "s.schedule"], b"save " + out.encode() + b"\n")]),
    ):
        at = room(folder, "inputs")
        write(at, name, data)
        for out in names_of(at, name):
            for words, text in commands(out):
                before = seen(at)
                ended = within(at, words, text)
                tally.runs += 1
                both = [out.encode()] if isinstance(text, str) else [out.encode(), name.encode()]
                tally.check(f"{' '.join(words)} over {out}: {ended}", is_told(words, ended, b": not written: ", *both))
                tally.check(f"{words[0]} leaves {name} by {out}", seen(at) == before)


def within(at, words, text=b"", **how):
    """A run whose paths begin in a folder; its standard input is a text, or the file of a name."""
    setup = how.pop("setup", None)

    def begin():
        os.chdir(at)
        if setup is not None:
            setup()

    if isinstance(text, bytes):
        return lab(words, text, setup=begin, **how)
    with open(os.path.join(at, text), "rb") as given:
        return lab(words, given, setup=begin, **how)


def edited(tally, folder):
    """`debug` does not write over a source that an editor has replaced since it was read."""
    at = room(folder, "edited")
    path = write(at, "l.asm", read(LOCK))
    with subprocess.Popen([LAB, "debug", path], stdin=subprocess.PIPE, stdout=subprocess.PIPE) as session:
        session.stdout.readline()
        write(at, "l.asm.next", b"; edited\n" + read(LOCK))
        os.replace(path + ".next", path)
        said = session.communicate(b"save " + os.fsencode(path) + b"\nquit\n")[0]
    tally.runs += 1
    tally.check(f"debug over an edited source: {said}", b"l.asm: not written: " in said)
    tally.check("debug leaves an edited source", read(path) == b"; edited\n" + read(LOCK))


# the options of `explore` that write a file for each end into a folder, each with the name of the first
FOLDERS = (("--keep", "1.schedule"), ("--pages", "1_finished.html"))


def kept_over_inputs(tally, folder):
    """`explore --keep` and `--pages` leave the schedule, the program and the expectations that they have read, and print
    the ends."""
    for option, first in FOLDERS:
        kept_over(tally, folder, option, first)


def kept_over(tally, folder, option, first):
    """The same of one of these options."""
    for name, words in (
        (first, ["--from", first]), ("from", ["--from", "from"]), ("wanted", ["--expect", "wanted"]),
        ("one.asm", []),
    ):
        at = room(folder, "kept")
        write(at, "one.asm", ONE)
        write(at, first, b"0 0\n")
        write(at, "from", b"0 0\n")
        write(at, "wanted", b"finished\n")
        if name != first:
            os.unlink(os.path.join(at, first))
            os.link(os.path.join(at, name), os.path.join(at, first))
        before = seen(at)
        printed = within(at, ["explore", "one.asm", *words]).out
        ended = within(at, ["explore", "one.asm", *words, option, "."])
        tally.runs += 1
        named = first.encode() + b": not written: " in ended.err and name.encode() in ended.err
        tally.check(f"explore {option} over {name}: {ended}", (ended.status, ended.out) == (1, printed) and named)
        tally.check(f"explore leaves {name}", seen(at) == before)
    at = room(folder, "kept")
    one = write(folder, "one.asm", ONE)
    with open(os.path.join(at, first), "wb") as printed:
        ended = lab(["explore", one, option, at], output=printed)
    tally.runs += 1
    tally.check(f"explore over its output: {ended}", b": not written: " in ended.err and b"standard output" in ended.err)
    tally.check("explore leaves its output", read(os.path.join(at, first)) == lab(["explore", one]).out)


def drawn_over_inputs(tally, folder):
    """`explore --dot` leaves the schedule, the program and the expectations that it has read, and prints the ends."""
    for name, words in (("from", ["--from", "from"]), ("wanted", ["--expect", "wanted"]), ("one.asm", [])):
        at = room(folder, "drawn")
        write(at, "one.asm", ONE)
        write(at, "from", b"0 0\n")
        write(at, "wanted", b"finished\n")
        printed = within(at, ["explore", "one.asm", *words]).out
        for out in names_of(at, name):
            before = seen(at)
            ended = within(at, ["explore", "one.asm", *words, "--dot", out])
            tally.runs += 1
            named = out.encode() + b": not written: " in ended.err and name.encode() in ended.err
            tally.check(f"explore draws over {out}: {ended}", (ended.status, ended.out) == (1, printed) and named)
            tally.check(f"explore leaves {name} by {out}", seen(at) == before)


def bystanders(tally, folder):
    """Files of others, whatever their names, are not touched, and nothing is left beside what was written."""
    at = room(folder, "bystanders")
    path = os.path.join(at, "made")
    for name in ("made.new", ".mta_lab-0.new"):
        write(at, name, b"another's")
    os.symlink("elsewhere", os.path.join(at, ".mta_lab-1.new"))
    os.symlink("made.new", os.path.join(at, ".mta_lab-2.new"))
    os.mkfifo(os.path.join(at, ".mta_lab-3.new"))
    before = seen(at)
    for words, text in writers(LOCK, path):
        ended = lab(words, text)
        tally.runs += 1
        tally.check(f"{words[0]} beside others: {ended}", ended.status == 0)
        after = seen(at)
        tally.check(f"{words[0]} makes its file", after.pop("made", None) is not None)
        tally.check(f"{words[0]} leaves the others", after == before)


def failures(tally, folder):
    """A write that fails leaves what was there, and nothing beside it: no room, and each allocation refused in turn."""
    library = interposer(folder)
    at = room(folder, "failures")
    path = write(at, "made", b"before")
    before = seen(at)
    whole = wholes(at)
    for words, text in writers(LOCK, path)[:3]:
        small = subprocess.run(["sh", "-c", 'trap "" XFSZ; ulimit -f 0; exec "$@"', "sh", LAB, *words],
                               capture_output=True, check=False)
        tally.runs += 1
        tally.check(f"{words[0]} without room: {small.stderr}", small.returncode == 1 and seen(at) == before)
    words, text = writers(LOCK, path)[0]
    variables = refused_allocation(library, folder, 0)
    lab(words, text, **variables)
    for number in range(1, int(read(variables["COUNT"])) + 1):
        write(at, "made", b"before")
        ended = lab(words, text, **refused_allocation(library, folder, number))
        tally.runs += 1
        tally.check(f"asm: allocation {number} refused: {ended}", (ended.status, read(path)) in (
            (0, whole[0]), (1, b"before"), (2, b"before")))
        tally.check(f"asm: allocation {number} refused leaves no file beside", os.listdir(at) == ["made"])


def at_once(tally, folder):
    """Runs that write to one path at once all succeed, and the file is that of one of them."""
    at = room(folder, "at_once")
    path = os.path.join(at, "made")
    commands = [["page", LOCK, "--out", path], ["page", RACE, "--out", path]]
    given = []
    for words in commands:
        lab(words)
        given.append(read(path))
    for number in range(ROUNDS):
        if number % 2:
            os.unlink(path)
        running = [subprocess.Popen([LAB, *commands[it % 2]], stdout=subprocess.PIPE, stderr=subprocess.PIPE)
                   for it in range(WRITERS)]
        said = [process.communicate()[1] for process in running]
        tally.runs += WRITERS
        tally.check(f"some at once: {said}", [process.returncode for process in running] == [0] * WRITERS)
        tally.check("some at once leave one whole file", read(path) in given and os.listdir(at) == ["made"])


def replaced(tally, folder):
    """A file that is written over keeps its permissions and its owner; a link stays, and where it leads is written."""
    at = room(folder, "replaced")
    whole = wholes(at)
    os.umask(0o022)
    for mode in (0o600, 0o604, 0o640, 0o664, 0o755):
        for wanted, (words, text) in zip(whole, writers(LOCK, os.path.join(at, "made"))):
            write(at, "made", b"before")
            os.chmod(os.path.join(at, "made"), mode)
            if is_root():
                os.chown(os.path.join(at, "made"), *OTHER)
            before = os.lstat(os.path.join(at, "made"))
            ended = lab(words, text)
            tally.runs += 1
            after = os.lstat(os.path.join(at, "made"))
            same = (after.st_mode, after.st_uid, after.st_gid) == (before.st_mode, before.st_uid, before.st_gid)
            tally.check(f"{words[0]} over a file of mode {mode:o}: {ended}", ended.status == 0 and same)
            tally.check(f"{words[0]} replaces it", read(os.path.join(at, "made")) == wanted)
            remove(os.path.join(at, "made"))
    os.mkdir(os.path.join(at, "below"))
    os.symlink("below/made", os.path.join(at, "link"))
    os.symlink(os.path.join(at, "link"), os.path.join(at, "below/second"))
    os.symlink("link", os.path.join(at, "third"))
    for name in ("link", "below/second", "third"):
        for is_there in (False, True):
            for wanted, (words, text) in zip(whole, writers(LOCK, os.path.join(at, name))):
                if is_there:
                    write(at, "below/made", b"before")
                ended = lab(words, text)
                tally.runs += 1
                tally.check(f"{words[0]} to the link {name}: {ended}", ended.status == 0)
                tally.check(f"{words[0]} writes where {name} leads", read(os.path.join(at, "below/made")) == wanted)
                tally.check(f"{words[0]} keeps {name}", os.path.islink(os.path.join(at, name)))
                remove(os.path.join(at, "below/made"))
    os.symlink("loop", os.path.join(at, "loop"))
    ended = lab(["asm", LOCK, "--out", os.path.join(at, "loop")])
    tally.check(f"asm to a link to itself: {ended}", ended.status == 1 and b"loop: write failed: " in ended.err)
    tally.check("nothing is made on the way", sorted(os.listdir(at)) == ["below", "link", "loop", "third"]
                and os.listdir(os.path.join(at, "below")) == ["second"])


def protected(tally, folder):
    """A folder or a file that may not be written to keeps all; a file of somebody else gives nobody new rights."""
    for what, folder_mode, file_mode in (("a folder", 0o555, 0o666), ("a file", 0o777, 0o444)):
        at = room(folder, "protected")
        path = write(at, "made", b"before")
        if is_root():
            os.chown(path, NOBODY, NOBODY)
        os.chmod(path, file_mode)
        os.chmod(at, folder_mode)
        before = seen(at)
        for words, text in writers(LOCK, path):
            ended = lab(words, text, setup=as_nobody)
            tally.runs += 1
            told = is_told(words, ended, b"made: write failed: Permission denied")
            tally.check(f"{words[0]} to {what} that may not be written to: {ended}", told)
            tally.check(f"{words[0]} leaves {what} that may not be written to", seen(at) == before)
        os.chmod(at, 0o777)
    if not is_root():
        return
    at = room(folder, "protected")
    path = write(at, "made", b"before")
    os.chmod(path, 0o662)
    ended = lab(["asm", LOCK, "--out", path], setup=as_nobody)
    about = os.lstat(path)
    tally.check(f"asm over root's file: {ended}", ended.status == 0 and about.st_uid == 0)
    tally.check(f"root's file has its mode: {about.st_mode:o}", stat.S_IMODE(about.st_mode) == 0o662)


def kept(tally, folder):
    """`explore --keep` and `--pages` make their folder, and print the ends whatever becomes of the files."""
    for option, first in FOLDERS:
        kept_by(tally, folder, option, first)


def kept_by(tally, folder, option, first):
    """The same of one of these options."""
    one = write(folder, "one.asm", ONE)
    printed = lab(["explore", one]).out
    at = room(folder, "kept")
    new = os.path.join(at, "new")
    ended = lab(["explore", one, option, new])
    tally.check(f"explore into a new folder: {ended}", (ended.status, ended.out, ended.err) == (0, printed, b""))
    tally.check(f"{first} is there", os.path.isdir(new) and os.listdir(new) == [first])
    is_right = first != "1.schedule" or read(os.path.join(new, first)) == b"0 0 3\n"
    tally.check(f"{first} has the schedule", is_right)
    shutil.rmtree(new, ignore_errors=True)
    ended = lab(["explore", write(folder, "faulty.asm", b"nothing\n"), option, new])
    tally.check(f"explore of a faulty program: {ended}", ended.status == 1 and os.listdir(at) == [])
    write(at, "file", b"before")
    os.mkdir(os.path.join(at, "closed"))
    os.chmod(os.path.join(at, "closed"), 0o555)
    os.mkdir(os.path.join(at, "taken"))
    os.mkdir(os.path.join(at, "taken", first))
    before = seen(at)
    for name in ("file", "none/new", "closed", "closed/new", "taken", "file/new"):
        for how in ([], ["--json"]):
            ended = lab(["explore", one, *how, option, os.path.join(at, name)], setup=as_nobody)
            tally.runs += 1
            whole = ended.out == lab(["explore", one, *how]).out
            tally.check(f"explore {option} into {name}: {ended}", ended.status == 1 and whole and ended.err.startswith(b"mta_lab: "))
            tally.check(f"explore says {name}", name.encode() in ended.err and seen(at) == before)


def part(_, folder):
    """All of it."""
    tally = Tally()
    for of in (fifos, specials, over_inputs, edited, kept_over_inputs, drawn_over_inputs, bystanders, failures, at_once,
               replaced, protected, kept):
        of(tally, folder)
    return tally
