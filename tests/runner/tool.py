"""The built program, called on files and texts."""

import contextlib
import os
import subprocess
import sys
import tempfile

import plurals
import schemas
import table

sys.path.append(os.path.join(table.ROOT, "tests"))
import built

PROGRAM, LAB = built.place("mta_sim"), built.place("mta_lab")
# after so many seconds a call has failed
PATIENCE = 60


class Ended:
    """How a call ended: its status, and what it wrote to its standard streams."""

    def __init__(self, status, out, err):
        self.status, self.out, self.err = status, out, err

    def text(self):
        """What was printed; behind a `!` the fault, where the call met one and printed nothing."""
        if self.status == 0 and self.err == b"":
            return self.out
        if self.status == 1 and self.out == b"":
            return b"!" + self.err.removeprefix(b"mta_sim: ").removesuffix(b"\n")
        return b"status %d, printed %r, complained %r" % (self.status, self.out[:200], self.err[:200])


def call(*words, given=b"", folder=None, program=PROGRAM):
    """Calls a program with these words and this standard input. The objects that it prints are kept for their schemas, and
    the words that the lab counts."""
    ended = subprocess.run([program, *words], input=given, capture_output=True, cwd=folder, timeout=PATIENCE,
                           check=False)
    schemas.SEEN.call(words, ended.stdout)
    if program == LAB:
        plurals.SEEN.text(words, ended.stdout)
        plurals.SEEN.text(words, ended.stderr)
    return Ended(ended.returncode, ended.stdout, ended.stderr)


@contextlib.contextmanager
def made_files(**files):
    """A path for each of the files, while it lasts: bytes for one that is there, None for one to be made."""
    with tempfile.TemporaryDirectory(prefix="mta-case-") as folder:
        paths = {name: os.path.join(folder, name) for name in files}
        for name, data in files.items():
            if data is not None:
                write(paths[name], data)
        yield paths


def with_files(command, **files):
    """Calls `command(paths)` with a path for each of the files."""
    with made_files(**files) as paths:
        return command(paths)


def write(path, data):
    with open(path, "wb") as file:
        file.write(data)


def read(path):
    """The bytes of a file; none where it is not there."""
    if not os.path.exists(path):
        return None
    with open(path, "rb") as file:
        return file.read()


def words(program):
    """What `words` prints of these lines."""
    return call("words", given=program).text()


def asm(source):
    """The image of a source text; behind a `!` its fault."""
    def assemble(paths):
        said = call("asm", paths["source"], paths["image"]).text()
        return said or read(paths["image"])

    return with_files(assemble, source=source, image=None)


def listing(image):
    """What `list` prints of an image file."""
    return with_files(lambda paths: call("list", paths["image"]).text(), image=image)


def trace(image, schedule):
    """What `run` prints."""
    run = lambda paths: call("run", paths["image"], paths["schedule"]).text()
    return with_files(run, image=image, schedule=schedule)


def threads(image, fuel):
    """What `threads` prints, and the schedule that it hands out."""
    def run(paths):
        printed = call("threads", paths["image"], str(fuel), paths["schedule"]).text()
        return printed, read(paths["schedule"])

    return with_files(run, image=image, schedule=None)


def session(image, schedule, commands):
    """How a session of the debugger ends: its status, its answers, and the fault behind them, if any."""
    run = lambda paths: call("debug", paths["image"], paths["schedule"], given=commands)
    return with_files(run, image=image, schedule=schedule)
