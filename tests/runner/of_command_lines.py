"""Command lines: with which status they end, which files they open, and what they change and print."""

import os
import subprocess
import tempfile

import checks
import tool
import watching
from table import unescaped

QUIT = b".profile 1\n.slim 1\n.retry 0\n.entry 0\nQUIT ; 00000 0000000000028000\n.fill 1, 0x0000000000000000, 1\n"
# the header of its image, and the entry, the program and the data word
QUIT_IMAGE = (b"MTAP" + bytes.fromhex("0001 0001 0001 00000000 FFFFFFFF 00000001 00000001")
              + bytes.fromhex("00000000 0000000000028000 0000000000000000 01"))
# files that can be opened, of which old.img is one that a command does not come to read
FILES = {
    "quit.s": QUIT, "word.s": b".slim 1\n.retry 0\n.entry 0\n.word 0x0000000000000001\n.data 7\n",
    "unknown.s": b".entry 0\nFOO\n.data 0\n", "quit.img": QUIT_IMAGE, "old.img": b"old", "empty.img": b"",
    "one.steps": b"0 0", "short.steps": b"0 0\n1\n", "word": b"0000000000000000\n", "goes_on": b"c\n"}
# no user can open a link to itself; what is written to /dev/full is refused
LINKS = {"locked.file": "locked.file", "full.img": "/dev/full"}
# a folder can be opened, but not be read as a file
FOLDERS = ["damaged.file"]
# what is written to any file is refused
SMALL = "trap '' XFSZ; ulimit -f 0; exec \"$@\""


def put_files(folder):
    for name, data in FILES.items():
        tool.write(os.path.join(folder, name), data)
    for name, target in LINKS.items():
        os.symlink(target, os.path.join(folder, name))
    for name in FOLDERS:
        os.mkdir(os.path.join(folder, name))


def changes(folder):
    """The files of the folder that are not as they were put there, and their bytes; none where one is gone."""
    names = {*os.listdir(folder), *FILES} - {*LINKS, *FOLDERS}
    found = {name: tool.read(os.path.join(folder, name)) for name in sorted(names)}
    return {name: data for name, data in found.items() if data != FILES.get(name)}


def fault_line(text):
    return b"mta_sim: " + text + b"\n" if text else b""


@checks.each("command_line/files.tsv")
def opens_and_changes(fields):
    line, streams, opened, changed, data, status, printed = fields
    wanted = {changed: unescaped(data)} if changed or data else {}
    out, err = (unescaped(printed), b"") if status == "0" else (b"", fault_line(unescaped(printed)))
    words = [tool.PROGRAM, *line.split()]
    if streams:
        words = ["sh", "-c", SMALL if streams == "no room" else f'exec "$@" {streams}', "sh", *words]
    with tempfile.TemporaryDirectory(prefix="mta-case-") as folder:
        put_files(folder)
        with watching.watched(folder) as watch:
            ended = subprocess.run(words, stdin=subprocess.DEVNULL, capture_output=True, cwd=folder,
                                   timeout=tool.PATIENCE, check=False)
            found = watch.opened()
        # what the parser of command lines says is its own
        said = b"" if status == "2" and ended.stderr else ended.stderr
        return ((f"status {status}", out, err, opened.split(), wanted),
                (f"status {ended.returncode}", ended.stdout, said, found, changes(folder)))


@checks.each("command_line/lines.tsv")
def has_status(fields):
    """Standard output has something exactly where the command is done, standard error where it is not; no file is
    made."""
    line, given, status, fault = fields
    with tempfile.TemporaryDirectory(prefix="mta-case-") as folder:
        ended = tool.call(*line.split(), given=unescaped(given), folder=folder)
        made = os.listdir(folder)
    where = "standard output" if status == "0" else "standard error"
    found = [name for name, text in (("standard output", ended.out), ("standard error", ended.err)) if text]
    said = ended.err if status == "1" else b""
    return (f"status {status}", [where], fault_line(fault.encode()), []), (f"status {ended.status}", found, said, made)


@checks.others("command_line/unread_output")
def is_told_of_a_reader_that_went():
    """Standard output is a pipe that nobody reads any more."""
    away, pipe = os.pipe()
    os.close(away)
    with open(pipe, "wb") as broken:
        ended = subprocess.run([tool.PROGRAM, "words"], input=FILES["word"], stdout=broken, stderr=subprocess.PIPE,
                               timeout=tool.PATIENCE, check=False)
    yield "words to a pipe that nobody reads", (1, b"mta_sim: write failed\n"), (ended.returncode, ended.stderr)
