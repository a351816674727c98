"""Bounds of a search, and the line that tells how far it is: on a terminal that wipes lines, and wiped when the answer
comes."""

import json
import os
import pty
import re
import subprocess
import tempfile

import checks
import tool
from of_lab import lab

# a program that comes to ever new worlds
COUNTS = b".entry more\n.data 0\nmore: ADD r1, r1, 1\n SKIP ALWAYS, 0, more\n"
# so long that the line is told, on a busy machine too
SECONDS = "4"
TOLD = rb"\r(\d+) states?, (\d+) still to explore, (\d+) a second, (\d+) MB\x1b\[K"
WIPED = b"\r\x1b[K"
# what a search says that its time has ended, with N for each number
ENDED = "some schedules: N states explored, N steps, not complete, ended by --seconds: nothing is said of the others\n"


@checks.others("lab/bounds")
def bounds():
    with tempfile.TemporaryDirectory(prefix="mta-case-") as folder:
        path = os.path.join(folder, "counts.asm")
        tool.write(path, COUNTS)
        yield "megabytes", True, by_memory(path)
        yield "seconds", (5, b"", ENDED), by_seconds(path)
        yield "a terminal", True, on_terminal(path)
        for name, value in ("TERM", "dumb"), ("TERM", None), ("INSIDE_EMACS", "29.4,comint"):
            yield f"a terminal that wipes no line, {name} {value}", (5, b""), plain(path, **{name: value})
        yield "a terminal and a search that is soon done", (0, b""), soon_done()
        yield "no terminal", (5, b""), elsewhere(path)


def by_memory(path):
    """A world takes 8 bytes of a link at least, and a key of 4: of one megabyte there are fewer than 83,334, and of two
    there are more. The second time there are as many as the first."""
    heads = [json.loads(lab("explore", path, "--memory", size, "--json").out) for size in ("1", "1", "2")]
    counts = [head["worlds"] for head in heads]
    holds = all(head["bound"] == "memory" and not head["complete"] for head in heads)
    return holds and 1 < counts[0] == counts[1] < 83_334 and counts[0] < counts[2] or heads


def by_seconds(path):
    ended = lab("explore", path, "--seconds", "1", "--states", "1000000000")
    says = re.sub(rb"\d+", b"N", ended.out).decode()
    return ended.status, ended.err, says


def with_terminal(*words, **environment):
    """The status of a call, what it printed, and what it wrote to standard error, a terminal; by these variables, of which
    None takes one away."""
    wanted = {**os.environ, "INSIDE_EMACS": None, "TERM": "xterm", **environment}
    variables = {name: value for name, value in wanted.items() if value is not None}
    ours, theirs = pty.openpty()
    with subprocess.Popen([tool.LAB, *words], stdin=subprocess.DEVNULL, stdout=subprocess.PIPE, stderr=theirs, env=variables) as process:
        os.close(theirs)
        told = b""
        try:
            while data := os.read(ours, 65536):
                told += data
        except OSError:  # nobody has the other side open any more
            pass
        out = process.stdout.read()
    os.close(ours)
    return process.returncode, out, told


def on_terminal(path):
    """The lines of about each second, one over the other; none is left."""
    status, out, told = with_terminal("explore", path, "--seconds", SECONDS, "--states", "1000000000")
    lines = list(re.finditer(TOLD, told))
    whole = b"".join(line[0] for line in lines) + WIPED
    counts = [int(line[1]) for line in lines]
    rises = counts == sorted(counts) and 0 < len(counts) < int(SECONDS)
    short = all(len(line[0]) < 80 for line in lines)
    holds = status == 5 and told == whole and rises and short and b"\r" not in out and b"--seconds" in out
    return holds or (status, out, told)


def plain(path, **environment):
    """Where the environment says that a terminal wipes no line."""
    status, _, told = with_terminal("explore", path, "--seconds", "2", "--states", "1000000000", **environment)
    return status, told


def soon_done():
    with tool.made_files(quits=b".entry 0\n QUIT\n.data 0\n") as paths:
        status, _, told = with_terminal("explore", paths["quits"])
    return status, told


def elsewhere(path):
    """Where standard error is a pipe and standard output a terminal."""
    ours, theirs = pty.openpty()
    ended = subprocess.run([tool.LAB, "explore", path, "--seconds", "2", "--states", "1000000000"],
                           stdin=subprocess.DEVNULL, stdout=theirs, stderr=subprocess.PIPE, timeout=tool.PATIENCE, check=False)
    os.close(theirs)
    os.close(ours)
    return ended.returncode, ended.stderr
