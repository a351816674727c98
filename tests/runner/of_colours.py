"""Colours: what has them, when there are some, and that nothing else of a text changes."""

import glob
import os
import pty
import re
import tempfile

import checks
import table
import tool
from of_lab import EXAMPLES, lab
from table import unescaped

COLOUR = re.compile(rb"\x1b\[[0-9;]*m")


@checks.each("lab/colours.tsv")
def painted(fields):
    """A command line with --color always: its status, and what it prints."""
    line, files, status, out, err = fields
    with tempfile.TemporaryDirectory(prefix="mta-case-") as folder:
        for file in filter(None, files.split("|")):
            name, _, text = file.partition("=")
            tool.write(os.path.join(folder, name), unescaped(text))
        ended = lab(*line.split(), "--color", "always", folder=folder)
    return (int(status), unescaped(out), unescaped(err)), (ended.status, ended.out, ended.err)


# commands whose lines for people have colours, and those of which nothing that is printed has one
FOR_PEOPLE = [["view", "lock.asm", "--seed", "1"], ["view", "philosophers.asm", "--seed", "3", "--columns"],
              ["compare", "lock.asm", "--seeds", "3", "8"], ["survey", "philosophers.asm", "--seeds", "30"],
              ["explore", "lock.asm"], ["check", "count.asm"], ["check", "grading/submissions/misspelt.asm"]]
FOR_PROGRAMS = [["view", "lock.asm", "--json"], ["survey", "lock.asm", "--seeds", "9", "--json"], ["explore", "lock.asm", "--json"],
                ["check", "count.asm", "--json"], ["compare", "lock.asm", "--seeds", "3", "8", "--json"],
                ["schedule", "fair", "lock.asm"], ["explain", "full"], ["word", "0x28000"], ["fmt", "-"],
                *(["grade", "--expect", "grading/wanted.expect", "grading/submissions/locked.asm", "--format", name]
                  for name in ("tsv", "json", "junit", "gradescope", "moodle"))]
QUIT = b"        .entry 0\n        .data 0\n        QUIT                    ; right\n"


@checks.others("lab/colours")
def colours():
    """Without its colours a text is what it is by --color never, which has none, as what no terminal reads."""
    for words in FOR_PEOPLE:
        bare, bright = lab(*words, "--color", "never", folder=EXAMPLES), lab(*words, "--color", "always", folder=EXAMPLES)
        usual = lab(*words, folder=EXAMPLES)
        yield (f"{words}", (bare.status, bare.out, bare.err, True),
               (bright.status, COLOUR.sub(b"", bright.out), COLOUR.sub(b"", bright.err), bright.out + bright.err != bare.out + bare.err))
        yield f"{words}, usual", (bare.out, bare.err, False), (usual.out, usual.err, b"\x1b" in bare.out + bare.err)
    for words in FOR_PROGRAMS:
        bare, bright = (lab(*it, given=QUIT, folder=EXAMPLES) for it in (words, with_colours(words)))
        yield f"{words}", bare.out, bright.out
    yield "debug", (True, True), debugger_is_the_same()
    yield "a file", True, page_is_the_same()
    for path in sorted(glob.glob(os.path.join(table.CASES, "lab_check/*.asm"))):
        bare, bright = lab("check", path), lab("check", path, "--color=always")
        yield os.path.basename(path), bare.err, COLOUR.sub(b"", bright.err)
    yield "a terminal", True, b"\x1b[32m" in on_terminal({})
    yield "a terminal, NO_COLOR", False, b"\x1b" in on_terminal({"NO_COLOR": "1"})
    yield "a terminal, NO_COLOR empty", True, b"\x1b[32m" in on_terminal({"NO_COLOR": ""})
    yield "a terminal, TERM dumb", False, b"\x1b" in on_terminal({"TERM": "dumb"})
    yield "a terminal, no TERM", False, b"\x1b" in on_terminal({"TERM": None})
    yield "a terminal, TERM empty", False, b"\x1b" in on_terminal({"TERM": ""})
    yield "a terminal in Emacs", False, b"\x1b" in on_terminal({"INSIDE_EMACS": "29.4,comint"})
    yield "a terminal, TERM dumb, --color always", True, b"\x1b[32m" in on_terminal({"TERM": "dumb"}, "--color", "always")
    yield "a terminal in Emacs, --color always", True, b"\x1b[32m" in on_terminal({"INSIDE_EMACS": "vterm"}, "--color", "always")
    yield "a terminal, --color never", False, b"\x1b" in on_terminal({}, "--color", "never")
    yield "a terminal, NO_COLOR, --color always", True, b"\x1b[32m" in on_terminal({"NO_COLOR": "1"}, "--color", "always")
    yield "no such word", 2, lab("view", "lock.asm", "--color", "red", folder=EXAMPLES).status


def with_colours(words):
    """A command line with the option at its end; that of `word` before its words, after which nothing is an option."""
    place = 1 if words[0] == "word" else len(words)
    return [*words[:place], "--color", "always", *words[place:]]


def debugger_is_the_same():
    """Whether a session in colours is the same without them, and whether it has some."""
    bare, bright = (lab("debug", "lock.asm", "--color", when, given=b"continue\n", folder=EXAMPLES).out for when in ("never", "always"))
    return COLOUR.sub(b"", bright) == bare, bright != bare


def page_is_the_same():
    with tempfile.TemporaryDirectory(prefix="mta-case-") as folder:
        tool.write(os.path.join(folder, "a.asm"), QUIT)
        for name, when in ("one", "never"), ("other", "always"):
            lab("page", "a.asm", "--out", name, "--color", when, folder=folder)
        return tool.read(os.path.join(folder, "one")) == tool.read(os.path.join(folder, "other"))


def on_terminal(environment, *words):
    """What `view` prints where its standard output is a terminal, by these variables; None takes one away."""
    wanted = {**os.environ, "NO_COLOR": None, "INSIDE_EMACS": None, "TERM": "xterm", **environment}
    variables = {name: value for name, value in wanted.items() if value is not None}
    child, terminal = pty.fork()
    if child == 0:
        os.chdir(EXAMPLES)
        os.execve(tool.LAB, [tool.LAB, "view", "lock.asm", "--seed", "1", *words], variables)
    printed = b""
    while True:
        try:
            piece = os.read(terminal, 65536)
        except OSError:
            break
        if not piece:
            break
        printed += piece
    os.waitpid(child, 0)
    os.close(terminal)
    return printed
