"""Transcripts: files NAME.case below tests/cases, each of which is one call of a program. In order a transcript has

- remarks, lines that begin with `#`: what the case shows, and where its expected values come from;
- `= example NAME` for each file of examples/ that the call finds in its folder, and `= file NAME` for each other one,
  with its text below;
- `$ WORDS`, the command line as a shell reads it, with all that it prints below;
- `= standard error` with what goes there, unless nothing does;
- `= leaves NAME` for each file that is compared afterwards, with its text below;
- `= status N`.

A text has all its bytes. It stands below the first line of its part, up to the next line that begins with `= ` or `$ `.
What can be seen stands for itself. A backslash begins what cannot: `\\t`, `\\r`, a byte as `\\xC3`; and `\\\\` is a
backslash. One at the end of a line says that the line is not over: the next one goes on with it, without the blanks
that it begins with. So a text whose last line ends that way has no end of line."""

import os
import re
import shlex

import table

ENDING = ".case"
PROGRAMS = ("mta_sim", "mta_lab")
# the parts of a transcript, in order; and the first line of each
ORDER = ("= example", "= file", "$", "= standard error", "= leaves", "= status")
FIRST = re.compile(r"(= example|= file|\$|= leaves|= status) (\S(?:.*\S)?)|(= standard error)")
WITH_TEXT = {"= file", "$", "= standard error", "= leaves"}
SPELT = re.compile(rb"\\(x[0-9A-F]{2}|.?)")
LETTERS = {b"": b"", b"\\": b"\\", b"t": b"\t", b"r": b"\r"}


class Text:
    """The bytes that lines of a file stand for, each line with its number, and from which byte on which line has them;
    the last of these is the line after them."""

    def __init__(self, numbered, after):
        self.data, self.begins = b"", []
        goes_on = False
        for number, line in numbered:
            self.begins.append((len(self.data), number))
            piece = line.lstrip(b" ") if goes_on else line
            goes_on = b"" in SPELT.findall(piece)
            self.data += read(number, piece) + (b"" if goes_on else b"\n")
        self.begins.append((len(self.data), after))

    def line_of(self, place):
        """From which byte on the line has them that has the byte at a place, and the number of the line."""
        return max(begin for begin in self.begins if begin[0] <= place)


class Part:
    """A part of a transcript: its kind, its name, the number of its first line, and its text."""

    def __init__(self, number, line, below, after):
        found = FIRST.fullmatch(line.decode())
        if not found:
            raise ValueError(f"line {number}: no part of a transcript begins so")
        self.kind, self.name, self.number = found[1] or found[3], found[2], number
        if below and self.kind not in WITH_TEXT:
            raise ValueError(f"line {number + 1}: there is no text below such a line")
        self.text = Text(below, after)


class Transcript:
    """A transcript, by its name below tests/cases."""

    def __init__(self, file):
        self.file = file
        with open(os.path.join(table.CASES, file), "rb") as opened:
            lines = opened.read().split(b"\n")
        if lines.pop() != b"":
            raise ValueError("its last line has no end")
        numbered = list(enumerate(lines, start=1))
        heads = [number for number, line in numbered if line.startswith((b"= ", b"$ "))]
        ends = [*heads[1:], len(lines) + 1]
        remarks = lines[:min(heads, default=1) - 1]
        if len(remarks) < 2 or not all(line.startswith(b"# ") for line in remarks):
            raise ValueError("it begins with remarks: what it shows, and where its expected values come from")
        self.parts = [Part(*numbered[head - 1], numbered[head:end - 1], end) for head, end in zip(heads, ends)]
        kinds = [part.kind for part in self.parts]
        if kinds != sorted(kinds, key=ORDER.index) or [kinds.count(kind) for kind in ("$", "= status")] != [1, 1]:
            raise ValueError("its parts are in another order, or it has not one command and one status")
        self.words = shlex.split(self.of("$")[0].name)
        if self.words[0] not in PROGRAMS:
            raise ValueError(f"line {self.of('$')[0].number}: a command line begins with one of {PROGRAMS}")
        self.status = int(self.of("= status")[0].name)

    def of(self, kind):
        """The parts of a kind."""
        return [part for part in self.parts if part.kind == kind]

    def place(self, number):
        """A line of it, as cases are named."""
        return f"tests/cases/{self.file}:{number}"


def read(number, line):
    """The bytes that a line of a text stands for, or a part of one."""
    if not is_seen(line):
        raise ValueError(f"line {number}: a blank at its end, or a byte that cannot be seen")
    return SPELT.sub(lambda found: meaning(number, found[1]), line)


def is_seen(line):
    """Whether all of a line can be seen."""
    try:
        return line.decode().isprintable() and not line.endswith(b" ")
    except UnicodeDecodeError:
        return False


def meaning(number, spelt):
    """The bytes for what is spelt after a backslash."""
    if spelt in LETTERS:
        return LETTERS[spelt]
    if len(spelt) == 3:
        return bytes.fromhex(spelt[1:].decode())
    raise ValueError(f"line {number}: nothing is spelt by a backslash and {spelt.decode('utf-8', 'replace')}")


def files():
    """All transcripts below tests/cases, by their names there, in order."""
    found = []
    for at, _, names in os.walk(table.CASES):
        found += [os.path.relpath(os.path.join(at, name), table.CASES) for name in names if name.endswith(ENDING)]
    return sorted(found)
