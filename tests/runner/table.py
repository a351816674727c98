"""Tables of cases: files below tests/cases whose lines are cases, their fields separated by tabs. A line that begins
with `#` is a remark; the first one names the columns and says where the expected values come from."""

import os
import re

ROOT = os.path.dirname(os.path.dirname(os.path.dirname(os.path.abspath(__file__))))
CASES = os.path.join(ROOT, "tests/cases")
ESCAPE = re.compile(r"\\(?:([ntr])|x([0-9A-F]{2})|<(\d+)\*(.*?)\\>)", re.DOTALL)
LETTERS = {"n": b"\n", "t": b"\t", "r": b"\r"}


class Row:
    """A case: its file, below tests/cases, its line, counted from 1, and its fields."""

    def __init__(self, file, line, fields):
        self.file, self.line, self.fields = file, line, fields

    def __str__(self):
        return f"tests/cases/{self.file}:{self.line}"


def rows(file):
    """The cases of a table, in order."""
    with open(os.path.join(CASES, file), encoding="utf-8", newline="\n") as table:
        lines = table.read().split("\n")
    numbered = enumerate(lines, start=1)
    return [Row(file, number, line.split("\t")) for number, line in numbered if line and not line.startswith("#")]


def unescaped(field):
    """The bytes of a field. A backslash begins what a line can't have, or what is too long for it: `\\n`, `\\t` and
    `\\r`, a byte as `\\xC3`, and a piece so many times as `\\<16*NOP\\n\\>`."""
    def meaning(found):
        letter, byte, times, piece = found.groups()
        if letter:
            return LETTERS[letter]
        return bytes.fromhex(byte) if byte else int(times) * unescaped(piece)

    parts, end = [], 0
    for found in ESCAPE.finditer(field):
        parts += [field[end:found.start()].encode(), meaning(found)]
        end = found.end()
    return b"".join([*parts, field[end:].encode()])
