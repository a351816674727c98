"""Slips of one line, each with what `check` has to say of it, how to mend it, and the text after its first fix; and that it
says nothing of programs that are right, those on the pages of `explain` among them."""

import glob
import json
import os
import re
import tempfile

import checks
import table
import tool
from of_lab import lab, unescaped

# what the programs of the table are made of: the line of a number takes the place of the one here
BASES = {
    "count": [" .slim 1", " .entry start", " .data 0 ; the count", " .data 5 ; the limit", "start: LIT r1, 1",
              "again: ADD r1, r1, 1", " SUB.T r0, r1, 10", " SKIP NE, 0, again", " STORE.N r1, r0, 0", " QUIT"],
    "box": [" .slim 1", " .entry put", " .entry take", " .data 0, 0 ; the box, empty", " .data 0 ; what was taken",
            "put: LIT r1, 7", " STORE.S r1, r0, 0", " QUIT", "take: LOAD.S r2, r0, 0", " STORE.N r2, r0, 1", " QUIT"],
}

# a trap handler that t0 leads to makes the code that a SKIP behind the trap asks, and mends the address
HANDLER = b""" .slim 1
 .entry start
 .data 0
mend: LIT r2, 0
 SUB.T r0, r2, 0
 JUMP ALWAYS, 0, t0
start: TLIT t0, mend
 LIT r2, 4
 LOAD.N r1, r2, 0
 SKIP EQ, 0, done
 STORE.N r2, r0, 0
done: QUIT
"""

# a word that forwards to an empty one, which is so filled
FORWARDS = b""" .slim 1
 .entry fill
 .entry take
 .data 16
 .data 0
 .data 0, 0
fill: LIT r1, 3
 TAGSET r1, r0, 0
 LIT r2, 7
 STORE.N r2, r0, 0
 QUIT
take: LOAD.S r3, r0, 2
 STORE.N r3, r0, 1
 QUIT
"""


def program(base, changes):
    """The base's text, with each `NUMBER TEXT` of the changes, apart by ` / `, in place of a line."""
    return changed(BASES[base], changes)


def changed(lines, changes):
    """A text of lines, with each `NUMBER TEXT` of the changes in place of a line, or behind the last one."""
    lines = dict(enumerate(lines, 1))
    for change in changes.split(" / ") if changes else []:
        number, _, text = change.partition(" ")
        lines[int(number)] = text
    return unescaped("\n".join(lines.values()) + "\n")


def mended(text, fix):
    """A text after the edits of a fix, which are in their order."""
    starts = [0]
    for line in text.split(b"\n"):
        starts.append(starts[-1] + len(line) + 1)
    for edit in reversed(fix["edits"]):
        start = starts[edit["line"] - 1] + edit["column"] - 1
        text = text[:start] + edit["text"].encode() + text[start + edit["width"]:]
    return text


def said(text):
    """Each message about a text: its line and column, words and help."""
    with tempfile.TemporaryDirectory(prefix="mta-case-") as folder:
        tool.write(os.path.join(folder, "s.asm"), text)
        lines = lab("check", "s.asm", folder=folder).err.decode().splitlines()
    found = []
    for line in lines:
        if line.startswith("s.asm:"):
            found.append([line.removeprefix("s.asm:"), ""])
        elif line.startswith("      | ") and found:
            found[-1][1] = line[8:].lstrip(" \t^")
    return found


@checks.each("lab_check/slips.tsv")
def slips(fields):
    """The message that has to be among those about a program with the slip, and the text after its first fix."""
    _, base, changes, words, cure, lines = fields
    text = program(base, changes)
    wanted = None if lines == "-" else changed(text.decode().splitlines(), lines)
    found = said(text)
    for told, it in zip(found, messages(text)):
        if told[0] == words:
            return [words, cure, wanted], [*told, mended(text, it["fixes"][0]) if it["fixes"] else None]
    return [words, cure, wanted], found


@checks.each("lab_check/warned.tsv")
def warned(fields):
    """All messages about a text, each by its line and its number."""
    _, text, wanted = fields
    told = [(it["line"], it["number"], it["severity"]) for it in messages(unescaped(text))]
    found = ", ".join(f"{line} {'E' * (severity == 'error')}{number}" for line, number, severity in told)
    return wanted, found or "-"


@checks.others("lab/no_slips")
def no_slips():
    """Nothing new is said of the examples, of right programs, and of those on the pages of explain."""
    rows = table.rows("lab_check/slips.tsv")
    yield "slips are many", True, len(rows) >= 75
    yield "and many have a fix", True, sum(row.fields[5] != "-" for row in rows) >= 100
    for base in BASES:
        yield f"base {base}", [], said(program(base, ""))
    yield "a handler in t0", [], said(HANDLER)
    yield "a word that forwards", [], said(FORWARDS)
    for path in sorted(glob.glob(os.path.join(table.ROOT, "examples/*.asm"))):
        # (one half of count.asm is a slip, which its text says)
        wanted = 1 if os.path.basename(path) == "count.asm" else 0
        yield os.path.basename(path), wanted, len(said(tool.read(path)))
    for path in right_submissions():
        found = [words for words, _ in said(tool.read(path)) if "not ASCII" not in words]
        yield os.path.relpath(path, table.ROOT), [], found


def right_submissions():
    """Those of the class that are right by every seed."""
    for line in tool.read(os.path.join(table.ROOT, "tests/class/wanted.tsv")).decode().splitlines():
        task, name, verdict = (line.split("\t") + ["", ""])[:3]
        path = os.path.join(table.ROOT, "tests/class", task, "submissions", name)
        if verdict == "right" and name.endswith(".asm") and os.path.isfile(path):
            yield path


def examples_of_pages():
    """The name of each page that has an example, and that program."""
    for path in sorted(glob.glob(os.path.join(table.ROOT, "docs/words/*.txt"))):
        name, lines = None, []
        for line in [*tool.read(path).decode().splitlines(), "= "]:
            if line.startswith("= "):
                if lines:
                    yield name, "\n".join(lines) + "\n"
                name, lines = line[2:].split(" ")[0], []
            elif line.startswith(">"):
                lines.append(line[1:])


@checks.others("lab/pages_of_explain")
def pages():
    """Each page is printed with its example, which is right and comes to its end."""
    for name, text in examples_of_pages():
        printed = lab("explain", name)
        shown = "".join(f"   {line}\n" for line in text.splitlines())
        yield f"explain {name}", (0, True), (printed.status, shown in printed.out.decode())
        yield f"check {name}", [], said(text.encode())
        with tempfile.TemporaryDirectory(prefix="mta-case-") as folder:
            tool.write(os.path.join(folder, "s.asm"), text.encode())
            yield f"view {name}", True, lab("view", "s.asm", folder=folder).status in (0, 3)


@checks.others("lab/numbers_of_messages")
def numbers():
    """The least number of the errors on the line that mta_sim refuses is the kind that it says; each number has a page, and
    each page of a warning a case; 114 has its own in of_names.py."""
    texts = {f"{row}": program(row.fields[1], row.fields[2]) for row in table.rows("lab_check/slips.tsv")}
    texts |= {f"{row}": unescaped(row.fields[1]) for row in table.rows("lab_check/sentences.tsv") if row.fields[0] == "wrong.asm"}
    texts |= {os.path.basename(path): tool.read(path) for path in glob.glob(os.path.join(table.CASES, "lab_check/*.asm"))}
    numbers = set()
    for name, text in texts.items():
        found = messages(text)
        numbers |= {it["number"] for it in found}
        refused = re.fullmatch(rb"!source line (\d+) fault (\d+)", tool.asm(text))
        if refused and text.isascii():
            line, kind = map(int, refused.groups())
            yield name, kind, min(it["number"] for it in found if is_about(it, line))
    for number in numbers:
        page = f"E{number}" if number < 100 else f"{number}"
        yield f"page {page}", 0, lab("explain", page).status
    yield "warnings", {*range(101, 117)} - {114}, {it for it in numbers if it > 100}


def is_about(message, line):
    """Whether a message tells an error of a line, or for 0 of the text as a whole."""
    is_whole = message["message"].startswith("the text has no ")
    return message["severity"] == "error" and (is_whole if line == 0 else message["line"] == line and not is_whole)


def messages(text):
    """The objects of the messages about a text."""
    with tempfile.TemporaryDirectory(prefix="mta-case-") as folder:
        tool.write(os.path.join(folder, "s.asm"), text)
        return [json.loads(line) for line in lab("check", "--json", "s.asm", folder=folder).out.splitlines()]
