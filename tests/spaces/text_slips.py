#!/usr/bin/env python3
"""Random texts with slips that a line shows by itself, or two lines by their names: what `mta_lab check` warns about, beside a
second reading of docs/LAB_REFERENCE.md ("Checks", "Names of data words"). Lines of data have labels (102), comments have
letters that are not ASCII (106), are names that two lines have (114), or are statements (115); some texts have an error too.
Each such warning has to be there, and no other one; and all messages are in the order of their lines, those of names last.
What the programs do is compared by slips.py. A difference is told with its seed and its text. Needs Python 3.

  text_slips [--programs N] [--first SEED] [--jobs N] [--program PATH]

There are 2,000 texts from seed 0 on, by the program that is built here; with PROGRAM=draft in the environment that is the
draft."""

import sys

sys.dont_write_bytecode = True

import argparse
import collections
import concurrent.futures
import json
import os
import random
import re
import subprocess
from typing import NamedTuple

import slip_programs

ROOT = os.path.dirname(os.path.dirname(os.path.dirname(os.path.abspath(__file__))))
sys.path.append(os.path.join(ROOT, "tests"))
import built

# after so many seconds a call has failed; how many differences are printed; how often each warning comes at least, in 2,000
# texts
PATIENCE, SHOWN, LEAST = 60, 20, 300
TRIED = (102, 106, 114, 115)
# names for data, some of which are names of operations too, or labels of code; the most letters of a name are 32
NAMES = ("total", "sum", "w0", "w1", "r1", "QUIT", "n" * 32)
# comments that are no name and no statement
WORDS = ("the sum so far", "word 1: the sum", "two words: here", "ADD numbers", "it ends: QUIT", "2nd", "a-b", "n" * 33,
         "LOAD and STORE it", "total, sum", "")
FOREIGN = ("Zähler", "die Zähler: alle", "→ the sum", "total: Zähler", "número")
STATEMENTS = ("QUIT", "LIT r2, 5", "x: ADD r1, r1, 1", ".data 5", "LOAD.N r1, r0, 0 | ADD r2, r2, 1", "SKIP ALWAYS, 0, w0",
              ".slim 1")
ERRORS = ("LODA r1, r2, 0", "ADD r1, r2", ".dat 5")
NAME = r"[A-Za-z_][A-Za-z0-9_]{0,31}"


class Line(NamedTuple):
    """A line of a text: its label, its statement and its comments, each with what it is."""

    label: str
    statement: str
    comments: tuple

    def text(self):
        parts = [f"{self.label}: " if self.label else " ", self.statement, *(f" ; {words}" for words, _ in self.comments)]
        return "".join(parts)

    def is_data(self):
        return self.statement.startswith((".data", ".fill"))

    def name(self):
        """The name of the words that it adds: its label, or its comment up to another semicolon, if that is a name or begins
        with one and a colon."""
        if not self.is_data() or not (self.label or self.comments):
            return None
        return self.label or (found := re.fullmatch(f"({NAME})(:.*)?", self.comments[0][0])) and found[1]


def made(chance):
    """The lines of a text, and whether it has an error."""
    given = slip_programs.made(chance).text.decode().splitlines()
    lines = [line_of(chance, text) for text in given]
    for _ in range(chance.randrange(5)):
        lines.insert(chance.randrange(len(lines) + 1), Line("", chance.choice((".data 0", ".fill 2, 0, 1")), comments(chance)))
    lines = [line._replace(label=f"d{at}") if line.is_data() and chance.random() < 0.15 else line
             for at, line in enumerate(lines)]
    lines.insert(chance.randrange(len(lines) + 1), Line("", "", comments(chance)))
    has_error = chance.random() < 0.25
    if has_error:
        lines.insert(chance.randrange(len(lines) + 1), Line("", chance.choice(ERRORS), ()))
    return lines, has_error


def line_of(chance, text):
    """A line of a program, with comments."""
    label, _, statement = text.rpartition(": ")
    return Line(label, statement, comments(chance))


def comments(chance):
    """No comment, one or two, each with what it is."""
    kinds = {"name": NAMES, "words": WORDS, "foreign": FOREIGN, "statement": STATEMENTS}
    found = []
    for _ in range(chance.choice((0, 0, 1, 1, 1, 2))):
        kind = chance.choices(tuple(kinds), (5, 5, 1, 2))[0]
        words = chance.choice(kinds[kind])
        is_told = kind == "name" and chance.random() < 0.3
        found.append((f"{words}: so far" if is_told else words, kind))
    return tuple(found)


def wanted(lines):
    """The warnings of a text, each as its number and its line."""
    found = set()
    foreign = [at for at, line in enumerate(lines, 1) if not line.text().isascii()]
    found |= {(106, at) for at in foreign[:1]}
    names = collections.Counter(filter(None, (line.name() for line in lines)))
    labels = collections.Counter(line.label for line in lines if line.label)
    for at, line in enumerate(lines, 1):
        if line.is_data() and line.label:
            found.add((102, at))
        if line.statement and line.comments and is_statement(line.comments[0]):
            found.add((115, at))
        name = line.name()
        if name and (names[name] > 1 or labels[name] > (line.label == name)):
            found.add((114, at))
    return found


def is_statement(comment):
    """Whether a comment is an instruction or a directive."""
    words, kind = comment
    return kind == "statement" or words == "QUIT"


def messages(text, mta_lab):
    """What check says of a text: the status, and the number, line, column and severity of each message."""
    ended = subprocess.run([mta_lab, "check", "--json", "-"], input=text, capture_output=True, timeout=PATIENCE, check=False)
    told = [json.loads(line) for line in ended.stdout.splitlines()]
    return ended.returncode, [(it["number"], it["line"], it["column"], it["severity"]) for it in told]


def differences(lines, has_error, status, told):
    """In what the messages differ from the rules."""
    found = {(number, line) for number, line, _, severity in told if severity == "warning" and number in TRIED}
    yield from (f"line {at}: no warning {number}" for number, at in sorted(wanted(lines) - found))
    yield from (f"line {at}: a warning {number}" for number, at in sorted(found - wanted(lines)))
    order = [(number == 114 and severity == "warning", line, column) for number, line, column, severity in told]
    if order != sorted(order):
        yield f"the order of the messages: {told}"
    if (status == 1) != has_error or has_error != any(severity == "error" for *_, severity in told):
        yield f"status {status}, and {'an' if has_error else 'no'} error: {told}"


def tried(seed, mta_lab):
    """What differs of the text that a seed makes, the text, and how often each warning comes."""
    lines, has_error = made(random.Random(seed))
    text = "".join(line.text() + "\n" for line in lines)
    try:
        found = list(differences(lines, has_error, *messages(text.encode(), mta_lab)))
    except Exception as error:  # an answer that can't be read is one that differs
        found = [f"{type(error).__name__} {error}"]
    return seed, found, text, collections.Counter(number for number, _ in wanted(lines))


def main():
    asked = argparse.ArgumentParser(description=__doc__.partition("\n\n")[0])
    asked.add_argument("--programs", type=int, default=2000, help="how many (2000)")
    asked.add_argument("--first", type=int, default=0, help="the first seed (0)")
    asked.add_argument("--program", help="the mta_lab that is tried")
    asked.add_argument("--jobs", type=int, default=os.cpu_count(), help="how many at a time (one a processor)")
    asked = asked.parse_args()
    asked.program = asked.program or built.path("mta_lab")
    seeds = range(asked.first, asked.first + asked.programs)
    wrong, counts = 0, collections.Counter()
    with concurrent.futures.ProcessPoolExecutor(asked.jobs) as pool:
        for seed, found, text, told in pool.map(tried, seeds, [asked.program] * len(seeds), chunksize=20):
            counts.update(told)
            wrong += bool(found)
            if found and wrong <= SHOWN:
                print(f"seed {seed}:\n{text}" + "".join(f"not so: {what}\n" for what in found), flush=True)
    rare = [number for number in TRIED if counts[number] * 2000 < LEAST * len(seeds)]
    print("warnings: " + ", ".join(f"{number} {counts[number]}" for number in sorted(counts)))
    print("".join(f"not so: {number} comes {counts[number]} times: too few to try it\n" for number in rare), end="")
    print(f"{len(seeds) - wrong} passed, {wrong + len(rare)} failed")
    sys.exit(1 if wrong or rare else 0)


if __name__ == "__main__":
    main()
