"""What a file of expectations requires, by docs/LAB_REFERENCE.md ("Files of expectations", "Claims", "Rules of programs"):
lines about ends and claims, as tests/spaces has them, and rules of programs. Of the forms that are there these are read: `word`,
`sum` and `finished`; claims on one word or on two; all rules."""

import os
import re
import sys
from typing import NamedTuple

HERE = os.path.dirname(os.path.abspath(__file__))
sys.path.append(os.path.join(HERE, "../spaces"))

import expectations  # noqa: E402


class NotJudged(Exception):
    """A line speaks of a name that the program does not have, or a claim of a word that it does not have."""


class Rule(NamedTuple):
    """A line about the program itself."""

    form: str
    operands: tuple


class Required(NamedTuple):
    """What is required of ends, of the worlds on the way, and of the program."""

    ends: tuple
    claims: tuple
    rules: tuple

    def spoken(self):
        """The words of which each line about ends and each claim speaks, one after the other."""
        return [words_of(line.form, line.operands) for line in (*self.ends, *self.claims)]

    def of_scope(self, *scopes):
        """The claims that begin with one of these words."""
        return [claim for claim in self.claims if claim.scope in scopes]


def words_of(form, operands):
    """The words of which a line of a form speaks."""
    if form == "finished":
        return []
    if form == "beside":
        return [operands[0], operands[2]]
    return list(range(operands[0], operands[1] + 1)) if form == "sum" else [operands[0]]


def read(text, names, words):
    """What a file requires of a program that has so many data words, some of them with names."""
    lines = [" ".join(line.partition("#")[0].split()) for line in text.splitlines()]
    found = [line_of(line, Words(names, words)) for line in lines if line]
    return Required(*(tuple(one for one in found if isinstance(one, kind))
                      for kind in (expectations.Expectation, expectations.Claim, Rule)))


class Words(NamedTuple):
    """The words of a program: their names, and how many there are."""

    names: dict
    count: int

    def at(self, address):
        """The index of the word at an address: a number, a name, or a name with `+N`, perhaps in brackets."""
        address = address.strip("[]")
        if address[0].isdigit():
            return int(address, 0) // 8
        name, _, further = address.partition("+")
        if name not in self.names:
            raise NotJudged(address)
        return self.names[name] + int(further or "0")

    def of_program(self, address):
        """The same of a word that the program has to have."""
        if self.at(address) >= self.count:
            raise NotJudged(address)
        return self.at(address)


def line_of(line, words):
    """What a line says."""
    match line.split():
        case ["word", address, value, *state]:
            return expectations.Expectation(line, "word", (words.at(address), number(value), "".join(state)))
        case ["sum", both, value]:
            first, last = both.split("..")
            return expectations.Expectation(line, "sum", (words.at(first), words.at(last), number(value)))
        case ["finished"]:
            return expectations.Expectation(line, "finished", ())
        case [("always" | "never" | "some") as scope, "word", address, ("full" | "empty") as state]:
            return expectations.Claim(line, scope, state, (words.of_program(address), 0, False))
        case [("always" | "never" | "some") as scope, "word", address, ("is" | "above" | "below") as form, value]:
            is_signed = form != "is" and value[0] in "+-"
            value = int(value, 0) if is_signed else number(value)
            return expectations.Claim(line, scope, form, (words.of_program(address), value, is_signed))
        case [("always" | "never" | "some") as scope, "word", one, ("is" | "above" | "below") as form, "word", other, *rest]:
            is_signed = rest[-1:] == ["signed"]
            more = number(rest[1]) if rest[:1] == ["+"] else 0
            operands = (words.of_program(one), form, words.of_program(other), more, is_signed)
            return expectations.Claim(line, scope, "beside", operands)
        case ["entries", count]:
            return Rule("entries", (int(count),))
        case ["at", "most", count, "words"]:
            return Rule("at most", (int(count),))
        case [("forbid" | "require") as form, *operations]:
            return Rule(form, tuple(operations))
    raise ValueError(line)


def number(text):
    """A number of 64 bits."""
    return int(text, 0) % 2**64


def is_kept(rule, program):
    """Whether a program is as a rule says."""
    spelt = {part[0] for word in program.words for part in word if part}
    return {
        "entries": lambda count: len(program.entries) == count,
        "at most": lambda most: len(program.words) <= most,
        "forbid": lambda *operations: not spelt & set(operations),
        "require": lambda *operations: spelt >= set(operations),
    }[rule.form](*rule.operands)


NAME = re.compile(r"[A-Za-z_]\w{0,31}", re.ASCII)


class DataLine(NamedTuple):
    """A line of data: its name, if it has one, the first word that it adds, and how many it adds."""

    name: str
    first: int
    count: int


def data_lines(text):
    """The lines of data of a text, by "Names of data words"; a name that stands on two of them, or that is the label of
    another line, is none."""
    found, labels, words = [], [], 0
    for line in text.splitlines():
        line, _, comment = line.partition(";")
        label, colon, rest = line.rpartition(":")
        directive, _, operands = rest.strip().partition(" ")
        if directive not in (".data", ".fill"):
            labels += [label.strip()] if colon else []
            continue
        count = int(operands.split(",")[0], 0) if directive == ".fill" else 1
        found.append(DataLine(label.strip() or name_in(comment.strip()), words, count))
        words += count
    names = [line.name for line in found] + labels
    return [line if names.count(line.name) == 1 else line._replace(name=None) for line in found]


def name_in(comment):
    """The name in a comment of a line of data: it is one name, or begins with a name and a colon."""
    name = comment.partition(":")[0]
    return name if NAME.fullmatch(name) else None


def names_of(lines):
    """The word of each name of some lines of data."""
    return {line.name: line.first for line in lines if line.name}
