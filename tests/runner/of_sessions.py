"""Sessions of the debugger."""

import os

import checks
import table
import talks
import tool
from table import unescaped

FOLDER = os.path.join(table.CASES, "debug")
COUNTDOWN, LENGTH = os.path.join(FOLDER, "countdown.asm"), 405


def ended(source, schedule, commands):
    """The answers of a session, and behind a `!` the fault that it ends with."""
    session = tool.session(tool.asm(source), schedule, commands)
    if (session.status, session.err) == (0, b""):
        return session.out
    return session.out + b"!" + session.err if session.status == 1 else b"status %d" % session.status


@checks.each("debug/sessions.tsv")
def is_answered(fields):
    source, schedule, commands, answers, fault = map(unescaped, fields)
    end = b"!mta_sim: " + fault + b"\n" if fault else b""
    return answers + end, ended(source, schedule, commands)


@checks.each("debug/transcripts.tsv")
def is_transcript(fields):
    source = tool.read(os.path.join(FOLDER, fields[1])) if fields[1].endswith(".asm") else unescaped(fields[1])
    lines = [line + b"\n" for line in unescaped(fields[3]).split(b"\n")[:-1]]
    commands = [line.removeprefix(b"> ") for line in lines if line.startswith(b"> ")]
    answers = [line for line in lines if not line.startswith(b"> ")]
    return b"".join(answers), ended(source, unescaped(fields[2]), b"".join(commands))


def next_of(position):
    """Where `c` goes from a position of the countdown, with stops at 299 and 300."""
    return (299, "stop") if position < 299 else (300, "stop") if position < 300 else (LENGTH, "end")


def last_of(position):
    """Where `back` goes from there."""
    return (0, "start") if position < 300 else (299, "stop") if position < 301 else (300, "stop")


@checks.others("debug/turns")
def turns():
    """From each position of the countdown `back` and `c`, three in turn, with either first."""
    commands, answers = [b"b 0 3\n", b"wt 0\n"], [b"point 0\n", b"point 1\n"]
    for position in range(LENGTH + 1):
        for first in (True, False):
            commands.append(b"g %d\n" % position)
            answers.append(b"at %d moved\n" % position)
            here = position
            for is_back in (first, not first, first):
                here, why = last_of(here) if is_back else next_of(here)
                commands.append(b"back\n" if is_back else b"c\n")
                answers.append(f"at {here} {why}\n".encode())
    yield "turns", b"".join(answers), ended(tool.read(COUNTDOWN), b"0 0 400\n200 0 5\n", b"".join(commands))


@checks.others("debug/answers_at_once")
def answers_at_once():
    """Each answer is there before the next line is given."""
    with talks.talk(tool.asm(tool.read(COUNTDOWN)), b"0 0 400\n") as talk:
        answers = [talk.ask(line) for line in (b"s 1", b"x", b"g 400", b"back")]
    yield "answers", [b"at 1 moved\n", b"fault 1\n", b"at 400 moved\n", b"at 0 start\n"], answers
