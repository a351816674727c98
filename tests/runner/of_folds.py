"""Loops that `view` folds: unfolded by their numbers they are the lines of `view --all`, and each step that the end or a
finding names has a line of its own."""

import glob
import os
import re

import checks
from of_lab import EXAMPLES, lab

FOLD = re.compile(r"(?:steps|of the steps shown,) (\d+) to (\d+): as (?:(\d+) to )?(\d+), (\d+) times")
LINE = re.compile(r" *(\d+)  (.*)")
NAMED = re.compile(r"\bstep (\d+)")
FEWEST_TIMES, LONGEST_LOOP = 3, 128
# a stream that turns for ever, one that waits for ever, and one that counts
SPINS = b""" .entry spin
 .entry wait
 .entry count
 .data 0, 0
 .data 0
spin: LOAD.N r1, r0, 1
 SKIP ALWAYS, 0, spin
wait: LOAD.S r1, r0, 0
 QUIT
count: ADD r1, r1, 1
 SKIP ALWAYS, 0, count
"""
OPTIONS = ([], ["--columns"], ["--only", "1.0"], ["--word", "8"], ["--from", "7"], ["--from", "5", "--to", "300"], ["--hex"])


def lines_of(*words):
    """The lines of the steps, and those below them. The program - is the one that turns for ever."""
    _, *lines = lab("view", *words, given=SPINS).out.decode().splitlines()
    behind = next(place for place, line in enumerate(lines) if line.startswith("after "))
    return lines[:behind], lines[behind:]


def numbered(line):
    number, text = LINE.fullmatch(line).groups()
    return int(number), text


def unfolded(lines, each):
    """What the lines stand for, beside the lines of each step; or in what a fold is not right."""
    found, shown = [], 0
    for line in lines:
        fold = FOLD.fullmatch(line)
        if not fold:
            found.append(numbered(line))
            continue
        first, last, begin, end, times = [it and int(it) for it in fold.groups()]
        loop = [it for it in found[shown:] if (begin or end) <= it[0] <= end]
        behind = each[len(found):len(found) + len(loop) * times]
        if loop != found[-len(loop):] or (first, last) != (behind[0][0], behind[-1][0]):
            return f"{line}: not the lines above it, or other numbers"
        if times < FEWEST_TIMES or len(loop) > LONGEST_LOOP:
            return f"{line}: too few times, or too long a loop"
        found += [(number, text) for (number, _), (_, text) in zip(behind, loop * times)]
        shown = len(found)
    return found


def agrees(*words):
    """Whether the folded lines stand for each step; and the steps that are named and have no line."""
    lines, below = lines_of(*words)
    all_lines, all_below = lines_of(*words, "--all")
    each = [numbered(line) for line in all_lines]
    own = {numbered(line)[0] for line in lines if not FOLD.fullmatch(line)}
    named = {int(it) for line in below for it in NAMED.findall(line)} & {number for number, _ in each}
    return (each, all_below, set()), (unfolded(lines, each), below, named - own)


@checks.others("lab/folds")
def folds():
    """Each example and a program that turns for ever, by each rule of seeds and in turn."""
    lines, _ = lines_of("-", "--only", "0.0", "--steps", "3000")
    yield "a loop is folded", ("of the steps shown, 7 to 2998: as 1 to 4, 499 times", 3), (lines[2], len(lines))
    for source in [*sorted(glob.glob(os.path.join(EXAMPLES, "*.asm"))), "-"]:
        for run in (["--fair"], ["--seed", "0"], ["--seed", "1"]):
            for option in OPTIONS if source == "-" else OPTIONS[:1]:
                words = [source, *run, "--steps", "500", *option]
                yield " ".join(words), (lambda words=words: agrees(*words))
