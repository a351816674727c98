"""Findings: runs that were worked out by hand, programs in whose runs nothing may be found, and runs of random programs
beside a second reading of the definitions."""

import json
import os
import random

import checks
import run_findings
import tool
from of_lab import lab
from of_pages import run_in
from table import unescaped

KINDS = (b"lost ", b"torn ", b"unread ")
# how many random schedules each guarded program runs by, and the longest of them
SCHEDULES, LONGEST = 200, "600"
# how many random programs there are, by how many schedules each of them runs, and the longest of these
PROGRAMS, RUNS, STEPS = 60, 5, "120"
WORDS = 2
# what a processor of such a program does: all operations, mostly reads, or mostly writes
MIXES = (
    ["LOAD"] * 14 + ["STORE"] * 12 + ["FADD"] * 4 + ["TAGGET", "TAGSET", "PURGE"],
    ["LOAD"] * 14 + ["STORE", "FADD"],
    ["STORE"] * 14 + ["LOAD", "FADD"],
)


def told(source, *words):
    """The findings that are told of a run, a line each."""
    lines = lab("view", source, *words).out.split(b"\n")
    return b"".join(line + b"\n" for line in lines if line.startswith(KINDS))


@checks.each("lab/findings.tsv")
def by_hand(fields):
    """What is found in a run that was worked out by hand."""
    _, source, schedule, found = fields
    with tool.made_files(source=unescaped(source), schedule=unescaped(schedule)) as paths:
        return unescaped(found), told(paths["source"], paths["schedule"])


@checks.each("lab/guarded.tsv")
def guarded(fields):
    """Where all words are guarded nothing is found, whatever the schedule."""
    with tool.made_files(source=unescaped(fields[1])) as paths:
        found = [(seed, told(paths["source"], "--seed", str(seed), "--steps", LONGEST)) for seed in range(SCHEDULES)]
    return [], [it for it in found if it[1]]


@checks.others("lab/findings_read_again")
def read_again():
    """Of random programs the same is found by a second reading."""
    for number in range(PROGRAMS):
        yield f"program {number}", lambda number=number: pairs_of(number, range(RUNS))


def pairs_of(number, seeds):
    """The findings of a random program by these seeds, as they are read a second time, and as they are told."""
    wanted, got = [], []
    with tool.made_files(source=random_source(random.Random(number)).encode(), page=None) as paths:
        for seed in seeds:
            ended = lab("page", paths["source"], "--seed", str(seed), "--steps", STEPS, "--out", paths["page"])
            if ended.status not in (0, 3, 4, 5):
                raise ValueError(ended.err.decode())
            run = run_in(tool.read(paths["page"]).decode())
            wanted.append(run_findings.findings(run["start"], run["program"], run["steps"]))
            got.append(run["findings"])
            os.remove(paths["page"])
    return [in_order(found) for found in wanted], [in_order(found) for found in got]


def in_order(found):
    return sorted(json.dumps(it, sort_keys=True) for it in found)


def random_source(rng):
    """A program of two or three processors that read, compute and write a few words in a loop."""
    count = rng.choice((2, 2, 3))
    lines = [".profile 2", *(f".entry go{p}" for p in range(count))]
    lines += [f".data {rng.randrange(3)}, {rng.choice((0, 1, 1, 1, 1, 1))}" for _ in range(WORDS)]
    for p in range(count):
        operations = rng.choice(MIXES)
        lines += [f"go{p}: LIT r7, {rng.randrange(3, 7)}", *(f"LIT r{r}, {rng.randrange(50)}" for r in (1, 2, 3))]
        lines += [f"more{p}: NOP"]
        lines += [random_word(rng, operations) for _ in range(rng.randrange(3, 9))]
        lines += ["SUB.T r7, r7, 1", f"SKIP NE, 0, more{p}", "QUIT"]
    return "".join(line + "\n" if line[0].islower() else f" {line}\n" for line in lines)


def random_word(rng, operations):
    """A program word with one, two or three operations, no two of which write one register."""
    while True:
        made = [memory_part(rng, operations)] if rng.random() < 0.75 else []
        made += [make(rng) for make, chance in ((arithmetic_part, 0.5), (control_part, 0.08)) if rng.random() < chance]
        written = [register for _, register in made if register]
        if made and len(set(written)) == len(written):
            return " | ".join(text for text, _ in made)


def memory_part(rng, operations):
    """One of these memory operations, and the register that it writes. Mostly it does not wait."""
    operation = rng.choice(operations)
    control = "" if operation in ("TAGGET", "TAGSET", "PURGE") else "." + rng.choice("NNNNNNNNNNNNNNFS")
    register = rng.randrange(1, 4)
    text = f"{operation}{control} r{register}, r0, {rng.randrange(WORDS)}"
    return text, register if operation in ("LOAD", "FADD", "TAGGET") else None


def arithmetic_part(rng):
    operation = rng.choice(("ADD", "ADD", "ADD", "SUB", "XOR", "LTU"))
    second = rng.choice((f"r{rng.randrange(4)}", str(rng.randrange(1, 32))))
    register = rng.randrange(1, 4)
    return f"{operation}{rng.choice(('', '.T'))} r{register}, r{rng.randrange(4)}, {second}", register


def control_part(rng):
    target, register = rng.randrange(1, 3), rng.randrange(1, 4)
    return rng.choice(((f"TSET t{target}, r{register}", None), (f"TGET r{register}, t{target}", register)))
