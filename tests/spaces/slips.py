#!/usr/bin/env python3
"""Random programs with slips (slip_programs.py): what `mta_lab check` warns about, beside a second reading of its rules
(slip_rules.py), and beside all worlds of the program, which a machine of the tests' own finds (machine.py). What a warning
says of a word has to hold in each step that a stream takes there, in any schedule: that it traps, waits, asks no code, has
this pointer, is never reached, or never leaves its loop. A difference is told with its seed and its program. Needs Python 3.

  slips [--programs N] [--first SEED] [--jobs N] [--program PATH]

There are 2,000 programs from seed 0 on, by the program that is built here; with PROGRAM=draft in the environment that is
the draft."""

import sys

sys.dont_write_bytecode = True

import argparse
import collections
import concurrent.futures
import json
import os
import random
import re
import subprocess
import tempfile

import machine
import search
import slip_programs
import slip_rules

ROOT = os.path.dirname(os.path.dirname(os.path.dirname(os.path.abspath(__file__))))
sys.path.append(os.path.join(ROOT, "tests"))
import built

# after so many seconds a call has failed; how many differences are printed; how many worlds a program has at most, and how
# many programs a seed tries to find one that has fewer; how often each warning comes at least, in 2,000 programs
PATIENCE, SHOWN, MOST, TRIES, LEAST = 60, 20, 150, 200, 10
# the warnings that are tried here; the others are about texts alone, or about names
TRIED = (101, 103, 104, 105, 107, 108, 109, 110, 111, 112, 113, 116)
# (that nothing is said of a code but what is so is proved; which codes these are is more than a reading by words)
PROVED = 107
READS = ("LOAD", "TAGGET")
TRAPS = {"no multiple of 8": 5, "below 0": 6, "and the last data word is": 6, "no reference may use the pointer": 4}


class Step:
    """A step of a stream: it before and after, what became of it, and the worlds."""

    def __init__(self, program, world, p, s):
        self.world, self.p, self.s = world, p, s
        self.after, self.outcome = machine.step(program, world, p, s)
        self.stream, self.next = (of.processors[p].streams[s] for of in (world, self.after))

    def base(self, word):
        """What the base of a word's reference holds before the step."""
        return self.stream.registers[word.memory[3]]

    def code(self, number):
        """A condition code before the step, 0 for the newest."""
        return self.stream.ssw >> 32 + 4 * number & 15


def pc(stream):
    """The word at which a stream stands."""
    return stream.ssw % 2**32


class Case:
    """A program that a seed makes, its worlds, and the steps that streams take at each of its words."""

    def __init__(self, seed):
        chance = random.Random(seed)
        for _ in range(TRIES):
            self.made = slip_programs.made(chance)
            self.space = search.Space(self.made.program, (), MOST)
            if self.space.is_whole:
                break
        else:
            raise ValueError(f"seed {seed}: no program of {MOST} worlds or fewer")
        self.program = self.made.program
        self.steps = collections.defaultdict(list)
        for world in self.space.distance:
            for p, s in machine.running(world):
                self.steps[pc(world.processors[p].streams[s])].append(Step(self.program, world, p, s))

    def warnings(self, mta_lab):
        """The warnings of check, each with the index of its word."""
        with tempfile.TemporaryDirectory(prefix="mta-slip-") as folder:
            path = os.path.join(folder, "s.asm")
            with open(path, "wb") as file:
                file.write(self.made.text)
            ended = subprocess.run([mta_lab, "check", "--json", path], capture_output=True, timeout=PATIENCE, check=False)
        told = [json.loads(line) for line in ended.stdout.splitlines()]
        if ended.returncode or any(it["severity"] != "warning" for it in told):
            raise ValueError(f"status {ended.returncode}: {ended.stdout[:300]!r} {ended.stderr[:300]!r}")
        return [(it["number"], it["line"] - self.made.first, it["message"]) for it in told]

    def differences(self, warnings):
        """What warnings say that is not so."""
        places = {(number, at) for number, at, _ in warnings}
        told_by_rules = {place for place in places if place[0] != PROVED}
        wanted = slip_rules.Rules(self.program, self.made.labels).warnings()
        yield from (f"w{at}: no warning {number}, by the rules" for number, at in sorted(wanted - told_by_rules))
        yield from (f"w{at}: a warning {number}, not by the rules" for number, at in sorted(told_by_rules - wanted))
        for number, at, told in warnings:
            word, steps = self.program.words[at], self.steps[at]
            is_so = getattr(self, f"is_{number}")
            if not is_so(at, word, steps, told):
                yield f"w{at}: {told} ({number})"
            if number in (108, 109) and (110, at) in places:
                yield f"w{at}: {number} beside 110"

    # Of each warning whether it is so.

    def is_101(self, at, word, steps, told):
        return not steps

    def is_103(self, at, word, steps, told):
        return word.arithmetic[1] and word.control[0] in ("SKIP", "JUMP") and word.control[2] == 0

    def is_104(self, at, word, steps, told):
        base, label = re.search(r"r(\d+) holds the label w(\d+),", told).groups()
        return word.memory[3] == int(base) and steps_all(steps, lambda step: step.base(word) == int(label))

    def is_105(self, at, word, steps, told):
        control = {"future": 2, "sync": 3}[re.search(r"(\w+) control:", told)[1]]
        return word.memory[1] == "" and steps_all(steps, lambda step: step.base(word) >> 59 & 3 == control
                                                  and not step.outcome.endswith(" 4"))

    def is_107(self, at, word, steps, told):
        _, condition, number, _ = word.control
        return steps_all(steps, lambda step: step.code(number) == 0) and machine.holds(condition, 0) == ("always" in told)

    def is_108(self, at, word, steps, told):
        target = self.skipped(at, word)
        return at + 1 == len(self.program.words) or target == len(self.program.words)

    def is_109(self, at, word, steps, told):
        processor = int(re.search(r"processor (\d+)", told)[1])
        return self.program.entries[processor] == at + 1

    def is_110(self, at, word, steps, told):
        first = self.skipped(at, word)
        return all(self.stays(step, first, at) for step in steps if step.outcome == "done" and pc(step.next) == first)

    def is_111(self, at, word, steps, told):
        trap = next(trap for words, trap in TRAPS.items() if words in told)
        traps = (trap, machine.CREATE) if word.control and word.control[0] == "CREATE" else (trap,)
        return steps_all(steps, lambda step: step.outcome in [f"stopped {trap}" for trap in traps])

    def is_112(self, at, word, steps, told):
        return steps_all(steps, lambda step: step.outcome == "blocked")

    is_116 = is_112

    def is_113(self, at, word, steps, told):
        if word.wide:
            return word.wide[0] != "TLIT" and word.wide[1] == 0
        if "LOAD" in told or "tags" in told:
            return word.memory[0] in READS and word.memory[2] == 0 and steps_all(
                steps, lambda step: step.outcome != "blocked" and step.world.memory == step.after.memory)
        return word.arithmetic[2] == 0 and not word.arithmetic[1]

    def skipped(self, at, word):
        """Where the SKIP of a word leads; None where it has none."""
        return at + 1 + word.control[3] if word.control and word.control[0] == "SKIP" else None

    def stays(self, step, first, last):
        """Whether a stream stays at these words forever after a step."""
        for world in self.space.reached_from(step.after):
            stream = world.processors[step.p].streams[step.s]
            if stream.status != "running" or not first <= pc(stream) <= last:
                return False
        return True

    def waiting_words(self):
        """The words at which each step of each stream waits, and there is one, where no try is counted."""
        if self.program.retry:
            return []
        return [at for at, steps in self.steps.items() if steps and all(step.outcome == "blocked" for step in steps)]


def steps_all(steps, holds):
    """Whether something holds of all steps."""
    return all(map(holds, steps))


def tried(seed, mta_lab):
    """What differs of the program that a seed makes, with its text; how often each warning comes where streams come, how
    many words always wait, and how many of these are named."""
    try:
        case = Case(seed)
        warnings = case.warnings(mta_lab)
        found = list(case.differences(warnings))
    except Exception as error:  # an answer that can't be read is one that differs
        return seed, [f"{type(error).__name__} {error}"], "", collections.Counter(), 0, 0
    counts = collections.Counter(number for number, at, _ in warnings if case.steps[at] or number == 101)
    waiting = case.waiting_words()
    named = {at for number, at, _ in warnings if number in (112, 116)}
    return seed, found, case.made.text.decode(), counts, len(waiting), len(named.intersection(waiting))


def main():
    asked = argparse.ArgumentParser(description=__doc__.partition("\n\n")[0])
    asked.add_argument("--programs", type=int, default=2000, help="how many (2000)")
    asked.add_argument("--first", type=int, default=0, help="the first seed (0)")
    asked.add_argument("--program", help="the mta_lab that is tried")
    asked.add_argument("--jobs", type=int, default=os.cpu_count(), help="how many at a time (one a processor)")
    asked = asked.parse_args()
    asked.program = asked.program or built.path("mta_lab")
    seeds = range(asked.first, asked.first + asked.programs)
    wrong, waiting, named, counts = 0, 0, 0, collections.Counter()
    with concurrent.futures.ProcessPoolExecutor(asked.jobs) as pool:
        for seed, found, text, told, waits, names in pool.map(tried, seeds, [asked.program] * len(seeds), chunksize=20):
            counts.update(told)
            waiting, named = waiting + waits, named + names
            wrong += bool(found)
            if found and wrong <= SHOWN:
                print(f"seed {seed}:\n{text}" + "".join(f"not so: {what}\n" for what in found), flush=True)
    rare = [number for number in TRIED if counts[number] * 2000 < LEAST * len(seeds)]
    print("warnings where streams come: " + ", ".join(f"{number} {counts[number]}" for number in sorted(counts)))
    print(f"{waiting} words at which each step of each schedule waits, {named} of them named by 112 or 116")
    print("".join(f"not so: {number} comes {counts[number]} times: too few to try it\n" for number in rare), end="")
    print(f"{len(seeds) - wrong} passed, {wrong + len(rare)} failed")
    sys.exit(1 if wrong or rare else 0)


if __name__ == "__main__":
    main()
