#!/usr/bin/env python3
"""Random programs by random schedules: what `mta_lab view` says of each step, beside a second reading of its rules
(docs/LAB_REFERENCE.md, "Texts" and "Views of runs") over the machine of the tests' own (machine.py). They have traps with
handlers and without, limits of tries, words that forward and that trap, pointers of all controls, streams that are started.
A difference is told with its seed and its program. Needs Python 3.

  sentences [--programs N] [--first SEED] [--jobs N] [--program PATH]

There are 2,000 programs from seed 0 on, by the program that is built here; with PROGRAM=draft in the environment that is
the draft."""

import sys

sys.dont_write_bytecode = True

import argparse
import collections
import concurrent.futures
import os
import random
import re
import subprocess
import tempfile

import machine
import memory as store
import programs
from machine import NO_HANDLER, Program, Word

ROOT = os.path.dirname(os.path.dirname(os.path.dirname(os.path.abspath(__file__))))
sys.path.append(os.path.join(ROOT, "tests"))
import built

# after so many seconds a call has failed; how many differences are printed; how many turns a schedule has
PATIENCE, SHOWN, TURNS = 60, 20, 40
# how often each of these comes at least, in 2,000 programs
LEAST = 50
KINDS = ("waits for .* to be full", "waits for .* to be empty", "tries ", "trap 1,", "trap 3,", "trap 4,", "trap 5,", "trap 6,",
         "trap 7,", "trap 8,", "trap 9,", "trap 10,", "status running", "^to ", " is ", " stays ", " -> empty", " -> full",
         "^starts ", " has r1 ", "no handler -> ", "mask ", "codes ", "^in trap ", "slots", "ends$", "kept$", "has stopped",
         "does not run", "no such stream")
TRAPS = {1: ("PROGRAM", "the pc is past the program's end"), 3: ("CREATE", "every reserved stream is in use"),
         4: ("POINTER", "no reference may use this pointer"), 5: ("ALIGN", "the address is no multiple of 8"),
         6: ("RANGE", "there is no word at the address"), 7: ("TRAP0", "the word's trap0 bit is set"),
         8: ("TRAP1", "the word's trap1 bit is set"), 9: ("FORWARD", "forwarded too often"),
         10: ("BLOCKED", "tried too often")}
LINE = re.compile(r"^ *\d+  (\d+\.\d+) +\S+ +(.*)$")


def made(chance):
    """A program, and its text: any one, or one of streams that are blocked, trapped and forwarded often."""
    if chance.random() < 0.5:
        made_one = programs.made(chance)
        return made_one.program, made_one.text
    entries, words_of_memory, slim, each = chance.choice((2, 2, 3)), 3, chance.choice((1, 2, 2)), chance.choice((4, 5, 6, 7))
    words = [word for _ in range(entries) for word in body(chance, each, words_of_memory, slim)]
    handler = len(words) if chance.random() < 0.6 else NO_HANDLER
    words += [Word(control=("MASK", chance.randrange(8))) if chance.random() < 0.5 else Word(control=("XGET", 2)),
              Word(control=("XCHG", 0)) if chance.random() < 0.3 else Word(control=("QUIT",))]
    data = tuple((8 * chance.randrange(4) if chance.random() < 0.6 else chance.choice(programs.VALUES), tags(chance))
                 for _ in range(words_of_memory))
    program = Program(slim, chance.choice((0, 1, 2, 3)), handler, tuple(range(0, entries * each, each)), data, tuple(words))
    return program, programs.text_of(program)


def tags(chance):
    """The tags of a word: full or empty; often it forwards, at times it traps."""
    return chance.choice((0, 1)) | chance.choice((0, 0, 0, 0, 2, 2, 2, 4, 8))


def body(chance, length, words_of_memory, slim):
    """The words of a stream: it makes a pointer, uses it, and does anything."""
    words = [Word(wide=("LIT", 1, 8 * chance.randrange(words_of_memory) + chance.choice((0, 0, 0, 0, 4)))),
             Word(arithmetic=("PTR", False, 1, 1, chance.choice((0, 1, 2, 3, 3, 4, 7, 11, 27))))]
    if slim > 1 and chance.random() < 0.4:
        words += [Word(wide=("LIT", 2, 1)), Word(control=("RESERVE", 2, 2)), Word(control=("CREATE", chance.choice((0, 1)), 1))]
    for at in range(len(words), length - 1):
        name = chance.choice(("LOAD", "STORE", "STORE", "FADD", "FADD", "TAGGET", "TAGSET"))
        suffix = "" if name.startswith("TAG") else chance.choice(("", "", ".N", ".S", ".F"))
        operation = (name, suffix, chance.choice((0, 1, 2)), chance.choice((0, 1, 1)), chance.randrange(words_of_memory))
        words.append(chance.choice((
            Word(memory=operation), Word(memory=operation), Word(memory=operation, arithmetic=("ADD", True, 3, 3, 1)),
            Word(wide=programs.wide_operation(chance, length)), Word(wide=("TLIT", 0, chance.randrange(length))),
            Word(control=programs.control_operation(chance, at, length, slim)))))
    return [*words, Word(control=(chance.choice(("QUIT", "QUITP")),))][:length]


def schedule(chance, program):
    """Steps of any streams, at times of one that is not there."""
    steps = []
    for _ in range(TURNS):
        p = chance.randrange(len(program.entries) + (chance.random() < 0.03))
        s = chance.randrange(program.slim + (chance.random() < 0.05))
        steps += [(p, s)] * chance.choice((1, 1, 2, 3))
    return steps


class Reading:
    """What is said of a step: by the world before it, the world after it, and its outcome."""

    def __init__(self, program, before, step):
        self.program, self.before, (self.p, self.s) = program, before, step
        self.after, outcome = machine.step(program, before, self.p, self.s)
        self.outcome, _, trap = outcome.partition(" ")
        self.trap = int(trap or 0)

    def streams(self, p, s):
        """A stream before and after."""
        return [world.processors[p].streams[s] for world in (self.before, self.after)]

    def parts(self):
        """The parts of the sentence, in any order."""
        if self.outcome == "skipped":
            return [self.why_skipped()]
        return [*self.head(), *self.of_word(), *self.of_stream(), *self.of_others(), *self.of_slots()]

    def why_skipped(self):
        if self.p >= len(self.before.processors) or self.s >= self.program.slim:
            return "there is no such stream"
        is_stopped = self.before.processors[self.p].streams[self.s].status.startswith("stopped")
        return "has stopped: nothing happens" if is_stopped else "does not run: nothing happens"

    def request(self):
        """What the step asks of the memory; None where it asks nothing."""
        stream, _ = self.streams(self.p, self.s)
        pc = stream.ssw % 2**32
        word = self.program.words[pc] if pc < len(self.program.words) else None
        if not word or not word.memory or self.trap == machine.CREATE:
            return None
        return store.request_of(stream, word.memory)

    def word_met(self):
        """The place of the word at which the request of a step ends that is done or blocked."""
        request = self.request()
        pointer, memory = request.pointer, self.before.memory
        while not request.name.startswith("TAG") and memory[pointer % 2**48 // 8][1] & store.FORWARD and not pointer >> 61 & 1:
            pointer = memory[pointer % 2**48 // 8][0]
        return pointer % 2**48 // 8

    def head(self):
        """A trap, a wait, or the word that was read or written and is as it was."""
        if self.trap:
            name, why = TRAPS[self.trap]
            at = f" at [{self.streams(self.p, self.s)[1].xr >> 8}]" if self.request() else ""
            yield f"trap {self.trap}, {name}{at}: {why}"
        elif self.outcome == "blocked":
            place = self.word_met()
            wanted = "empty" if self.before.memory[place][1] & store.FULL else "full"
            yield f"waits for [{8 * place}] to be {wanted}"
        elif self.request() and self.before.memory == self.after.memory:
            place = self.word_met()
            verb = "is" if self.request().name in ("LOAD", "TAGGET") else "stays"
            value, held = self.after.memory[place]
            yield f"[{8 * place}] {verb} {number(value)}, {tags_text(held)}"

    def of_word(self):
        """What became of the word that changed."""
        for place, ((was, held), (now, holds)) in enumerate(zip(self.before.memory, self.after.memory)):
            turned = f"{tags_text(held)} -> {tags_text(holds)}" if held != holds else ""
            if was != now:
                yield f"[{8 * place}] {number(was)} -> {number(now)}" + (f", {turned}" if turned else "")
            elif turned:
                is_read = self.request().name in ("LOAD", "FADD")
                yield f"[{8 * place}] " + (f"is {number(was)}, " if is_read else "") + turned

    def of_stream(self):
        """What changed of the stream itself: its end stands for all of it."""
        was, now = self.streams(self.p, self.s)
        if now.status == "idle":
            slots = [world.processors[self.p].sres for world in (self.before, self.after)]
            yield "the stream ends" + (", its slot is kept" if slots[0] == slots[1] else "")
            return
        pc = now.ssw % 2**32
        if pc != was.ssw % 2**32 and not (self.outcome == "done" and pc == was.ssw % 2**32 + 1):
            yield f"to {self.place(pc)}"
        yield from (f"{name} {self.shown(name, one)} -> {self.shown(name, other)}"
                    for (name, one), (_, other) in zip(parts_of(was), parts_of(now)) if one != other)

    def of_others(self):
        """A stream that was started: where, and what it has."""
        for p, processor in enumerate(self.before.processors):
            for s, was in enumerate(processor.streams):
                now = self.after.processors[p].streams[s]
                if (p, s) == (self.p, self.s) or was == now:
                    continue
                yield f"starts {p}.{s} at {self.place(now.ssw % 2**32)}"
                yield from (f"{p}.{s} has {name} {self.shown(name, other)}"
                            for (name, one), (_, other) in zip(parts_of(was), parts_of(now)) if one != other and name != "status")

    def of_slots(self):
        """How many slots a processor has, where a stream has reserved more."""
        was, now = (world.processors[self.p].sres for world in (self.before, self.after))
        if was < now:
            yield f"processor {self.p} has {now} slots"

    def place(self, pc):
        """A program address, by its label, which each word has; past the end by its number."""
        return f"w{pc}" if pc < len(self.program.words) else str(pc)

    def shown(self, name, value):
        """What stands in a part of a stream."""
        if name == "codes":
            return " ".join("".join(letter for bit, letter in enumerate("ZNCV") if value >> at + bit & 1) or "-"
                            for at in (0, 4, 8, 12))
        if name == "mask":
            words = [word for bit, word in enumerate(("TRAP0", "TRAP1", "BLOCKED")) if value >> bit & 1]
            return " ".join([*words, "disabled"]) if words else "none"
        if name == "in trap":
            return "yes" if value else "no"
        if name == "status":
            kind, _, trap = value.partition(" ")
            return f"stopped by trap {trap}, {TRAPS[int(trap)][0]}" if trap else kind
        if re.fullmatch(r"t\d", name):
            return "0" if value == 0 else "no handler" if value == NO_HANDLER else (
                self.place(value) if value < 2**32 else hex(value))
        return number(value)


def parts_of(stream):
    """The parts of a stream but for its pc, each by its name."""
    ssw = stream.ssw
    return [("codes", ssw >> 32 & 0xFFFF), ("mask", ssw >> 48 & 7), ("in trap", ssw >> 56 & 1), ("xr", stream.xr),
            ("tries", stream.retries), ("status", stream.status),
            *((f"r{at}", value) for at, value in enumerate(stream.registers)),
            *((f"t{at}", value) for at, value in enumerate(stream.targets))]


def number(value):
    """A number as it is shown: those within 2^32 of 2^64 are the negative ones."""
    return str(value - 2**64 if value >= 2**64 - 2**32 else value)


def tags_text(held):
    """Tags in words."""
    return " ".join([("empty", "full")[held & 1], *(word for bit, word in ((2, "forward"), (4, "trap0"), (8, "trap1"))
                                                    if held & bit)])


def said_by_view(program, text, steps, mta_lab):
    """The stream of each step, and the parts of what view says of it."""
    with tempfile.TemporaryDirectory(prefix="mta-said-") as folder:
        paths = [os.path.join(folder, name) for name in ("s.asm", "s.schedule")]
        for path, data in zip(paths, (text, b"".join(b"%d %d\n" % step for step in steps))):
            with open(path, "wb") as file:
                file.write(data)
        ended = subprocess.run([mta_lab, "view", "--all", *paths], capture_output=True, timeout=PATIENCE, check=False)
    statements = sorted({programs.word_text(word) for word in program.words} | {"-", ""}, key=len, reverse=True)
    found = filter(None, map(LINE.match, ended.stdout.decode().splitlines()))
    return [(line[1], parts_in(line[2], statements)) for line in found]


def parts_in(text, statements):
    """The parts of what stands after the statement."""
    said = next(text[len(one):] for one in statements if text.startswith(one)).strip()
    return sorted(said.split("; ")) if said else []


def tried(seed, mta_lab):
    """What differs in the sentences of the program that a seed makes, with its text, and the sentences."""
    chance = random.Random(seed)
    program, text = made(chance)
    steps = schedule(chance, program)
    world, wanted = machine.start(program), []
    for step in steps:
        reading = Reading(program, world, step)
        wanted.append((f"{step[0]}.{step[1]}", sorted(reading.parts())))
        world = reading.after
    try:
        said = said_by_view(program, text, steps, mta_lab)
    except Exception as error:  # an answer that can't be read is one that differs
        return seed, [f"{type(error).__name__} {error}"], text.decode(), []
    faults = [f"step {at}: {one}, and not {other}" for at, (one, other) in enumerate(zip(said, wanted), 1) if one != other]
    if len(said) != len(wanted):
        faults.append(f"{len(said)} lines of {len(wanted)} steps")
    return seed, faults[:3], text.decode(), ["; ".join(parts) for _, parts in wanted]


def kinds_of(said):
    """How many of some sentences are of each kind."""
    return {kind: sum(any(re.search(kind, part) for part in one.split("; ")) for one in said) for kind in KINDS}


def rare_kinds(counts, programs, but=()):
    """How many kinds of sentences come too seldom in so many programs, but for these; says which."""
    rare = [kind for kind in KINDS if kind not in but and counts[kind] * 2000 < LEAST * programs]
    print("".join(f"not so: {kind!r} is said {counts[kind]} times: too few to try it\n" for kind in rare), end="")
    return len(rare)


def main():
    asked = argparse.ArgumentParser(description=__doc__.partition("\n\n")[0])
    asked.add_argument("--programs", type=int, default=2000, help="how many (2000)")
    asked.add_argument("--first", type=int, default=0, help="the first seed (0)")
    asked.add_argument("--program", help="the mta_lab that is tried")
    asked.add_argument("--jobs", type=int, default=os.cpu_count(), help="how many at a time (one a processor)")
    asked = asked.parse_args()
    asked.program = asked.program or built.path("mta_lab")
    seeds = range(asked.first, asked.first + asked.programs)
    wrong, counts, steps = 0, collections.Counter(), 0
    with concurrent.futures.ProcessPoolExecutor(asked.jobs) as pool:
        for seed, found, text, said in pool.map(tried, seeds, [asked.program] * len(seeds), chunksize=20):
            steps += len(said)
            counts.update(kinds_of(said))
            wrong += bool(found)
            if found and wrong <= SHOWN:
                print(f"seed {seed}:\n{text}" + "".join(f"not so: {what}\n" for what in found), flush=True)
    rare = rare_kinds(counts, len(seeds))
    print(f"{steps} steps: {len(seeds) - wrong} passed, {wrong + rare} failed")
    sys.exit(1 if wrong or rare else 0)


if __name__ == "__main__":
    main()
