#!/usr/bin/env python3
"""Random programs with endless loops, beside most of which a trap may stop a stream (loop_programs.py): what `mta_lab` says of
the loops, beside a plain search by a machine of the tests' own (search.py). Each loop has a line of its own, unless all that
the line says is the same: who was stopped and by which trap, who runs, those that were started in the loop too, who waits for
which word, which words differ, and which go on changing. The search for ends alone may not hide a stop beside a loop, nor say
what is not so. `survey` counts no loop as an end, `view` names who was stopped, and each status, and the verdict of `grade
--explore`, is that of the trap, where no line expects it. A difference is told with its seed and its program. Needs Python 3.

  loops [--programs N] [--first SEED] [--jobs N] [--program PATH]

There are 2,000 programs from seed 0 on, by the program that is built here; with PROGRAM=draft in the environment that is
the draft."""

import sys

sys.dont_write_bytecode = True

import argparse
import collections
import concurrent.futures
import itertools
import json
import os
import random
import re
import subprocess
import tempfile

import expectations
import loop_programs
import machine
import search
import shown
from expectations import Expectation
from sentences import TRAPS, number, tags_text

ROOT = os.path.dirname(os.path.dirname(os.path.dirname(os.path.abspath(__file__))))
sys.path.append(os.path.join(ROOT, "tests"))
import built

# after so many seconds a call has failed; how many differences are printed; how many worlds a program has at most, and how many
# programs a seed tries to find one; how many of 2,000 programs have each of KINDS at least
PATIENCE, SHOWN, MOST, TRIES, LEAST = 60, 20, 250, 400, 50
KINDS = ("stopped", "loops with and without a stop", "an end beside a loop", "waits", "words change", "started in the loop",
         "two stopped", "stop that is expected", "may loop", "line that is missed")
ROW = re.compile(r"^ *(\d+)  (spinning|looping) in (\d+) sets? +(a schedule of )?(\d+) steps?, from (\d+) states? *(.*)$")
REACHED = re.compile(r"^reached (\d+) of the (\d+) ends? of every schedule \((\d+) states?\)$", re.MULTILINE)
STOPPED = re.compile(r"(\d+\.\d+) was stopped by trap (\d+), (\w+)")
FOREVER = "some schedule goes on forever: no run shows that, and explore shows how"
UNEXPECTED = "   NOT as expected"


class Loop:
    """A set of worlds that no step leads out of, and in which some stream can always go on; what its line shows."""

    def __init__(self, case, worlds):
        self.case, self.worlds = case, worlds
        self.first = next(world for world in case.space.distance if world in worlds)
        self.stopped = tuple(sorted(search.stopped(self.first).items()))
        self.is_trapped = any(expectations.is_trapped(case.expected, world) for world in worlds)
        self.missed = None if expectations.may_loop(case.expected) else min(
            filter(None, (line_missed(case.expected, world) for world in worlds)), default=None)
        self.going = tuple((stream, self.how(stream)) for stream in
                           sorted({stream for world in worlds for stream in machine.running(world)}))

    def how(self, stream):
        """Whether a stream runs in it, or for which word it waits."""
        worlds = [world for world in self.worlds if stream in machine.running(world)]
        if any(shown.can_go_on(self.case.program, world, *stream) for world in worlds):
            return "runs"
        places = {shown.awaited(self.case.program, world, *stream) for world in worlds}
        if len(places) > 1:
            return "waits"
        (place,) = places
        return f"waits for [{place}] to be {'empty' if self.first.memory[place // 8][1] & 1 else 'full'}"

    def text(self):
        """What stands in its line, as it is judged."""
        stops = [f"{p}.{s} by trap {trap}, {TRAPS[trap][0]}" for (p, s), trap in self.stopped]
        streams = [f"{p}.{s} {how}" for (p, s), how in self.going]
        changed = [word_text(address, before, after) for address, before, after in
                   shown.changed_words(self.case.program, self.first)]
        words = list(zip(*(world.memory for world in self.worlds)))
        changing = [f"[{8 * at}] keeps changing" for at, values in enumerate(words) if len(set(values)) > 1]
        parts = ["; ".join([", ".join(["; ".join(stops + streams), *changed]), *changing])]
        if self.missed:
            return parts[0] + f"{UNEXPECTED}: {self.case.expected[self.missed - 1].text}"
        return parts[0] + UNEXPECTED * (self.is_trapped and bool(self.case.expected))


def word_text(address, before, after):
    """A word that differs from the start."""
    (was, held), (now, holds) = before, after
    changes = [f"{number(int(was))} -> {number(int(now))}"] * (was != now)
    return f"[{address}] " + ", ".join(changes + [f"{tags_text(held)} -> {tags_text(holds)}"] * (held != holds))


def line_missed(expected, world):
    """The number of the first line that a world misses; None where it misses none."""
    missed = expectations.missed(expected, world)
    return missed and expected.index(missed) + 1


class Case:
    """A program that a seed makes, with an endless loop, its worlds, and what is expected."""

    def __init__(self, seed, folder):
        chance = random.Random(seed)
        is_stopped = seed % 4 != 0
        for _ in range(TRIES):
            self.made = loop_programs.made(chance)
            self.space = search.Space(self.made.program, (), MOST)
            if self.space.is_whole and self.is_sought(is_stopped):
                break
        else:
            raise ValueError(f"seed {seed}: no such program of {MOST} worlds or fewer")
        self.program = self.made.program
        self.expected = list(self.random_lines(chance))
        self.loops = [Loop(self, worlds) for worlds in self.space.spinning()]
        self.paths = {name: os.path.join(folder, f"s.{name}") for name in ("asm", "expect", "schedule")}
        self.write("asm", self.made.text.decode())
        self.write("expect", "".join(line.text + "\n" for line in self.expected))

    def is_sought(self, is_stopped):
        """Whether it has a loop, and beside one a stream that was stopped, if that is asked for."""
        sets = self.space.spinning()
        return any(search.stopped(world) for world in itertools.chain(*sets)) if is_stopped else bool(sets)

    def random_lines(self, chance):
        """A few lines about ends: a trap that is expected, a word, that all has to finish, that it may go on forever."""
        worlds = [world for worlds in self.space.spinning() for world in worlds]
        stops = sorted({stop for world in worlds for stop in search.stopped(world).items()})
        for (p, s), trap in stops:
            if chance.random() < 0.35:
                yield Expectation(f"stopped {p}.{s} {trap}", "stopped", (p, s, trap))
        if chance.random() < 0.3:
            at = chance.randrange(self.made.words)
            value = chance.choice([world.memory[at][0] for world in self.space.distance])
            yield Expectation(f"word {8 * at} {value}", "word", (at, value, ""))
        if chance.random() < 0.1:
            yield Expectation("finished", "finished", ())
        if chance.random() < 0.2:
            yield Expectation("loops", "loops", ())

    def write(self, name, text):
        with open(self.paths[name], "w", encoding="utf-8") as file:
            file.write(text)

    def kinds(self):
        """Which of KINDS it has."""
        stops = {loop.stopped for loop in self.loops}
        streams = [stream for loop in self.loops for stream in loop.going]
        return {kind for kind, is_there in zip(KINDS, (
            any(stops), () in stops and len(stops) > 1, bool(self.space.ends()),
            any(how.startswith("waits") for _, how in streams), any("keeps changing" in loop.text() for loop in self.loops),
            any(s > 0 and how == "runs" for (_, s), how in streams), any(len(stop) > 1 for stop in stops),
            any(stops) and not all(loop.is_trapped for loop in self.loops if loop.stopped),
            expectations.may_loop(self.expected), any(loop.missed for loop in self.loops))) if is_there}

    # What the search says.

    def kind(self):
        """The kind of all loops."""
        return "looping" if expectations.may_loop(self.expected) else "spinning"

    def rows(self):
        """The lines of loops, each with how many worlds and sets it has, and the steps of a shortest schedule."""
        lines = {}
        for loop in self.loops:
            lines.setdefault((loop.text(), loop.is_trapped), []).append(loop)
        for (text, _), loops in lines.items():
            least = min(self.space.distance[loop.first] for loop in loops)
            sources = len(self.space.leading_to({world for loop in loops for world in loop.worlds}))
            yield sum(len(loop.worlds) for loop in loops), len(loops), least, sources, text

    def status(self):
        """The worst status of all ends and loops."""
        found = []
        for world, kind in self.space.ends().items():
            is_right = expectations.is_as_expected(self.expected, world, kind)
            found.append(search.DEADLOCK if kind == "deadlock" else search.DONE if is_right else search.UNEXPECTED)
        goes_on = search.DONE if self.kind() == "looping" else search.ENDLESS
        return search.worst(found + [search.UNEXPECTED if loop.is_trapped else goes_on for loop in self.loops])

    def verdict(self):
        """The word of `grade --explore`."""
        ends = self.space.ends()
        if any(loop.is_trapped for loop in self.loops) or any(expectations.is_trapped(self.expected, end) for end in ends):
            return "trap"
        if "deadlock" in ends.values():
            return "deadlock"
        if any(expectations.missed(self.expected, end) for end in ends):
            return "wrong"
        return "right" if self.kind() == "looping" else "spins"


class Answers:
    """What mta_lab says of a case, and in what it differs."""

    def __init__(self, case, mta_lab):
        self.case, self.mta_lab = case, mta_lab
        self.expect = ("--expect", case.paths["expect"]) if case.expected else ()

    def call(self, *words):
        """The status of a call, and what it prints."""
        ended = subprocess.run([self.mta_lab, *words], capture_output=True, timeout=PATIENCE, check=False)
        return ended.returncode, ended.stdout.decode()

    def differences(self):
        """All that differs."""
        yield from self.of_all_worlds()
        yield from self.of_ends_alone()
        yield from self.of_survey()
        yield from self.of_grade()
        yield from self.of_view()

    def of_all_worlds(self):
        """The lines of all worlds."""
        status, printed = self.call("explore", "--plain", self.case.paths["asm"], *self.expect)
        rows = [(int(row[1]), int(row[3]), int(row[5]), int(row[6]), row[7])
                for row in filter(None, map(ROW.match, printed.splitlines())) if row[2] == self.case.kind()]
        yield differs("lines of loops", sorted(rows), sorted(self.case.rows()))
        yield differs("status of --plain", status, self.case.status())

    def of_ends_alone(self):
        """The search for ends alone: its loops are some of all, and each stop beside a loop is there."""
        status, printed = self.call("explore", "--json", self.case.paths["asm"], *self.expect)
        told = [one for one in map(json.loads, printed.splitlines()) if one.get("end") == self.case.kind()]
        stops = {tuple((name_read(one["stream"]), one["trap"]) for one in end["stopped"]) for end in told}
        yield differs("who was stopped beside loops", stops, {loop.stopped for loop in self.case.loops})
        for end in told:
            yield from self.of_loop(end)
        yield differs("status", status, self.case.status())

    def of_loop(self, end):
        """A loop whose worlds may differ in what nothing reads again: its schedule leads to one, or to where that is so."""
        space, world = self.case.space, search.world_after(self.case.program, steps_of(end["schedule"]))
        reached = space.reached_from(world)
        loops = [loop for loop in self.case.loops if loop.worlds <= reached]
        stopped = tuple((name_read(one["stream"]), one["trap"]) for one in end["stopped"])
        running = [name_read(name) for name in end["running"]]
        yield differs("whether an end comes after a loop", bool(reached & set(space.ends())), False)
        yield differs("who was stopped", {stopped}, {loop.stopped for loop in loops})
        yield differs("who runs", running in [[stream for stream, how in loop.going if how == "runs"] for loop in loops], True)
        is_trapped = any(loop.is_trapped for loop in loops)
        yield differs("whether it is as expected", end["expected"], not is_trapped and not end["missed"])

    def of_survey(self):
        """No loop is an end that seeds reach."""
        words = ("--seeds", "3", "--steps", "80", "--explore")
        status, printed = self.call("survey", self.case.paths["asm"], *words, *self.expect)
        found = REACHED.search(printed)
        space = self.case.space
        ends = {(shown.by_world(space, world, self.case.expected), line_missed(self.case.expected, world))
                for world in space.ends()}
        yield differs("how many ends there are", found and int(found[2]), len(ends))
        if found and int(found[1]) > int(found[2]):
            yield f"more ends are reached than there are: {found[0]}"
        yield differs("that some schedule goes on forever", printed.splitlines()[-1], FOREVER)
        is_cut = "out of steps" in printed
        yield differs("status of a survey", status, search.worst([self.case.status(), *[search.ENDLESS] * is_cut]))

    def of_grade(self):
        """The verdict."""
        if not self.case.expected:
            return
        status, printed = self.call("grade", "--explore", "--json", *self.expect, self.case.paths["asm"])
        yield differs("verdict", json.loads(printed)["verdict"], self.case.verdict())
        yield differs("status of grade", status, self.case.status())

    def of_view(self):
        """A run into a loop names who was stopped."""
        for loop in self.case.loops[:2]:
            schedule = way_to(self.case.space, loop.first)
            self.case.write("schedule", "".join("%d %d 1\n" % step for step in schedule))
            status, printed = self.call("view", self.case.paths["asm"], self.case.paths["schedule"])
            stops = {(name_read(stream), int(trap)) for stream, trap, name in STOPPED.findall(printed)
                     if TRAPS[int(trap)][0] == name}
            yield differs("who was stopped in view", stops, set(loop.stopped))
            yield differs("status of view", status, search.UNEXPECTED if loop.stopped else search.ENDLESS)


def differs(what, told, wanted):
    """That something differs; None where it does not."""
    return None if told == wanted else f"{what}: {told}, and not {wanted}"


def name_read(name):
    """The numbers of a stream's name."""
    p, _, s = name.partition(".")
    return int(p), int(s)


def steps_of(schedule):
    """The steps of a schedule's turns."""
    return tuple((p, s) for p, s, count in schedule for _ in range(count))


def way_to(space, aim):
    """The steps of a shortest schedule to a world."""
    found, left = {space.first: ()}, collections.deque([space.first])
    while aim not in found:
        world = left.popleft()
        for p, s in machine.running(world):
            to, _ = machine.step(space.program, world, p, s)
            if to not in found:
                found[to] = (*found[world], (p, s))
                left.append(to)
    return found[aim]


def tried(seed, mta_lab):
    """What differs of the program that a seed makes, with its text, and which kinds it has."""
    with tempfile.TemporaryDirectory(prefix="mta-loops-") as folder:
        try:
            case = Case(seed, folder)
        except ValueError as error:
            return seed, [str(error)], "", set()
        try:
            found = list(filter(None, Answers(case, mta_lab).differences()))
        except Exception as error:  # an answer that can't be read is one that differs
            found = [f"{type(error).__name__} {error}"]
        lines = "".join(f"; {line.text}\n" for line in case.expected)
        return seed, found, case.made.text.decode() + lines, case.kinds()


def main():
    asked = argparse.ArgumentParser(description=__doc__.partition("\n\n")[0])
    asked.add_argument("--programs", type=int, default=2000, help="how many (2000)")
    asked.add_argument("--first", type=int, default=0, help="the first seed (0)")
    asked.add_argument("--program", help="the mta_lab that is tried")
    asked.add_argument("--jobs", type=int, default=os.cpu_count(), help="how many at a time (one a processor)")
    asked = asked.parse_args()
    asked.program = asked.program or built.path("mta_lab")
    seeds = range(asked.first, asked.first + asked.programs)
    wrong, kinds = 0, collections.Counter()
    with concurrent.futures.ProcessPoolExecutor(asked.jobs) as pool:
        for seed, found, text, has in pool.map(tried, seeds, [asked.program] * len(seeds), chunksize=10):
            kinds.update(has)
            wrong += bool(found)
            if found and wrong <= SHOWN:
                print(f"seed {seed}:\n{text}" + "".join(f"not so: {what}\n" for what in found), flush=True)
    rare = [kind for kind in KINDS if kinds[kind] * 2000 < LEAST * len(seeds)]
    print("programs with " + ", ".join(f"{kind} {kinds[kind]}" for kind in KINDS))
    print("".join(f"not so: {kind!r} comes {kinds[kind]} times: too seldom to try it\n" for kind in rare), end="")
    print(f"{len(seeds) - wrong} passed, {wrong + len(rare)} failed")
    sys.exit(1 if wrong or rare else 0)


if __name__ == "__main__":
    main()
