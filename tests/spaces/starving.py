#!/usr/bin/env python3
"""Random programs with loops: who can wait forever by `mta_lab explore --waiting`, beside a plain search of rounds by a
machine of the tests' own (lassos.py). Each stream that is shown has to be one that the search finds, and each that the search
finds has to be shown. Of a third of the programs a file of expectations lets streams rest. With the line `never starved` the same
streams are shown, and a program is right only if there is none. Without both they are shown if the program has an endless loop,
which is called a livelock just if no word changes in it, and the streams that poll are named. Each schedule and round that is
shown is replayed: the round has to come back, to be fair, and to leave the stream waiting, and no schedule to its world may be
shorter. Each is run by `mta_sim` too, the round once and twice. And `view --round` has to mark as a round just those last steps of
a kept schedule that are one by this machine. A difference is printed with its seed and its program. Needs Python 3.

  starving [--programs N] [--first SEED] [--jobs N] [--program PATH] [--machine PATH]

There are 1,000 programs from seed 0 on, by the programs that are built here; with PROGRAM=draft in the environment those
are the drafts."""

import sys

sys.dont_write_bytecode = True

import argparse
import collections
import concurrent.futures
import json
import os
import random
import re
import subprocess
import tempfile

import busy
import machine
import programs
import resting
import search
from lassos import Lassos
from machine import NO_HANDLER, Program, Word

ROOT = os.path.dirname(os.path.dirname(os.path.dirname(os.path.abspath(__file__))))
sys.path.append(os.path.join(ROOT, "tests"))
import built

# after so many seconds a call has failed; how many differences are printed; how many worlds a program has, and how many
# programs a seed tries to find one
PATIENCE, SHOWN, LEAST, MOST, TRIES = 60, 20, 10, 150, 400
# the exit status of a refused call, and of each kind of end
REFUSED = 1
OF_ENDS = {"finished": search.DONE, "stopped": search.UNEXPECTED, "deadlock": search.DEADLOCK}
# what is said of endless loops
LIVELOCK, NOBODY = "livelock: no step changes a word any more", "fair by words: nobody can be blocked forever"
WAITS = re.compile(r"fair by words: (\d+\.\d+) can wait forever ")
# what is said of who polls: each stream with its label, which has the number of its word, and the line that is named
POLLING = re.compile("(.*): a stream that polls is not blocked; a line (.*) leads to (.*) in PLACES would say whether it gets "
                     "further")
POLLS = re.compile(r"(\d+\.\d+) polls at w(\d+)")


def looping(chance):
    """A random program whose last word leads back: to wait and to fill words is more frequent than in programs.py."""
    entries, length, memory = chance.choice((2, 2, 3)), chance.choice((3, 4, 5)), chance.choice((1, 2, 2, 3))
    retry = 1 if chance.random() < 0.05 else 0
    starts = tuple(chance.randrange(length - 1) for _ in range(entries))
    data = tuple((chance.choice((0, 0, 1)), chance.choice((0, 1, 1))) for _ in range(memory))
    words = tuple(word_of(chance, at, length, memory) for at in range(length - 1))
    last = Word(control=("SKIP", "ALWAYS", 0, -chance.randrange(1, length + 1)))
    program = Program(1, retry, NO_HANDLER, starts, data, words + (last,))
    return programs.Made(program, programs.text_of(program), memory)


def word_of(chance, at, length, memory):
    """A word of it."""
    roll = chance.random()
    if roll < 0.6:
        suffix = chance.choice((".S", ".S", ".S", ".N", ".F"))
        return Word(memory=(chance.choice(("LOAD", "STORE")), suffix, chance.choice((0, 0, 1)), 0, chance.randrange(memory)))
    if roll < 0.75:
        return Word(arithmetic=(chance.choice(("SUB", "XOR", "AND")), True, chance.choice((0, 1)), 1, chance.choice((0, 1))))
    if roll < 0.95:
        return Word(control=("SKIP", chance.choice(("ALWAYS", "EQ", "NE")), 0, chance.randrange(length) - at - 1))
    return Word(control=("QUIT",))


class Case:
    """A program that a seed makes, its worlds, and who can wait forever in it."""

    def __init__(self, seed):
        chance = random.Random(seed)
        for _ in range(TRIES):
            self.made = looping(chance) if chance.random() < 0.85 else programs.made(chance)
            self.space = search.Space(self.made.program, (), MOST)
            if self.space.is_whole and len(self.space.distance) >= LEAST:
                break
        else:
            raise ValueError(f"seed {seed}: no program of {LEAST} to {MOST} worlds")
        self.rests, _, self.lines = resting.drawn(seed, self.made.program)
        self.lassos = Lassos(self.space, self.rests)
        self.wanted = {name_of(stream) for stream in self.lassos.starving()}

    def status(self, waiting=search.ENDLESS):
        """The worst status of all ends and endless loops, and of who waits forever, which is that of an endless loop."""
        found = [OF_ENDS[kind] for kind in self.space.ends().values()]
        loops = [next(iter(found)) for found in self.space.spinning()]
        found += [search.UNEXPECTED if search.stopped(world) else search.ENDLESS for world in loops]
        return search.worst(found + [waiting] * bool(self.wanted))

    def differences(self, asked, folder):
        """What mta_lab says that is not so."""
        path = os.path.join(folder, "s.asm")
        with open(path, "wb") as file:
            file.write(self.made.text)
        given = self.lines_in(folder)
        ended = call(asked.program, "explore", "--waiting", "--json", "--keep", os.path.join(folder, "kept"), path, *given)
        objects = [json.loads(line) for line in ended.stdout.splitlines()]
        said = next((it for it in objects if it["object"] == "waiting"), None)
        if said is None:
            yield f"nothing is said of who can wait forever: {ended.stderr}"
            return
        shown = {it["stream"]: it for it in objects if it["object"] == "starving"}
        if (said["decided"], said["why"], said["undecided"]) != (True, None, []):
            yield f"not decided: {said}"
        if set(shown) != self.wanted or said["nobody"] == bool(self.wanted):
            yield f"{sorted(shown)} can wait forever, and by the search {sorted(self.wanted)}"
        running = {name for it in objects if it["object"] == "search_end" for name in it["running"]}
        going, may_rest = said["going"], {name_of(stream) for stream, _ in self.rests}
        if set(going) - may_rest != running - self.wanted - may_rest or not set(going) <= running - self.wanted:
            yield f"{going} go on in every round, and not {sorted(running - self.wanted)}"
        if len(set(going)) < len(going):
            yield f"{going} go on in every round, one of them twice"
        if ended.returncode != self.status():
            yield f"status {ended.returncode}, and not {self.status()}"
        for name, it in shown.items():
            yield from self.faults(name, it)
            yield from self.run_twice(asked, folder, path, name)
            yield from self.not_as_marked(asked, folder, path, it)
        yield from self.not_as_required(asked, folder, path)
        yield from self.not_as_loops(asked, path, given)

    def lines_in(self, folder):
        """Words of a call for a file of expectations that lets streams rest; none where nobody may."""
        if not self.lines:
            return []
        path = os.path.join(folder, "rests.expect")
        with open(path, "w", encoding="ascii") as file:
            file.write("".join(line + "\n" for line in self.lines))
        return ["--expect", path]

    def nobody(self):
        """The line that says that nobody can wait forever."""
        return NOBODY + " where it may not rest" * bool(self.lines)

    def not_as_loops(self, asked, path, given):
        """What is said of the program's endless loops that is not so, where nothing is asked."""
        loops = self.space.spinning()
        still = [len({world.memory for world in found}) == 1 for found in loops]
        for words in ((), ("--plain",)):
            ended = call(asked.program, "explore", path, *given, *words)
            lines = ended.stdout.decode().splitlines()
            spinning = sum(" spinning in " in line for line in lines)
            livelocks = sum(line.strip() == LIVELOCK for line in lines)
            if bool(livelocks) != any(still) or (livelocks == spinning) != all(still):
                yield f"{livelocks} livelocks in {spinning} lines, and of the sets {still}"
            shown = {found[1] for found in map(WAITS.match, lines) if found}
            if shown != (self.wanted if loops else set()) or (self.nobody() in lines) != (bool(loops) and not self.wanted):
                yield f"without an option {sorted(shown)} can wait forever, and by the search {sorted(self.wanted)}"
            yield from self.not_as_polls(lines, bool(loops))
            if ended.returncode != self.status(search.DONE):
                yield f"without an option: status {ended.returncode}, and not {self.status(search.DONE)}"

    def not_as_polls(self, lines, is_said):
        """What lines say of who polls that is not so; nothing is to be said where there is no endless loop."""
        may_rest = {stream for stream, _ in self.rests}
        polling = {name_of(stream): places for stream, places in busy.polling(self.space).items() if stream not in may_rest}
        said = [found for found in map(POLLING.fullmatch, lines) if found]
        shown = [(name, int(place)) for found in said for name, place in POLLS.findall(found[1])]
        if [name for name, _ in shown] != sorted(polling if is_said else (), key=stream_of) or len(said) > 1:
            yield f"{shown} poll, and by the search {polling}"
        elif not all(place in polling[name] for name, place in shown):
            yield f"{shown} poll, and by the search elsewhere: {polling}"
        elif shown and (said[0][2], said[0][3]) != ("%s in w%d" % shown[0], shown[0][0]):
            yield f"a line is named of another stream, or place: {said[0][0]}"

    def not_as_required(self, asked, folder, path):
        """What is said of the program that is not so, where it is required that nobody can wait forever."""
        line = os.path.join(folder, "s.expect")
        with open(line, "w", encoding="ascii") as file:
            file.write("".join(text + "\n" for text in ["never starved", *self.lines]))
        ended = call(asked.program, "explore", "--json", "--expect", line, path)
        objects = [json.loads(it) for it in ended.stdout.splitlines()]
        broken = [it["claim"] for it in objects if it["object"] == "broken"]
        if broken != [{"line": 1, "text": "never starved"}] * bool(self.wanted):
            yield f"never starved: {broken}, and {sorted(self.wanted)} can wait forever"
        if {it["stream"] for it in objects if it["object"] == "starving"} != self.wanted:
            yield f"never starved: others are shown than {sorted(self.wanted)}"
        status = self.status(search.UNEXPECTED)
        if ended.returncode != status:
            yield f"never starved: status {ended.returncode}, and not {status}"
        graded = call(asked.program, "grade", "--explore", "--json", "--expect", line, path)
        verdict = json.loads(graded.stdout)["verdict"]
        if (verdict == "right") != (status == search.DONE) or graded.returncode != status:
            yield f"never starved: {verdict}, status {graded.returncode}, and not {status}"

    def faults(self, name, it):
        """What is not so of a stream that is shown."""
        stem, round_ = steps_of(it["schedule"]), steps_of(it["round"])
        world = search.world_after(self.made.program, stem)
        if self.space.distance.get(world) != len(stem) or it["steps"] != len(stem):
            yield f"{name}: a shortest schedule has {self.space.distance.get(world)} steps, and not {len(stem)}"
        if fault := self.lassos.fault(world, stream_of(name), round_):
            yield f"{name}: {fault}"
        if self.completed(world, round_) != [tuple(pair) for pair in it["completed"]]:
            yield f"{name}: it completes {it['completed']}, and not {self.completed(world, round_)}"
        if world.processors[stream_of(name)[0]].streams[stream_of(name)[1]].ssw % 2**32 != it["pc"]:
            yield f"{name}: it does not stand at {it['pc']}"

    def completed(self, world, schedule):
        """The streams of a round, in the order of their first steps, and how many steps of each complete."""
        counts = {}
        for who in schedule:
            world, outcome = machine.step(self.made.program, world, *who)
            counts[name_of(who)] = counts.get(name_of(who), 0) + (outcome != "blocked")
        return list(counts.items())

    def not_as_marked(self, asked, folder, path, it):
        """What `view --round` says of the last steps of a kept schedule that is not so."""
        kept = os.path.join(folder, "kept", f"waiting_{it['stream']}.schedule")
        round_ = steps_of(it["round"])
        schedule, size = steps_of(it["schedule"]) + round_ * 2, len(round_)
        for count in sorted({1, 2, size - 1, size, size + 1, 2 * size, len(schedule), len(schedule) + 1} - {0}):
            ended = call(asked.program, "view", "--json", "--round", str(count), path, kept)
            objects = [json.loads(line) for line in ended.stdout.splitlines()]
            marked = [(it["after"], it["steps"], it["times"]) for it in objects if it["object"] == "round"]
            wanted = self.round_at_end(schedule, count)
            if marked != wanted or (ended.returncode == REFUSED) == bool(wanted):
                yield f"{it['stream']}: view --round {count}: {marked}, status {ended.returncode}, and not {wanted}"

    def round_at_end(self, schedule, count):
        """After how many steps the round begins that the last so many steps are, how many it has, and how often it is taken;
        nothing if they are none."""
        world, worlds, outcomes = machine.start(self.made.program), [], []
        for who in schedule:
            worlds.append(world)
            world, outcome = machine.step(self.made.program, world, *who)
            outcomes.append(outcome)
        begin, times = len(schedule) - count, 1
        if begin < 0 or worlds[begin] != world or "skipped" in outcomes[begin:]:
            return []
        while begin >= count and schedule[begin - count:begin] == schedule[-count:] and worlds[begin - count] == world:
            begin, times = begin - count, times + 1
        return [(begin, count, times)]

    def run_twice(self, asked, folder, path, name):
        """Whether a run of mta_sim by the kept schedules ends in the world in which the round began."""
        image = path.removesuffix(".asm") + ".image"
        call(asked.machine, "asm", path, image)
        ends = []
        for file in (f"waiting_{name}_stem.schedule", f"waiting_{name}.schedule"):
            ended = call(asked.machine, "run", image, os.path.join(folder, "kept", file))
            ends.append(ended.stdout[ended.stdout.find(b"processor 0 "):])
        if ends[0] != ends[1] or not ends[0]:
            yield f"{name}: mta_sim does not come back"


def call(*words):
    """A call that has to end."""
    return subprocess.run(words, capture_output=True, timeout=PATIENCE, check=False)


def name_of(stream):
    """A stream as it is printed."""
    return "%d.%d" % stream


def stream_of(name):
    """The stream of a name."""
    p, s = name.split(".")
    return int(p), int(s)


def steps_of(turns):
    """The steps of turns."""
    return [(p, s) for p, s, count in turns for _ in range(count)]


def tried(seed, asked):
    """What differs of the program that a seed makes, with its text, how many can wait forever, and how many worlds it has."""
    case = Case(seed)
    with tempfile.TemporaryDirectory(prefix="mta-starving-") as folder:
        found = list(case.differences(asked, folder))
    return seed, found, case.made.text.decode(), len(case.wanted), len(case.space.distance)


def main():
    asked = argparse.ArgumentParser(description=__doc__.partition("\n\n")[0])
    asked.add_argument("--programs", type=int, default=1000, help="how many (1000)")
    asked.add_argument("--first", type=int, default=0, help="the first seed (0)")
    asked.add_argument("--program", help="the mta_lab that is tried")
    asked.add_argument("--machine", help="the mta_sim that runs what is shown")
    asked.add_argument("--jobs", type=int, default=os.cpu_count(), help="how many at a time (one a processor)")
    asked = asked.parse_args()
    asked.program = asked.program or built.path("mta_lab")
    asked.machine = asked.machine or built.path("mta_sim")
    seeds = range(asked.first, asked.first + asked.programs)
    wrong, worlds, counts = 0, 0, collections.Counter()
    with concurrent.futures.ProcessPoolExecutor(asked.jobs) as pool:
        for seed, found, text, waiting, count in pool.map(tried, seeds, [asked] * len(seeds), chunksize=5):
            counts[waiting] += 1
            worlds += count
            wrong += bool(found)
            if found and wrong <= SHOWN:
                print(f"seed {seed}:\n{text}" + "".join(f"not so: {what}\n" for what in found), flush=True)
    told = ", ".join(f"{waiting} in {count}" for waiting, count in sorted(counts.items()))
    print(f"{len(seeds)} programs, {worlds} worlds; streams that can wait forever: {told}")
    print(f"{len(seeds) - wrong} passed, {wrong} failed")
    sys.exit(1 if wrong else 0)


if __name__ == "__main__":
    main()
