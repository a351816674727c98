"""Every schedule: programs beside a search that runs mta_sim for each step. Those whose worlds are counted by hand are
transcripts of tests/cases/lab_explore."""

import collections
import itertools
import json
import os
import random
import re
import tempfile

import checks
import tool
import worlds
from of_lab import EXAMPLES, lab

# how many random programs are searched, and the most worlds of one
PROGRAMS, MOST = 24, 150
RUNNING = re.compile(rb"^stream (\d+) (\d+)\nRunning ", re.MULTILINE)
STOPPED = re.compile(rb"^Stopped ", re.MULTILINE)


class Searched:
    """All worlds of an image: a search that runs mta_sim for each step, from the shortest schedules on."""

    def __init__(self, image):
        self.image = image
        self.schedules, self.steps, self.stays = {}, [], {}
        start, _ = self.after(())
        self.schedules[start] = ()
        waiting = collections.deque([start])
        while waiting and len(self.schedules) <= MOST:
            world = waiting.popleft()
            for stream in running(world):
                schedule = (*self.schedules[world], stream)
                to, outcome = self.after(schedule)
                if to == world:
                    self.stays.setdefault(world, []).append(outcome)
                    continue
                self.steps.append((world, to))
                if to not in self.schedules:
                    self.schedules[to] = schedule
                    waiting.append(to)

    def after(self, schedule):
        """The world after a schedule, and the outcome of the last step."""
        trace = tool.trace(self.image, b"".join(b"%d %d\n" % step for step in schedule))
        begin = trace.index(b"processor 0 ")
        lines = trace[:begin].splitlines()
        return trace[begin:], lines[-1].split()[-1] if lines else b""

    def kind(self, world):
        """How a world ends; None where it goes on."""
        streams = running(world)
        if not streams:
            return "stopped" if STOPPED.search(world) else "finished"
        stays = self.stays.get(world, [])
        return "deadlock" if len(stays) == len(streams) and set(stays) == {b"BLOCKED"} else None

    def sources(self, ends):
        """The worlds from which steps lead to one of these."""
        before = collections.defaultdict(list)
        for world, to in self.steps:
            before[to].append(world)
        found, waiting = set(ends), list(ends)
        while waiting:
            for world in before[waiting.pop()]:
                if world not in found:
                    found.add(world)
                    waiting.append(world)
        return found

    def shortest_round(self, world):
        """How many steps the shortest way from a world back to it has, or a step that stays there."""
        after = collections.defaultdict(set)
        for before, to in self.steps:
            after[before].add(to)
        if not after[world]:
            return 1
        found, reached = set(), {world}
        for count in itertools.count(1):
            reached = {to for here in reached for to in after[here]} - found
            found |= reached
            if world in found or not reached:
                return count

    def streams_in(self, found, first):
        """The streams that run in the first world of a set, each with whether it runs, or waits in each world of it."""
        def is_stuck(world, stream):
            return self.after((*self.schedules[world], stream)) == (world, b"BLOCKED")

        return [(f"{p}.{s}", "waits" if all(is_stuck(world, (p, s)) for world in found) else "runs")
                for p, s in running(first)]

    def spinning(self):
        """The sets of worlds that no step leads out of, and in which no world is an end."""
        after = collections.defaultdict(set)
        for world, to in self.steps:
            after[world].add(to)
        reached = {}
        for world in self.schedules:
            found, waiting = {world}, [world]
            while waiting:
                for to in after[waiting.pop()] - found:
                    found.add(to)
                    waiting.append(to)
            reached[world] = frozenset(found)
        ends = {world for world in self.schedules if self.kind(world)}
        return {found for found in reached.values()
                if not found & ends and all(reached[world] == found for world in found)}


def running(world):
    """The streams that run, in the order of processor and stream."""
    return [(int(p), int(s)) for p, s in RUNNING.findall(world)]


def told_of(source, *words):
    """What explore prints of a program."""
    printed = lab("explore", source, "--json", *words).out.decode().splitlines()
    head, *ends = [json.loads(line) for line in printed]
    return head, ends


def agrees(source, image):
    """Whether explore tells of a program what the search finds: True, or in what they differ. None where it is too
    large to be searched."""
    searched = Searched(image)
    if len(searched.schedules) > MOST:
        return None
    head, ends = told_of(source, "--plain")
    wanted = (True, len(searched.schedules), len(searched.steps))
    if (head["complete"], head["worlds"], head["steps"]) != wanted:
        return f"{head}, and not {wanted}"
    kinds = collections.Counter(filter(None, map(searched.kind, searched.schedules)))
    sets = searched.spinning()
    if sets:
        kinds["spinning"] = sum(map(len, sets))
    counts = collections.Counter()
    for end in ends:
        counts[end["end"]] += end["worlds"]
    if counts != kinds or sum(end["sets"] for end in ends if end["end"] == "spinning") != len(sets):
        return f"{counts}, and not {kinds} with {len(sets)} sets"
    wrong = next((wrong for wrong in (in_end(searched, sets, end) for end in ends) if wrong), None)
    return wrong or by_fewer(source, searched, sets, head, ends)


def by_fewer(source, searched, sets, plain, wanted):
    """Whether the search for ends alone finds those that the plain one finds: True, or in what they differ."""
    head, ends = told_of(source)
    if not head["complete"] or head["worlds"] > plain["worlds"] or head["plain"] or not are_as_told(ends, wanted):
        return f"{head} {ends}, and not {plain} {wanted}"
    ended = [end for end in ends if end["end"] != "spinning"]
    claimed = [end for end in ends if end["end"] == "spinning" and end["schedule"] and end["shortest"] is not None]
    if claimed:
        return f"said to be shortest, and not known: {claimed}"
    return next((wrong for wrong in (in_end(searched, sets, {**end, "from": None}) for end in ended) if wrong), True)


def told_by(end):
    """What an end is told by: its kind, the words that changed, who waits for which word, and who was stopped."""
    waiting = [(wait["stream"], wait["word"]) for wait in end["waiting"]]
    stopped = [(stream["stream"], stream["trap"]) for stream in end["stopped"]]
    return json.dumps([end["end"], end["words"], waiting, stopped])


def ends_in(ends):
    """What both searches tell of ends: all but the schedules, how many worlds they are, from how many worlds they lead
    there, and the first finding of a schedule; of those that spin whether there are any."""
    told = {(told_by(end), end["shortest"], end["expected"]) for end in ends if end["end"] != "spinning"}
    return told, any(end["end"] == "spinning" for end in ends)


def are_as_told(ends, wanted):
    """Whether the ends are those that the plain search tells, each of no more worlds: of those that differ in registers
    alone that nobody reads again one is told."""
    most = {told_by(end): end["worlds"] for end in wanted}
    return ends_in(ends) == ends_in(wanted) and all(
        end["worlds"] <= most[told_by(end)] for end in ends if end["end"] != "spinning")


def in_end(searched, sets, end):
    """What is wrong with a line of explore; None where nothing is. A line that does not say from how many worlds a
    schedule leads there has None for it."""
    steps = steps_of(end["schedule"])
    world, _ = searched.after(steps)
    spins = [found for found in sets if world in found]
    kind = "spinning" if spins else searched.kind(world)
    if kind != end["end"] or len(steps) != end["shortest"] or len(steps) != len(searched.schedules[world]):
        return f"its schedule leads to {kind}, in {len(searched.schedules[world])} steps: {end}"
    if end["from"] is None:
        return None
    if kind == "finished" and end["worlds"] == 1 and len(searched.sources([world])) != end["from"]:
        return f"from {len(searched.sources([world]))} worlds: {end}"
    if spins and end["sets"] == 1 and len(searched.sources(spins[0])) != end["from"]:
        return f"from {len(searched.sources(spins[0]))} worlds: {end}"
    if spins and end["sets"] == 1:
        wanted, told = searched.streams_in(spins[0], world), streams_told(end)
        if wanted != told:
            return f"in it {wanted}: {end}"
    return in_round(searched, world, steps, end) if spins else None


def streams_told(end):
    """The streams that run in the world of an end, each with whether it runs in a set, or waits in each world of it."""
    streams = {*end["able"], *(wait["stream"] for wait in end["waiting"])}
    in_order = sorted(streams, key=lambda name: tuple(map(int, name.split("."))))
    return [(name, "runs" if name in end["running"] else "waits") for name in in_order]


def steps_of(schedule):
    """The steps of a schedule's turns."""
    return tuple((p, s) for p, s, count in schedule for _ in range(count))


def in_round(searched, world, steps, end):
    """What is wrong with the steps that go round from a world that a schedule leads to; None where nothing is."""
    way = steps_of(end["round"])
    back, outcome = searched.after((*steps, *way))
    if back != world or outcome == b"BLOCKED" and len(way) == 1 or len(way) != searched.shortest_round(world):
        return f"it does not go round in {searched.shortest_round(world)} steps: {end}"
    return None


def random_source(chance):
    """A program of at most 8 words and 3 streams."""
    streams = chance.choice((1, 2, 2, 3))
    lines = [".slim 2"] if chance.random() < 0.3 else []
    if chance.random() < 0.2:
        lines.append(".retry 2")
    words = chance.choice((3, 4, 5) if streams == 3 else (4, 6, 8))
    for _ in range(streams):
        lines.append(f".entry w{chance.randrange(min(3, words))}")
    lines += [f".data {chance.randrange(3)}, {chance.choice((0, 1, 1))}" for _ in range(2)]
    for word in range(words - 1):
        to = chance.randrange(words)
        lines.append(f"w{word}: " + chance.choice((
            "LOAD.S r1, r0, 0", "LOAD.S r1, r0, 1", "STORE.S r1, r0, 0", "STORE.S r1, r0, 1", "LOAD.N r1, r0, 0",
            "STORE.N r1, r0, 1", "FADD.N r1, r0, 0", "ADD r1, r1, 1", "LIT r1, 1", "QUIT", f"SKIP ALWAYS, 0, w{to}",
            "SUB.T r0, r1, 1", f"SKIP NE, 0, w{to}", "TLIT t1, w0", "CREATE t1, r1", "RESERVE r2, r1")))
    lines.append(f"w{words - 1}: QUIT")
    return "".join(line + "\n" for line in lines).encode()


@checks.others("lab/every_schedule")
def every_schedule():
    """Random programs, and small examples."""
    for name in ("producer_consumer", "mailbox"):
        source = os.path.join(EXAMPLES, name + ".asm")
        yield name, lambda source=source: (True, agrees(source, tool.asm(tool.read(source))))
    for seed in range(PROGRAMS):
        yield f"random program {seed}", lambda seed=seed: (True, random_program(seed))


def random_program(seed):
    """The first of the programs that this seed makes that is small enough."""
    chance = random.Random(seed)
    for _ in range(20):
        text = random_source(chance)
        image = tool.asm(text)
        if image.startswith(b"!"):
            continue
        with tool.made_files(source=text) as paths:
            answer = agrees(paths["source"], image)
        if answer is not None:
            return answer if answer is True else f"{text.decode()}{answer}"
    return "no small program"


@checks.others("lab/ends_by_fewer_worlds")
def ends_by_fewer_worlds():
    """The examples whose worlds are looked at in some seconds: the search for ends alone tells of the same ends."""
    for name in ("count", "fetch_add", "forwarding", "future", "limited_wait", "lock", "readers_writer", "silent_wait",
                 "trap_handler"):
        source = os.path.join(EXAMPLES, name + ".asm")
        yield name, lambda source=source: (ends_in(told_of(source, "--plain")[1]), ends_in(told_of(source)[1]))


@checks.others("lab/explored")
def explored():
    """Bounds, beginnings, kept schedules, claims, grades, and how many ends a survey meets."""
    yield "a bound", lambda: ((5, b"some schedules: 10 states"), bounded())
    yield "a beginning", lambda: (True, begins())
    yield "kept schedules", lambda: ([1, 2, 3, 4], kept())


def bounded():
    ended = lab("explore", "lock.asm", "--states", "10")
    return ended.status, ended.out[:25]


def begins():
    """Behind a beginning there are the worlds of the schedules that begin so: all of them behind the empty one."""
    with tool.made_files(nothing=b"", some=b"2 0 3\n3 0 1\n") as paths:
        whole = lab("explore", "lock.asm").out == lab("explore", "lock.asm", "--from", paths["nothing"]).out
        head, *ends = map(json.loads, lab("explore", "lock.asm", "--from", paths["some"], "--json").out.splitlines())
        begin = all(steps_of(end["schedule"])[:4] == ((2, 0),) * 3 + ((3, 0),) and end["shortest"] == 20 for end in ends)
    return whole and begin and head["complete"] and 0 < head["worlds"] < 6803 or (whole, begin, head)


def kept():
    """What mta_sim comes to by the schedules that are kept: the counts of the word at 8."""
    image = tool.asm(tool.read(os.path.join(EXAMPLES, "lock.asm")))
    found = []
    with tempfile.TemporaryDirectory(prefix="mta-case-") as folder:
        lab("explore", "lock.asm", "--keep", folder)
        for name in sorted(os.listdir(folder)):
            end = worlds.end_of(tool.trace(image, tool.read(os.path.join(folder, name))))
            found += [int(value, 16) for value in re.findall(rb"^cell 000000000008 ([0-9A-F]{16})", end, re.MULTILINE)]
    return sorted(found)
