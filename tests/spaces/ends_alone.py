"""The search for ends alone, by the rules of docs/LAB_REFERENCE.md ("Every schedule"): of worlds that differ in registers alone that
nobody reads again, and in condition codes that nobody asks for again, one is kept, and a step that concerns nobody else, and
that no claim can see, is taken alone where it leads to a later world. So are the steps of a set that no other stream comes to
meet, where one of them is such a step."""

import collections

import machine
from asking import Asking
from first_sets import FirstSets
from liveness import ALL, Liveness
from settled import Settled
from touched import may_change


class EndsAlone:
    """The worlds that the search looks at, and between which places steps lead; registers that are named are kept, claims
    look at the places in `looked_at` and at these words, and `most` is how many worlds there may be."""

    def __init__(self, program, begin, named, most, looked_at=(), words=()):
        self.program, self.named, self.most = program, frozenset(named), most
        self.looked_at, self.words = frozenset(looked_at), frozenset(words)
        self.live = Liveness(program)
        self.asking = Asking(program, self.live.is_handled)
        self.settled = Settled(program)
        self.first_sets = FirstSets(program, self.live, self.named)
        world = machine.start(program)
        for p, s in begin:
            world, _ = machine.step(program, world, p, s)
        self.worlds, self.places, self.steps = [], {}, []
        self.place(world)
        self.is_whole = self.search()

    def told_as(self, world):
        """What is the same of all worlds of which one is kept."""
        cleared = self.live.cleared(world, self.named)
        if self.named >= ALL:
            return cleared
        return cleared._replace(processors=tuple(
            processor._replace(streams=tuple(map(self.without_codes, processor.streams)))
            for processor in cleared.processors))

    def without_codes(self, stream):
        """A stream, where it is not idle without the condition codes that nobody may ask for from its pc on."""
        return stream if stream.status == "idle" else stream._replace(ssw=self.asking.kept(stream.ssw))

    def place(self, world):
        """The place of the one that is kept of such worlds; a new one comes behind the others."""
        key = self.told_as(world)
        if key not in self.places:
            self.places[key] = len(self.worlds)
            self.worlds.append(world)
        return self.places[key]

    def search(self):
        """Goes through the worlds in the order in which they were found, and says whether these are all."""
        at = 0
        while at < len(self.worlds):
            self.expand(at)
            if len(self.worlds) > self.most:
                return False
            at += 1
        return True

    def expand(self, at):
        """Takes the steps from the world at a place."""
        world = self.worlds[at]
        others = []
        for p, s in machine.running(world):
            if not is_free(self.settled, world, p, s) or self.is_seen(world, p, s):
                others.append((p, s))
            elif self.take(at, p, s) > at:
                return
        found = self.first_sets.least(world, [step for step in others if self.is_unseen(world, step)])
        first = [step for step in others if step in found] if found else others
        later = [(p, s) for p, s in first if self.take(at, p, s) > at]
        if found and not any(self.is_unseen(world, step) for step in later):
            for p, s in [step for step in others if step not in first]:
                self.take(at, p, s)

    def take(self, at, p, s):
        """Takes a step, and says to which place it leads."""
        world, _ = machine.step(self.program, self.worlds[at], p, s)
        to = self.place(world)
        if to != at:
            self.steps.append((at, to))
        return to

    def is_seen(self, world, p, s):
        """Whether the stream of a step runs at a place that is looked at, before the step or after it."""
        after, _ = machine.step(self.program, world, p, s)
        streams = [at.processors[p].streams[s] for at in (world, after)]
        return any(stream.status == "running" and stream.ssw % 2**32 in self.looked_at for stream in streams)

    def is_unseen(self, world, step):
        """Whether the reference of a step is of no word that is looked at, or only reads, and neither stands at a place that is
        looked at nor leads to one."""
        if not self.first_sets.asked(world, step):
            return False
        p, s = step
        after, _ = machine.step(self.program, world, p, s)
        before, behind = [at.processors[p].streams[s] for at in (world, after)]
        place = before.ssw % 2**32
        # (a stream that ends is no more; it has ended past its instruction)
        to = behind.ssw % 2**32 if behind.status != "idle" else place + 1
        asked = self.first_sets.request(world, step).pointer % 2**48 // 8
        is_changed = may_change(self.first_sets.asked(world, step))
        return not self.looked_at & {place, to} and not (is_changed and asked in self.words)

    def leading_to(self, world):
        """From how many of the worlds steps lead to the one that is kept for a world."""
        before = collections.defaultdict(list)
        for at, to in self.steps:
            before[to].append(at)
        found = {self.places[self.told_as(world)]}
        waiting = list(found)
        while waiting:
            for at in before[waiting.pop()]:
                if at not in found:
                    found.add(at)
                    waiting.append(at)
        return len(found)


def is_free(settled, world, p, s):
    """Whether a step can be taken before all others: its instruction refers to no word of the memory, and neither reserves
    nor starts nor ends a stream, or ends its own where each other stream of the processor is settled. Past the program
    there is none."""
    streams, words = world.processors[p].streams, settled.program.words
    place = streams[s].ssw % 2**32
    if place >= len(words):
        return False
    word = words[place]
    if word.memory:
        return False
    name = word.control[0] if word.control else None
    if name in ("QUIT", "QUITP"):
        return all(settled.is_settled(stream) for number, stream in enumerate(streams) if number != s)
    return name not in ("RESERVE", "CREATE")
