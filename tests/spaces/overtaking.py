#!/usr/bin/env python3
"""Random programs with loops: how often a stream is overtaken by `mta_lab explore`, beside a plain search of schedules by a
machine of the tests' own. Each line says that a stream which stands in a range of program words is overtaken at most so many
times by another, at another range. A run that shows more has to be shown just where the search finds one, and each is replayed:
its schedule leads to a world where the first stream waits, and none to that world is shorter; a step of this stream comes
first; it waits throughout; and the other stream comes to its range too often. A third of the files let streams rest, which
changes none of that. Statuses and the verdict of `grade --explore` have to fit. A difference is printed with its seed and its program. Needs Python 3.

  overtaking [--programs N] [--first SEED] [--jobs N] [--program PATH] [--machine PATH]

There are 1,000 programs from seed 0 on, by the programs that are built here; with PROGRAM=draft in the environment those
are the drafts."""

import sys

sys.dont_write_bytecode = True

import collections

import leading
import machine
import search
from lassos import stands
from resting import places, written
from starving import name_of, steps_of


class Case(leading.Case):
    """A program that a seed makes, its worlds, and how often each stream of a line may be overtaken."""

    def add_line(self, number, chance):
        """Adds a line of this number."""
        count = len(self.made.program.entries)
        if count < 2:
            return
        program = self.made.program
        (p, q), waits, inside = chance.sample(range(count), 2), places(program, chance), places(program, chance)
        who, other, most = (p, 0), (q, 0), chance.choice((0, 0, 0, 1, 1, 2, 5))
        if chance.random() < 0.3:
            waits = max(0, waits[0] - 2), waits[1]
        times = chance.choice(("time", "times"))
        self.lines.append(f"{name_of(who)} in {written(waits, chance)} is overtaken at most {most} {times}"
                          f" by {name_of(other)} at {written(inside, chance)}")
        self.asked.append((number, who, waits, other, inside, most))

    def is_evaded(self, who, waits, other, inside, most):
        """Whether a schedule shows that a stream is overtaken too often."""
        steps = self.runs.steps
        seen = {(to, 0) for world in self.space.distance if stands(world, who, waits)
                for stream, to, _ in steps[world] if stream == who and stands(to, who, waits)}
        waiting = collections.deque(seen)
        while waiting:
            world, times = waiting.popleft()
            for _, to, _ in steps[world]:
                if not stands(to, who, waits):
                    continue
                found = to, times + is_entry(world, to, other, inside)
                if found[1] > most:
                    return True
                if found not in seen:
                    seen.add(found)
                    waiting.append(found)
        return False

    def faults(self, place, it):
        """What is not so of a run that is shown."""
        _, who, waits, other, inside, most = self.asked[place]
        stem, way = steps_of(it["schedule"]), steps_of(it["way"])
        world = search.world_after(self.made.program, stem)
        if self.space.distance.get(world) != len(stem) or it["steps"] != len(stem):
            yield f"{place}: a shortest schedule has {self.space.distance.get(world)} steps, and not {len(stem)}"
        if way[:1] != [who] or it["round"] is not None or it["follows"] != "anything":
            yield f"{place}: the way begins with {way[:1]}, and {it['follows']} follows: {it['round']}"
        times, here = 0, world
        for number, stream in enumerate(way):
            if stream not in self.runs.running[here] or not stands(here, who, waits):
                yield f"{place}: {stream} does not run, or {who} does not wait at {waits}"
            to, _ = machine.step(self.made.program, here, *stream)
            times += number > 0 and is_entry(here, to, other, inside)
            here = to
        if not stands(here, who, waits) or times <= most:
            yield f"{place}: {who} does not wait at {waits}, or {other} comes to {inside} {times} times, and not more than {most}"


def is_entry(world, to, stream, places):
    """Whether a stream comes to places from one world to the next."""
    return not stands(world, stream, places) and stands(to, stream, places)


if __name__ == "__main__":
    leading.main(Case, __doc__, "are not kept")
