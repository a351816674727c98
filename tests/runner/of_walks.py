"""Long sessions of the debugger in random turns. Where each command has to lead is worked out from the run's trace and
from a session that goes on step by step; what is shown there, from runs that start anew and end there."""

import bisect
import functools
import os
import random

import checks
import table
import talks
import tool
import worlds

# a source, how many random steps, and how many commands
THREE, STEPS, COMMANDS = "tests/cases/debug/three.asm", 20_000, 2_000
# runs of examples, and how many commands over each
RUNS, FEWER = ("barrier.ends", "bounded_buffer.ends", "fetch_add.ends", "forwarding.ends", "lock.found", "mailbox.ends",
               "philosophers.deadlock", "trap_handler.ends"), 400
# after so many commands all streams and words are looked at
LOOK = 100


class Positions:
    """The positions of a run: how many there are behind the first, which are followed by a step of a running stream of
    a processor at a pc, and at which a word, or its tags, were changed by the step before."""

    def __init__(self, image, schedule):
        trace, self.listing = tool.trace(image, schedule), tool.listing(image)
        steps = trace[:-len(worlds.end_of(trace))].split(b"\n")[:-1]
        self.length, self.breaks = len(steps), {}
        for position, step in enumerate(steps):
            _, p, _, pc, outcome = step.split(maxsplit=4)
            if outcome != b"SKIPPED":
                self.breaks.setdefault((int(p), int(pc, 16)), []).append(position)
        self.addresses = [8 * k for k in range(sum(1 for _ in worlds.words_of(self.listing)))]
        self.find_changes(image, schedule)

    def find_changes(self, image, schedule):
        """Looks at the words behind each step."""
        count = len(self.addresses)
        look = b"m 0 %d\n" % count
        lines = tool.session(image, schedule, look + self.length * (b"s 1\n" + look)).out.split(b"\n")
        self.changes, self.tag_changes = ({a: [] for a in self.addresses} for _ in range(2))
        for position in range(1, self.length + 1):
            behind = position * (count + 1)
            before = behind - count - 1
            for k, address in enumerate(self.addresses):
                old, new = lines[before + k], lines[behind + k]
                if old != new:
                    self.changes[address].append(position)
                    if old[-1:] != new[-1:]:
                        self.tag_changes[address].append(position)

    def stops(self, name, *numbers):
        """The positions at which a point stops."""
        if name == "b":
            return self.breaks.get(numbers, [])
        return (self.changes if name == "w" else self.tag_changes)[numbers[0]]


class Walk:
    """A session's position and points, by the rules."""

    def __init__(self, positions, choose):
        self.positions, self.choose = positions, choose
        self.here, self.points = 0, {}

    def command(self):
        """A random command; few are of points, and these mostly of what is seldom met."""
        kind, below = self.choose.randrange(20), self.choose.randrange
        if kind == 0:
            return "b", *self.choose.choice(list(self.positions.breaks) or [(0, 0)])
        if kind == 1:
            return "b", 0, below(16)
        if kind in (2, 3):
            return self.choose.choice(["w", "wt"]), self.choose.choice(self.positions.addresses)
        if kind <= 7 and self.points:
            return "d", list(self.points)[-1]
        if kind <= 10:
            return "s", below(min(300, self.positions.length) + 1)
        if kind <= 14:
            return (self.choose.choice(["c", "back"]),)
        return "g", below(self.positions.length + 2)

    def stop(self):
        """The least stop above, and the greatest below, where there are such."""
        above, below = [], []
        for point in self.points.values():
            stops = self.positions.stops(*point)
            above += stops[bisect.bisect_right(stops, self.here):][:1]
            below += stops[:bisect.bisect_left(stops, self.here)][-1:]
        return min(above, default=None), max(below, default=None)

    def answer(self, name, *numbers):
        """The answer to a command that makes no point."""
        if name == "d":
            del self.points[numbers[0]]
            return f"gone {numbers[0]}"
        above, below = self.stop()
        if name == "c":
            self.here, why = (above, "stop") if above is not None else (self.positions.length, "end")
        elif name == "back":
            self.here, why = (below, "stop") if below is not None else (0, "start")
        else:
            goal = numbers[0] + (self.here if name == "s" else 0)
            if goal > self.positions.length:
                return "fault 5"
            self.here, why = goal, "moved"
        return f"at {self.here} {why}"

    def told(self, command, answer):
        """What the answer has to be; a new point may have any key that no other has."""
        if command[0] not in ("b", "w", "wt"):
            return self.answer(*command)
        key = int(answer.removeprefix("point "))
        wanted = "a key that no point has" if key in self.points else answer
        self.points[key] = command
        return wanted


def looked_at(talk, walk, image, schedule):
    """What a run that ends at the position has come to, and what the session shows there."""
    lines = schedule.split(b"\n")[:walk.here]
    end = worlds.end_of(tool.trace(image, b"".join(line + b"\n" for line in lines)))
    commands, answers = worlds.shown(walk.positions.listing, end)
    found = [talk.answer(line) for line in commands.split(b"\n")[:-1]]
    return answers, b"".join(found)


def walks(name, image, schedule, count):
    """A walk of so many commands: the first answer that is wrong, and the command before it, and what was wanted."""
    choose = random.Random(name)
    walk = Walk(Positions(image, schedule), choose)
    with talks.talk(image, schedule) as talk:
        for number in range(count):
            command = walk.command()
            line = " ".join(map(str, command))
            answer = talk.ask(line.encode()).decode().removesuffix("\n")
            wanted, got = walk.told(command, answer), answer
            if wanted == got and number % LOOK == 0:
                wanted, got = looked_at(talk, walk, image, schedule)
            if wanted != got:
                return f"command {number}, {line}: {wanted!r}", f"{got!r}"
    return "all answers", "all answers"


def random_steps(image):
    """A schedule with a line for each step, some of which are of a stream that never runs."""
    choose, processors = random.Random(STEPS), worlds.numbers_of(tool.listing(image))[0]
    steps = ((choose.randrange(processors), choose.randrange(20) // 19) for _ in range(STEPS))
    return b"".join(b"%d %d\n" % step for step in steps)


def single_steps(schedule):
    """The same schedule with a line for each step."""
    lines = (line.split(b" ") for line in schedule.split(b"\n") if line)
    return b"".join(int((line[2:] or [1])[0]) * (b" ".join(line[:2]) + b"\n") for line in lines)


def assembled(source):
    return tool.asm(tool.read(os.path.join(table.ROOT, source)))


@checks.others("debug/walks")
def all_walks():
    image = assembled(THREE)
    yield f"{THREE}, {STEPS} random steps", functools.partial(walks, THREE, image, random_steps(image), COMMANDS)
    for run in RUNS:
        schedule = single_steps(tool.read(os.path.join(table.ROOT, f"examples/{run}.schedule")))
        image = assembled(f"examples/{run.split('.')[0]}.asm")
        yield f"examples/{run}", functools.partial(walks, run, image, schedule, FEWER)
