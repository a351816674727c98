"""The schedule of a seed, by docs/MACHINE.md ("Schedules") and the machine of tests/spaces: a second maker, which
shares nothing with the programs that are tested."""

import itertools
import os
import sys

import generator
import table

sys.path.append(os.path.join(table.ROOT, "tests/spaces"))

import machine  # noqa: E402
import memory  # noqa: E402
import sources  # noqa: E402

# how many steps of the fair run count at most, and how many a run usually may have
MOST_FAIR = 10_000
USUAL = 10_000


def is_free(program, world, stream):
    """Whether the memory would not block the next step of a stream that runs."""
    p, s = stream
    processor = world.processors[p]
    place = processor.streams[s].ssw % 2**32
    word = program.words[place] if place < len(program.words) else machine.Word()
    if word.control and word.control[0] == "CREATE" and processor.scur == processor.sres or not word.memory:
        return True
    return memory.serve(world.memory, memory.request_of(processor.streams[s], word.memory))[0] != "blocked"


def in_rounds(steps, ready):
    """The next stream behind the last step, and from the first again."""
    return next((stream for stream in ready if steps and stream > steps[-1]), ready[0])


def fairly(steps, ready):
    """The processors in turn, and of each its streams in turn."""
    processors = sorted({p for p, _ in ready})
    turn = next((p for p in processors if steps and p > steps[-1][0]), processors[0])
    own = [stream for stream in ready if stream[0] == turn]
    return in_rounds([step for step in steps if step[0] == turn], own)


def by_word(word, streams):
    return streams[word * len(streams) >> 64]


def turn_of(steps, free, word, length):
    """One of these streams: that of the last step goes on, but for one word in `length`; else one begins its turn."""
    return steps[-1] if steps and steps[-1] in free and word % length else by_word(word, free)


def in_turns(steps, program, world, ready, word, length):
    """The same of all free streams."""
    free = [stream for stream in ready if is_free(program, world, stream)]
    return turn_of(steps, free, word, length) if free else in_rounds(steps, ready)


class Rule:
    """Who steps by the rule of a seed, where the fair run has so many steps."""

    def __init__(self, seed, fair):
        self.seed, self.fair, self.words = seed, fair, generator.words_of(seed)
        first, second = itertools.islice(generator.words_of(seed), 2)
        self.changes = sorted((first * fair >> 64, second * fair >> 64))
        longest = (USUAL - fair) * 3 // 4
        self.delay = first * (longest if second % 4 else longest // 64) >> 64

    def choose(self, steps, program, world):
        """It is asked once a step, in order."""
        ready, word = machine.running(world), next(self.words)
        match self.seed % 8:
            case 0:
                return by_word(word, ready)
            case 1 | 5:
                return in_turns(steps, program, world, ready, word, 8)
            case 2 | 6:
                return in_turns(steps, program, world, ready, word, 32)
            case 4:
                return self.with_one_late(steps, program, world, ready, word)
        if len(steps) >= 2 * self.fair + 1000:
            return in_turns(steps, program, world, ready, word, 8)
        return self.by_priority(steps, program, world, ready)

    def with_one_late(self, steps, program, world, ready, word):
        """Turns of 8, for some steps without the stream of the largest number, as long as another one is free."""
        late = min(ready, key=lambda stream: (-own_number(self.seed, stream), stream))
        others = [stream for stream in ready if stream != late and is_free(program, world, stream)]
        if others and len(steps) < self.delay:
            return turn_of(steps, others, word, 8)
        return in_turns(steps, program, world, ready, word, 8)

    def by_priority(self, steps, program, world, ready):
        """The free stream of the highest priority."""
        free = [stream for stream in ready if is_free(program, world, stream)]
        if not free:
            return in_rounds(steps, ready)
        return max(free, key=lambda stream: (self.rank(steps, stream), -stream[0], -stream[1]))

    def rank(self, steps, stream):
        """A stream's own number; below all of these that of one that fell, which took the step of a change."""
        for place, change in reversed([*enumerate(self.changes)]):
            if change < len(steps) and steps[change] == stream:
                return -1 - place
        return own_number(self.seed, stream)


def own_number(seed, stream):
    """The number of a stream by which it is above others as long as it does not fall."""
    p, s = stream
    return next(generator.seeding_words(seed + (256 * p + s + 1 << 40)))


def is_standstill(program, world):
    ready = machine.running(world)
    return bool(ready) and all(machine.step(program, world, p, s) == (world, "blocked") for p, s in ready)


def made(program, choose, most):
    """The steps that are made of a program, at most so many, and why there are no more."""
    world, steps = machine.start(program), []
    while True:
        if not machine.running(world):
            return steps, "nobody runs"
        if is_standstill(program, world):
            return steps, "deadlock"
        if len(steps) == most:
            return steps, "ran out of steps"
        step = choose(steps, program, world)
        world = machine.step(program, world, *step)[0]
        steps.append(step)


def schedule_of_seed(text, seed, most):
    """The same of a source text by a seed."""
    program = sources.read(text)
    fair, _ = made(program, lambda steps, program, world: fairly(steps, machine.running(world)), MOST_FAIR)
    return made(program, Rule(seed, len(fair)).choose, most)


def written(steps):
    """A schedule as it is written: a line for each run of equal steps."""
    runs = ((step, sum(1 for _ in run)) for step, run in itertools.groupby(steps))
    return "".join(f"{p} {s} {count}\n" for (p, s), count in runs)
