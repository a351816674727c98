"""Which streams go round alone: their own steps, one of them not blocked, lead from a world back to that very world. And which of
them poll: they read on the way, and ask nothing else of the memory."""

import collections

import machine

READS = ("LOAD", "TAGGET")


def round_of(program, world, stream):
    """How many steps of a stream alone lead back to a world, one of them not blocked; 0 where none do."""
    seen, here, count, is_taken = {world}, world, 0, False
    while stream in machine.running(here):
        here, outcome = machine.step(program, here, *stream)
        count, is_taken = count + 1, is_taken or outcome != "blocked"
        if here == world:
            return count if is_taken else 0
        if here in seen:
            return 0
        seen.add(here)
    return 0


def rounds(space):
    """Those of a space: the world and the stream of each, with its steps."""
    counts = {(world, stream): round_of(space.program, world, stream)
              for world in space.distance for stream in machine.running(world)}
    return {found: count for found, count in counts.items() if count}


def polling(space):
    """The streams that poll, each with the lowest words at which it reads, one of each way round."""
    found = collections.defaultdict(set)
    for (world, stream), count in rounds(space).items():
        asked = []
        for _ in range(count):
            at = world.processors[stream[0]].streams[stream[1]].ssw % 2**32
            if at < len(space.program.words) and space.program.words[at].memory:
                asked.append((at, space.program.words[at].memory[0]))
            world, _ = machine.step(space.program, world, *stream)
        if asked and all(name in READS for _, name in asked):
            found[stream].add(min(asked)[0])
    return found
