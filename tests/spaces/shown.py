"""What ends and endless loops show: by the worlds of the tests' own search, and by the objects of mta_lab."""

import expectations
import machine
import memory as store
import search


def in_a_loop(space, inside, first, end):
    """What an object of a set that spins shows, beside what is so: who can go on in some of its worlds, who was stopped, which
    words change in it, and which differ in its first world."""
    able = sorted({(p, s) for world in inside for p, s in machine.running(world) if can_go_on(space.program, world, p, s)})
    changing = [8 * at for at, words in enumerate(zip(*(world.memory for world in inside))) if len(set(words)) > 1]
    yield "who runs", [tuple(map(int, stream.split("."))) for stream in end["running"]], able
    yield "which words change", end["changing"], changing
    yield "who was stopped", {(one["stream"], one["trap"]) for one in end["stopped"]}, {
        (f"{p}.{s}", trap) for (p, s), trap in search.stopped(first).items()}
    yield "which words differ", end["words"], changed_words(space.program, first)


def can_go_on(program, world, p, s):
    """Whether a step of a stream is not blocked, or changes how often it has tried."""
    after, outcome = machine.step(program, world, p, s)
    return outcome != "blocked" or after != world


def by_world(space, world, expected):
    """What tells the lines of ends apart: the kind beside what is expected, who was stopped, who waits for which word, and the
    words that differ."""
    waiting = [] if space.kind(world) != "deadlock" else machine.running(world)
    waits = tuple((f"{p}.{s}", awaited(space.program, world, p, s)) for p, s in waiting)
    stopped = tuple(sorted((f"{p}.{s}", trap) for (p, s), trap in search.stopped(world).items()))
    kind = expectations.kind_of(expected, world, space.kind(world))
    return kind, stopped, waits, str(changed_words(space.program, world))


def awaited(program, world, p, s):
    """The address of the word for which a blocked stream waits."""
    stream = world.processors[p].streams[s]
    return store.serve(world.memory, store.request_of(stream, program.words[stream.ssw % 2**32].memory))[1]


def by_object(told):
    """The same of an object of an end."""
    stopped = tuple(sorted((one["stream"], one["trap"]) for one in told["stopped"]))
    return told["end"], stopped, tuple((one["stream"], one["word"]) for one in told["waiting"]), str(told["words"])


def changed_words(program, world):
    """The words that differ from the start, as objects have them."""
    return [[8 * at, held(before), held(after)] for at, (before, after) in enumerate(zip(program.data, world.memory))
            if before != after]


def held(word):
    """The value and the tags of a word, as objects have them."""
    value, tags = word
    return [str(value), tags]
