"""Random lines that let streams rest, and ranges of program words."""

import random

# of so many programs one has such lines, and how many words more than one their ranges have
ONE_OF, WIDER = 3, (0, 0, 1, 2, 3)


def drawn(seed, program):
    """Which streams may rest at which places of the program that a seed makes, whether the lines that say so come before all
    others, and these lines; of most programs none. What else the seed draws stays as it is."""
    chance = random.Random(f"rests {seed}")
    count = chance.choice((1, 1, 2)) if chance.randrange(ONE_OF) == 0 else 0
    rests = [((chance.randrange(len(program.entries)), 0), places(program, chance, WIDER)) for _ in range(count)]
    texts = ["%d.%d may rest in " % stream + written(where, chance) for stream, where in rests]
    return rests, chance.random() < 0.5, texts


def places(program, chance, more=(0, 0, 1)):
    """A range of program words, of so many more than one."""
    count = len(program.words)
    first = chance.randrange(count)
    return first, min(count - 1, first + chance.choice(more))


def written(where, chance):
    """A range as a line has it: one word alone, where it has one, or both ends."""
    if where[0] == where[1] and chance.random() < 0.5:
        return str(where[0])
    return "%d..%d" % where
