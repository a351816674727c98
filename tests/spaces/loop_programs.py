"""Random programs with endless loops, and streams beside them that trap, wait, end, or are started in the loop; as data and as
source texts."""

import programs
from machine import NO_HANDLER, Program, Word

QUIT, HERE = Word(control=("QUIT",)), Word(control=("SKIP", "ALWAYS", 0, -1))


def made(chance):
    """A random program: a part of a loop, and one or two others, in any order."""
    slim, memory = chance.choice((1, 1, 1, 2)), chance.choice((1, 1, 2))
    parts = [chance.choice(LOOPS if slim == 1 else (starting,))]
    parts += chance.choices(OTHERS, k=chance.choice((1, 1, 2)))
    chance.shuffle(parts)
    words, entries = [], []
    for part in parts:
        entries.append(len(words))
        words += part(chance, len(words), memory)
    handler = len(words) if chance.random() < 0.06 else NO_HANDLER
    words += [chance.choice((QUIT, HERE))] * (handler != NO_HANDLER)
    data = tuple((chance.choice((0, 0, 0, 1, 8)), chance.choice((0, 1, 1))) for _ in range(memory))
    retry = 1 if chance.random() < 0.06 else 0
    program = Program(slim, retry, handler, tuple(entries), data, tuple(words))
    return programs.Made(program, programs.text_of(program), memory)


def again(words, condition="ALWAYS"):
    """Some words, and a way back to the first."""
    return [*words, Word(control=("SKIP", condition, 0, -len(words) - 1))]


def reference(chance, name, suffix, memory, register=1):
    """A reference to a word of data by r0."""
    return Word(memory=(name, suffix, register, 0, chance.randrange(memory)))


# Of each part its words, which begin at an index of the program.


def alone(chance, at, memory):
    """A loop of one word, or of two."""
    return again([Word(wide=("LIT", 2, chance.randrange(3)))] * chance.randrange(2))


def polling(chance, at, memory):
    """Reads a word again and again, at times until it is 1, and ends, or goes on past its end."""
    asked = [reference(chance, "LOAD", ".N", memory), Word(arithmetic=("SUB", True, 0, 1, 1))]
    if chance.random() < 0.3:
        return again(asked[:1])
    return again(asked, "NE") + [chance.choice((QUIT, HERE))]


def turning(chance, at, memory):
    """Empties a word and fills it, or only one of both: it may wait."""
    both = [reference(chance, "LOAD", ".S", memory), reference(chance, "STORE", ".S", memory)]
    return again(chance.choice((both, both, both[::-1], both[:1], both[1:])))


def deciding(chance, at, memory):
    """Loops or ends, as a word is when it is read."""
    return [reference(chance, "LOAD", ".N", memory), Word(arithmetic=("SUB", True, 0, 1, chance.choice((0, 0, 4)))),
            Word(control=("SKIP", chance.choice(("EQ", "NE")), 0, 1)), HERE, QUIT]


def storing(chance, at, memory):
    """Stores one value or the other in turn."""
    return again([Word(wide=("LIT", 1, chance.choice((1, 4)))), reference(chance, "STORE", ".N", memory),
                  *[reference(chance, "STORE", ".N", memory, 0)] * chance.randrange(2)])


def starting(chance, at, memory):
    """Starts a stream again and again, which fills a word, ends or traps, and waits for it at times."""
    word = chance.randrange(memory)
    child = chance.choice((Word(memory=("STORE", ".S", 1, 0, word), control=("QUITP",)), Word(control=("QUITP",)),
                           Word(memory=("LOAD", ".N", 1, 0, memory), control=("QUITP",)), HERE))
    waits = [Word(memory=("LOAD", ".S", 4, 0, word))] if chance.random() < 0.7 else []
    loop = again([Word(control=("CREATE", 1, 3)), *waits])
    return [Word(wide=("LIT", 2, 1)), Word(control=("RESERVE", 3, 2)), Word(wide=("TLIT", 1, at + 3 + len(loop))), *loop, child]


def trapping(chance, at, memory):
    """Traps, at times after another reference; and without QUIT past the program, if it is the last part."""
    bad = chance.choice((
        [Word(memory=("LOAD", ".N", 1, 0, memory + chance.randrange(2)))],
        [Word(wide=("LIT", 1, 4)), Word(memory=("STORE", ".N", 1, 1, 0))],
        [Word(wide=("LITH", 1, 0x08000000)), Word(memory=("LOAD", "", 2, 1, 0))],
        [Word(control=("CREATE", 1, 0))]))
    return [reference(chance, "LOAD", ".N", memory, 2)] * chance.randrange(2) + bad + [QUIT] * (chance.random() < 0.8)


def racing(chance, at, memory):
    """Traps if another stream has stored 4 before it reads."""
    return [reference(chance, "LOAD", ".N", memory), Word(memory=("LOAD", ".N", 2, 1, 0)), QUIT]


def writing(chance, at, memory):
    """Stores a value that traps whoever takes it for an address, or one that ends a loop."""
    suffix = chance.choice((".N", ".N", ".S"))
    return [Word(wide=("LIT", 1, chance.choice((1, 4, 4)))), reference(chance, "STORE", suffix, memory), QUIT]


def waiting(chance, at, memory):
    """Waits for a word."""
    return [reference(chance, "LOAD", chance.choice((".S", ".F")), memory), QUIT]


LOOPS = (alone, polling, turning, storing, deciding, deciding, deciding)
OTHERS = (trapping, trapping, racing, racing, writing, writing, waiting, polling, turning)
