"""Random programs that have slips: labels as addresses, pointers with any bits, loops of arithmetic alone, locks that begin
empty, ends without QUIT; as data and as source texts."""

from typing import NamedTuple

import programs
from machine import NO_HANDLER, Program, Word

# the high halves of pointers: normal, future and sync control, the reserved one, a bit that none may have, all address bits
HIGH = (0, 0, 0x10000000, 0x18000000, 0x18000000, 0x08000000, 0x10000, 0xFFFF)
LOW = (0, 0, 8, 8, 4, 16, 0xFFFF0008)
SUFFIXES = (".N", ".N", ".S", ".S", ".S", ".F", "", "")


class Made(NamedTuple):
    """A random program, and its source text, in which the word of index n has the label wN, on line `first + n`; the LITs of
    some words name labels."""

    program: Program
    text: bytes
    first: int
    labels: set


def made(chance):
    """A random program."""
    length = chance.choice((3, 4, 5, 6, 7))
    entries = tuple(chance.randrange(min(4, length)) for _ in range(chance.choice((1, 1, 2, 2, 3))))
    slim = 2 if chance.random() < 0.15 else 1
    retry = 1 if chance.random() < 0.05 else 0
    trap = chance.randrange(length) if chance.random() < 0.04 else NO_HANDLER
    data = tuple((chance.choice((0, 1, 8)), chance.choice((0, 1))) for _ in range(chance.choice((1, 2, 2))))
    words = []
    while len(words) < length:
        words += piece(chance, len(words), length, len(data), slim)
    words = words[:length]
    if chance.random() < 0.7:
        words[-1] = Word(control=("QUIT",))
    program = Program(slim, retry, trap, entries, data, tuple(words))
    labels = {at for at, word in enumerate(words) if word.wide and word.wide[0] == "LIT" and word.wide[2] < length
              and chance.random() < 0.5}
    head = programs.text_of(program).splitlines()[:-length]
    lines = head + [line_of(at, word, at in labels) for at, word in enumerate(words)]
    return Made(program, b"".join(line + b"\n" for line in lines), len(head) + 1, labels)


def line_of(at, word, has_label):
    """The line of a word."""
    text = f"LIT r{word.wide[1]}, w{word.wide[2]}" if has_label else programs.word_text(word)
    return f"w{at}: {text}".encode()


def piece(chance, at, length, memory, slim):
    """Some words: a reference by a pointer that is made before it, a lock that is taken and released, a loop of arithmetic, or
    one word."""
    roll, one = chance.random(), chance.choice((1, 2))
    if roll < 0.25:
        made_by = [Word(wide=("LIT", one, chance.choice((*LOW, *range(length))))), Word(wide=("LITH", one, chance.choice(HIGH)))]
        name, suffix, register, _, displacement = reference(chance, memory)
        by = Word(memory=(name, suffix, register, one, displacement))
        return chance.choice((made_by[:1], made_by[1:], made_by)) + [by]
    if roll < 0.4:
        lock, between = chance.randrange(memory), [word_of(chance, at + 1, length, memory, slim)]
        taken = [Word(memory=("LOAD", ".S", one, 0, lock)), *between * chance.randrange(2), Word(memory=("STORE", ".S", one, 0, lock))]
        return taken if chance.random() < 0.8 else taken[::-1]
    if roll < 0.55:
        body = [Word(arithmetic=programs.arithmetic_operation(chance)) for _ in range(chance.choice((1, 1, 2)))]
        body += [Word(arithmetic=("SUB", True, 0, one, chance.choice((1, "r1", "r2"))))] * chance.randrange(2)
        return body + [Word(control=("SKIP", chance.choice(programs.CONDITIONS), 0, -1 - len(body)))]
    return [word_of(chance, at, length, memory, slim)]


def word_of(chance, at, length, memory, slim):
    """A word of the program: an operation, or two that write no register in common."""
    roll = chance.random()
    if roll < 0.36:
        return Word(memory=reference(chance, memory))
    if roll < 0.40:
        return Word(memory=reference(chance, memory), control=control(chance, at, length, slim))
    if roll < 0.56:
        return Word(wide=wide(chance, length))
    if roll < 0.74:
        return Word(arithmetic=programs.arithmetic_operation(chance))
    if roll < 0.80:
        return Word(arithmetic=programs.arithmetic_operation(chance), control=back(chance, at, length))
    return Word(control=back(chance, at, length) if roll < 0.92 else control(chance, at, length, slim))


def reference(chance, memory):
    """A reference by r0, or by a register; at times to before the first word or after the last one."""
    name = chance.choice(("LOAD", "LOAD", "LOAD", "STORE", "STORE", "STORE", "FADD", "TAGGET"))
    if chance.random() < 0.02:
        name = "TAGSET"
    suffix = "" if name.startswith("TAG") else chance.choice(SUFFIXES)
    base = chance.choice((1, 2)) if chance.random() < 0.35 else 0
    return name, suffix, programs.register(chance), base, chance.choice((-1, memory, *range(memory), *range(memory)))


def wide(chance, length):
    """A low or a high half of a pointer, a label's value, or a word for a target register."""
    name = chance.choice(("LIT", "LIT", "LIT", "LITH", "LITH", "TLIT"))
    if name == "TLIT":
        return name, 1, chance.randrange(length)
    if name == "LITH":
        return name, programs.register(chance), chance.choice(HIGH)
    return name, programs.register(chance), chance.choice((*LOW, chance.randrange(length)))


def back(chance, at, length):
    """A SKIP, mostly to an earlier word; at times to the program's end."""
    to = chance.randrange(at + 1) if chance.random() < 0.6 else chance.randrange(length + 1)
    return "SKIP", chance.choice(programs.CONDITIONS), chance.choice((0, 0, 0, 1)), to - at - 1


def control(chance, at, length, slim):
    """A control operation; those that may set any status word are few."""
    name = chance.choice(("QUIT", "QUIT", "QUIT", "JUMP", "CALL", "TGET", "RESERVE", "CREATE", "SKIP"))
    if chance.random() < 0.03:
        return chance.choice((("XCHG", 1), ("TSET", 1, programs.register(chance))))
    one = programs.register(chance)
    return {
        "QUIT": ("QUIT",),
        "JUMP": ("JUMP", chance.choice(programs.CONDITIONS), 0, 1),
        "CALL": ("CALL", 1, chance.choice((1, 2))),
        "TGET": ("TGET", 0, 1),
        "RESERVE": ("RESERVE", 0, one),
        "CREATE": ("CREATE", 1, one),
        "SKIP": back(chance, at, length),
    }[name]
