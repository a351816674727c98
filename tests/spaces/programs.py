"""Random programs, as data and as source texts: few streams, few words of program and memory, so that all of their worlds
can be searched."""

from typing import NamedTuple

from machine import NO_HANDLER, Program, Word

CONDITIONS = ("ALWAYS", "ALWAYS", "EQ", "NE", "NE", "LT", "GE", "LTU", "NEG", "GTU")
ARITHMETIC = ("ADD", "ADD", "SUB", "SUB", "MUL", "AND", "OR", "XOR", "ANDN", "SHL", "SHR", "SAR", "LTS", "LTU", "PTR")
# values of data words: numbers, one at the limit, and a pointer to word 1
VALUES = (0, 0, 0, 1, 2, 8, 2**64 - 1, 2**63)


class Made(NamedTuple):
    """A random program, its source text, and how many words its memory has."""

    program: Program
    text: bytes
    words: int


def made(chance):
    """A random program."""
    entries = chance.choice((1, 2, 2, 2, 3))
    slim = 1 if chance.random() < 0.6 else 2
    retry = chance.choice((0, 0, 0, 0, 1, 2))
    length = chance.choice((3, 4, 5, 6)) if entries < 3 else chance.choice((2, 3, 4))
    memory = chance.choice((1, 2, 2, 3))
    trap = chance.randrange(length) if chance.random() < 0.15 else NO_HANDLER
    starts = tuple(chance.randrange(min(3, length)) for _ in range(entries))
    data = tuple((chance.choice(VALUES), tags_of(chance)) for _ in range(memory))
    words = tuple(word_of(chance, at, length, memory, slim) for at in range(length - 1)) + (Word(control=("QUIT",)),)
    program = Program(slim, retry, trap, starts, data, words)
    return Made(program, text_of(program), memory)


def apart(chance):
    """A random program whose streams have a part of the program each, and words of their own besides one that they share."""
    entries = chance.choice((2, 2, 3))
    each = chance.choice((3, 4)) if entries < 3 else 3
    retry = chance.choice((0, 0, 0, 1))
    starts = tuple(range(0, entries * each, each))
    data = tuple((chance.choice(VALUES), tags_of(chance)) for _ in range(entries + 1))
    words = [word for stream, start in enumerate(starts) for word in part_of(chance, stream, start, each, entries)]
    program = Program(1, retry, NO_HANDLER, starts, data, tuple(words))
    return Made(program, text_of(program), entries + 1)


def part_of(chance, stream, start, length, shared):
    """The part of a stream: references to its own word or to the shared one, what it computes, and a QUIT or a way back."""
    for at in range(length - 1):
        roll = chance.random()
        name, suffix, rd, base, _ = memory_operation(chance, 1)
        if roll < 0.7:
            yield Word(memory=(name, suffix, rd, base, stream if chance.random() < 0.7 else shared))
        elif roll < 0.85:
            yield Word(arithmetic=arithmetic_operation(chance))
        else:
            yield Word(control=("SKIP", chance.choice(CONDITIONS), 0, chance.randrange(length) - at - 1))
    yield Word(control=("QUIT",)) if chance.random() < 0.85 else Word(control=("SKIP", "ALWAYS", 0, -length))


def adding(chance):
    """A random program whose streams add to words that they share, read what they added to at times, and use slots of a
    ring whose places an AND cuts off."""
    entries = chance.choice((2, 3, 3))
    parts = [[*adding_part(chance, 2 if entries < 3 else 1), Word(control=("QUIT",))] for _ in range(entries)]
    starts = tuple(sum(map(len, parts[:stream])) for stream in range(entries))
    data = tuple((chance.choice(VALUES), bare_tags(chance)) for _ in range(4))
    trap = 0 if chance.random() < 0.05 else NO_HANDLER
    words = tuple(word for part in parts for word in part)
    program = Program(1, chance.choice((0, 0, 0, 1)), trap, starts, data, words)
    return Made(program, text_of(program), len(data))


def adding_part(chance, length):
    """The part of a stream: so many times it adds to a word, or uses a slot of a ring of two words."""
    for _ in range(length):
        if chance.random() < 0.65:
            yield Word(wide=("LIT", 1, chance.choice((1, 2, 2**32 - 1))))
            yield Word(memory=("FADD", chance.choice((".N", ".N", "", "", ".F", ".S")), 1, 0, chance.choice((0, 0, 1))))
            if chance.random() < 0.3:
                yield Word(arithmetic=("ADD", False, 2, 1, 1), control=skip_past(chance))
        else:
            yield Word(arithmetic=("AND", False, 2, chance.choice((1, 2)), chance.choice((1, 1, 2, 3))))
            yield Word(arithmetic=("SHL", False, 2, 2, 3))
            yield Word(memory=(*chance.choice((("LOAD", ".S"), ("STORE", ".S"), ("STORE", ".N"), ("FADD", ".N"))), 1, 2, 2))


def skip_past(chance):
    """At times a SKIP to the next word but one."""
    return ("SKIP", chance.choice(CONDITIONS), 0, 0) if chance.random() < 0.3 else None


def bare_tags(chance):
    """Mostly full or empty; at times with a bit that traps. None forwards."""
    return chance.choice((0, 1, 1, 1)) | (chance.choice((4, 8)) if chance.random() < 0.1 else 0)


def tags_of(chance):
    """Mostly full or empty; at times with a bit that traps or forwards."""
    return chance.choice((0, 1, 1, 1)) | (chance.choice((2, 4, 8)) if chance.random() < 0.06 else 0)


def word_of(chance, at, length, memory, slim):
    """A word of the program: an operation, or two that write no register in common."""
    roll = chance.random()
    if roll < 0.42:
        return Word(memory=memory_operation(chance, memory))
    if roll < 0.58:
        return Word(arithmetic=arithmetic_operation(chance))
    if roll < 0.68:
        return Word(arithmetic=arithmetic_operation(chance), control=skip(chance, at, length))
    if roll < 0.76:
        return Word(memory=memory_operation(chance, memory), control=skip(chance, at, length))
    if roll < 0.84:
        return Word(wide=wide_operation(chance, length))
    return Word(control=control_operation(chance, at, length, slim))


def register(chance):
    """One of the few registers that are used; r0 at times."""
    return chance.choice((0, 1, 1, 1, 2, 2))


def memory_operation(chance, memory):
    """A reference to one of the first words; at times past the last one, or by a register."""
    name = chance.choice(("LOAD", "LOAD", "LOAD", "STORE", "STORE", "STORE", "FADD", "TAGGET", "TAGSET"))
    suffix = "" if name.startswith("TAG") else chance.choice((".N", ".N", ".S", ".S", ".F", ""))
    base = chance.choice((1, 2)) if chance.random() < 0.08 else 0
    return name, suffix, register(chance), base, chance.randrange(memory + (chance.random() < 0.04))


def arithmetic_operation(chance):
    """An operation over registers, or a register and a small number."""
    second = f"r{register(chance)}" if chance.random() < 0.3 else chance.choice((0, 1, 1, 2, 3, 31))
    return chance.choice(ARITHMETIC), chance.random() < 0.5, register(chance), register(chance), second


def wide_operation(chance, length):
    """A small number, or a place of the program for a target register."""
    name = chance.choice(("LIT", "LIT", "LITH", "TLIT"))
    if name == "TLIT":
        return name, chance.choice((1, 1, 1, 0)), chance.randrange(length)
    return name, register(chance), chance.choice((0, 1, 2, 8, 2**32 - 1))


def skip(chance, at, length):
    """A SKIP to some word of the program, or to its end."""
    return "SKIP", chance.choice(CONDITIONS), chance.choice((0, 0, 0, 1)), chance.randrange(length + 1) - at - 1


def control_operation(chance, at, length, slim):
    """Any control operation; those that start streams more often where there is room for them."""
    several = ("RESERVE", "CREATE", "CREATE") if slim > 1 else ()
    name = chance.choice(("SKIP", "SKIP", "SKIP", "QUIT", "QUITP", "JUMP", "CALL", "XCHG", "TSET", "TGET", "XGET", "MASK",
                          "RESERVE", "CREATE", *several))
    target, one = chance.choice((0, 1, 1, 1)), register(chance)
    return {
        "SKIP": lambda: skip(chance, at, length),
        "QUIT": lambda: ("QUIT",),
        "QUITP": lambda: ("QUITP",),
        "JUMP": lambda: ("JUMP", chance.choice(CONDITIONS), 0, target),
        "CALL": lambda: ("CALL", target, chance.choice((1, 2))),
        "XCHG": lambda: ("XCHG", target),
        "TSET": lambda: ("TSET", target, one),
        "TGET": lambda: ("TGET", one, target),
        "XGET": lambda: ("XGET", one),
        "MASK": lambda: ("MASK", chance.randrange(8)),
        "RESERVE": lambda: ("RESERVE", one, register(chance)),
        "CREATE": lambda: ("CREATE", target, one),
    }[name]()


def text_of(program):
    """The source text of a program."""
    lines = [f".slim {program.slim}", f".retry {program.retry}"]
    if program.trap != NO_HANDLER:
        lines.append(f".trap {program.trap}")
    lines += [f".entry {entry}" for entry in program.entries]
    lines += [f".data {value}, {tags}" for value, tags in program.data]
    lines += [f"w{at}: {word_text(word)}" for at, word in enumerate(program.words)]
    return "".join(line + "\n" for line in lines).encode()


def word_text(word):
    """A word as an instruction line."""
    parts = []
    if word.wide:
        name, to, immediate = word.wide
        parts.append(f"{name} {'t' if name == 'TLIT' else 'r'}{to}, {immediate}")
    if word.memory:
        name, suffix, rd, base, displacement = word.memory
        parts.append(f"{name}{suffix} r{rd}, r{base}, {displacement}")
    if word.arithmetic:
        name, test, rd, ra, b = word.arithmetic
        parts.append(f"{name}{'.T' if test else ''} r{rd}, r{ra}, {b}")
    if word.control:
        parts.append(control_text(*word.control))
    return " | ".join(parts)


# the letters of the operands that are registers, by the operation
LETTERS = {"CALL": "tt", "XCHG": "t", "TSET": "tr", "TGET": "rt", "XGET": "r", "RESERVE": "rr", "CREATE": "tr"}


def control_text(name, *operands):
    """A control operation as text."""
    if name in LETTERS:
        operands = [f"{letter}{number}" for letter, number in zip(LETTERS[name], operands)]
    elif name == "JUMP":
        operands = [*operands[:2], f"t{operands[2]}"]
    return f"{name} {', '.join(map(str, operands))}".strip()
