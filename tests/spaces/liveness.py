"""Registers that nobody reads again, by docs/MACHINE.md alone, and worlds without what stands in them.

A register is live at a word where some way on from there may read it before it is written. What JUMP, CALL and XCHG lead
to is not looked for: behind them all are live. So they are where a trap may have a handler."""

import machine

ALL = frozenset(range(32))
# memory operations that take rd along, and those that write it
TAKE_ALONG, GIVE_BACK = {"STORE", "FADD", "TAGSET", "PURGE"}, {"LOAD", "FADD", "TAGGET"}
ANYWHERE, NOWHERE = {"JUMP", "CALL", "XCHG"}, {"QUIT", "QUITP"}


def reads(word):
    """The registers that a word reads."""
    found = set()
    if word.wide and word.wide[0] == "LITH":
        found.add(word.wide[1])
    if word.memory:
        name, _, rd, base, _ = word.memory
        found |= {base} | ({rd} if name in TAKE_ALONG else set())
    if word.arithmetic:
        _, _, _, ra, b = word.arithmetic
        found |= {ra} | ({int(b[1:])} if isinstance(b, str) else set())
    if word.control and word.control[0] in ("TSET", "RESERVE", "CREATE"):
        found.add(word.control[2])
    return found


def writes(word):
    """The registers that a word writes where it is done."""
    found = set()
    if word.wide and word.wide[0] != "TLIT":
        found.add(word.wide[1])
    if word.memory and word.memory[0] in GIVE_BACK:
        found.add(word.memory[2])
    if word.arithmetic:
        found.add(word.arithmetic[2])
    if word.control and word.control[0] in ("TGET", "XGET", "RESERVE"):
        found.add(word.control[1])
    return found


def writes_handler(word):
    """Whether a word writes t0, which names the handler of traps."""
    if word.wide:
        return word.wide[0] == "TLIT" and word.wide[1] == 0
    if not word.control:
        return False
    name, *operands = word.control
    return (name in ("XCHG", "TSET") and operands[0] == 0) or (name == "CALL" and operands[1] == 0)


def may_trap(word):
    """Whether a word may trap: one with a reference, or CREATE."""
    return bool(word.memory) or bool(word.control and word.control[0] == "CREATE")


class Liveness:
    """Which registers are live at each word of a program."""

    def __init__(self, program):
        self.program = program
        self.is_handled = program.trap != machine.NO_HANDLER or any(map(writes_handler, program.words))
        self.rows = [frozenset()] * len(program.words)
        while True:
            rows = [self.at(place, word) for place, word in enumerate(program.words)]
            if rows == self.rows:
                break
            self.rows = rows

    def row(self, place):
        """The registers that are live at a place: past the program, where each step traps, all are."""
        return self.rows[place] if place < len(self.rows) else ALL

    def at(self, place, word):
        """The registers that are live at a word, by those that are at the others."""
        if self.is_handled and may_trap(word):
            return ALL
        return frozenset(reads(word) | self.behind(place, word) - writes(word))

    def behind(self, place, word):
        """The registers that are live where a word goes on."""
        following = self.row((place + 1) % 2**32)
        name = word.control[0] if word.control else None
        if name in ANYWHERE:
            return ALL
        if name in NOWHERE:
            return frozenset()
        if name == "SKIP":
            skipped = self.row((place + 1 + word.control[3]) % 2**32)
            return skipped if word.control[1] == "ALWAYS" else skipped | following
        return following

    def cleared(self, world, named):
        """The world with 0 in each register that does not matter: a stopped stream keeps those that are named, a running
        one also those that are live at its pc."""
        return world._replace(processors=tuple(
            processor._replace(streams=tuple(self.of_stream(stream, named) for stream in processor.streams))
            for processor in world.processors))

    def of_stream(self, stream, named):
        """A stream of it."""
        if stream.status == "idle":
            return stream
        kept = named | self.row(stream.ssw % 2**32) if stream.status == "running" else named
        return stream._replace(registers=tuple(value if register in kept else 0
                                               for register, value in enumerate(stream.registers)))
