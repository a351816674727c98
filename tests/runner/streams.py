"""Streams as cases write them, and the programs that bring stream 0 of a processor to such a state."""

from programs import literal

# what stands where no instruction of a case does
NOT_REACHED = ".word 1"


class Start:
    """A program that brings stream 0 to a state and then goes on at its pc. The state names the registers and target
    registers that are not zero and at last the status word, in hexadecimal digits, as `t0=5 r1=40 ssw=84210000000A`.
    The instructions of the case stand at their places, and the others, from the entry on, behind them. They use r31 and
    t7, which are zero afterwards; first so many streams are reserved."""

    def __init__(self, state, instructions, reserved=0):
        *registers, (name, status) = [(name, int(digits, 16)) for name, digits in named(state)]
        assert name == "ssw" and not {"r31", "t7"}.intersection(name for name, _ in registers)
        self.entry = max(instructions, default=-1) + 1
        lines = [*literal("r31", reserved), "RESERVE r0, r31"] if reserved else []
        for name, value in registers:
            lines += literal(name, value) if name.startswith("r") else [*literal("r31", value), f"TSET {name}, r31"]
        lines += exchange(self.entry + len(lines), status)
        self.steps = len(lines)
        self.lines = [instructions.get(place, NOT_REACHED) for place in range(self.entry)] + lines


def named(state):
    """The parts of a state, each a name and digits."""
    return [part.split("=") for part in state.split(" ")]


def exchange(place, status):
    """The lines, the first of which stands at this place, that bring the status word. XCHG takes all of it but the pc,
    which is that of the next line; the last line goes to the one that is meant."""
    pc, others = status & 0xFFFFFFFF, status >> 32 << 32
    lines = [*literal("r31", others | place + 5), "TSET t7, r31", "LIT r31, 0", "XCHG t7", "TLIT t7, 0"]
    return [*lines, f"SKIP ALWAYS, 0, {pc - (place + len(lines) + 1)}"]


def placed(state, program):
    """The instructions of a program by their places. They are joined by semicolons; the first stands at the pc of the
    state, each other one behind the one before it, or at the place that is written before it, as in `5: XGET r4`. `-`
    is a program without any."""
    place, found = int(dict(named(state))["ssw"], 16) & 0xFFFFFFFF, {}
    for written in program.split(";") if program != "-" else []:
        at, _, instruction = written.rpartition(": ")
        place = int(at, 16) if at else place
        found[place] = instruction
        place += 1
    return found
