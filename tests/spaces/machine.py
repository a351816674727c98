"""The machine of docs/MACHINE.md, Profile 1, over programs that are told as data. It is a reading of that page alone, and
shares nothing with the programs that are tested."""

from typing import NamedTuple

import memory as store

LAST = 2**64 - 1
NO_HANDLER = 2**32 - 1
STATUS_DIGITS = 0x0107FFFFFFFFFFFF
IN_TRAP = 1 << 56
# the numbers of traps
PROGRAM, CREATE, BLOCKED = 1, 3, 10


class Word(NamedTuple):
    """An instruction: an operation of each part, as tuples of its name and operands, or a wide one alone."""

    memory: tuple = None
    arithmetic: tuple = None
    control: tuple = None
    wide: tuple = None


class Program(NamedTuple):
    """What an image has."""

    slim: int
    retry: int
    trap: int
    entries: tuple
    data: tuple
    words: tuple


class Stream(NamedTuple):
    """A stream: `status` is idle, running, or stopped with the number of the trap."""

    status: str = "idle"
    ssw: int = 0
    registers: tuple = (0,) * 32
    targets: tuple = (0,) * 8
    xr: int = 0
    retries: int = 0


class Processor(NamedTuple):
    """Its streams, how many are current, how many reserved."""

    streams: tuple
    scur: int
    sres: int


class World(NamedTuple):
    """The processors, and the words of the memory: a value and its tags each."""

    processors: tuple
    memory: tuple


IDLE = Stream()


def start(program):
    """The world before any step."""
    processors = []
    for entry in program.entries:
        first = Stream("running", entry, targets=(program.trap,) + (0,) * 7)
        processors.append(Processor((first,) + (IDLE,) * (program.slim - 1), 1, 1))
    return World(tuple(processors), program.data)


def running(world):
    """The streams that run, in the order of processor and stream."""
    return [(p, s) for p, processor in enumerate(world.processors) for s, stream in enumerate(processor.streams)
            if stream.status == "running"]


def replaced(row, place, value):
    """A tuple with another value at a place."""
    return row[:place] + (value,) + row[place + 1:]


def with_register(stream, register, value):
    """A stream with a value in a register; r0 stays 0."""
    return stream._replace(registers=replaced(stream.registers, register, value & LAST)) if register else stream


def with_pc(status_word, pc):
    """A status word with another pc."""
    return status_word >> 32 << 32 | pc % 2**32


def step(program, world, p, s):
    """The world after a step of a stream, and the outcome: skipped, done, blocked, or trapped or stopped with the trap."""
    if p >= len(world.processors) or s >= program.slim or world.processors[p].streams[s].status != "running":
        return world, "skipped"
    processor = world.processors[p]
    stream = processor.streams[s]
    pc = stream.ssw % 2**32
    if pc >= len(program.words):
        return trapped(world, p, s, PROGRAM, 0)
    word = program.words[pc]
    if word.control and word.control[0] == "CREATE" and processor.scur == processor.sres:
        return trapped(world, p, s, CREATE, 0)
    memory, number = world.memory, None
    if word.memory:
        reply, told, memory = store.serve(memory, store.request_of(stream, word.memory))
        if reply == "trap":
            return trapped(world, p, s, *told)
        if reply == "blocked":
            return blocked(program, world, p, s, told)
        number = told
    return done(program, world._replace(memory=memory), p, s, word, number), "done"


def with_stream(world, p, s, stream):
    """The world with another stream in a place."""
    processor = world.processors[p]
    processor = processor._replace(streams=replaced(processor.streams, s, stream))
    return world._replace(processors=replaced(world.processors, p, processor))


def trapped(world, p, s, kind, address):
    """A stream traps: it goes to its handler, or is stopped."""
    stream = world.processors[p].streams[s]
    stream = stream._replace(xr=kind + 256 * (address % 2**48), retries=0)
    if stream.ssw & IN_TRAP or stream.targets[0] % 2**32 == NO_HANDLER:
        return with_stream(world, p, s, stream._replace(status=f"stopped {kind}")), f"stopped {kind}"
    handling = stream._replace(ssw=stream.targets[0] | IN_TRAP, targets=replaced(stream.targets, 0, stream.ssw))
    return with_stream(world, p, s, handling), f"trapped {kind}"


def blocked(program, world, p, s, address):
    """A reference found the wrong full bit."""
    stream = world.processors[p].streams[s]
    if program.retry == 0:
        return world, "blocked"
    if stream.retries < program.retry:
        return with_stream(world, p, s, stream._replace(retries=stream.retries + 1)), "blocked"
    if stream.ssw >> 50 & 1:
        return world, "blocked"
    return trapped(world, p, s, BLOCKED, address)


def done(program, world, p, s, word, number):
    """The world where all of an instruction is done; `number` is what the memory answered."""
    before = world.processors[p].streams[s]
    after = before._replace(ssw=with_pc(before.ssw, before.ssw % 2**32 + 1))
    if word.wide:
        return with_stream(world, p, s, wide(after, *word.wide))
    if word.memory:
        after = after._replace(retries=0)
        if word.memory[0] in ("LOAD", "FADD", "TAGGET"):
            after = with_register(after, word.memory[2], number)
    if word.arithmetic:
        after = arithmetic(before, after, *word.arithmetic)
    world = with_stream(world, p, s, after)
    return control(program, world, p, s, before, *word.control) if word.control else world


def wide(stream, name, register, immediate):
    """LIT, LITH, TLIT."""
    if name == "TLIT":
        return stream._replace(targets=replaced(stream.targets, register, immediate))
    if name == "LITH":
        immediate = immediate << 32 | stream.registers[register] % 2**32
    return with_register(stream, register, immediate)


def signed(number):
    """A number of 64 bits in two's complement."""
    return number - 2**64 if number >> 63 else number


RESULTS = {
    "ADD": lambda a, b: a + b,
    "SUB": lambda a, b: a - b,
    "MUL": lambda a, b: a * b,
    "AND": lambda a, b: a & b,
    "OR": lambda a, b: a | b,
    "XOR": lambda a, b: a ^ b,
    "ANDN": lambda a, b: a & ~b,
    "SHL": lambda a, b: a << b if b < 64 else 0,
    "SHR": lambda a, b: a >> b if b < 64 else 0,
    "SAR": lambda a, b: signed(a) >> min(b, 63),
    "LTS": lambda a, b: int(signed(a) < signed(b)),
    "LTU": lambda a, b: int(a < b),
    "PTR": lambda a, b: a % 2**59 | b % 32 << 59,
}


def arithmetic(before, after, name, test, rd, ra, b):
    """An arithmetic operation; `b` is a number, or the name of a register."""
    a = before.registers[ra]
    b = before.registers[int(b[1:])] if isinstance(b, str) else b
    result = RESULTS[name](a, b) & LAST
    after = with_register(after, rd, result)
    if not test:
        return after
    code = (result == 0) | (result >> 63) << 1
    if name in ("ADD", "SUB", "MUL"):
        code |= (not 0 <= RESULTS[name](a, b) <= LAST) << 2
        code |= (not -2**63 <= RESULTS[name](signed(a), signed(b)) < 2**63) << 3
    codes = (after.ssw >> 32 << 4 | code) % 2**16
    return after._replace(ssw=after.ssw & ~(0xFFFF << 32) | codes << 32)


def holds(condition, code):
    """Whether a condition holds on a code."""
    z, n, c, v = (bool(code >> place & 1) for place in range(4))
    return {
        "ALWAYS": True, "EQ": z, "NE": not z, "LT": n != v, "GE": n == v, "LE": z or n != v, "GT": not z and n == v,
        "LTU": c, "GEU": not c, "LEU": c or z, "GTU": not c and not z, "NEG": n, "POS": not n, "OV": v, "NOV": not v,
    }[condition]


def control(program, world, p, s, before, name, *operands):
    """A control operation, over the stream as it was and the world in which all else is done."""
    after = world.processors[p].streams[s]
    if name in ("QUIT", "QUITP", "CREATE", "RESERVE"):
        return of_processor(program, world, p, s, before, name, *operands)
    following = before.ssw % 2**32 + 1
    if name in ("SKIP", "JUMP"):
        condition, k, to = operands
        if holds(condition, before.ssw >> 32 + 4 * k):
            pc = following + to if name == "SKIP" else before.targets[to]
            after = after._replace(ssw=with_pc(after.ssw, pc))
    elif name == "CALL":
        to, back = operands
        after = after._replace(ssw=with_pc(after.ssw, before.targets[to]),
                               targets=replaced(after.targets, back, following % 2**32))
    elif name == "XCHG":
        (target,) = operands
        after = after._replace(ssw=before.targets[target], targets=replaced(after.targets, target, after.ssw))
    elif name == "TSET":
        target, register = operands
        after = after._replace(targets=replaced(after.targets, target, before.registers[register] & STATUS_DIGITS))
    elif name == "TGET":
        register, target = operands
        after = with_register(after, register, before.targets[target])
    elif name == "XGET":
        (register,) = operands
        after = with_register(after, register, before.xr)
    elif name == "MASK":
        (mask,) = operands
        after = after._replace(ssw=after.ssw & ~(7 << 48) | mask << 48)
    return with_stream(world, p, s, after)


def of_processor(program, world, p, s, before, name, *operands):
    """QUIT, QUITP, CREATE and RESERVE."""
    processor = world.processors[p]
    if name == "RESERVE":
        register, asked = operands
        granted = min(before.registers[asked], program.slim - processor.sres)
        world = with_stream(world, p, s, with_register(processor.streams[s], register, granted))
        processor = world.processors[p]._replace(sres=processor.sres + granted)
    elif name == "CREATE":
        target, register = operands
        lowest = next(at for at, stream in enumerate(processor.streams) if stream.status == "idle")
        born = Stream("running", before.targets[target] % 2**32 | before.ssw & 7 << 48,
                      targets=before.targets[:1] + (0,) * 7)
        born = born._replace(registers=replaced(born.registers, 1, before.registers[register]))
        processor = Processor(replaced(processor.streams, lowest, born), processor.scur + 1, processor.sres)
    else:
        kept = processor.sres if name == "QUITP" else processor.sres - 1
        processor = Processor(replaced(processor.streams, s, IDLE), processor.scur - 1, kept)
    return world._replace(processors=replaced(world.processors, p, processor))
