"""The request rules and the full/empty table of docs/MACHINE.md."""

from typing import NamedTuple

LAST = 2**64 - 1
FULL, FORWARD, TRAP0, TRAP1 = 1, 2, 4, 8
# how many words may forward one reference
CHAIN = 8
# the numbers of traps
POINTER, ALIGN, RANGE, BY_TRAP0, BY_TRAP1, TOO_LONG = 4, 5, 6, 7, 8, 9
CONTROLS = {"": None, ".N": 0, ".F": 2, ".S": 3}


class Request(NamedTuple):
    """What is asked: the control holds for the whole chain, the masks too."""

    name: str
    pointer: int
    control: int
    value: int
    mask: int


def request_of(stream, operation):
    """The request of a stream with a memory operation: its name, its suffix, rd, the base and the displacement."""
    name, suffix, rd, base, displacement = operation
    pointer = stream.registers[base]
    pointer = pointer >> 48 << 48 | (pointer + 8 * displacement) % 2**48
    control = CONTROLS[suffix]
    value = {"STORE": stream.registers[rd], "FADD": stream.registers[rd], "TAGSET": stream.registers[rd] % 16}
    return Request(name, pointer, pointer >> 59 & 3 if control is None else control, value.get(name, 0),
                   stream.ssw >> 48 & 3)


def serve(memory, request):
    """The reply to a request: done with a number, blocked with an address, or a trap with its number and an address; and
    the memory after it."""
    pointer, forwarded = request.pointer, 0
    while True:
        address = pointer % 2**48
        if pointer >> 48 & 0x7FF or pointer >> 59 & 3 == 1:
            return "trap", (POINTER, address), memory
        if address % 8:
            return "trap", (ALIGN, address), memory
        if address // 8 >= len(memory):
            return "trap", (RANGE, address), memory
        place = address // 8
        value, tags = memory[place]
        if request.name == "TAGGET":
            return "done", tags, memory
        if request.name == "TAGSET":
            return "done", 0, written(memory, place, value, request.value)
        if tags & TRAP0 and not pointer >> 62 & 1 and not request.mask & 1:
            return "trap", (BY_TRAP0, address), memory
        if tags & TRAP1 and not pointer >> 63 & 1 and not request.mask & 2:
            return "trap", (BY_TRAP1, address), memory
        if not tags & FORWARD or pointer >> 61 & 1:
            return at_end(memory, place, request)
        if forwarded == CHAIN:
            return "trap", (TOO_LONG, address), memory
        pointer, forwarded = value, forwarded + 1


def at_end(memory, place, request):
    """The full/empty table."""
    value, tags = memory[place]
    full = tags & FULL
    if request.control and (not full) != (request.name == "STORE" and request.control == 3):
        return "blocked", 8 * place, memory
    if request.name == "LOAD":
        return "done", value, written(memory, place, value, tags & ~FULL) if request.control == 3 else memory
    if request.name == "STORE":
        return "done", 0, written(memory, place, request.value, tags | FULL)
    return "done", value, written(memory, place, (value + request.value) & LAST, tags | FULL)


def written(memory, place, value, tags):
    """The memory with another word at a place."""
    return memory[:place] + ((value, tags),) + memory[place + 1:]
