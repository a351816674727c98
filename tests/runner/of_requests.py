"""What an instruction asks of the memory and of its processor."""

import checks
import tool
from printed import text
from programs import assembled
from request_lines import Request
from streams import Start, placed

# the processor's counts before the step, and its most streams
IN_USE, RESERVED, SLIM = 1, 3, 128
HEAD = [".profile 2", f".slim {SLIM}", ".trap 0", ".fill 16, 0, 1"]
# where in a history line the request stands
ASKED = slice(16, 60)


def world_after(control):
    """The world text's lines of a processor of which a step of stream 0 asked this, without those of stream 0
    ("Processors" of docs/MACHINE.md): `reserve COUNT`, `create PC VALUE T0 MASK` with the pc, r1, t0 and the trap mask
    of what is started, `quit`, `quitp`, or `plain` for nothing."""
    kind, *numbers = control.split(" ")
    numbers = [int(number, 16) for number in numbers]
    if kind == "reserve":
        return [counts(IN_USE, min(RESERVED + numbers[0], SLIM))]
    if kind == "create":
        pc, value, t0, mask = numbers
        started = f"Running ssw {mask << 48 | pc:016X} xr {0:016X} retries 0"
        return [counts(IN_USE + 1, RESERVED), "stream 0 1", started, f"r01 {value:016X}", f"t0 {t0:016X}"]
    return [{
        "quit": counts(IN_USE - 1, RESERVED - 1),
        "quitp": counts(IN_USE - 1, RESERVED),
        "plain": counts(IN_USE, RESERVED),
    }[kind]]


def counts(in_use, reserved):
    return f"processor 0 scur {in_use} sres {reserved}"


def seen(printed):
    """What the history's entries asked, and the lines of the world text but for stream 0 and the memory."""
    kept, keeps = [], True
    for line in printed.decode().splitlines():
        if line.startswith(("processor", "stream", "cell")):
            keeps = line != "stream 0 0" and not line.startswith("cell")
        if keeps:
            kept.append(line[ASKED] if line.startswith(" ") else line)
    return kept


@checks.each("threads/stream_requests.tsv")
def is_asked(fields):
    """The instruction's step is the last one that is taken."""
    before, instruction, request, control = fields
    start = Start(before, placed(before, instruction), RESERVED - IN_USE)
    image = assembled([*HEAD, f".entry {start.entry}", *start.lines])
    asked = [] if request == "none" else [Request(request).asked()]
    return text(asked + world_after(control)), text(seen(tool.threads(image, start.steps + 1)[0]))
