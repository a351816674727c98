"""Arithmetic operations: the results and the condition codes that they make."""

import checks
import tool
from printed import values
from programs import assembled, literal

# how many words of the memory the results of a row take
RESULTS = 3
# the register of a row's second operand, where it has none
NONE = "-"


def lines_of(k, operation, a, b):
    """The lines that compute row k: by the operation alone, and by it beside a control operation. They store both
    results and the status word after them, whose codes were none before."""
    operands = "r1" if b == NONE else "r1, r2"
    return [
        *literal("r1", int(a, 16)), *literal("r2", 0 if b == NONE else int(b, 16)), f"TLIT t1, back{k}",
        f"{operation}.T r3, {operands}",
        f"{operation}.T r4, {operands} | XCHG t1",
        f"back{k}: TGET r5, t1",
        f"LIT r6, {8 * RESULTS * k}",
        *(f"STORE.N r{3 + result}, r6, {result}" for result in range(RESULTS)),
    ]


@checks.whole("run/arithmetic.tsv")
def are_computed(rows):
    """One program computes all rows."""
    parts = [lines_of(k, *row[:3]) for k, row in enumerate(rows)]
    program = [line for part in parts for line in part]
    image = assembled([".slim 1", ".entry 0", f".fill {RESULTS * len(rows)}, 0, 0", *program])
    stored = values(tool.trace(image, b"0 0 %d\n" % len(program)))
    pairs, behind = [], 0
    for k, (part, (_, _, _, result, code)) in enumerate(zip(parts, rows)):
        back = behind + next(place for place, line in enumerate(part) if line.startswith("back"))
        behind += len(part)
        wanted = [int(result, 16), int(result, 16), int(code) * 0x11 << 32 | back]
        got = [stored.get(8 * (RESULTS * k + place)) for place in range(RESULTS)]
        pairs.append((numbers(wanted), numbers(got)))
    return pairs


def numbers(results):
    return " ".join("none" if result is None else f"{result:016X}" for result in results)
