"""Conditions: on which condition codes they hold."""

import checks
import tool
from printed import values
from programs import assembled, literal

CODES = range(16)
PLACES = range(4)
# how a condition is asked: by both operations that have one, on a code at each place
WAYS = [(operation, k) for operation in ("SKIP", "JUMP") for k in PLACES]


def status_codes(digits, code, k):
    """The four codes of a status word as a number: this one at place k, and at the others one for which the row has the
    other answer, if there is such a code."""
    others = [other for other in CODES if digits[other] != digits[code]]
    other = others[code % len(others)] if others else code
    return sum((code if place == k else other) << 4 * place for place in PLACES)


def asking(label, condition, digits, operation, k):
    """The lines that ask the condition on all codes, one after the other, and shift each answer into r2."""
    lines = ["LIT r2, 0"]
    for code in CODES:
        here, there = f"{label}_{code}", f"{label}_{code}_on"
        lines += [
            f"LIT r1, {here}", f"LITH r1, {status_codes(digits, code, k)}", "TSET t7, r1", f"TLIT t1, {there}",
            "SHL r2, r2, 1", "ADD r2, r2, 1 | XCHG t7",
            f"{here}: {operation} {condition}, {k}, {'t1' if operation == 'JUMP' else there}",
            "SUB r2, r2, 1",
            f"{there}: NOP",
        ]
    return lines


@checks.whole("run/conditions.tsv")
def hold_on(rows):
    """One program asks all. It stores a word for each row and way, whose bits are the answers."""
    program = []
    for row, (condition, digits) in enumerate(rows):
        for way, (operation, k) in enumerate(WAYS):
            program += asking(f"ask{row}_{way}", condition, digits, operation, k)
            program += literal("r3", 8 * (len(WAYS) * row + way)) + ["STORE.N r2, r3, 0"]
    image = assembled([".slim 1", ".entry 0", f".fill {len(WAYS) * len(rows)}, 0, 0", *program])
    stored = values(tool.trace(image, b"0 0 %d\n" % len(program)))
    pairs = []
    for row, (_, digits) in enumerate(rows):
        got = [stored.get(8 * (len(WAYS) * row + way)) for way in range(len(WAYS))]
        answers = ["none" if answer is None else f"{answer:016b}" for answer in got]
        pairs.append((" ".join([digits] * len(WAYS)), " ".join(answers)))
    return pairs
