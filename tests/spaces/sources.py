"""Source texts of the examples as data, by docs/FORMATS.md: labels, the directives that an image needs, and instructions."""

import machine
from machine import NO_HANDLER, Program, Word

# what each operand of a control operation is: a register, a target register, a number, a place, or a name
CONTROLS = {"SKIP": "nkp", "JUMP": "nkt", "CALL": "tt", "XCHG": "t", "TSET": "tr", "TGET": "rt", "XGET": "r",
            "RESERVE": "rr", "CREATE": "tr", "QUIT": "", "QUITP": "", "MASK": "k"}
MEMORY, WIDE = ("LOAD", "STORE", "FADD", "TAGGET", "TAGSET"), ("LIT", "LITH", "TLIT")


def read(text):
    """The program of a source text."""
    labels, lines, directives, count = {}, [], [], 0
    for line in text.splitlines():
        line = line.partition(";")[0].strip()
        while ":" in line:
            name, _, line = line.partition(":")
            labels[name.strip()], line = count, line.strip()
        if line.startswith("."):
            directives.append(line)
        elif line:
            lines.append(line)
            count += 1
    one = {"slim": 1, "retry": 0, "trap": NO_HANDLER}
    entries, data = [], []
    for line in directives:
        name, _, operands = line[1:].partition(" ")
        values = [number(operand.strip(), labels) for operand in operands.split(",")]
        if name == "entry":
            entries.append(values[0])
        elif name == "data":
            data.append((values[0] % 2**64, (values[1:] or [1])[0]))
        elif name == "fill":
            data += [(values[1] % 2**64, (values[2:] or [1])[0])] * values[0]
        elif name in one:
            one[name] = values[0]
        else:
            raise ValueError(line)
    words = tuple(word_of(line, place, labels) for place, line in enumerate(lines))
    return Program(one["slim"], one["retry"], one["trap"], tuple(entries), tuple(data), words)


def number(text, labels):
    """A number, or the place of a label."""
    return labels[text] if text in labels else int(text, 0)


def word_of(line, place, labels):
    """The word of a line of operations."""
    parts = {}
    for operation in line.split("|"):
        name, _, operands = operation.strip().partition(" ")
        operands = [operand.strip() for operand in operands.split(",")] if operands.strip() else []
        parts.update(operation_of(name, operands, place, labels))
    return Word(**parts)


def operation_of(name, operands, place, labels):
    """An operation, by its part."""
    base, dot, suffix = name.partition(".")
    if base in WIDE:
        return {"wide": (base, int(operands[0][1:]), number(operands[1], labels) % 2**32)}
    if base in MEMORY:
        rd, by, at = operands
        return {"memory": (base, dot + suffix, int(rd[1:]), int(by[1:]), number(at, labels))}
    if base in machine.RESULTS:
        rd, ra, b = operands
        b = b if b.startswith("r") else int(b, 0)
        return {"arithmetic": (base, suffix == "T", int(rd[1:]), int(ra[1:]), b)}
    told = []
    for kind, operand in zip(CONTROLS[base], operands, strict=True):
        if kind == "p":
            told.append(labels[operand] - place - 1 if operand in labels else int(operand, 0))
        else:
            told.append(operand if kind == "n" else int(operand[1:]) if kind in "rt" else int(operand, 0))
    return {"control": (base, *told)}
