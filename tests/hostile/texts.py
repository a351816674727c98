"""Sources, schedules and words of random bytes, of the lines of examples in any order, and of pieces of lines."""

import os
import random
import re
from functools import partial

from program import EXAMPLES, Tally, read, schedules, sources, write

SOURCES, SCHEDULES = 3_000, 2_000


def lines_of(paths):
    """All lines of files, and their words."""
    lines = sorted({line for path in paths for line in read(path).split(b"\n")})
    return lines, sorted({word for line in lines for word in re.findall(rb"[^ ,|]+|[,|]", line)})


def source_text(number, lines, words):
    """A text by its number: of random bytes, of words, of any lines, or of a program's lines in another order."""
    choose = random.Random(number)
    if number % 4 == 0:
        return bytes(choose.choices(range(256 if number % 8 else 128), k=choose.randrange(400)))
    if number % 4 == 1:
        return b"\n".join(b" ".join(choose.choices(words, k=4)) for _ in range(20))
    if number % 4 == 2:
        return b".entry 0\n.data 0\n" + b"\n".join(choose.choices(lines, k=choose.randrange(1, 40)))
    program = read(choose.choice(sources(EXAMPLES))).split(b"\n")
    choose.shuffle(program)
    return b"\n".join(program)


def of_source(folder, lines, words, number):
    """A text is assembled or refused; what is listed of its image is assembled to the same image."""
    tally, own = Tally(), os.path.join(folder, str(os.getpid()))
    text = source_text(number, lines, words)
    ended = tally.run(["asm", write(folder, f"{os.getpid()}.asm", text), own + ".image"])
    tally.check(f"source text {number}: {ended}", ended.is_clean())
    if ended.status == 0:
        listing = tally.does(f"list source text {number}", ["list", own + ".image"])
        tally.does(f"asm listing {number}", ["asm", write(folder, f"{os.getpid()}.list", listing), own + ".again"])
        tally.check(f"image of listing {number}", read(own + ".again") == read(own + ".image"))
    else:
        tally.check(f"no image of source text {number}", read(own + ".image") == b"")
    return tally


def of_schedule(folder, image, lines, number):
    """A schedule of random bytes or of lines in any order is run or refused; so is a text of words."""
    tally, choose = Tally(), random.Random(number)
    if number % 2:
        text = b"\n".join(choose.choices(lines, k=choose.randrange(60)))
    else:
        text = bytes(choose.choices(b"0123456789 \n\t\r-x", k=choose.randrange(60)))
    ended = tally.run(["run", image, write(folder, f"{os.getpid()}.schedule", text)])
    tally.check(f"schedule {number}: {text!r}: {ended}", ended.is_clean())
    digits = bytes(choose.choices(b"0123456789abcdefABCDEF\n", k=choose.randrange(200)))
    for given in (text, digits, re.sub(rb"(.{16})", rb"\1\n", digits.replace(b"\n", b"0"))):
        ended = tally.run(["words"], given)
        tally.check(f"words {given!r}: {ended}", ended.is_clean())
    return tally


def part(pool, folder):
    """All of them."""
    tally = Tally()
    lines, words = lines_of(sources(EXAMPLES))
    for one in pool.map(partial(of_source, folder, lines, words), range(SOURCES), chunksize=20):
        tally.add(one)
    image = os.path.join(folder, "lock.image")
    tally.does("asm lock", ["asm", os.path.join(EXAMPLES, "lock.asm"), image])
    steps, _ = lines_of([path for source in sources(EXAMPLES) for path in schedules(source)])
    for one in pool.map(partial(of_schedule, folder, image, steps), range(SCHEDULES), chunksize=20):
        tally.add(one)
    return tally
