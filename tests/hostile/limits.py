"""Inputs at their limits and one beyond, and large inputs in little memory."""

import os

from program import MOST_INPUT, MOST_MEMORY, EXAMPLES, Tally, assembled, within, write

TWO = b".entry 0\n.data 0\n"
# a text that is refused, with its fault
TEXTS = [
    ("a source of 33,554,432 bytes", lambda: b";" * MOST_INPUT, b"source line 0 fault 8"),
    ("a source of one byte more", lambda: b";" * (MOST_INPUT + 1), b"input too large"),
    ("a line of 33,554,431 bytes", lambda: b"a" * (MOST_INPUT - 1) + b"\n", b"source line 1 fault 2"),
    ("a line of 33,554,431 blanks", lambda: b" " * (MOST_INPUT - 1) + b"\n", b"source line 0 fault 8"),
    ("33,554,424 digits", lambda: b"LIT r1," + b"9" * (MOST_INPUT - 8) + b"\n", b"source line 1 fault 4"),
    ("33,554,432 line feeds", lambda: b"\n" * MOST_INPUT, b"source line 0 fault 8"),
    ("a byte C3 behind 33,554,430 others", lambda: b";" * (MOST_INPUT - 2) + b"\xC3\n", b"source line 1 fault 1"),
    ("a label of 33 letters", lambda: b"a" * 33 + b": NOP\n" + TWO, b"source line 1 fault 2"),
    ("65,537 words", lambda: b".entry 0\n" + b"NOP\n" * 65_537, b"source line 65538 fault 9"),
    ("262,145 data words", lambda: b".fill 262144, 0, 1\n.data 0\n", b"source line 2 fault 9"),
    ("a fill of 262,145", lambda: b".fill 262145, 0, 1\n", b"source line 1 fault 4"),
    ("17 processors", lambda: b".entry 0\n" * 17 + b"NOP\n.data 0\n", b"source line 17 fault 9"),
    ("a slim of 129", lambda: b".slim 129\n" + TWO, b"source line 1 fault 4"),
]
# a schedule, with its fault, none where it is run
SCHEDULES = [
    ("1,000,000 steps in a line", lambda: b"9 0 1000000\n", None),
    ("1,000,000 steps in as many lines", lambda: b"9 0\n" * 1_000_000, None),
    ("one step more", lambda: b"9 0 1000000\n9 0\n", b"schedule line 2 fault 3"),
    ("one line more", lambda: b"9 0\n" * 1_000_001, b"schedule line 1000001 fault 3"),
    ("1,000,001 in one line", lambda: b"9 0 1000001\n", b"schedule line 1 fault 2"),
    ("33,554,432 digits", lambda: b"9" * MOST_INPUT, b"schedule line 1 fault 1"),
    ("a schedule too long", lambda: b"9" * (MOST_INPUT + 1), b"input too large"),
    ("33,554,432 line feeds", lambda: b"\n" * MOST_INPUT, b"schedule line 1 fault 1"),
]


def of_texts(tally, folder):
    for what, text, fault in TEXTS:
        source = write(folder, "limit.asm", text())
        tally.refuses(what, ["asm", source, os.path.join(folder, "limit.image")], fault)
    image = assembled(tally, folder, os.path.join(EXAMPLES, "lock.asm"), "limit.image")
    for what, text, fault in SCHEDULES:
        words = ["run", image, write(folder, "limit.schedule", text())]
        if fault is None:
            lines = tally.does(what, words).count(b"SKIPPED\n")
            tally.check(f"{what}: {lines} lines", lines == 1_000_000)
        else:
            tally.refuses(what, words, fault)
            tally.refuses(f"debug by {what}", ["debug", *words[1:]], fault)


def of_words(tally, folder):
    word = b"0000000000000000\n"
    tally.does("65,536 words", ["words"], word * 65_536)
    tally.refuses("65,537 words", ["words"], b"words line 65537", word * 65_537)
    tally.refuses("33,554,432 line feeds", ["words"], b"words line 1", b"\n" * MOST_INPUT)
    tally.refuses("a line of 33,554,432 digits", ["words"], b"words line 1", b"0" * MOST_INPUT)
    tally.refuses("words of one byte more", ["words"], b"input too large", b"0" * (MOST_INPUT + 1))
    image = write(folder, "long.image", b"M" * MOST_INPUT)
    tally.refuses("an image of 33,554,432 bytes", ["list", image], b"image fault 2")
    image = write(folder, "long.image", b"M" * (MOST_INPUT + 1))
    schedule = os.path.join(folder, "long.schedule")
    for words in (["list", image], ["run", image, image], ["debug", image, image], ["threads", image, "1", schedule]):
        tally.refuses("an image too long", words, b"input too large")


def of_memory(tally, folder):
    """Within ten times the input and 40 MB each command on a large input ends as with ample memory."""
    source = b".entry 0\n" + b"ADD r1, r2, 3 | SKIP NE, 0, -5\n" * 65_536 + b".fill 262144, 7, 1\n"
    path, image = write(folder, "large.asm", source), os.path.join(folder, "large.image")
    tally.does("asm in little memory", ["asm", path, image], setup=within(MOST_MEMORY + 10 * len(source)))
    room = MOST_MEMORY + 10 * os.path.getsize(image)
    tally.does("list in little memory", ["list", image], setup=within(room))
    schedule = write(folder, "large.schedule", b"0 0 1000\n1 0 5\n")
    tally.does("run in little memory", ["run", image, schedule], setup=within(room))
    tally.does("debug in little memory", ["debug", image, schedule], b"c\nback\nm 0 64\n", setup=within(room))
    for words in (["list", image], ["run", image, schedule], ["asm", path, image]):
        ended = tally.run(words, setup=within(8_000_000))
        tally.check(f"{words[0]} within 8 MB: {ended}", ended.is_done() or ended.is_refused(b"no memory"))


def part(_, folder):
    """All of them."""
    tally = Tally()
    of_texts(tally, folder)
    of_words(tally, folder)
    of_memory(tally, folder)
    return tally
