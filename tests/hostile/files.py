"""Inputs that are not there, that are folders or can't be read, and outputs that can't be written."""

import os

from program import EXAMPLES, Tally, assembled, read, write

NOBODY = 65_534


def as_nobody():
    """What takes the rights of the superuser, if the new process has them."""
    if os.geteuid() == 0:
        os.setgid(NOBODY)
        os.setuid(NOBODY)


def inputs(tally, folder, image, schedule):
    """Each input of each command missing, a folder, and without the right to read it."""
    made, missing = os.path.join(folder, "made"), os.path.join(folder, "missing")
    secret = write(folder, "secret", read(image))
    os.chmod(secret, 0)
    os.chmod(folder, 0o777)
    source = os.path.join(EXAMPLES, "lock.asm")
    for bad in (missing, folder, secret):
        for words in (["asm", bad, made], ["list", bad], ["run", bad, schedule], ["run", image, bad],
                      ["threads", bad, "9", made], ["debug", bad, schedule], ["debug", image, bad]):
            tally.refuses(f"{words[0]} of {bad}", words, b"read failed", b"c\n", setup=as_nobody)
            # a folder is opened and can't be read, so that the output file is made, and empty
            wanted = b"" if bad == folder and made in words else None
            tally.check(f"what {words[0]} of {bad} makes", read(made) == wanted)
            if wanted is not None:
                os.unlink(made)
    for bad in (folder, os.path.join(missing, "no"), "/dev/full"):
        tally.refuses(f"asm to {bad}", ["asm", source, bad], b"write failed")
        tally.refuses(f"threads to {bad}", ["threads", image, "9", bad], b"write failed")


def outputs(tally, image, schedule):
    """Standard output that is full, closed, or a pipe that nobody reads; standard input that can't be read."""
    word = b"8010000000000005\n"
    commands = [(["words"], word), (["list", image], b""), (["run", image, schedule], b""),
                (["threads", image, "9", schedule + ".made"], b""), (["debug", image, schedule], b"c\n")]
    for words, text in commands:
        with open("/dev/full", "wb") as full:
            tally.refuses(f"{words[0]} to a full disk", words, b"write failed", text, output=full)
        tally.refuses(f"{words[0]} to no output", words, b"write failed", text, setup=lambda: os.close(1))
        away, pipe = os.pipe()
        os.close(away)
        with open(pipe, "wb", closefd=True) as broken:
            ended = tally.run(words, text, output=broken)
        tally.check(f"{words[0]} to a closed pipe: {ended}", ended.is_refused(b"write failed"))
    for words in (["words"], ["debug", image, schedule]):
        folder = os.open("/", os.O_RDONLY)
        tally.refuses(f"{words[0]} from a folder", words, b"read failed", folder)
        os.close(folder)
    for words in (["words"], ["debug", image, schedule]):
        tally.refuses(f"{words[0]} from no input", words, b"read failed", setup=lambda: os.close(0))


def part(_, folder):
    """All of them."""
    tally = Tally()
    image = assembled(tally, folder, os.path.join(EXAMPLES, "lock.asm"), "files.image")
    schedule = write(folder, "files.schedule", b"0 0\n")
    os.chmod(image, 0o644)
    inputs(tally, folder, image, schedule)
    outputs(tally, image, schedule)
    return tally
