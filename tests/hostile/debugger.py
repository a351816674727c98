"""The debugger's session: lines of NULs, long lines, random bytes, and commands in any order. Each line's answer is
compared with the table of "Debugger", docs/FORMATS.md, as far as it goes by position, points, counts and addresses."""

import os
import random
import re
from functools import partial

from program import EXAMPLES, MOST_INPUT, Tally, assembled, write

LINES, SESSIONS = 40, 1_500
U8, U32, U64 = 255, 4_294_967_295, 18_446_744_073_709_551_615
# a command with the greatest number of each of its operands
COMMANDS = {b"s": [U64], b"c": [], b"back": [], b"g": [U64], b"b": [U8, U32], b"w": [U64], b"wt": [U64], b"d": [U64],
            b"r": [U8, U8], b"m": [U64, U64]}
NUMBER = re.compile(rb"[0-9]+|0x[0-9a-fA-F]+")
STREAM = re.compile(
    rb"(?:Idle|Running|Stopped \d\d) ssw [0-9A-F]{16} xr [0-9A-F]{16} retries \d+\n"
    rb"(?:r\d\d [0-9A-F]{16}\n)*(?:t[0-7] [0-9A-F]{16}\n)*"
)


def command_of(line):
    """The command of a line with its numbers, none where it is no command."""
    name, *words = line.split(b" ")
    most = COMMANDS.get(name)
    if len(line) > 256 or most is None or len(words) != len(most):
        return None
    if not all(NUMBER.fullmatch(word) for word in words):
        return None
    numbers = [int(word, 16 if word.startswith(b"0x") else 10) for word in words]
    return (name, *numbers) if all(n <= limit for n, limit in zip(numbers, most)) else None


class Session:
    """What is known of a session without running its machine."""

    def __init__(self, processors, slim, words, length):
        self.processors, self.slim, self.words, self.length = processors, slim, words, length
        self.position, self.points = 0, set()

    def is_word(self, address):
        return address % 8 == 0 and address // 8 < self.words

    def refusal(self, command):
        """The number of the fault by which a command is refused, if any."""
        if command is None:
            return 1
        name, *numbers = command
        if name in (b"s", b"g"):
            return 5 if numbers[0] + (self.position if name == b"s" else 0) > self.length else None
        if name == b"b":
            return 2 if numbers[0] >= self.processors else None
        if name in (b"w", b"wt"):
            return None if self.is_word(numbers[0]) else 3
        if name == b"d":
            return None if numbers[0] in self.points else 4
        if name == b"r":
            return 2 if numbers[0] >= self.processors or numbers[1] >= self.slim else None
        if name == b"m":
            address, count = numbers
            if not 1 <= count <= 64:
                return 1
            return None if address % 8 == 0 and address // 8 + count <= self.words else 3
        return None

    def answer(self, command):
        """What the answer to a command that is not refused has to be, as a pattern."""
        name, *numbers = command
        if name in (b"s", b"g"):
            return rb"at %d moved\n" % (numbers[0] + (self.position if name == b"s" else 0))
        if name == b"c":
            return rb"at \d+ (?:stop|end)\n"
        if name == b"back":
            return rb"at \d+ stop\n|at 0 start\n"
        if name in (b"b", b"w", b"wt"):
            return rb"point \d+\n"
        if name == b"d":
            return rb"gone %d\n" % numbers[0]
        if name == b"r":
            return STREAM.pattern
        return b"".join(rb"%012X [0-9A-F]{16} [0-9A-F]\n" % (numbers[0] + 8 * k) for k in range(numbers[1]))

    def follow(self, command, answer):
        """Whether an answer in its form fits the session, which goes on from it."""
        name, number = command[0], int(re.search(rb"\d+", answer).group())
        if name in (b"b", b"w", b"wt"):
            is_new = number not in self.points
            self.points.add(number)
            return is_new
        if name == b"d":
            self.points.discard(number)
        if name in (b"s", b"g", b"c", b"back"):
            before, self.position = self.position, number
            if name == b"c":
                return before < number <= self.length if b"stop" in answer else number == self.length
            return number < before or b"stop" not in answer if name == b"back" else True
        return True

    def reads(self, lines, out):
        """The place of the first line whose answer does not fit, none where all do and nothing is left."""
        place = 0
        for k, line in enumerate(lines):
            command = command_of(line)
            fault = self.refusal(command)
            pattern = self.answer(command) if fault is None else rb"fault %d\n" % fault
            found = re.compile(pattern).match(out, place)
            if found is None or (fault is None and not self.follow(command, found.group())):
                return k
            place = found.end()
        return None if place == len(out) else len(lines)


def lines_of(text):
    """The lines of a text; the last one without a line feed counts where it is not empty."""
    lines = text.split(b"\n")
    return lines if lines[-1] else lines[:-1]


def random_line(choose):
    """A command of small or large numbers, one that is spoilt, or random bytes."""
    name = choose.choice(sorted(COMMANDS))
    small = [b"%d" % choose.randrange(12), b"%d" % (8 * choose.randrange(4)), b"0x%x" % choose.randrange(99), b"0"]
    large = [b"255", b"256", b"%d" % U32, b"%d" % (U32 + 1), b"%d" % U64, b"%d" % (U64 + 1), b"0xFFFFFFFFFFFFFFF8"]
    operands = [choose.choice(small if choose.randrange(8) else large) for _ in COMMANDS[name]]
    line = b" ".join([name, *operands])
    kind = choose.randrange(12)
    if kind == 0:
        return bytes(choose.choices([k for k in range(256) if k != 10], k=choose.randrange(30)))
    if kind == 1:
        at = choose.randrange(len(line) + 1)
        return line[:at] + bytes([choose.choice(b"\0 \t\rx0\xff")]) + line[at:]
    return line


def of_session(folder, image, schedule, known, number):
    """One session of random lines."""
    tally, choose = Tally(), random.Random(number)
    text = b"\n".join(random_line(choose) for _ in range(LINES)) + choose.choice([b"", b"\n"])
    out = tally.does(f"session {number}", ["debug", image, schedule], text)
    wrong = Session(*known).reads(lines_of(text), out)
    tally.check(f"session {number}, line {wrong} of {text!r}", wrong is None)
    return tally


def of_lines(tally, image, schedule, known):
    """Lines of one kind each, and lines at their limits."""
    texts = [
        ("no line", b""), ("line feeds", b"\n" * 1000), ("one NUL", b"\0"), ("NULs", b"\0" * 100 + b"\n" + b"\0\n" * 9),
        ("1 MB of NULs", b"\0" * 1_000_000 + b"\ns 1\n"), ("1 MB of c", b"c" * 1_000_000 + b"\ns 1\n"),
        ("lines of 1 MB", (b"s " + b"0" * 1_000_000 + b"\n") * 5 + b"s 1"),
        ("256 bytes", b"s " + b"0" * 253 + b"1\ns 1\n"), ("257 bytes", b"s " + b"0" * 254 + b"1\ns 1\n"),
        ("256 bytes, hexadecimal", b"s 0x" + b"0" * 251 + b"1"),
        ("257 bytes, hexadecimal", b"s 0x" + b"0" * 252 + b"1"),
        ("each byte alone", b"".join(bytes([k, 10]) for k in range(256))),
        ("a hundred points", b"w 0\n" * 100 + b"c\nback\n" + b"d 7\nd 7\nw 8\n"),
    ]
    for what, text in texts:
        out = tally.does(what, ["debug", image, schedule], text)
        wrong = Session(*known).reads(lines_of(text), out)
        tally.check(f"{what}: line {wrong}", wrong is None)
    out = tally.does("a line of 33,554,431 bytes", ["debug", image, schedule], b"c" * (MOST_INPUT - 1) + b"\n")
    tally.check(f"a line of 33,554,431 bytes: {out[:40]!r}", out == b"fault 1\n")
    ended = tally.run(["debug", image, schedule], b"s 1\n" + b"\0" * MOST_INPUT)
    holds = (ended.status, ended.out, ended.err) == (1, b"at 1 moved\n", b"mta_sim: input too large\n")
    tally.check(f"a line past the input's limit: {ended}", holds)


def part(pool, folder):
    """All of them."""
    tally = Tally()
    image = assembled(tally, folder, os.path.join(EXAMPLES, "philosophers.asm"), "debug.image")
    with open(image, "rb") as file:
        head = file.read(26)
    processors, slim, words = (int.from_bytes(head[a:b], "big") for a, b in ((6, 8), (8, 10), (22, 26)))
    schedule = write(folder, "debug.schedule", b"".join(b"%d 0 %d\n" % (k % 5, k % 7 + 1) for k in range(30)))
    known = (processors, slim, words, sum(k % 7 + 1 for k in range(30)))
    of_lines(tally, image, schedule, known)
    for one in pool.map(partial(of_session, folder, image, schedule, known), range(SESSIONS), chunksize=20):
        tally.add(one)
    return tally
