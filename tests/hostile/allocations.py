"""Refused memory: each allocation of each command is refused in turn, on the programs of examples and tests/cases. A
command has to end as with ample memory, or say that memory was refused, and then nothing else may have changed: no file
and no output, but for the answers of the debugger to earlier lines; there a command may also be answered by `fault 6`,
and then all later answers are those of the session without it."""

import collections
import os
from functools import partial

from program import CASES, EXAMPLES, ROOT, Tally, assembled, read, run, schedules, sources, write
from refusing import interposer, refused_allocation
from threads import replays

FUEL = 60
# more allocations are tried than a run of threads counted, since their number goes by how the threads ran
MORE = 4
SESSION = [b"wt 0\n", b"c\n", b"m 0 1\n", b"w 0\n", b"b 0 1\n", b"back\n", b"s 1\n", b"r 0 0\n", b"d 0\n", b"x\n",
           b"g 0\n", b"c\n", b"m 0 64\n", b"back\n"]


class Refusals(Tally):
    """Refused allocations by command: those that were told, and those without effect."""

    def __init__(self):
        super().__init__()
        self.told, self.silent = collections.Counter(), collections.Counter()

    def __str__(self):
        told, silent = sum(self.told.values()), sum(self.silent.values())
        names = sorted(self.told | self.silent)
        parts = ", ".join(f"{name} {self.told[name]} and {self.silent[name]}" for name in names)
        return f"{told + silent} refused, {told} told, {silent} without effect ({parts}), {len(self.wrong)} wrong"

    def add(self, other):
        super().add(other)
        self.told += other.told
        self.silent += other.silent

    def note(self, name, ended):
        """Counts a refusal by how the command ended."""
        is_told = ended.status != 0 or (name == "debug" and b"fault 6\n" in ended.out)
        (self.told if is_told else self.silent)[name] += 1


class Command:
    """A command with its input, and what it prints and makes with ample memory."""

    def __init__(self, library, folder, words, text=b"", made=None):
        self.library, self.folder, self.words, self.text, self.made = library, folder, words, text, made

    def run(self, number=0):
        """Runs it with an allocation refused; gives how it ended, what it made, and how often it asked for memory."""
        if self.made is not None:
            write(self.folder, os.path.basename(self.made), b"before")
        variables = refused_allocation(self.library, self.folder, number)
        ended = run(self.words, self.text, **variables)
        return ended, None if self.made is None else read(self.made), int(read(variables["COUNT"]))


def sweep(tally, command, is_right):
    """Refuses each allocation in turn; is_right tells whether a run that is done, or refused later, is right."""
    ample, made, count = command.run()
    what = " ".join(os.path.basename(word) for word in command.words)
    tally.check(f"{what} with ample memory: {ample}", ample.is_done())
    for number in range(1, count + (MORE if command.words[0] == "threads" else 0) + 1):
        ended, found, asked = command.run(number)
        if number <= asked:
            tally.note(command.words[0], ended)
        if ended.status == 2:
            # the command line could not be read
            holds = ended.out == b"" and b"out of memory" in ended.err and found in (None, b"before")
        elif ended.is_refused(b"no memory"):
            holds = found in (None, b"")
        else:
            holds = is_right(ended, found, ample, made)
        tally.check(f"{what}: allocation {number} refused: {ended}", holds)


def is_same(ended, made, ample, wanted):
    """A run that ends as with ample memory."""
    return ended.is_done() and (ended.out, made) == (ample.out, wanted)


def of_text(tally, library, folder, source):
    """The commands on a source text, its image and its schedules."""
    own = os.path.join(folder, f"refused.{os.getpid()}")
    sweep(tally, Command(library, folder, ["asm", source, own], made=own), is_same)
    image = assembled(tally, folder, source, f"refused.{os.getpid()}.image")
    sweep(tally, Command(library, folder, ["list", image]), is_same)
    of_threads(tally, library, folder, image)
    for schedule in schedules(source):
        sweep(tally, Command(library, folder, ["run", image, schedule]), is_same)
        of_session(tally, library, folder, image, schedule)


def of_threads(tally, library, folder, image):
    """The command threads: what it hands out is run again."""
    schedule = os.path.join(folder, f"refused.{os.getpid()}.schedule")
    processors = int.from_bytes(read(image)[6:8], "big")

    def is_right(ended, made, _, __):
        if not ended.is_done():
            # where two processors get no table of turns, they take no step
            return processors == 2 and ended.is_refused(b"gather fault 2") and made == b""
        again = Tally()
        replays(again, "threads", image, FUEL, schedule, ended.out)
        return made is not None and not again.wrong

    sweep(tally, Command(library, folder, ["threads", image, str(FUEL), schedule], made=schedule), is_right)


def of_session(tally, library, folder, image, schedule):
    """The command debug: the answers that each refusal may leave; after some of them the session has gone on."""
    words = ["debug", image, schedule]
    gone_on = []

    def printed(lines):
        return tally.does("debug with ample memory", words, b"".join(lines))

    begun = [printed(SESSION[:k]) for k in range(len(SESSION) + 1)]
    allowed = {begun[-1]}
    for k in range(len(SESSION)):
        without = printed(SESSION[:k] + SESSION[k + 1:])
        allowed.add(begun[k] + b"fault 6\n" + without[len(begun[k]):])

    def is_right(ended, _, __, ___):
        if ended.status == 1:
            return ended.err == b"mta_sim: no memory\n" and ended.out in begun
        if b"fault 6\n" in ended.out:
            gone_on.append(ended.is_done())
        return ended.is_done() and ended.out in allowed

    sweep(tally, Command(library, folder, words, b"".join(SESSION)), is_right)
    tally.check("debug: no session went on after fault 6", True in gone_on)


def of_source(library, folder, source):
    """The commands on one source text."""
    tally = Refusals()
    of_text(tally, library, folder, source)
    return tally


def part(pool, folder):
    """All of them."""
    tally, library = Refusals(), interposer(folder)
    word = read(os.path.join(ROOT, "crates/mta_sim/stdin"))
    sweep(tally, Command(library, folder, ["words"], word), is_same)
    found = sources(EXAMPLES, os.path.join(CASES, "run"), os.path.join(CASES, "threads"))
    for one in pool.map(partial(of_source, library, folder), found):
        tally.add(one)
    return tally
