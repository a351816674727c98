"""Which warnings a program gets by its paths: a second reading of docs/LAB_REFERENCE.md, "Checks", over docs/MACHINE.md. It
shares nothing with the program that is tested."""

from typing import NamedTuple

from machine import LAST

ADDRESS, RESERVED = 2**48 - 1, 0x07FF0000
CONTROLS = {0: ".N", 2: ".F", 3: ".S"}
RESULTS = {"ADD": lambda a, b: a + b, "SUB": lambda a, b: a - b, "MUL": lambda a, b: a * b, "SHL": lambda a, b: a << b}
# operations after which no stream goes on at the next word by itself
LEAVING = ("CALL", "XCHG", "QUIT", "QUITP")


class Known(NamedTuple):
    """What is known of a register: its halves, and the word whose LIT set it."""

    low: int = None
    high: int = None
    literal: int = None

    def value(self):
        """Its value, if all of it is known."""
        return None if None in (self.low, self.high) else self.high << 32 | self.low


def of_value(value):
    """A register that holds a value, or an unknown one."""
    return Known() if value is None else Known(value % 2**32, value >> 32)


class Reference:
    """A reference of a word, and what is known of its base."""

    def __init__(self, at, word, base):
        self.at, self.base = at, base
        self.name, suffix, self.register, _, displacement = word.memory
        value = base.value()
        self.address = None if value is None else (value + 8 * displacement) & ADDRESS
        self.by_pointer = self.name in ("LOAD", "STORE", "FADD") and suffix == ""
        control = None if base.high is None else base.high >> 27 & 3
        self.control = (CONTROLS.get(control) if self.by_pointer else suffix) if control is not None or suffix else None
        self.is_refused = control == 1 or bool((base.high or 0) & RESERVED)
        self.starts = bool(word.control) and word.control[0] == "CREATE"

    def turns(self, is_full):
        """Whether it may empty a full word, or fill an empty one."""
        if is_full:
            return self.name == "TAGSET" or self.name == "LOAD" and self.control in (".S", None)
        return (self.name == "TAGSET" or self.name == "STORE" and self.control != ".F"
                or self.name == "FADD" and self.control in (".N", None))

    def waits_for(self):
        """Whether it waits for a full word, or for an empty one; None if it does not wait."""
        if self.is_refused or self.starts or self.control not in (".F", ".S") or self.name.startswith("TAG"):
            return None
        return not (self.name == "STORE" and self.control == ".S")


class Rules:
    """What a program shows by its paths; `labels` are the words whose LIT names a label."""

    def __init__(self, program, labels):
        self.program, self.labels, self.words, self.count = program, labels, program.words, len(program.words)
        self.goes_anywhere = program.trap < self.count or any(map(sets_status, self.words))
        self.is_plain = all(tags <= 1 for _, tags in program.data)
        self.reached = self.search()
        self.entered = self.entries()
        self.begins = self.entered | set(map(self.skipped, range(self.count)))
        self.references = self.all_references()
        self.endless = {at for at in self.reached if self.is_endless(at)}

    # Where streams come.

    def name_of(self, at):
        """The control operation of a word; None where it has none."""
        return self.words[at].control[0] if self.words[at].control else None

    def skipped(self, at):
        """Where a SKIP leads; None where there is none, or it leads before the program."""
        if self.name_of(at) != "SKIP":
            return None
        to = at + 1 + self.words[at].control[3]
        return to if to >= 0 else None

    def aimed(self, at):
        """The word that a TLIT names."""
        wide = self.words[at].wide
        return wide[2] if wide and wide[0] == "TLIT" else None

    def goes_on(self, at):
        """Whether a stream may go on at the next word, without a target register."""
        name = self.name_of(at)
        return name not in LEAVING and not (name in ("SKIP", "JUMP") and self.words[at].control[1] == "ALWAYS")

    def search(self):
        """The words that streams may come to: what is written to target registers counts from there on."""
        found, left = set(), [self.program.trap, *self.program.entries]
        while left:
            at = left.pop()
            if at is None or at >= self.count or at in found:
                continue
            found.add(at)
            name = self.name_of(at)
            if name == "TSET":
                return set(range(self.count))
            left += [at + 1] * (self.goes_on(at) or name in ("CALL", "XCHG"))
            left += [0] * (name in ("JUMP", "CALL", "XCHG", "CREATE"))
            left += [self.skipped(at), self.aimed(at)]
        return found

    def entries(self):
        """The words to which streams may come otherwise than from the word before and by a SKIP."""
        places = range(self.count)
        if self.goes_anywhere:
            return set(places)
        return {0, *self.program.entries, *map(self.aimed, places),
                *(at + 1 for at in places if self.name_of(at) == "CALL")}

    # What registers hold.

    def all_references(self):
        """The references of words that streams come to."""
        results = self.results()
        held = {register: self.held(register, results) for register in range(32)}
        return [Reference(at, word, held[word.memory[3]].get(at, Known())) for at, word in enumerate(self.words)
                if word.memory and at in self.reached]

    def results(self):
        """What is known of the result of each word's arithmetic, by the words right before it."""
        found, registers = {}, {}
        for at, word in enumerate(self.words):
            if at in self.begins:
                registers = {}
            registers[0] = Known(0, 0)
            found[at] = of_value(self.result(registers, word.arithmetic)) if word.arithmetic else Known()
            registers = {register: self.after(at, register, registers.get(register, Known()), found) for register in range(32)}
        return found

    def held(self, register, results):
        """What is known of a register at each word to which a path leads, on every one."""
        if register == 0:
            return dict.fromkeys(range(self.count), Known(0, 0))
        found = {}
        left = [(at, Known()) for at in self.entered]
        while left:
            at, known = left.pop()
            if at is None or at >= self.count:
                continue
            met = Known(*(one if one == other else None for one, other in zip(known, found.get(at, known))))
            if found.get(at) == met:
                continue
            found[at] = met
            after = self.after(at, register, met, results)
            left += [(at + 1, after)] * self.goes_on(at) + [(self.skipped(at), after)]
        return found

    def after(self, at, register, before, results):
        """What is known of a register after a word of the program."""
        word = self.words[at]
        if word.wide and word.wide[0] != "TLIT" and word.wide[1] == register:
            return Known(word.wide[2], 0, at) if word.wide[0] == "LIT" else Known(before.low, word.wide[2])
        if word.arithmetic and word.arithmetic[2] == register:
            return results[at]
        if word.memory and word.memory[0] in ("LOAD", "FADD", "TAGGET") and word.memory[2] == register:
            return Known()
        if word.control and word.control[0] in ("TGET", "XGET", "RESERVE") and word.control[1] == register:
            return Known()
        return before

    def result(self, registers, arithmetic):
        """The result of an operation of known numbers; None of others."""
        name, _, _, ra, b = arithmetic
        one = registers.get(ra, Known()).value()
        other = registers.get(int(b[1:]), Known()).value() if isinstance(b, str) else b
        if None in (one, other) or name not in RESULTS or name == "SHL" and other > 63:
            return None
        return RESULTS[name](one, other) & LAST

    # The warnings.

    def warnings(self):
        """Each warning that the program gets, as its number and its word; 107 is not among them."""
        return {(number, at) for at, word in enumerate(self.words) for number in self.of_word(at, word)} | {
            (number, reference.at) for reference in self.references for number in self.of_reference(reference)
        } | self.of_waits() | self.of_falls()

    def of_word(self, at, word):
        """The warnings that a word shows by itself, and those about its paths."""
        if at not in self.reached and (at == 0 or at - 1 in self.reached):
            yield 101
        if word.arithmetic and word.arithmetic[1] and self.name_of(at) in ("SKIP", "JUMP"):
            if word.control[1] != "ALWAYS" and word.control[2] == 0:
                yield 103
        if at in self.endless:
            yield 110
        if word.wide and word.wide[0] != "TLIT" and word.wide[1] == 0:
            yield 113
        if word.arithmetic and word.arithmetic[2] == 0 and not word.arithmetic[1]:
            yield 113

    def of_reference(self, reference):
        """The warnings about a reference, but for those about waits."""
        if reference.base.literal in self.labels:
            yield 104
        if reference.by_pointer and reference.control in (".F", ".S") and not reference.is_refused:
            yield 105
        if reference.is_refused:
            yield 111
        elif self.is_plain and not self.goes_anywhere and reference.address is not None:
            if reference.address % 8 or reference.address >= 8 * len(self.program.data):
                yield 111
        is_plain_read = reference.name == "TAGGET" or reference.name == "LOAD" and reference.control == ".N"
        if reference.register == 0 and is_plain_read and not reference.is_refused:
            yield 113

    def is_endless(self, at):
        """Whether a loop of arithmetic alone never ends once it repeats: what its SKIP asks does not change in it."""
        first = self.skipped(at)
        if first is None or first > at or self.words[at].memory:
            return False
        body = self.words[first:at]
        if any(word.memory or word.control or word.wide and word.wide[0] == "TLIT" for word in body):
            return False
        if self.words[at].control[1] == "ALWAYS":
            return first < at
        read, written = set(), set()
        for word in (*body, self.words[at]):
            read |= set(read_by(word)) - written
            written |= set(written_by(word))
        codes = sum(bool(word.arithmetic and word.arithmetic[1]) for word in body)
        own = bool(self.words[at].arithmetic and self.words[at].arithmetic[1])
        if self.words[at].control[2] >= codes:
            is_same = codes == 0 and not own
        else:
            is_same = not self.begins.intersection(range(first + 1, at + 1))
        return is_same and not read & written

    def of_falls(self):
        """108 and 109: where streams go on past the end, or into the code where a processor begins."""
        found = set()
        if self.goes_anywhere or not self.is_plain:
            return found
        for at in self.reached - self.endless:
            to = self.skipped(at)
            if self.goes_on(at) and at + 1 >= self.count or to is not None and to >= self.count:
                found.add((108, at))
            elif self.goes_on(at) and self.is_others(at + 1):
                found.add((109, at))
        return found

    def is_others(self, at):
        """Whether a processor begins at a word, and does not end there, after code of another one's that refers to memory."""
        if at not in self.program.entries or self.name_of(at) in ("QUIT", "QUITP"):
            return False
        refers = False
        for before in reversed(range(at)):
            refers |= bool(self.words[before].memory)
            if before in self.program.entries:
                return refers
        return False

    def of_waits(self):
        """112 and 116: references that wait forever, if a stream comes to them."""
        named = {reference.name for reference in self.references}
        fills = any(reference.turns(False) for reference in self.references)
        if not self.is_plain or self.program.retry or "TAGSET" in named or not fills:
            return set()
        waits = {reference for reference in self.references if self.awaited(reference) is not None}
        never = {reference for reference in waits if not self.is_turned(reference, self.references)}
        return {(112, reference.at) for reference in never} | {
            (116, reference.at) for reference in self.stuck(waits) - never}

    def awaited(self, reference):
        """The word for which a reference waits as long as that is as it begins."""
        if reference.address is None or reference.address % 8 or reference.address >= 8 * len(self.program.data):
            return None
        cell = reference.address // 8
        return cell if reference.waits_for() == (self.program.data[cell][1] == 0) else None

    def is_turned(self, reference, others):
        """Whether one of these references may turn the word for which one waits."""
        is_full = not reference.waits_for()
        return any(other.turns(is_full) and other.address in (None, reference.address) for other in others)

    def stuck(self, waits):
        """The references at which streams wait forever, as none of them turns a word before."""
        if self.goes_anywhere:
            return set()
        while True:
            passed, come = self.passed({reference.at for reference in waits})
            others = [reference for reference in self.references if reference.at in passed]
            freed = {reference for reference in waits if self.is_turned(reference, others)}
            if not freed:
                return {reference for reference in waits if reference.at in come}
            waits = waits - freed

    def passed(self, waits):
        """The words that streams pass, if they wait at these, and those that they come to."""
        come, left, aims, go = set(), list(self.program.entries), set(), False
        while left:
            at = left.pop()
            if at is None or at >= self.count or at in come:
                continue
            come.add(at)
            if at in waits:
                continue
            left += [at + 1] * self.goes_on(at) + [self.skipped(at)]
            aims |= {self.aimed(at)} | ({at + 1} if self.name_of(at) == "CALL" else set())
            go |= self.name_of(at) in ("JUMP", "CALL", "CREATE")
            left += [0, *aims] * go
        return come - waits, come


def sets_status(word):
    """Whether a word may set all of a status word, or t0, to which traps lead."""
    if word.wide:
        return word.wide[0] == "TLIT" and word.wide[1] == 0
    return bool(word.control) and (word.control[0] in ("XCHG", "TSET") or word.control[0] == "CALL" and word.control[2] == 0)


def read_by(word):
    """The registers that a word of arithmetic reads, but for r0."""
    registers = []
    if word.arithmetic:
        _, _, _, ra, b = word.arithmetic
        registers = [ra, int(b[1:]) if isinstance(b, str) else 0]
    if word.wide and word.wide[0] == "LITH":
        registers = [word.wide[1]]
    return [register for register in registers if register]


def written_by(word):
    """The registers that it writes, but for r0."""
    register = word.arithmetic[2] if word.arithmetic else word.wide[1] if word.wide else 0
    return [register] if register else []
