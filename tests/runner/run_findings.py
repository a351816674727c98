"""A second reading of docs/LAB_REFERENCE.md ("Findings"): the findings of a run, worked out from what `mta_lab` tells of its steps. It knows
the memory at each moment by the changes of the steps, and follows each value that is read through the registers, with
the steps in which it was read."""

import re

EMPTY = frozenset()
ARITHMETIC = set("ADD SUB MUL AND OR XOR ANDN SHL SHR SAR TALLY LTS LTU PTR".split())


class Step:
    """What a step of a run did. A word is (value, whether it is full)."""

    def __init__(self, told):
        self.stream = told["p"], told["s"]
        self.operation = self.address = self.before = self.after = None
        if told["o"] == "done" and "ref" in told:
            self.operation, self.address = told["ref"][0], told["ref"][3]
        # the steps from whose reads the stored value was computed, and the operands of the arithmetic operation
        self.stored = self.operands = EMPTY

    def reads(self, word):
        return self.address == word and self.operation in ("LOAD", "FADD")

    def writes(self, word=None):
        return self.address is not None and word in (None, self.address) and self.before != self.after

    def changes_value(self):
        """Whether it put another value into a full word."""
        return self.address is not None and self.before[1] and self.before[0] != self.after[0]

    def hears(self):
        """Whether it tells its stream what became of its word."""
        return self.operation in ("LOAD", "FADD", "TAGGET") or (self.operation == "STORE" and not self.before[1])


class Registers:
    """From which reads the values in a stream's registers were computed."""

    def __init__(self):
        self.of = {}

    def get(self, name):
        return EMPTY if name == "r0" else self.of.get(name, EMPTY)

    def take(self, number, step, statement):
        """Executes a statement as step `number`."""
        parts = [part.strip().partition(" ") for part in statement.split("|")]
        written = []
        for name, _, rest in parts:
            operation, operands = name.split(".")[0], [it.strip() for it in rest.split(",") if it.strip()]
            written += self.written_by(number, step, operation, operands)
        if any(name in ("QUIT", "QUITP") for name, _, _ in parts):
            self.of = {}
            return
        for name, sources in written:
            self.of[name] = sources

    def written_by(self, number, step, operation, operands):
        if operation in ("LOAD", "FADD"):
            return [(operands[0], frozenset([number]))]
        if operation == "STORE":
            step.stored = self.get(operands[0])
        if operation == "TAGGET":
            return [(operands[0], EMPTY)]
        if operation in ARITHMETIC:
            step.operands = EMPTY.union(*(self.get(name) for name in operands[1:]))
            return [(operands[0], step.operands)]
        if operation == "TSET":
            return [(operands[0], self.get(operands[1]))]
        if operation == "TGET":
            return [(operands[0], self.get(operands[1]))]
        if operation == "CALL":
            return [(operands[1], EMPTY)]
        if operation in ("XCHG", "XGET", "RESERVE", "LIT", "TLIT"):
            return [(operands[0], EMPTY)]
        return []


class History:
    """The steps of a run, and the memory before each of them."""

    def __init__(self, start, program, told):
        self.steps, self.memories = [], []
        memory, streams = {}, {}
        for count, value, tags in start["memory"]:
            for _ in range(count):
                memory[8 * len(memory)] = int(value), tags % 2 == 1
        for number, it in enumerate(told):
            step = Step(it)
            self.memories.append(dict(memory))
            if step.address is not None:
                step.before = memory[step.address]
            for place, _, now in it["ch"]:
                found = re.fullmatch(r"\[(\d+)\]\.(value|tags)", place)
                if found:
                    address = int(found.group(1))
                    value, full = memory[address]
                    memory[address] = (int(now), full) if found.group(2) == "value" else (value, now % 2 == 1)
            if step.address is not None:
                step.after = memory[step.address]
            registers = streams.setdefault(step.stream, Registers())
            if it["o"] == "done":
                registers.take(number, step, program[it["pc"]][2])
            elif it["o"].startswith("trapped"):
                registers.of["t0"] = EMPTY
            self.steps.append(step)

    def last(self, end, test):
        """The last step before step `end` that passes a test; None where there is none."""
        return next((n for n in range(end - 1, -1, -1) if test(self.steps[n])), None)

    def hears_since(self, stream, number, since):
        """Whether step `number` is of the stream and tells it what another one wrote after step `since`."""
        step = self.steps[number]
        if step.stream != stream or not step.hears():
            return False
        write = self.last(number, lambda it: it.writes(step.address))
        return write is not None and write > since and self.steps[write].stream != stream

    def lost(self, stored):
        """The lost update of a step."""
        store = self.steps[stored]
        if store.operation != "STORE" or not store.before[1]:
            return None
        word, stream = store.address, store.stream
        over = self.last(stored, lambda it: it.writes(word))
        if over is None or self.steps[over].stream == stream:
            return None
        if any(it.reads(word) and it.stream == stream for it in self.steps[over + 1:stored]):
            return None
        sources = [n for n in store.stored if n < over and self.steps[n].reads(word)]
        if not sources:
            return None
        return {"kind": "lost", "word": word, "read": max(sources) + 1, "over": over + 1, "stored": stored + 1}

    def unread(self, stored):
        """The unread store over which a step stores."""
        store = self.steps[stored]
        if store.operation != "STORE" or self.lost(stored):
            return None
        word = store.address
        over = self.last(stored, lambda it: it.writes(word) or it.reads(word))
        if over is None:
            return None
        other = self.steps[over]
        if other.operation != "STORE" or other.stream == store.stream or other.after[0] == store.after[0]:
            return None
        return {"kind": "unread", "word": word, "over": over + 1, "stored": stored + 1}

    def torn(self, fresh_read):
        """The torn reads of which a step read the written word."""
        read = self.steps[fresh_read]
        if read.operation != "LOAD":
            return
        fresh_write = self.last(fresh_read, lambda it: it.writes(read.address))
        if fresh_write is None:
            return
        write = self.steps[fresh_write]
        if write.stream == read.stream or not write.changes_value():
            return
        for stale_write, other in enumerate(self.steps):
            if other.stream != write.stream or not other.changes_value() or other.address == read.address:
                continue
            for stale_read, look in enumerate(self.steps[:stale_write]):
                if look.stream == read.stream and look.operation == "LOAD" and look.address == other.address:
                    if self.is_torn(stale_read, fresh_read, stale_write, fresh_write):
                        yield {"kind": "torn", "stale": look.address, "fresh": read.address,
                               "reads": [stale_read + 1, fresh_read + 1], "writes": [stale_write + 1, fresh_write + 1]}

    def is_torn(self, stale_read, fresh_read, stale_write, fresh_write):
        reader, writer = self.steps[fresh_read].stream, self.steps[fresh_write].stream
        stale, fresh = self.steps[stale_read].address, self.steps[fresh_read].address
        # one look, and one change
        for one, other, stream, meets in ((stale_read, fresh_read, reader, Step.reads),
                                          (stale_write, fresh_write, writer, Step.writes)):
            first, last = min(one, other), max(one, other)
            for number in range(first + 1, last):
                step = self.steps[number]
                if step.stream == stream and (meets(step, stale) or meets(step, fresh)):
                    return False
                if self.hears_since(stream, number, first):
                    return False
        # of one round
        if fresh_write < stale_write:
            between = range(stale_read + 1, fresh_write)
            if any(self.steps[n].stream == writer and self.steps[n].writes(stale) for n in between):
                return False
        # not let go
        between = range(stale_read + 1, fresh_read)
        if any(self.steps[n].stream == reader and self.steps[n].writes() for n in between):
            if any(self.hears_since(writer, n, stale_read) for n in range(stale_read + 1, stale_write)):
                return False
        return not self.held(stale_read, fresh_read) or self.combined(reader, stale_read, fresh_read)

    def held(self, one, other):
        """Whether the words of two reads held at one moment between them the two values that were read."""
        looks = [(self.steps[n].address, self.steps[n].before[0]) for n in (one, other)]
        moments = self.memories[min(one, other):max(one, other) + 1]
        return any(all(memory[address][0] == value for address, value in looks) for memory in moments)

    def combined(self, stream, one, other):
        """Whether an operation of a stream has operands that come from both reads."""
        return any(step.stream == stream and {one, other} <= step.operands for step in self.steps)


def findings(start, program, told):
    """The findings of a run, in the order of a page's: of each kind in the order of their last steps."""
    history = History(start, program, told)
    numbers = range(len(history.steps))
    lost = [found for found in map(history.lost, numbers) if found]
    torn = [found for n in numbers for found in history.torn(n)]
    return lost + torn + [found for found in map(history.unread, numbers) if found]
