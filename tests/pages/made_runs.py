"""Runs that no machine has made, for sizes and crowds: streams that count, hand a word on and spin, by chance; many
that want one word; a ring of streams that wait for each other. They keep what a page relies on: each change begins with
what stood there, and waits name the steps that they tell of."""

import random

COUNT = ("count", ("LIT r1, 1", "FADD.N r1, r0, 0", "ADD r2, r2, 1", "MUL r3, r2, r2", "STORE.S r2, r0, 1",
                   "SKIP ALWAYS, 0, count"))
TAKE = ("take", ("LOAD.S r4, r0, 1 | ADD r5, r5, 1", "SKIP ALWAYS, 0, take"))
SPIN = ("spin", ("ADD r6, r6, 1", "SKIP ALWAYS, 0, spin"))
HOLD = ("hold", ("LOAD.S r1, r0, 1", "ADD r2, r2, 1", "STORE.S r1, r0, 1", "SKIP ALWAYS, 0, hold"))


class Maker:
    """Takes steps of stream 0 of each processor, each in a loop of its own, over two words."""

    def __init__(self, loops, words):
        self.loops, self.words, self.memory = loops, list(words), [[1, value, tags] for value, tags in words]
        self.steps, self.waits, self.waiting, self.turns = [], [], {}, {0: [], 8: []}
        self.program, self.starts = [], {}
        for name, statements in dict(loops).items():
            self.starts[name] = len(self.program)
            for i, statement in enumerate(statements):
                self.program.append([len(self.program) + 1, name + (f"+{i}" if i else ""), statement])
        self.places = {}
        for p, (name, _) in enumerate(loops):
            self.places |= {f"{p}.scur": 1, f"{p}.sres": 1, f"{p}.0.status": "running", f"{p}.0.pc": self.starts[name]}
        self.start = {place: value for place, value in self.places.items() if value != 0}

    def change(self, step, place, value):
        before = self.places.get(place, "0")
        if before != value:
            step["ch"].append([place, before, value])
            self.places[place] = value

    def step(self, p):
        name, statements = self.loops[p]
        pc = self.places[f"{p}.0.pc"]
        at = pc - self.starts[name]
        step = {"p": p, "s": 0, "pc": pc, "o": "done", "ch": []}
        operation, register, *_, last = statements[at].split(" |")[0].replace(",", "").split()
        if operation.startswith(("LOAD", "STORE", "FADD")):
            self.ask(p, step, operation, f"{p}.0.{register}", int(last))
        elif operation == "ADD":
            place = f"{p}.0.{register}"
            self.change(step, place, str(int(self.places.get(place, "0")) + 1))
        if step["o"] == "done":
            self.change(step, f"{p}.0.pc", self.starts[name] if at + 1 == len(statements) else pc + 1)
        self.steps.append(step)

    def ask(self, p, step, name, register, word):
        """Asks the memory: LOAD.S wants a full word and empties it, STORE.S an empty one and fills it."""
        (operation, control), (value, tags) = name.split("."), self.words[word]
        given = None if operation == "LOAD" else self.places.get(register, "0")
        step["ref"] = [operation, control, 8 * word, 8 * word, given, None]
        if control == "S" and tags != int(operation == "LOAD"):
            step["o"] = "blocked"
            return self.wait(p, 8 * word, "full" if operation == "LOAD" else "empty")
        step["ref"][5] = "0" if operation == "STORE" else value
        after = {"LOAD": value, "STORE": given, "FADD": str(int(value) + int(given or 0))}[operation]
        turned = int(operation == "STORE") if control == "S" else tags
        self.free(p, 8 * word)
        if after != value:
            step["ch"].append([f"[{8 * word}].value", value, after])
        if turned != tags:
            step["ch"].append([f"[{8 * word}].tags", tags, turned])
            self.turns[8 * word].append(len(self.steps) + 1)
        self.words[word] = (after, turned)
        if operation != "STORE":
            self.change(step, register, value)

    def last_turn(self, address):
        return self.turns[address][-1] if self.turns[address] else 0

    def wait(self, p, address, wanted):
        if p in self.waiting:
            self.waiting[p]["tries"] += 1
            return
        self.waiting[p] = {"stream": f"{p}.0", "word": address, "for": wanted, "from": len(self.steps) + 1, "tries": 1,
                           "made": self.last_turn(address), "to": None, "met": 0}
        self.waits.append(self.waiting[p])

    def free(self, p, address):
        if wait := self.waiting.pop(p, None):
            wait |= {"to": len(self.steps) + 1, "met": self.last_turn(address)}

    def end(self):
        """Who waits at the end, and who could go on."""
        waiting, stuck = [], set()
        for wait in self.waiting.values():
            made = self.last_turn(wait["word"])
            by = f"{self.steps[made - 1]['p']}.0" if made else None
            told = {part: wait[part] for part in ("stream", "word", "for")}
            waiting.append(told | {"since": wait["from"], "made": made, "by": by})
            if self.words[wait["word"] // 8][1] != int(wait["for"] == "full"):
                stuck.add(wait["stream"])
        able = [name for p in range(len(self.loops)) if (name := f"{p}.0") not in stuck]
        return {"kind": "steps" if able else "deadlock", "waiting": waiting, "circle": [], "able": able, "fresh": [],
                "quit": [], "stopped": []}

    def run(self, name):
        source = [f"{place}: {statement} ; what a line may say" for _, place, statement in self.program]
        return {"version": 2, "object": "page", "name": name, "schedule": "by chance", "source": source,
                "program": self.program, "data": [[0, 1, 1, "the count"], [8, 1, 1, "slot"]], "names": [[8, 1, "slot"]],
                "start": {"places": self.start, "memory": self.memory}, "slim": 1, "steps": self.steps, "waits": self.waits,
                "findings": [], "end": self.end()}


def by_chance(loops, words, length, seed=1):
    maker, chance = Maker(loops, words), random.Random(seed)
    for _ in range(length):
        maker.step(chance.randrange(len(loops)))
    return maker


def long_run(length):
    """Four streams that count, hand a word on, take it and spin."""
    return by_chance((COUNT, COUNT, TAKE, SPIN), [("0", 1), ("0", 0)], length).run("loops")


def crowd(streams, length):
    """So many streams that want one word."""
    return by_chance((HOLD,) * streams, [("0", 1), ("0", 1)], length).run("crowd")


def ring(count):
    """So many streams, each with a word of its own that it has taken, waiting for the next one's: a deadlock."""
    names, places, steps, waits, waiting = [f"{p}.0" for p in range(count)], {}, [], [], []
    for p in range(count):
        places |= {f"{p}.scur": 1, f"{p}.sres": 1, f"{p}.0.status": "running"}
        changes = [[f"{p}.0.pc", 0, 1], [f"[{8 * p}].tags", 1, 0]]
        asked = ["LOAD", "S", 8 * p, 8 * p, None, "0"]
        steps.append({"p": p, "s": 0, "pc": 0, "o": "done", "ref": asked, "ch": changes})
    for p in range(count):
        after = (p + 1) % count
        word, since = 8 * after, count + p + 1
        asked = ["LOAD", "S", word, word, None, None]
        steps.append({"p": p, "s": 0, "pc": 1, "o": "blocked", "ref": asked, "ch": []})
        told = {"stream": f"{p}.0", "word": word, "for": "full", "made": after + 1}
        waits.append(told | {"from": since, "tries": 1, "to": None, "met": 0})
        waiting.append(told | {"since": since, "by": f"{after}.0"})
    return {"version": 2, "object": "page", "name": "ring", "schedule": "in turn",
            "source": ["take: LOAD.S r0, r1, 0", "LOAD.S r0, r2, 0"],
            "program": [[1, "take", "LOAD.S r0, r1, 0"], [2, "take+1", "LOAD.S r0, r2, 0"]],
            "data": [[0, count, 1, "fork: one each"]], "names": [[0, count, "fork"]],
            "start": {"places": places, "memory": [[count, "0", 1]]}, "slim": 1,
            "steps": steps, "waits": waits, "findings": [],
            "end": {"kind": "deadlock", "waiting": waiting, "circle": names, "able": [], "fresh": [], "quit": [],
                    "stopped": []}}
