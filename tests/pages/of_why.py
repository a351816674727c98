"""Why: the chain of steps that a value comes from is what a second reading of the run's steps says (origins.py), on examples
and random programs."""

import pathlib
import random
import re

import of_page_sentences
import of_sentences
import origins
import runs
import tally
import worlds

EXAMPLES = ("lock.lost_update", "philosophers.deadlock", "fetch_add.lost_update", "forwarding.trapped", "trap_handler.ends",
            "readers_writer.torn_read", "bounded_buffer.ends")
# so many random programs of those that SENTENCES says, and so many values of each
PART, VALUES = 5, 12
SHOWN = 100
# the heading, the words below it, and of each row its step, its text and the links in it
ASK = """
  goTo(arguments[1]);
  view.hex = arguments[2];
  askWhy(arguments[0]);
  const rows = [...byId("why").querySelectorAll("li")].map((row) => [
    Number(row.dataset.step), row.textContent, [...row.querySelectorAll("a")].map((one) => one.getAttribute("href"))]);
  view.hex = false;
  return [byId("why-title").textContent, byId("why").querySelector("p").textContent, rows, [...question.chain], chainLinks()];
"""


def with_why(text):
    """A page and its run; where the program that made it does not say what steps read, the second reading does."""
    run = runs.run_of(text)
    if "why" not in run:
        run["why"] = origins.why(run)
        text = runs.page(run)
    return text, run


class Reading:
    """What has to be said of a run, from what each of its steps wrote, and what it read for that."""

    def __init__(self, run):
        self.run, self.deeds = run, list(origins.deeds(run))
        self.states = worlds.replayed(run, range(len(run["steps"]) + 1))
        self.names = {}
        for first, count, name in run["names"]:
            self.names |= {first + 8 * i: f"{name}+{i}" if i else name for i in range(count)}

    def last(self, place, end):
        """The last of the first `end` steps that wrote a location; 0 where none has."""
        return next((n for n in range(end, 0, -1) if place in self.deeds[n - 1]), 0)

    def chain(self, writes):
        """The steps that these writes come from, the newest first, each with the locations that it wrote."""
        found, left = {}, list(writes)
        while left:
            place, n = left.pop(0)
            if n and place not in found.setdefault(n, []):
                found[n].append(place)
                left += self.sources(place, n)
        return sorted(found.items(), reverse=True)

    def sources(self, place, n):
        """What step n read for what it wrote into a location, each with the step that wrote it last."""
        return [(one, self.last(one, n - 1)) for one in self.deeds[n - 1][place]]

    def links(self, chain):
        return [[last, n] for n, places in chain[:SHOWN] for place in places for _, last in self.sources(place, n) if last]

    def held(self, place, n, is_hex=False):
        """What stood in a location after step n, as the page shows numbers."""
        value = int(self.states[n].get(f"{place}.value" if place[0] == "[" else place, "0"))
        if is_hex:
            return hex(value)
        return f"\u2212{2**64 - value}" if value >= 0xFFFFFFFF00000000 and len(str(value)) == 20 else str(value)

    def named(self, place, own=""):
        """A location by name, as the page names it in the words of a stream."""
        if place[0] == "[":
            return f"{place} {self.names.get(int(place[1:-1]), '')}".strip()
        owner, part = place.rsplit(".", 1)
        return part if owner == own else f"{part} of {owner}"

    def row(self, n, places, is_hex):
        """The text of a row; what target registers hold is left out of it."""
        step, program = self.run["steps"][n - 1], self.run["program"]
        own, told = f"{step['p']}.{step['s']}", []
        for place in places:
            read = []
            for one, last in self.sources(place, n):
                held = "" if is_target(one) else self.held(one, n - 1, is_hex)
                read.append(f"{self.named(one, own)} ({held}, {f'written in step {last}' if last else 'as at the start'})")
            told.append(f"wrote {self.named(place, own)}{' from ' if read else ''}{' and '.join(read)}")
        past = (0, f"{step['pc']}, past the end", "no word")
        _, at, statement = program[step["pc"]] if step["pc"] < len(program) else past
        shown = statement if len(statement) <= 60 else statement[:59] + "\u2026"
        return f"step {n} {own} at {at} {shown}: {'; '.join(told)}."


def is_target(place):
    return bool(re.search(r"\.t\d$", place))


def without_targets(text):
    """A row without what target registers hold."""
    return re.sub(r"\b(t\d(?: of \d+\.\d+)?) \([^()]*?, (written|as at)", r"\1 (, \2", text)


def asked(page, what, reading, place, n, is_hex=False):
    """Asks for a location's value after step n, or for what the step wrote, and compares all that is said."""
    title, words, rows, chain, links = page.script(ASK, place, n, is_hex)
    first = reading.last(place, n) if place else n
    wanted = reading.chain([(place, first)] if place else [(one, n) for one in reading.deeds[n - 1]])
    if not place:
        tally.same(f"{what}: the heading", title, f"What step {n} wrote comes from")
    elif not is_target(place):
        when = f"after step {n}" if n else "at the start"
        tally.same(f"{what}: the heading", title, f"Why {reading.named(place)} is {reading.held(place, n, is_hex)} {when}")
    count = f"The chain has {'1 step' if len(wanted) == 1 else f'{len(wanted)} steps'}"
    count += f", of which the last {SHOWN} are listed" if len(wanted) > SHOWN else ""
    begins = f"It was written last in step {first}. " if place else ""
    none = "No step has written it: it is as at the start." if place else (
        f"Step {n} wrote no register and no word.")
    tally.same(f"{what}: who wrote it", words, f"{begins}{count}, the newest first." if wanted else none)
    tally.same(f"{what}: its chain", chain, [[m, places] for m, places in wanted])
    tally.same(f"{what}: who wrote what was read", links, reading.links(wanted))
    said = [[row, without_targets(text), to] for row, text, to in rows]
    told = [[m, reading.row(m, places, is_hex),
             [f"#{m}"] + [f"#{last}" for place in places for _, last in reading.sources(place, m) if last]]
            for m, places in wanted[:SHOWN]]
    tally.same(f"{what}: what is said of them", said, told)


def has_value(reading, place):
    """Whether a register is ever another number than 0."""
    return any(place in state for state in reading.states.values())


def compared(page, name, text, chance):
    """The field `why` and the chains of some values of a run."""
    text, run = with_why(text)
    tally.same(f"{name}: what each step read and wrote", run["why"], origins.why(run))
    page.open(name, text)
    reading = Reading(run)
    places = {place for deed in reading.deeds for place in (*deed, *sum(deed.values(), []))}
    places = sorted(place for place in places if place[0] == "[" or has_value(reading, place))
    length = len(run["steps"])
    for number in range(VALUES if places else 0):
        place, n = chance.choice(places), length if number == 0 else chance.randrange(length + 1)
        asked(page, f"{name}: {place} after {n}", reading, place, n, number % 4 == 3)
    for n in chance.sample(range(1, length + 1), min(3, length)):
        if len(reading.deeds[n - 1]) < 39:  # QUIT and CREATE write all registers of a stream
            asked(page, f"{name}: step {n}", reading, None, n)
    page.quiet(f"{name}: why")


def part(page):
    chance = random.Random(43)
    for name in EXAMPLES:
        compared(page, name, runs.example(page.folder, name), chance)
    for number in range(of_sentences.PROGRAMS // PART if runs.has_pages() else 0):
        name = f"asked{number}"
        source, schedule = (pathlib.Path(page.folder) / f"{name}.{kind}" for kind in ("asm", "schedule"))
        text = of_page_sentences.MAKERS[number % len(of_page_sentences.MAKERS)](chance)
        source.write_text(text)
        slim = int(re.search(r"\.slim (\d+)", text)[1])
        schedule.write_text(of_page_sentences.turns(chance, text.count(".entry"), slim))
        compared(page, name, runs.page_of(page.folder, source, schedule), chance)
