"""A random program with what is asked of it, the calls of mta_lab that answer, and in what the answers differ from those
of the search."""

import itertools
import json
import os
import random

import busy
import expectations
import machine
import programs
import search
import shown
from ends_alone import EndsAlone

# how many worlds a program that is searched has, and how many programs a seed tries to find one
LEAST, MOST, TRIES = 8, 300, 200
# of so many programs one has streams that seldom meet, and one streams that add to words and use a ring
APART, ADDING = 4, 4
# the verdict of `grade --explore` where no end and no claim is against a program
SPINS, RIGHT = "spins", "right"
# the kinds of endless loops
ENDLESS = ("spinning", "looping")
# how a program is surveyed
SURVEY = ("survey", "--seeds", "4", "--steps", "60", "--explore", "--json")


def kind_of(seed):
    """Which programs a seed makes."""
    if seed % APART == 0:
        return programs.apart
    return programs.adding if seed % ADDING == 1 else programs.made


class Case:
    """A program that a seed makes, the space of its worlds, and what is expected, claimed, and given as a beginning."""

    def __init__(self, seed, folder):
        self.seed = seed
        chance = random.Random(seed)
        for _ in range(TRIES):
            self.made = kind_of(seed)(chance)
            self.space = search.Space(self.made.program, (), MOST)
            if self.space.is_whole and len(self.space.distance) >= LEAST:
                break
        else:
            raise ValueError(f"seed {seed}: no program of {LEAST} to {MOST} worlds")
        self.expected = expectations.random_expectations(chance, self.made, self.space)
        self.claims = expectations.random_claims(chance, self.made) if chance.random() < 0.7 else []
        self.ends_alone = EndsAlone(self.made.program, (), (), MOST)
        self.expected_alone = EndsAlone(self.made.program, (), expectations.named(self.expected), MOST,
                                        *expectations.looked_at(self.claims))
        self.begin = begin_of(chance, self.space)
        self.begun = search.Space(self.made.program, self.begin, MOST)
        self.begun_claims = expectations.random_claims(chance, self.made)
        self.begun_alone = EndsAlone(self.made.program, self.begin, (), MOST, *expectations.looked_at(self.begun_claims))
        self.paths = {name: os.path.join(folder, f"{seed}.{name}") for name in ("asm", "expect", "claims", "busy", "schedule")}
        self.write()

    def write(self):
        """Writes the files that the calls read."""
        texts = {
            "asm": self.made.text,
            "expect": lines(self.expected + self.claims),
            "claims": lines(self.begun_claims),
            "busy": b"never busy\n",
            "schedule": b"".join(b"%d %d 1\n" % step for step in self.begin),
        }
        for name, text in texts.items():
            with open(self.paths[name], "wb") as file:
                file.write(text)

    def calls(self):
        """The words of each call of mta_lab."""
        at = self.paths
        return {
            "plain": ["explore", "--json", "--plain", at["asm"]],
            "ends": ["explore", "--json", at["asm"]],
            "expected": ["explore", "--json", at["asm"], "--expect", at["expect"]],
            "expected plainly": ["explore", "--json", "--plain", at["asm"], "--expect", at["expect"]],
            "graded": ["grade", "--explore", "--json", "--expect", at["expect"], at["asm"]],
            "begun": ["explore", "--json", at["asm"], "--from", at["schedule"], "--expect", at["claims"]],
            "begun plainly": ["explore", "--json", "--plain", at["asm"], "--from", at["schedule"], "--expect", at["claims"]],
            "never busy": ["explore", "--json", at["asm"], "--expect", at["busy"]],
            "begun, never busy": ["explore", "--json", at["asm"], "--from", at["schedule"], "--expect", at["busy"]],
            "graded never busy": ["grade", "--explore", "--json", "--expect", at["busy"], at["asm"]],
            "surveyed": [*SURVEY, at["asm"]],
            "surveyed as expected": [*SURVEY, at["asm"], "--expect", at["expect"]],
        }

    def differences(self, answers):
        """In what answers differ from the search: a status and what was printed, by the names of the calls."""
        found = []
        for name, differ in (("plain", self.of_plain), ("ends", self.of_ends), ("expected", self.of_expected),
                             ("expected plainly", self.of_expected_plainly), ("graded", self.of_graded),
                             ("begun", self.of_begun), ("begun plainly", self.of_begun_plainly),
                             ("never busy", self.of_busy), ("begun, never busy", self.of_begun_busy),
                             ("graded never busy", self.of_graded_busy), ("surveyed", self.of_surveyed),
                             ("surveyed as expected", self.of_surveyed_as_expected)):
            status, printed = answers[name]
            try:
                objects = [json.loads(line) for line in printed.splitlines()]
                found += [f"{name}: {what}" for what in differ(status, *objects) if what]
            except Exception as error:  # an answer that can't be read is one that differs
                found.append(f"{name}: {type(error).__name__} {error}: status {status}, {printed[:200]!r}")
        return found

    # Of each call.

    def of_plain(self, status, head, *ends):
        """All worlds."""
        space = self.space
        yield differs("head", (head["complete"], head["worlds"], head["steps"]), (True, len(space.distance), space.steps()))
        sets = space.spinning()
        yield differs("worlds that spin", sum(end["worlds"] for end in ends if end["end"] == "spinning"), sum(map(len, sets)))
        yield differs("sets that spin", sum(end["sets"] for end in ends if end["end"] == "spinning"), len(sets))
        yield from of_each_end(space, [], [], ends)
        for end in ends:
            yield of_sources(space, sets, end)
            if end["end"] == "spinning":
                yield of_spinning(space, sets, end)
        yield differs("status", status, self.status([], []))

    def of_ends(self, status, head, *ends):
        """The ends alone."""
        yield from of_fewer(self.ends_alone, head, ends)
        yield differs("whether it spins", any(end["end"] == "spinning" for end in ends), bool(self.space.spinning()))
        yield from of_each_end(self.space, [], [], ends, self.ends_alone.told_as)
        yield differs("status", status, self.status([], []))

    def of_expected(self, status, head, *objects):
        """What is expected of ends, and claimed of worlds."""
        alone, ends = self.expected_alone, ends_of(objects)
        yield of_unshown(self.space, self.claims, objects)
        yield from of_fewer(alone, head, ends)
        yield from of_each_end(self.space, self.expected, self.claims, ends, alone.told_as)
        yield from of_claims(self.space, self.claims, ends, of_alone(alone, self.space.before))
        yield differs("status", status, self.status(self.expected, self.claims))

    def of_expected_plainly(self, status, head, *objects):
        """The same of all worlds."""
        ends = ends_of(objects)
        yield of_unshown(self.space, self.claims, objects)
        yield differs("head", (head["complete"], head["plain"], head["worlds"]), (True, True, len(self.space.distance)))
        yield from of_each_end(self.space, self.expected, self.claims, ends)
        yield from of_claims(self.space, self.claims, ends, of_all(self.space))
        yield differs("status", status, self.status(self.expected, self.claims))

    def of_graded(self, status, graded):
        """The verdict."""
        yield differs("verdict", graded["verdict"], self.verdict())
        yield differs("status", status, self.status(self.expected, self.claims))

    def of_begun(self, status, head, *objects):
        """The schedules that begin so."""
        if not self.begun.is_whole:
            return
        alone, ends = self.begun_alone, ends_of(objects)
        yield of_unshown(self.begun, self.begun_claims, objects)
        yield from of_fewer(alone, head, ends)
        yield from self.of_beginning(status, head, ends, alone.told_as, of_alone(alone, self.begun.before))

    def of_begun_plainly(self, status, head, *objects):
        """The same of all worlds."""
        space, ends = self.begun, ends_of(objects)
        if not space.is_whole:
            return
        yield of_unshown(space, self.begun_claims, objects)
        yield differs("head", (head["complete"], head["worlds"]), (True, len(space.distance)))
        yield from self.of_beginning(status, head, ends, lambda world: world, of_all(space))

    def of_beginning(self, status, head, ends, told_as, breaking):
        """What is told of the schedules that begin so, whichever worlds are looked at."""
        yield differs("steps of the beginning", head["begin"], len(self.begin))
        yield from of_each_end(self.begun, [], self.begun_claims, ends, told_as)
        yield from of_claims(self.begun, self.begun_claims, ends, breaking)
        yield differs("status", status, search.worst(statuses(self.begun, [], self.begun_claims)))

    def of_busy(self, status, head, *objects):
        """Which stream goes round alone first."""
        yield from of_rounds(self.space, status, head, ends_of(objects))

    def of_begun_busy(self, status, head, *objects):
        """The same of the schedules that begin so."""
        if self.begun.is_whole:
            yield from of_rounds(self.begun, status, head, ends_of(objects))

    def of_graded_busy(self, status, graded):
        """The verdict where no stream may go round alone."""
        wanted = self.verdict_of([], [], bool(busy.rounds(self.space)))
        yield differs("verdict", graded["verdict"], wanted)
        yield differs("status", status, status_of_busy(self.space))

    def of_surveyed(self, status, *objects):
        """How many of the ends, told apart as lines of them are, some seeds reached; an endless loop is none of them."""
        return self.of_survey([], [], status, objects)

    def of_surveyed_as_expected(self, status, *objects):
        """The same where something is expected of ends, and claimed of worlds; and what is said of each."""
        yield from self.of_survey(self.expected, self.claims, status, objects)
        yield of_unshown(self.space, self.claims, objects)
        outcomes = [told for told in objects if told["object"] == "outcome"]
        by_runs = {told["claim"]["line"] for told in outcomes if told["claim"]}
        by_schedules = {told["claim"]["line"] for told in objects if told["object"] == "broken"}
        wanted = {number for number, line in enumerate(self.expected + self.claims, 1) if line in broken(self.space, self.claims)}
        yield differs("claims that are reported twice", by_runs & by_schedules, set())
        yield differs("broken claims", by_runs | by_schedules, wanted)
        for told in outcomes:
            yield of_judgement(self.space, self.expected, told)

    def of_survey(self, expected, claims, status, objects):
        """What a survey says of some expectations and claims: which ends the seeds reached, apart also by the line that they
        miss, and the worst status of the runs and of all schedules. (A stream that a trap stopped stays so: each end after a
        run that ran out of steps has it too.)"""
        outcomes = [told for told in objects if told["object"] == "outcome"]
        coverage = objects[-1]
        ends = {(shown.by_world(self.space, world, expected), line_missed(expected, world)) for world in self.space.ends()}
        reached = {(shown.by_object(told), told["missed"] and told["missed"]["line"])
                   for told in outcomes if told["end"] != "steps"}
        yield differs("what seeds reach that is no end", reached - ends, set())
        yield differs("coverage", (coverage["ends"], coverage["met"], coverage["spinning"], coverage["complete"]),
                      (len(ends), len(reached), bool(self.space.spinning()), True))
        is_cut = any(told["end"] == "steps" for told in outcomes)
        yield differs("status", status, search.worst([self.status(expected, claims), *[search.ENDLESS] * is_cut]))

    # What the search says.

    def status(self, expected, claims):
        """The worst status of all ends and claims."""
        return search.worst(statuses(self.space, expected, claims))

    def verdict(self):
        """The word of `grade --explore`."""
        return self.verdict_of(self.expected, self.claims, False)

    def verdict_of(self, expected, claims, is_busy):
        """The same of some expectations and claims, and where a stream goes round alone that may not."""
        ends = self.space.ends()
        if any(expectations.is_trapped(expected, world) for world in [*ends, *itertools.chain(*self.space.spinning())]):
            return "trap"
        if "deadlock" in {expectations.kind_of(expected, world, kind) for world, kind in ends.items()}:
            return "deadlock"
        if any(expectations.missed(expected, world) for world in ends) or broken(self.space, claims) or is_busy:
            return "wrong"
        if self.space.spinning() and not expectations.may_loop(expected):
            return SPINS
        return "wrong" if unshown(self.space, claims) else RIGHT


def begin_of(chance, space):
    """Some steps from the start on, of streams that run."""
    steps, world = [], space.first
    for _ in range(chance.randrange(1, 6)):
        streams = machine.running(world)
        if streams:
            steps.append(chance.choice(streams))
            world, _ = machine.step(space.program, world, *steps[-1])
    return tuple(steps)


def lines(required):
    """Lines of a file of expectations."""
    return "".join(line.text + "\n" for line in required).encode()


def differs(what, told, wanted):
    """That something differs; None where it does not."""
    return None if told == wanted else f"{what}: {told}, and not {wanted}"


def broken(space, claims):
    """The claims that some world breaks."""
    worlds = [*space.before, *space.distance]
    return [claim for claim in claims if any(not expectations.holds(claim, world) for world in worlds)]


def unshown(space, claims):
    """The claims that no world shows."""
    worlds = [*space.before, *space.distance]
    return [claim for claim in claims if not any(expectations.shows(claim, world) for world in worlds)]


def statuses(space, expected, claims):
    """The status of each end, of what spins, and of claims that are broken, or that no world shows."""
    for world, kind in space.ends().items():
        if expectations.kind_of(expected, world, kind) == "deadlock":
            yield search.DEADLOCK
        elif expectations.is_trapped(expected, world) or expectations.missed(expected, world):
            yield search.UNEXPECTED
    for spinning in space.spinning():
        is_trapped = any(expectations.is_trapped(expected, world) for world in spinning)
        goes_on = search.DONE if expectations.may_loop(expected) else search.ENDLESS
        yield search.UNEXPECTED if is_trapped else goes_on
    if broken(space, claims) or unshown(space, claims):
        yield search.UNEXPECTED


def of_fewer(alone, head, ends):
    """In what the search for ends alone differs: how many worlds it looks at, the steps between them, and from how many of
    the worlds steps lead to an end that is one of them."""
    yield differs("head", (head["complete"], head["worlds"], head["steps"]), (True, len(alone.worlds), len(alone.steps)))
    for end in ends:
        if end["end"] not in (*ENDLESS, "broken") and end["worlds"] == 1:
            world = search.world_after(alone.program, steps_of(end["schedule"]))
            yield differs("sources", end["from"], alone.leading_to(world))


def of_each_end(space, expected, claims, ends, told_as=lambda world: world):
    """In what the ends differ: how many worlds each kind has, as expected or not, and each schedule, with what it breaks. Ends
    are one that are told as one world."""
    alike = {}
    for world in space.ends():
        key = told_as(world)
        alike[key] = min(alike.get(key, world), world, key=space.distance.get)
    wanted, told = {}, {}
    for world in alike.values():
        key = kind_beside(space, expected, world), expectations.is_as_expected(expected, world, space.kind(world))
        count, least = wanted.get(key, (0, space.distance[world]))
        wanted[key] = count + 1, min(least, space.distance[world])
    for end in ends:
        if end["end"] in ENDLESS:
            yield differs("whether it may loop", end["end"] == "looping", expectations.may_loop(expected))
        if end["end"] in (*ENDLESS, "broken"):
            continue
        world = search.world_after(space.program, steps_of(end["schedule"]))
        key = end["end"], expectations.is_as_expected(expected, world, space.kind(world))
        count, least = told.get(key, (0, end["shortest"]))
        told[key] = count + end["worlds"], min(least, end["shortest"])
        on_its_way = expectations.broken_on_the_way(space.program, claims, steps_of(end["schedule"]))
        yield differs("the claim of an end", end["claim"] and end["claim"]["text"], on_its_way and on_its_way.text)
        yield differs("whether it is as expected", end["expected"], key[1] and on_its_way is None)
        first = alike.get(told_as(world))
        yield differs("a schedule", (first and kind_beside(space, expected, world), len(steps_of(end["schedule"])), end["shortest"]),
                      (end["end"], first and space.distance[first], first and space.distance[first]))
        missed = expectations.missed(expected, world)
        wanted_line = missed and (expected.index(missed) + 1, expectations.numbers_read(missed.text))
        told_line = end["missed"] and (end["missed"]["line"], expectations.numbers_read(end["missed"]["text"]))
        yield differs("what is missed", told_line, wanted_line)
        yield from of_world(space, world, end)
    yield differs("worlds and shortest of the ends", told, wanted)


def kind_beside(space, expected, world):
    """The kind of the end that a world is, beside what is expected."""
    return expectations.kind_of(expected, world, space.kind(world))


def of_world(space, world, end):
    """In what the words and the stopped streams differ that are told of a world."""
    yield differs("words", end["words"], shown.changed_words(space.program, world))
    stopped = {tuple(map(int, stream["stream"].split("."))): stream["trap"] for stream in end["stopped"]}
    yield differs("stopped", stopped, search.stopped(world))


def line_missed(expected, world):
    """The number of the first line that a world misses; None where it misses none."""
    missed = expectations.missed(expected, world)
    return missed and expected.index(missed) + 1


def of_judgement(space, expected, told):
    """In what an end that seeds reached is judged otherwise than each of the worlds that are shown alike."""
    if told["end"] == "steps":
        return None
    alike = [world for world in space.ends() if shown.by_world(space, world, expected) == shown.by_object(told)]
    judged = {(line_missed(expected, world), expectations.is_as_expected(expected, world, space.kind(world))
               and told["claim"] is None) for world in alike}
    found = told["missed"] and told["missed"]["line"], told["expected"]
    return None if found in judged else f"how an end is judged: {found}, and none of {judged}"


def of_all(space):
    """Of all worlds, how many break a claim, and the steps of a shortest schedule to one."""
    def breaking(claim):
        before = [at for at, world in enumerate(space.before) if not expectations.holds(claim, world)]
        found = [space.distance[world] for world in space.distance if not expectations.holds(claim, world)]
        return len(before) + len(found), min(before + found, default=None)
    return breaking


def of_alone(alone, before):
    """The same of the worlds that the search for ends alone looks at, behind those on the way through a beginning. That a
    schedule is a shortest one is said where it goes no further than the beginning."""
    def breaking(claim):
        broken_at = [at for at, world in enumerate([*before, *alone.worlds]) if not expectations.holds(claim, world)]
        first = min(broken_at, default=None)
        return len(broken_at), first if broken_at and first <= len(before) else None
    return breaking


def ends_of(objects):
    """Those of ends and broken claims."""
    return [told for told in objects if told["object"] == "search_end"]


def of_unshown(space, claims, objects):
    """In what the claim differs that is told as shown by no world: it is the first such one."""
    told = [told["claim"]["text"] for told in objects if told["object"] == "unshown"]
    return differs("what no world shows", told, [claim.text for claim in unshown(space, claims)][:1])


def of_claims(space, claims, ends, breaking):
    """In what the claims that are broken differ: those that some world breaks are told, with what `breaking` says."""
    wanted = [(claim.text, *breaking(claim)) for claim in broken(space, claims)]
    told = [(end["claim"]["text"], end["worlds"], end["shortest"]) for end in ends if end["end"] == "broken"]
    yield differs("broken claims", told, wanted)
    for end in ends:
        if end["end"] == "broken":
            world = search.world_after(space.program, steps_of(end["schedule"]))
            claim = next(claim for claim in claims if claim.text == end["claim"]["text"])
            yield differs("a world that breaks it", expectations.holds(claim, world), False)


def status_of_busy(space):
    """The worst status where no stream may go round alone."""
    return search.worst([*statuses(space, [], []), *([search.UNEXPECTED] if busy.rounds(space) else [])])


def of_rounds(space, status, head, ends):
    """In what the world differs that is told as the first from which a stream goes round alone, with the steps of that."""
    rounds, told = busy.rounds(space), [end for end in ends if end["end"] == "broken"]
    yield differs("head", (head["complete"], head["plain"], head["worlds"]), (True, True, len(space.distance)))
    yield differs("that a stream goes round alone", [end["claim"]["text"] for end in told], ["never busy"][:len(rounds)])
    for end in told:
        world, way = search.world_after(space.program, steps_of(end["schedule"])), steps_of(end["round"])
        least = min(space.distance[found] for found, _ in rounds)
        yield differs("a shortest schedule to it", (space.distance.get(world), end["shortest"]), (least, least))
        first = min(stream for found, stream in rounds if found == world)
        yield differs("the steps round", way, (first,) * rounds[world, first])
    yield differs("status", status, status_of_busy(space))


def of_sources(space, sets, end):
    """In what the number of worlds differs from which a schedule leads to an end that is one world or one set."""
    world = search.world_after(space.program, steps_of(end["schedule"]))
    if end["end"] == "spinning":
        wanted = [found for found in sets if world in found]
        if end["sets"] != 1 or not wanted:
            return None
        return differs("sources", end["from"], len(space.leading_to(wanted[0])))
    return differs("sources", end["from"], len(space.leading_to([world]))) if end["worlds"] == 1 else None


def of_spinning(space, sets, end):
    """In what a set of worlds that spins differs."""
    steps, way = steps_of(end["schedule"]), steps_of(end["round"])
    world = search.world_after(space.program, steps)
    inside = [found for found in sets if world in found]
    if not inside:
        return f"its schedule leads to no set that spins: {end['schedule']!r}"
    least = min(space.distance[one] for found in inside for one in found)
    for what, told, wanted in shown.in_a_loop(space, inside[0], world, end):
        if told != wanted:
            return f"{what} in a set that spins: {told}, and not {wanted}"
    round_ok = search.world_after(space.program, (*steps, *way)) == world and len(way) == space.shortest_round(world)
    return differs("a set that spins", (len(steps), end["shortest"], round_ok), (least, least, True))


def steps_of(schedule):
    """The steps of a schedule's turns."""
    return tuple((p, s) for p, s, count in schedule for _ in range(count))
