"""The verdicts of a submission by docs/LAB_REFERENCE.md ("Judging a class"), docs/MACHINE.md and the machine of tests/spaces: a
second judge, which shares nothing with the programs that are tested."""

import glob
import os
import sys
from typing import NamedTuple

HERE = os.path.dirname(os.path.abspath(__file__))
sys.path += [os.path.join(HERE, "../spaces"), os.path.join(HERE, "../runner")]

import expectations  # noqa: E402
import machine  # noqa: E402
import required  # noqa: E402
import search  # noqa: E402
import seed_rules  # noqa: E402
import sources  # noqa: E402
from ends_alone import EndsAlone  # noqa: E402

RIGHT, WRONG, SPINS, NOT_DECIDED, NOT_JUDGED = "right", "wrong", "spins", "not decided", "not judged"
RAN_OUT = "ran out of steps"
# the verdicts against a submission of which every schedule is looked at, in the order in which they are looked for
AGAINST = ("trap", "deadlock", WRONG)
# over several cases the first of these that one case has
SEVEREST_FIRST = (*AGAINST, SPINS, RAN_OUT, NOT_JUDGED, NOT_DECIDED, RIGHT)
# how many seeds are tried of a submission that is right by every schedule
A_FEW = 4


def against(wanted, world, kind):
    """The verdict of an end; None where it is as the lines about ends say."""
    if expectations.is_trapped(wanted.ends, world):
        return "trap"
    if expectations.kind_of(wanted.ends, world, kind) == "deadlock":
        return "deadlock"
    return WRONG if expectations.missed(wanted.ends, world) else None


def is_broken(wanted, worlds):
    """Whether one of some worlds breaks what `always` and `never` say."""
    claims = wanted.of_scope("always", "never")
    return any(not expectations.holds(claim, world) for claim in claims for world in worlds)


def unshown(claims, worlds):
    """The claims with `some` that none of some worlds shows."""
    return [claim for claim in claims if not any(expectations.shows(claim, world) for world in worlds)]


def is_ruled_out(program, wanted):
    """Whether the program breaks a rule."""
    return not all(required.is_kept(rule, program) for rule in wanted.rules)


class Every(NamedTuple):
    """The verdict by every schedule, and, if nothing else is wrong, the claims with `some` that no schedule shows."""

    verdict: str
    unshown: tuple = ()

    def is_sure(self):
        """Whether no run can be wrong."""
        return self.verdict == RIGHT or bool(self.unshown)


def by_every(program, wanted, most, is_plain):
    """What every schedule shows."""
    space = search.Space(program, (), most) if is_plain else Reduced(program, wanted.claims, most)
    if not space.is_whole:
        return Every(NOT_DECIDED)
    ends = space.ends()
    found = {against(wanted, world, kind) for world, kind in ends.items()}
    if is_broken(wanted, space.after) or is_ruled_out(program, wanted):
        found.add(WRONG)
    for verdict in AGAINST:
        if verdict in found:
            return Every(verdict)
    if len(space.leading_to(ends)) < len(space.after):
        return Every(SPINS)
    left = unshown(wanted.of_scope("some"), space.after)
    return Every(WRONG, tuple(left)) if left else Every(RIGHT)


def shown_by(program, wanted, schedule):
    """What a schedule shows; `spins` if nothing is wrong with it and the program goes on after it."""
    worlds = worlds_of(program, schedule)
    kind = kind_of(program, worlds[-1])
    found = against(wanted, worlds[-1], kind) if kind else None
    return found or (WRONG if is_broken(wanted, worlds) else None if kind else SPINS)


def worlds_of(program, schedule):
    """The worlds that a program comes to by a schedule, the first one too."""
    worlds = [machine.start(program)]
    for step in schedule:
        worlds.append(machine.step(program, worlds[-1], *step)[0])
    return worlds


class Reduced:
    """The worlds that the search for ends and claims alone looks at, as a space."""

    def __init__(self, program, claims, most):
        self.program = program
        alone = EndsAlone(program, (), (), most, *expectations.looked_at(claims))
        self.is_whole, self.worlds = alone.is_whole, alone.worlds
        self.after = {world: [] for world in alone.worlds}
        for before, to in alone.steps:
            self.after[alone.worlds[before]].append(alone.worlds[to])

    def ends(self):
        """The worlds that are ends, each with its kind."""
        kinds = {world: kind_of(self.program, world) for world in self.worlds}
        return {world: kind for world, kind in kinds.items() if kind}

    leading_to = search.Space.leading_to


def kind_of(program, world):
    """How a world ends; None where it goes on."""
    if not machine.running(world):
        return "stopped" if search.stopped(world) else "finished"
    return "deadlock" if seed_rules.is_standstill(program, world) else None


def fair_length(program):
    """How many steps the fair run has. Of its steps so far the last ones are enough: no more processors take turns, and no
    more streams of each of them."""
    last = len(program.entries) * program.slim
    steps, _ = seed_rules.made(
        program, lambda steps, program, world: seed_rules.fairly(steps[-last:], machine.running(world)),
        seed_rules.MOST_FAIR)
    return len(steps)


class Runs:
    """The runs of a program by seeds, each of so many steps at most."""

    def __init__(self, program, wanted, most_steps):
        self.program, self.wanted, self.most_steps = program, wanted, most_steps
        self.fair = None
        self.unshown = wanted.of_scope("some")

    def verdict(self, seeds, every):
        """The verdict by these seeds, that of the least one whose run is not right, and this seed. What no schedule breaks
        no seed does; that the runs come to their end, and have what `some` asks for, a few seeds show."""
        if is_ruled_out(self.program, self.wanted):
            return WRONG, None
        for seed in seeds:
            if every.is_sure() and seed >= A_FEW and len(self.unshown) == len(every.unshown):
                break
            found = self.of_seed(seed)
            if found:
                return found, seed
        return NOT_DECIDED if self.unshown else RIGHT, None

    def of_seed(self, seed):
        """What is wrong with the run of a seed; None where it is right."""
        if seed % 8 in (3, 4, 7) and self.fair is None:
            self.fair = fair_length(self.program)
        steps, why = seed_rules.made(self.program, seed_rules.Rule(seed, self.fair or 0).choose, self.most_steps)
        worlds = self.worlds(steps)
        self.unshown = unshown(self.unshown, worlds)
        kind = None if why == RAN_OUT else kind_of(self.program, worlds[-1])
        if kind is None:
            trapped = expectations.is_trapped(self.wanted.ends, worlds[-1])
            return "trap" if trapped else WRONG if is_broken(self.wanted, worlds) else RAN_OUT
        found = against(self.wanted, worlds[-1], kind)
        return found or (WRONG if is_broken(self.wanted, worlds) else None)

    def worlds(self, steps):
        """The worlds that a run comes to; the last alone where no claim asks for others any more."""
        worlds = worlds_of(self.program, steps)
        return worlds if self.unshown or self.wanted.of_scope("always", "never") else worlds[-1:]


class Case(NamedTuple):
    """A case: its words, their lines, and what it expects."""

    data: tuple
    lines: list
    text: str


class Place(NamedTuple):
    """Where a submission has so many words of a case: the first one in the case, and the first one in the submission."""

    given: int
    own: int
    count: int

    def has(self, given, own):
        """Whether a word of the submission is this word of the case."""
        return self.given <= given < self.given + self.count and own - self.own == given - self.given


class Task:
    """A task of the class: what its one file expects, and its cases."""

    def __init__(self, name):
        folder = os.path.join(HERE, name)
        self.text = read(os.path.join(folder, "end.expect"))
        self.cases = [case_of(path) for path in sorted(glob.glob(os.path.join(folder, "cases/*.data")))]


def case_of(path):
    text = read(path)
    return Case(sources.read(".entry 0\n" + text).data, required.data_lines(text), read(path.removesuffix("data") + "expect"))


class Submission:
    """A source text that was handed in."""

    def __init__(self, text):
        self.program, self.lines = sources.read(text), required.data_lines(text)

    def required(self, text):
        """What a file of expectations requires of it."""
        return required.read(text, required.names_of(self.lines), len(self.program.data))

    def places_of(self, case):
        """Where it has the words of a case by their names; none where they stand by position ("Words of a case")."""
        own = {line.name: line for line in self.lines if line.name}
        if not case.lines or any(line.name is None for line in case.lines):
            return []
        places = [Place(line.first, own[line.name].first, line.count) for line in case.lines
                  if line.name in own and line.count <= own[line.name].count]
        if places and len(places) < len(case.lines):
            raise required.NotJudged("a name of the case")
        return places

    def with_words_of(self, case):
        """Its program with the words of a case, and what is required of it then."""
        places, data = self.places_of(case), list(self.program.data)
        names = required.names_of(self.lines)
        in_case = required.names_of(case.lines) or names
        for place in places or [Place(0, 0, len(case.data))]:
            data[place.own:place.own + place.count] = case.data[place.given:place.given + place.count]
        wanted = required.read(case.text, names if places else in_case, len(data))
        meant = required.read(case.text, in_case, len(data))
        for given, own in zip(meant.spoken(), wanted.spoken(), strict=True):
            if not is_same(places or [Place(0, 0, len(case.data))], given, own):
                raise required.NotJudged("a word that the case does not give")
        return self.program._replace(data=tuple(data)), wanted


def is_same(places, given, own):
    """Whether words of a submission are these words of a case, one after the other."""
    return len(given) == len(own) and all(any(place.has(*both) for place in places) for both in zip(given, own))


class Judge:
    """Judges a submission by so many seeds of so many steps, and by every schedule, as far as so many worlds go."""

    def __init__(self, seeds, steps, states, is_plain):
        self.seeds, self.steps, self.states, self.is_plain = seeds, steps, states, is_plain

    def judged(self, program, wanted):
        """The verdict by seeds, the least seed that shows it, and the verdict by every schedule."""
        every = by_every(program, wanted, self.states, self.is_plain)
        return *Runs(program, wanted, self.steps).verdict(range(self.seeds), every), every.verdict

    def by_end(self, task, submission):
        """The same by the one file of a task."""
        try:
            return self.judged(submission.program, submission.required(task.text))
        except required.NotJudged:
            return NOT_JUDGED, None, NOT_JUDGED

    def by_case(self, case, submission):
        """The same by a case."""
        try:
            return self.judged(*submission.with_words_of(case))
        except required.NotJudged:
            return NOT_JUDGED, None, NOT_JUDGED

    def row(self, task, text):
        """The fields of a submission: the verdict by seeds, the least seed, the verdict by every schedule; and both
        verdicts by the cases, the severest of all."""
        submission = Submission(text)
        seeds, least, every = self.by_end(task, submission)
        cases = [self.by_case(case, submission) for case in task.cases]
        case_seeds, case_every = (severest([found[at] for found in cases]) for at in (0, 2))
        return [seeds, "-" if least is None else str(least), every, case_seeds, case_every]


def severest(verdicts):
    """The severest of some verdicts."""
    return min(verdicts, key=SEVEREST_FIRST.index)


def read(path):
    with open(path, encoding="utf-8") as file:
        return file.read()
