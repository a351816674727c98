"""Expectations and claims: random ones, as lines, and what they say of a world."""

from typing import NamedTuple

import machine
import search


class Expectation(NamedTuple):
    """A line about ends."""

    text: str
    form: str
    operands: tuple


class Claim(NamedTuple):
    """A line about the worlds on the way: `always`, `never` or `some`."""

    text: str
    scope: str
    form: str
    operands: tuple


NUMBERS = (0, 0, 1, 2, 8, 2**64 - 1, 2**63, 2**63 - 1)
# below and above what no number is, without a sign and with one: such claims are refused
BEYOND = {("below", 0, False), ("above", 2**64 - 1, False), ("below", -2**63, True), ("above", 2**63 - 1, True)}

SCOPES = ("always", "never", "some", "some")


def random_expectations(chance, made, space):
    """A few expectations, such as some end of the program may meet."""
    found = []
    ends = list(space.ends())
    world = chance.choice(ends) if ends else space.first
    for _ in range(chance.choice((1, 1, 2))):
        form = chance.choice(("word", "word", "word", "finished", "stopped", "register"))
        if form == "word":
            at = chance.randrange(made.words)
            value = world.memory[at][0] if chance.random() < 0.8 else chance.choice(NUMBERS)
            state = chance.choice(("", "", " full", " empty"))
            found.append(Expectation(f"word {8 * at} {written(chance, value)}{state}", form, (at, value, state.strip())))
        elif form == "finished":
            found.append(Expectation("finished", form, ()))
        elif form == "stopped":
            p, s = chance.randrange(len(made.program.entries)), chance.randrange(made.program.slim)
            trap = search.stopped(world).get((p, s), chance.randrange(1, 11))
            found.append(Expectation(f"stopped {p}.{s} {trap}", form, (p, s, trap)))
        else:
            p, s, r = chance.randrange(len(made.program.entries)), chance.randrange(made.program.slim), chance.randrange(3)
            value = world.processors[p].streams[s].registers[r]
            found.append(Expectation(f"register {p}.{s} r{r} {written(chance, value)}", form, (p, s, r, value)))
    return found + list(allowances(chance, made, space, world))


def allowances(chance, made, space, world):
    """What a program may do: streams may wait where they stand at some end, or near it, and it may go on forever."""
    if space.kind(world) == "deadlock" and chance.random() < 0.7:
        for p, s in machine.running(world):
            place = world.processors[p].streams[s].ssw % 2**32
            if chance.random() < 0.9 and place < len(made.program.words):
                first, last = chance.randrange(place + 1), chance.randrange(place, len(made.program.words))
                yield Expectation(f"waits {p}.{s} in w{first}..w{last}", "waits", (p, s, first, last))
    if chance.random() < (0.4 if space.spinning() else 0.05):
        yield Expectation("loops", "loops", ())


def written(chance, value):
    """A number of 64 bits, with a sign at times."""
    return str(machine.signed(value)) if chance.random() < 0.4 else chance.choice((str(value), hex(value)))


def is_met(expectation, world):
    """Whether a world is as an expectation says."""
    if expectation.form == "word":
        at, value, state = expectation.operands
        if at >= len(world.memory):
            return False
        held, tags = world.memory[at]
        return held == value and state in ("", ("empty", "full")[tags & 1])
    if expectation.form == "sum":
        first, last, value = expectation.operands
        held = [held for held, _ in world.memory[first:last + 1]]
        return len(held) == last + 1 - first and sum(held) % 2**64 == value
    if expectation.form == "register":
        p, s, r, value = expectation.operands
        return world.processors[p].streams[s].registers[r] == value
    if expectation.form in ("waits", "loops"):  # they allow something
        return True
    if expectation.form == "finished":
        return all(stream.status == "idle" for processor in world.processors for stream in processor.streams)
    p, s, trap = expectation.operands
    return search.stopped(world).get((p, s)) == trap


def named(expected):
    """The registers that some expectations name."""
    return {expectation.operands[2] for expectation in expected if expectation.form == "register"}


def missed(expected, world):
    """The first expectation that a world does not meet; None where it meets all."""
    return next((expectation for expectation in expected if not is_met(expectation, world)), None)


def is_trapped(expected, world):
    """Whether a trap that nobody expected stopped a stream."""
    wanted = {expectation.operands for expectation in expected if expectation.form == "stopped"}
    return any((p, s, trap) not in wanted for (p, s), trap in search.stopped(world).items())


def may_wait(expected, world, stream):
    """Whether a stream may wait where it stands."""
    p, s = stream
    place = world.processors[p].streams[s].ssw % 2**32
    ranges = [expectation.operands for expectation in expected if expectation.form == "waits"]
    return any((p, s) == (q, t) and first <= place <= last for q, t, first, last in ranges)


def may_loop(expected):
    """Whether a program may go on forever."""
    return any(expectation.form == "loops" for expectation in expected)


def kind_of(expected, world, kind):
    """The kind of an end beside what is expected: no deadlock, where each stream that runs may wait where it stands."""
    may = all(may_wait(expected, world, stream) for stream in machine.running(world))
    return "waiting" if kind == "deadlock" and may else kind


def is_as_expected(expected, world, kind):
    """Whether an end of a kind is no deadlock, or its streams may wait, meets each expectation, and has no trap that nobody
    expected."""
    return kind_of(expected, world, kind) != "deadlock" and missed(expected, world) is None and not is_trapped(expected, world)


def broken_on_the_way(program, claimed, steps):
    """The first of some claims that the first world breaks which breaks one and through which a schedule leads; None where
    all hold."""
    worlds = (search.world_after(program, steps[:count]) for count in range(len(steps) + 1))
    return next((claim for world in worlds for claim in claimed if not holds(claim, world)), None)


def numbers_read(text):
    """An expectation with its numbers read, however they are written."""
    return [number(word) for word in text.split()]


def number(word):
    """A word that is a number as it is kept; others as they are."""
    try:
        return int(word, 0) % 2**64
    except ValueError:
        return word


def random_claims(chance, made):
    """A few claims."""
    return [chance.choice((of_streams, of_streams, of_streams, of_words, of_word, of_word, of_word, of_word))(chance, made)
            for _ in range(chance.choice((1, 1, 2)))]


def of_word(chance, made):
    """A claim about a word."""
    scope, at = chance.choice(SCOPES), chance.randrange(made.words)
    form = chance.choice(("is", "above", "below", "above", "below", "full", "empty"))
    if form in ("full", "empty"):
        return Claim(f"{scope} word {8 * at} {form}", scope, form, (at, 0, False))
    value = chance.choice(NUMBERS)
    number, sign, is_signed = str(value), "", False
    if form != "is" and chance.random() < 0.6:
        value = machine.signed(value)
        number = f"{value:+d}" if value < 0 or chance.random() < 0.5 else str(value)
        sign = " signed" if number[0] not in "+-" or chance.random() < 0.3 else ""
        is_signed = True
    if (form, value, is_signed) in BEYOND:
        return of_word(chance, made)
    return Claim(f"{scope} word {8 * at} {form} {number}{sign}", scope, form, (at, value, is_signed))


def of_words(chance, made):
    """A claim about two words."""
    scope, at, other = chance.choice(SCOPES), chance.randrange(made.words), chance.randrange(made.words)
    form = chance.choice(("is", "above", "below"))
    is_signed = form != "is" and chance.random() < 0.5
    more = chance.choice((0, 0, 1, 2, 2**64 - 1, 2**63))
    added = f" + {written(chance, more)}" if more or chance.random() < 0.3 else ""
    text = f"{scope} word {8 * at} {form} word {8 * other}{added}{' signed' if is_signed else ''}"
    return Claim(text, scope, "beside", (at, form, other, more, is_signed))


def of_streams(chance, made):
    """A claim about how many streams run at places of ranges: one group of them, or two."""
    scope, limit = chance.choice(SCOPES), chance.choice(("most", "most", "least"))
    groups = [random_group(chance, made) for _ in range(chance.choice((1, 1, 2)))]
    number = chance.randrange(sum(len(streams) for streams, _, _ in groups) + 1)
    named = [f"{' '.join(f'{p}.{s}' for p, s in streams)} in w{first}..w{last}" for streams, first, last in groups]
    return Claim(f"{scope} at {limit} {number} of {', '.join(named)}", scope, "at", (limit, number, tuple(groups)))


def random_group(chance, made):
    """Streams, and the first and the last place of a range."""
    program = made.program
    streams = [(p, s) for p in range(len(program.entries)) for s in range(program.slim)]
    chosen = chance.sample(streams, chance.randrange(1, len(streams) + 1))
    first = chance.randrange(len(program.words))
    return tuple(chosen), first, chance.randrange(first, len(program.words))


def looked_at(claimed):
    """The places of the program at which some claims look, and the numbers of the words."""
    ranges = [(first, last) for claim in claimed if claim.form == "at" for _, first, last in claim.operands[2]]
    words = {word for claim in claimed for word in words_in(claim)}
    return {place for first, last in ranges for place in range(first, last + 1)}, words


def words_in(claim):
    """The numbers of the words of which a claim speaks."""
    if claim.form == "at":
        return []
    return [claim.operands[0], claim.operands[2]] if claim.form == "beside" else [claim.operands[0]]


def holds(claim, world):
    """Whether a claim holds of a world: no world alone breaks one with `some`."""
    return claim.scope == "some" or of_form(claim, world) == (claim.scope == "always")


def shows(claim, world):
    """Whether a world shows a claim: nothing has to be shown of one with `always` or `never`."""
    return claim.scope != "some" or of_form(claim, world)


def of_form(claim, world):
    """The same without `always`, `never` or `some`."""
    if claim.form == "at":
        limit, number, groups = claim.operands
        count = sum(is_at(world.processors[p].streams[s], first, last)
                    for streams, first, last in groups for p, s in streams)
        return count <= number if limit == "most" else count >= number
    if claim.form == "beside":
        at, relation, other, more, is_signed = claim.operands
        return stands(world.memory[at][0], relation, (world.memory[other][0] + more) % 2**64, is_signed)
    at, value, is_signed = claim.operands
    held, tags = world.memory[at]
    if claim.form in ("full", "empty"):
        return tags & 1 == (claim.form == "full")
    return stands(held, claim.form, value, is_signed)


def is_at(stream, first, last):
    """Whether a stream runs at a place of a range."""
    return stream.status == "running" and first <= stream.ssw % 2**32 <= last


def stands(one, relation, other, is_signed):
    """Whether a number stands so to another: as they are kept, or with a sign."""
    if is_signed:
        one, other = (value if value < 0 else machine.signed(value) for value in (one, other))
    return {"is": one == other, "above": one > other, "below": one < other}[relation]
