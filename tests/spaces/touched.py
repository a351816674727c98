"""Which words a stream may still ask for, by the program and the address at which it stands, by docs/LAB_REFERENCE.md ("Every
schedule"): what registers hold is followed as far as the program alone shows it."""

import machine
import memory as store
from liveness import ANYWHERE, GIVE_BACK, NOWHERE, writes_handler
from settled import ASKING

# so many words have a name each; of a place that asks for another one nothing is known
MOST_WORDS, MOST_PLACES = 64, 4096
# so many numbers are known of a register at most, that it may hold; and what an AND of anything and these numbers may be
MOST_NUMBERS = 4
MASKED = {1: frozenset(range(2)), 3: frozenset(range(4))}
# what a stream holds where it begins: each register 0; where CREATE starts it r1 is unknown
ZERO = frozenset([0])
BEGUN = (ZERO,) * 32
CREATED = (ZERO, None) + (ZERO,) * 30


class Touched:
    """What is known of the places of a program, of streams that begin at an entry. `known` has by place the few numbers of
    which each register holds one there, None where there are more; `touches` and `changes` the words that may be asked for, and changed, from there on, and
    `uses` those that may be asked for otherwise than by adds which load what nobody reads. A place that they lack is open.
    `unread` has the places at which nobody reads what is loaded."""

    def __init__(self, program, entry, unread):
        self.program, self.known, self.touches, self.changes, self.uses = program, {}, {}, {}, {}
        self.unread = unread
        if len(program.words) > MOST_PLACES:
            return
        self.join(entry, BEGUN)
        for word in program.words:
            if word.wide and word.wide[0] == "TLIT":
                self.join(word.wide[2], CREATED)
        while any([self.spread(place) for place in sorted(self.known)]):
            pass
        self.name_words()
        while any([self.take_back(place) for place in sorted(self.touches)]):
            pass

    def join(self, place, row):
        """A stream comes to a place with these registers. Says whether something is new."""
        if place >= len(self.program.words):
            return False
        old = self.known.get(place)
        new = row if old is None else tuple(few(a, b) for a, b in zip(old, row))
        self.known[place] = new
        return old != new

    def spread(self, place):
        """It goes on from there."""
        row = after(self.known[place], self.program.words[place])
        return any([self.join(to, row) for to in following(self.program.words[place], place)])

    def name_words(self):
        """The word that each place asks for; a place is open that asks for one that is not known, or for a stream, or that
        may lead anywhere or set a forward bit."""
        names = []
        for place in sorted(self.known):
            word, row = self.program.words[place], self.known[place]
            if not is_calm(word):
                continue
            self.touches[place], self.changes[place], self.uses[place] = set(), set(), set()
            if not word.memory:
                continue
            asked = words_asked(row, word.memory) if forwards_none(row, word.memory) else None
            for number in sorted(asked or ()):
                if number not in names:
                    names.append(number)
            if asked is None or any(names.index(number) >= MOST_WORDS for number in asked):
                del self.touches[place], self.changes[place], self.uses[place]
                continue
            self.touches[place] |= asked
            if may_change(word.memory):
                self.changes[place] |= asked
            if not (may_only_add(row, word.memory) and place in self.unread):
                self.uses[place] |= asked

    def take_back(self, place):
        """A place is open that leads to an open one; else it has what those have to which it leads. Says whether something
        is new."""
        for to in following(self.program.words[place], place):
            if to not in self.touches:
                del self.touches[place], self.changes[place], self.uses[place]
                return True
        new = False
        for rows in (self.touches, self.changes, self.uses):
            for to in following(self.program.words[place], place):
                new |= not rows[to] <= rows[place]
                rows[place] = rows[place] | rows[to]
        return new

    def is_standing(self, stream):
        """Whether a running stream stands at such a place, holds what is known there, and has no handler for traps."""
        place = stream.ssw % 2**32
        return (place in self.touches and stream.targets[0] % 2**32 == machine.NO_HANDLER
                and all(row is None or value in row for row, value in zip(self.known[place], stream.registers)))

    def is_passed(self, place, asked, is_changed, is_quiet):
        """Whether a word is not asked for from there on; or is only read, if it is only read now; or is only added to with
        nobody reading what is loaded, if that is so now (`is_quiet`)."""
        return (asked not in self.touches[place] or not is_changed and asked not in self.changes[place]
                or is_quiet and asked not in self.uses[place])


def is_calm(word):
    """Whether a word asks for no stream, leaves t0, and does not lead anywhere."""
    name = word.control[0] if word.control else None
    return name not in ASKING | ANYWHERE and not writes_handler(word)


def following(word, place):
    """Where a word leads to."""
    name = word.control[0] if word.control else None
    if name in NOWHERE | ANYWHERE:
        return []
    if name == "SKIP":
        skipped = (place + 1 + word.control[3]) % 2**32
        return [skipped] if word.control[1] == "ALWAYS" else [(place + 1) % 2**32, skipped]
    return [(place + 1) % 2**32]


def few(*known):
    """All these numbers; None where one is not known, or they are too many."""
    if None in known:
        return None
    numbers = frozenset().union(*known)
    return numbers if len(numbers) <= MOST_NUMBERS else None


def results(name, first, second):
    """What an operation may make of two operands: one of them has to be known, and the other to be one of a few."""
    if first is None or second is None or len(first) > 1 and len(second) > 1:
        return None
    return frozenset(machine.RESULTS[name](a, b) & machine.LAST for a in first for b in second)


def after(row, word):
    """What registers may hold after a word; None where that is not known."""
    row = list(row)
    old = tuple(row)
    if word.wide:
        name, to, immediate = word.wide
        if name == "LIT" and to:
            row[to] = frozenset([immediate])
        elif name == "LITH" and to:
            row[to] = None if old[to] is None else frozenset(immediate << 32 | low % 2**32 for low in old[to])
        return tuple(row)
    if word.memory and word.memory[0] in GIVE_BACK and word.memory[2]:
        row[word.memory[2]] = None
    if word.arithmetic:
        name, _, rd, ra, b = word.arithmetic
        mask = MASKED.get(b) if name == "AND" else None
        second = old[int(b[1:])] if isinstance(b, str) else frozenset([b])
        if rd:
            found = results(name, old[ra], second)
            row[rd] = mask if found is None else found
    if word.control and word.control[0] in ("TGET", "XGET", "RESERVE") and word.control[1]:
        row[word.control[1]] = None
    return tuple(row)


def unread_places(program, live, named):
    """The places at which a word loads a register that is not named, and not live wherever the word goes on."""
    found = set()
    for place, word in enumerate(program.words):
        loaded = word.memory[2] if word.memory and word.memory[0] in GIVE_BACK else 0
        leads_anywhere = bool(word.control) and word.control[0] in ANYWHERE
        if (loaded and loaded not in named and not leads_anywhere
                and all(loaded not in live.row(to) for to in following(word, place))):
            found.add(place)
    return found


def is_normal(pointer):
    """Whether the control that a pointer carries is the normal one; the reserved one reads as it."""
    return pointer >> 59 & 3 < 2


def adds(pointer, operation):
    """Whether a memory operation from this base is a FADD by normal control."""
    name, suffix, *_ = operation
    return name == "FADD" and (suffix == ".N" or not suffix and is_normal(pointer))


def may_only_add(row, operation):
    """Whether it is one from whatever base it may have."""
    name, suffix, _, base, _ = operation
    if name != "FADD" or suffix not in ("", ".N"):
        return False
    return suffix == ".N" or row[base] is not None and all(adds(pointer, operation) for pointer in row[base])


def words_asked(row, operation):
    """The numbers of the words that a memory operation may ask for; None where they are not known."""
    _, _, _, base, displacement = operation
    return None if row[base] is None else {(start + 8 * displacement) % 2**48 // 8 for start in row[base]}


def forwards_none(row, operation):
    """Whether it sets no forward bit."""
    name, _, rd, _, _ = operation
    return name != "TAGSET" or row[rd] is not None and not any(value & store.FORWARD for value in row[rd])


def may_change(operation):
    """Whether an operation may change its word: a pointer may say sync, so a LOAD by one may."""
    name, suffix, *_ = operation
    return name not in ("LOAD", "TAGGET") or name == "LOAD" and suffix not in (".N", ".F")
