"""Condition codes that nobody may ask for any more, by docs/MACHINE.md alone, and streams without them.

SKIP and JUMP ask for the code that they name, unless their condition always holds, as it stands before the word; XCHG
keeps all four in a target register. A word that makes a new code makes each other one older by one, and the oldest is
lost. What JUMP, CALL and XCHG lead to is not looked for: behind them all may be asked for. So they may be where a trap may
have a handler, for which it keeps them in t0. Codes are numbered from the newest on."""

from liveness import ANYWHERE, NOWHERE, may_trap

ALL = frozenset(range(4))


def asks(word):
    """The codes that a word asks for."""
    name = word.control[0] if word.control else None
    if name == "XCHG":
        return ALL
    if name in ("SKIP", "JUMP") and word.control[1] != "ALWAYS":
        return frozenset({word.control[2]})
    return frozenset()


class Asking:
    """Which codes may be asked for from each word of a program on."""

    def __init__(self, program, is_handled):
        self.is_handled = is_handled
        self.rows = [frozenset()] * len(program.words)
        while True:
            rows = [self.at(place, word) for place, word in enumerate(program.words)]
            if rows == self.rows:
                break
            self.rows = rows

    def row(self, place):
        """The codes that may be asked for from a place on: past the program all."""
        return self.rows[place] if place < len(self.rows) else ALL

    def at(self, place, word):
        """The codes that may be asked for from a word on, by those of the others."""
        if self.is_handled and may_trap(word):
            return ALL
        behind = self.behind(place, word)
        if word.arithmetic and word.arithmetic[1]:
            behind = frozenset(code - 1 for code in behind if code > 0)
        return asks(word) | behind

    def behind(self, place, word):
        """The codes that may be asked for where a word goes on, as they stand there."""
        following = self.row((place + 1) % 2**32)
        name = word.control[0] if word.control else None
        if name in ANYWHERE:
            return ALL
        if name in NOWHERE:
            return frozenset()
        if name == "SKIP":
            skipped = self.row((place + 1 + word.control[3]) % 2**32)
            return skipped if word.control[1] == "ALWAYS" else skipped | following
        return following

    def kept(self, status_word):
        """A status word with 0 in each code that nobody may ask for from its pc on."""
        kept = self.row(status_word % 2**32)
        for code in ALL - kept:
            status_word &= ~(0xF << 32 + 4 * code)
        return status_word
