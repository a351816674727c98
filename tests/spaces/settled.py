"""Places of a program from which no way leads to a RESERVE or CREATE, by docs/MACHINE.md alone. What JUMP, CALL and XCHG
lead to is not looked for: it may be any place. So may a trap where t0 names a handler."""

import machine
from liveness import ANYWHERE, NOWHERE, writes_handler

ASKING = {"RESERVE", "CREATE"}


class Settled:
    """The places, and which streams stand at one."""

    def __init__(self, program):
        self.program = program
        self.places = set(range(len(program.words)))
        while left := {place for place in self.places if not self.is_calm(place)}:
            self.places -= left

    def is_calm(self, place):
        """Whether the word at a place neither asks for a stream nor writes t0, and leads to places of the set alone."""
        word = self.program.words[place]
        name = word.control[0] if word.control else None
        if name in ASKING | ANYWHERE or writes_handler(word):
            return False
        if name in NOWHERE:
            return True
        following = {(place + 1) % 2**32}
        if name == "SKIP":
            skipped = (place + 1 + word.control[3]) % 2**32
            following = {skipped} if word.control[1] == "ALWAYS" else following | {skipped}
        return following <= self.places

    def is_settled(self, stream):
        """Whether a stream stands at such a place, with no handler, if it runs."""
        return stream.status != "running" or (
            stream.ssw % 2**32 in self.places and stream.targets[0] % 2**32 == machine.NO_HANDLER)
