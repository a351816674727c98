"""Sets of steps that can be taken before all others, since no other stream may ever ask for one of their words, by
docs/LAB_REFERENCE.md ("Every schedule")."""

import machine
import memory as store
from touched import Touched, adds, may_change, unread_places


def may_forward(program):
    """Whether some word has the forward bit, or may get it."""
    tagging = [word.memory for word in program.words if word.memory and word.memory[0] == "TAGSET"]
    return any(tags & store.FORWARD for _, tags in program.data) or any(rd != 0 for _, _, rd, _, _ in tagging)


class FirstSets:
    """The sets of a program's worlds; none where a word may forward."""

    def __init__(self, program, live, named):
        self.program, self.is_asked = program, not may_forward(program)
        self.unread = unread_places(program, live, named)
        self.tables = [Touched(program, entry, self.unread) for entry in program.entries]

    def least(self, world, firsts):
        """Of the sets that begin with each of these steps, the first of the least ones; None where there is none but the set
        of all."""
        running, best = machine.running(world), None
        for first in [step for step in running if step in firsts] if self.is_asked else ():
            found = self.grown(world, running, first)
            if len(found) < len(best or running) and self.is_apart(world, running, found):
                best = found
        return best

    def grown(self, world, running, first):
        """A step, and all that may meet one of them."""
        found = [first]
        for step in found:
            if self.asked(world, step):
                found += [other for other in running if other not in found and not self.keeps_off(world, other, step)]
        return found

    def is_apart(self, world, running, found):
        """Whether each is a reference that no other stream comes to meet, and one is not blocked."""
        return (all(self.asked(world, step) for step in found)
                and all(self.keeps_off(world, other, step) for step in found for other in running if other not in found)
                and any(self.goes(world, step) for step in found))

    def asked(self, world, step):
        """The memory operation of a stream's instruction; None where it has none, or asks for a stream."""
        stream = world.processors[step[0]].streams[step[1]]
        place = stream.ssw % 2**32
        word = self.program.words[place] if place < len(self.program.words) else None
        if not word or word.control and word.control[0] in ("RESERVE", "CREATE"):
            return None
        return word.memory

    def request(self, world, step):
        """The request of such an instruction."""
        return store.request_of(world.processors[step[0]].streams[step[1]], self.asked(world, step))

    def keeps_off(self, world, other, step):
        """Whether a stream never comes to meet the request of a step."""
        stream, table = world.processors[other[0]].streams[other[1]], self.tables[other[0]]
        asked = self.request(world, step).pointer % 2**48 // 8
        is_changed, is_quiet = may_change(self.asked(world, step)), self.is_quiet(world, step)
        return table.is_standing(stream) and table.is_passed(stream.ssw % 2**32, asked, is_changed, is_quiet)

    def is_quiet(self, world, step):
        """Whether the request of a step is an add of which nobody reads what it loads."""
        stream = world.processors[step[0]].streams[step[1]]
        _, _, _, base, _ = operation = self.asked(world, step)
        return adds(stream.registers[base], operation) and stream.ssw % 2**32 in self.unread

    def goes(self, world, step):
        """Whether a reference is not blocked."""
        return store.serve(world.memory, self.request(world, step))[0] != "blocked"
