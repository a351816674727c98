"""Refused memory in single calls of the libraries: the program library_calls makes each public call that takes memory and
says how it ended. One allocation is refused at a time: the call that it was for has to say that memory was refused, and to
leave what it may change as it was, or to hand it back; every other call has to be done. Refused threads are no error: all
calls have to be done then."""

import collections

from program import CALLS, Tally, read, run
from refusing import interposer, refused_allocation, refused_threads

DONE, REFUSED = "done", "refused, all as before"
NOT_MADE = "not made, since its arguments found no memory"
# the one that takes no memory
NEVER_REFUSED = {"run_by_lock"}


class Refusals(Tally):
    """Refused allocations: by the call that told them, of the arguments of calls, of a printed line, without effect."""

    def __init__(self):
        super().__init__()
        self.told, self.arguments, self.printed, self.silent = collections.Counter(), 0, 0, 0
        # runs with refused threads
        self.threads = 0

    def __str__(self):
        told = sum(self.told.values())
        return (f"{told + self.arguments + self.printed + self.silent} refused, {told} told by {len(self.told)} calls, "
                f"{self.arguments} for arguments of calls, {self.printed} for a printed line, "
                f"{self.silent} without effect, {self.threads} runs without some or all threads, {len(self.wrong)} wrong")

    def note(self, ended, endings):
        """Counts a refusal by the one call that it showed at; gives whether it is as it has to be."""
        others = [(name, text) for name, text in endings if text != DONE]
        if ended.status == 1:
            self.printed += 1
            return not others and b"memory" in ended.err
        if not others:
            self.silent += 1
            return ended.is_done()
        name, text = others[0]
        if text == REFUSED:
            self.told[name] += 1
        else:
            self.arguments += 1
        return ended.is_done() and len(others) == 1 and text in (REFUSED, NOT_MADE)


def endings_of(ended):
    """The calls, with how each of them ended."""
    return [tuple(line.rsplit(": ", 1)) for line in ended.out.decode().splitlines()]


def part(_, folder):
    """All of them."""
    tally, library = Refusals(), interposer(folder)
    check_threads(tally, library, folder)

    def calls(number):
        variables = refused_allocation(library, folder, number)
        ended = run(["calls"], tool=CALLS, **variables)
        return ended, endings_of(ended), int(read(variables["COUNT"]))

    ended, endings, count = calls(0)
    tally.check(f"with ample memory: {ended}", ended.is_done() and all(text == DONE for _, text in endings))
    for number in range(1, count + 1):
        ended, endings, _ = calls(number)
        tally.check(f"allocation {number} refused: {ended}", tally.note(ended, endings))
    never = {name for name, _ in calls(0)[1] if name not in tally.told}
    tally.check(f"no refusal was seen at {', '.join(never)}", never == NEVER_REFUSED)
    return tally


def check_threads(tally, library, folder):
    """Refuses each thread in turn, and all of them."""
    def calls(numbers):
        variables = refused_threads(library, folder, numbers)
        ended = run(["calls"], tool=CALLS, **variables)
        is_done = ended.is_done() and all(text == DONE for _, text in endings_of(ended))
        tally.check(f"threads {numbers or 'none'} refused: {ended}", is_done)
        tally.threads += numbers != ""
        return int(read(variables["THREADS_COUNT"]))

    numbers = [str(number + 1) for number in range(calls(""))]
    tally.check("no thread was started", numbers)
    for number in [*numbers, ",".join(numbers)]:
        calls(number)
