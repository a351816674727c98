"""Schedules: the steps that a text means, and its faults."""

import itertools

import checks
import tool
from table import unescaped

# sixteen processors with all their streams
SOURCE = b".slim 128\n" + 16 * b".entry 0\n" + b"again: SKIP ALWAYS, 0, again\n.data 0\n"
# where a trace line has the numbers of the processor and the stream
PLACES = slice(8, 15)


def runs_of(trace):
    """The steps of a trace as a schedule is written: a line for each run of equal steps, the longest that there are."""
    lines = trace[:trace.index(b"processor 0 ")].split(b"\n")[:-1]
    runs = ((step, sum(1 for _ in run)) for step, run in itertools.groupby(line[PLACES] for line in lines))
    return b"".join(b"%d %d %d\n" % (*map(int, step.split()), count) for step, count in runs)


@checks.each("run/schedules.tsv")
def is_schedule(fields):
    meant, schedule = map(unescaped, fields)
    printed = tool.trace(tool.asm(SOURCE), schedule)
    if printed.startswith(b"!"):
        return b"!schedule " + meant, printed
    return meant, runs_of(printed)


@checks.others("run/rounds")
def rounds():
    """All streams in turn, and in turn again."""
    text = 2 * b"".join(b"%d %d 1\n" % place for place in itertools.product(range(16), range(128)))
    yield "two rounds of 2,048 streams", text, runs_of(tool.trace(tool.asm(SOURCE), text))
