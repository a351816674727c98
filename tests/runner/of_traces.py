"""Programs as `words` and `run` show them: what is printed of them, and the faults of their inputs."""

import checks
import tool
from table import unescaped


@checks.each("words/programs.tsv")
def is_printed(fields):
    program, printed = map(unescaped, fields)
    return printed, tool.words(program)


@checks.each("run/traces.tsv")
def is_traced(fields):
    source, schedule, trace = map(unescaped, fields)
    return trace, tool.trace(tool.asm(source), schedule)


@checks.each("run/faults.tsv")
def is_refused(fields):
    image, schedule, fault = map(unescaped, fields)
    return fault, tool.trace(image, schedule)


@checks.each("run/long_traces.tsv")
def is_traced_twice(fields):
    """A trace of so many bytes with this end, by two schedules that are one."""
    source, schedule, other, end = map(unescaped, [*fields[:3], fields[4]])
    image = tool.asm(source)
    trace = tool.trace(image, schedule)
    again = "the same" if tool.trace(image, other) == trace else "another trace"
    return (int(fields[3]), end, "the same"), (len(trace), trace[-len(end):], again)
