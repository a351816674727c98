"""The programs of examples and of tests/cases/run: PROGRAM.asm with PROGRAM.schedule, or with some
PROGRAM.NAME.schedule, and beside each schedule the trace that its run comes to."""

import functools
import os

import checks
import table
import tool
import worlds

FOLDERS = ("examples", "tests/cases/run")


def runs(image, schedule, trace):
    """The run prints its trace, the image's listing means the image, and the debugger behind the last step shows what
    the trace ends with."""
    printed, listing = tool.trace(image, schedule), tool.listing(image)
    if printed != trace:
        return trace, printed
    if tool.asm(listing) != image:
        return "a listing that means its image", listing
    end = worlds.end_of(trace)
    commands, answers = worlds.shown(listing, end)
    last = trace[:-len(end)].count(b"\n")
    session = tool.session(image, schedule, b"g %d\n" % last + commands)
    return b"at %d moved\n" % last + answers, session.out + session.err


def is_run(folder, run):
    """The files of a run, which all have to be there."""
    path = os.path.join(table.ROOT, folder, run)
    program = os.path.join(table.ROOT, folder, run.split(".")[0])
    source, schedule, trace = map(tool.read, (program + ".asm", path + ".schedule", path + ".trace"))
    missing = [kind for kind, data in (("source", source), ("schedule", schedule), ("trace", trace)) if data is None]
    return ("all files", f"no {missing[0]}") if missing else runs(tool.asm(source), schedule, trace)


def runs_in(folder):
    """The names of a folder's runs: of all its schedules and traces, and of the sources that have neither."""
    names = [os.path.splitext(name) for name in os.listdir(os.path.join(table.ROOT, folder))]
    found = {stem for stem, kind in names if kind in (".schedule", ".trace")}
    return sorted(found | {stem for stem, kind in names if kind == ".asm"} - {stem.split(".")[0] for stem in found})


@checks.others("run/programs")
def programs():
    for folder in FOLDERS:
        for run in runs_in(folder):
            yield f"{folder}/{run}.trace", functools.partial(is_run, folder, run)
