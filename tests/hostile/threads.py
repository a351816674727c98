"""The command threads: valid and damaged images, fuel at its limits, and threads that cannot be started. What a run
hands out is run again, and has to come to the same end."""

import os
import re
from functools import partial

import images
from program import CASES, EXAMPLES, Tally, assembled, read, sources, write
from refusing import interposer, refused_threads

ENTRY = re.compile(
    rb"[ \d]{7} [ \d]{3} [ \d]{3} (?:LOAD  |STORE |FADD  |TAGGET|TAGSET|PURGE ) [0-9A-F]{16} [0-3] [0-9A-F]{16} [0-3] "
    rb"(?:DONE [0-9A-F]{16}|BLOCKED [0-9A-F]{12}|TRAP \d\d [0-9A-F]{12})\n"
)
# one processor that asks the memory again and again, and one that never does
ASKING = b".slim 1\n.entry 0\nagain: FADD.N r1, r0, 0\nSKIP ALWAYS, 0, again\n.data 1\n"
SILENT = b".slim 1\n.entry 0\nagain: ADD r1, r1, 1\nSKIP ALWAYS, 0, again\n.data 1\n"
NO_FUEL = ["0", "1000001", "-1", "x", "", "1.0", "1e3", " 1", "0x1", "18446744073709551616", "9" * 1000]


def world(out):
    """What a machine came to: a text from its first line on."""
    return out[out.index(b"processor 0 "):]


def replays(tally, what, image, fuel, schedule, printed):
    """A run's schedule has to take each processor through its fuel at most, and to come to the end that was printed;
    gives the number of entries."""
    history = len(printed) - len(world(printed))
    entries = place = 0
    while place < history and (entry := ENTRY.match(printed, place)):
        entries, place = entries + 1, entry.end()
    tally.check(f"history of {what}", place == history)
    taken = {}
    for line in read(schedule).split(b"\n")[:-1]:
        p, _, count = line.split(b" ")
        taken[p] = taken.get(p, 0) + int(count)
    tally.check(f"fuel of {what}: {taken}", all(count <= fuel for count in taken.values()))
    if sum(taken.values()) <= 1_000_000:
        again = tally.does(f"run of {what}", ["run", image, schedule])
        tally.check(f"end of {what}", world(again) == world(printed))
        tally.check(f"steps of {what}", again.count(b"\n", 0, len(again) - len(world(again))) == sum(taken.values()))
    return entries


def threaded(tally, what, image, fuel, schedule, **how):
    """A run that has to hand out a schedule."""
    printed = tally.does(what, ["threads", image, str(fuel), schedule], **how)
    if printed:
        return replays(tally, what, image, fuel, schedule, printed)
    return 0


def damaged(folder, data):
    """One image: its fault is the table's, and else a run of it is handed out."""
    tally = Tally()
    own = os.path.join(folder, f"threads.{os.getpid()}")
    path, schedule = write(folder, f"threads.{os.getpid()}.image", data), own + ".schedule"
    fault, what = images.image_fault(data), f"threads on {data[:60].hex()}"
    if fault is None:
        threaded(tally, what, path, 40, schedule)
    else:
        tally.refuses(what, ["threads", path, "40", schedule], f"image fault {fault}".encode())
        tally.check(f"schedule of {what}", read(schedule) == b"")
    return tally


def damages(base):
    """Each prefix, each bit turned, and each byte at its least and its most."""
    made = {base, base + b"\0", *(base[:k] for k in range(len(base)))}
    for k, byte in enumerate(base):
        made |= {base[:k] + bytes([value]) + base[k + 1:] for value in [0, 255, *(byte ^ (1 << n) for n in range(8))]}
    return sorted(made)


def of_fuel(tally, folder):
    """Fuel at its limits, beyond them, and what is no number."""
    schedule = os.path.join(folder, "fuel.schedule")
    for source, entries in ((ASKING, 500_000), (SILENT, 0)):
        image = assembled(tally, folder, write(folder, "fuel.asm", source), "fuel.image")
        for fuel, wanted in ((1, entries and 1), (1_000_000, entries)):
            found = threaded(tally, f"fuel {fuel}", image, fuel, schedule)
            tally.check(f"fuel {fuel}: {found} entries", found == wanted)
    two = assembled(tally, folder, os.path.join(EXAMPLES, "count.asm"), "two.image")
    threaded(tally, "fuel 500,000 of two", two, 500_000, schedule)
    tally.refuses("fuel 500,001 of two", ["threads", two, "500001", schedule], b"threads fault 2")
    tally.check("no schedule of fuel 500,001", read(schedule) == b"")
    os.unlink(schedule)
    for fuel in NO_FUEL:
        ended = tally.run(["threads", two, fuel, schedule])
        tally.check(f"fuel {fuel[:40]!r}: {ended}", ended.status == 2 and ended.out == b"" and ended.err != b"")
        tally.check(f"no schedule of fuel {fuel[:40]!r}", not os.path.exists(schedule))


def of_programs(tally, folder):
    """Each program, again and again; those of tests/cases that come to one end come to it, where their fuel lasts."""
    schedule = os.path.join(folder, "again.schedule")
    for source in sources(EXAMPLES, os.path.join(CASES, "run"), os.path.join(CASES, "threads")):
        image, end = assembled(tally, folder, source, "again.image"), read(source[:-len("asm")] + "end")
        for _ in range(5):
            printed = tally.does(f"threads {source}", ["threads", image, "2000", schedule])
            if printed:
                replays(tally, source, image, 2000, schedule, printed)
                runs_on = b"\nstream " in world(printed)
                tally.check(f"end of {source}", end is None or runs_on or world(printed) == end)


def of_no_threads(tally, folder):
    """Runs for which no thread is started, only the first or the last, or all but one."""
    library, schedule = interposer(folder), os.path.join(folder, "few.schedule")
    started = 0
    for source in sources(EXAMPLES, os.path.join(CASES, "threads")):
        image = assembled(tally, folder, source, "few.image")
        count = refused_threads(library, folder)
        threaded(tally, f"threads {source}", image, 300, schedule, **count)
        asked = int(read(count["THREADS_COUNT"]))
        started = max(started, asked)
        few = {",".join(map(str, (k for k in range(1, asked + 1) if k not in left)))
               for left in ([], [1], [asked])} | {str(k) for k in range(1, asked + 1)}
        for numbers in sorted(few - {""}):
            how = refused_threads(library, folder, numbers)
            threaded(tally, f"{source} without threads {numbers}", image, 300, schedule, **how)
    tally.check("threads that are asked for", started >= 2)


def part(pool, folder):
    """All of them."""
    tally = Tally()
    for one in pool.map(partial(damaged, folder), damages(images.three_processors()), chunksize=20):
        tally.add(one)
    of_fuel(tally, folder)
    of_programs(tally, folder)
    of_no_threads(tally, folder)
    return tally
