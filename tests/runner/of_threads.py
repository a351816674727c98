"""Programs whose processors run at once."""

import concurrent.futures
import functools
import os
import subprocess
import tempfile

import checks
import table
import tool
import worlds
from table import unescaped

# a folder, the most steps of a processor, and how often each of its programs is run; of those with two processors,
# which ask the memory in turn, the fuel is short, since some of them wait without end
ONE_END = ("tests/cases/threads", 10_000, 200)
ANY_END = ("examples", 10_000, 10)
IN_TURN = ("examples", 100, 500)
# runs an image with this fuel so often, and again by each schedule that is handed out; from here each call would take
# longer than the run
AGAIN = """for k in $(seq "$3"); do
  "$0" threads "$1" "$2" schedule.$k >printed.$k && "$0" run "$1" schedule.$k >again.$k || exit
done"""


@checks.each("threads/runs.tsv")
def is_handed_out(fields):
    source, schedule, printed = map(unescaped, (fields[0], *fields[2:]))
    return (printed, schedule), tool.threads(tool.asm(source), fields[1])


def end_in(path):
    """What a run has come to, from the file of what it printed; none where there was no run."""
    printed = tool.read(path)
    return worlds.end_of(printed) if printed else None


def runs_of(name, image, only, fuel, count):
    """Runs of a program on threads, each run again by its schedule: both have the same end, which is the program's only
    one where it has one and no stream still runs. Where they differ the schedule is shown too."""
    with tempfile.TemporaryDirectory(prefix="mta-case-") as folder:
        at = functools.partial(os.path.join, folder)
        tool.write(at("image"), image)
        words = ["sh", "-c", AGAIN, tool.PROGRAM, "image", str(fuel), str(count)]
        ended = subprocess.run(words, cwd=folder, stderr=subprocess.PIPE, timeout=count * tool.PATIENCE, check=False)
        for number in range(1, count + 1):
            end, again = end_in(at(f"printed.{number}")), end_in(at(f"again.{number}"))
            wanted = end if only is None or b"Running" in (end or b"") else only
            is_same = end is not None and wanted == end == again
            got = end if is_same else (end, again, tool.read(at(f"schedule.{number}")), ended.stderr)
            yield f"{name}, run {number} of {count}", wanted, got


def programs(folder):
    """The programs of a folder: the names of their sources, their images, and their only end where they have one."""
    for name in sorted(os.listdir(os.path.join(table.ROOT, folder))):
        if name.endswith(".asm"):
            path = os.path.join(table.ROOT, folder, name)
            yield f"{folder}/{name}", tool.asm(tool.read(path)), tool.read(path.removesuffix("asm") + "end")


def has_two_processors(program):
    return worlds.numbers_of(tool.listing(program[1]))[0] == 2


def all_runs(folder, fuel, count, is_wanted=lambda program: True):
    wanted = filter(is_wanted, programs(folder))
    with concurrent.futures.ThreadPoolExecutor(os.cpu_count()) as pool:
        for runs in pool.map(lambda program: list(runs_of(*program, fuel, count)), wanted):
            yield from runs


@checks.others("threads/one_end")
def of_one_end():
    return all_runs(*ONE_END)


@checks.others("threads/examples")
def of_any_end():
    return all_runs(*ANY_END)


@checks.others("threads/in_turn")
def in_turn():
    return all_runs(*IN_TURN, has_two_processors)
