#!/usr/bin/env python3
"""Random programs, all of whose worlds are searched by a machine of the tests' own (machine.py), beside what mta_lab says:
the kinds of ends, how many worlds each has, the steps of shortest schedules, what spins, whether each end is as expected,
which claims are broken, the verdict of `grade --explore`, each status, and how many worlds the search for ends alone looks
at, that of the examples too. A difference is told with its seed and its program. Needs Python 3.

  spaces [--programs N] [--first SEED] [--jobs N] [--program PATH]

There are 2,000 programs from seed 0 on, by the program that is built here; with PROGRAM=draft in the environment that is
the draft."""

import sys

sys.dont_write_bytecode = True

import argparse
import collections
import concurrent.futures
import itertools
import os
import subprocess
import tempfile

import examples
import search
from cases import Case

ROOT = os.path.dirname(os.path.dirname(os.path.dirname(os.path.abspath(__file__))))
sys.path.append(os.path.join(ROOT, "tests"))
import built

# after so many seconds a call has failed, and how many differences are printed
PATIENCE, SHOWN = 60, 20
# an endless loop beside which a trap stopped a stream: of so many programs one has it at least
TRAPPED, MOST_APART = "trapped beside spinning", 250


def answers_of(program, case):
    """The status of each call of a case, and what it prints."""
    answers = {}
    for name, words in case.calls().items():
        ended = subprocess.run([program, *words], capture_output=True, timeout=PATIENCE, check=False)
        answers[name] = ended.returncode, ended.stdout.decode("utf-8", "backslashreplace")
    return answers


def tried(seed, program):
    """What differs of the program that a seed makes, with its text; and how its worlds end."""
    with tempfile.TemporaryDirectory(prefix="mta-space-") as folder:
        case = Case(seed, folder)
        found = case.differences(answers_of(program, case))
    kinds = {*case.space.ends().values()}
    for world in itertools.chain(*case.space.spinning()):
        kinds |= {"spinning", TRAPPED} if search.stopped(world) else {"spinning"}
    return seed, found, case.made.text.decode(), kinds, len(case.space.distance)


def main():
    asked = argparse.ArgumentParser(description=__doc__.partition("\n\n")[0])
    asked.add_argument("--programs", type=int, default=2000, help="how many (2000)")
    asked.add_argument("--first", type=int, default=0, help="the first seed (0)")
    asked.add_argument("--program", help="the mta_lab that is tried")
    asked.add_argument("--jobs", type=int, default=os.cpu_count(), help="how many at a time (one a processor)")
    asked = asked.parse_args()
    asked.program = asked.program or built.path("mta_lab")
    seeds = range(asked.first, asked.first + asked.programs)
    wrong, worlds, kinds = 0, 0, collections.Counter()
    with concurrent.futures.ProcessPoolExecutor(asked.jobs) as pool:
        counted = pool.map(examples.differs, [asked.program] * len(examples.NAMES), examples.NAMES)
        for seed, found, text, ends, count in pool.map(tried, seeds, [asked.program] * len(seeds), chunksize=5):
            kinds.update(ends)
            worlds += count
            wrong += bool(found)
            if found and wrong <= SHOWN:
                print(f"seed {seed}:\n{text}" + "".join(f"not so: {what}\n" for what in found), flush=True)
        of_examples = list(filter(None, counted))
    if is_short := kinds[TRAPPED] < len(seeds) // MOST_APART:
        print(f"not so: {kinds[TRAPPED]} programs have a trap beside an endless loop, fewer than one of {MOST_APART}")
    print("".join(f"not so: {what}\n" for what in of_examples), end="")
    told = ", ".join(f"{count} {kind}" for kind, count in sorted(kinds.items()))
    print(f"{len(seeds)} programs, {worlds} worlds; programs with an end of this kind: {told}")
    right = len(examples.NAMES) - len(of_examples)
    failed = wrong + len(of_examples) + is_short
    print(f"{len(seeds) - wrong + right} passed, {failed} failed, {len(examples.NAMES)} of them examples")
    sys.exit(1 if failed else 0)


main()
