#!/usr/bin/env python3
"""The class's verdicts by a second judge (verdicts.py), without the programs that are tested: of each source that is
named a line with its verdict by seeds, the least seed that shows it, the verdict by every schedule, and both by the
cases. Without names all sources of wanted.tsv are judged, and what differs from that table is printed. Needs Python 3.

  class [--plain] [--seeds N] [--steps N] [--states N] [SOURCE..]

--plain looks at all worlds, and not only at some that have all ends. The table may then have another verdict of what has
more worlds than are looked at."""

import sys

sys.dont_write_bytecode = True

import argparse
import concurrent.futures
import os

import verdicts

# the columns of wanted.tsv
COLUMNS = ("task", "submission", "seeds", "least", "every", "case seeds", "case every", "why")


def rows():
    """The rows of wanted.tsv."""
    lines = verdicts.read(os.path.join(verdicts.HERE, "wanted.tsv")).splitlines()
    return [dict(zip(COLUMNS, line.split("\t"), strict=True)) for line in lines if line and not line.startswith("#")]


def judged(path, judge):
    """The fields of a source below the folder of its task."""
    task = os.path.basename(os.path.dirname(os.path.dirname(os.path.abspath(path))))
    return judge.row(verdicts.Task(task), verdicts.read(path))


def differs(found, table, is_plain):
    """Whether fields differ from those of the table; all worlds may be too many to decide what fewer do."""
    return any(one != other and not (is_plain and one == verdicts.NOT_DECIDED)
               for one, other in zip(found, table, strict=True))


def main():
    asked = argparse.ArgumentParser(description=__doc__.partition("\n\n")[0])
    asked.add_argument("--plain", action="store_true", help="all worlds")
    asked.add_argument("--seeds", type=int, default=400, help="how many seeds (400)")
    asked.add_argument("--steps", type=int, default=10_000, help="the most steps of a run (10000)")
    asked.add_argument("--states", type=int, default=5000, help="the most worlds (5000)")
    asked.add_argument("sources", nargs="*", metavar="SOURCE")
    asked = asked.parse_args()
    judge = verdicts.Judge(asked.seeds, asked.steps, asked.states, asked.plain)
    for path in asked.sources:
        print("\t".join(judged(path, judge)))
    if asked.sources:
        return 0
    wanted = {os.path.join(verdicts.HERE, row["task"], "submissions", row["submission"]): row for row in rows()}
    paths = [path for path, row in wanted.items() if os.path.isfile(path) and row["every"] != "source fault"]
    wrong = 0
    with concurrent.futures.ProcessPoolExecutor(os.cpu_count()) as pool:
        for path, found in zip(paths, pool.map(judged, paths, [judge] * len(paths))):
            row = wanted[path]
            table = [row[name] for name in COLUMNS[2:-1]]
            if differs(found, table, asked.plain):
                wrong += 1
                print(f"{os.path.relpath(path, verdicts.HERE)}: {found}, and the table has {table}")
    print(f"{len(paths) - wrong} passed, {wrong} failed")
    return 1 if wrong else 0


sys.exit(main())
