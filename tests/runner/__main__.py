#!/usr/bin/env python3
"""Runs the cases below tests/cases on the built program. A case that does not hold is named by its file and line, with
what was wanted and what was got. Arguments are the beginnings of the names of tables to be run; without any all of them
are. With PROGRAM=draft in the environment they are run on the drafts. The last line counts the cases. Needs Python 3."""

import sys

sys.dont_write_bytecode = True

import concurrent.futures
import importlib
import os
import time

import checks
import table
import tool
import transcripts

# how much is printed of what was wanted and got, and of how many cases of a table
SHOWN, MOST = 300, 10
# the endings of the files that modules read which are no tables: transcripts, and what cases of other kinds have
READ = (transcripts.ENDING, ".asm", ".schedule", ".trace", ".end", ".txt")


def shown(value):
    text = value.decode("utf-8", "backslashreplace") if isinstance(value, bytes) else str(value)
    return repr(text[:SHOWN]) + (f" and {len(text) - SHOWN} characters more" if len(text) > SHOWN else "")


def difference(wanted, got):
    """Both sides, from the first line on in which they differ where both are long texts; of tuples what differs."""
    if isinstance(wanted, tuple) and isinstance(got, tuple) and len(wanted) == len(got):
        return "; ".join(difference(*pair) for pair in zip(wanted, got) if pair[0] != pair[1])
    if isinstance(wanted, bytes) and isinstance(got, bytes) and max(len(wanted), len(got)) > SHOWN:
        same = os.path.commonprefix([wanted, got])
        begin = same.rfind(b"\n") + 1
        line = same.count(b"\n") + 1
        return f"from line {line} on wanted {shown(wanted[begin:])}, got {shown(got[begin:])}"
    return f"wanted {shown(wanted)}, got {shown(got)}"


def guarded(check, *given):
    """The pairs of a check; what it raises is what was got."""
    try:
        return check(*given)
    except Exception as error:  # a case that can't be run does not hold
        return "a case that can be run", f"{type(error).__name__}: {error}"


def done(case):
    """A case that is no row, with what was wanted and got."""
    name, *given = case
    found = guarded(given[0]) if callable(given[0]) else given
    return found if len(found) == 3 else (name, *found)


def pairs_of(pool, file):
    """Each case of a table or kind, with what was wanted and got."""
    if file in checks.OTHERS:
        found = guarded(lambda: list(checks.OTHERS[file]()))
        return [(file, *found)] if isinstance(found, tuple) else list(pool.map(done, found))
    rows = table.rows(file)
    fields = [row.fields for row in rows]
    if file in checks.EACH:
        pairs = list(pool.map(lambda it: guarded(checks.EACH[file], it), fields))
    else:
        pairs = guarded(checks.WHOLE[file], fields)
        pairs = [pairs] * len(rows) if isinstance(pairs, tuple) else list(pairs)
    if len(pairs) != len(rows):
        pairs = [(f"{len(rows)} answers", f"{len(pairs)} answers")] * len(rows)
    return [(row, *pair) for row, pair in zip(rows, pairs)]


def unread():
    """The files below tests/cases that no module reads: tables without a check, and files of an ending that none has."""
    found = []
    for at, _, files in os.walk(table.CASES):
        found += [os.path.relpath(os.path.join(at, name), table.CASES) for name in files if not name.endswith(READ)]
    return sorted(set(found) - {*checks.EACH, *checks.WHOLE})


def main(names):
    # (some tables call one of the programs alone, so where tables are named the other one may be missing)
    tool.built.ask(*[name for name in ("mta_sim", "mta_lab") if names and os.path.exists(tool.built.place(name))])
    here = os.path.dirname(os.path.abspath(__file__))
    for module in sorted(os.listdir(here)):
        if module.startswith("of_") and module.endswith(".py"):
            importlib.import_module(module.removesuffix(".py"))
    passed = failed = 0
    for file in unread():
        print(f"tests/cases/{file}: no module of tests/runner reads this file")
        failed += 1
    files = sorted({*checks.EACH, *checks.WHOLE, *checks.OTHERS})
    files = [file for file in files if not names or file.startswith(tuple(names))]
    with concurrent.futures.ThreadPoolExecutor(os.cpu_count()) as pool:
        for file in files:
            begin = time.monotonic()
            pairs = pairs_of(pool, file)
            wrong = [(case, wanted, got) for case, wanted, got in pairs if wanted != got]
            for case, wanted, got in wrong[:MOST]:
                print(f"{case}: {difference(wanted, got)}")
            passed, failed = passed + len(pairs) - len(wrong), failed + len(wrong)
            print(f"{file}: {len(pairs) - len(wrong)} of {len(pairs)}, {time.monotonic() - begin:.1f} s", flush=True)
    print(f"{passed} passed, {failed} failed")
    sys.exit(1 if failed or not passed else 0)


main(sys.argv[1:])
