#!/usr/bin/env python3
"""Runs the built program on hostile inputs, in parts: damaged images, random texts, inputs at and beyond their limits,
the command threads with and without its threads, the debugger's lines, files that fail, files that others swap, files
that are written, folders of other users, bounds of memory and time, and refused memory, in the commands and in single
calls of the libraries. Each run has to end with the answer that the documents give, or, where only that much is known
beforehand, done, or refused with one line on standard error and nothing printed; each refusal within a second of
processor time, and within ten times its input and 40 MB. Arguments name the parts to be run; without any all of them
are. With PROGRAM=draft in the environment they are run on the drafts. Needs Python 3 and a C compiler."""

import sys

sys.dont_write_bytecode = True

import concurrent.futures
import os
import tempfile
import time

import allocations
import bounds
import calls
import debugger
import files
import images
import inputs
import lab
import limits
import others
import outputs
import program
import texts
import threads

PARTS = {
    "images": images.part,
    "texts": texts.part,
    "limits": limits.part,
    "threads": threads.part,
    "debugger": debugger.part,
    "files": files.part,
    "allocations": allocations.part,
    "calls": calls.part,
    "lab": lab.part,
    "inputs": inputs.part,
    "bounds": bounds.part,
    "outputs": outputs.part,
    "others": others.part,
}
# how many of the things that were not as they have to be are printed for a part
SHOWN = 20


def main(names):
    unknown = [name for name in names if name not in PARTS]
    if unknown:
        sys.exit(f"no part is named {unknown[0]}; the parts: {', '.join(PARTS)}")
    program.built.ask("mta_sim", "mta_lab", *["library_calls"] * ("calls" in (names or PARTS)))
    wrong = 0
    for name in names or PARTS:
        begin = time.monotonic()
        with tempfile.TemporaryDirectory() as folder, concurrent.futures.ProcessPoolExecutor(os.cpu_count()) as pool:
            tally = PARTS[name](pool, folder)
        for what in tally.wrong[:SHOWN]:
            print(f"not so: {what}")
        wrong += len(tally.wrong)
        print(f"{name}: {tally}, {time.monotonic() - begin:.0f} s", flush=True)
    sys.exit(1 if wrong else 0)


main(sys.argv[1:])
