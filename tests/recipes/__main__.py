#!/usr/bin/env python3
"""Runs the recipes of docs/GRADING.md that take more than the built program, in parts: that of Gradescope in a bare Debian, a
Slurm array on a cluster of one node, and the tables of grade in LibreOffice. Arguments name the parts to be run; without any
all of them are. A part whose programs are not here says which it needs, and is passed over. With PROGRAM=draft in the
environment the draft is run. tests/runner/of_recipes.py has the recipes that need nothing else. Needs Python 3."""

import sys

sys.dont_write_bytecode = True

import os
import shutil
import tempfile
import time

import debian
import part
import slurm
import spreadsheet

PARTS = {"debian": debian, "slurm": slurm, "spreadsheet": spreadsheet}


def main(names):
    unknown = [name for name in names if name not in PARTS]
    if unknown:
        sys.exit(f"no part is named {unknown[0]}; the parts: {', '.join(PARTS)}")
    part.built.ask("mta_lab")
    passed = failed = 0
    for name in names or PARTS:
        missing = [program for program in PARTS[name].NEEDS if shutil.which(program, path=part.PATH) is None]
        if missing:
            print(f"{name}: not run, since {', '.join(missing)} is not here")
            continue
        begin = time.monotonic()
        with tempfile.TemporaryDirectory(prefix="mta-recipe-") as folder:
            found = list(PARTS[name].checks(os.path.realpath(folder)))
        for what, wanted, got in found:
            if wanted != got:
                print(f"not so: {name}, {what}: wanted {wanted!r}, got {got!r}")
                failed += 1
            else:
                passed += 1
        print(f"{name}: {len(found)} checks, {time.monotonic() - begin:.0f} s", flush=True)
    print(f"{passed} passed, {failed} failed")
    sys.exit(1 if failed else 0)


main(sys.argv[1:])
