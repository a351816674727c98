#!/usr/bin/env python3
"""make.py [--check]: makes docs/CHEAT_SHEET.md and the constants of `mta_lab explain`, below crates/lab_words/src/pages,
of the pages in this folder. A page begins with a line `= NAME..`; its lines `~ KIND | FORM | MEANING | NOTE` are rows
of the cheat sheet, and its lines `> TEXT` a program that runs. With --check nothing is written, and each file that is
not up to date is named."""

import pathlib
import sys

HERE = pathlib.Path(__file__).resolve().parent
PAGES = HERE.parent.parent / "crates/lab_words/src/pages"
SHEET = HERE.parent / "CHEAT_SHEET.md"
NAMES = ("memory", "arithmetic", "control", "accesses", "conditions", "directives", "outcomes", "concepts",
         "faults")
# the kinds of rows that have a third column
NOTED = ("memory",)


def text(name):
    return (HERE / f"{name}.txt").read_text(encoding="ascii")


def rows(kind):
    """The rows of a kind, in the order of the pages."""
    found = []
    for line in "".join(text(name) for name in NAMES).splitlines():
        if line.startswith("~ "):
            of, form, meaning, note = (field.strip() for field in line[2:].split("|"))
            if of == kind:
                noted = (f" {note} |" if note else " |") if kind in NOTED else ""
                found.append(f"| `{form}` | {meaning} |{noted}")
    return "\n".join(found)


def sheet():
    lines = text("cheat_sheet").splitlines()
    return "\n".join(rows(line[1:]) if line.startswith("@") else line for line in lines) + "\n"


def constant(name):
    """The constant of a file of pages, in the layout of rt fmt."""
    pages = "\n".join(line for line in text(name).splitlines() if not line.startswith("~ ")) + "\n"
    marks = "#" if '"' in pages else ""
    about = f"//! Pages of `explain`: docs/words/{name}.txt. Made by docs/words/make.py.\n\n"
    return about + f'pub(crate) const TEXT: &str = r{marks}"{pages}"{marks};\n'


def main():
    made = {SHEET: sheet()} | {PAGES / f"{name}.rt": constant(name) for name in NAMES}
    old = [path for path, wanted in made.items() if not path.exists() or path.read_text() != wanted]
    if "--check" in sys.argv[1:]:
        for path in old:
            print(f"{path.relative_to(HERE.parent.parent)} is not that of docs/words: run docs/words/make.py")
        return 1 if old else 0
    PAGES.mkdir(parents=True, exist_ok=True)
    for path in old:
        path.write_text(made[path])
    return 0


sys.exit(main())
