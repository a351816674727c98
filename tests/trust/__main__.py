#!/usr/bin/env python3
"""What a reader has to trust: follows the words of contracts to their definitions. Without an argument it writes
out/TRUST.md, or the file that is named; with --check it writes out/TRUST.md too, and says what that page lacks or says
wrong; with --named it compares its roots with what README.md and docs/PROMISES.md name; with --unreached it names the definitions of specs/ that no public contract reaches; with --unsaid those that the
page has no sentence for, since no comment stands above them. Needs Python 3, and rt for the logic's name."""

import sys

sys.dont_write_bytecode = True

import os
import subprocess

# (layout goes to the folder of the repository)
STARTED = os.getcwd()

import document
import layout
import named
import reach
import sources
import specs
import whole

PAGE = "out/TRUST.md"


def logic():
    """The logic of the kit that is here, which kits of other names have too."""
    said = subprocess.run(["rt", "version"], capture_output=True, text=True, check=True).stdout
    return said.strip().rpartition(" ")[2]


def write(path=PAGE):
    os.makedirs(os.path.dirname(path) or ".", exist_ok=True)
    with open(path, "w", encoding="utf-8") as page:
        page.write(document.document(logic()))


def check():
    write()
    with open(PAGE, encoding="utf-8") as page:
        faults = list(whole.faults(page.read(), logic(), map(document.shown, document.ROOTS)))
    for fault in faults:
        print(f"{PAGE}: {fault}")
    return 1 if faults else 0


def compare():
    faults = list(named.faults())
    print(*faults, sep="\n", end="\n" if faults else "")
    return 1 if faults else 0


def unreached():
    found = reach.of(sources.public_functions())
    lines = 0
    for file in layout.all_spec_files():
        for definition in specs.module(file).definitions.values():
            if (file, definition.name) not in found.definitions:
                print(f"{file}:{definition.line}: {definition.name}")
                lines += definition.lines
    _, reached, files, *_ = document.sums(found)
    print(f"{lines} lines of specs/ that no public contract reaches; {reached} lines in {files} files are reached")


def unsaid():
    for file, name, line in document.without_sentence():
        print(f"{file}:{line}: {name}")


if __name__ == "__main__":
    asked = sys.argv[1:] or [PAGE]
    commands = {"--check": check, "--named": compare, "--unreached": unreached, "--unsaid": unsaid}
    if len(asked) != 1 or asked[0].startswith("-") and asked[0] not in commands:
        raise SystemExit("one of --check, --named, --unreached, --unsaid, or the file that is written [out/TRUST.md]")
    sys.exit(commands[asked[0]]() if asked[0] in commands else write(os.path.join(STARTED, asked[0])))
