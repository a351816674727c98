#!/usr/bin/env python3
"""python3 share/make [--check]: makes the completions of mta_lab for bash, zsh, fish and rlwrap, and the forms and
options in its man page, of the commands in crates/lab_command_line and the words in crates/lab_debugger. With --check nothing
is written, and each file that is not up to date is named, and each option that docs/LAB_REFERENCE.md does not name."""

import re
import sys

sys.dont_write_bytecode = True

import of_bash
import of_debug
import of_fish
import of_man
import of_zsh
from commands import ROOT, commands

COMPLETIONS = ROOT / "share/completions"
MAN_PAGE = ROOT / "share/man/man1/mta_lab.1"
REFERENCE = ROOT / "docs/LAB_REFERENCE.md"


def files():
    """Each file with its text."""
    table, shared = commands()
    return {COMPLETIONS / "mta_lab.bash": of_bash.completion(table, shared),
            COMPLETIONS / "_mta_lab": of_zsh.completion(table, shared),
            COMPLETIONS / "mta_lab.fish": of_fish.completion(table, shared),
            COMPLETIONS / "mta_lab.rlwrap": of_debug.completion(),
            MAN_PAGE: of_man.page(MAN_PAGE.read_text(encoding="utf-8"), table, shared)}


def unnamed():
    """The options that the reference does not name."""
    table, _ = commands()
    named = {*re.findall(r"--([a-z-]+)", REFERENCE.read_text(encoding="utf-8"))}
    return [f"{command.name} --{option.name}"
            for command in table for option in command.options if option.name not in named]


def main(words):
    made = files()
    old = [path for path in made if not path.is_file() or path.read_text(encoding="utf-8") != made[path]]
    if words == ["--check"]:
        for path in old:
            print(f"{path.relative_to(ROOT)} is not what share/make makes")
        for option in unnamed():
            print(f"{REFERENCE.relative_to(ROOT)} does not name {option}")
        return 1 if old or unnamed() else 0
    for path in old:
        path.write_text(made[path], encoding="utf-8")
    return 0


if __name__ == "__main__":
    sys.exit(main(sys.argv[1:]))
