#!/usr/bin/env python3
"""python3 editors/make [--check]: makes the syntax files of Vim, VS Code, Emacs, Kate and Pygments of the assembler's table
of names. With --check nothing is written, and each file that is not up to date is named."""

import sys

sys.dont_write_bytecode = True

import of_emacs
import of_kate
import of_pygments
import of_textmate
import of_vim
from names import ROOT, Names

EDITORS = ROOT / "editors"


def files():
    """Each file with its text."""
    names = Names()
    return {EDITORS / "vim/syntax/mta.vim": of_vim.syntax(names),
            EDITORS / "vscode/syntaxes/mta.tmLanguage.json": of_textmate.syntax(names),
            EDITORS / "emacs/mta-mode.el": of_emacs.mode(names),
            EDITORS / "kate/mta.xml": of_kate.syntax(names),
            EDITORS / "pygments/mta_lexer.py": of_pygments.lexer(names)}


def main(words):
    made = files()
    old = [path for path in made if not path.is_file() or path.read_text(encoding="utf-8") != made[path]]
    for path in old:
        if words == ["--check"]:
            print(f"{path.relative_to(ROOT)} is not what editors/make makes")
        else:
            path.write_text(made[path], encoding="utf-8")
    return 1 if old and words == ["--check"] else 0


sys.exit(main(sys.argv[1:]))
