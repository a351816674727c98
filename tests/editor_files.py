#!/usr/bin/env python3
"""The syntax files below editors/, asked by the tools that read them: what each part of a small source text is taken for.
Vim, Neovim, Emacs, Pygments and pandoc are asked if they are here; which are missing is said. The last line counts."""

import importlib.util
import os
import re
import shutil
import subprocess
import sys
import tempfile

sys.dont_write_bytecode = True

ROOT = os.path.dirname(os.path.dirname(os.path.abspath(__file__)))

# a source text, and of parts of it the line, the first column, both from 0, and the kind; a part that is no name has "other"
TEXT = """        .entry QUIT             ; LOAD in a comment
        .data 0x1F, 1
QUIT:   LOAD.S r1, r0, -1
r5:     SUB.T r31, r1, LTU | SKIP LTU, 0, r5
LT:     LTU r3, r1, r2
        TAGGET r1, t7
        LIT r32, 5
        QUIT
"""
PARTS = (
    (0, 8, "directive"), (0, 32, "comment"), (0, 34, "comment"), (1, 14, "number"), (2, 0, "label"), (2, 8, "memory"),
    (2, 15, "register"), (2, 24, "number"), (3, 0, "label"), (3, 8, "arithmetic"), (3, 14, "register"), (3, 29, "control"),
    (3, 34, "condition"), (4, 0, "label"), (4, 8, "arithmetic"), (5, 8, "memory"), (5, 19, "register"), (6, 12, "other"),
    (6, 8, "wide"), (7, 8, "control"),
)

VIM_KINDS = {f"mta{kind.capitalize()}": kind for kind in
             ("directive", "comment", "number", "label", "memory", "register", "arithmetic", "control", "condition", "wide")}
FACES = {"font-lock-preprocessor-face": "directive", "font-lock-comment-face": "comment",
         "font-lock-comment-delimiter-face": "comment", "font-lock-function-name-face": "label",
         "font-lock-type-face": "memory", "font-lock-variable-name-face": "register",
         "font-lock-keyword-face": "operation", "font-lock-constant-face": "constant"}
TOKENS = {"Keyword.Namespace": "directive", "Comment.Single": "comment", "Number.Hex": "number", "Number.Integer": "number",
          "Name.Label": "label", "Keyword.Type": "memory", "Name.Variable": "register", "Keyword": "operation",
          "Keyword.Declaration": "wide", "Name.Constant": "condition"}
CLASSES = {"pp": "directive", "co": "comment", "dv": "number", "fu": "label", "dt": "memory", "va": "register",
           "kw": "operation", "cf": "control", "cn": "condition"}
# kinds that a tool shows alike
ALIKE = {"operation": ("arithmetic", "control", "wide"), "constant": ("number", "condition")}


def is_same(wanted, found):
    return wanted == found or wanted in ALIKE.get(found, ())


def run(*words, folder):
    ended = subprocess.run(words, cwd=folder, capture_output=True, text=True, timeout=60, check=False, stdin=subprocess.DEVNULL)
    return ended.stdout + ended.stderr


def by_vim(program, folder):
    """What Vim or Neovim takes each part for, and what its plugin sets."""
    out = os.path.join(folder, "out")
    asked = [f"call add(g:found, synIDattr(synID({line + 1}, {column + 1}, 1), 'name'))" for line, column, _ in PARTS]
    script = ["set nocompatible", f"set runtimepath^={ROOT}/editors/vim", "filetype plugin on", "syntax on", "edit text.asm",
              "let g:found = []", *asked, f"call writefile(g:found + [&commentstring, &makeprg, &filetype], '{out}')", "qall!"]
    with open(os.path.join(folder, "ask.vim"), "w", encoding="utf-8") as file:
        file.write("\n".join(script) + "\n")
    quiet = ("-es",) if program == "vim" else ("--headless",)
    said = run(program, "-u", "NONE", *quiet, "-S", "ask.vim", folder=folder)
    if not os.path.isfile(out):
        return [said], None
    with open(out, encoding="utf-8") as file:
        *names, comments, make, kind = file.read().splitlines()
    os.remove(out)
    return [VIM_KINDS.get(name, "other") for name in names], (comments, make, kind)


def by_emacs(folder):
    """What Emacs' mode takes each part for."""
    asked = "".join(f"(goto-char (point-min)) (forward-line {line}) (forward-char {column}) "
                    '(princ (format "face %s\\n" (get-text-property (point) (quote face))))' for line, column, _ in PARTS)
    script = f'(load "{ROOT}/editors/emacs/mta-mode.el" nil t) (find-file "text.asm") (mta-mode) (font-lock-ensure) {asked}'
    said = run("emacs", "--batch", "--eval", f"(progn {script})", folder=folder)
    return [FACES.get(face, "other") for face in re.findall("^face (.*)$", said, re.M)], None


def by_pygments(_folder):
    """What Pygments' lexer takes each part for."""
    spec = importlib.util.spec_from_file_location("mta_lexer", f"{ROOT}/editors/pygments/mta_lexer.py")
    lexer = importlib.util.module_from_spec(spec)
    spec.loader.exec_module(lexer)
    starts, at = {}, 0
    for line, length in enumerate(map(len, TEXT.splitlines(True))):
        starts[line], at = at, at + length
    kinds = []
    for at, token, value in lexer.MtaLexer().get_tokens_unprocessed(TEXT):
        kinds += [TOKENS.get(str(token).removeprefix("Token.").removeprefix("Literal."), "other")] * len(value)
    return [kinds[starts[line] + column] for line, column, _ in PARTS], None


def by_pandoc(folder):
    """What pandoc takes each part for, which reads Kate's file."""
    with open(os.path.join(folder, "text.md"), "w", encoding="utf-8") as file:
        file.write("~~~mta\n" + TEXT + "~~~\n")
    shutil.copy(f"{ROOT}/editors/kate/mta.xml", os.path.join(folder, "mta.xml"))
    page = run("pandoc", "--syntax-definition=mta.xml", "text.md", "-t", "html", folder=folder)
    kinds = []
    for line in re.search(r"<code[^>]*>(.*?)</code>", page, re.S)[1].splitlines():
        row, kind = [], "other"
        line = re.sub(r'^<span id="[^"]*"><a [^>]*></a>', "", line)
        for mark, close, text in re.findall(r'<span class="(\w+)">|(</span>)|([^<]+)', line):
            if mark:
                kind = CLASSES.get(mark, "other")
            elif close:
                kind = "other"
            else:
                row += [kind] * len(text.replace("&gt;", ">").replace("&lt;", "<").replace("&amp;", "&"))
        kinds.append(row)
    return [kinds[line][column] for line, column, _ in PARTS], None


def tools():
    """The tools that are here, each with what asks it; those that are not are named."""
    for program in ("vim", "nvim"):
        if shutil.which(program):
            yield program, lambda folder, program=program: by_vim(program, folder)
        else:
            print(f"no {program} here: Debian's is {'neovim' if program == 'nvim' else 'vim'}")
    for program, ask in (("emacs", by_emacs), ("pandoc", by_pandoc)):
        if shutil.which(program):
            yield program, ask
        else:
            print(f"no {program} here")
    if importlib.util.find_spec("pygments"):
        yield "pygments", by_pygments
    else:
        print("no Pygments here: Debian's is python3-pygments")


def main():
    passed = failed = 0
    for name, ask in tools():
        with tempfile.TemporaryDirectory() as folder:
            with open(os.path.join(folder, "text.asm"), "w", encoding="utf-8") as file:
                file.write(TEXT)
            found, plugin = ask(folder)
        wrong = [f"{name}: line {line + 1}, column {column + 1} is {kind}, and shown as {it}"
                 for (line, column, kind), it in zip(PARTS, found) if not is_same(kind, it)]
        if len(found) != len(PARTS):
            wrong.append(f"{name}: {found}")
        if plugin and plugin != ("; %s", "mta_lab check %:S", "mta"):
            wrong.append(f"{name}: its plugin sets {plugin}")
        print("\n".join(wrong) or f"{name}: all {len(PARTS)} parts")
        passed, failed = passed + (not wrong), failed + bool(wrong)
    print(f"{passed} passed, {failed} failed")
    return 1 if failed else 0


if __name__ == "__main__":
    sys.exit(main())
