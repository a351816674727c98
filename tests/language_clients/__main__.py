#!/usr/bin/env python3
"""mta_lab lsp, asked by the clients of editors that are here: Neovim's own, Emacs' eglot, and the extension for VS Code over
a stand-in. What they show is compared with what check, fmt and the rules of the language say; which are missing is said. The
last line counts. With PROGRAM=draft in the environment the draft is asked."""

import json
import os
import shutil
import subprocess
import sys
import tempfile

sys.dont_write_bytecode = True

HERE = os.path.dirname(os.path.abspath(__file__))
ROOT = os.path.dirname(os.path.dirname(HERE))
sys.path.append(os.path.join(ROOT, "tests"))
import built

# a source text with letters beyond ASCII before and behind a place that is told, an error, and labels with uses
TEXT = """        .slim 1
        .entry start
        .data 0                 ; the count of Z\u00e4hler \U0001f600 \u00e4
start:  LIT r1, 1
again:  ADD r1, r1, 1
   SUB.T r0, r1, 10
        SKIP NE, 0, again
        STORE.N r1, r0, 0
 QUITE
"""
CONDITIONS = ["ALWAYS", "EQ", "NE", "LT", "GE", "LE", "GT", "LTU", "GEU", "LEU", "GTU", "NEG", "POS", "OV", "NOV"]
# (the comment that is no ASCII begins to be none behind `; the count of Z`, and the error is in column 1 of line 8)
WARNING, ERROR = (2, 48), (8, 1)
REFUSED = "the text has errors: mend them first"
# what is offered for the error
FIXES = ["write QUIT"]
LAB = os.path.join(ROOT, built.path("mta_lab"))


def laid_out():
    """What fmt makes of the text when it is mended and its label renamed."""
    text = TEXT.replace("QUITE", "QUIT").replace("again", "once")
    ended = subprocess.run([LAB, "fmt", "-"], input=text, capture_output=True, text=True, check=True)
    return ended.stdout


def explained(word):
    """The first line of what explain says of a word."""
    ended = subprocess.run([LAB, "explain", word], capture_output=True, text=True, check=True)
    return ended.stdout.splitlines()[0]


def answers(lines):
    """The answers of a client by their names."""
    found = {}
    for line in lines:
        name, tab, value = line.partition("\t")
        if tab:
            found[name] = json.loads(value)
    return found


def run(words, folder, **more):
    """What a client prints; where it fails, its complaint is shown."""
    settings = {**os.environ, "LAB": LAB, "FILE": os.path.join(folder, "text.mta"), "OUT": os.path.join(folder, "out"),
                "MODE": os.path.join(ROOT, "editors/emacs/mta-mode.el"), "HOME": folder, "XDG_CONFIG_HOME": folder, **more}
    ended = subprocess.run(words, cwd=folder, env=settings, capture_output=True, text=True, timeout=120, check=False,
                           stdin=subprocess.DEVNULL)
    return ended.stdout if ended.returncode == 0 else ended.stdout + "\n" + ended.stderr


def by_neovim(folder):
    # (the script ends Neovim, but where it fails)
    complaint = run(["nvim", "--clean", "--headless", "-n", "-c", "set fileencoding=utf-8", "text.mta", "-S",
                     os.path.join(HERE, "of_neovim.lua"), "-c", "cquit"], folder)
    path = os.path.join(folder, "out")
    found = answers(open(path, encoding="utf-8")) if os.path.exists(path) else {}
    # (Neovim counts the columns of what it shows in bytes; one of the letters before the first place takes a byte more)
    wanted = {"first": [[*WARNING, 2, "106"], [*ERROR, 1, "E2"]], "hover": explained("LIT"), "completed": CONDITIONS,
              "definition": {"line": 4, "character": 0}, "references": 2, "symbols": ["start", "again"],
              "refused": REFUSED, "fix": FIXES, "mended": " QUIT", "then": "106", "renamed": 2,
              "formatted": laid_out().splitlines(), "stopped": True}
    return wanted, found or complaint


def by_emacs(folder):
    said = run(["emacs", "--batch", "-l", os.path.join(HERE, "of_emacs.el")], folder)
    found = answers(said.splitlines())
    wanted = {"first": [[*WARNING, "eglot-warning"], [*ERROR, "eglot-error"]], "hover": explained("LIT"), "definition": [4],
              "references": 2, "completed": ["NE", "NEG", "NOV"], "fix": FIXES, "mended": " QUIT",
              "then": [[*WARNING, "eglot-warning"]], "renamed": 2, "formatted": laid_out().split("\n"), "stopped": True,
              "refused": True}
    if isinstance(found.get("refused"), str):
        found["refused"] = REFUSED in found["refused"]
    return wanted, found if len(found) == len(wanted) else said


def by_vscode(folder):
    path = os.path.join(folder, "text.mta")
    script = os.path.join(HERE, "of_vscode.js")
    said = run(["node", script, LAB, path], folder)
    absent = json.loads(run(["node", script, os.path.join(folder, "absent"), path], folder))
    wanted = {"first": [[*WARNING, 1, "106"], [*ERROR, 0, "E2"]], "hover": explained("LIT"), "nothing": None,
              "completed": CONDITIONS, "definition": {"line": 4, "character": 0}, "references": 2,
              "symbols": ["start", "again"], "refused": REFUSED, "fix": [*FIXES, "quickfix", ["E2"]], "mended": ["106"],
              "then": ["106"], "renamed": 2, "formatted": 2,
              "sent": ["'LAB' explore '/text.mta'", "'LAB' page '/text.mta' --out '/text'.html"],
              "tasks": [[True, ["check", "${file}"], "$mta_lab"]], "mine": ["mine", [".vscode/tasks.json"] * 2],
              "warnings": ["open a folder first: its tasks are in .vscode/tasks.json"],
              "absent": (1, ["mta.check", "mta.survey", "mta.explore", "mta.page", "mta.play", "mta.tasks"])}
    try:
        found = {**json.loads(said), "absent": (len(absent["warnings"]), absent["commands"])}
    except ValueError:
        found = said
    return wanted, found


CLIENTS = (("nvim", "neovim", by_neovim), ("emacs", "emacs-nox with elpa-eglot", by_emacs), ("node", "nodejs", by_vscode))


def main():
    passed = failed = 0
    for program, package, ask in CLIENTS:
        if not shutil.which(program):
            print(f"no {program} here: Debian's is {package}")
            continue
        with tempfile.TemporaryDirectory() as folder:
            with open(os.path.join(folder, "text.mta"), "w", encoding="utf-8") as file:
                file.write(TEXT)
            wanted, found = ask(folder)
        if not isinstance(found, dict):
            wrong = [f"{program}: {found}"]
        else:
            wrong = [f"{program}: {name} is {found.get(name)}, and not {value}"
                     for name, value in wanted.items() if found.get(name) != value]
        print("\n".join(wrong) or f"{program}: all {len(wanted)} answers of mta_lab lsp")
        passed, failed = passed + (not wrong), failed + bool(wrong)
    print(f"{passed} passed, {failed} failed")
    return 1 if failed else 0


if __name__ == "__main__":
    sys.exit(main())
