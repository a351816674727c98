"""What the parts have in common: the program, files, and the class that they judge."""

import os
import subprocess
import sys

ROOT = os.path.dirname(os.path.dirname(os.path.dirname(os.path.abspath(__file__))))
sys.path.append(os.path.join(ROOT, "tests"))
import built  # noqa: E402

LAB = built.place("mta_lab")
GRADING = os.path.join(ROOT, "examples/grading")
# daemons are not on everybody's path
PATH = os.environ["PATH"] + ":/usr/sbin:/sbin"

RIGHT = " .entry 0\n LIT r1, 1\n STORE.N r1, r0, 0\n QUIT\n .data 7\n"
WRONG = " .entry 0\n LIT r1, 2\n STORE.N r1, r0, 0\n QUIT\n .data 7\n"
# comes to new states forever
COUNTING = " .entry more\n .data 0\nmore: ADD r1, r1, 1\n SKIP ALWAYS, 0, more\n"


def made(folder, name, text):
    """Writes a file, and the folders that its name has."""
    path = os.path.join(folder, name)
    os.makedirs(os.path.dirname(path), exist_ok=True)
    with open(path, "w", encoding="utf-8") as file:
        file.write(text)


def called(*words, folder, **names):
    """A program, with what it printed."""
    return subprocess.run(words, cwd=folder, env={**os.environ, "PATH": PATH, **names}, capture_output=True, text=True, check=False)
