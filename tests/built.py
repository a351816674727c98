"""Where the programs lie that are tested. tests/built.sh knows it, and whether they were built of the files that are
here. With PROGRAM=draft in the environment the drafts are meant."""

import functools
import os
import subprocess
import sys

ROOT = os.path.dirname(os.path.dirname(os.path.abspath(__file__)))


def asked(*words):
    """What tests/built.sh answers; where it has a complaint, which it prints, all ends."""
    script = os.path.join(ROOT, "tests/built.sh")
    ended = subprocess.run([script, *words], stdout=subprocess.PIPE, text=True, check=False)
    if ended.returncode != 0:
        sys.exit(ended.returncode)
    return ended.stdout.strip()


def ask(*names):
    """Ends with a sentence where one of these programs was not built of the files that are here."""
    asked("ask", *names)


def place(name):
    """Where a program lies, or would lie."""
    return os.path.join(ROOT, asked("path", name))


@functools.cache
def path(name):
    """Where a program lies that was built of the files that are here, else all ends with a sentence."""
    ask(name)
    return place(name)
