"""run_autograder, as Gradescope runs it, in a root that has a bare system: that of the folder DEBIAN of the environment, as
`debootstrap --variant=minbase` makes it; else bash, mkdir, mv and the libraries of these programs from this system, and nothing
more. Changing the root takes root's rights."""

import json
import os
import re
import shutil
import subprocess

import part

NEEDS = ("chroot", "bash", "ldd")
# the only programs of the system that the recipe may call
CALLED = ("bash", "mkdir", "mv")
ANSWER = " .entry go\n .data 3\n .data 0\ngo: LIT r1, 6\n STORE.N r1, r0, 1\n QUIT\n"


def bare_root(folder):
    """A root with the programs that are called, and the libraries that they name."""
    root = os.path.join(folder, "root")
    for name in CALLED:
        path = shutil.which(name)
        copied(root, path, f"/bin/{name}")
        for library in re.findall(r"(/\S+)", subprocess.run(["ldd", path], capture_output=True, text=True, check=True).stdout):
            copied(root, library, library)
    for library in re.findall(r"(/\S+)", subprocess.run(["ldd", part.LAB], capture_output=True, text=True, check=True).stdout):
        copied(root, library, library)
    return root


def copied(root, path, name):
    """Copies a file into a root, under this name there."""
    target = root + name
    if not os.path.exists(target):
        os.makedirs(os.path.dirname(target), exist_ok=True)
        shutil.copy(os.path.realpath(path), target)


def graded(root, text, case):
    """The status of run_autograder for a submission, and the results; None where it leaves none."""
    base = os.path.join(root, "autograder")
    shutil.rmtree(base, ignore_errors=True)
    part.made(base, "submission/my answer.asm", text)
    part.made(base, "source/cases/seen.data", " .data 3\n .data 0\n")
    part.made(base, "source/cases/seen.expect", case)
    part.made(base, "source/cases/unseen.data", " .data 77001\n .data 0\n")
    part.made(base, "source/cases/unseen.expect", "word 8 154002\npoints 3\nhidden\n")
    shutil.copy(part.LAB, os.path.join(base, "source/mta_lab"))
    shutil.copy(os.path.join(part.GRADING, "run_autograder"), base)
    words = [shutil.which("chroot", path=part.PATH), root, "/bin/bash", "/autograder/run_autograder"]
    ended = subprocess.run(words, env={"PATH": "/usr/bin:/bin"}, capture_output=True, text=True, check=False)
    results = os.path.join(base, "results/results.json")
    if not os.path.exists(results):
        return ended.returncode, None
    with open(results, encoding="utf-8") as file:
        return ended.returncode, json.load(file)


def checks(folder):
    """The scores of a submission that is right by one case of two, of one that is no program, and of a teacher's error."""
    root = os.environ.get("DEBIAN") or bare_root(folder)
    status, results = graded(root, ANSWER, "word 8 6\npoints 2\n")
    yield "status", 0, status
    yield "tests", [("seen", 2, 2, "visible", "right: 200 seeds"), ("unseen", 0, 3, "hidden", "wrong")], [
        (it["name"], it["score"], it["max_score"], it["visibility"], it["output"]) for it in (results or {"tests": []})["tests"]]
    status, results = graded(root, "QUITE\n", "word 8 6\npoints 2\n")
    yield "no program", (0, [(0, 5)]), (status, [(it["score"], it["max_score"]) for it in (results or {"tests": []})["tests"]])
    yield "a teacher's error", (1, None), graded(root, ANSWER, "wrod 8 6\n")
    shutil.rmtree(os.path.join(root, "autograder"))
