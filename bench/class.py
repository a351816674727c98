#!/usr/bin/env python3
"""How long mta_lab grade takes over classes, and how much memory: 3,000 submissions of each task of tests/class, 5 % of them
endless, at 200 seeds; when the first row is there; the same call again when all results but one are kept; and 300 submissions,
the class of the tests again and again, by every schedule. No two texts are the same, so each is judged. Each number stands
beside its goal, which is of the built program on four idle cores. The status is 1 if a table is not as it has to be.

  class.py [--count N] [--every N] [--task TASK ..] [PROGRAM]

PROGRAM is the lab that was built here, by default. With PROGRAM=draft in the environment it is the draft."""

import sys

sys.dont_write_bytecode = True

import argparse
import os
import re
import subprocess
import tempfile
import time

ROOT = os.path.dirname(os.path.dirname(os.path.abspath(__file__)))
sys.path.append(os.path.join(ROOT, "tests"))
import built

CLASS = os.path.join(ROOT, "tests/class")
TASKS = ("counter", "mailbox", "accounts", "barrier", "sum", "stack")
CORES = 4
# the goals: seconds and megabytes at 200 seeds, seconds of a call that has one left to judge, seconds until the first row,
# seconds by every schedule, and how many of the class of the tests may stay undecided
SECONDS, MEGABYTES, RESUMED, FIRST, EVERY, UNDECIDED = 10, 50, 0.5, 0.2, 60, 3
# how many megabytes searches may hold in all if nothing is asked for; by how much they may exceed what they may hold, and the
# megabytes of the program itself (LAB_REFERENCE.md, "What a search takes")
USUAL, MORE, BESIDE = 2000, 1.2, 12


class Found:
    """What was measured: which goals were missed, and what was not as it has to be."""

    def __init__(self):
        self.missed, self.wrong = 0, 0

    def goal(self, what, got, most, unit):
        """Prints a number beside its goal."""
        is_missed = got > most
        self.missed += is_missed
        print(f"{what:<62}{got:9.2f} {unit:<2} of {most}{'   MISSED' if is_missed else ''}", flush=True)

    def check(self, what, holds):
        """Notes what has to hold whatever is measured."""
        if not holds:
            self.wrong += 1
            print(f"not so: {what}", flush=True)


class Call:
    """A call of grade: its seconds, the megabytes that it held at most, which begin with those of this process, when the first
    row was there, what it printed, and what it wrote to standard error."""

    def __init__(self, lab, folder, *words):
        with tempfile.TemporaryFile() as errors:
            begin = time.monotonic()
            with subprocess.Popen([lab, "grade", *words], cwd=folder, stdout=subprocess.PIPE, stderr=errors) as process:
                self.out = process.stdout.readline() + process.stdout.readline()
                self.first = time.monotonic() - begin
                self.out += process.stdout.read()
                _, status, usage = os.wait4(process.pid, 0)
                self.seconds = time.monotonic() - begin
                process.returncode = os.waitstatus_to_exitcode(status)
            self.megabytes = usage.ru_maxrss * 1024 / 1e6
            errors.seek(0)
            self.err = errors.read()

    def verdicts(self):
        """The verdict of each row."""
        return [line.split(b"\t")[1] for line in self.out.splitlines()[1:]]


def write(path, text):
    os.makedirs(os.path.dirname(path), exist_ok=True)
    with open(path, "w", encoding="utf-8") as file:
        file.write(text)


def read(path):
    with open(path, encoding="utf-8") as file:
        return file.read()


def rows():
    """The task, the name and the verdict by seeds of each row of the class's table."""
    for line in read(os.path.join(CLASS, "wanted.tsv")).splitlines():
        if line and not line.startswith("#"):
            yield line.split("\t")[:3]


def texts_of(task, *verdicts):
    """The sources of a task that are files, of these verdicts by seeds; of all, if none is named."""
    found = []
    for other, name, verdict in rows():
        path = os.path.join(CLASS, task, "submissions", name)
        if other == task and os.path.isfile(path) and (not verdicts or verdict in verdicts):
            found.append(read(path))
    return found


def endless(text, number):
    """The same program, whose streams go on forever in place of QUIT: each second such program comes to ever new states."""
    last = "ADD r31, r31, 1\n        SKIP ALWAYS, 0, -2" if number % 2 else "SKIP ALWAYS, 0, -1"
    return re.sub(r"\bQUIT\b(?=[^;\n]*(;|$))", last, text, flags=re.MULTILINE)


def class_in(folder, task, count):
    """Makes a class of so many submissions, each twentieth of them endless, and gives their names in order."""
    right = texts_of(task, "right")
    ends = texts_of(task, *{verdict for _, _, verdict in rows()} - {"ran out of steps"})
    names = []
    for number in range(count):
        text = endless(right[number // 20 % len(right)], number // 20) if number % 20 == 7 else ends[number % len(ends)]
        names.append(f"s/{number * 7919 % 1_000_003:07}.asm")
        write(os.path.join(folder, names[-1]), f"{text.rstrip()}\n; {number}\n")
    return sorted(names)


def at_seeds(found, lab, task, count):
    """A class of so many at 200 seeds, and the rest of it when all results but one are kept."""
    with tempfile.TemporaryDirectory(prefix="mta-bench-") as folder:
        names = class_in(folder, task, count)
        words = ["--expect", os.path.join(CLASS, task, "end.expect")]
        once = Call(lab, folder, *words, *names)
        verdicts = once.verdicts()
        found.check(f"{task}: a row each, and no message: {once.err[:200]}", len(verdicts) == count and not once.err)
        share = 100 * verdicts.count(b"ran out of steps") / count
        found.check(f"{task}: 5 % are endless, not {share:.1f}", abs(share - 5) < 0.2)
        found.goal(f"{task}: {count} submissions at 200 seeds", once.seconds, SECONDS, "s")
        found.goal(f"{task}:   memory", once.megabytes, MEGABYTES, "MB")
        found.goal(f"{task}:   the first row", once.first, FIRST, "s")
        kept = os.path.join(folder, "kept.jsonl")
        words += ["--results", kept]
        keeping = Call(lab, folder, *words, *names)
        found.check(f"{task}: the same table with --results: {keeping.err[:200]}", keeping.out == once.out)
        found.goal(f"{task}: the same, with --results", keeping.seconds, SECONDS, "s")
        found.goal(f"{task}:   memory", keeping.megabytes, MEGABYTES, "MB")
        lines = read(kept).splitlines(keepends=True)
        found.check(f"{task}: a line each, not {len(lines) - 1}", len(lines) == count + 1)
        write(kept, "".join(lines[:-1]))
        again = Call(lab, folder, *words, *names)
        found.check(f"{task}: the same table when it goes on: {again.err[:200]}", again.out == once.out)
        found.check(f"{task}: one result more", len(read(kept).splitlines()) == count + 1)
        found.goal(f"{task}: resumed after {count - 1}", again.seconds, RESUMED, "s")
        found.goal(f"{task}:   memory", again.megabytes, MEGABYTES, "MB")
        found.goal(f"{task}:   the first row", again.first, FIRST, "s")


def by_every(found, lab, tasks, count):
    """So many submissions by every schedule: those of the class of the tests, again and again with another comment."""
    for words, memory in ((("--explore",), USUAL), (("--explore", "--memory", "1000"), 1000), (("--thorough",), USUAL)):
        seconds = most = undecided = judged = 0
        for task in tasks:
            with tempfile.TemporaryDirectory(prefix="mta-bench-") as folder:
                texts, names = texts_of(task), []
                for number in range(-(-count // len(tasks))):
                    names.append(f"s/{number:05}.asm")
                    write(os.path.join(folder, names[-1]), f"{texts[number % len(texts)].rstrip()}\n; {number}\n")
                call = Call(lab, folder, *words, "--expect", os.path.join(CLASS, task, "end.expect"), *names)
                verdicts = call.verdicts()
                found.check(f"{task}: a row each by {words}: {call.err[:200]}", len(verdicts) == len(names))
                undecided += verdicts[:len(texts)].count(b"not decided")
                seconds, most, judged = seconds + call.seconds, max(most, call.megabytes), judged + len(names)
        found.goal(f"{judged} submissions by {' '.join(words)}", seconds, EVERY, "s")
        found.goal("  memory of the largest call", most, memory * MORE + BESIDE, "MB")
        found.goal("  of the class of the tests not decided", undecided, UNDECIDED, "")


def main():
    asked = argparse.ArgumentParser(description=__doc__.partition("\n\n")[0])
    asked.add_argument("--count", type=int, default=3000, help="how many at 200 seeds (3000)")
    asked.add_argument("--every", type=int, default=300, help="how many by every schedule (300)")
    asked.add_argument("--task", action="append", choices=TASKS, help="which tasks (all)")
    asked.add_argument("program", nargs="?", metavar="PROGRAM")
    asked = asked.parse_args()
    lab = os.path.abspath(asked.program or built.place("mta_lab"))
    cores = sorted(os.sched_getaffinity(0))[:CORES]
    os.sched_setaffinity(0, cores)
    print(f"grade, on {len(cores)} cores, with a load of {os.getloadavg()[0]:.1f}")
    tasks, found = asked.task or TASKS, Found()
    for task in tasks:
        at_seeds(found, lab, task, asked.count)
    by_every(found, lab, tasks, asked.every)
    print(f"goals that were missed: {found.missed}")
    return 1 if found.wrong else 0


if __name__ == "__main__":
    sys.exit(main())
