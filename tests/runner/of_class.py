"""A class of submissions (tests/class): what grade says of each, by seeds and by every schedule, beside wanted.tsv. A
second judge works that table out. Parts that landed.tsv has as off are not asked for."""

import contextlib
import json
import os
import re
import shutil
import subprocess
import sys
import tempfile
import time
from xml.etree import ElementTree

import checks
import table
import tool
from of_lab import lab

sys.path += [os.path.join(table.ROOT, "tests/class"), os.path.join(table.ROOT, "tests/spaces")]

import verdicts  # noqa: E402

CLASS = os.path.join(table.ROOT, "tests/class")
TASKS = ("counter", "mailbox", "accounts", "barrier", "sum", "stack")
COLUMNS = ("task", "submission", "seeds", "least", "every", "case seeds", "case every", "why")
# how far each submission is looked at, and in how many seconds the seeds of one are tried
SEEDS, STEPS, STATES, PATIENCE = 400, 10_000, 5000, 0.5
BY_SEEDS = ("--seeds", str(SEEDS), "--steps", str(STEPS))
BY_EVERY = ("--explore", "--states", str(STATES))
# the seed or the schedule that shows a verdict, in a row of grade
BEFORE = r"(?:case \w+: )?(?:\d+\.\d+ waits .*?; )?(?:some schedules, .*, and )?"
SHOWN = re.compile(BEFORE + r"(?:seed (?P<seed>\d+)|schedule (?P<schedule>[\d ,]+))(?:: |; |$)")


def rows_of(name):
    """The rows of a table of the class."""
    return [row.fields for row in table.rows(os.path.join("../class", name))]


def is_on(part):
    """Whether the program has a part of grade."""
    return dict(row[:2] for row in rows_of("landed.tsv"))[part] == "on"


class Wanted:
    """What is wanted of a submission: a row of wanted.tsv."""

    def __init__(self, fields):
        self.of = dict(zip(COLUMNS, fields, strict=True))
        self.task, self.name = self.of["task"], self.of["submission"]
        self.is_rare = self.of["why"].startswith("rare")

    def path(self):
        return os.path.join(CLASS, self.task, "submissions", self.name)

    def verdict(self, column):
        """The verdict in a column, as far as the program comes today."""
        if self.name == "juergen.asm" and not is_on("comments in UTF-8"):
            return "source fault"
        wanted = self.of[column]
        if wanted == "not read" and not is_on("only regular files"):
            return "source fault"
        if wanted == "not decided" and is_on("both ways"):
            # the seeds then decide, but that none of them is wrong does not
            by_seeds = self.of[column.replace("every", "seeds")]
            return wanted if by_seeds == "right" else by_seeds
        return wanted


WANTED = [Wanted(fields) for fields in rows_of("wanted.tsv")]


def of_task(task):
    return [wanted for wanted in WANTED if wanted.task == task]


@contextlib.contextmanager
def handed_in(task):
    """A folder with the submissions of a task, those too that are no file of the repository."""
    with tempfile.TemporaryDirectory(prefix="mta-class-") as folder:
        shutil.copytree(os.path.join(CLASS, task), folder, dirs_exist_ok=True)
        given = os.path.join(folder, "submissions")
        if task == "counter":
            shutil.copy(os.path.join(given, "fadd.asm"), os.path.join(folder, "right.asm"))
            os.symlink("../right.asm", os.path.join(given, "link.asm"))
        if task == "mailbox":
            tool.write(os.path.join(given, "sync.image"), tool.asm(tool.read(os.path.join(given, "sync.asm"))))
        if task == "accounts":
            os.mkdir(os.path.join(given, "folder.asm"))
            shutil.copy(os.path.join(given, "only_looks.asm"), os.path.join(given, "only\tlooks.asm"))
        yield folder


def graded(task, *words):
    """What grade prints of the submissions of a task, in the order of wanted.tsv, by one expectation or by cases."""
    judged_by = () if "--cases" in words else ("--expect", "end.expect")
    names = [os.path.join("submissions", wanted.name.replace("\\t", "\t")) for wanted in of_task(task)]
    with handed_in(task) as folder:
        return lab("grade", *judged_by, *words, *names, folder=folder)


def lines_of(ended):
    """The submission, the verdict and the reason of each line behind the head."""
    return [tuple(line.split("\t")) for line in ended.out.decode().splitlines()[1:]]


def compared(column, *words):
    """Of each submission the verdict, and by one expectation the least seed that shows it, or how the schedule ends."""
    for task in TASKS:
        found = lines_of(graded(task, *words))
        names = [f"submissions/{wanted.name}" for wanted in of_task(task)]
        yield f"rows of {task}", names, [line[0] for line in found]
        for wanted, (_, verdict, why) in zip(of_task(task), found):
            yield f"{task}/{wanted.name}", wanted.verdict(column), verdict
            shown = SHOWN.match(why)
            if shown and shown["seed"] and not column.startswith("case"):
                yield f"{task}/{wanted.name}, least seed", wanted.of["least"], shown["seed"]
            elif shown and column == "every" and os.path.isfile(wanted.path()):
                yield f"{task}/{wanted.name}, schedule", verdict, ends_as(wanted, shown["schedule"])


def ends_as(wanted, schedule):
    """What the second judge says of a schedule."""
    submission = verdicts.Submission(verdicts.read(wanted.path()))
    turns = [map(int, turn.split()) for turn in schedule.split(", ")]
    steps = [(p, s) for p, s, count in turns for _ in range(count)]
    return verdicts.shown_by(submission.program, submission.required(verdicts.Task(wanted.task).text), steps)


@checks.others("class/by_seeds")
def by_seeds():
    """By one expectation and by seeds."""
    return compared("seeds", *BY_SEEDS)


@checks.others("class/by_every_schedule")
def by_every_schedule():
    """By one expectation and by every schedule."""
    return compared("every", *BY_EVERY)


@checks.others("class/thorough")
def thoroughly():
    """Seeds first, and then every schedule of what they leave open: by the bounds that grade has by itself nothing of the class
    stays undecided, by one expectation or by cases."""
    for words, by_seeds, by_every in ((BY_SEEDS, "seeds", "every"), (("--cases", "cases", *BY_SEEDS), "case seeds", "case every")):
        for task in TASKS:
            for wanted, (_, verdict, _) in zip(of_task(task), lines_of(graded(task, "--thorough", *words)), strict=True):
                is_open = wanted.of[by_seeds] in ("right", "not decided")
                yield f"{task}/{wanted.name}, {by_seeds}", wanted.verdict(by_every if is_open else by_seeds), verdict


@checks.others("class/rare")
def rare():
    """Rare mistakes are found by few seeds, each submission in half a second."""
    found = [wanted for wanted in WANTED if wanted.is_rare]
    yield "rare mistakes", 8, len(found)
    for wanted in found:
        yield wanted.name, lambda wanted=wanted: ((True, True), is_found(wanted))


def is_found(wanted):
    """Whether a survey finds it by the seed of the table, and whether in time, the best of three times."""
    took, expected = [], os.path.join(CLASS, wanted.task, "end.expect")
    for _ in range(3):
        begin = time.monotonic()
        ended = lab("survey", wanted.path(), "--seeds", str(SEEDS), "--expect", expected, "--json")
        took.append(time.monotonic() - begin)
    found = [json.loads(line) for line in ended.out.decode().splitlines()]
    seeds = [int(end["seed"]) for end in found if "end" in end and not end["expected"]]
    return seeds and min(seeds) == int(wanted.of["least"]), min(took) <= PATIENCE or took


@checks.others("class/second_judge")
def second_judge():
    """What the table wants is what the second judge says, of each source."""
    words = [sys.executable, CLASS, "--seeds", str(SEEDS), "--steps", str(STEPS), "--states", str(STATES)]
    ended = subprocess.run(words, capture_output=True, text=True, timeout=300, check=False)
    yield "differences", ("", 0), (re.sub(r"\d+ passed, 0 failed\n", "", ended.stdout) + ended.stderr, ended.returncode)


# What only some programs have.

@checks.others("class/cases")
def by_cases():
    """By the cases of a folder: cells that take the place of a submission's own."""
    if is_on("cases"):
        yield from compared("case seeds", "--cases", "cases", *BY_SEEDS)
        yield from compared("case every", "--cases", "cases", *BY_EVERY)


@checks.others("class/links")
def links():
    """A link is not read where links are refused."""
    if is_on("only regular files"):
        found = {line[0]: line[1] for line in lines_of(graded("counter", "--no-links", *BY_SEEDS))}
        yield "link.asm", "not read", found["submissions/link.asm"]
        yield "fadd.asm", "right", found["submissions/fadd.asm"]


@checks.others("class/all_and_jobs")
def all_and_jobs():
    """How many are judged side by side makes no difference; that all ends are counted makes none to a verdict."""
    if is_on("all and jobs"):
        for task in TASKS:
            for words in (BY_SEEDS, BY_EVERY):
                wanted = graded(task, *words)
                for jobs in ("1", "3"):
                    found = graded(task, *words, "--jobs", jobs)
                    yield f"{task}, {jobs} jobs", (wanted.status, wanted.out), (found.status, found.out)
                counted = graded(task, *words, "--all").out.decode().splitlines()
                rows = [tuple(line.split("\t")[:2]) for line in counted[1:] if not line.startswith("  ")]
                yield f"{task}, all", [line[:2] for line in lines_of(wanted)], rows


def of_tsv(text):
    return [tuple(line.split("\t")[:2]) for line in text.splitlines()]


def of_json(text):
    found = [json.loads(line) for line in text.splitlines()]
    return [(it["submission"].replace("\t", "\\t"), it["verdict"]) for it in found]


def of_junit(text):
    """A test case that has nothing within is right; else its child's type is the verdict."""
    found = [(suite.get("name"), suite.find("testcase")) for suite in ElementTree.fromstring(text).iter("testsuite")]
    return [(name, case[0].get("type") if len(case) else "right") for name, case in found]


def of_gradescope(text):
    """The verdict stands before the reason. Who is right has the whole score, who is not judged or not decided has none,
    and the others have 0."""
    found = json.loads(text)["tests"]
    verdicts_found = [test["output"].partition(":")[0] for test in found]
    for test, verdict in zip(found, verdicts_found):
        wanted = None if verdict in ("not judged", "not decided") else test.get("max_score", 1) if verdict == "right" else 0
        if test.get("score") != wanted:
            raise ValueError(test)
    return [(test["name"], verdict) for test, verdict in zip(found, verdicts_found)]


FORMATS = {"tsv": of_tsv, "json": of_json, "junit": of_junit, "gradescope": of_gradescope}


@checks.others("class/formats")
def formats():
    """The verdicts are the same in each format."""
    if is_on("formats"):
        for task in TASKS:
            for words in (("seeds", *BY_SEEDS), ("every", *BY_EVERY)):
                wanted = [(f"submissions/{it.name}", it.verdict(words[0])) for it in of_task(task)]
                for name, read in FORMATS.items():
                    found = read(graded(task, *words[1:], "--format", name).out.decode())
                    yield f"{task}, {name} by {words[0]}", wanted, found
