"""The recipes of docs/GRADING.md ("Where your course lives", "A cluster"), taken from the document as they stand, each in what
its system does with it: the files, the limits, the shell, the words that the system reads. What is wanted was worked out by
hand from LAB_REFERENCE.md ("Judging a class") and from what the systems document; none of the systems is here. GNU parallel is
asked if it is installed. tests/recipes has those that take a bare system, a cluster or a spreadsheet."""

import csv
import io
import json
import os
import re
import shutil
import subprocess
import sys
import tempfile

import checks
import table
import tool
from of_grades import COUNTING, RIGHT, lab, made

GRADING = os.path.join(table.ROOT, "docs/GRADING.md")
EXAMPLES = os.path.join(table.ROOT, "examples/grading")
# the address that the hidden case speaks of, and its value: no text for a student has one of them
HIDDEN = ("77001", "154002")
# what the student writes: right by the case `seen` alone, right by both, wrong by `seen`, no program, a lock that nobody fills
ANSWER = ' .entry go\n .data 3\n .data 0 ; "six" \\ sechs \u00fc\ngo: LIT r1, 6\n STORE.N r1, r0, 1\n QUIT\n'
DOUBLE = " .entry go\n .data 3\n .data 0\ngo: LOAD.N r1, r0, 0\n ADD r1, r1, r1\n STORE.N r1, r0, 1\n QUIT\n"
NEITHER = " .entry done\n .data 3\n .data 6\ndone: QUIT\n"
BROKEN = " .entry done\n .data 3\n .data 5\ndone: QUITE\n"
WAITS = " .entry go\n .data 3\n .data 0\n .data 0, 0\ngo: LOAD.S r1, r0, 2\n QUIT\n"
# of each the points of 5, and what its text begins with
STUDENTS = {
    "answer": (ANSWER, 2, "answer.asm: wrong, 2 of 5 points"),
    "double": (DOUBLE, 5, "answer.asm: right, 5 of 5 points"),
    "neither": (NEITHER, 0, "answer.asm: wrong, 0 of 5 points"),
    "broken": (BROKEN, 0, "answer.asm: source fault, 0 of 5 points"),
    "waits": (WAITS, 0, "answer.asm: deadlock, 0 of 5 points"),
}


def recipe(start, language):
    """The block of the document in this language that follows the line which begins so."""
    text = tool.read(GRADING).decode()
    after = text[text.index(f"\n{start}"):]
    return re.search(rf"\n```{language}\n(.*?)\n```\n", after, re.DOTALL)[1] + "\n"


def cases_in(folder, claim=""):
    """Makes the cases: one of 2 points, and a hidden one of 3."""
    made(folder, "cases/hidden.data", b" .data 77001\n .data 0\n")
    made(folder, "cases/hidden.expect", b"word 8 154002\npoints 3\nhidden\n")
    made(folder, "cases/seen.data", b" .data 3\n .data 0\n")
    made(folder, "cases/seen.expect", f"word 8 6\npoints 2\n{claim}".encode())


def one_case_in(folder):
    """Makes one case, of one point."""
    made(folder, "cases/seen.data", b" .data 3\n .data 0\n")
    made(folder, "cases/seen.expect", b"word 8 6\n")


def path_with(folder):
    """The folders of programs, and before them one that has the lab alone."""
    os.makedirs(os.path.join(folder, "bin"), exist_ok=True)
    if not os.path.lexists(os.path.join(folder, "bin/mta_lab")):
        os.symlink(tool.LAB, os.path.join(folder, "bin/mta_lab"))
    return os.path.join(folder, "bin") + ":" + os.environ["PATH"]


def shell(folder, script, *words, **names):
    """A script by bash in a folder, which knows these names alone."""
    known = {"PATH": path_with(folder), "HOME": folder, "LC_ALL": "C.UTF-8", **names}
    return subprocess.run(["bash", *words, script], cwd=folder, env=known, capture_output=True, timeout=tool.PATIENCE, check=False)


def leaks(text):
    """What of the hidden case stands in a text for a student."""
    return [value for value in HIDDEN if value in text]


# in place of the lab: it is killed when all that a student would get is written, but for the end of what it prints
KILLED = """#!/bin/bash
mkdir -p back
echo 'answer.asm: right, 5 of 5 points' >back/answer.txt
printf '{"tests":['
kill -KILL $$
"""


def killed_in(folder):
    """The path of a program that is called mta_lab and is killed."""
    path = os.path.join(folder, "bin/mta_lab")
    if os.path.lexists(path):  # (it is a link to the true one)
        os.remove(path)
    made(folder, "bin/mta_lab", KILLED.encode())
    os.chmod(path, 0o755)
    return path


# VPL: vpl_evaluate.sh makes vpl_execution, which runs after the files of the teacher are gone that are not to be kept. A line
# `Grade :=>>` is the grade, lines `Comment :=>>` are shown; the last grade counts.

def vpl(folder, source, name="answer.asm", program=tool.LAB):
    """The status, the grade, the comments and the other lines of a submission."""
    shutil.copy(program, os.path.join(folder, "mta_lab"))
    os.chmod(os.path.join(folder, "mta_lab"), 0o600)
    made(folder, name, source.encode())
    made(folder, "vpl_environment.sh", f"#!/bin/bash\nexport VPL_SUBFILE0={name!r}\n".encode())
    made(folder, "vpl_evaluate.sh", b"#!/bin/bash\n" + recipe("**VPL.**", "sh").encode())
    built = shell(folder, "vpl_evaluate.sh")
    for gone in ("vpl_environment.sh", "vpl_evaluate.sh"):
        os.remove(os.path.join(folder, gone))
    execution = os.path.join(folder, "vpl_execution")
    if built.returncode or not os.access(execution, os.X_OK):
        return built.returncode, None, built.stderr.decode()
    ended = subprocess.run([execution], cwd=folder, env={"PATH": os.environ["PATH"], "HOME": folder}, capture_output=True,
                           timeout=tool.PATIENCE, check=False)
    lines = ended.stdout.decode().splitlines()
    grades = [line.partition(":=>>")[2].strip() for line in lines if line.startswith("Grade :=>>")]
    comments = [line.partition(":=>>")[2].removeprefix(" ") for line in lines if line.startswith("Comment :=>>")]
    others = [line for line in lines if not line.startswith(("Grade :=>>", "Comment :=>>"))]
    return ended.returncode, grades[-1] if grades else None, "\n".join(comments), "\n".join(others)


README = os.path.join(table.ROOT, "README.md")
DEVCONTAINER = os.path.join(table.ROOT, "editors/devcontainer.json")


@checks.others("recipes/devcontainer")
def devcontainer():
    """The steps of editors/devcontainer.json are those of README.md for a container, with the package of any version."""
    text = tool.read(README).decode()
    run, install, copy = re.search(r"(?m)^(docker run .*)\n(apt-get .*)\n(cp -rn .*)$", text).groups()
    steps = json.loads(tool.read(DEVCONTAINER))
    platform, image = re.search(r"(--platform) (\S+).* (\S+)$", run).group(2, 3)
    yield "the image", ([f"--platform={platform}"], image), (steps["runArgs"], steps["image"])
    package = re.sub(r"_[0-9][^_]*_", "_*_", install)
    yield "the package", package, steps["onCreateCommand"].replace(" --no-install-recommends", "")
    yield "the copy", copy, steps["postCreateCommand"]


@checks.others("recipes/vpl")
def by_vpl():
    """The grade and the comments that VPL takes."""
    for who, (source, points, head) in STUDENTS.items():
        with tempfile.TemporaryDirectory(prefix="mta-case-") as folder:
            cases_in(folder)
            status, grade, comments, others = vpl(folder, source)
            yield who, (0, str(points), head, ""), (status, grade, comments.split("\n")[0], others)
            yield f"{who}: a hidden value", [], leaks(comments)
            yield f"{who}: a page that nobody gets", False, "page" in comments
    with tempfile.TemporaryDirectory(prefix="mta-case-") as folder:
        cases_in(folder, "some word 8 is 77\n")
        status, grade, comments, _ = vpl(folder, ANSWER)
        yield "not decided", (0, None, True), (status, grade, "case seen: not decided, no score of 2" in comments)
    for source, points in ((ANSWER, "1"), (NEITHER, "0")):
        with tempfile.TemporaryDirectory(prefix="mta-case-") as folder:
            one_case_in(folder)
            yield f"{points} of 1", (0, points), vpl(folder, source)[:2]
    with tempfile.TemporaryDirectory(prefix="mta-case-") as folder:
        cases_in(folder)
        status, grade, comments, _ = vpl(folder, ANSWER, "my answer.asm")
        yield "a blank in the name", (0, "2", "my answer.asm: wrong, 2 of 5 points"), (status, grade, comments.split("\n")[0])
    with tempfile.TemporaryDirectory(prefix="mta-case-") as folder:
        cases_in(folder)
        made(folder, "cases/seen.expect", b"wrod 8 6\n")
        yield "a teacher's error", (1, None, "", "cases/seen.expect:1:1\nno grade: status 1"), vpl(folder, ANSWER)
    with tempfile.TemporaryDirectory(prefix="mta-case-") as folder:
        cases_in(folder)
        yield "killed", (1, None, "", "no grade: status 137"), vpl(folder, ANSWER, program=killed_in(folder))


# CodeRunner: the template is filled in by Twig, whose e('py') writes \ and " with a \ before them, and is run by Jobe, with
# limits of memory, processes, bytes of a file and seconds. What it prints has to be one object, with `fraction` from 0 to 1.

LIMITS = "ulimit -v 400000; ulimit -f 20480; ulimit -t 10; exec \"$0\" answer.py"


def coderunner(folder, source):
    """The status of the template of a submission, and what it prints."""
    escaped = source.replace("\\", "\\\\").replace('"', '\\"')
    template = recipe("**CodeRunner.**", "python")
    filled = re.sub(r"\{\{ *STUDENT_ANSWER *\| *e\('py'\) *\}\}", lambda _: escaped, template)
    if filled == template:
        raise ValueError("the template has no answer")
    made(folder, "answer.py", filled.encode())
    packed = os.path.join(folder, "cases")
    shutil.make_archive(packed, "zip", folder, "cases")
    shutil.rmtree(packed)
    known = {"PATH": path_with(folder), "HOME": folder, "LANG": "C"}
    return subprocess.run(["bash", "-c", LIMITS, sys.executable], cwd=folder, env=known, capture_output=True,
                          timeout=tool.PATIENCE, check=False)


@checks.others("recipes/coderunner")
def by_coderunner():
    """The object that a template grader prints, and nothing else."""
    for who, (source, points, head) in STUDENTS.items():
        with tempfile.TemporaryDirectory(prefix="mta-case-") as folder:
            cases_in(folder)
            ended = coderunner(folder, source)
            printed = ended.stdout.decode()
            found = json.loads(printed)
            yield who, (0, points / 5, head), (ended.returncode, found["fraction"], found["got"].split("\n")[0])
            yield f"{who}: a hidden value", [], leaks(printed)
            yield f"{who}: a page that nobody gets", False, "page" in found["got"]
            yield f"{who}: what is handed in", source.encode(), tool.read(os.path.join(folder, "answer.asm"))
    for source, points in ((ANSWER, 1), (NEITHER, 0)):
        with tempfile.TemporaryDirectory(prefix="mta-case-") as folder:
            one_case_in(folder)
            ended = coderunner(folder, source)
            yield f"{points} of 1", (0, points), (ended.returncode, json.loads(ended.stdout or "{}").get("fraction"))
    with tempfile.TemporaryDirectory(prefix="mta-case-") as folder:
        cases_in(folder, "some word 8 is 77\n")
        ended = coderunner(folder, ANSWER)
        yield "not decided", (1, b"", True), (ended.returncode, ended.stdout, b"not decided, no score of 2" in ended.stderr)
    with tempfile.TemporaryDirectory(prefix="mta-case-") as folder:
        cases_in(folder)
        made(folder, "cases/seen.expect", b"wrod 8 6\n")
        ended = coderunner(folder, ANSWER)
        yield "a teacher's error", (1, b"", b"no mark: status 1, cases/seen.expect:1:1\n"), (
            ended.returncode, ended.stdout, ended.stderr)
    with tempfile.TemporaryDirectory(prefix="mta-case-") as folder:
        cases_in(folder)
        killed_in(folder)
        ended = coderunner(folder, ANSWER)
        yield "killed", (1, b"", b"no mark: status -9, mta_lab has failed\n"), (ended.returncode, ended.stdout, ended.stderr)


@checks.others("recipes/teachers_error")
def errors_of_hidden_cases():
    """An error in a file of a hidden case shows the student where it is, and no value of the case."""
    for file, text in (("hidden.expect", b"wrod 8 154002\npoints 3\nhidden\n"), ("hidden.data", b" .data 77001 154002\n")):
        for how in (vpl, coderunner):
            with tempfile.TemporaryDirectory(prefix="mta-case-") as folder:
                cases_in(folder)
                made(folder, f"cases/{file}", text)
                found = how(folder, ANSWER)
                shown = "\n".join(map(str, found)) if how is vpl else (found.stdout + found.stderr).decode()
                yield f"{how.__name__}, {file}: where", True, f"cases/{file}:1" in shown or shown
                yield f"{how.__name__}, {file}: values", [], leaks(shown)


# GitHub: `run` is a line for bash -e; a job fails if one of its steps does.

@checks.others("recipes/github")
def by_github():
    """The status of the step that grades."""
    step = re.search(r"- run: (mta_lab .*)\n", recipe("**GitHub.**", "yaml"))[1]
    wanted = {"double": 0, "answer": 3, "broken": 3, "waits": 4}
    for who, status in wanted.items():
        with tempfile.TemporaryDirectory(prefix="mta-case-") as folder:
            cases_in(folder)
            made(folder, "answer.asm", STUDENTS[who][0].encode())
            made(folder, "step.sh", step.encode())
            yield who, status, shell(folder, "step.sh", "-e").returncode
    with tempfile.TemporaryDirectory(prefix="mta-case-") as folder:
        cases_in(folder)
        made(folder, "step.sh", step.encode())
        yield "nothing is handed in", 3, shell(folder, "step.sh", "-e").returncode
        made(folder, "answer.asm", DOUBLE.encode())
        made(folder, "cases/seen.expect", b"wrod 8 6\n")
        yield "a teacher's error", 1, shell(folder, "step.sh", "-e").returncode


# Gradescope: run_autograder with its folders, and the results that it leaves.

def gradescope(folder, files, program=tool.LAB):
    """The status of run_autograder for these files of a student, and the results; None where there are none."""
    base = os.path.join(folder, "autograder")
    os.makedirs(os.path.join(base, "submission"), exist_ok=True)
    os.makedirs(os.path.join(base, "source"), exist_ok=True)
    shutil.copytree(os.path.join(folder, "cases"), os.path.join(base, "source/cases"), dirs_exist_ok=True)
    shutil.copy(program, os.path.join(base, "source/mta_lab"))
    os.chmod(os.path.join(base, "source/mta_lab"), 0o600)  # (as where it was zipped by a system without such bits)
    shutil.copy(os.path.join(EXAMPLES, "run_autograder"), base)
    for name, text in files.items():
        made(base, f"submission/{name}", text.encode())
    ended = shell(folder, os.path.join(base, "run_autograder"), AUTOGRADER=base, PATH=os.environ["PATH"])
    results = tool.read(os.path.join(base, "results/results.json"))
    return ended.returncode, results and json.loads(results)


@checks.others("recipes/gradescope")
def by_gradescope():
    """The results of a student: each case a test, and of the hidden one no value."""
    for who, (source, points, _) in STUDENTS.items():
        with tempfile.TemporaryDirectory(prefix="mta-case-") as folder:
            cases_in(folder)
            status, results = gradescope(folder, {"-my answer.asm": source})
            tests = results["tests"]
            yield f"{who}: status", 0, status
            yield f"{who}: score", (points, 5), (sum(it["score"] for it in tests), sum(it["max_score"] for it in tests))
            yield f"{who}: a hidden value", [], leaks(json.dumps([it for it in tests if it["visibility"] == "visible"]))
            yield f"{who}: any value", [], leaks(json.dumps(results))
    with tempfile.TemporaryDirectory(prefix="mta-case-") as folder:
        cases_in(folder, "some word 8 is 77\n")
        status, results = gradescope(folder, {"a.asm": DOUBLE})
        scores = {test["name"]: test.get("score") for test in results["tests"]}
        yield "not decided", (0, 3, {"hidden": 3, "seen": None}), (status, results.get("score"), scores)
    for files in ({}, {"a.asm": DOUBLE, "b.asm": DOUBLE}, {"a.txt": DOUBLE}):
        with tempfile.TemporaryDirectory(prefix="mta-case-") as folder:
            cases_in(folder)
            yield f"{list(files)}", (0, {"score": 0, "output": "hand in one file whose name ends in .asm"}), gradescope(folder, files)
    with tempfile.TemporaryDirectory(prefix="mta-case-") as folder:
        cases_in(folder)
        made(folder, "cases/seen.expect", b"wrod 8 6\n")
        yield "a teacher's error", (1, None), gradescope(folder, {"a.asm": DOUBLE})
    with tempfile.TemporaryDirectory(prefix="mta-case-") as folder:
        cases_in(folder)
        yield "killed", (137, None), gradescope(folder, {"a.asm": DOUBLE}, program=killed_in(folder))


# Moodle: the import of a grading worksheet looks for the columns Identifier, Grade and Last modified (grade), and for that of
# each kind of feedback, by their names. A student is the number after `Participant `; a row without one is passed over.

NEEDED = ("Identifier", "Grade", "Last modified (grade)")


def imported(worksheet):
    """The grade and the feedback of each number, as the import takes them."""
    head, *rows = csv.reader(io.StringIO(worksheet, newline=""))
    if any(name not in head for name in NEEDED) or any(len(row) != len(head) for row in rows):
        raise ValueError(head)
    fields = [dict(zip(head, row)) for row in rows]
    return {row["Identifier"].removeprefix("Participant "): (row["Grade"], row["Feedback comments"], row["Last modified (grade)"])
            for row in fields if re.fullmatch(r"Participant \d+", row["Identifier"])}


def taken_back(name):
    """The number of the student whom a feedback file of this name is for, and what it is called then: as the import takes the
    name apart, by its first four underscores."""
    parts = name.split("_", 4)
    return (parts[1], parts[4]) if len(parts) == 5 and parts[1].isdigit() and parts[2] == "assignsubmission" else None


@checks.others("recipes/moodle_feedback")
def back_by_moodle():
    """The texts and pages of Moodle's folders, in one folder, are each of one student by their names."""
    folders = {"Ann Lee_4711_assignsubmission_file_": "answer", "J\u00fcrgen O'Hara, Jr._0815_assignsubmission_file": "neither",
               "Participant 7_12_assignsubmission_file_": "answer"}
    with tempfile.TemporaryDirectory(prefix="mta-case-") as folder:
        cases_in(folder)
        for name, who in folders.items():
            made(folder, f"{name}/my lock.asm", STUDENTS[who][0].encode())
        lab("grade", "--cases", "cases", "--format", "moodle", "--feedback", "back", *(
            f"{name}/my lock.asm" for name in folders), folder=folder)
        # (by the case that is seen the answer is right, so it has no page)
        wanted = [("0815", "my_lock.html"), ("0815", "my_lock.txt"), ("12", "my_lock.txt"), ("4711", "my_lock.txt")]
        yield "taken back", wanted, sorted(map(taken_back, os.listdir(os.path.join(folder, "back"))), key=str)


@checks.others("recipes/moodle")
def by_moodle():
    """Folders as Moodle makes them, of names that students have: the grade of each number."""
    folders = {
        "Ann Lee_4711_assignsubmission_file_": ("answer", "2"),
        "=SUM(A1)_12_assignsubmission_file": ("double", "5"),
        "J\u00fcrgen \"J\" O'Hara, Jr._0815_assignsubmission_file": ("neither", "0"),
        "A_B_99_assignsubmission_onlinetext": ("broken", "0"),
        "Participant_7_assignsubmission_file_": ("waits", "0"),
    }
    with tempfile.TemporaryDirectory(prefix="mta-case-") as folder:
        cases_in(folder)
        for name, (who, _) in folders.items():
            made(folder, f"{name}/lock.asm", STUDENTS[who][0].encode())
        paths = sorted(f"{name}/lock.asm" for name in folders)
        printed = lab("grade", "--cases", "cases", "--format", "moodle", *paths, folder=folder).out.decode()
        numbers = {re.search(r"_(\d+)_assign", name)[1]: points for name, (_, points) in folders.items()}
        found = imported(printed)
        yield "grades", numbers, {number: grade for number, (grade, _, _) in found.items()}
        yield "no date of a grade", {"-"}, {date for _, _, date in found.values()}
        yield "hidden values", [], leaks(printed)
        yield "comments", "case hidden: wrong, 0 of 3 (a hidden case)\ncase seen: right, 2 of 2: 200 seeds", found["4711"][1]
        yield "no formula", [], re.findall(r'(?:^|,)"[=+@-](?!")[^"]*"', printed, re.MULTILINE)


# A cluster: a task of the array without Slurm, and GNU parallel with one host, this one.

def task(folder, number, count=2):
    """The status of a task of examples/grading/array.slurm, as Slurm sees it."""
    shutil.copy(os.path.join(EXAMPLES, "array.slurm"), folder)
    known = {"SLURM_ARRAY_TASK_ID": str(number), "SLURM_ARRAY_TASK_COUNT": str(count)}
    return shell(folder, "array.slurm", **known).returncode


@checks.others("recipes/array")
def by_array():
    """A task has failed exactly if not all of its part was judged: an error of the teacher's, a part that there is not, a program
    that is killed."""
    with tempfile.TemporaryDirectory(prefix="mta-case-") as folder:
        made(folder, "wanted.expect", b"word 0 1\n")
        for number, text in enumerate((RIGHT, b"QUITE\n", RIGHT)):
            made(folder, f"submissions/s{number}.asm", b"; %d\n" % number + text)
        yield "tasks", (0, 0), (task(folder, 1), task(folder, 2))
        yield "a part that there is not", 1, task(folder, 0)
        made(folder, "wanted.expect", b"wrod 0 1\n")
        yield "a teacher's error", 1, task(folder, 1)
        killed_in(folder)
        yield "killed", 137, task(folder, 1)


# in place of the lab: of the third of eight parts two results are kept, and then it is killed, the first time
KILLED_ONCE = """#!/bin/bash
if [[ " $* " != *" --part 3/8 "* ]] || ! mkdir once 2>errors; then exec '{lab}' "$@"; fi
'{lab}' "$@" &
while kill -0 $! 2>>errors && [ "$(cat part.3.jsonl 2>>errors | wc -l)" -lt 3 ]; do sleep 0.02; done
kill -KILL $!
wait $!
"""


@checks.others("recipes/parallel")
def by_parallel():
    """The parts make the table of one call. What a part does not have that was killed is named, and it goes on."""
    if not shutil.which("parallel"):
        checks.passed_over("recipes/parallel", "parallel")
        return
    with tempfile.TemporaryDirectory(prefix="mta-case-") as folder:
        made(folder, "wanted.expect", b"word 0 1\n")
        made(folder, "hosts", b"4/:\n")
        made(folder, "bin/mta_lab", KILLED_ONCE.format(lab=tool.LAB).encode())
        os.chmod(os.path.join(folder, "bin/mta_lab"), 0o755)
        made(folder, "parallel.sh", recipe("With GNU parallel", "sh").encode())
        names = [f"submissions/s{number:02}.asm" for number in range(19)]
        for number, name in enumerate(names):
            made(folder, name, b"; %d\n" % number + (RIGHT if number % 3 else b"QUITE\n"))
        wanted = lab("grade", "--explore", "--jobs", "1", "--expect", "wanted.expect", *names, folder=folder)
        # (the last submission of the third part comes to new states for as long as it takes)
        last = names[2::8][2]
        text = tool.read(os.path.join(folder, last))
        made(folder, last, COUNTING)
        ended = shell(folder, "parallel.sh")
        yield "killed: the status", "status 1", ended.stdout.decode().splitlines()[-1]
        yield "killed: what is missing", f"mta_lab: {last}: no file of results has it", ended.stderr.decode().splitlines()[-1]
        rows = [row for row in wanted.out.splitlines(keepends=True) if not row.startswith(last.encode())]
        yield "killed: the table", b"".join(rows), tool.read(os.path.join(folder, "grades.tsv"))
        made(folder, last, text)
        ended = shell(folder, "parallel.sh")
        yield "the table", wanted.out, tool.read(os.path.join(folder, "grades.tsv"))
        yield "the status", f"status {wanted.status}", ended.stdout.decode().splitlines()[-1]
