"""Grades: cases, formats, submissions side by side, and submissions that are no regular files."""

import csv
import io
import json
import os
import re
import string
import subprocess
import tempfile
import xml.etree.ElementTree

import checks
import tool
from table import unescaped

RIGHT = b" .entry 0\n QUIT\n .data 1\n"
WRONG = b" .entry 0\n QUIT\n .data 2\n"
# the digits of a column of a graph
DIGITS = string.digits + string.ascii_uppercase + string.ascii_lowercase + "-_"
RACING = b"""        .slim   1
        .entry  go
        .entry  go
        .data   0
go:     LOAD.N  r2, r0, 0
        ADD     r2, r2, 1
        STORE.N r2, r0, 0
        QUIT
"""
# four streams, each in any of 20 places: 160,000 states, of which the search for ends needs few
WIDE = b" .slim 1\n" + b" .entry 0\n" * 4 + b" LIT r1, 1\n" * 18 + b" QUIT\n .data 0\n"

# the same, each in any of 8: 4,096 states, of which a megabyte has some 1,300; the search for ends needs less
NEAR = b" .slim 1\n" + b" .entry 0\n" * 4 + b" LIT r1, 1\n" * 6 + b" QUIT\n .data 0\n"

# a program that comes to new states forever
COUNTING = b".entry more\n.data 0\nmore: ADD r1, r1, 1\nSKIP ALWAYS, 0, more\n"


def lab(*words, folder):
    """Calls the lab."""
    return tool.call(*words, folder=folder, program=tool.LAB)


def made(folder, name, text):
    """Writes a file, and the folders that its name has."""
    path = os.path.join(folder, name)
    os.makedirs(os.path.dirname(path), exist_ok=True)
    tool.write(path, text)


@checks.each("grade/commands.tsv")
def graded(fields):
    """A command line in a folder with some files: its status, and what it prints."""
    line, files, status, out, err = fields
    with tempfile.TemporaryDirectory(prefix="mta-case-") as folder:
        for file in filter(None, files.split("|")):
            name, _, text = file.partition("=")
            made(folder, name, unescaped(text))
        ended = lab(*line.split(), folder=folder)
    return (int(status), unescaped(out), unescaped(err)), (ended.status, ended.out, ended.err)


@checks.others("grade/unusual")
def unusual():
    """Submissions that are no regular files, or have unusual names: each has its own row, whatever the format."""
    with tempfile.TemporaryDirectory(prefix="mta-case-") as folder:
        made(folder, "w.expect", b"word 0 1\n")
        made(folder, "a\tright\t9\nb.asm", RIGHT)
        made(folder, "-.asm", RIGHT)
        made(folder, "empty.asm", b"")
        os.mkdir(os.path.join(folder, "folder.asm"))
        os.mkfifo(os.path.join(folder, "fifo.asm"))
        os.symlink("-.asm", os.path.join(folder, "link.asm"))
        os.symlink("nowhere", os.path.join(folder, "loose.asm"))
        names = ["a\tright\t9\nb.asm", "./-.asm", "empty.asm", "folder.asm", "fifo.asm", "link.asm", "loose.asm"]
        for words, links in (((), "right"), (("--no-links",), "not read")):
            wanted = ["right", "right", "source fault", "not read", "not read", links, "not read"]
            call = ("grade", *words, "--expect", "w.expect", "--seeds", "2")
            for jobs in ("1", "3"):
                _, *rows = lab(*call, "--jobs", jobs, *names, folder=folder).out.decode().splitlines()
                yield f"text {words} {jobs}", (wanted, [3] * 7), (
                    [row.split("\t")[1] for row in rows], [row.count("\t") + 1 for row in rows])
            rows = lab(*call, "--format", "tsv", *names, folder=folder).out.decode().splitlines()
            yield f"tsv {words}", (wanted, [9] * 7), (
                [row.split("\t")[1] for row in rows], [row.count("\t") + 1 for row in rows])
            objects = [json.loads(row) for row in lab(*call, "--json", *names, folder=folder).out.splitlines()]
            yield f"json {words}", list(zip(names, wanted)), [(one["submission"], one["verdict"]) for one in objects]
            suites = xml.etree.ElementTree.fromstring(lab(*call, "--format", "junit", *names, folder=folder).out)
            cases = [suite.find("testcase") for suite in suites]
            yield f"junit {words}", wanted, ["right" if not len(case) else case[0].get("type") for case in cases]
            results = json.loads(lab(*call, "--format", "gradescope", *names, folder=folder).out)
            yield f"gradescope {words}", [int(word == "right") for word in wanted], [
                test["score"] for test in results["tests"]]


# cells, and what is expected with them: values that stand in no text but where they are shown on purpose
UNUSUAL = {"open": (901234501, 1802469002), "shut": (908765437, 1817530874)}
COPIES = b" .entry 0\n LOAD.N r1, r0, 0\n ADD r1, r1, 0\n STORE.N r1, r0, 1\n QUIT\n .data 1\n .data 2\n"


def written_below(folder):
    """All texts of the files below a folder."""
    texts = []
    for place, _, files in os.walk(folder):
        texts += [tool.read(os.path.join(place, file)) for file in files]
    return texts


@checks.others("grade/hidden_values")
def hidden_values():
    """What students get has no value of a hidden case, and has those of the others; the teacher's rows have both."""
    for hidden in ("shut", "open"):
        with tempfile.TemporaryDirectory(prefix="mta-case-") as folder:
            made(folder, "ann/copies.asm", COPIES)
            for name, (given, wanted) in UNUSUAL.items():
                made(folder, f"cases/{name}.data", f" .data {given}\n .data {given - 1}\n".encode())
                mark = "hidden\n" if name == hidden else ""
                made(folder, f"cases/{name}.expect", f"points 4\n{mark}word 8 {wanted}\n".encode())
            shown = next(name for name in UNUSUAL if name != hidden)
            for words in ((), ("--explore",)):
                call = ("grade", "--cases", "cases", *words)
                texts = {name: lab(*call, "--format", name, "ann/copies.asm", folder=folder).out
                         for name in ("text", "tsv", "json", "junit", "gradescope", "moodle")}
                lab(*call, "--feedback", "back", "ann/copies.asm", folder=folder)
                back = written_below(os.path.join(folder, "back"))
                yield f"{hidden} {words}: files", 2, len(back)
                for name in ("junit", "gradescope", "moodle"):
                    back.append(texts[name])
                numbers = [number for value in UNUSUAL[hidden] for number in (value, value - 1)]
                spelt = [form(number).encode() for number in numbers for form in (str, "{:x}".format)]
                yield f"{hidden} {words}: no value", [], [text for text in back for one in spelt if one in text.lower()]
                seen = str(UNUSUAL[shown][1]).encode()
                yield f"{hidden} {words}: values of the other", [True] * 3, [seen in texts[name] for name in (
                    "junit", "gradescope", "moodle")]
                teacher = json.dumps(json.loads(texts["json"])["cases"]).encode()
                yield f"{hidden} {words}: all for the teacher", [True, True], [
                    str(wanted).encode() in teacher for _, wanted in UNUSUAL.values()]


# names that a shell would not take as they are
FOR_A_SHELL = ("it's mine.asm", "-x.asm", "- x.asm", "$(touch lost).asm", "*.asm", "a\tb'\\.asm", "\u202eb.asm", "~.asm")


def typed(line, folder):
    """What bash prints in a folder for a command line of mta_lab."""
    with tempfile.TemporaryDirectory(prefix="mta-bin-") as path:
        os.symlink(tool.LAB, os.path.join(path, "mta_lab"))
        known = {"PATH": path + ":" + os.environ["PATH"], "HOME": folder, "LC_ALL": "C.UTF-8"}
        return subprocess.run(["bash", "-c", line], cwd=folder, env=known, capture_output=True, timeout=tool.PATIENCE,
                              check=False).stdout


@checks.others("grade/feedback_in_a_shell")
def feedback_in_a_shell():
    """The call of view in the text for a student shows, typed into a shell, the run that decides: whatever the file is
    called, and also if runs of seeds may have another number of steps than usual."""
    for name in FOR_A_SHELL:
        with tempfile.TemporaryDirectory(prefix="mta-case-") as folder:
            made(folder, f"in/{name}", COUNTING)
            made(folder, "w.expect", b"finished\n")
            lab("grade", "--expect", "w.expect", "--steps", "37", "--feedback", "back", f"in/{name}", folder=folder)
            texts = [file for file in os.listdir(os.path.join(folder, "back")) if file.endswith(".txt")]
            yield f"{name!r}: texts", 1, len(texts)
            text = tool.read(os.path.join(folder, "back", texts[0])).decode()
            calls = re.findall(r"^- (mta_lab view .*)$", text, re.MULTILINE)
            yield f"{name!r}: calls", 1, len(calls)
            shown = typed(calls[0], os.path.join(folder, "in"))
            yield f"{name!r}: the run", True, b"after 37 steps: ran out of steps" in shown
            yield f"{name!r}: files", [name], os.listdir(os.path.join(folder, "in"))


# of each submission of a class what its text and its page are called
CALLED = (
    # Moodle's folders, of each number, with a file name that they share and with one of its own; a folder in one of them
    {"all/Ann Lee_4711_assignsubmission_file_/task.asm": "Ann Lee_4711_assignsubmission_file_task",
     "all/Bo_12_assignsubmission_file/task.asm": "Bo_12_assignsubmission_file_task",
     "all/C. D'E_13_assignsubmission_file/x/my task.asm": "C. D'E_13_assignsubmission_file_my_task",
     "all/..\tF\x1b|_14_assignsubmission_file/task.asm": "_F___14_assignsubmission_file_task"},
    # two files of a student that differ in their folder or ending alone
    {"Ann_1_assignsubmission_file/a/task.asm": "Ann_1_assignsubmission_file_task",
     "Ann_1_assignsubmission_file/b/task.asm": "Ann_1_assignsubmission_file_task-2",
     "Ann_1_assignsubmission_file/b/task.s": "Ann_1_assignsubmission_file_task-3"},
    # the folders in which all lie are left out, and so are those that say nothing; a name that is there once has none
    {"in/1/ann/task.asm": "1_ann_task", "in/1/bob/./task.asm": "1_bob_task", "in/2/.bob/task.asm": "2_bob_task",
     "in/own.asm": "own", "in/task.asm": "task"},
    # no name twice, also if one is that which another one is given
    {"a/b/t.asm": "a_b_t", "a/b_t.asm": "b_t", "a_b/t.asm": "a_b_t-2", "t.asm": "t"},
    {"s.asm": "s", "s.s": "s-3", "s-2.asm": "s-2"},
)


@checks.others("grade/feedback_names")
def feedback_names():
    """A text and a page have names of their own, which say the folder where files are called alike, and that of the student
    where Moodle made it: by any number of jobs, for a part of the class too, and if the results were kept."""
    for place, wanted in enumerate(CALLED):
        names = sorted(wanted)
        with tempfile.TemporaryDirectory(prefix="mta-case-") as folder:
            made(folder, "w.expect", b"word 0 1\n")
            for number, name in enumerate(names):
                made(folder, name, b" .entry 0\n QUIT\n .data %d\n" % (number + 2))
            call = ("grade", "--expect", "w.expect", "--seeds", "2")
            for to, words in (("one", ("--jobs", "1")), ("two", ("--jobs", "3")), ("kept", ("--results", "r.jsonl")),
                              ("again", ("--results", "r.jsonl"))):
                ended = lab(*call, *words, "--feedback", to, *names, folder=folder)
                yield f"{place} {to}: status", (3, b""), (ended.status, ended.err)
                yield f"{place} {to}", sorted(f"{name}.{end}" for name in wanted.values() for end in ("html", "txt")), sorted(
                    os.listdir(os.path.join(folder, to)))
                pages = [shown(os.path.join(folder, to, f"{wanted[name]}.html")) for name in names]
                yield f"{place} {to}: whose they are", [str(number + 2) for number, _ in enumerate(names)], [
                    str(page["start"]["memory"][0][1]) for page in pages]
            for part in ("1", "2"):
                lab(*call, "--part", f"{part}/2", "--feedback", "parts", *names, folder=folder)
            yield f"{place} parts", sorted(os.listdir(os.path.join(folder, "one"))), sorted(
                os.listdir(os.path.join(folder, "parts")))


@checks.others("grade/points")
def points():
    """The points of a submission are those of the cases by which it is right, in each format that has them."""
    with tempfile.TemporaryDirectory(prefix="mta-case-") as folder:
        # a program that copies its first word is right by the cases that ask for just this
        made(folder, "copies.asm", COPIES)
        worth = {"a": (3, True), "b": (5, False), "c": (0, True), "d": (1000, True), "e": (1, True), "f": (7, False)}
        for number, (name, (count, is_right)) in enumerate(worth.items()):
            made(folder, f"cases/{name}.data", f" .data {10 + number}\n .data 0\n".encode())
            # (a case without a line has one point)
            line = "" if name == "e" else f"points {count}\n"
            made(folder, f"cases/{name}.expect", f"{line}word 8 {10 + number + (not is_right)}\n".encode())
        call = ("grade", "--cases", "cases", "--seeds", "2")
        wanted = sum(count for count, is_right in worth.values() if is_right)
        most = sum(count for count, _ in worth.values())
        one = json.loads(lab(*call, "--json", "copies.asm", folder=folder).out)
        yield "json", (wanted, most), (one["points"], one["max_points"])
        rows = [(name, count if is_right else 0, count) for name, (count, is_right) in worth.items()]
        yield "json by case", rows, [(case["case"], case["points"], case["max_points"]) for case in one["cases"]]
        tests = json.loads(lab(*call, "--format", "gradescope", "copies.asm", folder=folder).out)["tests"]
        yield "gradescope", rows, [(test["name"], test["score"], test["max_score"]) for test in tests]
        table = lab(*call, "--format", "moodle", "9/Ann_B_17_assignsubmission_file_/copies.asm", folder=folder).out
        yield "moodle, not read", [["Participant 17", "Ann_B", "0", str(most)]], [
            row[:4] for row in csv.reader(io.StringIO(table.decode(), newline=""))][1:]
        table = lab(*call, "--format", "moodle", "copies.asm", folder=folder).out
        yield "moodle", [["", "copies.asm", str(wanted), str(most)]], [
            row[:4] for row in csv.reader(io.StringIO(table.decode(), newline=""))][1:]


@checks.others("grade/side_by_side")
def side_by_side():
    """Many submissions: the table is the same, however many are judged side by side."""
    with tempfile.TemporaryDirectory(prefix="mta-case-") as folder:
        made(folder, "w.expect", b"word 0 1\n")
        names = []
        for number in range(40):
            names.append(f"{number}.asm")
            made(folder, names[-1], [RIGHT, WRONG, b"QUITE\n"][number % 3])
        for words in ((), ("--explore",)):
            call = ("grade", *words, "--expect", "w.expect")
            alone = lab(*call, "--jobs", "1", *names, folder=folder)
            for jobs in ("2", "7", "256"):
                yield f"{words} {jobs}", (3, alone.out), (lambda e: (e.status, e.out))(
                    lab(*call, "--jobs", jobs, *names, folder=folder))
            yield f"{words} rows behind the head", 41, alone.out.count(b"\n")


def paged(folder, *words):
    """A command line of grade with --pages and --json: its status, what is said, and its objects."""
    ended = lab("grade", "--expect", "w.expect", "--json", *words, folder=folder)
    return ended.status, ended.err, [json.loads(line) for line in ended.out.splitlines()]


def shown(path):
    """What a page has as data: a run, or a graph."""
    with open(path, encoding="utf-8") as file:
        return json.loads(re.search(r'<script type="application/json" id="\w+(?:-data)?">(.*?)</script>', file.read(),
                                    re.DOTALL)[1])


def way_of(schedule):
    """The way on which a page of all schedules opens, for a schedule."""
    return ",".join(f"{p}.{s}x{n}" if n > 1 else f"{p}.{s}" for p, s, n in schedule)


def is_end_after(graph, schedule):
    """Whether a schedule leads to a state of the graph from which no step leads to another one."""
    width = {name: column[0] for name, column in zip(graph["streams"], graph["states"]["to"])}
    digits = dict(zip(graph["streams"], (column[1] for column in graph["states"]["to"])))

    def after(name, state):
        number = 0
        for digit in digits[name][state * width[name]:(state + 1) * width[name]]:
            number = number * 64 + DIGITS.index(digit)
        return number

    state = 0
    for p, s, many in schedule:
        for _ in range(many):
            state = after(f"{p}.{s}", state)
    return all(after(name, state) == state for name in graph["streams"])


def turns_of(steps):
    """The steps of a page as turns: processor, stream, how many in a row."""
    turns = []
    for step in steps:
        if turns and turns[-1][:2] == [step["p"], step["s"]]:
            turns[-1][2] += 1
        else:
            turns.append([step["p"], step["s"], 1])
    return turns


@checks.others("grade/pages")
def pages():
    """The page of each submission that is not right: which there are, what they are called, and what they show."""
    with tempfile.TemporaryDirectory(prefix="mta-case-") as folder:
        made(folder, "w.expect", b"word 0 2\n")
        sources = {"a/racing.asm": RACING, "b/racing.asm": RIGHT, "b/racing-2.asm": RACING, "c/racing.s": RACING,
                   "right.asm": WRONG, "bad.asm": b"QUITE\n", "odd #1.asm": RACING}
        for name, text in sources.items():
            made(folder, name, text)
        names = [*sources, "none.asm"]
        # where file names are alike, their folders stand before them; of right.asm and those that did not run there is no page
        wanted = {"a/racing.asm": "a_racing", "b/racing.asm": "b_racing", "b/racing-2.asm": "racing-2",
                  "c/racing.s": "c_racing", "odd #1.asm": "odd__1"}
        for kind, words in (("run", ("--seeds", "4")), ("graph", ("--explore",))):
            plain = paged(folder, *words, *names)
            status, err, objects = paged(folder, *words, "--pages", kind, *names)
            yield f"{kind}: verdicts", plain, (status, err, [{**one, "page": None} for one in objects])
            yield f"{kind}: files", sorted(f"{name}.html" for name in wanted.values()), sorted(os.listdir(
                os.path.join(folder, kind)))
            for one in objects:
                name, link = one["submission"], one["page"]
                if name not in wanted:
                    yield f"{kind} {name}", None, link
                    continue
                yield f"{kind} {name}: path", f"{kind}/{wanted[name]}.html", link
                data = shown(os.path.join(folder, kind, wanted[name] + ".html"))
                yield f"{kind} {name}: object", "page" if kind == "run" else "graph", data["object"]
                if kind == "run":
                    made(folder, "one.schedule", lab("schedule", "random", name, "--seed", one["seed"], folder=folder).out)
                    with open(os.path.join(folder, "one.schedule"), encoding="ascii") as file:
                        rows = [[int(word) for word in line.split()] for line in file]
                    yield f"{kind} {name}: steps", rows, turns_of(data["steps"])
                else:
                    yield f"{kind} {name}: opened", way_of(one["schedule"]), data["opened"]
                    yield f"{kind} {name}: the schedule leads to an end", True, is_end_after(data, one["schedule"])


@checks.others("grade/pages_by_cases")
def pages_by_cases():
    """A page shows the program with the words of the case that decides."""
    with tempfile.TemporaryDirectory(prefix="mta-case-") as folder:
        made(folder, "answer.asm", b" .entry 0\n QUIT\n .data 3\n .data 6\n")
        for name, given, answer in (("a", 3, 6), ("b", 7, 14)):
            made(folder, f"cases/{name}.data", f" .data {given}\n .data {6 if name == 'a' else 0}\n".encode())
            made(folder, f"cases/{name}.expect", f"word 8 {answer}\n".encode())
        for words in ((), ("--explore",)):
            ended = lab("grade", "--cases", "cases", *words, "--pages", "out/", "--json", "answer.asm", folder=folder)
            one = json.loads(ended.out)
            yield f"{words}", (3, b"", "b", "out/answer.html"), (
                ended.status, ended.err, one["case"], one["page"])
            data = shown(os.path.join(folder, "out", "answer.html"))
            yield f"{words}: words", "7", str(data["start"]["memory"][0][1])


# two streams that wait forever for a word that nobody fills
HELD = b""" .slim 1
 .entry go
 .entry go
 .data 0, 0
 .data 0
go: LIT r2, 7
 STORE.N r2, r0, 1
wait: LOAD.S r1, r0, 0
 QUIT
"""


@checks.others("grade/pages_of_waits")
def pages_of_waits():
    """Whether the page of a run says that streams may wait at its end, as the file lets none, one or each of them."""
    with tempfile.TemporaryDirectory(prefix="mta-case-") as folder:
        made(folder, "held.asm", HELD)
        for streams, verdict, may_wait in (((), "deadlock", None), (("0.0",), "deadlock", None), (("0.0", "1.0"), "wrong", True)):
            made(folder, "w.expect", "".join(f"waits {name} in wait..wait\n" for name in streams).encode() + b"word 8 2\n")
            _, _, objects = paged(folder, "--seeds", "4", "--pages", "out", "held.asm")
            run = shown(os.path.join(folder, "out", "held.html"))
            yield f"{streams} may wait", (verdict, "deadlock", False, "word 8 2", may_wait), (
                objects[0]["verdict"], run["end"]["kind"], *map(run.get, ("expected", "missed", "may_wait")))


@checks.others("grade/pages_refused")
def pages_refused():
    """Graphs that are too large for a page or for the memory that is given, folders that can't be made, and pages that would replace a submission."""
    with tempfile.TemporaryDirectory(prefix="mta-case-") as folder:
        made(folder, "w.expect", b"word 0 2\n")
        made(folder, "wide.asm", WIDE)
        made(folder, "racing.html", RACING)
        status, err, objects = paged(folder, "--explore", "--pages", "out", "wide.asm")
        yield "too many states", (3, b"", ["out/wide.html"]), (status, err, [one["page"] for one in objects])
        yield "its run", "page", shown(os.path.join(folder, "out", "wide.html"))["object"]
        made(folder, "near.asm", NEAR)
        made(folder, "other.asm", RIGHT)
        for words, kind in ((("--memory", "1"), "page"), ((), "graph")):
            call = ("--explore", *words, "--pages", kind, "near.asm", "other.asm")
            status, err, objects = paged(folder, *call)
            yield f"{words}: both have pages", (3, b"", [f"{kind}/near.html", f"{kind}/other.html"]), (
                status, err, [one["page"] for one in objects])
            yield f"{words}: what it shows", kind, shown(os.path.join(folder, kind, "near.html"))["object"]
        plain = paged(folder, "wide.asm")
        found = paged(folder, "--pages", "none/out", "wide.asm")
        fault = b"mta_lab: none/out: the folder cannot be made: No such file or directory (os error 2)\n"
        yield "no folder", (1, fault, plain[2]), found
        found = paged(folder, "--pages", ".", "racing.html")
        fault = b"mta_lab: ./racing.html: not written: it is the same file as racing.html, which this command uses\n"
        yield "a submission", (1, fault, [None], RACING), (
            *found[:2], [one["page"] for one in found[2]], tool.read(os.path.join(folder, "racing.html")))


@checks.others("grade/bounds")
def bounds():
    """Where neither states nor megabytes are given, the search of a submission ends by what it holds."""
    with tempfile.TemporaryDirectory(prefix="mta-case-") as folder:
        made(folder, "w.expect", b"finished\n")
        made(folder, "counts.asm", COUNTING)
        for words, bound in (((), b"memory"), (("--states", "1000"), b"states"), (("--memory", "1"), b"memory")):
            ended = lab("grade", "--explore", "--seeds", "1", "--steps", "9", *words, "--expect", "w.expect",
                        "counts.asm", folder=folder)
            states = re.fullmatch(
                rb"submission\tverdict\twhy\ncounts.asm\tran out of steps\tsome schedules, (\d+) states, ended by --" + bound
                + rb", and seed 0: not finished: 0.0 goes on at more to more\+1\n", ended.out)
            yield f"{words}", (5, True), (ended.status, states is not None)
            if not words:
                # each state has its edge and its key, so that 60 bytes at least are held of it, and less than a kilobyte
                yield "states", True, states is not None and 200_000 < int(states[1]) < 3_400_000
