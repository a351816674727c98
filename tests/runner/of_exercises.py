"""The exercises: each solution is right by every schedule, each start is not, and of each wrong program the sentence is said
that belongs to it, or none. And what the command `exercise` says."""

import contextlib
import glob
import os
import re
import select
import shutil
import subprocess
import tempfile
import time

import checks
import table
import tool
from of_lab import lab
from of_pages import run_in
from table import unescaped

EXERCISES = os.path.join(table.ROOT, "exercises")
BY_EVERY = ("--explore", "--states", "100000", "--seeds", "20", "--steps", "2000")
FILES = ("advice", "cases", "hints.md", "original.asm", "solution.asm", "start.asm", "task.md", "wrong")


def exercises():
    """The names of the exercises, in order."""
    return sorted(name for name in os.listdir(EXERCISES) if name[:2].isdigit())


def text_of(*parts):
    with open(os.path.join(EXERCISES, *parts), encoding="ascii") as file:
        return file.read()


def judged(exercise, program):
    """What `grade` says of a program by an exercise's cases and every schedule: its verdict, and what shows it."""
    cases = os.path.join(EXERCISES, exercise, "cases")
    said = lab("grade", "--cases", cases, *BY_EVERY, os.path.join(EXERCISES, exercise, program))
    _, verdict, why = said.out.decode().splitlines()[-1].split("\t")
    return verdict, why


def sentences_of(exercise):
    """The sentences of an exercise's advice."""
    return [line.split(": ", 1)[1] for line in text_of(exercise, "advice").splitlines()]


def sentence_of(exercise, beginning):
    """The one sentence of an exercise's advice that begins so; None for `-`."""
    if beginning == "-":
        return None
    found = {sentence for sentence in sentences_of(exercise) if sentence.startswith(beginning)}
    assert len(found) == 1, f"{exercise}: {beginning!r} begins {len(found)} sentences"
    return found.pop()


def is_solved(exercise):
    verdict, why = judged(exercise, "solution.asm")
    return ("right", True), (verdict, "every schedule" in why)


def is_open(exercise):
    """A start is a program, and not right yet."""
    verdict, _ = judged(exercise, "start.asm")
    return True, verdict in ("trap", "deadlock", "wrong", "spins")


def is_quiet(exercise):
    """Nothing is to be said of the texts that students get."""
    paths = [os.path.join(EXERCISES, exercise, name) for name in ("solution.asm", "start.asm")]
    said = lab("check", "--strict", *paths)
    return (0, b""), (said.status, said.out)


def is_whole(exercise):
    """All files of an exercise are there, and a hint and a case at least."""
    files = tuple(sorted(os.listdir(os.path.join(EXERCISES, exercise))))
    hints = text_of(exercise, "hints.md")
    cases = {name.rpartition(".")[0] for name in os.listdir(os.path.join(EXERCISES, exercise, "cases"))}
    return (FILES, True, True, True), (files, text_of(exercise, "task.md").startswith("# "),
                                       hints.startswith("## Hint 1\n"), len(cases) > 1)


def is_decided(exercise):
    """The solution and each wrong program are decided by every schedule, each in ten seconds and with 200 megabytes."""
    folder = os.path.join(EXERCISES, exercise)
    paths = [os.path.join(folder, "solution.asm"), *sorted(glob.glob(os.path.join(folder, "wrong", "*.asm")))]
    verdicts = []
    for path in paths:
        said = lab("grade", "--cases", os.path.join(folder, "cases"), "--explore", "--seconds", "10", "--memory", "200",
                   "--jobs", "1", "--format", "tsv", path)
        verdicts += [line.split("\t")[1] for line in said.out.decode().splitlines()]
    return (len(paths), 0), (len(verdicts), verdicts.count("not decided"))


def is_unedited(exercise):
    """The file that a reset takes is the start."""
    return text_of(exercise, "start.asm"), text_of(exercise, "original.asm")


@checks.others("exercises/programs")
def programs():
    parts = (is_whole, is_quiet, is_solved, is_open, is_decided, is_unedited)
    return [(f"exercises/{name}: {part.__name__}", lambda name=name, part=part: part(name))
            for name in exercises() for part in parts]


def file_of(name):
    """The file of a program of the table: the start, or one of `wrong`."""
    return "start.asm" if name == "start" else os.path.join("wrong", name + ".asm")


@checks.others("exercises/all wrong ones")
def wrong_programs():
    """Each start and each wrong program has a row, and each sentence of advice is said of one of them."""
    listed = table.rows("exercises/wrong.tsv")
    rows = {(row.fields[0], file_of(row.fields[1])) for row in listed}
    there = {(name, os.path.join("wrong", wrong)) for name in exercises()
             for wrong in os.listdir(os.path.join(EXERCISES, name, "wrong"))}
    there |= {(name, "start.asm") for name in exercises()}
    said = {sentence_of(row.fields[0], row.fields[2]) for row in listed}
    sentences = {sentence for name in exercises() for sentence in sentences_of(name)}
    return [("wrong programs without a row", set(), there - rows), ("sentences of no program", set(), sentences - said),
            ("at least 77 attempts", True, len(rows) >= 77)]


@checks.each("exercises/wrong.tsv")
def wrong(fields):
    """The sentence that is said of a wrong program."""
    exercise, name, beginning = fields
    with copied(exercise) as folder:
        put(folder, exercise, file_of(name))
        said = sentence_said(exercise, folder)
    return sentence_of(exercise, beginning), said


@checks.each("exercises/missed.tsv")
def missed(fields):
    """How what is missed is said in words."""
    program, words, expected, verdict, sentence = fields
    files = {"task.md": "# One\n", "hints.md": "## Hint 1\n", "advice": "", "start.asm": program, "cases/one.data": words,
             "cases/one.expect": expected + "\\n"}
    with tempfile.TemporaryDirectory(prefix="mta-case-") as folder:
        os.makedirs(os.path.join(folder, "exercises/01_one/cases"))
        for name, text in files.items():
            tool.write(os.path.join(folder, "exercises/01_one", name), unescaped(text))
        said = lab("exercise", "1", folder=folder).out.decode().splitlines()
    return [f"exercise 1, One: {verdict}", f"exercises/01_one/start.asm: case one: {sentence}"], said[:2]


@checks.each("exercises/facts.tsv")
def facts(fields):
    """Whether a line of advice is said of a program."""
    exercise, name, head, is_said = fields
    with copied(exercise) as folder:
        put(folder, exercise, "start.asm" if name == "start" else name + ".asm")
        tool.write(os.path.join(folder, "exercises", exercise, "advice"), f"{head}: It is so.\n".encode())
        said = sentence_said(exercise, folder)
    return is_said, "yes" if said == "It is so." else "no" if said is None else said


@checks.each("exercises/advice.tsv")
def advice(fields):
    """What a file of advice is refused for."""
    text, status, err = fields
    with copied("03_lock") as folder:
        tool.write(os.path.join(folder, "exercises", "03_lock", "advice"), unescaped(text))
        ended = lab("exercise", "3", folder=folder)
    said = None if err else "First."
    return (int(status), said, unescaped(err)), (ended.status, sentence_in(ended.out), ended.err)


# the command `exercise`, beside what `grade` says of the same program, put into words by the rules of docs/LAB_REFERENCE.md

THOROUGH = ("--states", "200000", "--seeds", "200", "--steps", "10000")
ALL_DONE = ("These are all. What you have learnt is enough for programs of your own: mta_lab new NAME writes one to begin "
            "with.")
AFTER_SENTENCE = ("All messages: ", "To look at this run:", "A hint: ")
QUICK = ("--states", "100000", "--seeds", "20", "--steps", "2000")
# an exercise; what takes the place of its start: a file of its own, or a text, None where it is gone; and what is missed, in
# words, worked out by hand
TOLD = [
    ("01_hand_over", "wrong/counts_bytes.asm", "[16] should be 7, and is 0"),
    ("03_lock", "start.asm", "[8] should be 4, and is 1"), ("03_lock", "solution.asm", None),
    ("03_lock", "wrong/keeps_the_lock.asm", None), ("05_semaphore", "wrong/keeps_the_place.asm", None),
    ("11_reduction", "start.asm", "the program should have a word with CREATE, and has none"),
    ("13_trap_handler", "solution.asm", None), ("26_barbershop", "solution.asm", None),
    ("27_turnstile", "start.asm", "after this run a stream can wait forever, and none ever should: never starved"),
    ("29_both_forks", "solution.asm", None),
    ("30_leaders_and_followers", "start.asm", "[48] should be equal to [32] - 10, which is 1, and is 2"),
    ("31_search_insert_delete", "solution.asm", None), ("31_search_insert_delete", "wrong/no_work.asm", None),
    ("03_lock", " .entry go\n .data 0\ngo: QUITE\n", None), ("03_lock", None, None),
]


@contextlib.contextmanager
def copied(only=None):
    """A folder with a copy of the exercises, or of one alone, without their wrong programs."""
    with tempfile.TemporaryDirectory(prefix="mta-case-") as folder:
        for name in exercises() if only is None else [only]:
            shutil.copytree(os.path.join(EXERCISES, name), os.path.join(folder, "exercises", name),
                            ignore=shutil.ignore_patterns("wrong"))
        yield folder


def put(folder, exercise, program):
    """Puts a program in the place of an exercise's start."""
    start = os.path.join(folder, "exercises", exercise, "start.asm")
    if program is None:
        os.remove(start)
    else:
        text = text_of(exercise, program) if program.endswith(".asm") else program
        tool.write(start, text.encode())


def row_of(folder, exercise, reach):
    """The verdict of `grade` on an exercise's start, what shows it, and the status."""
    path = f"exercises/{exercise}"
    said = lab("grade", "--cases", f"{path}/cases", "--explore", *reach, f"{path}/start.asm", folder=folder)
    return (*said.out.decode().splitlines()[-1].split("\t")[1:], said.status)


def title_of(exercise):
    return text_of(exercise, "task.md").splitlines()[0].removeprefix("# ")


def next_after(exercise):
    """What is said of the exercise that comes next."""
    later = [name for name in exercises() if exercise is None or name > exercise]
    return [f"Next: exercises/{name}/task.md says what to do in exercises/{name}/start.asm; "
            f"then mta_lab exercise {int(name[:2])}" for name in later[:1]]


def shown_run(path, why, number):
    """The commands that show a run, with the words of its case."""
    found = re.match(r"case (\w+): (?:\d+\.\d+ waits .*?; )?(?:schedule ([\d ,]+)|(?:.*, and )?seed (\d+))(?:: |; |$)", why)
    if not found:
        return []
    case, turns, seed = found.groups()
    view, given = f"  mta_lab view {path}/start.asm ", f" --given {path}/cases/{case}.data"
    lines = [view + f"--seed {seed}" + given]
    if turns:
        lines = ["  printf '" + "".join(turn + "\\n" for turn in turns.split(", ")) + "' > found.schedule",
                 view + "found.schedule" + given]
    return ["To look at this run:", *lines, f"  mta_lab exercise {number} --page run.html",
            f"To choose each step yourself: mta_lab exercise {number} --play play.html"]


def in_words(verdict, why, missed):
    """What is said of a program, as lines: what is missed in words in place of the line, and then what shows it. Of a deadlock
    nothing is said to be missed."""
    bare = re.sub(r"(schedule [\d ,]+|seed \d+|at the start): not [^:;]*", r"\1", why, count=1)
    if missed is None:
        return [bare if verdict == "deadlock" else why]
    case, _, shows = bare.partition(": ")
    return [f"{case}: {missed}", shows]


def told(exercise, program, verdict, why, missed):
    """What `exercise N` prints of a program."""
    path, number = f"exercises/{exercise}", int(exercise[:2])
    first, *more = in_words(verdict, why, missed)
    lines = [f"exercise {number}, {title_of(exercise)}: {verdict}", f"{path}/start.asm: {first}", *more]
    beginnings = {(row.fields[0], file_of(row.fields[1])): row.fields[2] for row in table.rows("exercises/wrong.tsv")}
    if verdict == "right":
        last = [] if next_after(exercise) else [f"1 of {len(exercises())} is done."]
        return [*lines, *next_after(exercise), *last]
    sentence = beginnings.get((exercise, program))
    lines += [sentence_of(exercise, sentence)] if sentence else []
    lines += [f"All messages: mta_lab check {path}/start.asm"] if verdict == "source fault" else []
    return [*lines, *shown_run(path, why, number), f"A hint: mta_lab exercise {number} --hint 1"]


def sentence_said(exercise, folder):
    """The sentence that `exercise` says of the start in a folder; None where it says none."""
    return sentence_in(lab("exercise", exercise[:2], folder=folder).out)


def sentence_in(out):
    """The sentence of the advice in what `exercise` prints: it stands after the verdict and what shows it, which begins with a
    small letter."""
    lines = [line for line in out.decode().splitlines()[2:] if not line[:1].islower()][:1]
    return next((line for line in lines if not line.startswith(AFTER_SENTENCE)), None)


def warned(exercise, folder):
    """The first three warnings of `check` on a start, but for those of comments and names."""
    said = lab("check", f"exercises/{exercise}/start.asm", folder=folder).err.decode()
    messages = re.split(r"(?m)^(?=exercises/)", said)[1:]
    return "".join([message for message in messages if ": warning: " in message
                    and "(explain 106)" not in message and "(explain 114)" not in message][:3])


def tells(exercise, program, missed):
    with copied() as folder:
        put(folder, exercise, program)
        verdict, why, status = row_of(folder, exercise, THOROUGH)
        warnings = "" if verdict == "right" or program is None else warned(exercise, folder)
        said = lab("exercise", exercise[:2], folder=folder)
    wanted = "".join(line + "\n" for line in told(exercise, program, verdict, why, missed))
    return (status, wanted.encode(), warnings.encode()), (said.status, said.out, said.err)


def lists(solved, tried):
    """All exercises, of which some are solved, and some were tried."""
    edited = [*solved, *tried]
    with copied() as folder:
        for exercise in solved:
            put(folder, exercise, "solution.asm")
        for exercise in tried:
            put(folder, exercise, text_of(exercise, "start.asm") + "; mine\n")
        verdicts = {exercise: row_of(folder, exercise, QUICK)[0] for exercise in exercises()}
        said = lab("exercise", folder=folder)
    width = max(len(title_of(exercise)) for exercise in exercises())
    lines = [f"{int(exercise[:2]):>3}  {title_of(exercise):<{width}}  "
             + ("done" if verdict == "right" else "not begun" if exercise not in edited else f"not yet: {verdict}")
             for exercise, verdict in verdicts.items()]
    todo = [exercise for exercise in exercises() if exercise not in solved]
    before = max([name for name in exercises() if name < todo[0]], default=None) if todo else exercises()[-1]
    lines += [f"{len(solved)} of {len(lines)} {'is' if len(solved) == 1 else 'are'} done."] + ([] if todo else [ALL_DONE]) + next_after(before)
    return (0, "".join(line + "\n" for line in lines).encode(), b""), (said.status, said.out, said.err)


def by_name(exercise):
    """An exercise is found by its name too."""
    said = []
    for word in (str(int(exercise[:2])), exercise, exercise[3:]):
        call = lab("exercise", word, "--hint", "1", folder=table.ROOT)
        said.append((call.status, call.out, call.err))
    return [said[0]] * 3, said


def writes_page(option, texts):
    """The page of the run by which a start is not right: the last line names it, and it has the words of the case."""
    with copied("01_hand_over") as folder:
        put(folder, "01_hand_over", "wrong/looks_at_once.asm")
        plain = lab("exercise", "1", folder=folder)
        said = lab("exercise", "1", option, "out.html", folder=folder)
        with open(os.path.join(folder, "out.html"), encoding="utf-8") as file:
            page = file.read()
    return ((plain.status, plain.out + b"out.html: open it in a browser\n", plain.err, [True] * len(texts)),
            (said.status, said.out, said.err, [text in page for text in texts]))


def turns_in(text):
    """The streams of the steps of a schedule as `grade` shows it, each as processor and stream."""
    turns = [map(int, turn.split()) for turn in text.split(", ")]
    return [(processor, stream) for processor, stream, steps in turns for _ in range(steps)]


def goes_round():
    """The page of a program by which a stream can wait forever: its run goes once through the round that `grade` shows."""
    with copied("27_turnstile") as folder:
        _, why, _ = row_of(folder, "27_turnstile", THOROUGH)
        lab("exercise", "27", "--page", "out.html", folder=folder)
        with open(os.path.join(folder, "out.html"), encoding="utf-8") as file:
            run = run_in(file.read())
    shown = r"schedule ([\d ,]+): .*?: (\S+) can wait forever .* again and again ([\d ,]+)$"
    stem, stream, turns = re.search(shown, why).groups()
    around = turns_in(turns)
    missed = (f"never starved: the last {len(around)} steps can come again and again, and {stream} is blocked at each step "
              "of its own")
    return ((turns_in(stem) + around, False, missed),
            ([(step["p"], step["s"]) for step in run["steps"]], run["expected"], run["missed"]))


def no_page():
    """Of a right program no run goes wrong; but the page of all schedules is written."""
    with copied("01_hand_over") as folder:
        put(folder, "01_hand_over", "solution.asm")
        plain = lab("exercise", "1", folder=folder)
        page = lab("exercise", "1", "--page", "out.html", folder=folder)
        play = lab("exercise", "1", "--play", "out.html", folder=folder)
    return ((1, plain.out, b"mta_lab: out.html: not written: no run of the program goes wrong\n",
             0, plain.out + b"out.html: open it in a browser\n"),
            (page.status, page.out, page.err, play.status, play.out))


def resets():
    """A reset makes a program what it was at first, and keeps the one that was there."""
    mine, path = "; mine\n", "exercises/03_lock/"
    with copied("03_lock") as folder:
        put(folder, "03_lock", mine)
        said = [lab("exercise", "lock", "--reset", folder=folder) for _ in range(2)]
        texts = []
        for name in ("start.asm", "start.old.asm"):
            with open(os.path.join(folder, path, name), encoding="ascii") as file:
                texts.append(file.read())
    return ([(0, f"{path}start.old.asm: your program\n{path}start.asm: as it was at first\n"),
             (0, f"{path}start.asm: it is as it was at first\n")], [text_of("03_lock", "start.asm"), mine]), (
                 [(call.status, call.out.decode()) for call in said], texts)


KEYS = b"Type h for a hint, p for a page of the run, n for the next exercise, or q to end; then Enter.\n"
SECONDS = 60


def read_as_many(process, wanted):
    """What a process prints, up to as many bytes as are wanted, or to its end."""
    read, end = b"", time.monotonic() + SECONDS
    while len(read) < len(wanted) and time.monotonic() < end:
        if select.select([process.stdout], [], [], 1)[0]:
            piece = os.read(process.stdout.fileno(), len(wanted) - len(read))
            if not piece:
                break
            read += piece
    return read


def watches():
    """A program that is watched is judged when it changes, as `exercise` judges it; and lines are answered in between."""
    with copied() as folder:
        def judged(program, number="1"):
            if program:
                put(folder, "01_hand_over", program)
            return lab("exercise", number, folder=folder).out

        right = judged("solution.asm") + f"1 of {len(exercises())} is done.\n".encode()
        wrong = judged("wrong/looks_at_once.asm")
        path = "exercises/02_counter"
        second = f"{path}/task.md says what to do in {path}/start.asm\n".encode() + judged(None, "2")
        hints = [lab("exercise", "1", "--hint", number, folder=folder).out for number in ("1", "2")]
        talk = [(None, KEYS + wrong), (b"h\n", hints[0]), (b" h\n", hints[1]), (b"p\n", wrong + b"run.html: open it in a browser\n"),
                ("solution.asm", right), (b"what\n", KEYS), (b"n\n", second)]
        with subprocess.Popen([tool.LAB, "exercise", "1", "--watch"], cwd=folder, stdin=subprocess.PIPE,
                              stdout=subprocess.PIPE, stderr=subprocess.DEVNULL) as process:
            said = []
            for given, wanted in talk:
                if isinstance(given, str):
                    put(folder, "01_hand_over", given)
                elif given:
                    process.stdin.write(given)
                    process.stdin.flush()
                said.append(read_as_many(process, wanted))
            rest, _ = process.communicate(b"q\n", timeout=SECONDS)
        is_page = os.path.exists(os.path.join(folder, "run.html"))
    return ([wanted for _, wanted in talk], b"", 0, True), (said, rest, process.returncode, is_page)


def watches_to_the_end_of_input():
    """Where standard input has ended the program is judged once."""
    with copied("03_lock") as folder:
        once = lab("exercise", "3", folder=folder)
        said = lab("exercise", "3", "--watch", folder=folder)
    return (0, KEYS + once.out, once.err), (said.status, said.out, said.err)


def hints_of(exercise):
    """The hints of an exercise, each with its title."""
    return ["Hint " + hint for hint in text_of(exercise, "hints.md").split("## Hint ")[1:]]


def shows_hint(exercise, number):
    hints = hints_of(exercise)
    more = f"The next hint: mta_lab exercise {int(exercise[:2])} --hint {number + 1}\n" if number < len(hints) else ""
    said = lab("exercise", exercise, "--hint", str(number), folder=table.ROOT)
    return (0, hints[number - 1] + more), (said.status, said.out.decode())


@checks.others("exercises/command")
def command():
    for row in TOLD:
        yield f"{row[0]} {row[1]!r}", lambda row=row: tells(*row)
    for solved, tried in (([], []), (exercises()[:2], exercises()[2:4]), (exercises(), [])):
        yield f"{len(solved)} are solved", lambda solved=solved, tried=tried: lists(solved, tried)
    for exercise in exercises():
        yield f"{exercise} by its name", lambda exercise=exercise: by_name(exercise)
    yield "a page", lambda: writes_page("--page", ["Hand over one number, case ", "the schedule that decides"])
    yield "a page of all schedules", lambda: writes_page("--play", ["Hand over one number, case ", "you are the scheduler"])
    yield "a page with a round", goes_round
    yield "no page of a right program", no_page
    yield "a reset", resets
    yield "--watch", watches
    yield "--watch without input", watches_to_the_end_of_input
    for exercise in exercises():
        for number in range(1, len(hints_of(exercise)) + 1):
            yield f"{exercise}, hint {number}", lambda exercise=exercise, number=number: shows_hint(exercise, number)


@checks.each("exercises/refused.tsv")
def refused(fields):
    """A command line in a folder with the exercises, and with an empty folder."""
    line, status, err = fields
    with copied() as folder:
        os.mkdir(os.path.join(folder, "empty"))
        ended = lab(*line.split(), folder=folder)
    return (int(status), b"", unescaped(err)), (ended.status, ended.out, ended.err if err else b"")
