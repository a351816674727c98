"""The command `gallery`: which cards there are, in which order, which files are written, and what is refused. What a card
has to say is read out of the files of its exercise or example by the rules of docs/LAB_REFERENCE.md ("A gallery")."""

import contextlib
import json
import os
import re
import shutil
import tempfile

import checks
import table
import tool
from of_exercises import EXERCISES, text_of, title_of
from of_lab import EXAMPLES, lab
from of_play import graph_in
from table import unescaped

# exercises, of which the second one has a level here, and examples; in their order
OF_EXERCISES, OF_EXAMPLES = ("01_hand_over", "03_lock"), ("limited_wait", "lock", "three_philosophers")
LEVELS = """# the levels of these cases

03_lock/keeps_the_lock deadlock: Keep the lock.
three_philosophers deadlock: Let all three wait.
"""
# of the examples: the schedule that is shown, and whether it is said to go wrong, which nothing says of an example
SHOWN = {"limited_wait": ("limited_wait", False), "lock": ("lock.lost_update", False),
         "three_philosophers": ("three_philosophers.deadlock", False)}
# the first sentence of each
TEACHES = {
    "01_hand_over": None, "03_lock": "Two processors change one number.",
    "limited_wait": "The program of silent_wait.asm with a retry limit: three tries are BLOCKED, the fourth traps with 10 "
                    "(BLOCKED).",
    "lock": "A lock by a sync word: LOAD.S takes it and leaves it empty, STORE.S releases it.",
    "three_philosophers": "Three philosophers, three forks.",
}


@contextlib.contextmanager
def folder_of(levels=LEVELS):
    """A folder with copies of some exercises and examples, and these levels."""
    with tempfile.TemporaryDirectory(prefix="mta-case-") as folder:
        for name in OF_EXERCISES:
            shutil.copytree(os.path.join(EXERCISES, name), os.path.join(folder, "exercises", name))
        os.mkdir(os.path.join(folder, "examples"))
        for name in sorted(os.listdir(EXAMPLES)):
            if name.partition(".")[0] in OF_EXAMPLES:
                shutil.copy(os.path.join(EXAMPLES, name), os.path.join(folder, "examples"))
        if levels is not None:
            tool.write(os.path.join(folder, "exercises", "levels"), levels.encode())
        yield folder


def text_in(folder, name):
    return tool.read(os.path.join(folder, "made", name)).decode()


def gallery_in(folder):
    """The data of the page that leads to the others."""
    found = re.search(r'<script type="application/json" id="gallery-data">(.*?)</script>', text_in(folder, "index.html"),
                      re.DOTALL)
    return json.loads(found[1])


def run_in(folder, name):
    found = re.search(r'<script type="application/json" id="run">(.*?)</script>', text_in(folder, f"{name}.run.html"),
                      re.DOTALL)
    return json.loads(found[1])


def shown_program(exercise):
    """The wrong program of an exercise that is shown: that of its level, or else the first."""
    level = re.search(rf"^{exercise}/(\w+) ", LEVELS, re.MULTILINE)
    return level[1] if level else min(os.listdir(os.path.join(EXERCISES, exercise, "wrong"))).removesuffix(".asm")


def traced(schedule):
    """The last 100 steps of an example's run, by its trace."""
    lines = tool.read(os.path.join(EXAMPLES, f"{schedule}.trace")).decode().splitlines()
    rows = [line.split() for line in lines if re.match(r" *\d+ +\d+ +\d+ [0-9A-F]{8} [A-Z]", line)]
    # (a trap has its number in the trace with two digits)
    return [[f"{p}.{s}", " ".join([outcome.lower(), *(str(int(one)) for one in trap)])]
            for _, p, s, _, outcome, *trap in rows[-100:]]


@checks.others("gallery/cards")
def cards():
    """All that is written of some exercises and examples."""
    with folder_of() as folder:
        said = lab("gallery", "made", folder=folder)
        yield "what is said", (0, b"made/index.html: open it in a browser\n", b""), (said.status, said.out, said.err)
        names = [*OF_EXERCISES, *OF_EXAMPLES]
        yield "the files", sorted(["index.html", *(f"{name}.{kind}.html" for name in names for kind in ("play", "run"))]), \
            sorted(os.listdir(os.path.join(folder, "made")))
        data = gallery_in(folder)
        cards = {card["name"]: card for card in data["cards"]}
        yield "the cards", names, [card["name"] for card in data["cards"]]
        yield "the levels", [(1, "deadlock", "Keep the lock."), (4, "deadlock", "Let all three wait.")], \
            [(level["card"], level["goal"], level["task"]) for level in data["levels"]]
        for name in OF_EXERCISES:
            program = shown_program(name)
            title = title_of(name)
            yield f"{name}: the card", ("exercise", title, program, f"{title}, {program}", True, True, True), \
                (*(cards[name][key] for key in ("kind", "title", "program", "called", "play", "shows")),
                 cards[name]["run"]["fails"])
        for name in OF_EXAMPLES:
            schedule, fails = SHOWN[name]
            yield f"{name}: the card", ("example", name, None, name, True, True, schedule, fails), \
                (*(cards[name][key] for key in ("kind", "title", "program", "called", "play", "shows")),
                 cards[name]["run"]["schedule"], cards[name]["run"]["fails"])
            yield f"{name}: the steps", traced(schedule), cards[name]["run"]["drawn"]
        for name, sentence in TEACHES.items():
            if sentence is not None:
                yield f"{name}: what it teaches", sentence, cards[name]["teaches"]
        for name in names:
            graph, run, card = graph_in(text_in(folder, f"{name}.play.html")), run_in(folder, name), cards[name]
            yield f"{name}: what its pages call it", [card["called"]] * 2, [graph["name"], run["name"]]
            steps = [[f"{step['p']}.{step['s']}", step["o"]] for step in run["steps"]]
            yield f"{name}: the steps of its page", (len(steps), steps[-100:]), (card["run"]["steps"], card["run"]["drawn"])
            goals = [level["goal"] for level in data["levels"] if data["cards"][level["card"]] == card]
            yield f"{name}: the goal of its page", goals, \
                [] if graph["goal"] is None else [graph["ends"][graph["goal"]]["kind"]]
        yield "01_hand_over: its run is not as expected", False, run_in(folder, "01_hand_over")["expected"]


@checks.each("lab_gallery/levels.tsv")
def levels(fields):
    """The lines of levels: the status, and what is said; a folder without levels is not refused."""
    text, status, err = fields
    with folder_of(None if text == "-" else unescaped(text).decode()) as folder:
        said = lab("gallery", "made", folder=folder)
        there = os.path.exists(os.path.join(folder, "made", "index.html"))
    return (int(status), unescaped(err), status == "0"), (said.status, said.err, there)


@checks.others("gallery/folders")
def folders():
    """What can't be read or written."""
    with folder_of() as folder:
        said = lab("gallery", "made", "--examples", "nowhere", folder=folder)
        yield "no examples", (1, True, False), \
            (said.status, said.err.startswith(b"mta_lab: nowhere: ") and b"; --examples says where the examples are" in said.err,
             os.path.exists(os.path.join(folder, "made")))
        said = lab("gallery", "made", "--exercises", "examples", folder=folder)
        yield "no exercises", (1, b"mta_lab: examples: no exercise is here, as a folder 01_NAME; --folder says where they are\n"), \
            (said.status, said.err)
    with folder_of() as folder:
        os.makedirs(os.path.join(folder, "made", "lock.play.html"))
        said = lab("gallery", "made", folder=folder)
        yield "a page that can't be written", (1, b"mta_lab: made/lock.play.html: ", False), \
            (said.status, said.err[:30], os.path.exists(os.path.join(folder, "made", "index.html")))
    with folder_of() as folder:
        shutil.copy(os.path.join(EXAMPLES, "count.asm"), os.path.join(folder, "examples", "03_lock.asm"))
        said = lab("gallery", "made", folder=folder)
        yield "one name twice", (1, b"mta_lab: 03_lock: an exercise and an example have this name\n"), (said.status, said.err)
    with folder_of() as folder:
        shutil.rmtree(os.path.join(folder, "exercises", "03_lock", "wrong"))
        tool.write(os.path.join(folder, "exercises", "levels"), b"")
        said = lab("gallery", "made", folder=folder)
        cards = [card["name"] for card in gallery_in(folder)["cards"]]
        yield "no folder of wrong programs", (0, False), (said.status, "03_lock" in cards)
    with folder_of() as folder:
        tool.write(os.path.join(folder, "exercises", "01_hand_over", "wrong", "a_first.asm"),
                   text_of("01_hand_over", "solution.asm").encode())
        said = lab("gallery", "made", folder=folder)
        yield "a wrong program that is right", \
            (1, b"mta_lab: exercises/01_hand_over/wrong/a_first.asm: no run shows that it is wrong, so it has no card\n"), \
            (said.status, said.err)


@checks.others("gallery/names that are not UTF-8")
def foreign_names():
    """What is left out since its name is not UTF-8 is named; all else has its card."""
    with folder_of() as folder:
        examples, exercises = (os.path.join(os.fsencode(folder), name) for name in (b"examples", b"exercises"))
        for name in (b"l\xFCck.asm", b"\xE9.asm"):
            shutil.copy(os.path.join(examples, b"lock.asm"), os.path.join(examples, name))
        shutil.copy(os.path.join(examples, b"lock.ends.schedule"), os.path.join(examples, b"lock.\xFC.schedule"))
        shutil.copytree(os.path.join(exercises, b"03_lock"), os.path.join(exercises, b"04_\xFC"))
        shutil.copy(os.path.join(exercises, b"03_lock", b"start.asm"), os.path.join(exercises, b"03_lock", b"wrong", b"\xFF.asm"))
        # (these are none of what is looked for)
        os.mkdir(os.path.join(exercises, b"notes_\xFC"))
        tool.write(os.path.join(folder, "examples", "a.txt"), b"")
        os.rename(os.path.join(examples, b"a.txt"), os.path.join(examples, b"\xFC.txt"))
        left_out = ("exercises/04_\\xFC", "exercises/03_lock/wrong/\\xFF.asm", "examples/\\xE9.asm", "examples/l\\xFCck.asm",
                    "examples/lock.\\xFC.schedule")
        lines = "".join(f"mta_lab: {name}: its name is not UTF-8: rename it to have it read\n" for name in left_out)
        said = lab("gallery", "made", folder=folder)
        yield "what is said", (1, b"made/index.html: open it in a browser\n", lines.encode()), (said.status, said.out, said.err)
        yield "the cards", [*OF_EXERCISES, *OF_EXAMPLES], [card["name"] for card in gallery_in(folder)["cards"]]
        said = lab("exercise", folder=folder)
        yield "the list of exercises", (1, True, f"mta_lab: {left_out[0]}: its name is not UTF-8: rename it to have it read\n"), \
            (said.status, b"0 of 2 are done.\n" in said.out, said.err.decode())
        for name in OF_EXERCISES:
            shutil.rmtree(os.path.join(folder, "exercises", name))
        said = lab("gallery", "made", folder=folder)
        yield "no exercise beside it", (1, f"mta_lab: {left_out[0]}: its name is not UTF-8: rename it to have it read\n"), \
            (said.status, said.err.decode())


@checks.others("gallery/levels of this repository")
def shipped():
    """Each level names a program of the repository, and no exercise or example twice. Each exercise has one."""
    lines = [line for line in tool.read(os.path.join(EXERCISES, "levels")).decode().splitlines()
             if line and not line.startswith("#")]
    found = [re.fullmatch(r"(\w+?)(?:/(\w+))? (wrong|stopped|deadlock|spinning|broken): \S.*\.", line) for line in lines]
    yield "their form", [], [line for line, one in zip(lines, found) if one is None]
    names = [one[1] for one in found if one]
    yield "each once", sorted(set(names)), sorted(names)
    files = [os.path.join(EXERCISES, one[1], "wrong", f"{one[2]}.asm") if one[2] else os.path.join(EXAMPLES, f"{one[1]}.asm")
             for one in found if one]
    yield "their programs", [], [file for file in files if not os.path.exists(file)]
    yield "twenty at least", True, len(lines) >= 20
