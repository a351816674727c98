"""Who can wait forever, what leads to what, also where streams may rest, and who is overtaken: the programs of
tests/cases/lab_waiting, beside what textbooks say of them. Each schedule that is shown, with its round twice, is run by mta_sim:
it comes back, and a stream that waits is blocked at each of its steps after the schedule. `view` and `page` mark the round, and
`play` has the same runs."""

import json
import os
import re
import tempfile

import checks
import table
import tool
from of_lab import lab
from of_pages import run_in, written
from of_play import graph_in, played

FOLDER = os.path.join(table.CASES, "lab_waiting")
# the file of a run that evades a condition, by the condition's number
EVADING = re.compile(r"evading_(\d+)\.schedule")
# a line of which a page of `play` says whether all runs keep it
ABOUT_RUNS = re.compile("never starved| leads to | is overtaken ")
# a line of a trace: its number, the stream, and what became of the step
STEP = re.compile(rb"^ *\d+ +(\d+) +(\d+) .*?(\w+)$")


@checks.each("lab_waiting/locks.tsv")
def waits(fields):
    """Who can wait forever, and where; what is not so of what is shown."""
    name, wanted, _ = fields
    source = os.path.join(FOLDER, f"{name}.asm")
    with tempfile.TemporaryDirectory(prefix="mta-case-") as folder:
        kept = os.path.join(folder, "kept")
        ended = lab("explore", source, "--waiting", "--json", "--keep", kept)
        objects = [json.loads(line) for line in ended.out.splitlines()]
        said, = (it for it in objects if it["object"] == "waiting")
        shown = [it for it in objects if it["object"] == "starving"]
        faults = [fault for it in shown for fault in faults_of(source, folder, kept, it)]
        faults += faults_of_starved_page(source, folder, shown)
    got = ", ".join(f"{it['stream']} {it['place']}" for it in shown)
    return (wanted, True, not wanted, [], []), (got, said["decided"], said["nobody"], said["undecided"], faults)


@checks.each("lab_waiting/overtaken.tsv")
@checks.each("lab_waiting/leads.tsv")
@checks.each("lab_waiting/rests.tsv")
def leads(fields):
    """Which lines some run does not keep; what is not decided; what is not so of what is shown, and whether the statuses are those
    of a broken line."""
    name, lines, wanted, _ = fields
    source = os.path.join(FOLDER, f"{name}.asm")
    with tempfile.TemporaryDirectory(prefix="mta-case-") as folder:
        expected, kept = os.path.join(folder, "a.expect"), os.path.join(folder, "kept")
        with open(expected, "w", encoding="ascii") as file:
            file.write("loops\n" + "".join(line.strip() + "\n" for line in lines.split(";")))
        ended = lab("explore", source, "--expect", expected, "--json", "--keep", kept)
        objects = [json.loads(line) for line in ended.out.splitlines()]
        shown = [it for it in objects if it["object"] == "evading"]
        undecided = [it for it in objects if it["object"] == "undecided"]
        graded = lab("grade", source, "--explore", "--expect", expected, "--json")
        faults = [fault for it, file in zip(shown, evading_files(kept), strict=True) for fault in faults_of_run(source, folder, file, it)]
        faults += faults_of_page(source, folder, expected, shown)
    numbers = sorted({it["claim"]["line"] - 1 for it in shown})
    verdict = "wrong" if wanted else "right"
    status = 3 if wanted else 0
    return ((wanted, [], [], status, verdict, status),
            (", ".join(map(str, numbers)), undecided, faults, ended.status, json.loads(graded.out)["verdict"], graded.status))


def faults_of_page(source, folder, expected, shown):
    """What is not so of a page of `play`: of each line about runs it has whether `explore` shows a run that does not keep it,
    and that run."""
    _, page = played(folder, source, "--expect", expected)
    with open(expected, encoding="ascii") as file:
        lines = [line.strip() for line in file if ABOUT_RUNS.search(line)]
    broken = {}
    for it in shown:
        broken.setdefault(it["claim"]["text"], it)
    judged = graph_in(page)["runs"] if page else []
    if [(one["line"], one["kept"]) for one in judged] != [(line, line not in broken) for line in lines]:
        yield "play: it judges other lines, or in another way"
    for one in judged:
        it = broken.get(one["line"])
        parts = it and (steps_in(it["schedule"] + it["way"]), steps_in(it["round"] or []), it["follows"])
        if it and parts != (steps_of(one["schedule"]), steps_of(one["round"]), one["follows"]):
            yield f"play: another run for {one['line']}"


def faults_of_starved_page(source, folder, shown):
    """What is not so of a page of `play` with `never starved`: it has the first stream that `explore` shows."""
    expected = os.path.join(folder, "starved.expect")
    with open(expected, "w", encoding="ascii") as file:
        file.write("loops\nnever starved\n")
    _, page = played(folder, source, "--expect", expected)
    one, = graph_in(page)["runs"] if page else [{}]
    got = [steps_of(one.get("schedule", "")), steps_of(one.get("round", ""))]
    wanted = [steps_in(shown[0]["schedule"]), steps_in(shown[0]["round"])] if shown else [[], []]
    if (one.get("line"), one.get("kept"), got) != ("never starved", not shown, wanted):
        yield f"play: {one}"


def steps_in(turns):
    """The steps of turns."""
    return [(p, s) for p, s, count in turns for _ in range(count)]


def steps_of(schedule):
    """The steps of a schedule's text."""
    return steps_in([int(number) for number in line.split()] for line in schedule.splitlines())


def evading_files(kept):
    """The files of whole runs that evade conditions, in the conditions' order."""
    named = [EVADING.fullmatch(file) for file in (os.listdir(kept) if os.path.isdir(kept) else [])]
    return [os.path.join(kept, it[0]) for it in sorted((it for it in named if it), key=lambda it: int(it[1]))]


def faults_of_run(source, folder, file, it):
    """What is not so of the kept run of a condition: with its round twice it ends as with its round once."""
    image, once = os.path.join(folder, "a.image"), os.path.join(folder, "once.schedule")
    tool.call("asm", source, image)
    size = sum(count for _, _, count in it["round"] or [])
    with open(once, "w", encoding="ascii") as written_to:
        written_to.write("".join(f"{p} {s}\n" * count for p, s, count in it["schedule"] + it["way"]))
    if world_of(tool.call("run", image, once).out) != world_of(tool.call("run", image, file).out):
        yield f"{os.path.basename(file)}: the round of {size} steps does not come back"


def faults_of(source, folder, kept, it):
    """What is not so of a stream that is shown."""
    name, image = it["stream"], os.path.join(folder, "a.image")
    tool.call("asm", source, image)
    stem, whole = (tool.call("run", image, os.path.join(kept, f"waiting_{name}{end}.schedule")).out
                   for end in ("_stem", ""))
    if world_of(stem) != world_of(whole):
        yield f"{name}: the round does not come back"
    lines = [STEP.match(line) for line in whole[:whole.find(b"processor 0 ")].splitlines()]
    own = [line for line in lines[it["steps"]:] if line and b"%s.%s" % line.groups()[:2] == name.encode()]
    if not own or any(line[3] != b"BLOCKED" for line in own):
        yield f"{name}: it is not blocked at each step"
    size = sum(count for _, _, count in it["round"])
    words = (source, os.path.join(kept, f"waiting_{name}.schedule"), "--round", str(size))
    wanted = {"after": it["steps"], "steps": size, "times": 2}
    viewed = [json.loads(line) for line in lab("view", *words, "--json").out.splitlines()]
    if [one for one in viewed if one["object"] == "round"] != [{"object": "round", "version": 2, **wanted}]:
        yield f"{name}: view does not mark the round"
    _, page, _ = written("page", *words)
    if not page or run_in(page).get("round") != wanted:
        yield f"{name}: page does not mark the round"


def world_of(trace):
    """The world that a run ends in."""
    begin = trace.find(b"processor 0 ")
    return trace[begin:] if begin >= 0 else None
