"""The lab: its views against the traces of mta_sim, its schedules against their rules, its surveys, messages and
statuses."""

import glob
import json
import os
import re
import tempfile

import checks
import lab_worlds
import seed_rules
import table
import tool
import transcripts
from table import unescaped

EXAMPLES = os.path.join(table.ROOT, "examples")
CASES = os.path.join(table.CASES, "lab")
SEEDS = range(16)
# the most steps of the schedules that are compared with a second maker's
MOST = 400
# programs whose races a survey has to find within 200 seeds, and what it is to look at where they don't show in words
RACES = {
    "lock": None, "fetch_add": None, "bounded_buffer": None, "barrier": None,
    "readers_writer": b"register 4.0 r5 1  # the old word\nregister 4.0 r6 1  # with a new one the read is torn\n",
}


# examples with the streams that go wrong, which are left out of their right halves
CARELESS = {
    "lock": ("bare",), "barrier": ("one_gate",), "bounded_buffer": ("seven", "nine"),
    "readers_writer": ("careless_write", "careless_read"), "philosophers": ("fifth",), "producer_consumer": (), "future": (),
}
# how many random schedules each right half runs by, and the longest of them
SCHEDULES, LONGEST = 1000, "1500"


def lab(*words, given=b"", folder=EXAMPLES):
    """Calls the lab."""
    return tool.call(*words, given=given, folder=folder, program=tool.LAB)


def source_of(schedule):
    """The source of an example's schedule."""
    name = os.path.basename(schedule)
    while "." in name:
        name = name.rpartition(".")[0]
        path = os.path.join(EXAMPLES, name + ".asm")
        if os.path.exists(path):
            return path
    raise ValueError(f"no source of {schedule}")


def steps_text(steps):
    """A schedule of these steps, a line each."""
    return "".join(f"{p} {s}\n" for p, s in steps).encode()


@checks.others("lab/views")
def views():
    """Each example by each of its schedules: the outcomes are those of the trace, and the changes make its end."""
    for schedule in sorted(glob.glob(os.path.join(EXAMPLES, "*.schedule"))):
        yield os.path.basename(schedule), lambda schedule=schedule: view_as_traced(source_of(schedule), schedule)


def view_as_traced(source, schedule):
    run = lab_worlds.Run(lab("view", source, schedule, "--json").out)
    image = tool.asm(tool.read(source))
    trace = tool.trace(image, tool.read(schedule))
    *_, end = run.worlds()
    processors, slim = image[6] << 8 | image[7], image[8] << 8 | image[9]
    lines = [lab_worlds.trace_line(number, step) for number, step in enumerate(run.steps, start=1)]
    told = "".join(line + "\n" for line in lines).encode()
    return trace, told + lab_worlds.world_text(end, run.start(), processors, slim)


@checks.others("lab/schedules")
def schedules():
    """Made schedules take the streams that their rules say."""
    for name in ("lock", "fetch_add", "philosophers", "barrier"):
        for rule in ("rounds", "fair"):
            yield f"{rule} {name}", lambda rule=rule, name=name: (True, follows(rule, name))
        for seed in SEEDS:
            yield f"random {name} {seed}", lambda name=name, seed=seed: by_seed(name, seed)


def by_seed(name, seed):
    """The schedule of a seed, by the second maker, and as it is made: its steps and why it ends."""
    source = os.path.join(EXAMPLES, name + ".asm")
    steps, end = seed_rules.schedule_of_seed(tool.read(source).decode(), seed, MOST)
    made = lab("schedule", "random", source, "--steps", str(MOST), "--seed", str(seed))
    told = made.err.decode().partition(": ")[2].rstrip("\n")
    return (seed_rules.written(steps), end), (made.out.decode(), told)


def follows(rule, name):
    """Whether a made schedule takes the streams that the rule says, as long as the rule says."""
    source = os.path.join(EXAMPLES, name + ".asm")
    made = lab("schedule", rule, source, "--steps", str(MOST))
    with tempfile.NamedTemporaryFile(suffix=".schedule") as file:
        file.write(made.out)
        file.flush()
        run = lab_worlds.Run(lab("view", source, file.name, "--json").out)
    steps = [(step["p"], step["s"]) for step in run.steps]
    for number, (places, step) in enumerate(zip(run.worlds(), steps)):
        ready = lab_worlds.running(places)
        wanted = (seed_rules.in_rounds if rule == "rounds" else seed_rules.fairly)(steps[:number], ready)
        if step != wanted:
            return f"step {number + 1} is of {step}, and not of {wanted}"
    end = {"finished": b"nobody runs", "stopped": b"nobody runs", "deadlock": b"deadlock", "steps": b"ran out of steps"}
    if end[run.end["kind"]] not in made.err:
        return f"it ends in {run.end['kind']}, and is told to end so: {made.err!r}"
    return run.end["kind"] != "steps" or len(steps) == MOST


@checks.others("lab/right_halves")
def right_halves():
    """Where all words are guarded nothing is found, whatever the schedule."""
    for name, careless in CARELESS.items():
        yield name, lambda name=name, careless=careless: ([], findings_of(name, careless))


def findings_of(name, careless):
    """The findings that are told of runs of an example without some of its streams, by random schedules."""
    source = tool.read(os.path.join(EXAMPLES, name + ".asm"))
    for entry in careless:
        source = source.replace(f"        .entry {entry}\n".encode(), b"")
    found = []
    with tool.made_files(source=source) as paths:
        for seed in range(SCHEDULES):
            run = lab("view", paths["source"], "--seed", str(seed), "--steps", LONGEST).out
            found += [line for line in run.split(b"\n") if line.startswith((b"lost ", b"torn ", b"unread "))]
    return found


@checks.each("lab/seeds.tsv")
def seeded(fields):
    """The schedule of an example by a seed, as it is kept here: it stays what it was."""
    name, seed, steps = fields
    return unescaped(steps), lab("schedule", "random", name, "--seed", seed).out


@checks.others("lab/surveys")
def surveys():
    """Of each example with a race 200 seeds find more than one end, and mta_sim comes to each of them by its seed's
    schedule."""
    for name, expected in RACES.items():
        yield name, lambda name=name, expected=expected: (True, finds_race(name, expected))


def finds_race(name, expected):
    source = os.path.join(EXAMPLES, name + ".asm")
    with tool.made_files(expected=expected) as paths:
        judged = ("--expect", paths["expected"]) if expected else ()
        printed = lab("survey", source, "--seeds", "200", "--json", *judged).out
    found = [json.loads(line) for line in printed.decode().splitlines()]
    if sum(end["runs"] for end in found) != 200:
        return "the counts do not add up"
    if len(found) < 2:
        return "one end alone"
    image = tool.asm(tool.read(source))
    for end in found:
        trace = tool.trace(image, lab("schedule", "random", source, "--seed", end["seed"]).out)
        replayed = *lab_worlds.traced_end(trace), lab_worlds.missed_register(trace, expected)
        told = end["end"], end["steps"], lab_worlds.told_words(end["words"]), end["missed"]
        if replayed != told:
            return f"seed {end['seed']}: mta_sim comes to {replayed}, and the survey tells {told}"
    return True


@checks.others("lab/messages")
def messages():
    """Sources and schedules with faults, and what is said of each."""
    for wanted in sorted(glob.glob(os.path.join(table.CASES, "lab_check/expected/*"))):
        yield os.path.basename(wanted), lambda wanted=wanted: said_of(wanted)


def said_of(wanted):
    name = os.path.basename(wanted).removesuffix(".txt")
    ended = lab("check", name, folder=os.path.join(table.CASES, "lab_check"))
    return tool.read(wanted), ended.err


@checks.others("lab/help")
def helps():
    """The help of each command is no fault."""
    for command in ("check", "schedule", "view", "compare", "survey", "explore", "grade", "debug", "page", "picture", "asm", "explain", "word", "new", ""):
        ended = lab(*command.split(), "--help")
        yield f"help {command}", (0, b"", True), (ended.status, ended.err, b"Exit status:" in ended.out)


@checks.each("lab_check/sentences.tsv")
def sentences(fields):
    """A wrong text: the first line that is said of it."""
    name, text, said = fields
    with tempfile.TemporaryDirectory(prefix="mta-case-") as folder:
        tool.write(os.path.join(folder, name), unescaped(text))
        ended = lab("check", name, folder=folder)
    return (1, f"{name}:{said}"), (ended.status, ended.err.decode().split("\n", 1)[0])


@checks.others("lab/counts")
def counts():
    """At least ten wrong sources and ten wrong schedules are tried, and a command for each status."""
    names = [row.fields[0] for row in table.rows("lab_check/sentences.tsv")]
    for name in ("wrong.asm", "wrong.schedule"):
        yield name, True, names.count(name) >= 10
    statuses = {int(row.fields[2]) for row in table.rows("lab/commands.tsv")}
    statuses |= {transcripts.Transcript(file).status for file in transcripts.files() if file.startswith("lab/")}
    yield "statuses", set(range(6)), statuses


# a comment and names that would write over their line, or make rows of a table
COMMENTED = b".entry go\n.data 0 ; a\tcount\x1b[2K\x07\x7f\ngo: LIT\tr1, 1\n STORE.N\rr1, r0, 0\n QUIT\n"
FAULTY = b".entry go\n.data 0 ; \x1b[2K\ngo: QUITE\x1b[2K\x07 \x1b\n"
HOSTILE_NAMES = {"a\tright\t9 seeds\nb.asm": COMMENTED, "x\x1b[2K.asm": FAULTY, "\x7f\r.asm": COMMENTED}
# the same as they are written
WRITTEN_NAMES = ["a\\tright\\t9 seeds\\nb.asm", "x\\x1b[2K.asm", "\\x7f\\x0d.asm", "no\\tne\\n.asm"]
CONTROL = re.compile(rb"[\x00-\x09\x0b-\x1f\x7f]")
EXCERPT = re.compile(rb"(?m)^ *[0-9]* \| .*$")


@checks.others("lab/control_bytes")
def control_bytes():
    """No control byte of a comment or of a file's name is printed, by any command."""
    with tempfile.TemporaryDirectory(prefix="mta-case-") as folder:
        for name, text in {**HOSTILE_NAMES, "w.expect": b"word 0 1\n", "c.expect": b"always\tword 0 is 0 # \x1b\n",
                           "b\x07.schedule": b"0 0 2\x1b\n", "s.schedule": b"0 0 3\n"}.items():
            tool.write(os.path.join(folder, name), text)
        names = [*HOSTILE_NAMES, "no\tne\n.asm"]
        for words in ([], ["--explore"]):
            printed = lab("grade", *words, "--expect", "w.expect", *names, folder=folder).out.decode()
            rows = [line.split("\t") for line in printed.removesuffix("\n").split("\n")[1:]]
            yield (f"grade {words}", list(zip(WRITTEN_NAMES, ["right", "source fault", "right", "not read"], [3] * 4)),
                   [(row[0], row[1], len(row)) for row in rows])
        for name in names:
            # (it is the command line's own text)
            ended = lab("explore", f"--{name}", folder=folder)
            yield f"explore --{name}", (2, None), (ended.status, CONTROL.search(ended.out + ended.err))
            for words in (["check", name], ["check", "--as", "schedule", name], ["view", name], ["view", name, "--columns"],
                          ["view", name, "b\x07.schedule"], ["survey", name, "--seeds", "3"], ["explore", name],
                          ["explore", name, "--expect", "c.expect"], ["explore", name, "--expect", "b\x07.schedule"],
                          ["compare", name, "s.schedule", "s.schedule"], ["debug", name], ["schedule", "fair", name],
                          ["asm", name, "--out", "no\x1b/ne"], ["page", name, "--out", "no\x1b/ne"],
                          ["explore", name, "--dot", "no\x1b/ne"]):
                ended = lab(*words, given=b"list\nstep 2\nsave no\x1b/ne\n\x1b\x07\n", folder=folder)
                yield f"{words}", None, CONTROL.search(ended.out + EXCERPT.sub(without_tabs, ended.err))


def without_tabs(excerpt):
    """A line of a source as a message shows it: its tabs keep the mark below in its place."""
    return excerpt[0].replace(b"\t", b" ")


@checks.each("lab_explore/commands.tsv")
@checks.each("lab/commands.tsv")
def answers(fields):
    """A command line in a folder with the examples and some files beside them: its status, and what it prints."""
    line, files, status, out, err = fields
    with tempfile.TemporaryDirectory(prefix="mta-case-") as folder:
        for path in glob.glob(os.path.join(EXAMPLES, "*.*")):
            os.symlink(path, os.path.join(folder, os.path.basename(path)))
        for file in filter(None, files.split("|")):
            name, _, text = file.partition("=")
            tool.write(os.path.join(folder, name), unescaped(text))
        ended = lab(*line.split(), folder=folder)
    return (int(status), unescaped(out), unescaped(err)), (ended.status, ended.out, ended.err)
