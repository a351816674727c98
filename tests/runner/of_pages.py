"""Pages and pictures of runs: the run in a page against what `view` tells of it, waits that are worked out anew from its
steps, two runs in a page, the pages of the ends of `explore`, the policy, and texts of a program that look like markup."""

import base64
import glob
import hashlib
import html
import json
import os
import re
import tempfile
import xml.etree.ElementTree

import checks
import origins
import schemas
import tool
from of_lab import EXAMPLES, lab, source_of

HOSTILE = """; </script><script>alert(1)</script> @RUN@ @SCRIPT@ <!-- <img src=x onerror=alert(1)>
 .entry go
 .data 0 ; </title><b>"quoted" & 'more'
go: LIT r1, 7 ; @TITLE@ ]]> \\u003c
 STORE.N r1, r0, 0
 QUIT
"""


def written(command, *words):
    """The status of a command that writes a file, what it says, and the file's text."""
    with tempfile.TemporaryDirectory(prefix="mta-case-") as folder:
        path = os.path.join(folder, "made")
        ended = lab(command, *words, "--out", path)
        text = tool.read(path).decode() if os.path.exists(path) else None
        return ended, text, os.listdir(folder)


def run_in(page):
    """The run in a page, which is kept for its schema."""
    text = re.search(r'<script type="application/json" id="run">(.*?)</script>', page, re.DOTALL).group(1)
    schemas.SEEN.line(text)
    return json.loads(text)


@checks.others("pages/runs")
def runs():
    """Each example by each of its schedules, and by random ones."""
    for schedule in sorted(glob.glob(os.path.join(EXAMPLES, "*.schedule"))):
        yield os.path.basename(schedule), lambda schedule=schedule: page_as_viewed(source_of(schedule), schedule)
    for source in sorted(glob.glob(os.path.join(EXAMPLES, "*.asm"))):
        words = ("--seed", "3", "--steps", "400")
        yield os.path.basename(source), lambda source=source, words=words: page_as_viewed(source, *words)


def page_as_viewed(source, *words):
    _, page, _ = written("page", source, *words)
    run = run_in(page)
    head, *steps, end = [json.loads(line) for line in lab("view", source, *words, "--json").out.decode().splitlines()]
    for part in (*steps, end):
        del part["version"], part["object"]
    del end["words"], end["more_findings"]
    name = os.path.basename(source).removesuffix(".asm")
    wanted = {key: head[key] for key in ("version", "source", "program", "data", "names", "start")}
    wanted |= {"name": name, "steps": steps, "waits": waits_of(run), "findings": end.pop("findings"), "end": end}
    got = {key: run[key] for key in wanted}
    return json.dumps(wanted, sort_keys=True).encode(), json.dumps(got, sort_keys=True).encode()


def waits_of(run):
    """The waits of a run by its steps alone: a blocked reference waits for the state that its word is not in."""
    full, turned, waits, now = {}, {}, [], {}
    address = 0
    for count, _, tags in run["start"]["memory"]:
        for _ in range(count):
            full[address] = tags & 1
            address += 8
    for number, step in enumerate(run["steps"], start=1):
        stream = f"{step['p']}.{step['s']}"
        wait = now.get(stream)
        word = step["ref"][3] if step["o"] == "blocked" else None
        if wait and wait["word"] == word:
            wait["tries"] += 1
        elif step["o"] != "skipped":
            if wait:
                turn = turned.get(wait["word"], 0)
                wait["to"], wait["met"] = number, turn if step["o"] == "done" and turn > wait["from"] else 0
                del now[stream]
            if word is not None:
                now[stream] = {"stream": stream, "word": word, "for": "empty" if full[word] else "full", "from": number,
                               "tries": 1, "made": turned.get(word, 0), "to": None, "met": 0}
                waits.append(now[stream])
        for place, before, after in step["ch"]:
            if place.endswith("].tags") and before % 2 != after % 2:
                word = int(place[1:].split("]")[0])
                full[word], turned[word] = after % 2, number
    return waits


# pairs of runs, by a program's name and two schedules, or two seeds
PAIRS = (
    ("lock", "lock.ends.schedule", "lock.lost_update.schedule"),
    ("readers_writer", "readers_writer.ends.schedule", "readers_writer.torn_read.schedule"),
    ("lock", "lock.ends.schedule", "lock.ends.schedule"),
    ("lock", "3", "8", "--seeds"),
    ("philosophers", "1", "2", "--seeds", "--steps", "30"),
)


@checks.others("pages/pairs")
def pairs():
    """Of two runs in a page each is as in a page of its own, and they differ where `compare` says it."""
    for name, *words in PAIRS:
        yield " ".join([name, *words]), lambda name=name, words=words: pair_as_compared(f"{name}.asm", *words)


def pair_as_compared(source, one, other, *options):
    page = written("page", source, one, other, *options)[1]
    pair = run_in(page)
    told = [json.loads(line) for line in lab("compare", source, one, other, *options, "--json").out.splitlines()]
    difference = next((value for value in told if value["object"] == "difference"), None)
    names = [f"the random schedule of seed {seed}" for seed in (one, other)] if options else [one, other]
    ways = [["--seed", it, *options[1:]] if options else [it] for it in (one, other)]
    alone = [run_in(written("page", source, *way)[1]) for way in ways]
    parts = ("steps", "waits", "findings", "why", "end")
    wanted = {key: alone[0][key] for key in ("version", "name", "source", "program", "data", "names", "start", "slim")}
    wanted |= {"object": "pair", "schedule": " and ".join(names), "difference": difference, "runs": [
        {"schedule": name, **{part: run[part] for part in parts}} for name, run in zip(names, alone)]}
    return json.dumps(wanted, sort_keys=True), json.dumps(pair, sort_keys=True)


BOUNDED = ("grading/submissions/racing.asm", "--plain")
# one of two streams waits forever, and either may
HELD = "grading/submissions/never_given_back.asm"
MAY_WAIT = b"waits 0.0 in count..count\nwaits 1.0 in count..count\n"
# searches, each by the words behind `explore`, with the file of what is required, if it has one
SEARCHES = {
    "lock.asm": (("lock.asm",), None),
    "race, judged": (("grading/submissions/racing.asm",), b"word 8 4\nnever word 8 is 3\n"),
    "claim broken on the way": (("grading/submissions/racing.asm",), b"never word 8 is 1\n"),
    "deadlock, judged": (("grading/submissions/never_given_back.asm",), b"word 8 4\n"),
    "streams may wait": ((HELD,), MAY_WAIT + b"word 8 1\n"),
    "streams may wait, another line is missed": ((HELD,), MAY_WAIT + b"word 8 4\n"),
    "streams may wait, a line is not decided": ((HELD,), MAY_WAIT + b"each of 0.0 1.0 writes word 8\n"),
    "streams may wait where a claim is broken": ((HELD,), MAY_WAIT + b"always at least 2 of 0.0 1.0 in count..count+4\n"),
    "one of two streams may wait": ((HELD,), b"waits 0.0 in count..count\n"),
    "a stream that loops alone": (("future.asm",), b"never busy\n"),
    "shown by no state": (("grading/submissions/racing.asm",), b"some word 8 is 3\n"),
    "a rule of programs": (("grading/submissions/racing.asm",), b"some word 8 is 3\nrequire FADD\n"),
    "not decided: who does the work": (("grading/submissions/racing.asm",), b"finished\neach of 0.0 1.0 writes word 8\n"),
    # (the search has 40 states)
    "not decided: a claim, by a bound": ((*BOUNDED, "--states", "39"), b"finished\nsome word 8 is 3\n"),
    "not decided: never busy, by a bound": ((*BOUNDED, "--states", "39"), b"finished\nnever busy\n"),
    "a stream that can wait forever": (("reading_room.asm",), b"never starved\n"),
    "nobody waits forever": (("lock.asm",), b"finished\nnever starved\n"),
    "not decided: never starved, by a bound": ((*BOUNDED, "--states", "39"), b"finished\nnever starved\n"),
    "shown, with a bound": ((*BOUNDED, "--states", "39"), b"finished\nsome word 8 is 1\n"),
}
# the lines that a search that came to a bound does not decide, where it has not shown them
OPEN = ("some word 8 is 3", "never busy")


@checks.others("pages/ends")
def ends():
    """The page of each end of a search: its name, its steps, whether the end is as expected, and whether all may wait there."""
    for name, (words, required) in SEARCHES.items():
        yield name, lambda words=words, required=required: pages_of_ends(words, required)


def pages_of_ends(words, required):
    with tempfile.TemporaryDirectory(prefix="mta-case-") as folder, tool.made_files(required=required or b"") as paths:
        made = os.path.join(folder, "new")
        words = [*words, *(["--expect", paths["required"]] if required else [])]
        search, *told = map(json.loads, lab("explore", *words, "--pages", made, "--json").out.splitlines())
        got = {name: run_in(tool.read(os.path.join(made, name)).decode()) for name in sorted(os.listdir(made))}
    ends = [end for end in told if end["object"] == "search_end"]
    whole, is_judged = line_of_the_whole(told), bool(required) and not leaves_a_line(search, told, required)
    waiting = [end["schedule"] for end in ends if end["end"] == "waiting"]
    wanted = {f"{number}_{end['end']}.html": (*judged_as(end, required, whole, is_judged), end["schedule"] in waiting or None)
              for number, end in enumerate(ends, start=1)}
    return wanted, {name: (steps_in(run), *map(run.get, ("expected", "missed", "may_wait"))) for name, run in got.items()}


# a stream that counts down from 50,000, in 100,002 steps; and one that does so only where it finds a word empty of its 1,
# so that it takes 4 steps before and 3 behind, and the other stream 3
COUNTS = " .slim 1\n .entry go\n .data 0\ngo: LIT r2, 50000\nmore: SUB.T r2, r2, 1\n SKIP NE, 0, more\n QUIT\n"
MAY_COUNT = """ .slim 1
 .entry wait
 .entry set
 .data 0
 .data 0
wait: LOAD.N r1, r0, 0
 SUB.T r0, r1, 1
 SKIP EQ, 0, done
 LIT r2, 50000
more: SUB.T r2, r2, 1
 SKIP NE, 0, more
 LIT r3, 7
 STORE.N r3, r0, 1
done: QUIT
set: LIT r1, 1
 STORE.N r1, r0, 0
 QUIT
"""
TOO_LONG = "mta_lab: warning: made/{}: not written: a run of {} steps, and no more than 100000 are shown\n"


@checks.others("pages/left_out")
def left_out():
    """A file that can't be written costs itself alone: the ends and the other files are as ever. That a run is too long for a
    page is a warning, unless no page is written."""
    yield "one run of two is too long", lambda: (
        (0, True, TOO_LONG.format("2_finished.html", 100_010), ["1_finished.html"]), made_by(MAY_COUNT, "--pages"))
    yield "each run is too long", lambda: (
        (1, True, TOO_LONG.format("1_finished.html", 100_002) + "mta_lab: made: no page is written\n", []),
        made_by(COUNTS, "--pages"))
    racing = tool.read(os.path.join(EXAMPLES, "grading/submissions/racing.asm")).decode()
    for option, first, second in (("--pages", "1_finished.html", "2_finished.html"), ("--keep", "1.schedule", "2.schedule")):
        yield f"a folder in the place of {first}", lambda option=option, first=first, second=second: (
            (1, True, f"mta_lab: made/{first}: not written: it is not a regular file\n", [first, second]),
            made_by(racing, option, first))


def made_by(text, option, taken=None):
    """The status of a search that writes files into a folder, in which one name may be taken; whether it prints what it does
    without them; what it says; and what is in the folder then."""
    with tempfile.TemporaryDirectory(prefix="mta-case-") as folder:
        tool.write(os.path.join(folder, "p.asm"), text.encode())
        if taken:
            os.makedirs(os.path.join(folder, "made", taken))
        printed = lab("explore", "p.asm", folder=folder).out
        ended = lab("explore", "p.asm", option, "made", folder=folder)
        return ended.status, ended.out == printed, ended.err.decode(), sorted(os.listdir(os.path.join(folder, "made")))


def line_of_the_whole(told):
    """The first line that the program as a whole does not meet, whatever the end; None where it meets all."""
    lines = [value["broken"] for value in told if value["object"] == "rule"]
    lines += [value["claim"] for value in told if value["object"] == "unshown"]
    lines += [value["claim"] for value in told if value.get("end") == "broken" and value["claim"]["text"] == "never busy"]
    lines += [value["claim"] for value in told if value["object"] == "broken"]
    return lines[0] if lines else None


def leaves_a_line(search, told, required):
    """Whether the search does not decide a line that is required of the program as a whole."""
    is_open = any(line in OPEN for line in required.decode().splitlines())
    return any(value["object"] == "undecided" for value in told) or (is_open and not search["complete"])


def judged_as(end, required, whole, is_judged):
    """The steps to an end; whether it is as expected, and the line that says that it is not. One that is as expected is not
    judged where a line is left."""
    steps = [f"{p}.{s}" for p, s, count in end["schedule"] for _ in range(count)]
    line = end["missed"] or end["claim"] or (whole if end["expected"] else None)
    expected = end["expected"] and whole is None
    return steps, expected if required and (is_judged or not expected) else None, line["text"] if line else None


def steps_in(run):
    return [f"{step['p']}.{step['s']}" for step in run["steps"]]


@checks.others("pages/findings")
def findings():
    """Runs of which it was worked out by hand what went wrong in them; steps count from 1."""
    lost = {"kind": "lost", "word": 8, "read": 2, "over": 4, "stored": 7}
    torn = {"kind": "torn", "stale": 0, "fresh": 8, "reads": [1, 6], "writes": [3, 4]}
    for name, schedule, wanted in (("lock", "lock.lost_update", [lost]), ("lock", "lock.ends", []),
                                   ("readers_writer", "readers_writer.torn_read", [torn])):
        yield schedule, lambda name=name, schedule=schedule, wanted=wanted: (wanted, found_in(name, schedule))


def found_in(name, schedule):
    _, page, _ = written("page", f"{name}.asm", f"{schedule}.schedule")
    return run_in(page)["findings"]


# a stream that starts another one, calls, takes its status word and traps; each writes what others don't
WRITERS = """ .slim 3
 .trap back
 .entry go
 .data 5
 .data 0
go: LIT r3, 2
 LITH r3, 0
 RESERVE r4, r3
 TLIT t1, other
 CREATE t1, r4
 FADD.N r3, r0, 1 | ADD r9, r3, r4 | CREATE t1, r0
 TLIT t3, more
 CALL t3, t2
more: TGET r5, t2
 TSET t4, r5
 TLIT t4, after
 XCHG t4
after: TAGGET r6, r0, 0 | XOR r7, r6, r5 | XGET r8
 LIT r6, 3
 LOAD.S r6, r6, 0
 QUIT
other: LOAD.S r2, r0, 0 | ADD r3, r1, r1
 STORE.S r2, r0, 0 | MUL r2, r2, 9
 TAGSET r1, r0, 1
 PTR r9, r1, r1
 FADD.N r2, r0, 1 | QUITP
back: XCHG t0
 QUIT
"""
SPINS = " .slim 1\n .entry go\n .data 0\ngo: ADD r1, r1, 1 | SKIP ALWAYS, 0, go\n"


@checks.others("pages/why")
def why():
    """What each step wrote, what it read for that, and who had written it: as a second reading of the steps says. Of 10,001
    steps a page does not say it."""
    for schedule in sorted(glob.glob(os.path.join(EXAMPLES, "*.schedule"))):
        yield os.path.basename(schedule), lambda schedule=schedule: origins_in(source_of(schedule), schedule)
    for source in sorted(glob.glob(os.path.join(EXAMPLES, "*.asm"))):
        words = ("--seed", "5", "--steps", "300")
        yield os.path.basename(source), lambda source=source, words=words: origins_in(source, *words)
    for seed in map(str, range(8)):
        yield f"all that writes, seed {seed}", lambda seed=seed: origins_of(WRITERS, "--seed", seed, "--steps", "200")
    yield "10,000 steps", lambda: origins_of(SPINS, "--steps", "10000")
    yield "10,001 steps", lambda: (None, why_of(SPINS, "--steps", "10001")["why"])


def origins_in(source, *words):
    run = run_in(written("page", source, *words)[1])
    return origins.why(run), run["why"]


def why_of(text, *words):
    with tool.made_files(source=text.encode()) as paths:
        return run_in(written("page", paths["source"], *words)[1])


def origins_of(text, *words):
    run = why_of(text, *words)
    return origins.why(run), run["why"]


@checks.others("pages/safety")
def safety():
    """A program whose texts look like markup and like the places of the page."""
    yield "hostile", hostile
    yield "one page for all", lambda: (frame(written("page", "lock.asm")[1]), frame(written("page", "future.asm")[1]))
    said = "the random schedule of seed 0 and the random schedule of seed 1"
    yield "hostile, two runs", lambda: hostile("0", "1", "--seeds", said=said)


def frame(page):
    """A page without its title and its run: whatever the run is, it is the same."""
    return re.sub(r"<title>.*?</title>|(?<=id=\"run\">).*?(?=</script>)", "", page, flags=re.DOTALL)


def hostile(*words, said="a fair schedule"):
    title = "</title><script>'\"&@RUN@"
    with tool.made_files(source=HOSTILE.encode()) as paths:
        ended, page, made = written("page", paths["source"], *words, "--title", title)
    if ended.status or not ended.out.endswith(b"/made: open it in a browser\n") or ended.err or made != ["made"]:
        return True, (ended.status, ended.out, ended.err, made)
    told = re.search(r"<title>(.*?)</title>", page).group(1)
    script = re.search(r"<script>(.*?)</script>", page, re.DOTALL).group(1)
    style = re.search(r"<style>(.*?)</style>", page, re.DOTALL).group(1)
    policy = re.search(r'Content-Security-Policy"\s+content="(.*?)"', page, re.DOTALL).group(1)
    wanted = (f"{title}, {said}", HOSTILE.splitlines(), 2, 1, True)
    hashes = all(f"'sha256-{base64.b64encode(hashlib.sha256(text.encode()).digest()).decode()}'" in policy
                 for text in (script, style))
    run = run_in(page)
    return wanted, (html.unescape(told), run["source"], page.count("<script"), page.count("<title>"), hashes)


@checks.others("pages/pictures")
def pictures():
    """Each example by each of its schedules: the picture is well formed, and has a sign for each step."""
    for schedule in sorted(glob.glob(os.path.join(EXAMPLES, "*.schedule"))):
        yield os.path.basename(schedule), lambda schedule=schedule: signs(source_of(schedule), schedule)


def signs(source, schedule):
    steps = lab("view", source, schedule, "--json").out.decode().splitlines()[1:-1]
    if len(steps) > 500:
        return 1, written("picture", source, schedule)[0].status
    _, picture, _ = written("picture", source, schedule)
    found = [node.get("class") for node in xml.etree.ElementTree.fromstring(picture).iter()]
    outcomes = [json.loads(step)["o"].split()[0] for step in steps]
    # the legend has one of each of these
    legend = {"done": 1, "blocked": 1, "trapped": 1}
    names = ("done", "blocked", "trapped", "stopped")
    return ({name: outcomes.count(name) for name in names},
            {name: found.count(name) - legend.get(name, 0) for name in names})
