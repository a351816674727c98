"""The goal of `mta_lab play` that a stream waits forever while others go on: which streams are offered, beside a plain search
of rounds by the tests' own machine; when the page says that it is reached, beside the definitions of a fair round
(docs/LAB_REFERENCE.md, "Waiting forever"); and whether its hints lead there."""

import pathlib
import random
import sys

import runs
import tally
from of_verdicts import opened

sys.path.append(str(pathlib.Path(__file__).resolve().parent.parent / "spaces"))

import machine  # noqa: E402
import search  # noqa: E402
from lassos import Lassos  # noqa: E402
from starving import looping, stream_of  # noqa: E402

# how many random programs, how many worlds of one, and in how many steps the hints have to lead to a round
PROGRAMS, LEAST, MOST, HINTED = 300, 6, 120, 400
# two streams hand a word back and forth; the third one waits for a word that nobody fills
LEFT_OUT = """.entry give
.entry take
.entry late
.data 0
.data 0, 0
give: STORE.S r0, r0, 0
SKIP ALWAYS, 0, give
take: LOAD.S r1, r0, 0
SKIP ALWAYS, 0, take
late: LOAD.S r1, r0, 1
QUIT
"""
# a fourth one adds to a word of its own again and again: a round without a step of it is not fair
COUNTS = LEFT_OUT.replace(".entry late\n", ".entry late\n.entry adds\n").replace("QUIT\n", "QUIT\nadds: SKIP ALWAYS, 0, two\n"
                                                                                "two: SKIP ALWAYS, 0, adds\n")
# each waits for the other: nobody goes on, so this is a deadlock and no such goal
STUCK = ".entry one\n.entry one\n.data 0, 0\none: LOAD.S r1, r0, 0\nQUIT\n"
GOALS = """
  const nodes = [...byId("goals").children].filter((node) => String(node.dataset.goal).startsWith("waits"));
  return nodes.map((node) => node.textContent);
"""
TAKEN = """
  setGoal(null, names.indexOf(arguments[0]));
  extend(0, arguments[1].map((name) => names.indexOf(name)));
  goTo(way.length);
  return byId("result").hidden ? null : byId("result").textContent;
"""
HINT = """
  hint();
  const next = view.hinted;
  if (next !== null) take(next);
  return [next === null ? null : names[next], roundHere(view.waiter)?.from ?? -1, byId("told").textContent];
"""


def examples(page):
    """Who is offered, and when the goal is reached, of three programs."""
    opened(page, "left_out", LEFT_OUT)
    tally.same("left_out: the goals", page.script(GOALS), ["Make 2.0 wait forever"])
    # the word is full at first, so 0.0 waits until 1.0 has taken it
    around = ["1.0", "0.0", "0.0", "1.0"]
    tally.same("left_out: before the end of a round", page.script(TAKEN, "2.0", around[:3]), None)
    said = page.script(TAKEN, "2.0", around)
    tally.check("left_out: after a round", said.startswith("★Goal reached: 2.0 waits forever4 steps.The last 4 steps can be "
                "taken again and again: 1.0, 0.0, 0.0, 1.0. They lead back to the state after 0 steps.All that time 2.0 is "
                "blocked at late, also at each step of its own. 0.0 and 1.0 complete steps: no stream that could go on is "
                "left out."), said)
    lines = page.script("return resultText()").splitlines()
    tally.same("left_out: the result", lines[1:3], ["Goal: make 2.0 wait forever, reached", "State: in a round"])
    tally.check("left_out: the rule", "2.0 has to be blocked, and each stream that could complete a step has to complete one."
                in page.text("#lead"), page.text("#lead"))
    page.quiet("left_out")
    opened(page, "counts", COUNTS)
    tally.same("counts: the goals", page.script(GOALS), ["Make 2.0 wait forever"])
    tally.same("counts: a round without a step of 3.0", page.script(TAKEN, "2.0", around), None)
    said = page.script(TAKEN, "2.0", [*around, "3.0", "3.0"])
    tally.check("counts: with its steps", said is not None and "0.0, 1.0 and 3.0 complete steps" in said, said)
    opened(page, "stuck", STUCK)
    tally.same("stuck: the goals", page.script(GOALS), [])
    page.quiet("stuck")


def faults(lassos, program, stream, stem, around):
    """What a round is not that the page takes for one. A step that changes nothing may be put in anywhere."""
    world = search.world_after(program, stem)
    begin, ran, stepped, able, completed = world, lassos.running[world], set(), set(), set()
    for who in [*around, None]:
        ran &= lassos.running[world]
        able |= lassos.able[world]
        idle = [(one, outcome) for one, to, outcome in lassos.steps[world] if to == world]
        stepped |= {one for one, _ in idle}
        completed |= {one for one, outcome in idle if outcome != "blocked"}
        if who is not None:
            stepped.add(who)
            world, outcome = machine.step(program, world, *who)
            completed |= {who} if outcome != "blocked" else set()
    wrong = {"it does not come back": world != begin, "some stream has no step": not ran <= stepped,
             "some stream completes none": not able <= completed, "the stream does not wait": stream not in ran - able,
             "nobody goes on": not completed}
    return [what for what, is_so in wrong.items() if is_so]


def hinted(page, lassos, program, name):
    """What is wrong with the round to which the hints for a stream lead."""
    page.script("setGoal(null, names.indexOf(arguments[0]))", name)
    steps = []
    for _ in range(HINTED):
        who, begin, said = page.script(HINT)
        if who is None:
            return [f"no hint after {len(steps)} steps: {said}"]
        steps.append(stream_of(who))
        if begin >= 0:
            return faults(lassos, program, stream_of(name), steps[:begin], steps[begin:])
    return [f"no round after {HINTED} hints"]


def wandered(page, lassos, program, chance, name):
    """What is wrong with rounds that the page sees on a random way."""
    page.script("setGoal(null, names.indexOf(arguments[0]))", name)
    steps = []
    for _ in range(60):
        able = page.script("return ableIn(here()).map((k) => names[k])")
        if not able:
            return
        steps.append(stream_of(chance.choice(able)))
        begin = page.script("take(names.indexOf(arguments[0])); return roundHere(view.waiter)?.from ?? -1", "%d.%d" % steps[-1])
        if begin >= 0:
            yield from faults(lassos, program, stream_of(name), steps[:begin], steps[begin:])


def at_random(page):
    """Of random programs with loops: the streams that are offered are those that the search finds."""
    wrong, offered, others = [], 0, 0
    for seed in range(PROGRAMS):
        chance = random.Random(seed)
        made = looping(chance)
        space = search.Space(made.program, (), MOST)
        if not space.is_whole or len(space.distance) < LEAST:
            continue
        lassos = Lassos(space)
        wanted = sorted("%d.%d" % stream for stream in lassos.starving(is_beside_others=True))
        opened(page, f"waiting{seed}", made.text.decode())
        said = page.script("return waiters.map((one) => names[one.k])")
        if sorted(said) != wanted:
            wrong.append((seed, said, wanted))
        others += not wanted and bool(lassos.starving())
        for name in said:
            offered += 1
            found = [*hinted(page, lassos, made.program, name), *wandered(page, lassos, made.program, chance, name)]
            if found:
                wrong.append((seed, name, found[:2]))
    tally.same("random programs: who can wait forever", wrong[:4], [])
    tally.check("random programs: some can, and some only in a deadlock", offered > 20 and others > 5, (offered, others))
    page.quiet("random programs")


def part(page):
    """All of them."""
    if runs.has_pages():
        examples(page)
        at_random(page)
