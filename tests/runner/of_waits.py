"""Who waits at the end of a run, by a second reading: since which try, whose step turned the word last, and circles.
From the steps that `view` prints alone; docs/LAB_REFERENCE.md, "Texts", has the rules."""

import glob
import os

import checks
import lab_worlds
import table
import tool

EXAMPLES = os.path.join(table.ROOT, "examples")
SEEDS, LENGTHS = range(3), (11, 40, 400)
FULL = 1


def stream(step):
    return f"{step['p']}.{step['s']}"


def since(steps, name):
    """The first of the tries in vain with which a stream's steps end, counted from 1; 0 where there is none."""
    first = 0
    for number, step in reversed(list(enumerate(steps, start=1))):
        if stream(step) == name:
            if step["o"] != "blocked":
                break
            first = number
    return first


def turned(steps, word):
    """The last step that filled or emptied a word, and whose it was; 0 and None where none did."""
    for number, step in reversed(list(enumerate(steps, start=1))):
        for place, before, after in step["ch"]:
            if place == f"[{word}].tags" and before & FULL != after & FULL:
                return number, stream(step)
    return 0, None


def is_circle(circle, turners):
    """Whether these are two or more different streams, each of which waits for a word that the next one turned."""
    after = circle[1:] + circle[:1]
    return len(set(circle)) == len(circle) > 1 and all(turners.get(one) == two for one, two in zip(circle, after))


def has_circle(turners):
    """Whether there is one: from some stream the way leads back to it, over another one."""
    for first in turners:
        way, at = [], first
        while at in turners and at not in way:
            way.append(at)
            at = turners[at]
        if at == first and len(way) > 1:
            return True
    return False


def flaw_of(steps, end):
    """What the end tells of waits that its steps do not; an empty text where all agrees."""
    for wait in end["waiting"]:
        told = wait["since"], wait["made"], wait["by"]
        found = since(steps, wait["stream"]), *turned(steps, wait["word"])
        if told != found:
            return f"{wait['stream']}: told {told}, found {found}"
    turners = {wait["stream"]: wait["by"] for wait in end["waiting"]}
    circle = end["circle"]
    if circle and (end["kind"] != "deadlock" or not is_circle(circle, turners)):
        return f"{circle} is no circle"
    if not circle and end["kind"] == "deadlock" and has_circle(turners):
        return "there is a circle"
    return ""


@checks.others("lab/waits")
def waits():
    """Each example by some seeds, cut at some lengths."""
    for source in sorted(glob.glob(os.path.join(EXAMPLES, "*.asm"))):
        yield os.path.basename(source), lambda source=source: ("", waits_of(source))


def waits_of(source):
    for seed in SEEDS:
        for length in LENGTHS:
            ended = tool.call("view", source, "--seed", str(seed), "--steps", str(length), "--json", program=tool.LAB,
                              folder=EXAMPLES, given=b"")
            run = lab_worlds.Run(ended.out)
            flaw = flaw_of(run.steps, run.end)
            if flaw:
                return f"seed {seed}, {length} steps: {flaw}"
    return ""
