"""What the page of `mta_lab play` says of all schedules, of right and wrong, of the steps that `--from` gives, and how it
names its ends: those that differ in tags alone, in words that a short name has no room for, or that never end."""

import pathlib
import re

import runs
import tally


def two(first, second, head=".data 0"):
    """A program of two streams with these words."""
    words = [f"{name}: {body[0]}" if not at else line for name, body in (("one", first), ("two", second))
             for at, line in enumerate(body)]
    return "\n".join([".entry one", ".entry two", *head.splitlines(), *words, ""])


STORES = ("LIT r1, 1", "STORE.N r1, r0, 0", "QUIT")
ADDS = ("LOAD.N r1, r0, 0", "ADD r1, r1, 1", "STORE.N r1, r0, 0", "QUIT")
# a stream that reads a word until another one has stored there: by two words, or by one that leads to itself
POLLS = ("LOAD.N r1, r0, 0", "ADD.T r2, r1, 0", "SKIP EQ, 0, -3", "QUIT")
POLLS_BY_ONE = ("LOAD.N r1, r0, 0 | LTU.T r2, r1, 1 | SKIP NE, 0, -1", "QUIT")
TAKES = ("LOAD.S r1, r0, 0", "QUIT")
LOOPS = ("SKIP ALWAYS, 0, -1",)
# takes the word, stores it again, and so on
LOCKS = ("LOAD.S r1, r0, 0", "STORE.S r1, r0, 0", "SKIP ALWAYS, 0, -3")
# two steps again and again
TURNS = ("ADD r1, r0, 1", "SKIP ALWAYS, 0, -2")
# 1.0 is never there
NOWHERE = "0.0 in one leads to 1.0 in one"
OVERTAKEN = "0.0 in one is overtaken at most 1 times by 1.0 at two+1"
KNOWN = "This page knows every schedule"
WORK = "each of 0.0 1.0 writes word 0"
LEAST = "at least 2 streams store to words 0..0"
NOT_JUDGED = f", as far as this page judges. It does not judge \u201c{WORK}\u201d."
# what is expected, the schedule that all begin with, and what the page says of all schedules
LEADS = {
    "stores": (two(STORES, STORES), "word 0 1", "", "there is", "Every schedule ends right: you can\u2019t break it."),
    "polls": (two(POLLS, STORES), "word 0 1", "", "there is", "Every schedule that ends, ends right."),
    "polls_by_one": (two(POLLS_BY_ONE, STORES), "word 0 1", "", "there is", "Every schedule that ends, ends right."),
    # 1.0 does no work: a page does not judge the line that says so
    "work": (two(STORES, ("QUIT",)), f"word 0 1\n{WORK}", "", "there is", f"Every schedule ends right{NOT_JUDGED}"),
    "work_alone": (two(STORES, ("QUIT",)), WORK, "", "there is", f"Every schedule ends right{NOT_JUDGED}"),
    "work_polls": (two(POLLS, STORES), f"word 0 1\n{WORK}", "", "there is",
                   f"Every schedule that ends, ends right{NOT_JUDGED}"),
    "work_begun": (two(STORES, ("QUIT",)), f"word 0 1\n{WORK}\n{LEAST}", "0 0 1\n", "that begins so",
                   f"Every schedule that begins so ends right{NOT_JUDGED[:-1]} and \u201c{LEAST}\u201d."),
    "work_wrong": (two(STORES, ("QUIT",)), f"word 0 3\n{WORK}", "", "there is",
                   f"No schedule ends right (expected: \u201cword 0 3\u201d and \u201c{WORK}\u201d (not judged on "
                   "this page))."),
    # a try that is blocked is no step that goes on
    "takes": (two(TAKES, STORES, ".retry 3\n.data 0, 0"), "finished", "", "there is", ""),
    "waits": (two(TAKES, STORES, ".data 0, 0"), "finished", "", "there is",
              "Every schedule ends right: you can\u2019t break it."),
    # what loops as it may has no end that would be right: only its loops are
    "loops": (two(LOOPS, ("QUIT",)), "loops\nword 0 0", "", "there is", "No schedule ends: each runs forever, as it may."),
    "loops_begun": (two(LOOPS, ("QUIT",)), "loops", "1 0 1\n", "that begins so",
                    "No schedule that begins so ends: each runs forever, as it may."),
    "loops_unjudged": (two(LOOPS, ("QUIT",)), f"loops\n{WORK}", "", "there is",
                       f"No schedule ends: each runs forever, as it may{NOT_JUDGED}"),
    # nobody waits, and 0.0 comes to where it quits
    "loops_kept": (two(LOOPS, ("QUIT",)), "loops\nnever starved", "", "there is",
                   "No schedule ends: each runs forever, as it may."),
    "leads_kept": (two(STORES, STORES), "word 0 1\n0.0 in one leads to 0.0 in one+2", "", "there is",
                   "Every schedule ends right: you can\u2019t break it."),
    "leads_nowhere": (two(STORES, STORES), f"word 0 1\n{NOWHERE}", "", "there is",
                      f"Every schedule ends right. Not every run keeps \u201c{NOWHERE}\u201d."),
    "leads_begun": (two(STORES, STORES), f"word 0 1\n{NOWHERE}\n{WORK}", "1 0 1\n", "that begins so",
                    f"Every schedule that begins so ends right{NOT_JUDGED} Not every run that begins so keeps "
                    f"\u201c{NOWHERE}\u201d."),
    "leads_alone": (two(LOOPS, ("QUIT",)), "0.0 in one leads to 0.0 in one", "", "there is", "No schedule ends right."),
    "starved": (two(TAKES, LOOPS, ".data 0, 0"), "loops\nnever starved", "", "there is",
                "No schedule ends: each runs forever, as it may. Not every run keeps \u201cnever starved\u201d."),
    "loops_polls": (two(POLLS, STORES), "loops\nword 0 1", "", "there is", "Every schedule that ends, ends right."),
    "wrong": (two(ADDS, ADDS), "word 0 3", "", "there is", "No schedule ends right (expected: \u201cword 0 3\u201d)."),
    "begun_wrong": (two(ADDS, ADDS), "word 0 2", "0 0 1\n1 0 1\n", "that begins so",
                    "No schedule that begins so ends right (expected: \u201cword 0 2\u201d)."),
    "begun_right": (two(ADDS, ADDS), "word 0 2", "0 0 4\n", "that begins so",
                    "Every schedule that begins so ends right: you can\u2019t break it."),
    # the given steps break the claim, and no state of the page does
    "begun_broken": (two(ADDS, ADDS), "never word 0 is 1", "0 0 4\n1 0 3\n", "that begins so",
                     "No schedule that begins so ends right (expected: \u201cnever word 0 is 1\u201d)."),
    "begun_polls": (two(POLLS, STORES), "word 0 1", "0 0 1\n", "that begins so",
                    "Every schedule that begins so and ends, ends right."),
    "begun_plain": (two(STORES, STORES), "", "0 0 1\n", "that begins so",
                    "Every schedule that begins so and ends comes to the same end."),
    "deadlock": (two(TAKES, TAKES, ".data 0, 0"), "", "", "there is", "Every schedule ends in a deadlock."),
    "polls_to_deadlock": (two((*POLLS[:3], "LOAD.S r1, r0, 1", "QUIT"), STORES, ".data 0\n.data 0, 0"), "", "",
                          "there is", "Every schedule that ends, ends in a deadlock."),
}


def opened(page, name, text, expected="", begin=""):
    """Opens the page of a program, of which this is expected, and of which the steps of a schedule are given."""
    folder = pathlib.Path(page.folder)
    source, expectation, schedule = (folder / f"{name}.{kind}" for kind in ("asm", "expect", "schedule"))
    source.write_text(text)
    expectation.write_text(f"{expected}\n")
    schedule.write_text(begin)
    words = [*(("--expect", str(expectation)) if expected else ()), *(("--from", str(schedule)) if begin else ())]
    page.open(name, runs.played(page.folder, source, *words))


# all texts of the page but its script
TEXTS = """return [...document.body.children].filter((one) => one.tagName !== "SCRIPT").map((one) => one.textContent)
  .join(" ")"""


def leads(page):
    """What the page says of all schedules, at its start and in its other texts."""
    for name, (text, expected, begin, known, wanted) in LEADS.items():
        opened(page, name, text, expected, begin)
        lead = page.text("#lead")
        tally.check(f"{name}: it says which schedules it knows", f"{KNOWN} {known}: they lead to" in lead, lead)
        tally.check(f"{name}: what holds of all schedules", lead.endswith(f". {wanted}" if wanted else "s."), lead)
        said = re.findall(r"(?:any|[Ee]very|[Nn]o) schedule (?!that begins so)\S+(?: \S+){3}", page.script(TEXTS))
        tally.check(f"{name}: no other text says more", not begin or not said, said)
        counted = re.findall(r"[Aa]ll 1 .*|[Ff]irst 1 .*|\b1 steps? that are .*", page.script(TEXTS))
        tally.check(f"{name}: of one thing it speaks as of one", not counted, counted)
        page.quiet(f"{name}: all schedules")


# a stream starts another one, which takes the word and quits, and starts it again, when it waits for the word
STARTS = """.slim 2
.entry one
.data 0
one: TLIT t1, take
RESERVE r2, r0
LIT r3, 1
RESERVE r2, r3
CREATE t1, r0
CREATE t1, r0
QUIT
take: LOAD.S r1, r0, 0
QUITP
"""


def given(page):
    """What the page says of what was done in the steps that are given: nothing that it can't know."""
    opened(page, "given", STARTS, begin="0 0 5\n0 1 2\n")
    tally.same("given: the stream that has quit in them", page.text("#others"), "0.1 does not run.")
    page.press("1")
    tally.same("given: the word that was emptied in them", page.text(".choice[data-stream='1'] .effect"),
               "waits for [0] to be full, and it is empty where your way begins. A step now changes nothing.")


def judged(page):
    """What the page says of right and wrong: of a trap that is expected, and of a goal that is reached."""
    opened(page, "expected_trap", two(ADDS, ("LOAD.N r1, r0, 9", "QUIT")), "stopped 1.0 6")
    legend = page.text("#legend")
    tally.check("expected_trap: all its states are right", "right" in legend and "wrong" not in legend, legend)
    opened(page, "reached", two(ADDS, STORES), "word 0 2")
    for streams, wanted in (((0, 1, 1, 0, 0), "you lost an update"), ((0, 0, 0, 1, 1), "you made it go wrong")):
        page.script("setGoal(kinds.indexOf('wrong')); extend(0, arguments[0]); goTo(way.length)", [*streams, 0, 1])
        tally.same(f"reached by {streams}", page.text("#result h2"), f"Goal reached: {wanted}")
    opened(page, "no_work", two(STORES, ("QUIT",)), f"word 0 1\n{WORK}")
    page.script("setGoal(null); extend(0, shortestWay(0, 0)); goTo(way.length)")
    result = page.text("#result")
    tally.check("no_work: the result names what is not judged",
                f"This page does not judge \u201c{WORK}\u201d." in result, result)
    opened(page, "given_finding", two(ADDS, ADDS), "word 0 2", "0 0 1\n")
    page.script("setGoal(null); extend(0, shortestWay(0, kinds.indexOf('wrong'))); goTo(way.length)")
    result = page.text("#result")
    tally.check("given_finding: how its steps are counted",
                "count from the program\u2019s start, 1 step before yours" in result, result)


# what is expected of a program, and of each line about runs what is said at the end of a run that does not keep it, how
# many steps this takes at least, and how many the last ones repeat; None if all runs keep it
SHOWN_RUNS = {
    "stops": (two(STORES, STORES), f"word 0 1\n{NOWHERE}\n0.0 in one leads to 0.0 in one+1",
              {NOWHERE: ("no stream has to go on from here", 6), "0.0 in one leads to 0.0 in one+1": None}),
    "stands": (two(TAKES, LOOPS, ".data 0, 0"), "loops\nnever starved",
               {"never starved": ("steps that change nothing can be taken again and again", 0)}),
    # r1 is 0 before the first of its steps, and 1 after it
    "turns": (two(TAKES, TURNS, ".data 0, 0"), "loops\nnever starved",
              {"never starved": ("the last 2 steps can be taken again and again", 3)}),
    # 1.0 comes in twice while 0.0 stands where it asks
    "overtaken": (two(LOCKS, LOCKS), f"loops\nnever starved\n{OVERTAKEN}",
                  {"never starved": None, OVERTAKEN: ("that is so whatever follows", 4)}),
}
# shows the run of each line that not all runs keep, and gives what is said at its end, and how many steps it has
SHOWN = """
  return unkeptLines.map((one) => {
    showRun(one);
    stop();
    goTo(way.length);
    return [one.line, document.getElementById("told").textContent, way.length];
  });
"""


def lines_of_runs(page):
    """Which lines about runs are kept, and the runs that do not keep them."""
    for name, (text, expected, lines) in SHOWN_RUNS.items():
        opened(page, f"runs_{name}", text, expected)
        kept = page.script("return data.runs.map((one) => [one.line, one.kept])")
        tally.same(f"runs_{name}: which are kept", kept, [[line, wanted is None] for line, wanted in lines.items()])
        rows = page.script("return runNotes().map((one) => one.textContent).join(' ')")
        tally.same(f"runs_{name}: its rows", rows, "What is said of whole runs: " + "".join(
            f"\u2713\u201c{line}\u201devery run keeps it" if wanted is None
            else f"!\u201c{line}\u201dnot every run keeps itShow" for line, wanted in lines.items()))
        for line, said, steps in page.script(SHOWN):
            wanted, least = lines[line]
            tally.check(f"runs_{name}: why it is not kept",
                        f"\u201c{line}\u201d is not kept: {wanted}." in said and steps >= least, (said, steps))


# two ends of the same values, of which one leaves the word full and the other one empty
TAGGED = two(("STORE.N r0, r0, 0", "QUIT"), ("TAGSET r0, r0, 0", "QUIT"))


def tagged(page):
    """Ends that differ in tags alone."""
    opened(page, "tagged", TAGGED)
    tally.same("tagged: the ends' names", sorted(page.script("return data.ends.map((_, e) => label(e))")),
               ["[0] empty", "[0] full"])
    for end in (0, 1):
        page.script("setGoal(null); extend(0, shortestWay(0, arguments[0])); goTo(way.length)", end)
        wanted = page.script("return wordAt(here(), 0)[1] & 1 ? 'full' : 'empty'")
        tally.check("tagged: the result says the tags", f"[0] is {wanted}" in page.text("#result h2"),
                    page.text("#result h2"))


# eight ends: of each word the value is that of the stream which stores last
STORES_3 = tuple(f"STORE.N r1, r0, {word}" for word in range(3))
LONG = two(("LIT r1, 4294967295", *STORES_3, "QUIT"), ("LIT r1, 4294967294", *STORES_3, "QUIT"),
           ".data 0\n.data 0\n.data 0")
# two ends, at which a stream goes round: the word is 1 or 2
ROUND = two(("LIT r1, 1", "STORE.N r1, r0, 0", "SKIP ALWAYS, 0, -1"), ("LIT r1, 2", "STORE.N r1, r0, 0", "QUIT"))
# 0.0 is stopped by a trap, 1.0 waits forever
TRAPPED = two(("LOAD.N r1, r0, 9", "QUIT"), TAKES, ".data 0, 0")
# the texts of the ends' badges, of the goals but for "Look around", and of the ends' lanes
NAMED = """
  const texts = (selector) => [...document.querySelectorAll(selector)].map((one) => one.textContent);
  const lanes = texts("#heads .name");
  return [texts("#ends .badge .text"), texts("#goals button").slice(1), lanes.slice(-data.ends.length)];
"""


def names(page):
    """No two ends have one name."""
    for name, text, count in (("long", LONG, 8), ("round", ROUND, 2), ("tagged", TAGGED, 2)):
        opened(page, name, text)
        for kind, said in zip(("badge", "goal", "lane"), page.script(NAMED)):
            tally.same(f"{name}: each end has a {kind} of its own", (len(said), len({*said})), (count, count))
    opened(page, "trapped", TRAPPED)
    page.script("setGoal(null); extend(0, shortestWay(0, 0)); goTo(way.length)")
    tally.same("trapped: the stopped stream is named beside the deadlock", page.text("#result h2"),
               "Deadlock: 1.0 waits forever; a trap stopped 0.0 (RANGE)")
    told = page.script("return endText(0)")
    tally.same("trapped: and in the result", told, "deadlock: 1.0 waits forever; a trap stopped 0.0 (RANGE)")


def part(page):
    if not runs.has_pages():
        return
    leads(page)
    names(page)
    given(page)
    judged(page)
    tagged(page)
    lines_of_runs(page)
