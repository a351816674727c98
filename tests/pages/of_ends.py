"""Where the page of a run opens, and what it says and draws of the end: of a trap beside waits, of waits beside a circle,
and of words that no step has turned."""

import pathlib

import runs
import tally

TRAPS = "traps: LIT r1, 1\n LOAD.N r2, r0, 9\n QUIT\n"
# a stream that waits for [0], which is empty from the start; one that takes three steps and quits
WAITS = "waits: LOAD.S r1, r0, 0\n QUIT\n"
GOES = "goes: LIT r1, 1\n LIT r1, 2\n QUIT\n"
# a stream that takes the word [0] and then waits for [8], and one that takes them the other way round
ONE = "one: LOAD.S r1, r0, 0\n LOAD.S r1, r0, 1\n QUIT\n"
OTHER = "other: LOAD.S r1, r0, 1\n LOAD.S r1, r0, 0\n QUIT\n"
THIRD = "third: LOAD.S r1, r0, 0\n QUIT\n"
APART = "apart: LOAD.S r1, r0, 2\n QUIT\n"
TAKES = "takes: LOAD.S r1, r0, 1\n QUIT\n"
LATE = "late: LOAD.S r1, r0, 1\n QUIT\n"
EMPTY, FULL = ".data 0, 0\n", ".data 0\n"
# a stream that fills the word [0] and then waits until [8] is empty, one that fills them the other way round;
# and of each one that takes [8] in place of filling it
FILLS = "fills: STORE.S r1, r0, 0\n STORE.S r1, r0, 1\n QUIT\n"
REFILLS = "refills: STORE.S r1, r0, 1\n STORE.S r1, r0, 0\n QUIT\n"
EMPTIES = "empties: LOAD.S r1, r0, 1\n STORE.S r1, r0, 0\n QUIT\n"
FILLS_8 = "fills: STORE.S r1, r0, 0\n LOAD.S r1, r0, 1\n QUIT\n"
LOOPS = "loops: SKIP ALWAYS, 0, -1\n"
TOOK = "0.0 waits for [8] to be full, which 1.0 emptied; 1.0 waits for [0] to be full, which 0.0 emptied"


def program(data, *streams):
    """A program of these streams, each by its text, which begins with its label."""
    entries = "".join(f".entry {text.partition(':')[0]}\n" for text in streams)
    return entries + data + "".join(streams)


# by a name: the program; the schedule; the step after which the page opens; its title; the rows or the circle that are
# drawn, as words
CASES = {
    # the trap of step 2 decides, and not the wait since step 3 for a word that no step has turned
    "trap_before_waits": (program(EMPTY, TRAPS, WAITS), "0 0 2\n1 0 3\n", 2,
                          "Deadlock: 1.0 waits forever; a trap stopped 0.0", []),
    # nor the last step
    "trap_before_the_end": (program(EMPTY, TRAPS, GOES), "0 0 2\n1 0 3\n", 2, "Stopped by a trap: 0.0", []),
    # nor what goes on
    "trap_beside_a_loop": (program(EMPTY, TRAPS, LOOPS), "0 0 2\n1 0 3\n", 2,
                           "The schedule ends after 5 steps, before the program does; a trap stopped 0.0", []),
    # of two traps the first
    "two_traps": (program(EMPTY, TRAPS, TRAPS.replace("traps", "again")), "0 0 1\n1 0 2\n0 0 1\n", 3,
                  "Stopped by a trap: 0.0 and 1.0", []),
    # 0.0 has [0] and waits for [8], 1.0 has [8] and waits for [0]: from step 4 on nobody goes on
    "circle": (program(FULL * 2, ONE, OTHER), "0 0 1\n1 0 1\n0 0 1\n1 0 2\n", 4,
               "Deadlock: 0.0 and 1.0 wait for each other in a circle",
               [TOOK]),
    # 0.0 has filled [0] and waits for [8], 1.0 the other way round: no word is taken
    "circle_of_stores": (program(EMPTY * 2, FILLS, REFILLS), "0 0 1\n1 0 1\n0 0 1\n1 0 2\n", 4,
                         "Deadlock: 0.0 and 1.0 wait for each other in a circle",
                         ["0.0 waits for [8] to be empty, which 1.0 filled; 1.0 waits for [0] to be empty, which 0.0 "
                          "filled"]),
    # 0.0 has filled [0] and waits until [8] is full, which 1.0 has taken
    "circle_of_both": (program(EMPTY + FULL, FILLS_8, EMPTIES), "0 0 1\n1 0 1\n0 0 1\n1 0 2\n", 4,
                       "Deadlock: 0.0 and 1.0 wait for each other in a circle",
                       ["0.0 waits for [8] to be full, which 1.0 emptied; 1.0 waits for [0] to be empty, which 0.0 "
                        "filled"]),
    # 2.0 waits for [0] too, and 3.0 for [16], which is empty from the start
    "beside_a_circle": (program(FULL * 2 + EMPTY, ONE, OTHER, THIRD, APART),
                        "0 0 1\n1 0 1\n0 0 1\n1 0 1\n2 0 1\n3 0 2\n", 6,
                        "Deadlock: 0.0 and 1.0 wait for each other in a circle, and 2.0 waits for them; 3.0 waits for "
                        "something else", [TOOK]),
    "apart_from_a_circle": (program(FULL * 2 + EMPTY, ONE, OTHER, APART), "0 0 1\n1 0 1\n0 0 1\n1 0 1\n2 0 2\n", 5,
                            "Deadlock: 0.0 and 1.0 wait for each other in a circle; 2.0 waits for something else",
                            [TOOK]),
    # 0.0 took [8] and has quit, 1.0 waits for it, and 2.0 for [0], which is empty from the start: one row is drawn
    "rows": (program(EMPTY + FULL, TAKES, LATE, WAITS), "0 0 2\n1 0 1\n2 0 2\n", 4, "Deadlock: 1.0 and 2.0 wait forever",
             ["1.0 waits for [8] to be full, which 0.0 emptied"]),
}
# by the name of a case: what a picture of a circle says below the arrows' first words
ARROWS = {
    "circle": "this word, which the next took",
    "circle_of_stores": "this word, which the next filled",
    "circle_of_both": "this word, which the next changed",
}
STORES_TWICE = "stores: LIT r1, 5\n STORE.N r1, r0, 0\n STORE.N r1, r0, 1\n STORE.N r1, r0, 1\n LIT r1, 6\n QUIT\n"
TAKES_IT = "takes: LIT r1, 5\n STORE.N r1, r0, 0\n LOAD.S r2, r0, 0\n LIT r1, 6\n QUIT\n"
COUNTS = "counts: LOAD.N r1, r0, 0\n ADD r1, r1, 1\n STORE.N r1, r0, 0\n QUIT\n"
GOES_ON = COUNTS.replace(" QUIT", " LIT r1, 9\n QUIT")
# by a name: the program, the schedule, the line that the end misses, and the step after which the page opens
MISSED = {
    # of word 1 it is the last store of it, in step 4, and not the one before, nor the last step
    "stores": (program(FULL * 2, STORES_TWICE), "0 0 6\n", "word 8 7", 4),
    # of word 0 the only one
    "stores_before": (program(FULL * 2, STORES_TWICE), "0 0 6\n", "word [0] 7", 2),
    # a word by its name, and one word after it
    "named": (program(".data 0 ; first\n" + FULL, STORES_TWICE), "0 0 6\n", "word first 7", 2),
    "after_a_name": (program(".data 0 ; first\n" + FULL, STORES_TWICE), "0 0 6\n", "word first+1 7", 4),
    # the value is right, and the word was taken in step 3
    "taken": (program(FULL, TAKES_IT), "0 0 5\n", "word 0 5 full", 3),
    # the value is not, and the word is as it should be
    "left_full": (program(FULL, STORES_TWICE.replace("r0, 1", "r0, 0")), "0 0 6\n", "word 0 7 full", 4),
    # the finding about the word decides: 1.0 stores over what 0.0 stored, in step 7
    "lost": (program(FULL, COUNTS, COUNTS.replace("counts", "again")), "0 0 1\n1 0 1\n0 0 3\n1 0 3\n", "word 0 2", 7),
    # nobody has stored in the word: the last step
    "not_stored": (program(FULL * 3, GOES), "0 0 3\n", "word 16 7", 3),
    # the schedule ends where the claim does not hold: the last step, and not the lost update of step 8
    "claim": (program(FULL, GOES_ON, GOES_ON.replace("counts", "again")), "0 0 1\n1 0 1\n0 0 4\n1 0 3\n",
              "always word 0 is 0", 9),
    # a claim of a run that goes on to its end: its state is not known, and the page opens by what was found
    "claim_before": (program(FULL, GOES_ON, GOES_ON.replace("counts", "again")), "0 0 1\n1 0 1\n0 0 4\n1 0 4\n",
                     "always word 0 is 0", 8),
}
# the step after which the page stands, the title, and what the pictures of the end say to who hears them
SHOWN = """
  const pictures = [...document.querySelectorAll(".ring")];
  return [view.position, document.querySelector("h1").textContent,
    pictures.map((one) => one.getAttribute("aria-label")), pictures.map((one) => one.textContent).join(" ")];
"""


def missed(page):
    """Where the page opens that knows which line the end misses."""
    for name, (text, turns, line, step) in MISSED.items():
        source, schedule = (pathlib.Path(page.folder) / f"{name}.{kind}" for kind in ("asm", "schedule"))
        source.write_text(text)
        schedule.write_text(turns)
        run = runs.run_of(runs.page_of(page.folder, source, schedule))
        page.open(f"missed_{name}", runs.page({**run, "expected": False, "missed": line}))
        tally.same(f"missed_{name}: it opens after the step that decides", page.script("return view.position"), step)
        page.quiet(f"missed_{name}")


# what the page of a run knows of the end at which these streams are blocked, its title, its sign, and the words below it
BLOCKED = {
    "deadlock": (1, {}, "Deadlock: 0.0 waits forever", "deadlock", ""),
    "not_expected": (2, {"expected": False, "missed": None}, "Deadlock: 0.0 and 1.0 wait forever", "deadlock",
                     "Not as expected."),
    "allowed": (1, {"expected": True, "may_wait": True}, "0.0 waits forever, as expected", "finished", "As expected."),
    # they may wait, and another line is missed
    "allowed_and_missed": (2, {"expected": False, "missed": "word 8 7", "may_wait": True},
                           "0.0 and 1.0 wait forever, as they may", "bad", "Not as expected: word 8 7."),
    # it may wait, and a line is left that the search does not decide
    "allowed_and_open": (1, {"may_wait": True}, "0.0 waits forever, as it may", "steps", ""),
}


def blocked(page):
    """What the page says of streams that wait forever: a deadlock, but where the run says that they may wait."""
    run = runs.sample("philosophers.deadlock")
    for name, (count, known, title, sign, words) in BLOCKED.items():
        end = {**run["end"], "kind": "deadlock", "waiting": run["end"]["waiting"][:count], "able": [], "fresh": []}
        page.open(f"blocked_{name}", runs.page({**run, **known, "end": end}))
        heading, kind, items = page.script("const head = document.querySelector('h1');"
                                           "const items = [...document.querySelectorAll('#end li')];"
                                           "return [head.textContent, head.className, items.map((it) => it.textContent)];")
        tally.same(f"blocked_{name}: its title", heading, title)
        tally.same(f"blocked_{name}: its sign", kind, sign)
        tally.same(f"blocked_{name}: whether it is as expected", items[0] if "xpected" in items[0] else "", words)
        page.quiet(f"blocked_{name}")


def part(page):
    blocked(page)
    if not runs.has_pages():
        return
    missed(page)
    for name, (text, turns, step, title, drawn) in CASES.items():
        source, schedule = (pathlib.Path(page.folder) / f"{name}.{kind}" for kind in ("asm", "schedule"))
        source.write_text(text)
        schedule.write_text(turns)
        page.open(name, runs.page_of(page.folder, source, schedule))
        seen, heading, told, letters = page.script(SHOWN)
        tally.same(f"{name}: it opens after the step that decides", seen, step)
        tally.same(f"{name}: its title", heading, title)
        tally.same(f"{name}: what is drawn of the end", told, drawn)
        tally.check(f"{name}: no stream is drawn that is none", "none" not in letters, letters)
        tally.check(f"{name}: what the arrows are", ARROWS.get(name, "") in letters, letters)
        page.quiet(name)
