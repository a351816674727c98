"""Sizes: how large pages of long runs are, and how soon they are shown; folds, crowds, and a source of many lines."""

import time

import made_runs
import of_states
import runs
import tally
import worlds
from selenium.webdriver.common.keys import Keys

LOOPS = """.slim 1
.entry count
.entry count
.entry take
.entry spin
.data 0 ; word 0: the count
.data 0, 0 ; word 1: the slot
count: LIT r1, 1
FADD.N r1, r0, 0
ADD r2, r2, 1
MUL r3, r2, r2
STORE.S r2, r0, 1
SKIP ALWAYS, 0, count
take: LOAD.S r4, r0, 1 | ADD r5, r5, 1
SKIP ALWAYS, 0, take
spin: ADD r6, r6, 1
SKIP ALWAYS, 0, spin
"""
# steps, the most bytes of the page, the most seconds until it is shown
MOST = ((2_000, 1_000_000, 1.0), (100_000, 20_000_000, 5.0))
LOADS = 3
SHOWN_AFTER = "return performance.getEntriesByType('navigation')[0].loadEventEnd / 1000"
MANY_LINES = 9_000
# of this step's column
MIDDLE = "const { x, width } = document.querySelector('#picture .now').getBoundingClientRect(); return x + width / 2"


def long_page(folder, length):
    """The page of a run of so many steps."""
    if not runs.has_pages():
        return runs.page(made_runs.long_run(length))
    program = folder / "loops.asm"
    program.write_text(LOOPS)
    return runs.page_of(folder, program, "--seed", 1, "--steps", length)


def is_long(page, length, most_bytes, most_seconds):
    text = long_page(page.folder, length)
    size = len(text.encode())
    seconds = []
    for _ in range(LOADS):
        page.open(f"loops{length}", text)
        seconds.append(page.script(SHOWN_AFTER))
    begin = time.monotonic()
    page.press(Keys.HOME)
    page.press(Keys.END)
    jump = (time.monotonic() - begin) / 2
    columns = page.script("return columns.length")
    times = f"shown after {min(seconds):.2f} to {max(seconds):.2f} s, a jump {jump:.2f} s"
    print(f"{length:,} steps: {size:,} bytes, {times}, {columns:,} columns")
    tally.check(f"{length} steps: at most {most_bytes} bytes", size <= most_bytes, size)
    tally.check(f"{length} steps: shown within {most_seconds} s", min(seconds) <= most_seconds, seconds)
    tally.same(f"{length} steps: the page opens at the end", page.position(), length)
    run = runs.run_of(text)
    positions = [length, length // 2, 17, length - 1, 0]
    known = {"the run's own changes": worlds.replayed(run, positions)}
    of_states.compare(page, f"{length} steps", run, positions, known)
    few = page.script("return document.querySelectorAll('*').length")
    tally.check(f"{length} steps: few elements in the page", few < 12_000, few)
    page.quiet(f"{length} steps")


# whether each step that shares a column is blocked
ONLY_TRIES = """
  const shared = columns.filter((one) => one.to > one.from).flatMap((one) => steps.slice(one.from - 1, one.to));
  return shared.every((step) => step.o === 'blocked');
"""


def is_folded(page):
    """From 2,001 steps on alike steps are folded; a fold opens by a key and by a click, and closes."""
    page.open("unfolded", runs.page(made_runs.long_run(2_000)))
    tally.check("of 2,000 steps nothing but tries in vain is folded", page.script(ONLY_TRIES))
    page.open("folded", runs.page(made_runs.long_run(2_001)))
    folded = page.script("return columns.length")
    tally.check("2,001 steps have fewer columns", folded < 2_001, folded)
    fold = page.script("return columns.findIndex((one) => one.to > one.from)")
    first, last = page.script("return [columns[arguments[0]].from, columns[arguments[0]].to]", fold)
    page.go(str(last))
    page.painted()
    page.press(Keys.ENTER)
    tally.same("Enter opens the fold", page.script("return columns.length"), folded + last - first)
    page.press("f")
    tally.same("f folds again", page.script("return columns.length"), folded)
    page.go(str(last))
    page.painted()
    here = page.script(MIDDLE)
    page.click_at(page.one("#picture svg"), here - page.one("#scroll").rect["x"], 5)
    tally.same("a click opens the fold", page.script("return columns.length"), folded + last - first)
    tally.check("the button to fold is there", page.one("#fold").is_displayed())
    page.one("#fold").click()
    tally.same("the button folds again", page.script("return columns.length"), folded)
    tally.check("the legend tells of folds", "so many alike steps" in page.text("#legend"), page.text("#legend"))


def is_crowded(page):
    """With many crossing waits the arrows of one stream are drawn; step numbers stay above many lanes."""
    page.size(1440, 700)
    page.open("ring16", runs.page(made_runs.ring(16)), "#20")
    page.painted()
    tally.same("of 16 arrows that cross one is drawn", len(page.all("#picture .arrow")), 1)
    tally.check("the legend says whose it is", "the chosen stream" in page.text("#legend"), page.text("#legend"))
    page.press(Keys.ARROW_UP)
    page.painted()
    tally.same("the arrow follows the stream", len(page.all("#picture .arrow.causes")), 1)
    page.open("ring5", runs.page(made_runs.ring(5)))
    page.painted()
    tally.same("five arrows are drawn", len(page.all("#picture .arrow")), 5)
    tally.same("a circle of five is drawn", len(page.all("#end .ring .edge")), 5)
    page.open("crowd", runs.page(made_runs.crowd(40, 600)), "#300")
    page.script("document.getElementById('chart').scrollTop = 700")
    page.painted()
    box = page.one("#numbers").rect
    found = page.script("return document.elementFromPoint(arguments[0], arguments[1]).closest('#numbers') !== null",
                        box["x"] + 40, box["y"] + 8)
    tally.check("the numbers stay in sight above 40 lanes", found and page.all("#numbers .number"))
    names = [button.text for button in page.all("#heads .head")]
    tally.check("the lanes are scrolled", len(names) > 40, len(names))
    page.quiet("a crowd")
    page.size(1920, 1080)


def has_window(page):
    """Of a large source as many lines are in the page as a window has, and the step's line is one of them."""
    run = runs.sample("lock.ends")
    more = [f"; line {i}" for i in range(MANY_LINES)]
    run["source"] = more + run["source"] + more
    run["program"] = [[line + MANY_LINES, place, statement] for line, place, statement in run["program"]]
    page.open("lines", runs.page(run), "#5")
    shown = page.all("#lines .line")
    tally.check("a window of lines", 100 < len(shown) <= 400, len(shown))
    here = page.one("#lines .from")
    tally.check("the step's line is in sight", here.is_displayed() and "STORE.N" in here.text, here.text)
    for which, wanted in ((0, "lines before"), (-1, "lines behind")):
        before = page.one("#lines .line").get_attribute("data-line")
        page.all("#lines .more")[which].click()
        after = page.one("#lines .line").get_attribute("data-line")
        tally.check(f"a button shows {wanted}", before != after, (before, after))
    page.press(Keys.ARROW_RIGHT)
    tally.check("the next step's line is in sight", "STORE.S" in page.text("#lines .from"), page.text("#lines .from"))
    page.quiet("many lines")


def part(page):
    for length, most_bytes, most_seconds in MOST:
        is_long(page, length, most_bytes, most_seconds)
    is_folded(page)
    is_crowded(page)
    has_window(page)
