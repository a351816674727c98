"""Asking why: by a click and by keys, the chain as links, its marks in the lanes, on a page of one run and of two."""

import json

import build
import of_why
import origins
import runs
import tally
from selenium.webdriver.common.keys import Keys

FOCUS = "const one = document.activeElement; return one.dataset.why ?? one.id"
MARKS = "return document.querySelectorAll('#picture .chain').length"
ARROWS = "return document.querySelectorAll('#picture .arrow.comes').length"
LISTED = "return [...document.querySelectorAll('#why li')].map((row) => Number(row.dataset.step))"
HERE = "return [...document.querySelectorAll('#why [aria-current]')].map((row) => Number(row.dataset.step))"


def lost_update(page):
    """A page of the lock, whose count is 1 after both of its streams have added 1."""
    text, _ = of_why.with_why(runs.example(page.folder, "lock.lost_update"))
    page.open("asking", text, "#7")
    page.painted()


def by_click(page):
    """A click on a word's value, and on a register's; links, Close."""
    lost_update(page)
    tally.check("no chain is shown at first", not page.one("#why").is_displayed())
    page.one("#words [data-why='[8]']").click()
    page.painted()
    tally.same("a click on a value asks why", page.text("#why-title"), "Why [8] is 1 after step 7")
    tally.same("the steps of the chain", page.script(LISTED), [7, 6, 2])
    tally.same("each is marked in the lanes", page.script(MARKS), 3)
    tally.same("and who wrote what was read", page.script(ARROWS), 2)
    tally.check("the legend tells of it", "in the chain" in page.text("#legend"), page.text("#legend"))
    tally.same("the focus is in the chain", page.script(FOCUS), "why")
    page.one("#why li:last-child a").click()
    tally.check("a link moves the page", page.wait(lambda: page.position() == 2), page.position())
    tally.same("the chain stays", page.text("#why-title"), "Why [8] is 1 after step 7")
    tally.same("its step is marked", page.script(HERE), [2])
    page.one("#why li:nth-child(2) a").click()
    page.wait(lambda: page.position() == 6)
    page.one("#stream [data-why='3.0.r2']").click()
    tally.same("a click on a register's value", page.text("#why-title"), "Why r2 of 3.0 is 1 after step 6")
    page.one("#unask").click()
    page.painted()
    tally.check("Close closes it", not page.one("#why").is_displayed())
    tally.same("the value has the focus again", page.script(FOCUS), "3.0.r2")
    tally.same("no step is marked any more", page.script(MARKS), 0)
    tally.check("nor does the legend tell of it", "in the chain" not in page.text("#legend"), page.text("#legend"))
    page.quiet("asking by clicks")


def by_key(page):
    """The key asks for the step, or for the chosen word; values are buttons, and arrows go from one to the next."""
    lost_update(page)
    page.press(Keys.HOME, "w")
    tally.check("at the start there is no step to ask for", not page.one("#why").is_displayed())
    page.go("6")
    page.press("w")
    tally.same("the key asks for what the step wrote", page.text("#why-title"), "What step 6 wrote comes from")
    tally.same("and all that this comes from", page.script(LISTED), [6, 2])
    page.press("x")
    tally.check("numbers as the reader wants them", "(0x0, written in step 2)" in page.text("#why"), page.text("#why"))
    page.press("x")
    page.tab()
    tally.same("the tabulator goes on to its first control", page.script(FOCUS), "unask")
    page.tab()
    page.press(Keys.ENTER)
    tally.same("a link by the keyboard", page.position(), 6)
    page.press(Keys.ESCAPE)
    tally.check("Escape closes the chain", not page.one("#why").is_displayed())
    page.script("document.querySelector('[data-word=\"8\"]').click()")
    page.press("w")
    tally.same("the key asks for the chosen word", page.text("#why-title"), "Why [8] is 1 after step 6")
    page.press(Keys.ESCAPE)
    tally.same("Escape gives the focus back", page.script(FOCUS), "[8]")
    page.press(Keys.ARROW_UP)
    tally.same("an arrow goes to the value above", page.script(FOCUS), "[0]")
    page.press(Keys.ENTER)
    tally.same("of what no step wrote", page.text("#why p"), "No step has written it: it is as at the start.")
    page.press(Keys.ESCAPE, Keys.ARROW_RIGHT)
    tally.same("the value keeps the focus over a step", page.script(FOCUS), "[0]")
    page.quiet("asking by keys")
    page.open("blocked", of_why.with_why(runs.example(page.folder, "lock.ends"))[0], "#3")
    page.press("w")
    tally.same("of a step that wrote nothing", page.text("#why p"), "Step 3 wrote no register and no word.")
    page.quiet("asking for a step that is blocked")


def pair_with_why(text):
    """A page of two runs; what their steps read is put in where the program that made it does not say it."""
    pair = runs.run_of(text)
    for run in pair["runs"]:
        if "why" not in run:
            run["why"] = origins.why(pair | run)
    return build.PAGES["pair"].text(json.dumps(pair, separators=(",", ":")))


def of_two(page):
    """Of two runs each has a chain of its own."""
    if not runs.has_pages():
        return
    source, schedule = runs.files_of("lock.lost_update")
    text = runs.page_of(page.folder, source, runs.files_of("lock.ends")[1], schedule)
    page.open("two", pair_with_why(text), "#2-7")
    page.painted()
    page.one("#words [data-why='[8]']").click()
    page.painted()
    tally.same("of two runs: the chain in the second", page.script(LISTED), [7, 6, 2])
    tally.same("of two runs: links lead to that run", page.one("#why li a").get_attribute("href").split("#")[1], "2-7")
    tally.same("of two runs: its steps are marked", page.script(MARKS), 3)
    page.press("o")
    tally.check("of two runs: the other has none yet", not page.one("#why").is_displayed())
    page.press("w")
    tally.same("of two runs: it has its own", page.text("#why-title"), "What step 7 wrote comes from")
    page.press("o")
    tally.same("of two runs: and the first is kept", page.text("#why-title"), "Why [8] is 1 after step 7")
    page.quiet("asking on a page of two runs")


def of_long(page):
    """Of a run of which the data do not say it no value is a button, and the page says so; of a long chain the last steps
    are listed, and all are marked."""
    run = runs.sample("lock.lost_update") | {"why": None}
    page.open("unasked", runs.page(run))
    tally.same("of a run that is too long: no value asks", page.all("button.why"), [])
    tally.check("of a run that is too long: the page says so", "of runs of up to 10,000 steps." in page.text("#words"))
    page.press("w")
    tally.check("of a run that is too long: the key too", "of runs of up to 10,000 steps." in page.text("#why"))
    page.quiet("a run that is too long")
    steps = [{"p": 0, "s": 0, "pc": 0, "o": "done", "ch": [["0.0.r1", str(n), str(n + 1)]]} for n in range(300)]
    run |= {"steps": steps, "waits": [], "findings": [], "program": [[1, "go", "ADD r1, r1, 1"]],
            "why": [[["r1", "r1", n]] for n in range(300)],
            "start": run["start"] | {"places": {"0.0.status": "running", "0.scur": 1, "0.sres": 1}}}
    page.open("chained", runs.page(run), "#300")
    page.press("w")
    tally.check("a long chain is counted", "The chain has 300 steps, of which the last 100 are listed" in page.text("#why p"),
                page.text("#why p"))
    tally.same("and cut", page.script(LISTED), list(range(300, 200, -1)))
    page.go("10")
    page.painted()
    marks = page.script(MARKS)
    tally.check("all of its steps are marked", marks > 10, marks)
    page.quiet("a long chain")


def part(page):
    for one in (by_click, by_key, of_two, of_long):
        one(page)
