"""Two runs in a page: where it opens, what is told of both, and that either is shown as it is on a page of its own."""

import made_pairs
import runs
import tally
import worlds
from of_states import SHOWN, differences
from of_widths import OUTSIDE, WIDTHS
from selenium.webdriver.common.keys import Keys

# of each lane its upper edge on the chart and that of its name
EDGES = """
  const top = (node) => node.getBoundingClientRect().top;
  const picture = top(document.getElementById('picture'));
  return perRun(() => lanes.map((lane) => [picture + chartTop + lane.y, top(lane.head)])).flat();
"""
ROLES = "return [...document.querySelectorAll('#end [data-side]')].map((one) => one.getAttribute('aria-pressed'))"


def two(one="lock.ends", other="lock.lost_update"):
    return made_pairs.pair_of(runs.sample(one), runs.sample(other))


def opens(page):
    pair = two()
    page.open("pair", made_pairs.page(pair))
    page.painted()
    tally.same("it opens where the states first differ", page.position(), pair["difference"]["position"])
    told = page.text("#end")
    for words in ("They part in step 1", "0.0 at locked LOAD.S r1, r0, 0", "2.0 at bare LOAD.N r2, r0, 1", "empty | full",
                  "All who began have quit after 13 steps", "after 8 steps, with a lost update", "which is lost"):
        tally.check(f"it says: {words}", words in told, told)
    tally.same("the first run is shown", page.script(ROLES), ["true", "false"])
    tally.same("a caption and lanes of each", len(page.all("#picture > svg")), 4)
    tally.same("a line where they part", len(page.all("#picture .parting")), 2)
    edges = page.script(EDGES)
    tally.check("names stand beside their lanes", all(abs(one - other) < 1.5 for one, other in edges), edges)
    page.quiet("two runs")


def late(page):
    """Runs that share their first steps, and runs of one schedule."""
    one = runs.sample("lock.ends")
    end = {"kind": "steps", "waiting": [], "circle": [], "able": ["0.0", "1.0", "2.0", "3.0"], "fresh": ["2.0", "3.0"],
           "quit": [], "stopped": []}
    short = {**one, "schedule": "short", "steps": one["steps"][:2], "waits": [], "end": end}
    page.open("late", made_pairs.page(made_pairs.pair_of(one, short)))
    told = page.text("#end")
    # (step 3 is blocked, and changes nothing)
    tally.same("one run goes on: it opens after the next step that changes something", page.position(), 4)
    tally.check("what is shared", "The runs share 2 steps. They part in step 3" in told and "has ended" in told, told)
    page.press("o")
    tally.same("the shorter one stays at its end", page.position(), 2)
    page.open("same", made_pairs.page(made_pairs.pair_of(one, {**one, "schedule": "again"})))
    tally.check("one schedule", "Both schedules are the same." in page.text("#end"), page.text("#end"))
    tally.same("it opens at the end", page.position(), len(one["steps"]))
    page.quiet("runs that share steps")


def switched(page):
    page.open("switch", made_pairs.page(two()))
    page.go("5")
    page.press("o")
    tally.same("o shows the other run", page.script(ROLES), ["false", "true"])
    tally.same("after as many steps", page.position(), 5)
    tally.check("its step is told", page.text("#told").startswith("2.0 at bare+3 QUIT"), page.text("#told"))
    tally.check("its steps are in the table", "bare+3" in page.text("#row-5"), page.text("#row-5"))
    tally.same("the link says the run", page.script("return location.hash"), "#2-5")
    page.press(Keys.END)
    tally.same("its end", page.position(), 8)
    page.all("#end button[data-side='0']")[0].click()
    tally.same("a button shows the first", (page.script(ROLES), page.position()), (["true", "false"], 8))
    page.press(Keys.END)
    tally.same("which is longer", page.position(), 13)
    page.all("#end section a")[0].click()
    tally.same("a link in the words of the other's end", (page.script("return location.hash"), page.position()), ("#2-7", 7))
    page.all("#picture > svg")[1].find_elements("css selector", ".cell")[2].click()
    tally.same("a click in the lanes of a run shows it", page.script("return location.hash"), "#1-3")
    page.all("#heads button.caption")[1].click()
    tally.same("a click on its name too", page.script(ROLES), ["false", "true"])
    page.open("linked", made_pairs.page(two()), "#2-7.3.0")
    tally.same("a link to a step of the second run", (page.position(), page.text("#stream h2").split()[1]), (7, "3.0"))
    tally.check("tells it", "An update is lost here" in page.text("#told"), page.text("#told"))
    page.press("x")
    tally.check("hexadecimal values in both ends", "stored 0x1 into [8]" in page.text("#end"), page.text("#end"))
    page.quiet("either run")


def states(page):
    """What is shown of each run at each position is what stands there, whichever was shown before."""
    one, other = runs.sample("lock.ends"), runs.sample("lock.lost_update")
    page.open("states", made_pairs.page(made_pairs.pair_of(one, other)))
    known = [worlds.replayed(run, range(len(run["steps"]) + 1)) for run in (one, other)]
    for k in [*range(9), *range(8, -1, -2)]:
        for side, places in enumerate(known, start=1):
            page.script("location.hash = arguments[0]", f"{side}-{k}")
            page.wait(lambda: page.script("return [shownSide + 1, view.position]") == [side, k])
            wrong = differences(page.script(SHOWN), places[k], False)
            tally.check(f"run {side} after {k} steps", not wrong, wrong)


def sizes(page):
    for width, height in WIDTHS:
        page.size(width, height)
        page.open("size", made_pairs.page(two()))
        page.painted()
        sticks = page.script("return document.documentElement.scrollWidth > innerWidth")
        tally.check(f"two runs, {width} pixels: nothing sticks out", not sticks)
        tally.same(f"two runs, {width} pixels: no element is outside", page.script(OUTSIDE), [])
    page.size(1920, 1080)


def part(page):
    for one in (opens, late, switched, states, sizes):
        one(page)
