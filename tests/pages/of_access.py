"""Access: all of the page by the keyboard alone, and what a screen reader is told."""

import re

import runs
import tally
from selenium.webdriver.common.keys import Keys

STOPS = 120  # of the tabulator, at most
FOCUS = "const one = document.activeElement; return one.id || one.className || one.tagName"


def tree(page):
    """Role and name of each element that a screen reader is told of."""
    page.protocol("Accessibility.enable")
    nodes = page.protocol("Accessibility.getFullAXTree")["nodes"]
    told = [node for node in nodes if not node.get("ignored")]
    return [(node["role"]["value"], node.get("name", {}).get("value", "")) for node in told]


def stops(page):
    """What the tabulator reaches, from the start on, until it comes round."""
    page.script("document.activeElement.blur()")
    reached = []
    for _ in range(STOPS):
        page.tab()
        reached.append(page.script(FOCUS))
        if reached[-1] == "BODY":
            break
    return reached


def by_keyboard(page):
    page.open("keyboard", runs.example(page.folder, "lock.lost_update"))
    reached = stops(page)
    for wanted in ("skip", "first", "back", "play", "on", "last", "slider", "narrower", "wider", "hex", "export",
                   "help", "scroll", "trace"):
        tally.check(f"the tabulator reaches {wanted}", wanted in reached, reached)
    for kind in ("head", "line", "word"):
        tally.check(f"the tabulator reaches a {kind}", any(one.split()[0] == kind for one in reached), reached)
    tally.check("nothing holds the focus", len(set(reached)) > 15 and len(reached) < STOPS, len(reached))
    page.script("document.getElementById('first').focus()")
    page.press(Keys.ENTER)
    tally.same("Enter presses a button", page.position(), 0)
    page.script("document.getElementById('on').focus()")
    page.press(Keys.SPACE)
    tally.same("the space bar presses it", page.position(), 1)
    page.script("document.getElementById('slider').focus()")
    page.press(Keys.ARROW_RIGHT)
    tally.same("an arrow at the slider is one step", page.position(), 2)
    page.script("document.querySelector('#heads .head').focus()")
    page.press(Keys.ARROW_DOWN, Keys.ENTER)
    tally.same("an arrow in the list of lanes, and Enter", page.text("#stream h2").split()[1], "3.0")
    page.script("document.querySelector('button.word').focus()")
    page.press(Keys.ARROW_DOWN, Keys.ENTER)
    tally.same("a word keeps the focus", page.script("return document.activeElement.dataset.word"), "8")
    page.press(Keys.ARROW_RIGHT)
    tally.same("and after a step", page.script("return document.activeElement.dataset.word"), "8")
    outlined = page.script("return getComputedStyle(document.activeElement).outlineStyle")
    tally.check("the focus is seen", outlined != "none", outlined)
    page.quiet("keyboard")


def by_reader(page):
    page.open("reader", runs.example(page.folder, "philosophers.deadlock"), "#27")
    page.painted()
    told = tree(page)
    roles = {role for role, _ in told}
    for role in ("banner", "toolbar", "slider", "main", "region", "table", "rowheader", "columnheader", "button",
                 "link"):
        tally.check(f"there is a {role}", role in roles, sorted(roles))
    named = ("button", "slider", "link", "dialog", "img", "table", "image")
    nameless = [role for role, name in told if role in named and not name]
    tally.same("each control, picture and table has a name", nameless, [])
    names = [name for _, name in told]
    for wanted in (
        "Stream 0.0, at eat+1, waits for [8] to be full",
        "Who waited for what",
        "The streams after step 27",
        "Steps 1 to 27 of 27",
        "How the run ended",
    ):
        tally.check(f"it is told: {wanted}", any(name.startswith(wanted) for name in names), names[:60])
    pictures = [name for role, name in told if role in ("img", "image", "graphics-document")]
    tally.check("the lanes have a name", any("27 steps of 5 streams" in name for name in pictures), pictures)
    wait = "4.0 waits for [0] to be full, which 0.0 emptied"
    tally.check("who waits for whom too", any(wait in name for name in pictures), pictures)
    tally.same("the told step is live", page.one("#told").get_attribute("aria-live"), "polite")
    value = page.one("#slider").get_attribute("aria-valuetext")
    tally.same("the slider says where it is", value, "position 27 of 27")
    tally.same("the table marks the step", page.one("#row-27").get_attribute("aria-current"), "step")
    tally.same("the page says its language", page.one("html").get_attribute("lang"), "en")
    headings = [heading.tag_name for heading in page.all("h1, h2")]
    tally.check("one heading of the first level", headings.count("h1") == 1, headings)


def in_tables(page):
    """The table has each step, with outcome and changes in words; the streams' table follows the position."""
    page.open("tables", runs.example(page.folder, "lock.ends"), "#3")
    tally.same("a row a step", len(page.all("#steps tbody tr")), 13)
    row = page.text("#row-3")
    tally.check("the row of a step", re.search(r"3\s+1\.0\s+locked\s+LOAD\.S r1, r0, 0\s+blocked", row), row)
    waits = page.text("#waits")
    tally.check("the table of waits", "step 8, let through by step 6 of 0.0" in waits, waits)
    streams = page.text("#streams")
    tally.check("the table of streams", "1.0 locked waits for [0]" in streams, streams)
    page.go("13")
    streams = page.text("#streams")
    tally.check("it follows the position", "1.0 has quit" in streams, streams)


def part(page):
    for one in (by_keyboard, by_reader, in_tables):
        one(page)
