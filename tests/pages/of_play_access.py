"""The page of all schedules by the keyboard alone, for a screen reader, in three widths and two themes, and with hostile
texts in its program."""

import of_access
import of_hostile
import of_widths
import runs
import tally
from selenium.webdriver.common.keys import Keys

PROGRAM = runs.ROOT / "tests/cases/lab_play/racing.asm"
EXPECTED = "word 8 2\nfinished\n"
# what a page of a program with hostile texts shows of its first line, and as its name
FIRST = "return [document.querySelector('#lines .text').textContent, document.getElementById('program').textContent]"


def racing(folder):
    expected = folder / "racing.expect"
    expected.write_text(EXPECTED)
    return runs.played(folder, PROGRAM, "--expect", str(expected))


def by_keyboard(page, text):
    page.open("play_keys", text)
    reached = of_access.stops(page)
    for wanted in ("skip", "ahead", "hex", "copy", "help", "scroll", "lines"):
        tally.check(f"the tabulator reaches {wanted}", wanted in reached, reached)
    for kind in ("choice", "goal", "show"):
        tally.check(f"the tabulator reaches a {kind}", any(kind in one.split() for one in reached), reached)
    tally.check("nothing holds the focus", len(reached) < of_access.STOPS, len(reached))
    page.script("document.querySelector('.choice:not([hidden])').focus()")
    page.press(Keys.ENTER)
    tally.same("Enter takes a step", page.script("return view.at"), 1)
    page.press(Keys.ARROW_DOWN, Keys.ENTER)
    tally.same("an arrow in the list, and Enter, take the next", page.script("return [view.at, way[1][0]]"), [2, 1])
    outlined = page.script("return getComputedStyle(document.activeElement).outlineStyle")
    tally.check("the focus is seen", outlined != "none", outlined)
    page.press("?")
    tally.check("? opens the keys", page.script("return document.getElementById('keys').open"))
    page.press(Keys.ESCAPE)
    for _ in range(40):
        page.press("1", "2")
    tally.check("an end is reached by keys alone", page.script("return !document.getElementById('result').hidden"))
    tally.check("and the focus is on something", page.script("return document.activeElement !== document.body"))
    page.quiet("play: keyboard")


def by_reader(page, text):
    page.open("play_reader", text, "#0.0x1")
    page.painted()
    told = of_access.tree(page)
    roles = {role for role, _ in told}
    for role in ("banner", "toolbar", "main", "region", "group", "table", "rowheader", "button", "list"):
        tally.check(f"there is a {role}", role in roles, sorted(roles))
    named = ("button", "link", "dialog", "img", "table", "image", "textbox")
    tally.same("each control, picture and table has a name", [role for role, name in told if role in named and not name], [])
    tally.same("what happened is live", page.one("#happened").get_attribute("aria-live"), "polite")
    choice = page.one(".choice:not([hidden])").get_attribute("aria-label")
    tally.check("a choice says whose step it is, and what can come then", choice.startswith("0.0 at") and "can come" in choice,
                choice)
    headings = [heading.tag_name for heading in page.all("h1, h2, h3")]
    tally.same("one heading of the first level", headings.count("h1"), 1)
    tally.same("the page says its language", page.one("html").get_attribute("lang"), "en")
    tally.same("the way is there in words", len(page.all("#spoken li")), 1)


def fits(page, text, width, theme):
    page.open("play_width", text, "#0.0x3,1.0x4")
    page.painted()
    what = f"play, {width} pixels, {theme}"
    tally.check(f"{what}: nothing sticks out", page.script("return document.documentElement.scrollWidth <= innerWidth"))
    tally.same(f"{what}: no element is outside", page.script(of_widths.OUTSIDE), [])
    for id in ("lead", "goals", "where", "told", "choices", "scroll", "lines", "ends", "map", "words", "streams"):
        tally.check(f"{what}: {id} is there", page.one(f"#{id}").is_displayed())
    page.quiet(what)


# two streams that store long numbers into one word, again and again
LONG_NUMBERS = "\n".join([".entry one", ".entry two", ".data 0", "one: LIT r1, 1234567890", *["STORE.N r1, r0, 0"] * 8, "QUIT",
                          "two: LIT r1, 4294967290", *["FADD.N r1, r0, 0"] * 3, *["LOAD.N r1, r0, 0"] * 3, "QUIT", ""])
# the texts of the lanes that lie on each other: of each two in one row, whose boxes meet
ON_EACH_OTHER = """
  const rows = new Map();
  for (const one of document.querySelectorAll('#track text, #heads text')) {
    const { left, right, top } = one.getBoundingClientRect();
    const row = `${one.closest('#track, #heads').id} ${one.getAttribute('y')}`;
    rows.set(row, [...(rows.get(row) ?? []), [left, right, one.lastChild?.textContent ?? '']]);
  }
  return [...rows.values()].flatMap((row) => row.sort((a, b) => a[0] - b[0])
    .flatMap(([left, , text], i) => (i && left < row[i - 1][1] - 0.5 ? [[row[i - 1][2], text]] : [])));
"""


def labels(page):
    """In lanes of long numbers and many steps no text lies on another one."""
    source = page.folder / "long_numbers.asm"
    source.write_text(LONG_NUMBERS)
    text = runs.played(page.folder, source)
    for width, height in of_widths.WIDTHS:
        page.size(width, height)
        page.open("play_labels", text, "#" + ",".join(["0.0", "1.0"] * 7))
        page.painted()
        for what in "14 steps", "a lecture":
            tally.same(f"play, {width} pixels, {what}: no labels lie on each other", page.script(ON_EACH_OTHER), [])
            tally.same(f"play, {width} pixels, {what}: no element is outside", page.script(of_widths.OUTSIDE), [])
            page.press("l")
        page.quiet(f"play, {width} pixels, labels")
    page.size(1920, 1080)


def hostile(page):
    """A program whose every text is hostile, and a title like it."""
    name = "<img src=x onerror=window.evil=4>"
    source = page.folder / f"{name}.asm"
    first = f"; {of_hostile.EVIL}"
    lines = [first, ".slim 1", ".entry go", ".entry go", f".data 0 ; {of_hostile.EVIL}", f"go: FADD.N r1, r0, 0 {first}",
             "LIT r1, 1 ; " + "x" * of_hostile.LONG, "QUIT", ""]
    source.write_text("\n".join(lines))
    page.open("play_evil", runs.played(page.folder, source, "--title", of_hostile.EVIL))
    page.painted()
    tally.same("play: it is shown as text", page.script(FIRST)[0], first[:299] + "…" if len(first) > 300 else first)
    tally.check("play: nothing of it ran", page.script(of_hostile.ALIVE))
    for key in ("1", "2", "1", "x", "b", "c"):
        page.press(key)
    page.press(Keys.ESCAPE)
    tally.check("play: nothing of it ran after steps", page.script(of_hostile.ALIVE))
    tally.check("play: the page is no wider than the window",
                page.script("return document.documentElement.scrollWidth <= innerWidth"))
    page.quiet("play: hostile")
    of_hostile.policy(page)


def part(page):
    if not runs.has_pages():
        return
    text = racing(page.folder)
    by_keyboard(page, text)
    by_reader(page, text)
    for theme in ("light", "dark"):
        for width, height in of_widths.WIDTHS:
            page.size(width, height, theme)
            fits(page, text, width, theme)
        of_widths.can_be_read(page, theme)
    page.size(1920, 1080)
    labels(page)
    hostile(page)
