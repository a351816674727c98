"""Controls: keys, buttons, the slider, links, clicks on cells, lines, words and names; what the words and signs say."""

import time

import made_runs
import runs
import tally
from selenium.webdriver.common.keys import Keys

LEFT, RIGHT, HOME, END, ESCAPE = Keys.ARROW_LEFT, Keys.ARROW_RIGHT, Keys.HOME, Keys.END, Keys.ESCAPE


def keys(page):
    page.open("keys", runs.example(page.folder, "lock.lost_update"))
    tally.same("the page opens at the step that loses the update", page.position(), 7)
    for pressed, wanted in (((HOME,), 0), ((RIGHT,), 1), ((RIGHT, RIGHT), 3), ((LEFT,), 2), ((END,), 8), ((RIGHT,), 8),
                            ((HOME, LEFT), 0), ((Keys.SPACE, Keys.SPACE), 0)):
        page.press(*pressed)
        tally.same(f"keys lead to {wanted}", page.position(), wanted)
    page.press(ESCAPE, HOME, ".")
    tally.same("the next telling step", page.position(), 2)
    page.press(".", ".")
    told = page.text("#told")
    tally.check("the step that loses the update", page.position() == 7 and "An update is lost here" in told, told)
    page.press(",")
    tally.same("the last telling step", page.position(), 4)
    page.press(HOME, Keys.ARROW_DOWN, Keys.ARROW_DOWN, Keys.SHIFT + RIGHT + Keys.NULL)
    tally.same("a stream's next step", (page.position(), page.text("#stream h2").split()[1]), (2, "3.0"))
    page.press(Keys.ARROW_UP)
    tally.same("the stream above", page.text("#stream h2").split()[1], "2.0")
    page.press("x")
    texts = page.text("#heads"), page.text("#end")
    tally.check("hexadecimal values", "stored 0x1 into [8]" in texts[1] and "[8]" in texts[0], texts)
    page.press("x", "?")
    tally.check("? shows the keys", page.script("return document.getElementById('keys').open"))
    page.press(ESCAPE)
    tally.check("Escape closes them", not page.script("return document.getElementById('keys').open"))
    page.quiet("keys")


def width_keys(page):
    page.open("width", runs.example(page.folder, "philosophers.deadlock"))
    before = page.script("return cellWidth")
    page.press("+")
    wider = page.script("return cellWidth")
    page.press("-", "-")
    narrower = page.script("return cellWidth")
    page.press("0")
    tally.check("wider and narrower steps", narrower < before < wider, (narrower, before, wider))
    tally.same("fitting steps again", page.script("return cellWidth"), before)


def buttons(page):
    page.open("buttons", runs.example(page.folder, "lock.lost_update"))
    for button, wanted in (("first", 0), ("on", 1), ("last", 8), ("back", 7)):
        page.one(f"#{button}").click()
        tally.same(f"the button {button}", page.position(), wanted)
    page.one("#first").click()
    page.one("#play").click()
    tally.same("play is pressed", page.one("#play").get_attribute("aria-label"), "Pause")
    time.sleep(1.7)
    page.one("#play").click()
    played = page.position()
    tally.check("play goes on by itself", played in (2, 3), played)
    time.sleep(1)
    tally.same("pause stops it", page.position(), played)
    page.drag(page.one("#slider"), 300)
    tally.check("the slider is dragged by the mouse", 4 < page.position() < 8, page.position())
    page.script("const s = document.getElementById('slider'); s.value = 5; s.dispatchEvent(new Event('input'))")
    tally.same("the slider", page.position(), 5)
    tally.same("the link follows", page.script("return location.hash"), "#5")
    page.one("#help").click()
    tally.check("the button of the keys", page.script("return document.getElementById('keys').open"))
    page.one("#keys button").click()
    tally.check("it closes", not page.script("return document.getElementById('keys').open"))
    page.quiet("buttons")


def links(page):
    text = runs.example(page.folder, "lock.lost_update")
    page.open("links", text, "#3.2.0")
    tally.same("a link to a position and a stream", (page.position(), page.text("#stream h2").split()[1]), (3, "2.0"))
    page.open("links", text, "#6")
    tally.same("a link to a position", (page.position(), page.text("#stream h2").split()[1]), (6, "3.0"))
    for fragment, wanted in (("#999", 8), ("#0", 0), ("#nothing", 7), ("#4.99.99", 4)):
        page.open("links", text, fragment)
        tally.same(f"a link {fragment}", page.position(), wanted)
    page.go("2")
    page.all("#end a")[0].click()
    tally.same("a link in the words of the end", page.position(), 7)
    page.one("#row-3 a").click()
    tally.same("a link in the table", page.position(), 3)
    page.script("document.querySelector('.skip').click()")
    tally.same("the link to the table leaves the position", page.position(), 3)
    page.quiet("links")


def clicks(page):
    page.open("clicks", runs.example(page.folder, "lock.lost_update"))
    page.painted()
    page.all("#picture .cell")[3].click()
    tally.same("a click on a cell", page.position(), 4)
    page.all("#numbers .number")[0].click()
    tally.same("a click on a step's number", page.position(), 1)
    page.one("button.line[data-line='19']").click()
    page.painted()
    tally.same("a click on a line rings its steps", len(page.all("#picture .ring")), 2)
    page.press(HOME, ".", ".")
    tally.same("the line's next step", page.position(), 2)
    page.press(ESCAPE)
    page.one("button.word[data-word='8']").click()
    tally.same("a word is chosen", page.one("button.word[data-word='8']").get_attribute("aria-pressed"), "true")
    page.press(END, ",")
    tally.same("the word's last step", page.position(), 7)
    page.press(ESCAPE)
    page.all("#heads .head")[0].click()
    tally.same("a click on a stream keeps it", page.text("#stream h2").split()[1], "2.0")
    page.press(END)
    tally.same("it is kept", page.text("#stream h2").split()[1], "2.0")
    page.press(ESCAPE)
    tally.same("Escape lets it go", page.text("#stream h2").split()[1], "3.0")
    page.quiet("clicks")


def waits(page):
    page.open("waits", runs.example(page.folder, "lock.ends"), "#3")
    page.painted()
    kinds = [bar.get_attribute("class") for bar in page.all("#picture .bars rect")]
    wanted = ["full", "empty", "full", "empty", "full", "full", "full", "full"]
    tally.same("a word's bar turns at each change", kinds, wanted)
    tally.same("a wait has a band", len(page.all("#picture .back .wait")), 1)
    tally.same("an arrow from the step that let it through", len(page.all("#picture .arrow.frees")), 1)
    told = page.text("#told")
    tally.check("who made it wait", "to be full. 0.0 emptied it in step 1." in told, told)
    page.go("6.1.0")
    told = page.text("#stream")
    tally.check("a wait that could end", "0.0 filled it in step 6, and it has not tried since" in told, told)
    page.quiet("waits")


def ends(page):
    for name, title, words in (
        ("philosophers.deadlock", "0.0, 1.0, 2.0, 3.0 and 4.0 wait, and no stream that has begun", "5.0 has not begun"),
        ("barrier.mixes_rounds", "2.0 and 3.0 wait, and no stream that has begun can go on", "it emptied itself"),
        ("lock.lost_update", "with a lost update", "which is lost"),
        ("lock.ends", "All who began have quit after 13 steps", "2.0 and 3.0 have not begun"),
        ("readers_writer.torn_read", "with a torn read", "saw half of a change: it read the old [0], 1, in step 1"),
        ("limited_wait", "Stopped by a trap: 0.0", "BLOCKED"),
    ):
        page.open(name, runs.example(page.folder, name))
        page.painted()
        tally.check(f"{name}: the end's title", title in page.text("h1"), page.text("h1"))
        tally.check(f"{name}: the end in words", words in page.text("#end"), page.text("#end"))
        page.quiet(name)
    page.open("circle", runs.page(made_runs.ring(5)))
    title = page.text("h1")
    tally.check("a circle is of a deadlock", title.startswith("Deadlock: ") and "in a circle" in title, title)
    tally.same("the circle is drawn", (len(page.all(".ring .edge")), len(page.all(".ring .node.word"))), (5, 5))
    label = page.one(".ring").get_attribute("aria-label")
    tally.check("and told", "0.0 waits for [8] fork+1 to be full, which 1.0 emptied" in label, label)
    tally.same("its words have their names", sorted(node.text for node in page.all(".ring .node.word text")),
               ["[0] fork", "[16] fork+2", "[24] fork+3", "[32] fork+4", "[8] fork+1"])
    tally.same("and so do the lanes", [node.text for node in page.all("#heads .head b")][5:7], ["[0] fork", "[8] fork+1"])
    row = page.one("#words tr:nth-child(2)").text.split()
    tally.same("and the list of words, with the comment", row[:2] + row[-2:], ["[8]", "fork+1", "0.0", "waits"])
    page.open("rows", runs.example(page.folder, "barrier.mixes_rounds"))
    tally.same("waits without a circle are drawn", [node.text for node in page.all(".ring .node.stream")],
               ["2.0", "3.0", "3.0", "itself"])


def findings(page):
    page.open("torn", runs.example(page.folder, "readers_writer.torn_read"), "#6")
    page.painted()
    tally.same("a torn read is drawn below both words", len(page.all("#picture .torn")), 2)
    texts = [text.text for text in page.all("#picture text.lost.small")]
    tally.same("and named", texts, ["torn: 4.0 read the old 1", "torn: 4.0 read the new 2"])
    tally.check("its step tells it", "A torn read:" in page.text("#told"), page.text("#told"))
    tally.check("the legend has it", "torn read" in page.text("#legend"), page.text("#legend"))
    page.open("lost", runs.example(page.folder, "lock.lost_update"))
    page.painted()
    tally.same("a lost update has a cross", len(page.all("#picture .lost.cross")), 1)
    page.quiet("findings")


def opening(page):
    """The step at which a page opens: the last with a finding, or that from which on nobody can go on, else the last."""
    for name, wanted in (("readers_writer.torn_read", 6), ("philosophers.deadlock", 26), ("barrier.mixes_rounds", None),
                         ("lock.ends", 13)):
        page.open("opening", text := runs.example(page.folder, name))
        run = runs.run_of(text)
        if wanted is None:
            wanted = max(wait["since"] for wait in run["end"]["waiting"])
        tally.same(f"{name}: where it opens", page.position(), wanted)
    ring = made_runs.ring(5)
    page.open("opening", runs.page(ring))
    tally.same("a circle: where it opens", page.position(), max(wait["since"] for wait in ring["end"]["waiting"]))


def folded(page):
    """Tries in vain, four or more in a row after the first, share a column; others don't."""
    run = runs.sample("lock.ends")
    tried = run["steps"][2]
    assert tried["o"] == "blocked"
    again = [{**tried, "ch": []} for _ in range(6)]
    run["steps"][3:3] = again
    for wait in run["waits"]:
        wait["tries"] += 6
        for key in ("from", "to", "met"):
            wait[key] += 6 if (wait[key] or 0) > 3 else 0
    page.open("folded", runs.page(run), "#5")
    page.painted()
    tally.same("six tries share a column", page.script("return [columns.length, columnOf[4], columnOf[9]]"),
               [len(run["steps"]) - 5, 3, 3])
    texts = [text.text for text in page.all("#picture .cell text.in")]
    tally.check("the cell says how many", "×6" in texts, texts)
    tally.same("the position stays a step's", page.position(), 5)
    page.press(Keys.ENTER)
    tally.same("Enter opens them", page.script("return columns.length"), len(run["steps"]))
    page.press("f")
    tally.same("f folds them", page.script("return columns.length"), len(run["steps"]) - 5)
    page.quiet("folded tries")


def judged(page):
    """A page that says whether the end is as expected: then no sign of a fault."""
    run = runs.sample("limited_wait")
    for more, kind, words in (({}, "bad", "Stopped by a trap"), ({"expected": True}, "finished", "As expected."),
                              ({"expected": False, "missed": "word 0 3"}, "bad", "Not as expected: word 0 3.")):
        page.open("judged", runs.page({**run, **more}))
        tally.same(f"{more}: the sign of the end", page.one("h1").get_attribute("class"), kind)
        tally.check(f"{more}: the end in words", words in page.text("#end"), page.text("#end"))
    page.quiet("a judged end")


def skipped(page):
    """A step of a stream that does not run, and of one that is not there."""
    run = runs.sample("lock.lost_update")
    run["steps"] += [{"p": 2, "s": 0, "pc": 0, "o": "skipped", "ch": []}, {"p": 9, "s": 7, "pc": 0, "o": "skipped", "ch": []}]
    page.open("skipped", runs.page(run), "#9")
    page.painted()
    tally.same("a skipped step is told", page.text("#told"), "2.0 does not run: nothing happens.")
    tally.check("it has no line", not page.all("#lines .from"))
    tally.same("its sign", len(page.all("#picture .cell.skipped")), 2)
    page.press(END)
    tally.same("a stream that is not there", page.text("#stream h2"), "Stream 9.7 idle")
    tally.same("its step is told", page.text("#told"), "9.7: there is no such stream.")
    page.quiet("skipped steps")


# of each cell its step's operation, and what is written in it
CELLS = """
  return [...document.querySelectorAll('#picture .cell')].map((cell) => [
    cell.querySelector('title').textContent,
    [...cell.querySelectorAll('text.in')].map((text) => text.textContent).join('')]);
"""


def suffixes(page):
    """At no width a name is shown without its suffix."""
    for name in ("philosophers.deadlock", "lock.ends", "fetch_add.lost_update"):
        page.open("suffixes", runs.example(page.folder, name), "#2")
        page.press(*["-"] * 6)
        for zoom in range(14):
            page.painted()
            wrong, seen = [], 0
            for title, text in page.script(CELLS):
                operation = title.split(": ")[2].split()[0]
                suffix = operation.partition(".")[2]
                seen += 1
                if suffix and text and not text.endswith("." + suffix):
                    wrong.append((operation, text))
            tally.check(f"{name}, {zoom} times wider: no suffix drops off", seen and not wrong, wrong)
            page.press("+")


def part(page):
    for one in (keys, width_keys, buttons, links, clicks, waits, ends, findings, opening, folded, judged, skipped, suffixes):
        one(page)
