"""The saved picture, and paper."""

import base64
import re
import xml.etree.ElementTree

import runs
import tally

SVG = "{http://www.w3.org/2000/svg}"
# the texts that stick out of a picture of some width and height
OUTSIDE = """
  const [wide, high] = arguments;
  return [...document.querySelectorAll('text')].filter((one) => {
    const box = one.getBoundingClientRect();
    return box.right > wide + 1 || box.bottom > high + 1;
  }).map((one) => one.textContent);
"""
WIDEST = """
  const strips = [...document.querySelectorAll('#paper > svg')];
  return Math.max(...strips.map((one) => one.getBoundingClientRect().right));
"""
ARROWS = "return drawRuler(0, 100000, 20, false).querySelectorAll('g.round').length"
EXAMPLES = ("lock.lost_update", "philosophers.deadlock", "bounded_buffer.ends", "readers_writer.torn_read")


def saved(page, name):
    """The saved picture stands alone: it has what it is of, the lanes, the legend, and its own style."""
    page.open(name, runs.example(page.folder, name))
    page.painted()
    text = page.script("return savedPicture()")
    picture = xml.etree.ElementTree.fromstring(text)
    tally.same(f"{name}: a picture", picture.tag, f"{SVG}svg")
    tally.check(f"{name}: its colours are its own", "var(" not in text and "--" not in text)
    tally.check(f"{name}: it asks for nothing", not re.search(r"href|url\(|@import", text))
    texts = [node.text for node in picture.iter(f"{SVG}text")]
    legend = [item.text for item in page.all("#legend span")]
    tally.check(f"{name}: it has its legend", set(legend) <= set(texts), (legend, texts))
    said = " ".join(filter(None, texts))
    tally.check(f"{name}: it says how the run ended", page.text("h1").split(",")[0] in said, texts)
    tally.check(f"{name}: it has a name", page.text("h1") in picture.find(f"{SVG}title").text)
    inside(page, name, text, picture)
    page.quiet(name)


def inside(page, name, text, picture):
    """No text of the picture sticks out of it."""
    wide, high = float(picture.get("width")), float(picture.get("height"))
    address = "data:image/svg+xml;base64," + base64.b64encode(text.encode()).decode()
    page.driver.get("about:blank")
    page.driver.get(address)
    out = page.script(OUTSIDE, wide, high)
    tally.same(f"{name}: nothing sticks out of the picture", out, [])
    page.forget()


def printed(page, name):
    """On paper stand the end in words, the lanes in strips, and the legend."""
    page.open(name, runs.example(page.folder, name))
    sheets = base64.b64decode(page.protocol("Page.printToPDF", landscape=True)["data"])
    tally.check(f"{name}: it is printed", sheets.startswith(b"%PDF") and len(sheets) > 5_000, len(sheets))
    page.protocol("Emulation.setEmulatedMedia", media="print")
    strips = page.all("#paper > svg")
    tally.check(f"{name}: strips and a legend", len(strips) >= 2, len(strips))
    tally.check(f"{name}: they are seen", all(strip.is_displayed() for strip in strips))
    tally.check(f"{name}: the end in words is seen", page.one("h1").is_displayed())
    unseen = not page.one("#controls").is_displayed() and not page.one("main").is_displayed()
    tally.check(f"{name}: controls are not", unseen)
    wide = page.script(WIDEST)
    tally.check(f"{name}: no strip is wider than the sheet", wide <= page.script("return innerWidth"), wide)
    page.protocol("Emulation.setEmulatedMedia", media="")
    page.quiet(f"{name}, printed")


def marked(page, name):
    """A round that is marked: an arrow each time that the run takes it, the saved picture's legend, and a line of the end."""
    run = runs.sample(name)
    page.open(name, runs.page(run))
    tally.same(f"{name}: no round", [page.script(ARROWS), "again and again" in page.text("#end")], [0, False])
    count = len(run["steps"])
    run["round"] = {"after": count - 4, "steps": 2, "times": 2}
    page.open(f"{name}, a round", runs.page(run))
    said = (f"From step {count - 3} on again and again: 2 steps. "
            f"After step {count} the state is the same as after step {count - 4}.")
    tally.same(f"{name}: an arrow each time", page.script(ARROWS), 2)
    tally.check(f"{name}: the round in words", said in page.text("#end"), page.text("#end"))
    tally.check(f"{name}: the legend has it", "comes back to the same state" in page.text("#legend"), page.text("#legend"))
    page.quiet(f"{name}, a round")


def part(page):
    marked(page, "philosophers.deadlock")
    for name in EXAMPLES:
        saved(page, name)
    for name in ("philosophers.deadlock", "bounded_buffer.ends"):
        printed(page, name)
