"""Widths and themes: nothing sticks out of the window, the ruler stands over the lanes, texts can be read."""

import of_why
import runs
import tally

WIDTHS = ((360, 780), (1024, 768), (1920, 1080))
EXAMPLES = ("lock.lost_update", "barrier.mixes_rounds", "philosophers.deadlock")
# texts on grounds, by the names of the colours
PAIRS = (
    ("ink", "paper"), ("ink", "ground"), ("muted", "paper"), ("muted", "ground"), ("done", "paper"),
    ("on-done", "done"), ("blocked-ink", "paper"), ("blocked-ink", "wait"), ("full-ink", "paper"), ("ink", "full"),
    ("ink", "here"),
    ("lost", "paper"), ("stopped", "paper"), ("trapped", "paper"), ("done", "faint"), ("done", "here"),
)
LEAST_CONTRAST = 4.5
OUTSIDE = """
  return [...document.querySelectorAll('body *')].filter((one) => {
    if (one.closest('.pane, #scroll, #goals, #trace, #numbers, .unseen, .skip, dialog, #paper')) return false;
    const box = one.getBoundingClientRect();
    return box.width && (box.right > innerWidth + 1 || box.left < -1);
  }).map((one) => one.id || one.className || one.tagName);
"""


def brightness(colour):
    parts = [int(colour[i:i + 2], 16) / 255 for i in (1, 3, 5)]
    linear = [part / 12.92 if part <= 0.04045 else ((part + 0.055) / 1.055) ** 2.4 for part in parts]
    return 0.2126 * linear[0] + 0.7152 * linear[1] + 0.0722 * linear[2]


def contrast(one, other):
    bright, dark = sorted((brightness(one), brightness(other)), reverse=True)
    return (bright + 0.05) / (dark + 0.05)


def can_be_read(page, theme):
    value = "return getComputedStyle(document.documentElement).getPropertyValue('--' + arguments[0]).trim()"
    for text, ground in PAIRS:
        found = contrast(page.script(value, text), page.script(value, ground))
        tally.check(f"{theme}: {text} on {ground} can be read", found >= LEAST_CONTRAST, f"{found:.2f}")


def fits(page, name, width, theme):
    page.open(name, of_why.with_why(runs.example(page.folder, name))[0])
    page.painted()
    what = f"{name}, {width} pixels, {theme}"
    for shown in ("", ", with a chain"):
        is_in = page.script("return document.documentElement.scrollWidth <= innerWidth")
        tally.check(f"{what}{shown}: nothing sticks out", is_in)
        tally.same(f"{what}{shown}: no element is outside", page.script(OUTSIDE), [])
        page.press("w")
        page.painted()
    edges = [page.script("return document.getElementById(arguments[0]).getBoundingClientRect().left", id)
             for id in ("numbers", "picture")]
    tally.check(f"{what}: numbers stand over their steps", abs(edges[0] - edges[1]) < 1, edges)
    for id in ("end", "slider", "told", "picture", "legend", "steps", "lines", "stream", "words", "why"):
        tally.check(f"{what}: {id} is there", page.one(f"#{id}").is_displayed())
    page.quiet(what)


def part(page):
    for theme in ("light", "dark"):
        for width, height in WIDTHS:
            page.size(width, height, theme)
            for name in EXAMPLES:
                fits(page, name, width, theme)
        can_be_read(page, theme)
    page.size(1920, 1080)
