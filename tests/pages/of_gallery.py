"""The gallery of the examples and exercises in a browser: each card leads to pages that open without a message, each level is
reached by clicks and is kept as done, and nothing sticks out of a window of any width."""

import json
import pathlib
import re
import urllib.parse

import runs
import tally
from of_widths import OUTSIDE

DATA = re.compile(r'<script type="application/json" id="gallery-data">(.*?)</script>', re.DOTALL)
WIDTHS = ((360, 780), (768, 1024), (1366, 768), (1920, 1080))
# the streams of a shortest way to the goal of a page of play, and the class of what is reached
WAY = "return shortestWay(0, view.goal)"
CARDS = "return [...document.querySelectorAll('.card')].map((one) => one.id.replace(/^card-/, ''))"
LINKS = """return [...document.querySelectorAll('a[href]')].map((one) => one.getAttribute('href').replace(/#.*/, ''))"""
DONE = "return [...document.querySelectorAll('#level-list .done')].map((one) => Number(one.dataset.level))"
# seconds for all pages of a gallery
PATIENCE = 600


def written(page):
    """The folder of the gallery of this repository, and its data."""
    folder = pathlib.Path(page.folder) / "gallery"
    runs.call(runs.LAB, "gallery", str(folder), "--exercises", str(runs.ROOT / "exercises"), "--examples", str(runs.EXAMPLES),
              patience=PATIENCE)
    for file in sorted(folder.iterdir()):
        kind = file.name.split(".")[-2]
        how = {"play": ("play", runs.GRAPH), "run": ("run", runs.RUN)}.get(kind, ("gallery", DATA))
        file.write_text(runs.taken(file.read_text(encoding="utf-8"), *how), encoding="utf-8")
    return folder, json.loads(DATA.search((folder / "index.html").read_text(encoding="utf-8"))[1])


def shown(page, folder, name):
    """Shows a page of the gallery."""
    page.driver.get("about:blank")
    page.forget()
    page.driver.get(f"file://{folder}/{name}")


def cards(page, folder, data):
    """Each exercise and example has a card, and each link of the page leads to a file of the folder."""
    shown(page, folder, "index.html")
    page.script("localStorage.clear()")
    exercises = sorted(path.name for path in (runs.ROOT / "exercises").iterdir() if path.name[:2].isdigit())
    examples = sorted(path.stem for path in runs.EXAMPLES.glob("*.asm"))
    tally.same("gallery: the cards", page.script(CARDS), exercises + examples)
    links = {urllib.parse.unquote(link) for link in page.script(LINKS)}
    files = {path.name for path in folder.iterdir()}
    tally.same("gallery: its links lead to its files", sorted(links), sorted(files - {"index.html"}))
    tally.same("gallery: each card has a picture of a run", len(page.all(".card svg.run path:not(.lane)")) > 0
               and len(page.all(".card svg.run")), len(data["cards"]))
    tally.same("gallery: no level is done", [page.text("#done"), page.script(DONE)],
               [f"0 of {len(data['levels'])} levels are done.", []])
    page.quiet("gallery")


def pages(page, folder, data):
    """Each page opens, the run that fails where it decides, and all ends are shown where they are asked for."""
    for card in data["cards"]:
        name = card["name"]
        if card["shows"]:
            shown(page, folder, f"{name}.run.html")
            tally.check(f"{name}: its run stands at a step", page.position() > 0)
            page.quiet(f"{name}: its run")
        if card["play"]:
            shown(page, folder, f"{name}.play.html#ends")
            ends, goal = page.script("return [data.ends.length, view.goal]")
            tally.same(f"{name}: no goal is set", goal, None)
            tally.same(f"{name}: all ends are shown", len(page.all("#ends .badge")), ends)
            page.quiet(f"{name}: its ends")


def levels(page, folder, data):
    """Each level by clicks: from the page that leads to it, along a shortest way to its goal, and back."""
    done = []
    for number, level in enumerate(data["levels"]):
        card = data["cards"][level["card"]]
        what = f"level {number + 1}, {card['name']}"
        shown(page, folder, "index.html")
        tally.same(f"{what}: those that are done", page.script(DONE), done)
        page.one(f"#level-list li[data-level='{number}'] a").click()
        tally.check(f"{what}: where it leads", page.wait(lambda: page.all("#goals .goal")))
        tally.same(f"{what}: its goal", page.script("return kinds[view.goal]"), level["goal"])
        for stream in page.script(WAY):
            page.one(f"#choices .choice[data-stream='{stream}']").click()
        tally.check(f"{what}: it is reached", page.text("#result h2").startswith("Goal reached"), page.text("#result h2"))
        done.append(number)
        page.quiet(what)
    shown(page, folder, "index.html")
    tally.same("gallery: all levels are done", [page.text("#done"), page.script(DONE)], ["All levels are done.", done])
    page.one("#forget").click()
    tally.same("gallery: and it begins again", page.script(DONE), [])
    page.quiet("gallery: levels")


def shown_way(page, folder, data):
    """A goal that the page has shown is not done."""
    card = data["cards"][data["levels"][0]["card"]]
    shown(page, folder, f"{card['name']}.play.html")
    page.script("showEnd(view.goal); goTo(way.length, true)")
    shown(page, folder, "index.html")
    tally.same("gallery: what was shown is not done", page.script(DONE), [])
    page.quiet("gallery: shown")


def widths(page, folder):
    for theme in ("light", "dark"):
        for width, height in WIDTHS:
            page.size(width, height, theme)
            shown(page, folder, "index.html")
            what = f"gallery, {width} pixels, {theme}"
            tally.check(f"{what}: nothing sticks out", page.script("return document.documentElement.scrollWidth <= innerWidth"))
            tally.same(f"{what}: no element is outside", page.script(OUTSIDE), [])
            page.quiet(what)
    page.size(1920, 1080)


def part(page):
    if not runs.has_pages():
        return
    folder, data = written(page)
    cards(page, folder, data)
    pages(page, folder, data)
    levels(page, folder, data)
    shown_way(page, folder, data)
    widths(page, folder)
