"""The page on which the reader is the scheduler: steps by keys and clicks, undo and redo, links, goals and hints, the map,
the texts that are copied; each state that is shown beside the graph in the page."""

import pathlib
import random

import runs
import tally
import worlds
from graphs import Graph
from selenium.webdriver.common.keys import Keys

LEFT, RIGHT, HOME, END, ESCAPE = Keys.ARROW_LEFT, Keys.ARROW_RIGHT, Keys.HOME, Keys.END, Keys.ESCAPE
PROGRAMS = runs.ROOT / "tests/cases/lab_play"
WALKS, STEPS = 34, 30


def shown(page):
    """The state that the page shows."""
    return int(page.script("return document.body.dataset.state"))


# the state, the choices and whether each can't be taken, whether they are shown, the ends that can come, the result
SEEN = """
  const all = (what) => [...document.querySelectorAll(what)];
  return [Number(document.body.dataset.state),
    all('.choice:not([hidden])').map((one) => [Number(one.dataset.stream), one.getAttribute('aria-disabled')]),
    !document.getElementById('choices').hidden,
    all('#ends li').flatMap((row, number) => (Number(row.dataset.left) >= 0 ? [number] : [])),
    !document.getElementById('result').hidden];
"""


def is_as(page, graph, state, what):
    """Whether the page shows a state: its number, its choices, the ends that can still come, the result."""
    seen, choices, are_choices_shown, ahead, has_result = page.script(SEEN)
    tally.same(f"{what}: the state", seen, state)
    can_step = graph.steps(state)
    if are_choices_shown:
        wanted = [[at, "false" if at in can_step else "true"] for at in graph.running(state)]
        tally.same(f"{what}: the choices", choices, wanted)
    tally.same(f"{what}: the ends ahead", ahead, graph.data["sets"][graph.ahead[state]])
    tally.same(f"{what}: whether there is a result", has_result, state in graph.ends)


# what the page shows of words and of the streams that are not idle
PLACES = """
  const all = (what, from) => [...(from ?? document).querySelectorAll(what)];
  return [all('#words td[data-word]').flatMap((one) => [[`[${one.dataset.word}].value`, one.dataset.value],
      [`[${one.dataset.word}].tags`, one.dataset.tags]]),
    all('.stream').filter((one) => one.dataset.status !== 'idle').flatMap((one) => [
      [`${one.dataset.name}.status`, one.dataset.status], [`${one.dataset.name}.pc`, one.dataset.pc],
      ...all('[data-place]', one).filter((place) => !place.querySelector('.change'))
        .map((place) => [`${one.dataset.name}.${place.dataset.place}`, place.dataset.value])])].flat();
"""


def is_as_in_simulator(page, graph, source, what):
    """Whether the schedule of the page's way leads mta_sim to what the page shows."""
    if not worlds.has_debugger():
        return
    page.press("c")
    text = page.script("return document.getElementById('as-schedule').value")
    page.press(ESCAPE)
    schedule = pathlib.Path(page.folder) / "way.schedule"
    schedule.write_text(text)
    steps = sum(int(line.split()[2]) for line in text.splitlines())
    words = sum(count for count, _, _ in graph.data["start"]["memory"])
    places = worlds.debugged_by(page.folder, source, schedule, graph.data["streams"], words, [steps])[steps]
    # (the debugger has no line for a target register of 0, which the page shows of t0 if that is a handler's address)
    came_to = [(place, value, places.get(place, "0")) for place, value in page.script(PLACES)]
    differing = [(place, value, is_so) for place, value, is_so in came_to if value != is_so]
    tally.same(f"{what}: what mta_sim comes to by its schedule", differing, [])


def walk(page, graph, chance, name):
    """A random walk by keys and clicks, and back."""
    page.press(HOME)
    way = [0]
    for number in range(STEPS):
        choices = graph.steps(way[-1])
        if not choices:
            break
        at = chance.choice(choices)
        if chance.random() < 0.5 and at < 9:
            page.press(str(at + 1))
        else:
            page.script("document.querySelector(`.choice[data-stream='${arguments[0]}']`).click()", at)
        way.append(graph.to[at][way[-1]])
        is_as(page, graph, way[-1], f"{name}, step {number + 1}")
    if len(way) > 2:
        page.press(LEFT, LEFT, RIGHT)
        tally.same(f"{name}: two back and one on", shown(page), way[-2])
    return way


def walks(page, name, text, graph):
    page.open(name, text)
    is_as(page, graph, 0, f"{name}, the start")
    chance = random.Random(name)
    for number in range(WALKS):
        way = walk(page, graph, chance, f"{name}, walk {number + 1}")
        is_as_in_simulator(page, graph, PROGRAMS / f"{name}.asm", f"{name}, walk {number + 1}")
    page.press(END)
    link = page.script("return location.hash")
    page.open(name, text, link)
    tally.same(f"{name}: the link opens the same state", shown(page), way[-1])
    page.press("c")
    schedule = page.script("return document.getElementById('as-schedule').value")
    steps = sum(int(line.split()[2]) for line in schedule.splitlines())
    tally.same(f"{name}: the schedule has the steps of the way", steps, len(way) - 1)
    page.press(ESCAPE)
    page.quiet(f"{name}: walks")


def goals(page, name, text, graph):
    """Each goal is reached by its hints, in the fewest steps."""
    page.open(name, text)
    for number, end in enumerate(graph.data["ends"][:8]):
        page.script("document.querySelector(`.goal[data-goal='${arguments[0]}']`).click()", number)
        tally.same(f"{name}, goal {number}: it begins at the start", shown(page), 0)
        for _ in range(end["shortest"]):
            page.press("h")
            hinted = page.script("return document.querySelector('.choice.hinted')?.dataset.stream")
            if hinted is None:
                break
            page.script("document.querySelector(`.choice[data-stream='${arguments[0]}']`).click()", hinted)
        tally.check(f"{name}, goal {number}: the hints lead there", shown(page) in end["states"], shown(page))
        tally.check(f"{name}, goal {number}: it says so", "reached" in page.script(
            "return document.getElementById('result').className"))
    page.quiet(f"{name}: goals")


def part(page):
    for source in sorted(PROGRAMS.glob("*.asm")):
        text = runs.played(page.folder, source)
        if text is None:
            return
        graph = Graph(text)
        walks(page, source.stem, text, graph)
        goals(page, source.stem, text, graph)
