"""Firefox, where it is there: states forwards and backwards, keys, the end in words, the signs of the lanes."""

import firefox
import made_runs
import of_states
import runs
import tally
import worlds

EXAMPLES = ("lock.lost_update", "philosophers.deadlock", "readers_writer.torn_read", "trap_handler.ends")
# keys as WebDriver names them
HOME, END, LEFT, RIGHT = "\ue011", "\ue010", "\ue012", "\ue014"
WHERE = "return Number(document.getElementById('where').textContent.split(' / ')[0])"
# what is shown of these streams; Firefox shows a driver's script the page's functions, and no other names of its script
SHOWN = """
  const all = {};
  for (const stream of arguments[0]) {
    choose({ stream });
    for (const node of document.querySelectorAll('#state [data-place]')) all[node.dataset.place] = node.dataset.value;
  }
  choose({ stream: null });
  return all;
"""
SIGNS = """
  paint();
  return ['.cell', '.number', '.meet', '.full, .empty', '.life'].map((sign) =>
    document.querySelectorAll('#picture ' + sign + ', #numbers ' + sign).length);
"""
LAYOUT = """
  const edge = (id) => document.getElementById(id).getBoundingClientRect().left;
  return [document.documentElement.scrollWidth <= innerWidth, Math.abs(edge('numbers') - edge('picture')) < 1];
"""


def shows(browser, name):
    """States of an example at some positions."""
    text = runs.example(browser.folder, name)
    browser.open(name, text)
    run = runs.run_of(text)
    positions = of_states.some_positions(len(run["steps"]))
    places, own, streams = worlds.replayed(run, positions), of_states.touched(run), worlds.streams_of(run)
    for k in positions + positions[::-1]:
        browser.script("goTo(arguments[0])", k)
        seen = browser.script(SHOWN, streams)
        true = {place: value for place, value in places[k].items() if place[0] != "[" or place in own or place in seen}
        wrong = of_states.differences(seen, true, True)
        tally.check(f"Firefox, {name} at {k}", not wrong, wrong)
    signs = browser.script(SIGNS)
    tally.check(f"Firefox, {name}: each kind of sign is drawn", all(signs), signs)
    tally.same(f"Firefox, {name}: nothing sticks out, numbers stand over their steps", browser.script(LAYOUT), [True, True])


def is_led(browser):
    """Keys and links."""
    browser.open("circle", runs.page(made_runs.ring(5)))
    tally.same("Firefox: the circle", browser.script("return document.querySelectorAll('.ring .edge').length"), 5)
    text = runs.example(browser.folder, "philosophers.deadlock")
    browser.open("led", text, "#17.2.0")
    kept = browser.script(WHERE), browser.script("return document.querySelector('#stream h2').textContent")
    tally.check("Firefox: a link", kept[0] == 17 and "2.0" in kept[1], kept)
    for key, wanted in ((HOME, 0), (RIGHT, 1), (RIGHT, 2), (LEFT, 1), (END, 27), (",", 26)):
        browser.press(key)
        tally.same(f"Firefox: a key leads to {wanted}", browser.script(WHERE), wanted)
    title = browser.script("return document.querySelector('h1').textContent")
    tally.check("Firefox: the end in words", "no stream that has begun can go on" in title, title)
    saved = browser.script("return savedPicture()")
    tally.check("Firefox: the saved picture", saved.startswith("<svg") and "var(" not in saved, saved[:200])
    browser.script("const s = document.createElement('script'); s.textContent = 'evil = 1'; document.body.append(s)")
    tally.check("Firefox: another script is refused", browser.script("return typeof evil === 'undefined'"))


def part(_):
    if not firefox.program():
        tally.skip("Firefox is not here: nothing is looked at in it")
        return
    with firefox.opened() as browser:
        for name in EXAMPLES:
            shows(browser, name)
        is_led(browser)
