"""States: what the page shows at a position is what stands there, forwards and backwards."""

import random

import runs
import tally
import worlds

EXAMPLES = (
    "lock.lost_update",
    "philosophers.deadlock",
    "barrier.mixes_rounds",
    "bounded_buffer.ends",
    "fetch_add.lost_update",
    "readers_writer.torn_read",
    "trap_handler.ends",
    "limited_wait",
    "forwarding.trapped",
)
POSITIONS = 20
NO_HANDLER = str(0xFFFFFFFF)

SHOWN = """
  const all = {};
  const take = () => {
    for (const node of document.querySelectorAll('#state [data-place]')) all[node.dataset.place] = node.dataset.value;
  };
  const kept = view.stream;
  for (const id of allStreams) {
    view.stream = id;
    showStream();
    take();
  }
  view.stream = kept;
  showStream();
  return all;
"""


def shown(page):
    """Each place that the page shows, of every stream in turn, and of the words."""
    return page.script(SHOWN)


def is_hidden(place, value):
    """Whether the page leaves a place out that holds this: zeros, the usual t0, and how many streams are reserved."""
    is_usual = place.endswith(".t0") and value == NO_HANDLER
    return value in ("0", "idle") or is_usual or place.endswith(".sres")


def differences(seen, true, has_all_words):
    """The places that are shown otherwise than they are, or are left out."""
    wrong = [(place, value, true.get(place)) for place, value in seen.items()
             if place in true and value != true[place] or place not in true and value != worlds.absent(place)]
    for place, value in true.items():
        if place not in seen and not is_hidden(place, value) and (has_all_words or place[0] != "["):
            wrong.append((place, "not shown", value))
    return wrong


def touched(run):
    """The words that a step asked for or changed, all of which have to be shown."""
    asked = {step["ref"][3] for step in run["steps"] if "ref" in step}
    return {f"[{address}].{part}" for address in asked for part in ("value", "tags")}


def compare(page, what, run, positions, worlds_at):
    """Leads the page to each position in turn, and compares."""
    own = touched(run)
    for k in positions:
        page.go(str(k))
        seen = shown(page)
        for name, places in worlds_at.items():
            true = {place: value for place, value in places[k].items()
                    if place[0] != "[" or place in own or place in seen}
            counted = {place: value for place, value in seen.items() if not place.endswith(".scur") or place in true}
            wrong = differences(counted, true, True)
            tally.check(f"{what} at {k}: as {name}", not wrong, wrong)


def some_positions(length, seed=7):
    """Positions of a run in order: both ends, and others by chance."""
    inner = range(1, length)
    chosen = random.Random(seed).sample(inner, min(POSITIONS - 2, len(inner)))
    return sorted({0, length, *chosen})


def part(page):
    for name in EXAMPLES:
        page.open(name, text := runs.example(page.folder, name))
        run = runs.run_of(text)
        positions = some_positions(len(run["steps"]))
        known = {"the run's own changes": worlds.replayed(run, positions)}
        if worlds.has_debugger():
            known["the debugger of mta_sim"] = worlds.debugged(page.folder, name, run, positions)
        compare(page, f"{name}, forwards", run, positions, known)
        compare(page, f"{name}, backwards", run, positions[::-1], known)
        page.quiet(name)
