"""What stands in each place after some steps: from a run's own changes, and from the debugger of mta_sim."""

import os
import re

import runs
import tally

WIDTHS = {"pc": (0, 32), "codes": (32, 16), "mask": (48, 3), "trap": (56, 1)}
HEAD = re.compile(r"^(Running|Idle|Stopped (\d+)) ssw ([0-9A-F]{16}) xr ([0-9A-F]{16}) retries (\d+)$")
REGISTER = re.compile(r"^([rt])(\d+) ([0-9A-F]{16})$")
WORD = re.compile(r"^([0-9A-F]{12}) ([0-9A-F]{16}) ([0-9A-F])$")
# the most words that `m` shows at once
MOST = 64


def absent(place):
    """What stands in a place of which nothing is said."""
    return "idle" if place.endswith(".status") else "0"


def start(run):
    """The places at the start."""
    places = {place: str(value) for place, value in run["start"]["places"].items()}
    address = 0
    for count, value, tags in run["start"]["memory"]:
        for _ in range(count):
            places[f"[{address}].value"], places[f"[{address}].tags"] = str(value), str(tags)
            address += 8
    return places


def replayed(run, positions):
    """The places at each of these positions, by the run's changes; a change of what does not stand there is noted."""
    places, found, wrong = start(run), {}, []
    wanted = set(positions)
    for k in range(len(run["steps"]) + 1):
        if k in wanted:
            found[k] = dict(places)
        if k == len(run["steps"]):
            break
        for place, before, after in run["steps"][k]["ch"]:
            if places.get(place, absent(place)) != str(before):
                wrong.append((k + 1, place, places.get(place), before))
            places[place] = str(after)
    tally.same("each change begins with what stood there", wrong, [])
    return found


def has_debugger():
    """Whether mta_sim is built."""
    if os.access(runs.SIM, os.X_OK):
        return True
    tally.skip("mta_sim is not built here: states are not compared with those of its debugger")
    return False


def debugged(folder, name, run, positions):
    """The places at each of these positions, as the debugger of mta_sim shows them."""
    words = sum(count for count, _, _ in run["start"]["memory"])
    return debugged_by(folder, *runs.files_of(name), streams_of(run), words, positions)


def debugged_by(folder, source, schedule, streams, words, positions):
    """The places of these streams and so many words, at each of these positions of a source text's run."""
    image = os.path.join(folder, "image")
    runs.call(runs.SIM, "asm", str(source), image)
    lines = []
    for k in positions:
        lines.append(f"g {k}")
        lines += [f"r {stream.replace('.', ' ')}" for stream in streams]
        lines += [f"m {8 * first} {min(MOST, words - first)}" for first in range(0, words, MOST)]
    printed = runs.call(runs.SIM, "debug", image, str(schedule), given="\n".join(lines) + "\n")
    return parsed(printed, positions, streams)


def streams_of(run):
    """The streams that the run names."""
    names = {f"{step['p']}.{step['s']}" for step in run["steps"]}
    names |= {place[: -len(".status")] for place in run["start"]["places"] if place.endswith(".status")}
    return sorted(names, key=lambda name: [int(part) for part in name.split(".")])


def parsed(printed, positions, streams):
    """The places of the debugger's answers."""
    found, places, left = {}, None, None
    stream = None
    for line in printed.splitlines():
        if line.startswith("at "):
            places, left = {}, list(streams)
            found[int(line.split()[1])] = places
        elif head := HEAD.match(line):
            stream = left.pop(0)
            places.update(stream_places(stream, head))
        elif register := REGISTER.match(line):
            places[f"{stream}.{register[1]}{int(register[2])}"] = str(int(register[3], 16))
        elif word := WORD.match(line):
            address = int(word[1], 16)
            places[f"[{address}].value"], places[f"[{address}].tags"] = str(int(word[2], 16)), str(int(word[3], 16))
    tally.check("the debugger answers for each position", set(found) == set(positions), sorted(found))
    return found


def stream_places(stream, head):
    """The places of the first line of a stream's text."""
    status, trap, ssw, xr, retries = head.groups()
    named = f"stopped {int(trap)}" if trap else status.lower()
    bits = int(ssw, 16)
    parts = {part: bits >> at & (1 << width) - 1 for part, (at, width) in WIDTHS.items()}
    parts |= {"status": named, "xr": int(xr, 16), "retries": int(retries)}
    return {f"{stream}.{part}": str(value) for part, value in parts.items()}
