"""Worlds as the lab's JSON tells them: places and what stands in them, made from the start and the changes of steps, and
as the end of a trace of mta_sim tells them."""

import json
import re

# how many steps a made schedule has at most
MOST_STEPS = 10_000
# behind these bits stand the parts of a status word: place, width
WIDTHS = {"pc": (0, 32), "codes": (32, 16), "mask": (48, 3), "trap": (56, 1)}


class Run:
    """A run that `view --json` printed: its head, its steps and its end."""

    def __init__(self, text):
        head, *rest = [json.loads(line) for line in text.decode().splitlines()]
        self.head, self.steps, self.end = head, rest[:-1], rest[-1]

    def start(self):
        """What stands in the places at the start that are not zero, and the words of the memory."""
        places = dict(self.head["start"]["places"])
        address = 0
        for count, value, tags in self.head["start"]["memory"]:
            for _ in range(count):
                places[f"[{address}].value"], places[f"[{address}].tags"] = value, tags
                address += 8
        return places

    def worlds(self):
        """The places after 0 steps, 1 step, .. ; a change of what does not stand there is an error."""
        places = self.start()
        yield dict(places)
        for step in self.steps:
            for place, before, after in step["ch"]:
                if str(places.get(place, "idle" if place.endswith(".status") else 0)) != str(before):
                    raise ValueError(f"{place} is {places.get(place)}, and not {before}")
                if before == after:
                    raise ValueError(f"{place} does not change")
                places[place] = after
            yield dict(places)


def running(places):
    """The streams that run, in the order of processor and stream."""
    found = [name[: -len(".status")] for name, value in places.items() if name.endswith(".status") and value == "running"]
    return sorted((tuple(map(int, name.split("."))) for name in found))


def stream_lines(places, name):
    """The text of a stream."""
    get = lambda part: places.get(f"{name}.{part}", 0)
    ssw = sum(int(get(part)) << at for part, (at, _) in WIDTHS.items())
    status = places.get(f"{name}.status", "idle")
    title = re.sub(r" (\d+)$", lambda found: " " + found.group(1).zfill(2), status.capitalize())
    lines = [f"{title} ssw {ssw:016X} xr {int(get('xr')):016X} retries {get('retries')}"]
    lines += [f"r{r:02d} {int(get(f'r{r}')):016X}" for r in range(32) if int(get(f"r{r}"))]
    return lines + [f"t{t} {int(get(f't{t}')):016X}" for t in range(8) if int(get(f"t{t}"))]


def world_text(places, start, processors, slim):
    """The text of the world in these places, as a trace ends with it."""
    lines = []
    for p in range(processors):
        lines.append(f"processor {p} scur {places.get(f'{p}.scur', 0)} sres {places.get(f'{p}.sres', 0)}")
        for s in range(slim):
            if places.get(f"{p}.{s}.status", "idle") != "idle":
                lines += [f"stream {p} {s}", *stream_lines(places, f"{p}.{s}")]
    addresses = sorted(int(name[1:-7]) for name in places if name.endswith("].value"))
    for at in addresses:
        word = (places[f"[{at}].value"], places[f"[{at}].tags"])
        if word != (start[f"[{at}].value"], start[f"[{at}].tags"]):
            lines.append(f"cell {at:012X} {int(word[0]):016X} {word[1]:X}")
    return "".join(line + "\n" for line in lines).encode()


def trace_line(number, step):
    """The trace line of a step."""
    outcome = re.sub(r"(\d+)$", lambda found: found.group(1).zfill(2), step["o"].upper())
    return f"{number:7d} {step['p']:3d} {step['s']:3d} {step['pc']:08X} {outcome}"


def traced_end(trace):
    """The end of a trace of mta_sim, as a survey tells it: its kind, how many steps it has, and the addresses of the
    words that changed, with their values."""
    lines = trace.decode().splitlines()
    steps = [line for line in lines if re.match(r" *\d+ +\d+ +\d+ [0-9A-F]{8} ", line)]
    statuses = [line.split(" ")[0] for line in lines if " ssw " in line]
    cells = [line.split(" ")[1:] for line in lines if line.startswith("cell ")]
    words = {int(address, 16): int(value, 16) for address, value, _ in cells}
    if "Running" not in statuses:
        return "stopped" if "Stopped" in statuses else "finished", len(steps), words
    return "steps" if len(steps) == MOST_STEPS else "deadlock", len(steps), words


def told_words(words):
    """The addresses of the words that a survey tells to have changed, with their values."""
    return {address: int(value) for address, _, (value, _) in words}


def missed_register(trace, expected):
    """The first expectation of a file, all about registers, that the end of a trace of mta_sim does not meet."""
    held, stream = {}, None
    for line in trace.decode().splitlines():
        if line.startswith("stream "):
            stream = ".".join(line.split()[1:])
        elif line.startswith("r"):
            held[stream, int(line[1:3])] = int(line[4:], 16)
    for number, line in enumerate((expected or b"").decode().splitlines(), start=1):
        words = line.partition("#")[0].strip()
        if words:
            _, stream, register, value = words.split()
            if held.get((stream, int(register[1:])), 0) != int(value):
                return {"line": number, "text": words}
    return None
