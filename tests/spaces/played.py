#!/usr/bin/env python3
"""played.py SOURCE PAGE: what differs between the graph in a page of `mta_lab play` and a search of all worlds of the
program by the machine of the tests' own; nothing where they agree. With --json PAGE is the graph alone."""

import json
import re
import sys

sys.dont_write_bytecode = True

import machine
import search
import sources

DIGITS = "0123456789ABCDEFGHIJKLMNOPQRSTUVWXYZabcdefghijklmnopqrstuvwxyz-_"
VALUE = {digit: value for value, digit in enumerate(DIGITS)}


def column(packed):
    """The numbers of a column."""
    width, text = packed
    numbers = []
    for begin in range(0, len(text), width):
        number = 0
        for digit in text[begin:begin + width]:
            number = 64 * number + VALUE[digit]
        numbers.append(number)
    return numbers


def content(stream):
    """What a stream holds, as a page has it."""
    if stream.status == "idle":
        return {}
    found = {"status": stream.status, "pc": stream.ssw % 2**32}
    numbers = {"codes": stream.ssw >> 32 & 0xFFFF, "mask": stream.ssw >> 48 & 7, "trap": stream.ssw >> 56 & 1,
               "retries": stream.retries}
    found |= {name: number for name, number in numbers.items() if number}
    texts = {"xr": stream.xr} | {f"r{n}": value for n, value in enumerate(stream.registers)}
    targets = {f"t{n}": str(value) for n, value in enumerate(stream.targets) if value != (0 if n else machine.NO_HANDLER)}
    return found | {name: str(number) for name, number in texts.items() if number} | targets


def shared(program, world):
    """What no stream has for itself."""
    words = [[8 * at, str(now[0]), now[1]] for at, (now, then) in enumerate(zip(world.memory, program.data)) if now != then]
    return {"words": words, "places": [[processor.scur, processor.sres] for processor in world.processors]}


class Graph:
    """The graph in a page."""

    def __init__(self, data):
        self.data = data
        states = data["states"]
        self.shared, self.depth, self.ahead = (column(states[name]) for name in ("shared", "depth", "ahead"))
        self.streams = [tuple(map(int, name.split("."))) for name in data["streams"]]
        self.held, self.to = ([column(one) for one in states[name]] for name in ("streams", "to"))

    def outcome(self, state, at):
        """How the step of a stream comes out, by the record of what it holds and what is shared; None of one that idles."""
        does = self.data["does"][self.held[at][state]]
        if isinstance(does, list):
            does = dict(zip(does[::2], does[1::2]))[self.shared[state]]
        return None if does < 0 else self.data["steps"][does][0]


def differences(source, data):
    """In what a graph differs from the search."""
    program = sources.read(source)
    graph, space = Graph(data), search.Space(program, (), 200_000)
    worlds = worlds_of(program, graph)
    if isinstance(worlds, str):
        return [worlds]
    found = [] if set(worlds) == set(space.distance) else ["not all worlds"]
    found += ["a world twice"] if len(set(worlds)) != len(worlds) else []
    counted = {"states": len(space.distance), "steps": space.steps()}
    found += [] if data["counted"] == counted else [f"counted {data['counted']}, and not {counted}"]
    for state, world in enumerate(worlds):
        found += of_state(program, space, graph, state, world)
    return found + of_ends(space, graph, worlds)


def worlds_of(program, graph):
    """The world at each state, by the steps of the page from the first on; or what is wrong with these."""
    worlds = {0: machine.start(program)}
    for state in range(len(graph.shared)):
        if state not in worlds:
            return f"no step leads to state {state}"
        for at, (p, s) in enumerate(graph.streams):
            to, outcome = machine.step(program, worlds[state], p, s)
            told = graph.outcome(state, at)
            if (told or "skipped") != outcome:
                return f"state {state}, {p}.{s}: {told}, and not {outcome}"
            if worlds.setdefault(graph.to[at][state], to) != to:
                return f"state {state}, {p}.{s}: leads to another world than {graph.to[at][state]}"
    return [worlds[state] for state in range(len(worlds))]


def of_state(program, space, graph, state, world):
    """In what a state of the page differs from its world."""
    found = []
    if graph.depth[state] != space.distance[world]:
        found.append(f"state {state}: {graph.depth[state]} steps, and not {space.distance[world]}")
    if graph.data["shared"][graph.shared[state]] != shared(program, world):
        found.append(f"state {state}: other words")
    for p, processor in enumerate(world.processors):
        for s, stream in enumerate(processor.streams):
            at = graph.streams.index((p, s)) if (p, s) in graph.streams else None
            told = graph.data["contents"][graph.held[at][state]] if at is not None else {}
            if told != content(stream):
                found.append(f"state {state}, {p}.{s}: holds {told}")
    return found


def of_ends(space, graph, worlds):
    """In what the ends differ, and what can still be reached."""
    found, kinds = [], space.ends()
    spinning = set().union(*space.spinning())
    ends = graph.data["ends"]
    told = {worlds[state]: end["kind"] for end in ends if end["kind"] != "broken" for state in end["states"]}
    if told != kinds | {world: "spinning" for world in spinning}:
        found.append("other ends")
    leading = [space.leading_to([worlds[state] for state in end["states"]]) for end in ends]
    for state, world in enumerate(worlds):
        wanted = [number for number, before in enumerate(leading) if world in before]
        if graph.data["sets"][graph.ahead[state]] != wanted:
            found.append(f"state {state}: ends {graph.data['sets'][graph.ahead[state]]} ahead, and not {wanted}")
    for number, end in enumerate(ends):
        least = min(space.distance[worlds[state]] for state in end["states"])
        if end["shortest"] != least or steps_in(end["schedule"]) != least:
            found.append(f"end {number}: {end['shortest']} steps, and not {least}")
    return found


def steps_in(schedule):
    """How many steps a schedule has."""
    return sum(int((line.split() + ["1"])[2]) for line in schedule.splitlines())


def graph_in(page):
    """The graph in a page."""
    return json.loads(re.search(r'<script type="application/json" id="graph-data">(.*?)</script>', page, re.DOTALL)[1])


def main(words):
    with open(words[-2], encoding="utf-8") as source, open(words[-1], encoding="utf-8") as page:
        text = page.read()
        data = json.loads(text) if words[0] == "--json" else graph_in(text)
        for line in differences(source.read(), data)[:20]:
            print(line)


if __name__ == "__main__":
    main(sys.argv[1:])
