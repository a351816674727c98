#!/usr/bin/env python3
"""Random programs, played step by step: what the page of `mta_lab play` says of each step, and of the waits of its streams,
beside the second reading of these sentences (sentences.py), over the machine of the tests' own (machine.py). The page's
script runs under Node, without a browser (tests/pages/stand_in.py). A difference is told with its seed and its program.
Needs Python 3 and Node.

  said_by_play [--programs N] [--first SEED] [--jobs N] [--program PATH]

There are 2,000 programs from seed 0 on, by the program that is built here; with PROGRAM=draft in the environment that is
the draft."""

import sys

sys.dont_write_bytecode = True

import argparse
import collections
import concurrent.futures
import itertools
import os
import pathlib
import random
import re
import subprocess

import machine
import search
import sentences
from sentences import PATIENCE, SHOWN, Reading, built, rare_kinds

sys.path.append(os.path.join(sentences.ROOT, "tests", "pages"))
import stand_in

# how many worlds a program has at most, and how many a seed tries to find one; how many steps are chosen on a page; how many
# programs one Node shows
MOST, TRIES, CHOICES, TOGETHER = 1000, 200, 80, 20
# what is said of a stream that does not run is not here: nobody can choose its step
NEVER = ("has stopped", "does not run", "no such stream")
# of each step that is chosen its stream, what is said of it, and of one that is blocked what its stream waits for; after
# the last step of a run the next one begins
PLAYED = """
  fullName = namedWord;
  view.hex = false;
  way = [];
  return arguments[0].map((choice) => {
    let able = names.map((_, k) => k).filter((k) => runs(stateAt(way.length), k));
    if (!able.length) {
      way = [];
      able = names.map((_, k) => k).filter((k) => runs(stateAt(0), k));
    }
    const w = stateAt(way.length);
    const k = able[choice % able.length];
    const said = words(joined(effectParts(w, k)));
    const waits = isBlocked(w, k) ? words(waitParts(recordOf(w, k), way.length)) : "";
    if (leads[k][w] !== w) way.push([k, leads[k][w]]);
    return [names[k], said, waits];
  });
"""


def made(chance):
    """A program that a page can have, and its text."""
    for _ in range(TRIES):
        program, text = sentences.made(chance)
        if search.Space(program, (), MOST).is_whole:
            return program, text
    raise ValueError(f"no program of {MOST} worlds or fewer")


def readings(program, choices):
    """What is said of the steps that are chosen so."""
    world = machine.start(program)
    for choice in choices:
        streams = machine.running(world)
        if not streams:
            world = machine.start(program)
            streams = machine.running(world)
        yield Reading(program, world, streams[choice % len(streams)])
        world = machine.step(program, world, *streams[choice % len(streams)])[0]


def wanted_of(reading):
    """The stream of a step, the parts of what is said of it, and what its stream waits for."""
    parts = sorted(reading.parts())
    waits = [part for part in parts if part.startswith("waits for ")]
    return f"{reading.p}.{reading.s}", parts, waits[0] if waits else ""


def said_by_page(page, text, choices, mta_lab):
    """The same by the page."""
    source, made_page = (pathlib.Path(page.folder) / name for name in ("s.asm", "played.html"))
    source.write_bytes(text)
    subprocess.run([mta_lab, "play", source, "--out", made_page], capture_output=True, timeout=PATIENCE, check=True)
    page.ask(page=str(made_page))
    return [(stream, parts_in(said), re.split("[;,]", waits)[0]) for stream, said, waits in page.script(PLAYED, choices)]


def parts_in(said):
    """The parts of a sentence of the page, with the signs that view has for an arrow and for a minus."""
    plain = said.replace("\u2192", "->").replace("\u2212", "-")
    return [] if plain == "goes on" else sorted(plain.split("; "))


def tried(seed, page, mta_lab):
    """What differs in the sentences of the program that a seed makes, with its text, and the sentences."""
    chance, text = random.Random(seed), b""
    try:
        program, text = made(chance)
        choices = [chance.randrange(60) for _ in range(CHOICES)]
        wanted = list(map(wanted_of, readings(program, choices)))
        said = said_by_page(page, text, choices, mta_lab)
    except Exception as error:  # an answer that can't be read is one that differs
        return seed, [f"{type(error).__name__} {error}"], text.decode(), []
    faults = [f"step {at}: {one}, and not {other}" for at, (one, other) in enumerate(zip(said, wanted), 1) if one != other]
    return seed, faults[:3], text.decode(), ["; ".join(parts) for _, parts, _ in wanted]


def tried_together(seeds, mta_lab):
    """The same of the programs of some seeds, by one Node."""
    with stand_in.opened() as page:
        return [tried(seed, page, mta_lab) for seed in seeds]


def main():
    asked = argparse.ArgumentParser(description=__doc__.partition("\n\n")[0])
    asked.add_argument("--programs", type=int, default=2000, help="how many (2000)")
    asked.add_argument("--first", type=int, default=0, help="the first seed (0)")
    asked.add_argument("--program", help="the mta_lab that is tried")
    asked.add_argument("--jobs", type=int, default=os.cpu_count(), help="how many at a time (one a processor)")
    asked = asked.parse_args()
    if not stand_in.NODE:
        sys.exit("what a page says is asked by Node, which is not here; on Debian: apt-get install nodejs")
    asked.program = asked.program or built.path("mta_lab")
    seeds = range(asked.first, asked.first + asked.programs)
    parts = [seeds[at:at + TOGETHER] for at in range(0, len(seeds), TOGETHER)]
    wrong, counts, steps = 0, collections.Counter(), 0
    with concurrent.futures.ProcessPoolExecutor(asked.jobs) as pool:
        answers = pool.map(tried_together, parts, [asked.program] * len(parts))
        for seed, found, text, said in itertools.chain.from_iterable(answers):
            steps += len(said)
            counts.update(sentences.kinds_of(said))
            wrong += bool(found)
            if found and wrong <= SHOWN:
                print(f"seed {seed}:\n{text}" + "".join(f"not so: {what}\n" for what in found), flush=True)
    rare = rare_kinds(counts, len(seeds), NEVER)
    print(f"{steps} steps: {len(seeds) - wrong} passed, {wrong + rare} failed")
    sys.exit(1 if wrong or rare else 0)


if __name__ == "__main__":
    main()
