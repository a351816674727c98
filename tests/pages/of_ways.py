"""Findings on one's own way: on random ways through the graph of a page, what the page reports is what `mta_lab view`
finds in the very same schedule, no more and no less; and the sentences are those that view prints."""

import concurrent.futures
import json
import pathlib
import random
import re

import runs
import tally

PROGRAMS, WAYS, STEPS = 26, 400, 120
EXAMPLES = ("lock", "fetch_add", "mailbox", "count", "trap_handler", "forwarding", "future")
# random ways from the start, each as its schedule and what is found on it, steps counted from 1
WALKS = """
  const [count, steps, seed] = arguments;
  let state = seed;
  const below = (n) => {
    state = (Math.imul(state, 1664525) + 1013904223) >>> 0;
    return Math.floor((state / 4294967296) * n);
  };
  const numbers = ["read", "over", "stored", "staleRead", "freshRead", "staleWrite", "freshWrite"];
  const out = [];
  for (let i = 0; i < count; i++) {
    way = way.slice(0, below(way.length + 1));
    while (way.length < steps) {
      const w = stateAt(way.length);
      const able = names.map((_, k) => k).filter((k) => runs(w, k) && !leadsNowhere(w, k));
      if (!able.length) break;
      const k = able[below(able.length)];
      const many = 1 + below(4);
      for (let n = 0; n < many && runs(stateAt(way.length), k) && !leadsNowhere(stateAt(way.length), k); n++) {
        way.push([k, leads[k][stateAt(way.length)]]);
      }
    }
    view.at = way.length;
    const found = foundTo(view.at).map((one) => ({ ...one, ...Object.fromEntries(numbers.filter((name) => name in one)
      .map((name) => [name, one[name] + 1])) }));
    const lines = foundTo(view.at).map((one) => `${FOUND[one.kind].toLowerCase()} ${findingText(one)}`);
    out.push([scheduleText(), found, lines]);
  }
  return out;
"""
MEMORY = ("LOAD.N", "STORE.N", "FADD.N", "LOAD.S", "STORE.S", "LOAD.F", "TAGGET", "TAGSET")
CONTROL = ("TSET t1, r{}", "TGET r{}, t1", "XCHG t2", "CALL t1, t1", "XGET r{}", "NOP")
LINE = re.compile(r"(?:lost update of|torn read of|unread store to) \[.*")


def made(chance):
    """A program of two or three streams that meet in two or three words, mostly without waiting for each other."""
    words, lines = chance.choice((2, 2, 3)), [".slim 1"]
    for stream in range(chance.choice((2, 2, 3))):
        lines += [f".entry go{stream}"]
    lines += [f".data {chance.choice((0, 0, 1, 2))}" for _ in range(words)]
    for stream in range(len([line for line in lines if line.startswith(".entry")])):
        body = [line for _ in range(2) for line in habit(chance, words)][:7]
        if chance.random() < 0.6:
            body.insert(chance.randrange(len(body)), instruction(chance, words))
        lines += [f"go{stream}: {body[0]}", *body[1:], "QUIT"]
    return "\n".join([*lines, ""])


def habit(chance, words):
    """What programs do with words: count in one, read or write two, copy one by way of a target register."""
    one, other = chance.sample(range(words), 2)
    sum_of = f"{chance.choice(('ADD', 'SUB', 'AND'))} r3, r1, r2"
    return chance.choice((
        [f"LOAD.N r1, r0, {one}", "ADD r1, r1, 1", f"STORE.N r1, r0, {one}"],
        [f"LOAD.N r1, r0, {one} | ADD r2, r2, 1", f"STORE.N r1, r0, {one} | ADD r1, r1, 2"],
        [f"LOAD.N r1, r0, {one}", f"LOAD.N r2, r0, {other}", sum_of],
        [f"LOAD.N r1, r0, {one}", f"LOAD.N r2, r0, {other} | ADD r3, r1, r0", f"STORE.N r3, r0, {other}"],
        ["ADD r2, r2, 1", f"STORE.N r2, r0, {one}", f"STORE.N r2, r0, {other}"],
        [f"STORE.N r3, r0, {one} | ADD r3, r3, 3", f"STORE.N r3, r0, {other}"],
        [f"LOAD.N r1, r0, {one} | TSET t1, r1", "TGET r2, t1", f"STORE.N r2, r0, {one}"],
        [f"LOAD.N r1, r0, {one}", "LITH r1, 1", f"STORE.N r1, r0, {one}"],
        [f"FADD.N r1, r0, {one}", f"STORE.N r1, r0, {other}"],
        [f"LOAD.N r1, r0, {one}", f"LOAD.N r2, r0, {one}", f"STORE.N r1, r0, {one} | ADD r1, r1, 1"],
        [f"LOAD.N r1, r0, {one}", f"LOAD.N r2, r0, {other} | {sum_of}", f"LOAD.N r1, r0, {one}"],
        [f"STORE.N r2, r0, {one} | ADD r2, r2, 1", f"STORE.N r2, r0, {other}", f"STORE.N r3, r0, {one}"],
    ))


def instruction(chance, words):
    """Any instruction; at times of two operations."""
    one, other = chance.sample((1, 2, 3), 2)
    memory = f"{chance.choice(MEMORY)} r{one}, r0, {chance.randrange(words)}"
    arithmetic = f"ADD r{other}, r{chance.randint(0, 3)}, {chance.choice(('r1', 'r2', 'r3', '1'))}"
    control = chance.choice(CONTROL).format(one)
    return chance.choice((memory, f"{memory} | {arithmetic}", arithmetic, control, f"LIT r{one}, 1", f"LITH r{one}, 0"))


def reported(finding):
    """A finding of the page, to be compared."""
    if finding["kind"] == "torn":
        return ("torn", finding["stale"], finding["fresh"], finding["staleRead"], finding["freshRead"],
                finding["staleWrite"], finding["freshWrite"])
    return finding["kind"], finding["word"], finding.get("read"), finding["over"], finding["stored"]


def found(finding):
    """A finding of view in the same form."""
    if finding["kind"] == "torn":
        return ("torn", finding["stale"], finding["fresh"], *finding["reads"], *finding["writes"])
    return finding["kind"], finding["word"], finding.get("read"), finding["over"], finding["stored"]


def differs(folder, source, number, way):
    """In what the findings of a way differ from those of its run; None where they agree."""
    schedule, own, lines = way
    file = pathlib.Path(folder) / f"way{number}.schedule"
    file.write_text(schedule)
    end = json.loads(runs.call(runs.LAB, "view", "--json", str(source), str(file)).splitlines()[-1])
    seen, wanted = sorted(map(repr, map(reported, own))), sorted(map(repr, map(found, end["findings"])))
    if end["more_findings"]:
        return None
    if seen != wanted:
        return f"{schedule!r}: {seen}, and not {wanted}"
    if number % 20 or not own:
        return None
    printed = runs.call(runs.LAB, "view", str(source), str(file))
    said = {re.sub(r"  +.*", "", line) for line in LINE.findall(printed)}
    return None if len(lines) > 10 or {*lines} == said else f"{schedule!r}: {lines}, and not {said}"


def ways(page, name, source, text):
    """How many findings the random ways of a page have; each way is compared with its run."""
    page.open(name, text)
    walked = page.script(WALKS, WAYS, STEPS, len(text))
    with concurrent.futures.ThreadPoolExecutor() as pool:
        faults = pool.map(lambda item: differs(page.folder, source, *item), enumerate(walked))
        faults = [fault for fault in faults if fault]
    tally.check(f"{name}: findings of {len(walked)} ways", not faults, faults[:1])
    page.quiet(f"{name}: findings")
    return [one["kind"] for _, own, _ in walked for one in own]


def part(page):
    if not runs.has_pages():
        return
    chance, kinds = random.Random(7), []
    for name in EXAMPLES:
        source = runs.EXAMPLES / f"{name}.asm"
        kinds += ways(page, name, source, runs.played(page.folder, source))
    for number in range(PROGRAMS - len(EXAMPLES)):
        source = pathlib.Path(page.folder) / f"made{number}.asm"
        source.write_text(made(chance))
        kinds += ways(page, source.stem, source, runs.played(page.folder, source))
    for kind in ("lost", "unread", "torn"):
        tally.check(f"some findings are of the kind {kind}", kinds.count(kind) > 100, kinds.count(kind))
