"""What the page of `mta_lab play` says of the steps of random programs: what `mta_lab view` says of them. Whether a
schedule of theirs can go on forever, and a name of its own for each end."""

import concurrent.futures
import os
import pathlib
import random
import re
import sys

import graphs
import runs
import tally

sys.path.append(str(runs.ROOT / "tests" / "spaces"))
import programs  # noqa: E402
from machine import NO_HANDLER, Program, Word  # noqa: E402

# so many random programs, or as many as SENTENCES in the environment says
PROGRAMS = int(os.environ.get("SENTENCES", "300"))
STEPS, STATES = 1500, 4000
EXAMPLES = ("lock", "fetch_add", "mailbox", "trap_handler", "forwarding", "future", "limited_wait")
# walks over all steps of the graph, or over so many: of each step its stream, what is said of it, and of one that is
# blocked what its stream waits for; tries that change nothing are among them. Values may be hexadecimal
WALKS = """
  const [most, isHex] = arguments;
  fullName = namedWord;
  view.hex = isHex;
  const taken = new Set();
  const fresh = (w) => names.findIndex((_, k) => runs(w, k) && !taken.has(w * names.length + k));
  const nearest = (w) => {
    const from = new Map([[w, null]]);
    for (const v of from.keys()) {
      if (fresh(v) >= 0) {
        const steps = [];
        for (let at = v; from.get(at); at = from.get(at)[0]) steps.unshift(from.get(at)[1]);
        return [...steps, fresh(v)];
      }
      names.forEach((_, k) => from.has(leads[k][v]) || from.set(leads[k][v], [v, k]));
    }
    return null;
  };
  const walks = [];
  let count = 0;
  while (count < most && nearest(0)) {
    way = [];
    const walk = [];
    for (let next; count < most && (next = nearest(stateAt(way.length)));) {
      for (const k of next) {
        const w = stateAt(way.length);
        walk.push([names[k], words(joined(effectParts(w, k))),
          isBlocked(w, k) ? words(waitParts(recordOf(w, k), way.length)) : ""]);
        taken.add(w * names.length + k);
        if (leads[k][w] !== w) way.push([k, leads[k][w]]);
        count++;
      }
    }
    walks.push(walk);
  }
  way = [];
  return walks;
"""
# steps by the page's own choices: of each what the button said before it and what the page says after it
CHOSEN = """
  const out = [];
  show();
  for (let n = 0; n < arguments[0]; n++) {
    const able = names.map((_, k) => k).filter((k) => runs(here(), k) && !leadsNowhere(here(), k));
    if (!able.length) break;
    const k = able[(n * 7 + 3) % able.length];
    const effect = words(joined(effectParts(here(), k)));
    const button = choiceNodes[k].querySelector(".effect").textContent;
    const blocked = isBlocked(here(), k);
    take(k);
    out.push([effect, blocked ? "" : button, byId("told").textContent]);
  }
  return out;
"""
# what some steps of so many programs say
SEEN = ("waits for .* to be full", "waits for .* to be empty", "tries ", "trap 10, ", "trap 7, ", "trap 9, ", "; to ",
        "stays ", "full \u2192 empty", "empty \u2192 full", "starts ", "no handler \u2192 ", "\u2192 no handler")
LINE = re.compile(r"^ *(\d+)  (\d+\.\d+) +\S+ +(.*)$")


def made(chance):
    """A program of streams that are blocked, trapped and forwarded often, and that use pointers of all controls."""
    entries, memory, slim = chance.choice((2, 2, 3)), 3, chance.choice((1, 1, 2))
    each = chance.choice((3, 4)) if entries == 3 else chance.choice((4, 5, 6))
    words = [word for _ in range(entries) for word in body(chance, each, memory, slim)]
    handler = len(words) if chance.random() < 0.6 else NO_HANDLER
    words += [Word(control=("MASK", chance.randrange(8))) if chance.random() < 0.5 else Word(control=("XGET", 2)),
              Word(control=("QUIT",))]
    data = tuple((8 * chance.randrange(4) if chance.random() < 0.6 else chance.choice(programs.VALUES), tags(chance))
                 for _ in range(memory))
    starts = tuple(range(0, entries * each, each))
    return programs.text_of(Program(slim, chance.choice((0, 1, 2, 3)), handler, starts, data, tuple(words))).decode()


def eventful(chance):
    """A program whose streams set a handler and take it away again, and start other streams, in some order."""
    parts = [[Word(control=("TGET", 2, 0)), Word(wide=("TLIT", 0, 0)), Word(control=("TSET", 0, 2)), Word(control=("QUIT",))],
             [Word(wide=("LIT", 3, 1)), Word(control=("RESERVE", 2, 3)), Word(wide=("TLIT", 1, 0)),
              Word(control=("CREATE", 1, 2)), Word(control=("QUIT",))]]
    chance.shuffle(parts)
    starts = (0, len(parts[0]))
    return programs.text_of(Program(2, 0, NO_HANDLER, starts, ((0, 1),), tuple(parts[0] + parts[1]))).decode()


def tags(chance):
    """The tags of a word: full or empty; often it forwards, at times it traps."""
    return chance.choice((0, 1)) | (2 if chance.random() < 0.3 else 0) | (chance.choice((4, 8))
                                                                         if chance.random() < 0.12 else 0)


def body(chance, length, memory, slim):
    """The words of a stream: it makes a pointer of some control, uses it, and does anything."""
    words = [Word(wide=("LIT", 1, 8 * chance.randrange(memory))),
             Word(arithmetic=("PTR", False, 1, 1, chance.choice((0, 2, 3, 3, 4, 7, 11, 27))))]
    for at in range(2, length - 1):
        roll = chance.random()
        if roll < 0.75:
            name = chance.choice(("LOAD", "STORE", "STORE", "FADD", "FADD", "TAGGET", "TAGSET"))
            suffix = "" if name.startswith("TAG") else chance.choice(("", "", ".N", ".S", ".F"))
            operation = (name, suffix, chance.choice((0, 1, 2)), chance.choice((0, 1, 1)), chance.randrange(memory))
            words.append(Word(memory=operation) if chance.random() < 0.7
                         else Word(memory=operation, arithmetic=("ADD", True, 3, 3, 1)))
        elif roll < 0.85:
            words.append(Word(wide=programs.wide_operation(chance, length)))
        else:
            words.append(Word(control=programs.control_operation(chance, at, length, slim)))
    return [*words, Word(control=("QUIT",))]


def seen_by_page(text):
    """What the page says of a step, with the signs that view has for an arrow and for a minus."""
    return "" if text == "goes on" else text.replace("\u2192", "->").replace("\u2212", "-")


def seen_by_view(text):
    """What view says of a step, without the comment."""
    return re.split("  +", text.rstrip())[0]


def statements_of(program):
    """The statements of the program in a page, that of no word, and the sign of a stream at no word, the longest first."""
    return sorted({one[2] for one in program} | {"", "-"}, key=len, reverse=True)


def without_statement(line, statements):
    """What stands after the instruction in a line of view."""
    return next(line[len(one):] for one in statements if line.startswith(one)).strip()


def lines_of_view(folder, source, number, walk, words):
    """What view says of the steps of a walk, by these options."""
    file = pathlib.Path(folder) / f"walk{number}.schedule"
    file.write_text("".join(f"{name.replace('.', ' ')} 1\n" for name, _, _ in walk))
    printed = runs.call(runs.LAB, "view", "--all", *words, str(source), str(file))
    return [found for found in map(LINE.match, printed.splitlines()) if found][:len(walk)]


def differing(folder, source, statements, words, item):
    """The steps of a walk of which the page says something else than view, by these options."""
    number, walk = item
    lines = lines_of_view(folder, source, number, walk, words)
    faults = [] if len(lines) == len(walk) else [f"{len(lines)} lines of {len(walk)} steps"]
    for (name, said, waits), line in zip(walk, lines):
        wanted = seen_by_view(without_statement(line[3], statements))
        if name != line[2] or seen_by_page(said) != wanted:
            faults.append(f"step {line[1]} of {name}: {seen_by_page(said)!r}, and not {wanted!r}")
        if waits and not wanted.startswith(re.split("[;,]", waits)[0]):
            faults.append(f"step {line[1]} of {name}: {waits!r}, and not {wanted!r}")
    return faults


def sentences(page, name, source, graph, is_hex):
    """Whether the page says of each step what view says. The answer is what it says of them."""
    walks = page.script(WALKS, STEPS, is_hex)
    words = ["--hex"] if is_hex else []
    statements = statements_of(graph.data["program"])
    with concurrent.futures.ThreadPoolExecutor() as pool:
        faults = [fault for found in pool.map(lambda item: differing(page.folder, source, statements, words, item),
                                              enumerate(walks)) for fault in found]
    steps = [step for walk in walks for step in walk]
    tally.check(f"{name}: {len(steps)} steps are as in view", not faults, faults[:3])
    for number, (effect, button, after) in enumerate(page.script(CHOSEN, 12)):
        tally.check(f"{name}: step {number + 1} on the page", f": {effect}." in after and button in ("", effect),
                    (effect, button, after))
    return [said for _, said, _ in steps]


def outcome(graph, state, at):
    """How the step of a stream comes out that runs in a state."""
    does = graph.data["does"][graph.held[at][state]]
    if isinstance(does, list):
        does = dict(zip(does[::2], does[1::2]))[graphs.column(graph.data["states"]["shared"])[state]]
    return graph.data["steps"][does][0]


def has_cycle(graph):
    """Whether some steps of a graph lead through a state again and again, or one that is done to its own state."""
    after = [{graph.to[at][state] for at in graph.steps(state)} for state in range(graph.data["counted"]["states"])]
    colour = [0] * len(after)
    for begin in range(len(after)):
        stack = [(begin, iter(after[begin]))] if not colour[begin] else []
        colour[begin] = colour[begin] or 1
        while stack:
            state, rest = stack[-1]
            following = next(rest, None)
            if following is None:
                colour[state] = 2
                stack.pop()
            elif colour[following] == 1:
                return True
            elif not colour[following]:
                colour[following] = 1
                stack.append((following, iter(after[following])))
    return any(graph.to[at][state] == state and outcome(graph, state, at) != "blocked"
               for state in range(len(after)) for at in graph.running(state))


def of_program(page, name, source, is_hex=False):
    """The sentences of a program's page, whether it may run forever, and the names of its ends."""
    try:
        text = runs.played(page.folder, source)
    except RuntimeError as refused:
        tally.check(f"{name}: it has too many states", "100000 states" in str(refused), refused)
        return []
    graph = graphs.Graph(text)
    page.open(name, text)
    if graph.data["counted"]["states"] <= STATES:
        tally.same(f"{name}: whether a schedule may run forever", page.script("return runsForever()"), has_cycle(graph))
    labels = page.script("return data.ends.map((_, e) => label(e))")
    tally.check(f"{name}: each end has a name of its own", len({*labels}) == len(labels), labels)
    said = sentences(page, name, source, graph, is_hex)
    page.quiet(f"{name}: sentences")
    return said


def part(page):
    if not runs.has_pages():
        return
    said = []
    for name in EXAMPLES:
        said += of_program(page, name, runs.EXAMPLES / f"{name}.asm")
    chance = random.Random(11)
    for number in range(PROGRAMS):
        source = pathlib.Path(page.folder) / f"made{number}.asm"
        source.write_text(made(chance) if number % 3 else programs.made(chance).text.decode())
        said += of_program(page, source.stem, source, number % 5 == 4)
    for what in SEEN if PROGRAMS >= 300 else ():
        count = len([one for one in said if re.search(what, one)])
        tally.check(f"some steps say {what}", count > 10, count)
