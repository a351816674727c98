"""What the page of a run says of its steps: what `mta_lab view` says of them, by random schedules of random programs."""

import pathlib
import random
import re

import of_sentences
import programs
import runs
import tally

TURNS = 40
EXAMPLES = ("lock.lost_update", "philosophers.deadlock", "trap_handler.ends", "limited_wait", "forwarding.trapped",
            "producer_consumer.blocked", "readers_writer.torn_read", "fetch_add.lost_update")
SEEN = (*of_sentences.SEEN, "has stopped", "does not run", "no such stream")
MAKERS = (lambda chance: programs.made(chance).text.decode(), of_sentences.made, of_sentences.made, of_sentences.eventful,
          of_sentences.made, of_sentences.made)
# of each step its stream, and what is said of it
SAID = """
  fullName = namedWord;
  view.hex = arguments[0];
  const text = (nodes) => nodes.map((node) => node.textContent ?? node).join("");
  return steps.map((step, i) => [step.who, text(sentence(step, i + 1))]);
"""
# between a load and the store of what it read a TAGSET of 1 fills the word, whose value stays 5
FILLED = """ .entry count
 .entry fill
 .data 5, 0
count: LOAD.N r1, r0, 0
 ADD r1, r1, 1
 STORE.N r1, r0, 0
 QUIT
fill: LIT r2, 1
 TAGSET r2, r0, 0
 QUIT
"""
# what the page says after some step, and in the table's row of it
SHOWN = """
  tableFrom = -1;
  goTo(arguments[0]);
  return [byId("told").textContent, byId(`row-${arguments[0]}`).textContent];
"""


def turns(chance, processors, slim):
    """A schedule of any streams, at times of one that is not there."""
    def turn():
        p = chance.randrange(processors + (chance.random() < 0.05))
        return f"{p} {chance.randrange(slim + (chance.random() < 0.1))} {chance.choice((1, 1, 2, 3))}\n"
    return "".join(turn() for _ in range(TURNS))


def viewed(statements, source, schedule, *words):
    """The stream of each step, and what view says of it."""
    printed = runs.call(runs.LAB, "view", "--all", *words, str(source), str(schedule))
    lines = [found for found in map(of_sentences.LINE.match, printed.splitlines()) if found]
    return [[line[2], of_sentences.seen_by_view(of_sentences.without_statement(line[3], statements))] for line in lines]


def compared(page, name, source, schedule):
    """Whether the page says of each step what view says. The answer is what it says of them."""
    text = runs.page_of(page.folder, source, schedule)
    statements = of_sentences.statements_of(runs.run_of(text)["program"])
    page.open(name, text)
    for is_hex in (False, True):
        said = [[who, of_sentences.seen_by_page(words)] for who, words in page.script(SAID, is_hex)]
        wanted = viewed(statements, source, schedule, *(["--hex"] if is_hex else []))
        wrong = [(number, *pair) for number, pair in enumerate(zip(said, wanted), 1) if pair[0] != pair[1]]
        tally.check(f"{name}: {len(said)} steps are as in view", len(said) == len(wanted) and not wrong, wrong[:3])
    said = [words for _, words in page.script(SAID, False)]
    for number in random.Random(name).sample(range(1, len(said) + 1), min(5, len(said))):
        told, row = page.script(SHOWN, number)
        held = said[number - 1] in told and row.endswith(said[number - 1])
        tally.check(f"{name}: step {number} on the page", held, (said[number - 1], told, row))
    page.quiet(f"{name}: sentences")
    return said


def filled_between(page):
    """What came between is told by the value that its word has then: a TAGSET writes none of its own."""
    source, schedule = (pathlib.Path(page.folder) / f"filled.{kind}" for kind in ("asm", "schedule"))
    source.write_text(FILLED)
    schedule.write_text("0 0 1\n1 0 2\n0 0 2\n")
    page.open("filled", runs.page_of(page.folder, source, schedule))
    told, _ = page.script(SHOWN, 5)
    tally.check("a TAGSET between", "Between them 1.0 wrote 5 in step 3, which is lost." in told, told)


def part(page):
    if not runs.has_pages():
        return
    filled_between(page)
    said = []
    for name in EXAMPLES:
        said += compared(page, name, *runs.files_of(name))
    chance = random.Random(29)
    for number in range(of_sentences.PROGRAMS):
        name = f"stepped{number}"
        source, schedule = (pathlib.Path(page.folder) / f"{name}.{kind}" for kind in ("asm", "schedule"))
        text = MAKERS[number % len(MAKERS)](chance)
        source.write_text(text)
        slim = int(re.search(r"\.slim (\d+)", text)[1])
        schedule.write_text(turns(chance, text.count(".entry"), slim))
        said += compared(page, name, source, schedule)
    for what in SEEN if of_sentences.PROGRAMS >= 300 else ():
        count = len([one for one in said if re.search(what, one)])
        tally.check(f"some steps say {what}", count > 10, count)
