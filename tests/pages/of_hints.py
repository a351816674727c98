"""What the page of `mta_lab play` says beside its steps: words by their names in ends, ends that are alike as one chip, ends
with a finding where nothing is judged, who is inside where a claim is broken, why a hint names a stream, where no choice
changes what can come, votes, and how many states `explore` visits."""

import re

import graphs
import runs
import tally
from of_verdicts import ADDS, POLLS, STORES, TAGGED, opened, two

# two streams store into two named words; a third one adds what it reads of them
NAMED = """.entry put
.entry put
.entry take
.data 0 ; slot: the number
.fill 2, 0, 1 ; ring
put: LIT r1, 30
STORE.N r1, r0, 0
STORE.N r1, r0, 2
QUIT
take: LOAD.N r2, r0, 0
STORE.N r2, r0, 1
QUIT
"""
LABELS = "return data.ends.map((_, e) => label(e)).sort()"
# of each state but ends: of each stream that can step the texts of its chips, those that can still come first
CHIPS = """
  const out = [];
  for (let w = 0; w < N; w++) {
    for (const k of ableIn(w)) out.push([w, k, badgesAfter(w, leads[k][w]).map((one) => [one.textContent, one.tagName])]);
  }
  return out;
"""
PLURALS = {"right": "right ends", "wrong": "wrong ends", "plain": "ends", "found": "ends with a finding",
           "deadlock": "deadlocks", "spinning": "endless loops", "stopped": "ends by a trap", "broken": "broken claims"}


def kind_of(end):
    """The kind of an end in the data of a page, as docs/PLAY.md has it."""
    if end["kind"] != "finished":
        return end["kind"]
    if end["right"] is None:
        return "found" if end["findings"] else "plain"
    return "right" if end["right"] else "wrong"


def names(page):
    """The words of ends by their names: of a line of several words the second one is ring+1."""
    opened(page, "named", NAMED)
    # 2.0 stores into ring what it read: 0 or 30. The others leave 30 in slot and in ring+1
    tally.same("named: the ends", page.script(LABELS), ["ring=0", "ring=30"])
    # end 0 is that of a schedule in which 2.0 reads last
    said = page.script("return endText(data.ends.findIndex((end) => end.label === 'ring=0'))")
    tally.check("named: an end in words", "[0] slot is 30" in said and "[16] ring+1 is 30" in said, said)
    page.quiet("named")


def chips_as_graph(page, name, text, expected):
    """Three ends or more of one kind, which a step treats alike, are one chip with their number; others are their own."""
    opened(page, name, text, expected)
    graph = page.script("return data")
    labels, sets = page.script("return data.ends.map((_, e) => label(e))"), graph["sets"]
    ahead, to = graphs.column(graph["states"]["ahead"]), [graphs.column(one) for one in graph["states"]["to"]]
    kinds = [kind_of(end) for end in graph["ends"]]
    faults, joined = [], 0
    for state, stream, seen in page.script(CHIPS):
        after = set(sets[ahead[to[stream][state]]])
        wanted = []
        for tag, ends in ("SPAN", after), ("S", set(sets[ahead[state]]) - after):
            for kind in {kinds[end] for end in ends}:
                alike = [end for end in ends if kinds[end] == kind]
                many = len(alike) >= 3
                joined += many
                wanted += [[f"{len(alike)} {PLURALS[kind]}", tag]] if many else [[labels[end], tag] for end in alike]
        texts = sorted([text.lstrip("\u2713\u2022?!\u221e\u00d7\u21bb"), tag] for text, tag in seen)
        if texts != sorted(wanted):
            faults.append((state, stream, texts, wanted))
    tally.same(f"{name}: the chips of each step", faults[:2], [])
    tally.check(f"{name}: some are joined", joined > 0)
    page.quiet(f"{name}: chips")


# four streams add to one word: it is 1 to 4 at the end
FOUR = ".entry add\n" * 4 + ".data 0\nadd: LOAD.N r1, r0, 0 | ADD r2, r2, 1\nADD r1, r1, 1\nSTORE.N r1, r0, 0\nQUIT\n"


def marked(page):
    """Where nothing is judged an end with a finding is marked, and the page says how to have right and wrong."""
    opened(page, "unjudged", two(ADDS, ADDS, ".data 0 ; total"))
    signs = page.script("return data.ends.map((end, e) => [end.label, kinds[e]]).sort()")
    tally.same("unjudged: the kinds", signs, [["total=1", "found"], ["total=2", "plain"]])
    notes = page.text("#ends")
    tally.check("unjudged: what the sign means", "has a finding in a shortest schedule." in notes, notes)
    tally.check("unjudged: how to judge", "Nothing says which ends are right. Write what you expect into a file, a line "
                "each, such as word total 2, and make the page with --expect FILE." in notes, notes)
    opened(page, "judged", two(ADDS, ADDS), "word 0 2")
    tally.check("judged: no such note", "--expect" not in page.text("#ends"), page.text("#ends"))
    # no stream counts by what it read: nothing is found, and nothing is marked
    opened(page, "unmarked", TAGGED)
    tally.check("unmarked: no sign to be explained", "this sign" not in page.text("#ends"), page.text("#ends"))


WALKED = "setGoal(null); extend(0, arguments[0]); goTo(way.length)"
WAITS = ("LOAD.N r1, r0, 0", "SUB.T r0, r1, 0", "SKIP EQ, 0, -3", "QUIT")
# a program, a claim, the streams of a way to a state that breaks it, and what the page says of it there
BROKEN = {
    "inside": (two(ADDS, ADDS), "always at most 1 of 0.0 1.0 in one+1..two+3", (1, 0),
               "Inside one+1..two+3: 0.0 at one+1 and 1.0 at two+1."),
    "never_inside": (two(ADDS, ADDS), "never at most 0 of 1.0 in two..two+1", (), "Inside two..two+1: no stream."),
    "by_numbers": (two(ADDS, ADDS), "always at most 1 of 0.0 1.0 in 1..7", (0, 0, 1), "Inside 1..7: 0.0 at one+2 and 1.0 at two+1."),
    "by_a_second_label": (two(ADDS, ADDS).replace("one:", "first:\none:"), "always at most 1 of 0.0 1.0 in first+1..two+3", (1, 0),
                          "Inside first+1..two+3: 0.0 at one+1 and 1.0 at two+1."),
    "word": (two(ADDS, ADDS, ".data 0, 0 ; total"), "always word total below 1", (0, 0, 0), "Here [0] total is 1, full."),
    "of_two": (two(ADDS, ADDS), "never word [0] above 1", (0, 0, 0, 1, 1, 1), "Here [0] is 2, full."),
    "busy": (two(WAITS, STORES), "never busy", (), "0.0 can loop alone here: 3 steps lead back to this very state: "
             "one+2, one, one+1."),
}


def broken(page):
    """Of a claim that does not hold: who is inside, what the word is, or who can loop alone."""
    for name, (text, claim, way, wanted) in BROKEN.items():
        opened(page, f"broken_{name}", text, claim)
        if name == "never_inside":
            # 1.0 is at two: the claim holds until it is past two+1
            page.script(WALKED, [1, 1])
        elif name == "busy":
            page.script("setGoal(null); extend(0, shortestWay(0, kinds.indexOf('broken'))); goTo(way.length)")
        else:
            page.script(WALKED, list(way))
        result = page.text("#result")
        tally.check(f"broken_{name}: the claim", f"A claim does not hold here: {claim}" in result, result)
        tally.check(f"broken_{name}: what breaks it", wanted in result, result)
        page.quiet(f"broken_{name}")


ORDER_SAID = re.compile(r"(\d+\.\d+) (?:has to )?(?:read|reads|store|stores|add|adds|step|steps) \(.*? at (\S+)\)")
HINTED = "setGoal(kinds.indexOf(arguments[0])); extend(0, arguments[1]); goTo(way.length); hint()"
TAKES_BOTH = ("LOAD.S r1, r0, 0", "LOAD.S r2, r0, 1", "STORE.S r2, r0, 1", "STORE.S r1, r0, 0", "QUIT")
TAKES_OTHER = ("LOAD.S r2, r0, 1", "LOAD.S r1, r0, 0", "STORE.S r1, r0, 0", "STORE.S r2, r0, 1", "QUIT")
# a program, what is expected, the kind of the goal, the way to where a hint is asked for, and what the hint says
HINTS = {
    # both have to read before either stores
    "lost": (two(ADDS, ADDS), "word 0 2", "wrong", (0, 0), "Hint: take a step of 1.0. Your goal is 6 steps away. A step of "
             "0.0 now would put it out of reach. 1.0 has to read (LOAD.N r1, r0, 0 at two) before 0.0 stores (STORE.N r1, "
             "r0, 0 at one+2)."),
    # one has to store before the other one reads
    "kept": (two(ADDS, ADDS), "word 0 2", "right", (0,), "Hint: take a step of 0.0. Your goal is 7 steps away. A step of 1.0 "
             "now would put it out of reach. 0.0 has to store (STORE.N r1, r0, 0 at one+2) before 1.0 reads (LOAD.N r1, r0, 0 "
             "at two)."),
    # either may take its second word on no way to the deadlock
    "deadlock": (two(TAKES_BOTH, TAKES_OTHER, ".data 0\n.data 0"), "", "deadlock", (), "Hint: take a step of 0.0. Your goal is "
                 "2 steps away. Each choice here keeps it in reach. On no way to your goal does 0.0 read (LOAD.S r2, r0, 1 at "
                 "one+1)."),
    "alone": (two(ADDS, ADDS), "word 0 2", "right", (0, 0, 0, 0), "Hint: take a step of 1.0. Your goal is 4 steps away. No "
              "step of another stream changes anything here."),
}
# of each state from which a goal can be reached what its hint says of order, as the streams and their pcs
ORDERS = """
  const out = [];
  for (let w = 0; w < N; w++) {
    for (let e = 0; e < data.ends.length; e++) {
      if (toGo[e][w] > 0 && w % arguments[0] === 0) out.push([w, e, words(orderParts(w, e))]);
    }
  }
  return out;
"""


def has_way(graph, begin, end, bars, meets):
    """Whether a path from a state to an end, that goes on no more where it has come to it, takes a step of `meets`, and
    before it none of `bars`; each is a stream's place and the pc, and a step counts if it is done."""
    goal = set(graph.data["ends"][end]["states"])
    ahead = [end in graph.data["sets"][number] for number in graph.ahead]
    shared, seen, left = graphs.column(graph.data["states"]["shared"]), {begin}, [begin]
    while left:
        state = left.pop()
        for at in () if state in goal else graph.steps(state):
            held, after = graph.held[at][state], graph.to[at][state]
            does = graph.data["does"][held]
            number = dict(zip(does[::2], does[1::2]))[shared[state]] if isinstance(does, list) else does
            step = (at, graph.data["contents"][held]["pc"])
            is_done = graph.data["steps"][number][0] == "done"
            if not ahead[after] or (is_done and step == bars):
                continue
            if is_done and step == meets:
                return True
            if after not in seen:
                seen.add(after)
                left.append(after)
    return False


def is_so(graph, state, end, text):
    """Whether what is said of order holds, by a search of the tests' own."""
    places = {place: pc for pc, (_, place, _) in enumerate(graph.data["program"])}
    said = [(graph.data["streams"].index(stream), places[place]) for stream, place in
            ORDER_SAID.findall(text)]
    if text.startswith(" On no way"):
        return len(said) == 1 and not has_way(graph, state, end, None, said[0])
    first, second = said
    return has_way(graph, state, end, None, second) and not has_way(graph, state, end, first, second)


def hints(page):
    """A hint's reason, by hand; and of all states of some programs by a search of the tests' own."""
    for name, (text, expected, kind, way, wanted) in HINTS.items():
        opened(page, f"hint_{name}", text, expected)
        page.script(HINTED, kind, list(way))
        tally.same(f"hint_{name}: what it says", page.text("#told"), wanted)
        page.quiet(f"hint_{name}")
    said = []
    for name, text, each in (("adds", two(ADDS, ADDS), 1), ("polls", two(POLLS, STORES), 1),
                             ("locks", two(TAKES_BOTH, TAKES_OTHER, ".data 0\n.data 0"), 1), ("four", FOUR, 97)):
        opened(page, f"orders_{name}", text)
        graph = graphs.Graph(f'id="graph-data">{page.script("return JSON.stringify(data)")}</script>')
        all_said = [one for one in page.script(ORDERS, each) if one[2]]
        faults = [one for one in all_said if not is_so(graph, *one)]
        tally.same(f"orders_{name}: {len(all_said)} reasons", faults[:2], [])
        said += [one[2] for one in all_said]
    for what in "has to read", "has to store", "On no way to your goal":
        tally.check(f"some reasons say: {what}", any(what in one for one in said))


# of each state but ends the streams of the way that skips
SKIPS = "return Array.from({ length: N }, (_, w) => quietWay(w))"


def skips(page):
    """From where no step changes what can come a way leads to where one does, or to an end, and changes nothing of it."""
    opened(page, "skips", two(ADDS, ADDS), "word 0 2")
    graph = graphs.Graph(f'id="graph-data">{page.script("return JSON.stringify(data)")}</script>')

    def is_quiet(state):
        steps = graph.steps(state)
        return bool(steps) and state not in graph.ends and all(graph.ahead[graph.to[at][state]] == graph.ahead[state]
                                                               for at in steps)

    for state, way in enumerate(page.script(SKIPS)):
        after = state
        for at in way:
            tally.check(f"skips: state {after} is quiet", is_quiet(after))
            after = graph.to[at][after]
        tally.check(f"skips: from state {state}", bool(way) == is_quiet(state) and not is_quiet(after), (way, after))
    tally.same("skips: the button at the start", page.text("#skip-on"), "Skip to the next choice: 1 step")
    page.press("n")
    tally.same("skips: what was done", page.text("#told"), "1 step is taken: 0.0. It changes nothing of what can still come.")
    tally.check("skips: then there is a choice", page.script("return document.getElementById('skipping').hidden"))
    # when 0.0 has read, added and stored, 1.0 can only read what it stored: 5 of the 8 steps are left
    page.press("1", "1", "n")
    tally.same("skips: to the end", page.text("#told"), "5 steps are taken: 0.0, 1.0, 1.0, 1.0, 1.0. They change nothing of "
               "what can still come.")
    tally.same("skips: at the end", page.text("#result h2"), "Finished, and right: [0] is 2")
    page.quiet("skips")


def votes(page):
    """Votes are counted and taken back; the step with the most is taken, a tie is none; what can come is hidden."""
    opened(page, "votes", two(ADDS, ADDS), "word 0 2")
    page.press("v", "1", "2", "2", "2", "Backspace")
    tally.same("votes: counted", page.text("#told"), "3 votes: 1 for 0.0 and 2 for 1.0.")
    tally.check("votes: what can come is hidden", "Hidden" in page.text("#ends") or not page.script("return isAheadShown()"))
    tally.same("votes: no step is taken", page.script("return view.at"), 0)
    page.press("1", "v")
    tally.same("votes: a tie", page.text("#told"), "A tie: 2 for 0.0 and 2 for 1.0. Vote on, or press Esc.")
    page.press("2", "v")
    said = page.text("#told")
    tally.check("votes: the most", said.startswith("By 3 of 5 votes: Step 1: 1.0 at two "), said)
    page.press("v", "1", "Escape")
    tally.same("votes: given up", page.script("return [view.at, view.vote]"), [1, None])
    page.press("l")
    tally.check("votes: the lecture", page.script("return document.body.classList.contains('lecture')"))
    page.press("l")
    tally.check("votes: and back", not page.script("return document.body.classList.contains('lecture')"))
    page.quiet("votes")


def explored(page):
    """How many states explore visits, and why."""
    opened(page, "explored", two(ADDS, ADDS))
    tally.same("explored: what is said", page.text("#explored"), "mta_lab explore --plain visits the same 40 states. Without "
               "--plain it may count fewer: it leaves out states that its ends do not need.")
    opened(page, "explored_from", two(ADDS, ADDS), begin="0 0 1\n")
    said = page.text("#explored")
    tally.check("explored_from: the same beginning", "--plain, with the same --from, visits the same" in said, said)


def part(page):
    if not runs.has_pages():
        return
    names(page)
    chips_as_graph(page, "four_judged", FOUR, "word 0 4")
    chips_as_graph(page, "four_unjudged", FOUR, "")
    marked(page)
    broken(page)
    hints(page)
    skips(page)
    votes(page)
    explored(page)
