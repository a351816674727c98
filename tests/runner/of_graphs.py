"""The graph of worlds: that it has what explore tells, and where Graphviz is installed that it reads the graph."""

import collections
import json
import os
import re
import shutil
import subprocess
import tempfile

import checks
import tool
from of_lab import EXAMPLES, lab

WORLD = re.compile(r'  w(\d+) \[label="\1((?:\\n[a-z]+ \d+)*)\\nto ([a-z0-9 ]+)", tooltip="to \3", fillcolor="(#[0-9a-f]{6})"'
                   r'(, shape=box)?(, peripheries=2)?\];')
STEP = re.compile(r'  w(\d+) -> w(\d+) \[label="(\d+)\.(\d+)"(, style=bold, penwidth=3)?\];')
GROUP = re.compile(r'    g\d+ \[label="to ([a-z0-9 ]+)", fillcolor="(#[0-9a-f]{6})"\];')
ENDS = re.compile(r"([a-z]+) (\d+)")
NODE_LINE, STEP_LINE = re.compile(rb"(?m)^ +[egw]\d+ \[label="), re.compile(rb"(?m)^  w\d+ -> w\d+ \[label=")
# examples with few worlds, and how they are searched
DRAWN = (("mailbox.asm",), ("producer_consumer.asm",), ("silent_wait.asm",), ("trap_handler.asm",),
         ("grading/submissions/racing.asm",), ("grading/submissions/locked.asm",),
         ("grading/submissions/never_given_back.asm",))
# a program that spins, and one whose words and claims have what DOT reads otherwise
ROUND = b".entry give\n.entry take\n.data 0\ngive: STORE.S r0, r0, 0\nSKIP ALWAYS, 0, give\ntake: LOAD.S r1, r0, 0\nSKIP ALWAYS, 0, take\n"
QUOTED = b'.entry go\n.entry go\n.data 0 ; a "word" \\N of \x1b <b>&amp; {}\ngo: LIT r1, 1\nSTORE.N r1, r0, 0\nQUIT\n'


class Graph:
    """A graph: its comments, its worlds, its steps, and the colours of its legend."""

    def __init__(self, text):
        self.comments = [line for line in text.splitlines() if line.startswith("//")]
        self.worlds = {int(found[1]): found for found in map(WORLD.fullmatch, text.splitlines()) if found}
        self.steps = [found for found in map(STEP.fullmatch, text.splitlines()) if found]
        self.groups = {found[1]: found[2] for found in map(GROUP.fullmatch, text.splitlines()) if found}

    def ends_of(self, world):
        """The numbers of the ends that a world is of, with their kinds."""
        return {int(number): kind for kind, number in ENDS.findall(self.worlds[world][2].replace("\\n", " "))}

    def ahead(self, world):
        """The numbers that stand in a world behind to."""
        return {int(number) for number in re.findall(r"\d+", self.worlds[world][3])}

    def reached(self):
        """For each world the numbers of the ends that its steps lead to."""
        before = collections.defaultdict(list)
        for step in self.steps:
            before[int(step[2])].append(int(step[1]))
        found = {world: set(self.ends_of(world)) for world in self.worlds}
        waiting = list(self.worlds)
        while waiting:
            world = waiting.pop()
            for earlier in before[world]:
                if not found[world] <= found[earlier]:
                    found[earlier] |= found[world]
                    waiting.append(earlier)
        return found

    def bold(self, schedule, begin):
        """The steps that a schedule takes behind so many from the first world on: as (from, to), in order."""
        leads = {(int(step[1]), int(step[3]), int(step[4])): step for step in self.steps}
        here, taken = 1, []
        for p, s, count in schedule:
            for _ in range(count):
                if begin > 0:
                    begin -= 1
                    continue
                step = leads[here, p, s]
                taken.append(step[0])
                here = int(step[2])
        return taken


@checks.others("lab/graphs")
def graphs():
    """Graphs of examples, of a program that spins, of a search that is cut off, and of one that is not plain."""
    for words in DRAWN:
        for plain in ([], ["--plain"]):
            yield f"{words} {plain}", lambda words=words, plain=plain: (
                True, is_told(os.path.join(EXAMPLES, words[0]), *plain))
    with tool.made_files(source=ROUND, quoted=QUOTED, begin=b"0 0 1\n", claim=b"never word 0 is 0\n") as paths:
        for words in ([], ["--plain"], ["--plain", "--states", "3"], ["--from", paths["begin"]],
                      ["--expect", paths["claim"]]):
            for source in ("source", "quoted"):
                yield f"{source} {words[::2]}", True, is_told(paths[source], *words)


def is_told(source, *words):
    """Whether the graph of a program has what explore tells: True, or what it has not."""
    with tempfile.TemporaryDirectory(prefix="mta-case-") as folder:
        path = os.path.join(folder, "g.dot")
        shown = lab("explore", source, "--json", *words)
        drawn = lab("explore", source, "--json", *words, "--dot", path)
        if (shown.status, shown.out) != (drawn.status, drawn.out):
            return f"it prints something else: {drawn}"
        text = tool.read(path)
        return compared(text.decode(), *map(json.loads, shown.out.splitlines())) or is_read(path, text)


def compared(text, head, *ends):
    """What a graph does not have of what is told; None where it has all."""
    graph = Graph(text)
    worlds, steps = list(graph.worlds), {step[0] for step in graph.steps}
    if worlds != list(range(1, head["worlds"] + 1)) or len(steps) != head["steps"]:
        return f"{len(worlds)} worlds, {len(steps)} steps"
    if len(graph.comments) != (1 if head["plain"] else 2) or ("explored" in graph.comments[0]) == head["plain"]:
        return f"its comments: {graph.comments}"
    if [world for world in worlds if graph.worlds[world][6]] != [1]:
        return "the first world is not marked"
    reached = graph.reached()
    for world in worlds:
        if graph.ahead(world) != reached[world] or graph.groups[graph.worlds[world][3]] != graph.worlds[world][4]:
            return f"of world {world} {graph.worlds[world][0]}"
        if bool(graph.ends_of(world)) != bool(graph.worlds[world][5]):
            return f"the shape of world {world}"
    bold = set()
    for number, end in enumerate(ends, 1):
        of_it = [world for world in worlds if graph.ends_of(world).get(number) == end["end"]]
        if len(of_it) != end["worlds"] or sum(number in found for found in reached.values()) != end["from"]:
            return f"end {number}: {len(of_it)} worlds"
        taken = graph.bold(end["schedule"], head["begin"])
        if taken and int(STEP.fullmatch(taken[-1])[2]) not in of_it:
            return f"end {number}: its schedule leads elsewhere"
        bold |= set(taken)
    return None if bold == {step[0] for step in graph.steps if step[5]} else "other steps are bold"


def is_read(path, text):
    """True where Graphviz reads as many worlds and steps as the text has, or is not installed."""
    if shutil.which("dot") is None:
        return True
    made = subprocess.run(["dot", "-Tplain", path], capture_output=True, check=False)
    kinds = collections.Counter(line.split(b" ", 1)[0] for line in made.stdout.splitlines())
    wanted = len(NODE_LINE.findall(text)), len(STEP_LINE.findall(text))
    return (made.stderr, kinds[b"node"], kinds[b"edge"]) == (b"", *wanted) or f"Graphviz: {made.stderr}, {kinds}"
