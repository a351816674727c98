"""Sessions of editors with the lab. Where moves lead, and what registers and words then hold, is what mta_sim's debugger
says."""

import base64
import glob
import json
import os
import random
import subprocess
import time

import adapters
import checks
import of_debug_words
import of_lab
import talks
import tool
from adapters import thread_of

# how many random moves of each run, random requests and damaged messages there are; TIMES in the environment for more
TIMES = int(os.environ.get("TIMES", "1"))
MOVES, RANDOM_REQUESTS, DAMAGED, BATCH = 60 * TIMES, 400 * TIMES, 40 * TIMES, 20
NAMES = ["configurationDone", "continue", "dataBreakpointInfo", "disassemble", "evaluate", "exceptionInfo", "goto",
         "gotoTargets", "next", "pause", "readMemory", "restart", "reverseContinue", "scopes", "setBreakpoints",
         "setDataBreakpoints", "setExceptionBreakpoints", "setFunctionBreakpoints", "source", "stackTrace", "stepBack",
         "stepIn", "stepOut", "threads", "variables", "initialize", "launch", "setVariable", "nonsense", ""]
ARGUMENTS = ["threadId", "frameId", "variablesReference", "start", "count", "source", "breakpoints", "line", "targetId",
             "expression", "memoryReference", "offset", "instructionOffset", "instructionCount", "filters", "name",
             "dataId", "startFrame", "levels", "format", "program", "filter"]


class Pair:
    """A session of an editor beside one of mta_sim over the same run."""

    def __init__(self, editor, talk, steps, chooser):
        self.editor, self.talk, self.steps, self.chooser = editor, talk, steps, chooser
        self.position, self.points = 0, []

    def stream(self):
        """A stream that steps somewhere."""
        return self.chooser.choice(self.steps)

    def search(self, command, goal):
        """Where mta_sim stops on the way to a position, and whether at a point."""
        self.talk.ask(b"g %d" % self.position)
        _, at, why = self.talk.ask(command).split()
        at, why = int(at), why.decode()
        is_past = at > goal if command == b"c" else at < goal
        if is_past or why != "stop":
            at, why = goal, "moved"
        self.talk.ask(b"g %d" % at)
        return at, why == "stop"

    def wanted(self, move, stream):
        """Where a move leads by mta_sim, and whether to a point."""
        here, end = self.position, len(self.steps)
        behind = [index + 1 for index in range(here, end) if self.steps[index] == stream]
        before = [index for index in range(here) if self.steps[index] == stream]
        return {
            "continue": lambda: self.search(b"c", end),
            "reverseContinue": lambda: self.search(b"back", 0),
            "stepIn": lambda: self.search(b"c", min(here + 1, end)),
            "next": lambda: self.search(b"c", behind[0] if behind else end),
            "stepBack": lambda: self.search(b"back", before[-1] if before else 0),
            "restart": lambda: (self.talk.ask(b"g 0"), (0, False))[1],
        }[move]()

    def move(self):
        """A random move; what differs, or None."""
        name = self.chooser.choice(["continue", "reverseContinue", "stepIn", "stepIn", "next", "next", "stepBack", "restart"])
        stream = self.stream()
        arguments = {"threadId": thread_of(*stream)} if name in ("next", "stepBack", "stepIn") else {}
        at, is_point = self.wanted(name, stream)
        found = self.editor.move(name, **arguments)
        reason = "breakpoint" in found[1] if is_point else found[1] in ("step", "entry")
        self.position = at
        if found[0] != at or not reason or bool(found[3]) != is_point:
            return f"{name} of {stream} to {at}, point {is_point}: {found}"
        return self.shown(stream) or self.word()

    def shown(self, stream):
        """What differs in a stream's registers, or None."""
        p, s = stream
        lines = self.talk.answer(b"r %d %d" % stream).decode().splitlines()
        wanted = {int(line[1:3]): int(line.split()[1], 16) for line in lines if line[0] == "r"}
        scopes = self.editor.body("scopes", frameId=thread_of(p, s))["scopes"]
        shown = self.editor.body("variables", variablesReference=scopes[0]["variablesReference"])["variables"]
        found = {int(it["name"][1:]): int(it["value"]) % 2**64 for it in shown}
        if found != {number: wanted.get(number, 0) for number in range(32)}:
            return f"registers of {stream} at {self.position}: {found}, and {wanted}"
        return None

    def word(self):
        """What differs in the first word of the memory, or None."""
        cell = self.talk.answer(b"m 0 1").split()
        value = int(cell[1], 16)
        data = self.editor.body("readMemory", memoryReference="0x0", count=8)["data"]
        shown = self.editor.body("evaluate", expression="[0]")["result"]
        page = self.editor.body("variables", variablesReference=0x40000, start=0, count=1)["variables"]
        text, full = shown.split(", ")
        same = (int.from_bytes(base64.b64decode(data), "big") == value == int(text) % 2**64
                and full.startswith("full" if int(cell[2], 16) & 1 else "empty") and page[0]["value"].startswith(shown))
        return None if same else f"[0] at {self.position}: {shown}, {data}, and {cell}"

    def points_set(self, source):
        """Sets random breakpoints on both sides."""
        labels = of_debug_words.labels_of(source)
        chosen = self.chooser.sample(labels, min(len(labels), self.chooser.randint(0, 2)))
        watched = self.chooser.sample(["[0]", "[0] full/empty"], self.chooser.randint(0, 1))
        self.editor.body("setFunctionBreakpoints", breakpoints=[{"name": name} for name, _ in chosen])
        self.editor.body("setDataBreakpoints", breakpoints=[{"dataId": name} for name in watched])
        for key in self.points:
            self.talk.ask(b"d %d" % key)
        processors = max(p for p, _ in self.steps) + 1
        lines = [f"b {p} {word}" for _, word in chosen for p in range(processors)]
        lines += ["wt 0" if name.endswith("empty") else "w 0" for name in watched]
        said = [self.talk.ask(line.encode()).split() for line in lines]
        self.points = [int(words[1]) for words in said if words[0] == b"point"]


def steps_of(schedule):
    """The streams of a schedule's steps."""
    lines = [line.split() for line in tool.read(schedule).decode().splitlines() if line.strip()]
    return [(int(p), int(s)) for p, s, count in lines for _ in range(int(count))]


@checks.others("adapter/moves")
def moves():
    """Each example by each of its short schedules."""
    for schedule in sorted(glob.glob(os.path.join(of_lab.EXAMPLES, "*.schedule"))):
        if len(steps_of(schedule)) < 5000:
            yield os.path.basename(schedule), lambda schedule=schedule: (True, agrees(schedule))


def agrees(schedule):
    """Whether an editor's session and one of mta_sim stand at the same positions and show the same; or what differs."""
    source = of_lab.source_of(schedule)
    chooser = random.Random(os.path.basename(schedule))
    with adapters.adapter() as editor, talks.talk(tool.asm(tool.read(source)), tool.read(schedule)) as talk:
        pair = Pair(editor, talk, steps_of(schedule), chooser)
        if (start := editor.launched(source, schedule))[:2] != (0, "entry"):
            return f"starts at {start}"
        for index in range(MOVES):
            if index % 15 == 0:
                pair.points_set(source)
            if (wrong := pair.move()) is not None:
                return f"move {index}: {wrong}"
        editor.body("disconnect")
        return editor.read() is None and editor.process.wait() == 0


LOCK = os.path.join(of_lab.EXAMPLES, "lock.asm")
LOST = os.path.join(of_lab.EXAMPLES, "lock.lost_update.schedule")


def of_lock(*checked):
    """A session over the lost update."""
    with adapters.adapter() as editor:
        editor.launched(LOCK, LOST)
        return [check(editor) for check in checked]


@checks.others("adapter/requests")
def requests():
    """What each request answers over the lost update of lock.asm, whose expected values come from that program."""
    line = next(number for number, text in enumerate(open(LOCK, encoding="ascii"), 1) if "STORE.N r2, r0, 1" in text and number > 18)
    source = {"path": LOCK}

    def points(editor):
        return editor.body("setBreakpoints", source=source, breakpoints=[{"line": line}, {"line": 999}])["breakpoints"]

    def stop(editor):
        return editor.move("continue")[:3]

    def names(editor):
        return [it["name"] for it in editor.body("threads")["threads"]]

    def frame(editor):
        found = editor.body("stackTrace", threadId=thread_of(3, 0))["stackFrames"][0]
        return found["name"], found["line"], found["source"]["path"]

    yield ("a line", [("bare+2", line, LOCK), True, (4 - 1, "breakpoint", thread_of(2, 0))][1:],
           [(lambda found: found[0]["verified"] and found[0]["line"] == line and not found[1]["verified"])(it)
            if index == 0 else it for index, it in enumerate(of_lock(points, stop))])
    yield "threads", [["0.0 locked", "1.0 locked", "2.0 bare", "3.0 bare"]], of_lock(names)
    yield "a frame", [("bare", line - 2, LOCK)], of_lock(frame)

    def goto(editor):
        target = editor.body("gotoTargets", source=source, line=line)["targets"][0]
        return target["label"], editor.move("goto", threadId=thread_of(3, 0), targetId=target["id"])[:3]

    yield "goto", [("bare+2", (6, "goto", thread_of(3, 0)))], of_lock(goto)

    def disassembled(editor):
        found = editor.body("disassemble", memoryReference="0x6", instructionOffset=-1, instructionCount=6)["instructions"]
        return [(it["address"], it["instruction"]) for it in found]

    yield ("disassemble", [[("0x5", "QUIT"), ("0x6", "LOAD.N r2, r0, 1"), ("0x7", "ADD r2, r2, 1"),
                            ("0x8", "STORE.N r2, r0, 1"), ("0x9", "QUIT"), ("10", "no word of the program")]],
           of_lock(disassembled))

    def out(editor):
        return editor.move("stepOut", threadId=thread_of(2, 0))[:3]

    yield "step out", [(5, "step", thread_of(2, 0))], of_lock(out)

    def refused(editor):
        return [editor.do(name)["success"] for name in ("setVariable", "attach", "nonsense", "launch", "goto")]

    yield "refused", [[False] * 5], of_lock(refused)


# arguments of a launch and of views, each of another kind or out of range
LAUNCHES = [{"steps": 0}, {"steps": -1}, {"steps": "9"}, {"steps": 1.5}, {"steps": 1_000_001}, {"schedule": 7},
            {"schedule": ["fair"]}, {"stopOnEntry": 1}, {"schedule": "random:"}]
READS = [{"offset": 2**64 - 1}, {"offset": 2**63}, {"offset": -1}, {"offset": "8"}, {"offset": 16}, {"count": -1}, {"count": "8"}]


@checks.others("adapter/arguments")
def arguments():
    """Arguments that are none are refused with a sentence, and change nothing; those that are left out or null are the
    usual ones."""
    with adapters.adapter() as editor:
        for number, wrong in enumerate(LAUNCHES):
            yield f"launch {wrong}", (False, True), refusal(editor.do("launch", program=LOCK, **wrong))
        yield "a launch behind them", (0, "entry"), editor.launched(LOCK, LOST, steps=None)[:2]
        whole = editor.body("readMemory", memoryReference="0x0", count=16, offset=None)
        for wrong in READS:
            yield f"read {wrong}", (False, True), refusal(editor.do("readMemory", **{"memoryReference": "0x0", "count": 8, **wrong}))
        yield "a read behind them", whole, editor.body("readMemory", memoryReference="0x0", count=16)
        far = editor.do("disassemble", memoryReference="0x6", instructionOffset=2**63, instructionCount=1)
        yield "disassemble", (False, True), refusal(far)
        names = ["bare", "bare+1", "bare + 1", "locked+7", "20", "bare+99", "7.0", ""]
        found = editor.body("setFunctionBreakpoints", breakpoints=[{"name": name} for name in names])["breakpoints"]
        yield "places", [19, 20, 20, 20, 20, None, None, None], [it.get("line") for it in found]
        shown = [editor.body("evaluate", expression=name)["result"] for name in names[:5]]
        yield "evaluated", ["bare: LOAD.N r2, r0, 1", *["bare+1: ADD r2, r2, 1"] * 4], shown


@checks.others("adapter/labels")
def labels():
    """Each of two labels on one word is an address, and so is a word after one: a breakpoint, a value, and where a run stops."""
    text = b" .slim 1\n .entry go\n .data 0\ngo: LIT r1, 7\nlocked:\nguarded: ADD r2, r1, 1\nmore: STORE.N r2, r0, 0\n QUIT\n"
    with tool.made_files(source=text, schedule=b"0 0 4\n") as paths:
        for name, line, instruction in (("locked", 6, "ADD r2, r1, 1"), ("guarded", 6, "ADD r2, r1, 1"),
                                        ("locked+1", 7, "STORE.N r2, r0, 0"), ("guarded+1", 7, "STORE.N r2, r0, 0"),
                                        ("locked+2", 8, "QUIT")):
            with adapters.adapter() as editor:
                editor.launched(paths["source"], paths["schedule"])
                [point] = editor.body("setFunctionBreakpoints", breakpoints=[{"name": name}])["breakpoints"]
                shown = editor.body("evaluate", expression=name)["result"].partition(": ")[2]
                position, reason, *_ = editor.move("continue")
                frame = editor.body("stackTrace", threadId=thread_of(0, 0))["stackFrames"][0]
            yield name, (True, line, instruction, line - 5, line), (
                point["verified"], point["line"], shown, position, frame["line"])


def refusal(response):
    """Whether a request succeeded, and whether a sentence says why not."""
    return response["success"], " " in response.get("message", "")


@checks.others("adapter/exceptions")
def exceptions():
    """A trap and a blocked step stop the run forwards and backwards."""
    source = b"        .slim 1\n        .entry a\n        .data 0, 0\na:      LIT r1, 1\n        LOAD.S r2, r0, 0\n        QUIT\n"
    trap = b"        .slim 1\n        .entry a\n        .data 0\na:      LIT r1, 1\n        LOAD.N r2, r1, 0\n        QUIT\n"
    for name, text, filters, wanted in (("blocked", source, ["blocked"], (2, "exception")),
                                        ("trap", trap, ["traps"], (2, "exception")), ("none", trap, [], (4, "step"))):
        with tool.made_files(source=text, schedule=b"0 0 4\n") as paths, adapters.adapter() as editor:
            editor.launched(paths["source"], paths["schedule"])
            editor.body("setExceptionBreakpoints", filters=filters)
            found = [editor.move("continue")[:2]]
            if filters:
                found.append(editor.body("exceptionInfo")["breakMode"])
                editor.body("setExceptionBreakpoints", filters=[])
                editor.move("continue")
                editor.body("setExceptionBreakpoints", filters=["traps"])
                found.append(editor.move("reverseContinue")[:2])
        yield name, [wanted] + (["always", (2 if name == "trap" else 0, "exception" if name == "trap" else "step")] if filters else []), found


def random_value(chooser, depth=0):
    """A random value of JSON, of kinds that requests have."""
    kind = chooser.randrange(9 if depth < 2 else 6)
    if kind == 6:
        return [random_value(chooser, depth + 1) for _ in range(chooser.randrange(3))]
    if kind >= 7:
        return {chooser.choice(ARGUMENTS + ["path", "hex"]): random_value(chooser, depth + 1) for _ in range(chooser.randrange(3))}
    return [None, chooser.choice([True, False]), chooser.choice([0, 1, 2, 513, 0x10201, 0x40000, 0x100001, 2**63]),
            chooser.randrange(-2**64, 2**64), chooser.choice(["0x0", "[8]", "2.0.r1", "bare", "traps", LOCK, "\\ \"\u20ac\0"]),
            chooser.random()][kind]


def random_request(editor, chooser):
    """Sends a random request and gives its number."""
    arguments = {chooser.choice(ARGUMENTS): random_value(chooser) for _ in range(chooser.randrange(4))}
    return editor.ask(chooser.choice(NAMES), **arguments)


@checks.others("adapter/random")
def random_requests():
    """Random requests have one response each, in order, with their numbers."""
    chooser = random.Random(40)
    with adapters.adapter() as editor:
        editor.launched(LOCK, LOST)
        seqs, answered = [], []
        for _ in range(RANDOM_REQUESTS // BATCH):
            seqs += [random_request(editor, chooser) for _ in range(BATCH)]
            answered += [editor.response()["request_seq"] for _ in range(BATCH)]
        editor.body("disconnect")
        yield "random", (seqs, 0), (answered, editor.process.wait())


def damaged(chooser, message):
    """A message that is none, and the number of responses that it has."""
    kind = chooser.randrange(6)
    body = bytearray(message)
    if kind == 0:
        return adapters.framed(bytes(body[:chooser.randrange(len(body))]))
    if kind == 1:
        body[chooser.randrange(len(body))] = chooser.choice(b"\xff\x00{}[],:\"\\")
        return adapters.framed(bytes(body))
    if kind == 2:
        return b"Content-Length: nothing\r\n\r\n"
    if kind == 3:
        return b"Content-Type: text\r\n\r\n"
    if kind == 4:
        return adapters.framed(chooser.choice([b"", b"7", b"[]", b"[" * 3000, b"\"\\ud800\"", b"{\"type\":\"request\"}"]))
    return adapters.framed(b"[" + b"1," * 30000 + b"1]")


@checks.others("adapter/damaged")
def damaged_messages():
    """Each damaged message has one response, and the session goes on behind it."""
    chooser, message = random.Random(41), b'{"seq":7,"type":"request","command":"threads","arguments":{}}'
    with adapters.adapter() as editor:
        editor.launched(LOCK, LOST)
        alive = []
        for _ in range(DAMAGED):
            editor.send(damaged(chooser, message))
            editor.response()
            alive.append(len(editor.body("threads")["threads"]))
        editor.send(b"Content-Length: 8388609\r\n\r\n" + b" " * 8388609)
        late = editor.response()["success"]
        alive.append(len(editor.body("threads")["threads"]))
        editor.body("disconnect")
        yield "damaged", ([4] * (DAMAGED + 1), False, 0), (alive, late, editor.process.wait())


@checks.others("adapter/heads")
def heads():
    """A message has one response however the names of its head's fields are written, and whatever fields stand beside."""
    body = b'{"seq":7,"type":"request","command":"threads","arguments":{}}'
    written = [b"Content-Length: %d\r\n\r\n", b"content-length: %d\r\n\r\n", b"CONTENT-LENGTH:%d\r\n\r\n",
               b"content-type: text\r\ncOnTeNt-LeNgTh: %d\r\n\r\n", b"Content-Length: %d\r\nX-Other: 1\r\n\r\n"]
    with adapters.adapter() as editor:
        editor.launched(LOCK, LOST)
        found = []
        for head in written:
            editor.send(head % len(body) + body)
            response = editor.response()
            found.append((response["request_seq"], response["success"]))
        editor.body("disconnect")
        yield "heads", [(7, True)] * len(written), found


@checks.others("adapter/conditions")
def conditions():
    """A breakpoint with a condition, a count of hits or a message is not verified, says why, and stops nowhere: these are not
    used. An empty condition is none."""
    asked = [{"condition": "r2 == 1"}, {"hitCondition": "3"}, {"logMessage": "here"}, {"condition": " ", "hitCondition": ""}]
    with adapters.adapter() as editor:
        editor.launched(LOCK, LOST)
        for command, place in (("setBreakpoints", {"line": 21}), ("setFunctionBreakpoints", {"name": "bare+2"}),
                               ("setDataBreakpoints", {"dataId": "[8]"})):
            found = editor.body(command, source={"path": LOCK}, breakpoints=[{**place, **more} for more in asked])
            yield (command, [(False, True)] * 3 + [(True, False)],
                   [(it["verified"], " not used" in it.get("message", "")) for it in found["breakpoints"]])
            editor.body(command, source={"path": LOCK}, breakpoints=[{**place, **more} for more in asked[:3]])
        yield "a run", "step", editor.move("continue")[1]


@checks.others("adapter/unreadable_input")
def unreadable_input():
    """Input that can't be read ends the session with status 1 and a word, where an end of the input is its end."""
    folder = os.open("/", os.O_RDONLY)
    ended = subprocess.run([tool.LAB, "dap"], stdin=folder, capture_output=True, timeout=tool.PATIENCE, check=False)
    os.close(folder)
    yield ("a folder", (1, b"", b"mta_lab: -: read failed: Is a directory (os error 21)\n"),
           (ended.returncode, ended.stdout, ended.stderr))
    ended = subprocess.run([tool.LAB, "dap"], input=b"", capture_output=True, timeout=tool.PATIENCE, check=False)
    yield "no input", (0, b"", b""), (ended.returncode, ended.stdout, ended.stderr)


@checks.others("adapter/pause")
def pause():
    """A long search is stopped by a pause, and then goes on to its end."""
    text = b"        .slim 1\n        .entry a\n        .fill 8, 0, 1\na:      SKIP ALWAYS, 0, a\n"
    with tool.made_files(source=text, schedule=b"0 0 200000\n") as paths, adapters.adapter() as editor:
        editor.launched(paths["source"], paths["schedule"])
        editor.body("setDataBreakpoints", breakpoints=[{"dataId": f"[{8 * word}]"} for word in range(8)])
        editor.ask("continue")
        editor.ask("pause")
        answered = [editor.response()["success"] for _ in range(2)]
        found = adapters.stop_of(editor.event("stopped"))
        end = editor.move("continue")[:2]
        start = editor.move("reverseContinue")[:2]
        yield ("pause", ([True, True], "pause", True, (200000, "step"), (0, "step")),
               (answered, found[1], found[0] < 200000, end, start))
