"""The lab under hostile use: each allocation of its commands refused in turn, outputs that are full or that nobody
reads, inputs that can't be read, large and damaged inputs, bytes above 7F, long lines, small stacks, no threads. Each run
ends with words and a status of the table, and nothing is lost."""

import os
import json
import random
import re
import resource
import subprocess
from functools import partial

from program import EXAMPLES, LAB, ROOT, Tally, read, run, write
from refusing import interposer, refused_allocation, refused_threads

GRADED = os.path.join(EXAMPLES, "grading/submissions")
STATUSES = {0, 1, 3, 4, 5}
NO_MEMORY = b"mta_lab: no memory\n"
# the bytes of a small stack
SMALL_STACK = 65_536
# what stands in the answer of a search that lacked memory on its way: nothing is said of all schedules, or of who can wait
# forever
NOT_ALL = re.compile(rb"some schedules(?: that begin so)?: |\"complete\":false|\t(?:not decided|wrong)\tsome schedules, |\twrong\tschedule |a search of all states came to a bound")
# the formats of `grade` that are printed at the end; the others have a row as soon as it is known
AT_THE_END = ("junit", "gradescope")
# how many damaged images and texts are tried
DAMAGED, TEXTS = 400, 400
LARGEST = 33_554_432
# two streams that hand a word on and back for ever, and two of one processor that add
ROUND = b".entry give\n.entry take\n.data 0\ngive: STORE.S r0, r0, 0\nSKIP ALWAYS, 0, give\n" \
        b"take: LOAD.S r1, r0, 0\nSKIP ALWAYS, 0, take\n"
SHARED = b".slim 2\n.entry go\n.data 0\ngo: LIT r2, 1\nRESERVE r3, r2\nTLIT t1, add\nCREATE t1, r2\n" \
         b"add: LIT r1, 1\nFADD.N r1, r0, 0\nQUIT\n"
# a text that `check` can mend twice, and what `lsp` sends of it when no message waits
SLIPS = " .entry go\n .data 0\n .data 5 ; limit\ngo: LIT r1, 7\n LOAD.N r2, limit, 0\n QUITE\n"
DIAGNOSTICS = re.compile(rb'Content-Length: \d+\r\n\r\n\{"jsonrpc":"2.0","method":"textDocument/publishDiagnostics"'
                         rb"(?:(?!Content-Length: ).)*", re.DOTALL)


def lab(words, text=b"", **how):
    return run(words, text, tool=LAB, **how)


def example(name):
    return os.path.join(EXAMPLES, name)


def commands(folder):
    """Command lines whose allocations are refused."""
    expected = write(folder, "wanted.expect", b"word 8 2 full # both\nfinished\n")
    claims = write(folder, "claims.expect", b"always at most 1 of 0.0 1.0 in count+1..count+3\nnever word 8 below 0 signed\n")
    begin = write(folder, "begin.schedule", b"0 0 2\n")
    racing = os.path.join(GRADED, "racing.asm")
    lock, ends, lost = example("lock.asm"), example("lock.ends.schedule"), example("lock.lost_update.schedule")
    return [
        ["check", lock, os.path.join(GRADED, "misspelt.asm")],
        ["check", "--json", os.path.join(GRADED, "misspelt.asm")],
        ["check", ends, "--program", lock],
        ["schedule", "random", lock, "--seed", "7"],
        ["schedule", "rounds", example("fetch_add.asm")],
        ["view", lock, lost],
        ["view", lock, lost, "--json"],
        ["view", example("philosophers.asm"), example("philosophers.deadlock.schedule"), "--columns"],
        ["compare", lock, ends, lost],
        ["compare", lock, "--seeds", "3", "8"],
        ["survey", lock, "--seeds", "5"],
        ["survey", lock, "--seeds", "5", "--json"],
        ["explore", racing],
        ["explore", racing, "--json"],
        ["explore", write(folder, "round.asm", ROUND)],
        ["explore", "--plain", write(folder, "shared.asm", SHARED)],
        ["explore", racing, "--from", begin, "--expect", claims],
        ["play", racing, "--expect", expected, "--out", os.path.join(folder, "played.html")],
        ["grade", "--explore", "--expect", expected, racing],
        *(["grade", "--all", "--format", form, "--expect", expected, "--seeds", "5", racing] for form in AT_THE_END),
        ["grade", "--json", "--expect", claims, "--seeds", "5", racing],
        ["grade", "--given", write(folder, "given.data", b" .data 5\n .data 0\n"), "--expect", expected, "--seeds", "5", racing],
        ["grade", "--expect", expected, "--seeds", "5", *sorted(os.path.join(GRADED, it) for it in os.listdir(GRADED))],
    ]


def is_begun(words, whole, out):
    """Whether nothing was printed, or of `grade` in a format of rows whole lines of what it prints with ample memory, the first
    ones (docs/LAB_REFERENCE.md, "Judging a class")."""
    has_rows = words[0] == "grade" and not any(form in words for form in AT_THE_END)
    return out == b"" or has_rows and whole.startswith(out) and out.endswith(b"\n")


def refuse_each(library, folder, words):
    """Refuses each allocation of a command in turn: it ends as with ample memory, or says that memory was refused. The rows
    of `grade` are printed as they are known, so some of them may stand before that."""
    tally = Tally()
    ample = lab(words)
    tally.check(f"{words[0]} with ample memory: {ample}", ample.status in STATUSES)
    variables = refused_allocation(library, folder, 0)
    lab(words, **variables)
    count = int(read(variables["COUNT"]))
    for number in range(1, count + 1):
        ended = lab(words, **refused_allocation(library, folder, number))
        tally.runs += 1
        as_ever = (ended.status, ended.out, ended.err) == (ample.status, ample.out, ample.err)
        told = ended.status == 1 and is_begun(words, ample.out, ended.out) and ended.err == NO_MEMORY
        unread = ended.status == 2 and ended.out == b"" and b"out of memory" in ended.err
        bounded = "explore" in " ".join(words) and ended.status in STATUSES and NOT_ALL.search(ended.out) is not None
        tally.refused += told or unread
        tally.check(f"{' '.join(words)}: allocation {number} refused: {ended}", as_ever or told or unread or bounded)
    return tally


def assembling(tally, library, folder):
    """`asm` under refused memory and full disks: what was there stays, or the new image is whole."""
    image = os.path.join(folder, "made.image")
    words = ["asm", example("lock.asm"), "--out", image]
    lab(words)
    whole = read(image)
    variables = refused_allocation(library, folder, 0)
    lab(words, **variables)
    for number in range(1, int(read(variables["COUNT"])) + 1):
        write(folder, "made.image", b"before")
        ended = lab(words, **refused_allocation(library, folder, number))
        tally.runs += 1
        tally.check(f"asm: allocation {number} refused: {ended}", (ended.status, read(image)) in (
            (0, whole), (1, b"before"), (2, b"before")))
        tally.check("asm leaves no file beside", not [name for name in os.listdir(folder) if name.endswith(".new")])
    write(folder, "made.image", b"before")
    small = subprocess.run(["sh", "-c", 'trap "" XFSZ; ulimit -f 0; exec "$@"', "sh", LAB, *words], capture_output=True,
                           check=False)
    tally.check("asm on a full disk", (small.returncode, read(image)) == (1, b"before"))


def drawing(tally, library, folder):
    """`explore --dot` under refused memory: the graph is whole, or what was there stays, and that is told."""
    graph = os.path.join(folder, "race.dot")
    words = ["explore", os.path.join(GRADED, "racing.asm"), "--dot", graph]
    ample, whole = lab(words), read(graph)
    variables = refused_allocation(library, folder, 0)
    lab(words, **variables)
    for number in range(1, int(read(variables["COUNT"])) + 1):
        write(folder, "race.dot", b"before")
        ended = lab(words, **refused_allocation(library, folder, number))
        tally.runs += 1
        as_ever = (ended.status, ended.out, ended.err, read(graph)) == (ample.status, ample.out, ample.err, whole)
        told = ended.status in (1, 2) and ended.out in (b"", ample.out) and b"memory" in ended.err and read(graph) == b"before"
        bounded = ended.status in STATUSES and NOT_ALL.search(ended.out) is not None
        tally.check(f"explore --dot: allocation {number} refused: {ended}", as_ever or told or bounded)


def serving(tally, library, folder):
    """`dap` and `lsp` under refused memory, that of the thread that reads too: each request is answered, or the session ends
    with status 1 and a word."""
    for command, (asked, answer, answers) in sessions().items():
        variables = refused_allocation(library, folder, 0)
        ample = lab([command], asked, **variables)
        tally.check(f"{command} with ample memory: {ample}", (ample.status, ample.out.count(answer)) == (0, answers))
        for number in range(1, int(read(variables["COUNT"])) + 1):
            ended = lab([command], asked, **refused_allocation(library, folder, number))
            tally.runs += 1
            tally.refused += ended.status == 1
            answered = ended.status == 0 and ended.out.count(answer) == answers
            said = ended.status == 1 and ended.err in (NO_MEMORY, no_thread(command))
            unread = ended.status == 2 and b"memory" in ended.err
            tally.check(f"{command}: allocation {number} refused: {ended}", answered or said or unread)


def outputs(tally):
    """An output that is full is told, and one that nobody reads is not."""
    for words in ([LAB, "view", example("lock.asm"), "--json"], [LAB, "--help"]):
        with open("/dev/full", "wb") as full:
            ended = subprocess.run(words, stdout=full, stderr=subprocess.PIPE, check=False)
            tally.check("a full output", (ended.returncode, ended.stderr) == (1, b"mta_lab: write failed\n"))
        behind, front = os.pipe()
        os.close(behind)
        ended = subprocess.run(words, stdout=front, stderr=subprocess.PIPE, check=False)
        os.close(front)
        tally.check(f"an output that nobody reads: {ended}", (ended.returncode, ended.stderr) == (0, b""))
        tally.runs += 2


def inputs(tally, folder):
    """Standard input that can't be read is said by each command that reads it, and is no end of it: a folder, a file that is
    open to be written alone, and none."""
    lock = example("lock.asm")
    given = write(folder, "given.schedule", b"0 0 2\n")
    exercises = os.path.join(ROOT, "exercises")
    write_only, at_root = os.open("/dev/null", os.O_WRONLY), os.open("/", os.O_RDONLY)
    calls = (["debug", lock], ["debug", lock, given], ["dap"], ["lsp"], ["exercise", "1", "--watch", "--folder", exercises],
             ["check", "-"], ["fmt"], ["view", "-"], ["view", lock, "-"], ["survey", "--expect", "-", lock])
    for what, text, setup in (("a folder", at_root, None), ("an output", write_only, None), ("none", b"", lambda: os.close(0))):
        for words in calls:
            ended = lab(words, text, setup=setup)
            tally.runs += 1
            tally.check(f"{words} of {what} as its input: {ended}",
                        ended.status == 1 and ended.err.endswith(b")\n") and b"mta_lab: -: read failed: " in ended.err)
    os.close(write_only)
    os.close(at_root)


def framed(messages):
    """The bytes of messages of an editor."""
    bodies = [json.dumps(message).encode() for message in messages]
    return b"".join(b"Content-Length: %d\r\n\r\n%s" % (len(body), body) for body in bodies)


def debugged(*commands):
    """The bytes of these requests to `dap`, a launch of lock.asm among them."""
    given = {"program": example("lock.asm"), "stopOnEntry": True}
    return framed({"seq": seq, "type": "request", "command": command, "arguments": given}
                  for seq, command in enumerate(commands, start=1))


def written(faulty, right):
    """The bytes of a session of `lsp`: these requests about a text with two slips, and then those about it without them."""
    text = {"uri": "file:///slips.mta"}
    places = {"position": {"line": 3, "character": 0}, "newName": "begin",
              "range": {"start": {"line": 0, "character": 0}, "end": {"line": 9, "character": 0}}}
    mended = SLIPS.replace("limit, 0", "r0, 1").replace("QUITE", "QUIT")

    def asked(methods):
        return [{"id": method, "method": f"textDocument/{method}", "params": {"textDocument": text, **places}}
                for method in methods]

    opened = {"textDocument": {**text, "languageId": "mta", "version": 0, "text": SLIPS}}
    changed = {"textDocument": {**text, "version": 1}, "contentChanges": [{"text": mended}]}
    return framed({"jsonrpc": "2.0", **message} for message in [
        {"id": 1, "method": "initialize", "params": {"capabilities": {}}},
        {"method": "textDocument/didOpen", "params": opened}, *asked(faulty),
        {"method": "textDocument/didChange", "params": changed}, *asked(right),
        {"id": 2, "method": "shutdown"}, {"method": "exit"}])


def sessions():
    """A session of each command that takes a second thread, with more messages than may wait: its bytes, what an answer has
    that nothing else has, and how many answers there are."""
    faulty = ["codeAction", "hover", "completion", "documentSymbol"]
    right = ["definition", "references", "rename", "formatting"]
    return {"dap": (debugged("initialize", "launch", "configurationDone", *["threads"] * 5, "disconnect"),
                    b'"type":"response"', 9),
            "lsp": (written(faulty, right), b'"jsonrpc":"2.0","id":', 10)}


def no_thread(command):
    """What a command says that can't start its second thread."""
    return b"mta_lab: %s takes a second thread, and the system starts none\n" % command.encode()


def without_threads(tally, library, folder):
    """Where the system starts no thread `dap` and `lsp` say so, and all else answers as ever."""
    refused = refused_threads(library, folder, ",".join(map(str, range(1, 1000))))
    # the first is to see whether there is one, and the second is to read
    for variables in (refused, refused_threads(library, folder, "2")):
        for command, (asked, _, _) in sessions().items():
            ended = lab([command], asked, **variables)
            tally.check(f"{command} without threads {variables['REFUSE_THREADS'][:20]}: {ended}",
                        (ended.status, ended.out, ended.err) == (1, b"", no_thread(command)))
            tally.runs += 1
    for words in commands(folder):
        ample, ended = lab(words), lab(words, **refused)
        tally.check(f"{words} without a thread: {ended}",
                    (ended.status, ended.out, ended.err) == (ample.status, ample.out, ample.err))
        tally.runs += 2


def small_stacks(tally, folder):
    """With a stack of 64 KB each command answers as ever, or ends with words; none is ended by a signal."""
    small = lambda: resource.setrlimit(resource.RLIMIT_STACK, (SMALL_STACK, SMALL_STACK))
    lock = example("lock.asm")
    talks = [(["debug", lock], b"step 3\nwhy\nlist\nback\ntry 0.0\n"),
             (["dap"], debugged("launch", "threads", "disconnect")),
             (["lsp"], written(["codeAction", "hover"], ["rename", "formatting"])),
             (["page", lock, "--out", os.path.join(folder, "lock.html")], b""), (["--help"], b""),
             (["picture", lock, "--out", os.path.join(folder, "lock.svg")], b""),
             (["asm", lock, "--out", os.path.join(folder, "lock.image")], b"")]
    for words, text in [*talks, *((words, b"") for words in commands(folder))]:
        ample, ended = lab(words, text), lab(words, text, setup=small)
        tally.runs += 2
        as_ever = (ended.status, DIAGNOSTICS.sub(b"", ended.out)) == (ample.status, DIAGNOSTICS.sub(b"", ample.out))
        tally.check(f"{words} with a small stack: {ended}", as_ever or ended.status == 1 and ended.err != b"")


def long_lines(tally):
    """A line of `debug` that is too long is refused alone, however long it is, in memory that does not grow with it."""
    lock = example("lock.asm")
    for length in (70_000, 1_000_000, 8_000_000):
        ended = lab(["debug", lock], b"try 2.0\n" + b"y" * length + b"\nback 0\n")
        tally.runs += 1
        told = [line for line in ended.out.split(b"\n") if b"not taken" in line or line.startswith(b"after 1 of 1 ")]
        tally.check(f"a line of {length} bytes: {ended}", ended.status == 0 and len(told) == 3)
        tally.check(f"a line of {length} bytes takes {ended.peak} bytes", ended.peak < 100_000_000)


def damaged(tally, folder):
    """Damaged images and texts: told in words, on each command that takes a program."""
    image = os.path.join(folder, "whole.image")
    lab(["asm", example("lock.asm"), "--out", image])
    whole, source = read(image), read(example("lock.asm"))
    choose = random.Random(1)
    for number in range(DAMAGED + TEXTS):
        data = bytearray(whole if number < DAMAGED else source)
        for _ in range(choose.randint(1, 3)):
            data[choose.randrange(len(data))] = choose.randrange(256)
        path = write(folder, "damaged.asm", bytes(data[: choose.choice([len(data), choose.randrange(len(data))])]))
        for words in (["check", path], ["view", path, "--steps", "50"], ["survey", path, "--seeds", "2", "--steps", "50"],
                      ["explore", path, "--states", "20"]):
            ended = lab(words)
            tally.runs += 1
            tally.refused += ended.status == 1
            tally.check(f"{words[0]} of damaged input {number}: {ended}", ended.status in STATUSES)
            says = re.match(rb"[^\n]*:\d+:\d+: (error|warning): |mta_lab: ", ended.err) is not None
            tally.check(f"{words[0]} of damaged input {number} says why", ended.status != 1 or says)


def large(tally, folder):
    """Inputs at the limit and above it, of one line or many, and of bytes above 7F."""
    for name, data in (
        ("line", b"a" * LARGEST), ("lines", b"\n" * LARGEST), ("above", b"\xC3" * 1_000_000), ("more", b"\n" * (LARGEST + 1)),
        ("words", b" .entry 0\n" + b" NOP\n" * 65_536 + b" .data 0\n"), ("comment", b"; \xFF\x00\x1B[31m\n" * 1000),
    ):
        path = write(folder, name + ".asm", data)
        ended = lab(["check", path])
        tally.runs += 1
        tally.check(f"{name}: {ended}", ended.status in (0, 1))
        tally.check(f"{name} takes {ended.seconds} s", ended.seconds < 30)


def part(pool, folder):
    """All of it."""
    tally, library = Tally(), interposer(folder)
    for one in pool.map(partial(refuse_each, library, folder), commands(folder)):
        tally.add(one)
    assembling(tally, library, folder)
    drawing(tally, library, folder)
    serving(tally, library, folder)
    outputs(tally)
    inputs(tally, folder)
    without_threads(tally, library, folder)
    small_stacks(tally, folder)
    long_lines(tally)
    damaged(tally, folder)
    large(tally, folder)
    return tally
