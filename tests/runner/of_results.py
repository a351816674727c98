"""Kept results of grade: calls that were stopped and go on, parts, and tables of parts. What is wanted is the table of one
call that keeps nothing, over the list that sorted() gives. And what a call shows on its way, and that it judges once."""

import hashlib
import json
import os
import random
import re
import resource
import signal
import subprocess
import tempfile
import time

import checks
import tool
from of_bounds import WIPED, with_terminal
from of_grades import RACING, RIGHT, WRONG, lab, made

# a turn that nobody ends: each run of a seed goes to its last step
ENDLESS = b" .entry on\n .data 0\non: SKIP ALWAYS, 0, on\n"
# right, after 100,002 steps
LONG = b""" .entry go
 .data 1
go: LIT r1, 50000
on: SUB.T r1, r1, 1
 SKIP NE, 0, on
 QUIT
"""
HEAD = b"submission\tverdict\twhy\n"
# the line that shows on a terminal how far a class of five is
REACHED = re.compile(rb"\r(\d+) of 5 judged, (\d+) not decided, jobs (\d+), (\d+) s\x1b\[K")


def class_in(folder, count):
    """Makes a class of so many submissions, of which some are endless and some have the same text; their names, unsorted."""
    made(folder, "w.expect", b"word 0 1\n")
    names = []
    for number in range(count):
        kind = (RIGHT, WRONG, RACING, b"QUITE\n", ENDLESS, RIGHT)[number % 6]
        comment = b"" if number % 5 == 0 else b"; %d\n" % number
        names.append(f"s{number * 7 % count:03}.asm")
        made(folder, names[-1], comment + kind)
    return names


def lines_of(folder, name):
    """The lines of a file of results, with their ends."""
    return tool.read(os.path.join(folder, name)).splitlines(keepends=True)


def whole(line):
    """Whether a line ends with the SHA-256 of itself without that."""
    found = re.fullmatch(rb'(\{.*),"sum":"([0-9a-f]{64})"\}\n', line)
    return found is not None and hashlib.sha256(found[1] + b"}").hexdigest().encode() == found[2]


def stopped(folder, words, after):
    """Calls the lab, and stops it by Ctrl-C after so many seconds; whether it was still on."""
    with subprocess.Popen([tool.LAB, *words], cwd=folder, stdout=subprocess.DEVNULL, stderr=subprocess.DEVNULL,
                          preexec_fn=lambda: signal.signal(signal.SIGINT, signal.SIG_DFL)) as process:
        time.sleep(after)
        process.send_signal(signal.SIGINT)
        return process.wait() < 0


@checks.others("grade/stopped")
def stopped_and_resumed():
    """A call that is stopped by Ctrl-C at random moments, and goes on: the table of one call."""
    with tempfile.TemporaryDirectory(prefix="mta-case-") as folder:
        names = class_in(folder, 120)
        call = ["grade", "--expect", "w.expect", "--seeds", "40", "--steps", "100000", "--jobs", "3"]
        start = time.monotonic()
        wanted = lab(*call, *sorted(names), folder=folder)
        seconds = time.monotonic() - start
        draw = random.Random(75)
        # (a call goes on where the one before it was stopped: ten times a tenth of the time on average come to all of it)
        stops = [stopped(folder, [*call, "--results", "r.jsonl", *names], draw.random() * seconds * 0.2) for _ in range(10)]
        yield "several were stopped", True, sum(stops) >= 3 or stops
        before = len(lines_of(folder, "r.jsonl")) if os.path.exists(os.path.join(folder, "r.jsonl")) else 0
        ended = lab(*call, "--results", "r.jsonl", *names, folder=folder)
        yield "the table", (wanted.status, wanted.out), (ended.status, ended.out)
        lines = lines_of(folder, "r.jsonl")
        yield "nothing is lost", True, len(lines) >= before
        yield "each line is whole", [], [line for line in lines if not whole(line)]
        kept = [json.loads(line) for line in lines[1:]]
        yield "a line each", sorted(names), sorted(one["submission"] for one in kept)
        texts = [hashlib.sha256(tool.read(os.path.join(folder, one["submission"]))).hexdigest() for one in kept]
        yield "checksums of the texts", texts, [one["text"] for one in kept]
        again = lab(*call, "--results", "r.jsonl", *names, folder=folder)
        yield "once more", (wanted.out, lines), (again.out, lines_of(folder, "r.jsonl"))
        merged = lab("grade", "--merge", "r.jsonl", folder=folder)
        yield "merged", (wanted.status, wanted.out, b""), (merged.status, merged.out, merged.err)


@checks.others("grade/damaged")
def damaged():
    """A line that is not whole is passed over, and its submission is judged again. What is no file of results stays."""
    with tempfile.TemporaryDirectory(prefix="mta-case-") as folder:
        names = class_in(folder, 12)
        call = ["grade", "--expect", "w.expect", "--seeds", "4", "--results", "r.jsonl"]
        wanted = lab(*call, *names, folder=folder)
        lines = lines_of(folder, "r.jsonl")
        for what, text, number in (
                ("half a line at the end", b"".join(lines)[:-20], 13),
                ("another verdict", b"".join(lines[:5]) + lines[5].replace(b'"words":"', b'"words":"x') + b"".join(lines[6:]), 6),
                ("no text", b"".join(lines[:3]) + b"\xff\n" + b"".join(lines[3:]), 4)):
            made(folder, "r.jsonl", text)
            ended = lab(*call, *names, folder=folder)
            yield what, (wanted.status, wanted.out), (ended.status, ended.out)
            warning = f"mta_lab: warning: r.jsonl:{number}: not a whole result, so it is passed over\n".encode()
            yield f"{what}: said", warning, ended.err
            merged = lab("grade", "--merge", "r.jsonl", folder=folder)
            yield f"{what}: merged", (wanted.status, wanted.out, warning), (merged.status, merged.out, merged.err)
        for text in (RIGHT, lines[1], b"{}\n", lines[0][:-9]):
            made(folder, "r.jsonl", text)
            ended = lab(*call, *names, folder=folder)
            fault = b"mta_lab: r.jsonl: not a file of results of grade, so it is left as it is\n"
            yield f"no results {text[:9]}", (1, b"", fault, text), (
                ended.status, ended.out, ended.err, tool.read(os.path.join(folder, "r.jsonl")))
        ended = lab("grade", "--expect", "w.expect", "--results", names[0], *names, folder=folder)
        yield "a submission", (1, b""), (ended.status, ended.out)


@checks.others("grade/taken")
def taken():
    """A result is taken if text, cases, options and version are the same, and else judged anew."""
    with tempfile.TemporaryDirectory(prefix="mta-case-") as folder:
        made(folder, "w.expect", b"word 0 1\n")
        for name, text in (("a.asm", RIGHT), ("b.asm", WRONG), ("c.asm", RIGHT)):
            made(folder, name, text)
        names = ("a.asm", "b.asm", "c.asm")

        def kept(*words):
            """How many lines a call adds, and its table."""
            path = os.path.join(folder, "r.jsonl")
            before = len(lines_of(folder, "r.jsonl")) if os.path.exists(path) else 0
            ended = lab("grade", *words, "--results", "r.jsonl", *names, folder=folder)
            plain = lab("grade", *words, *names, folder=folder)
            return len(lines_of(folder, "r.jsonl")) - before, (ended.status, ended.out) == (plain.status, plain.out)

        by = ("--expect", "w.expect", "--seeds", "4")
        yield "at first", (4, True), kept(*by)
        yield "the same", (0, True), kept(*by)
        made(folder, "b.asm", RIGHT)
        yield "another text, which another submission has", (1, True), kept(*by)
        made(folder, "b.asm", WRONG)
        yield "the first text again", (1, True), kept(*by)
        yield "other seeds", (4, True), kept("--expect", "w.expect", "--seeds", "5")
        made(folder, "w.expect", b"word 0 2\n")
        yield "another expectation", (4, True), kept(*by)
        made(folder, "w.expect", b"word 0 1\n")
        yield "the first one again", (1, True), kept(*by)
        made(folder, "g.data", b" .data 5\n")
        yield "cells", (4, True), kept(*by, "--given", "g.data")


@checks.others("grade/parts")
def parts():
    """Parts of a class are merged to the table of one call, byte for byte; what no part has is named."""
    with tempfile.TemporaryDirectory(prefix="mta-case-") as folder:
        names = class_in(folder, 31)
        call = ["grade", "--expect", "w.expect", "--seeds", "8"]
        several = ("text", "tsv", "json", "junit", "gradescope", "moodle")
        wanted = {form: lab(*call, "--format", form, *sorted(names), folder=folder) for form in several}
        files = [f"p{number}.jsonl" for number in range(1, 5)]
        for number, file in enumerate(files, 1):
            ended = lab(*call, "--results", file, "--part", f"{number}/4", *reversed(names), folder=folder)
            mine = sorted(names)[number - 1::4]
            rows = [line.split("\t")[0] for line in ended.out.decode().splitlines()[1:]]
            yield f"part {number}", mine, rows
        for form in several:
            merged = lab("grade", "--merge", "--format", form, *reversed(files), folder=folder)
            yield f"merged {form}", (wanted[form].status, wanted[form].out, b""), (merged.status, merged.out, merged.err)
        merged = lab("grade", "--merge", *files[:2], *files[3:], folder=folder)
        missing = sorted(names)[2::4]
        rows = wanted["text"].out.splitlines(keepends=True)
        yield "a part is missing", (
            1, b"".join(row for row in rows if row.split(b"\t")[0].decode() not in missing),
            "".join(f"mta_lab: {name}: no file of results has it\n" for name in missing).encode()), (
                merged.status, merged.out, merged.err)
        made(folder, sorted(names)[0], WRONG + b"; another one\n")
        lab(*call, "--results", "p5.jsonl", "--part", "1/4", *names, folder=folder)
        merged = lab("grade", "--merge", *files, "p5.jsonl", folder=folder)
        yield "two texts", (1, b"", (
            f"mta_lab: p1.jsonl and p5.jsonl: different results for {sorted(names)[0]}, so they make no table\n").encode()), (
                merged.status, merged.out, merged.err)
        lab(*call, "--all", "--results", "p6.jsonl", "--part", "1/4", *names, folder=folder)
        merged = lab("grade", "--merge", "p2.jsonl", "p6.jsonl", folder=folder)
        yield "other options", (1, b"", (
            b"mta_lab: p2.jsonl and p6.jsonl: judged by different options, or by different versions of mta_lab, "
            b"so they make no table\n")), (merged.status, merged.out, merged.err)
        for part in ("0/4", "5/4", "1", "1/", "x/4", "1/1000001"):
            ended = lab(*call, "--part", part, *names, folder=folder)
            yield f"part {part}", (1, b""), (ended.status, ended.out)


@checks.others("grade/as_decided")
def as_decided():
    """A row is written as soon as it and those before it are known, and a closed output ends the call quietly."""
    with tempfile.TemporaryDirectory(prefix="mta-case-") as folder:
        made(folder, "w.expect", b"word 0 1\n")
        for name, text in (("a.asm", RIGHT), ("b.asm", LONG), ("c.asm", RIGHT)):
            made(folder, name, text)
        for jobs in ("1", "2"):
            call = [tool.LAB, "grade", "--expect", "w.expect", "--seeds", "100", "--steps", "1000000", "--jobs", jobs, "a.asm",
                    "b.asm", "c.asm"]
            with subprocess.Popen(call, cwd=folder, stdout=subprocess.PIPE, stderr=subprocess.PIPE) as process:
                yield f"{jobs}: the first rows", [HEAD, b"a.asm\tright\t100 seeds\n"], [
                    process.stdout.readline() for _ in range(2)]
                yield f"{jobs}: the next one is not decided yet", None, process.poll()
                process.stdout.close()
                yield f"{jobs}: a closed output", (b"", 0), (process.stderr.read(), process.wait())


@checks.others("grade/as_dealt")
def as_dealt():
    """Each job takes the next submission when it is free: one that takes long keeps no other one waiting."""
    with tempfile.TemporaryDirectory(prefix="mta-case-") as folder:
        made(folder, "w.expect", b"word 0 1\n")
        names = [f"s{number}.asm" for number in range(9)]
        for number, name in enumerate(names):
            made(folder, name, b"; %d\n" % number + (RIGHT if number else LONG))
        ended = lab("grade", "--expect", "w.expect", "--seeds", "100", "--steps", "1000000", "--jobs", "2", "--results",
                    "r.jsonl", *names, folder=folder)
        yield "rows", (0, [name.encode() + b"\tright\t100 seeds" for name in names]), (
            ended.status, ended.out.splitlines()[1:])
        kept = [json.loads(line)["submission"] for line in lines_of(folder, "r.jsonl")[1:]]
        yield "as they were decided", ([names[0]], sorted(names)), (kept[-1:], sorted(kept))


def seconds_of(folder, seeds):
    """How long a submission takes by so many seeds."""
    begin = time.monotonic()
    lab("grade", "--expect", "long.expect", "--seeds", str(seeds), "--steps", "1000000", "long.asm", folder=folder)
    return time.monotonic() - begin


def seeds_of_a_second(folder):
    """By how many seeds a submission takes more than a second here: a power of two. It is asked twice, since other work may
    keep a call waiting."""
    made(folder, "long.asm", LONG)
    made(folder, "long.expect", b"word 0 1\n")
    for seeds in (2 ** power for power in range(16)):
        if all(seconds_of(folder, seeds) > 1 for _ in range(2)):
            break
    return str(seeds)


@checks.others("grade/progress")
def progress():
    """On a terminal a line shows how many have their rows, how many of these are not decided, the jobs and the seconds, with
    one job and with several; it is wiped. Elsewhere there is none."""
    with tempfile.TemporaryDirectory(prefix="mta-case-") as folder:
        made(folder, "w.expect", b"word 0 1\nsome word 8 is 1\n")
        names = [os.path.join(folder, f"s{number}.asm") for number in range(5)]
        # (the first one has no state that `some` asks for, so it is not decided)
        for number, text in enumerate((RIGHT, LONG, LONG, LONG, RIGHT)):
            second = b" .data 1\n .data %d ; of %d\n" % (min(number, 1), number)
            made(folder, names[number], text.replace(b" .data 1\n", second))
        call = ["grade", "--expect", os.path.join(folder, "w.expect"), "--seeds", seeds_of_a_second(folder), "--steps", "1000000",
                "--jobs"]
        elsewhere = lab(*call, "2", *names, folder=folder)
        verdicts = [line.split(b"\t")[1] for line in elsewhere.out.splitlines()[1:]]
        yield "verdicts", [b"not decided", *[b"right"] * 4], verdicts
        yield "no terminal", b"", elsewhere.err
        for jobs in (1, 2):
            status, out, written = with_terminal(*call, str(jobs), *names)
            yield f"{jobs}: the table", (elsewhere.status, elsewhere.out), (status, out)
            lines = [tuple(map(int, line)) for line in REACHED.findall(written)]
            yield f"{jobs}: there are some", True, bool(lines)
            done, seconds = [line[0] for line in lines], [line[3] for line in lines]
            yield f"{jobs}: done and seconds rise", (sorted(done), sorted(set(seconds))), (done, seconds)
            yield f"{jobs}: not decided, and jobs", {(True, jobs)}, {(line[1] == min(line[0], 1), line[2]) for line in lines}
            yield f"{jobs}: nothing else", b"", REACHED.sub(b"", written).replace(WIPED, b"")
            yield f"{jobs}: it is wiped", True, written.endswith(WIPED)
        twice = ["--seeds", str(2 * int(call[call.index("--seeds") + 1]))]
        seeds = call.index("--seeds")
        status, _, written = with_terminal(*call[:seeds], *twice, *call[seeds + 2:], "1", names[1])
        yield "while the only one is judged", (0, True), (
            status, written.startswith(b"\r0 of 1 judged, 0 not decided, jobs 1, 1 s\x1b[K"))


def processor_seconds(folder, words):
    """What a call of the lab prints, and how many seconds of a processor it takes."""
    with subprocess.Popen([tool.LAB, *words], cwd=folder, stdout=subprocess.PIPE, stderr=subprocess.DEVNULL) as process:
        out = process.stdout.read()
        _, status, usage = os.wait4(process.pid, 0)
        process.returncode = os.waitstatus_to_exitcode(status)
    return out, usage.ru_utime + usage.ru_stime


@checks.others("grade/same_texts")
def same_texts():
    """Submissions of the same bytes are judged once: twenty of them take about as much of a processor as one."""
    with tempfile.TemporaryDirectory(prefix="mta-case-") as folder:
        made(folder, "w.expect", b"word 0 1\n")
        names = [f"s{number:02}.asm" for number in range(20)]
        for name in names:
            made(folder, name, LONG)
        call = ["grade", "--expect", "w.expect", "--seeds", "6", "--steps", "1000000", "--jobs"]
        _, once = processor_seconds(folder, [*call, "1", names[0]])
        for jobs in ("1", "3"):
            out, spent = processor_seconds(folder, [*call, jobs, *names])
            yield f"{jobs}: rows", [name.encode() + b"\tright\t6 seeds" for name in names], out.splitlines()[1:]
            yield f"{jobs}: once", True, spent < 4 * once or (spent, once)


def filled(limit):
    """In a new process: a file takes so many bytes, and a write past them is refused, as on a full disk."""
    signal.signal(signal.SIGXFSZ, signal.SIG_IGN)
    resource.setrlimit(resource.RLIMIT_FSIZE, (limit, limit))


@checks.others("grade/full_disk")
def full_disk():
    """A disk that refuses a result ends the call with status 1 and says so; the same line again goes on where it stopped."""
    with tempfile.TemporaryDirectory(prefix="mta-case-") as folder:
        names = class_in(folder, 24)
        call = ["grade", "--expect", "w.expect", "--seeds", "4", "--jobs", "1"]
        wanted = lab(*call, *sorted(names), folder=folder)
        lab(*call, "--results", "whole.jsonl", *names, folder=folder)
        size = os.path.getsize(os.path.join(folder, "whole.jsonl"))
        counts = [0]
        for limit in (size // 3, size // 3 * 2):
            ended = subprocess.run([tool.LAB, *call, "--results", "r.jsonl", *names], cwd=folder, capture_output=True,
                                   preexec_fn=lambda: filled(limit), timeout=tool.PATIENCE, check=False)
            said = ended.stderr.splitlines()[-1:]
            yield f"{limit}: it is said", (1, True), (ended.returncode, bool(said) and said[0].startswith(b"mta_lab: r.jsonl: "))
            yield f"{limit}: rows of before", True, wanted.out.startswith(ended.stdout) and len(ended.stdout) > len(HEAD)
            counts.append(sum(whole(line) for line in lines_of(folder, "r.jsonl")))
        yield "more and more is kept", sorted({*counts, 25}), [*counts, 25]
        ended = lab(*call, "--results", "r.jsonl", *names, folder=folder)
        yield "it goes on", (wanted.status, wanted.out), (ended.status, ended.out)
        merged = lab("grade", "--merge", "r.jsonl", folder=folder)
        yield "merged", (wanted.status, wanted.out), (merged.status, merged.out)


@checks.others("grade/texts_again")
def texts_again():
    """Results that are taken from a file have the texts and pages for students of a call that judges; none of these has a word
    of another submission."""
    own = {"ann": b"70001", "bob": b"80002"}
    with tempfile.TemporaryDirectory(prefix="mta-case-") as folder:
        made(folder, "w.expect", b"word 0 1\n")
        for name, number in own.items():
            made(folder, f"{name}.asm", b" .entry go\n .data 2 ; of %s\ngo: LIT r1, %s\n STORE.N r1, r0, 0\n QUIT\n" % (
                name.encode(), number))
        call = ("grade", "--expect", "w.expect", "--seeds", "2", "--results", "r.jsonl", "ann.asm", "bob.asm")
        for to in ("first", "second"):
            lab(*call, "--feedback", to, folder=folder)
        yield "nothing is judged again", 3, len(lines_of(folder, "r.jsonl"))
        for name, number in own.items():
            others = [word for other in own if other != name for word in (other.encode(), own[other])]
            for end in ("txt", "html"):
                once, again = (tool.read(os.path.join(folder, to, f"{name}.{end}")) for to in ("first", "second"))
                yield f"{name}.{end}", once, again
                yield f"{name}.{end}: its own", True, number in once
                yield f"{name}.{end}: of the other one", [], [word for word in others if word in once]
