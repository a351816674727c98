"""Bytes above 7F and other hostile ones in source texts, stars in schedules, seeds compared, parts of pictures."""

import os
import re
import tempfile
import unicodedata
import xml.etree.ElementTree as ElementTree

import checks
import tool
from of_lab import EXAMPLES, lab

BEGIN, LINE, END = b".entry go\n.data 0\n", b"go: LIT r1, 7 ; seven", b"\nSTORE.N r1, r0, 0\nQUIT\n"
# bytes that begin a character of UTF-8 or go on with one, and some that never stand in it
FOREIGN = [0x80, 0x9B, 0xBF, 0xC0, 0xC3, 0xE2, 0xED, 0xF4, 0xFF]
# what stands in a comment, and how it is shown: as it is, or a question mark for each byte
COMMENTS = {
    "umlaut": ("ä".encode(), True), "kanji": ("終わり".encode(), True), "far": ("\U0001F600".encode(), True),
    "overlong": (b"\xC0\x80", False), "cut": (b"\xE2\x82", False), "surrogate": (b"\xED\xA0\x80", False),
    "too far": (b"\xF4\x90\x80\x80", False), "control": (b"\xC2\x9B2K", False), "override": ("\u202E".encode(), False),
    "isolate": ("\u2066".encode(), False), "no character": ("\uFFFE".encode(), False), "alone": (b"\xBF", False),
}


def assembled(text):
    """The image that mta_lab makes of a text; None where it makes none."""
    with tempfile.TemporaryDirectory(prefix="mta-case-") as folder:
        tool.write(os.path.join(folder, "a.asm"), text)
        ended = lab("asm", "a.asm", folder=folder)
        return tool.read(os.path.join(folder, "a.image")) if ended.status == 0 else ended.err[:6]


@checks.others("lab/foreign_bytes")
def foreign_bytes():
    """In each place of a line: in a comment they leave the image as it is, elsewhere they are an error."""
    image = tool.asm(BEGIN + LINE.partition(b";")[0] + END)
    for place in range(len(LINE) + 1):
        for byte in (FOREIGN if place <= LINE.index(b";") else range(0x80, 0x100)):
            text = BEGIN + LINE[:place] + bytes([byte]) + LINE[place:] + END
            wanted = image if place > LINE.index(b";") else b"a.asm:"
            yield f"{byte:02X} at {place}", lambda text=text, wanted=wanted: (wanted, assembled(text))
    yield "NUL in a comment", image, assembled(BEGIN + LINE + b"\0\xC3\xA4" + END)
    yield "NUL in a statement", b"a.asm:", assembled(BEGIN + b"go: LIT\0 r1, 7 ; \xC3\xA4" + END)
    yield "mark", image, assembled(b"\xEF\xBB\xBF" + BEGIN + LINE + END)
    yield "two marks", b"a.asm:", assembled(b"\xEF\xBB\xBF" * 2 + BEGIN + LINE + END)
    yield "mark in the middle", b"a.asm:", assembled(BEGIN + b"\xEF\xBB\xBF" + LINE + END)
    yield "cut mark", b"a.asm:", assembled(b"\xEF\xBB" + BEGIN + LINE + END)


@checks.others("lab/foreign_comments")
def foreign_comments():
    """They are shown where they can be, and never so that they change what stands beside them."""
    for name, (comment, is_shown) in COMMENTS.items():
        text = b".entry go\n.data 0 ; a " + comment + b" b\ngo: LIT r1, 7\nSTORE.N r1, r0, 0\nQUIT\n"
        shown = comment if is_shown else re.sub(rb"[\x80-\xFF]", b"?", comment)
        with tempfile.TemporaryDirectory(prefix="mta-case-") as folder:
            tool.write(os.path.join(folder, "a.asm"), text)
            for words in (["view"], ["view", "--json"], ["survey", "--seeds", "2"], ["explore"], ["debug"], ["page", "--out", "a"],
                          ["picture", "--out", "a"]):
                ended = lab(words[0], "a.asm", *words[1:], given=b"step 2\nlist\n", folder=folder)
                out = tool.read(os.path.join(folder, "a")) if "--out" in words else ended.out
                hidden = [c for c in out.decode() if c > "\x7f" and unicodedata.category(c) in ("Cc", "Cn", "Cs")]
                yield f"{name}: {words}", (0, True, []), (ended.status, b"a " + shown + b" b" in out, hidden)
            yield f"{name}: check", 0, lab("check", "a.asm", folder=folder).status


@checks.others("lab/stars")
def stars():
    """Stars are the steps that numbers in their place are, and their bound holds."""
    lock = os.path.join(EXAMPLES, "lock.asm")
    with tempfile.TemporaryDirectory(prefix="mta-case-") as folder:
        for name, starred, counted in (
            ("one by one", "0 0 *\n1 0 *\n2 0 *\n3 0 *\n", "0 0 6\n1 0 6\n2 0 4\n3 0 4\n"),
            ("blocked", "0 0 2\n1 0 *\n0 0 *\n1 0 *\n", "0 0 2\n1 0 1\n0 0 4\n1 0 6\n"),
            ("not there", "7 0 *\n0 9 *\n255 255 *\n0 0 *\n", "0 0 6\n"),
        ):
            tool.write(os.path.join(folder, "starred.schedule"), starred.encode())
            tool.write(os.path.join(folder, "counted.schedule"), counted.encode())
            for words in (["view", lock], ["view", lock, "--json"], ["debug", lock]):
                one, other = (lab(*words[:2], f"{it}.schedule", *words[2:], given=b"step 3\n", folder=folder)
                              for it in ("starred", "counted"))
                yield (f"{name}: {words[0]}", (other.status, other.out),
                       (one.status, one.out.replace(b"starred.schedule", b"counted.schedule")))
        tool.write(os.path.join(folder, "loop.asm"), b".entry 0\nmore: SKIP ALWAYS, 0, more\n.data 0\n")
        for count, wanted in ((100, 5), (101, 1), (1_000_000, 1)):
            tool.write(os.path.join(folder, "loop.schedule"), b"0 0 *\n" * count)
            ended = lab("view", "loop.asm", "loop.schedule", "--from", "1000000", folder=folder)
            yield f"{count} stars", (wanted, True), (ended.status, count == 100 or b":101:1: error: with this" in ended.err)


@checks.others("lab/compared_seeds")
def compared_seeds():
    """Seeds are compared as the schedules are that they make."""
    lock = os.path.join(EXAMPLES, "lock.asm")
    with tempfile.TemporaryDirectory(prefix="mta-case-") as folder:
        for one, other in ((0, 1), (2, 3), (5, 5), (7, 2**64 - 1)):
            for seed in (one, other):
                made = lab("schedule", "random", lock, "--seed", str(seed))
                tool.write(os.path.join(folder, f"{seed}.schedule"), made.out)
            by_files = lab("compare", lock, f"{one}.schedule", f"{other}.schedule", folder=folder)
            by_seeds = lab("compare", lock, "--seeds", str(one), str(other))
            yield f"{one} {other}", (by_files.status, by_files.out), (by_seeds.status, by_seeds.out)


@checks.others("lab/parts_of_pictures")
def parts_of_pictures():
    """A part has the numbers of its steps and a mark for each, and nothing of others."""
    lock, lost = (os.path.join(EXAMPLES, name) for name in ("lock.asm", "lock.lost_update.schedule"))
    steps = len([line for line in lab("view", lock, lost).out.decode().splitlines() if re.match(r" *\d+  \d", line)])
    for first, last in ((1, steps), (1, 4), (5, 9), (steps, steps), (3, steps + 7)):
        with tempfile.TemporaryDirectory(prefix="mta-case-") as folder:
            path = os.path.join(folder, "a.svg")
            ended = lab("picture", lock, lost, "--from", str(first), "--to", str(last), "--out", path)
            texts = [(it.get("class"), it.text) for it in ElementTree.parse(path).iter("{http://www.w3.org/2000/svg}text")]
        numbers = [text for kind, text in texts if kind == "number"]
        yield f"{first} to {last}", (0, [str(it) for it in range(first, min(last, steps) + 1)]), (ended.status, numbers)


@checks.others("lab/skipped_steps")
def skipped_steps():
    """Steps of streams that do not run take nothing from what is found in a run."""
    source, torn = (os.path.join(EXAMPLES, f"readers_writer.{it}") for it in ("asm", "torn_read.schedule"))
    with tempfile.TemporaryDirectory(prefix="mta-case-") as folder:
        path = os.path.join(folder, "later.schedule")
        tool.write(path, b"15 15 25000\n" + tool.read(torn))
        found, later = ([line for line in lab("view", source, it).out.decode().splitlines() if " read" in line and " step " in line]
                        for it in (torn, path))
    shifted = [re.sub(r"step (\d+)", lambda step: f"step {int(step[1]) + 25000}", line) for line in found]
    yield "a torn read", (True, shifted), (any(line.startswith("torn read") for line in found), later)
