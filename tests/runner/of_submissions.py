"""Names of files that are no UTF-8 or too long, texts that are longer than a line shows, characters that are not seen,
links that lead out of a folder, and pages of earlier calls."""

import csv
import io
import json
import os
import re
import tempfile
import xml.etree.ElementTree

import checks
import tool
from of_grades import RIGHT, WRONG, made
from of_lab import lab

# the bytes of a name that is Latin-1, and what stands for it in texts
LATIN, SHOWN = os.fsdecode(b"M\xFCller.asm"), "M\\xFCller.asm"
SCHEDULE, SHOWN_SCHEDULE = os.fsdecode(b"M\xFC.schedule"), "M\\xFC.schedule"
# why a file of such a name is not read
NOT_READ = "its name is not UTF-8: rename it to have it read"
HEAD = "submission\tverdict\twhy\n"
# the characters that are not seen, but change how what stands near them is
HIDDEN = [*map(chr, range(0x80, 0xA0)), "\u2028", "\u2029", *map(chr, range(0x202A, 0x202F)), *map(chr, range(0x2066, 0x206A))]
# a word that changes once; its comment follows
CHANGED = b" .entry go\n .data 0 ; %s\ngo: LIT r1, 1\n STORE.N r1, r0, 0\n QUIT\n"
CHANGED_TWO = b" .entry go\n .data 0 ; %s\n .data 0 ; %s\ngo: LIT r1, 1\n STORE.N r1, r0, 0\n STORE.N r1, r0, 1\n QUIT\n"
# 300 words that change, each with a name of its own, and the first of them as a line lists them: the 200th character is in
# the seventh
MANY = " .entry go\n" + "".join(f"w{n:03}_of_a_long_name: .data 0\n" for n in range(300)) + """go: LIT r1, 1
 LIT r3, 300
more: STORE.N r1, r2, 0
 ADD r2, r2, 8
 SUB.T r3, r3, 1
 SKIP NE, 0, more
 QUIT
"""
LISTED = ", ".join(f"[{8 * n}] w{n:03}_of_a_long_name 0 -> 1" for n in range(7)) + ", .."
LOOP = b" .entry go\n .data 0 ; %s\ngo: FADD.N r1, r0, 0\n SKIP ALWAYS, 0, go\n"
# how many characters of quoted texts a line shows
MOST = 200


@checks.others("grade/foreign_names")
def foreign_names():
    """A submission whose name is not UTF-8 has a row in each format, which says why it is not read."""
    with tempfile.TemporaryDirectory(prefix="mta-case-") as folder:
        made(folder, "w.expect", b"word 0 1\n")
        made(folder, LATIN, RIGHT)
        made(folder, "other.asm", WRONG)
        call = ("grade", "--expect", "w.expect", "--seeds", "2")
        names = (LATIN, "other.asm")
        status, wanted = 3, [(SHOWN, "not read"), ("other.asm", "wrong")]
        ended = lab(*call, *names, folder=folder)
        yield "text", (status, wanted), (ended.status, [tuple(it.split("\t")[:2]) for it in ended.out.decode().splitlines()[1:]])
        ended = lab(*call, "--format", "tsv", *names, folder=folder)
        yield "tsv", (status, wanted), (ended.status, [tuple(it.split("\t")[:2]) for it in ended.out.decode().splitlines()])
        ended = lab(*call, "--json", *names, folder=folder)
        yield "json", (status, wanted), (ended.status, [(it["submission"], it["verdict"]) for it in map(
            json.loads, ended.out.splitlines())])
        suites = xml.etree.ElementTree.fromstring(lab(*call, "--format", "junit", *names, folder=folder).out)
        yield "junit", [SHOWN, "other.asm"], [suite.get("name") for suite in suites]
        results = json.loads(lab(*call, "--format", "gradescope", *names, folder=folder).out)
        yield "gradescope", [(SHOWN, 0), ("other.asm", 0)], [(it["name"], it["score"]) for it in results["tests"]]
        ended = lab(*call, "--format", "moodle", *names, folder=folder)
        yield "moodle", (status, [(SHOWN, "0", f"not read: {NOT_READ}"), ("other.asm", "0")]), (ended.status, [
            (row[1], row[2], *row[5:] * (row[1] == SHOWN)) for row in csv.reader(io.StringIO(ended.out.decode())) if row[2] == "0"])
        ended = lab(*call, "--feedback", "back", *names, folder=folder)
        texts = [tool.read(os.path.join(folder, "back", it)).decode().split("\n\n") for it in sorted(
            os.listdir(os.path.join(folder, "back"))) if it.endswith(".txt")]
        yield "feedback", (status, b"", [f"{SHOWN}: not read, 0 of 1 point", "other.asm: wrong, 0 of 1 point"], True), (
            ended.status, ended.err, [text[0] for text in texts], texts[0][1].startswith(f"not read: {NOT_READ}\n"))
        rows = [lab(*call, *names, folder=folder).out] + [
            lab(*call, "--results", "kept", *names, folder=folder).out for _ in range(2)] + [
            lab("grade", "--merge", "kept", folder=folder).out]
        yield "results", [HEAD + f"{SHOWN}\tnot read\t{NOT_READ}"] * 4, [row.decode().rpartition("\nother.asm\t")[0] for row in rows]
        for words in ([], ["--no-links"], ["--pages", "pages"]):
            ended = lab(*call, *words, LATIN, folder=folder)
            yield f"why, with {words}", (3, f"{HEAD}{SHOWN}\tnot read\t{NOT_READ}\n".encode()), (
                ended.status, ended.out)
        made(folder, os.fsdecode(b"cases/\xE4.expect"), b"finished\n")
        ended = lab("grade", "--cases", "cases", "other.asm", folder=folder)
        yield "a case", (1, b"", b"mta_lab: cases/\\xE4.expect: the name of a case has to be UTF-8\n"), (
            ended.status, ended.out, ended.err)


@checks.others("lab/foreign_names")
def foreign_files():
    """Each command that reads a file refuses one whose name is not UTF-8, and says its name in ASCII."""
    with tempfile.TemporaryDirectory(prefix="mta-case-") as folder:
        made(folder, LATIN, RIGHT)
        made(folder, "same.asm", RIGHT)
        made(folder, SCHEDULE, b"0 0 1\n")
        refused = (1, f"mta_lab: {SHOWN}: {NOT_READ}\n".encode())
        for command, *words in (["view"], ["survey", "--seeds", "2"], ["explore"], ["debug"], ["schedule"], ["fmt"],
                                ["page", "--out", "a.html"], ["picture", "--out", "a.svg"], ["play", "--out", "p.html"],
                                ["compare", "--seeds", "1", "2"], ["asm", "--out", "a.image"]):
            first = ["fair"] if command == "schedule" else []
            before = sorted(os.listdir(folder))
            ended = lab(command, *first, LATIN, *words, folder=folder)
            yield f"{command}", (*refused, before), (ended.status, ended.err, sorted(os.listdir(folder)))
        ended = lab("check", LATIN, "same.asm", folder=folder)
        yield "check", (1, True), (ended.status, f"{SHOWN}: {NOT_READ}".encode() in ended.out + ended.err)
        ended = lab("view", "same.asm", SCHEDULE, folder=folder)
        yield "a schedule", (1, f"mta_lab: {SHOWN_SCHEDULE}: {NOT_READ}\n".encode()), (ended.status, ended.err)


@checks.others("lab/foreign_words")
def foreign_words():
    """Where a word is no file to be read its bytes are refused, by the name of the argument."""
    with tempfile.TemporaryDirectory(prefix="mta-case-") as folder:
        made(folder, LATIN, RIGHT)
        made(folder, "same.asm", RIGHT)
        expect, text = os.fsdecode(b"M\xFC.expect"), b"M\\xFC.expect"
        made(folder, expect, b"word 0 1\n")
        for name, words, wanted in (
            ("apart", ("grade", "--expect", expect, "same.asm"), (b"--expect", text)),
            ("together", ("grade", "--expect=" + expect, "same.asm"), (b"--expect", text)),
            ("title", ("page", "same.asm", "--title", LATIN, "--out", "a.html"), (b"--title", SHOWN.encode())),
            ("out", ("page", "same.asm", "--out", LATIN), (b"--out", SHOWN.encode())),
            ("pages", ("grade", "--expect", "w", "--pages", LATIN, "same.asm"), (b"--pages", SHOWN.encode())),
            ("feedback", ("grade", "--expect", "w", "--feedback", LATIN, "same.asm"), (b"--feedback", SHOWN.encode())),
            ("results", ("grade", "--expect", "w", "--results", LATIN, "same.asm"), (b"--results", SHOWN.encode())),
            ("gallery", ("gallery", LATIN), (b"FOLDER", SHOWN.encode())),
            ("exercises", ("gallery", "a", "--exercises", LATIN), (b"--exercises", SHOWN.encode())),
            ("examples", ("gallery", "a", "--examples", LATIN), (b"--examples", SHOWN.encode())),
            ("folder", ("exercise", "--folder", LATIN), (b"--folder", SHOWN.encode())),
            ("folder of one", ("exercise", "1", "--folder", LATIN), (b"--folder", SHOWN.encode())),
            ("new", ("new", LATIN), (b"NAME", SHOWN.encode())),
            ("asm", ("asm", LATIN), (b"--out", SHOWN.encode())),
            ("explain", ("explain", LATIN), (b"WORD", SHOWN.encode())),
        ):
            before = sorted(os.listdir(folder))
            ended = lab(*words, folder=folder)
            yield name, (2, b"", True, before), (
                ended.status, ended.out, all(it in ended.err for it in wanted), sorted(os.listdir(folder)))
        made(folder, SHOWN, WRONG)
        ended = lab("grade", "--expect", "w", LATIN, SHOWN, folder=folder)
        yield "shown alike", (2, b"", b"mta_lab: M\\xFCller.asm: two words of this line are shown so; rename one of the files\n"), (
            ended.status, ended.out, ended.err)
        made(folder, "w", b"word 0 1\n")
        ended = lab("grade", "--expect", "w", "--seeds", "2", SHOWN, folder=folder)
        yield "in ASCII", (3, f"{HEAD}{SHOWN}\twrong\t".encode()), (
            ended.status, ended.out[:len(HEAD) + len(SHOWN) + 7])


@checks.others("grade/long_names")
def long_names():
    """A page whose name is too long for the system costs itself alone: the rows and the other pages are there."""
    with tempfile.TemporaryDirectory(prefix="mta-case-") as folder:
        made(folder, "w.expect", b"word 0 1\n")
        long = "a" * 251 + ".asm"
        for name in ("first.asm", long, "last.asm"):
            made(folder, name, WRONG)
        ended = lab("grade", "--expect", "w.expect", "--seeds", "2", "--pages", "pages", "first.asm", long, "last.asm",
                    folder=folder)
        yield "rows", ["first.asm", long, "last.asm"], [it.split("\t")[0] for it in ended.out.decode().splitlines()[1:]]
        yield "pages", ["first.html", "last.html"], sorted(os.listdir(os.path.join(folder, "pages")))
        yield "said", (1, True), (ended.status, b"mta_lab: pages/" in ended.err and b"File name too long" in ended.err)


@checks.others("grade/old_pages")
def old_pages():
    """A page of an earlier call is named if the submission has none now."""
    with tempfile.TemporaryDirectory(prefix="mta-case-") as folder:
        made(folder, "w.expect", b"word 0 1\n")
        made(folder, "a.asm", WRONG)
        made(folder, "b.asm", WRONG)
        call = ("grade", "--expect", "w.expect", "--seeds", "2", "--pages", "pages", "a.asm", "b.asm")
        ended = lab(*call, folder=folder)
        yield "at first", (3, b""), (ended.status, ended.err)
        made(folder, "a.asm", RIGHT)
        ended = lab(*call, folder=folder)
        yield "then", (3, b"mta_lab: warning: pages/a.html: of an earlier call, which has no page for a.asm\n"), (
            ended.status, ended.err)


@checks.others("grade/links_out")
def links_out():
    """A link out of its folder is named, of a folder too; a link of another user, who may not read the file, gets no page."""
    with tempfile.TemporaryDirectory(prefix="mta-case-") as folder:
        made(folder, "w.expect", b"word 0 1\n")
        made(folder, "other/secret.asm", WRONG)
        made(folder, "in/own.asm", WRONG)
        os.symlink("../other/secret.asm", os.path.join(folder, "in/out.asm"))
        os.symlink("own.asm", os.path.join(folder, "in/near.asm"))
        os.symlink("in", os.path.join(folder, "by"))
        call = ("grade", "--expect", "w.expect", "--seeds", "2", "--pages", "pages")
        said = f"mta_lab: warning: in/out.asm: a symbolic link that leads out of its folder, to {os.path.realpath(folder)}/other/secret.asm"
        ended = lab(*call, "in/own.asm", "in/near.asm", "by/own.asm", "in/out.asm", folder=folder)
        yield "own", (3, (said + "\n").encode()), (ended.status, ended.err)
        yield "pages", ["by_own.html", "in_own.html", "near.html", "out.html"], sorted(os.listdir(os.path.join(folder, "pages")))
        ended = lab(*call[:5], "--no-links", "in/own.asm", "in/near.asm", "by/own.asm", "in/out.asm", folder=folder)
        yield "no links", ["wrong", "not read", "wrong", "not read"], [
            it.split("\t")[1] for it in ended.out.decode().splitlines()[1:]]
        os.symlink("..", os.path.join(folder, "in/up"))
        os.symlink("../other", os.path.join(folder, "in/dir"))
        for path in ("in/up/other/secret.asm", "in/dir/secret.asm"):
            ended = lab(*call[:5], path, folder=folder)
            yield f"a folder on the way to {path}", (3, (said.replace("in/out.asm", path) + "\n").encode()), (ended.status, ended.err)
        if os.geteuid() == 0:
            yield from links_of_another(folder, call)


def links_of_another(folder, call):
    """Links of a user who may not read what they lead to: the submission itself, to a file elsewhere and to one beside it, a
    folder of its path, and one that a link of the grader's leads to. Those of the file's owner are followed."""
    real, another, owner = os.path.realpath(folder), 65_534, 65_533
    os.symlink("other", os.path.join(folder, "lent"))
    os.symlink("in/near.asm", os.path.join(folder, "over.asm"))
    os.symlink("secret.asm", os.path.join(folder, "other/theirs.asm"))
    for name, user in (("in/out.asm", another), ("in/near.asm", another), ("lent", another), ("other/secret.asm", owner),
                       ("other/theirs.asm", owner)):
        os.lchown(os.path.join(folder, name), user, user)
    secret, own = f"{real}/other/secret.asm", f"{real}/in/own.asm"
    for path, target in (("in/out.asm", secret), ("in/near.asm", own), ("lent/secret.asm", secret), ("over.asm", own)):
        ended = lab(*call[:-1], "alone", path, folder=folder)
        said = f"mta_lab: warning: {path}: a symbolic link leads to {target}, which the link's owner may not be allowed to read: so it gets no page\n"
        yield f"{path} of another", (3, said.encode()), (ended.status, ended.err)
        yield f"no page of {path}", [], os.listdir(os.path.join(folder, "alone"))
    ended = lab(*call[:-1], "theirs", "other/theirs.asm", folder=folder)
    yield "of the file's owner", (3, b"", ["theirs.html"]), (
        ended.status, ended.err, os.listdir(os.path.join(folder, "theirs")))


@checks.others("lab/long_comments")
def long_comments():
    """A line shows at most 200 characters of a program's comments, and a report is one that other programs read."""
    with tempfile.TemporaryDirectory(prefix="mta-case-") as folder:
        made(folder, "w.expect", b"word 0 2\n")
        made(folder, "a.asm", CHANGED % (b"c" * 300))
        made(folder, "b.asm", CHANGED_TWO % (b"c" * 150, b"d" * 150))
        made(folder, "u.asm", CHANGED % ("ü" * 201).encode())
        call = ("grade", "--expect", "w.expect", "--seeds", "1")
        seed = "\twrong\tseed 0: not word 0 2: [0] 0 -> 1"
        for name, shown in (("a.asm", seed + "   " + "c" * MOST + ".."), ("u.asm", seed + "   " + "ü" * MOST + ".."),
                            ("b.asm", seed + " (" + "c" * 150 + "), [8] 0 -> 1 (" + "d" * 50 + "..)")):
            yield f"grade of {name}", f"{HEAD}{name}{shown}\n".encode(), lab(*call, name, folder=folder).out
        for command in (["view"], ["debug"], ["survey", "--seeds", "1"], ["explore"], ["compare", "--seeds", "0", "1"]):
            ended = lab(command[0], "a.asm", *command[1:], given=b"step 3\n", folder=folder)
            yield f"{command[0]} cuts", 0, ended.out.count(b"c" * (MOST + 1))
        yield "view shows 200", True, b"c" * MOST + b".." in lab("view", "a.asm", folder=folder).out
        made(folder, "loop.asm", LOOP % (b"c" * 300_000))
        ended = lab("view", "loop.asm", "--steps", "1000", "--all", folder=folder)
        yield "view of a long one", (True, 1000), (len(ended.out) < 1_000_000, ended.out.count(b"  0.0  "))
        made(folder, "huge.asm", CHANGED % (b"c" * 10_500_000))
        ended = lab(*call, "--format", "junit", "huge.asm", folder=folder)
        yield "junit", (3, True), (ended.status, len(ended.out) < 2_000)


@checks.others("grade/long_lists")
def long_lists():
    """A cell shows the first of the words that a run changes, whatever their names are, in each format that is a table."""
    with tempfile.TemporaryDirectory(prefix="mta-case-") as folder:
        made(folder, "w.expect", b"word 0 2\n")
        made(folder, "many.asm", MANY.encode())
        call = ("grade", "--expect", "w.expect", "--seeds", "1")
        why = f"seed 0: not word 0 2: {LISTED}"
        yield "text", f"{HEAD}many.asm\twrong\t{why}\n".encode(), lab(*call, "many.asm", folder=folder).out
        ended = lab(*call, "--format", "tsv", "many.asm", folder=folder)
        yield "tsv", LISTED, ended.out.decode().rstrip("\n").rpartition("\t")[2]
        ended = lab(*call, "--all", "many.asm", folder=folder)
        yield "all ends", f"seed 0   {LISTED}   NOT as expected: word 0 2", ended.out.decode().strip().rpartition("finished  ")[2]
        for form in ("junit", "gradescope", "moodle"):
            printed = lab(*call, "--format", form, "many.asm", folder=folder).out.decode()
            yield form, (True, False), (LISTED.split(", ")[6].split(" ")[1] in printed, "w007" in printed)
        lab(*call, "--feedback", "back", "many.asm", folder=folder)
        yield "a text for a student", (True, False), (
            LISTED in (text := tool.read(os.path.join(folder, "back/many.txt")).decode()), "w007" in text)


@checks.others("lab/hidden_characters")
def hidden_characters():
    """A character that is not seen is a question mark, in the names of files, in quoted lines and in words of a line."""
    for letter in HIDDEN:
        with tempfile.TemporaryDirectory(prefix="mta-case-") as folder:
            name = f"a{letter}b.asm"
            made(folder, "w.expect", b"word 0 1\n")
            made(folder, name, RIGHT)
            rows = [lab("grade", "--expect", "w.expect", "--seeds", "1", *words, name, folder=folder).out for words in (
                (), ("--format", "tsv"))]
            yield f"U+{ord(letter):04X} in a row", [b"a?b.asm"] * 2, [row.splitlines()[-1].split(b"\t")[0] for row in rows]
            made(folder, name, f".entry 0\nQUITE ; a{letter}b\n".encode())
            ended = lab("check", name, folder=folder)
            yield f"U+{ord(letter):04X} in a message", (True, True, False), (
                ended.err.startswith(b"a?b.asm:2:1: error"), b"QUITE ; a?b\n" in ended.err, letter.encode() in ended.err)
            ended = lab("view", "no" + letter, folder=folder)
            yield f"U+{ord(letter):04X} in a fault", True, ended.err.startswith(b"mta_lab: no?: ")
            ended = lab("explain", "no" + letter, folder=folder)
            yield f"U+{ord(letter):04X} of explain", False, letter.encode() in ended.err + ended.out
            ended = lab("new", f"n{letter}", folder=folder)
            yield f"U+{ord(letter):04X} of new", (0, True, False), (
                ended.status, ended.out.startswith(b"n?.asm: "), letter.encode() in ended.out)
            made(folder, "c.asm", CHANGED % f"x{letter}y".encode())
            for command in (["view"], ["survey", "--seeds", "1"], ["explore"], ["debug"]):
                ended = lab(command[0], "c.asm", *command[1:], given=b"step 2\n", folder=folder)
                yield f"U+{ord(letter):04X} in a comment of {command[0]}", (True, False), (
                    b"x?" in ended.out, letter.encode() in ended.out)
            yield from in_cells(folder, letter)


def in_cells(folder, letter):
    """A character that is not seen, in a comment that cells of tables quote: question marks alone stand for it."""
    shown = re.compile(rb"x[?]{1,3}y")
    made(folder, "w2.expect", b"word 0 2\n")
    call = ("grade", "c.asm", "--expect", "w2.expect", "--seeds", "1")
    for name, words in (("grade", call), ("grade as tsv", (*call, "--format", "tsv")), ("moodle", (*call, "--format", "moodle")),
                        ("compare", ("compare", "c.asm", "--seeds", "0", "1"))):
        ended = lab(*words, folder=folder)
        yield f"U+{ord(letter):04X} in a cell of {name}", (True, False), (bool(shown.search(ended.out)), letter.encode() in ended.out)
    lab(*call, "--feedback", "back", folder=folder)
    text = tool.read(os.path.join(folder, "back/c.txt"))
    yield f"U+{ord(letter):04X} in a text for a student", (True, False), (bool(shown.search(text)), letter.encode() in text)
