"""Programs with the words of a case: what each command says of a program by --given is what it says of the same program
with these words in its text. And the warnings of `check` above the answers of `explore` and `survey`."""

import os
import re
import tempfile

import checks
import tool
from of_lab import lab

PROGRAM = (" .entry go\n .entry go\n .data 5 ; here\n .data 0 ; there\n"
           "go: LOAD.N r1, r0, 0\n ADD r1, r1, 1\n STORE.N r1, r0, 1\n QUIT\n")
# by their names, in another order than the program's; and from the first word on
WORDS = {"by names": ".data 0 ; there\n.data 9 ; here\n", "by one name": ".data 9 ; here\n", "by position": ".data 9\n"}
REPLACED = PROGRAM.replace(".data 5", ".data 9")
# each command: its words after the program, what it reads from standard input, and the file that it writes
COMMANDS = [
    (("view",), (), b"", None), (("view",), ("--seed", "3", "--json"), b"", None),
    (("debug",), (), b"print [0]\ncontinue\ninfo words\n", None), (("compare",), ("3", "5", "--seeds"), b"", None),
    (("survey",), ("--seeds", "20"), b"", None), (("survey",), ("--seeds", "20", "--explore"), b"", None),
    (("explore",), (), b"", None), (("explore",), ("--expect", "p.expect"), b"", None),
    (("page",), ("--out", "out"), b"", "out"), (("picture",), ("--seed", "3", "--out", "out"), b"", "out"),
    (("play",), ("--expect", "p.expect", "--out", "out"), b"", "out"),
]


def of_replaced(text):
    """A text that quotes the program, as of the program with the other word."""
    return text.replace(b".data 5", b".data 9")


def answer(program, words, given, written, more=()):
    """What a command says of a program in a folder of its own, and what it writes. The text of the program is in JSON and on
    a page too: there its words are written as those that replace them."""
    with tempfile.TemporaryDirectory(prefix="mta-case-") as folder:
        tool.write(os.path.join(folder, "p.asm"), program.encode())
        tool.write(os.path.join(folder, "p.expect"), b"word here 9\nword 8 10\nfinished\n")
        for name, text in more:
            tool.write(os.path.join(folder, name), text.encode())
        said = lab(*words, given=given, folder=folder)
        page = b""
        if written:
            with open(os.path.join(folder, written), "rb") as file:
                page = file.read()
    return said.status, of_replaced(said.out), said.err, of_replaced(page)


def is_same(command, rest, given, written, words):
    told = answer(PROGRAM, (*command, "p.asm", *rest, "--given", "w.data"), given, written, [("w.data", words)])
    return answer(REPLACED, (*command, "p.asm", *rest), given, written), told


def refused(words, status, err, *rest):
    """What is said of a file of words that does not go with the program."""
    said = answer(PROGRAM, ("explore", "p.asm", "--given", "w.data", *rest), b"", None, [("w.data", words)])
    return (status, b"", err.encode()), said[:3]


def from_standard_input():
    told = answer(PROGRAM, ("explore", "p.asm", "--given", "-"), WORDS["by names"].encode(), None)
    return answer(REPLACED, ("explore", "p.asm"), b"", None), told


@checks.others("lab/given words")
def given_words():
    for command, rest, given, written in COMMANDS:
        for how, words in WORDS.items():
            yield (f"{' '.join((*command, *rest))}, {how}",
                   lambda c=command, r=rest, g=given, w=written, words=words: is_same(c, r, g, w, words))
    yield "from standard input", from_standard_input
    yield "a name that the program lacks", lambda: refused(
        ".data 9 ; here\n.data 1 ; gone\n", 1,
        "mta_lab: w.data: the case gives the word gone, and no data word has this name alone\n")
    yield "a line of code", lambda: refused(
        "LIT r1, 5\n", 1, "w.data:1:1: error: a line of cells is .data VALUE[, TAGS] or .fill COUNT, VALUE, TAGS, "
        "without a label\n")


# a condition that never holds; one that always holds, by which a loop never ends; and a result that is lost. Each with the
# numbers of what `check` says: of these 107 alone is said above an answer
NEVER = " .entry go\n .data 0\ngo: ADD r2, r1, 3\n SKIP EQ, 0, out\n LIT r3, 1\nout: QUIT\n"
ALWAYS = " .entry go\n .data 0\ngo: ADD r2, r1, 3\n SKIP NE, 0, go\n QUIT\n"
LOST = " .entry go\n .data 0\ngo: ADD r0, r1, 3\n QUIT\n"
WARNED = [("never holds", NEVER, ["107"]), ("always holds", ALWAYS, ["107", "110"]), ("is lost", LOST, ["113"])]


def is_warned(command, program, numbers):
    """Whether standard error has just what `check` says with the number 107."""
    checked = answer(program, ("check", "p.asm"), b"", None)[2]
    messages = re.split(rb"(?m)^(?=p\.asm:)", checked)[1:]
    told = [re.search(rb"\(explain (\d+)\)", message).group(1).decode() for message in messages]
    wanted = b"".join(message for message, number in zip(messages, told) if number == "107")
    return (numbers, wanted), (sorted(told), answer(program, (*command, "p.asm"), b"", None)[2])


@checks.others("lab/warned answers")
def warned_answers():
    for command in (("explore",), ("survey",), ("explore", "--json")):
        for name, program, numbers in WARNED:
            yield (f"{' '.join(command)}: {name}",
                   lambda c=command, p=program, n=numbers: is_warned(c, p, n))


IDIOMS = ("lock", "semaphore", "mailbox", "ticket", "barrier", "switch")


def is_right(idiom):
    """A program of `new` is right by every schedule, and check says nothing of it; it claims something of all states."""
    with tempfile.TemporaryDirectory(prefix="mta-case-") as folder:
        made = lab("new", "first", "--from", idiom, folder=folder)
        checked = lab("check", "--strict", "first.asm", "first.expect", folder=folder)
        found = lab("explore", "first.asm", "--expect", "first.expect", folder=folder)
        with open(os.path.join(folder, "first.expect"), encoding="ascii") as file:
            claims = [line for line in file if line.startswith(("always ", "never ", "some "))]
    return ((0, 0, b"", 0, True, True),
            (made.status, checked.status, checked.err, found.status, b"complete" in found.out, len(claims) > 0))


@checks.others("lab/first programs")
def first_programs():
    return [(f"new --from {idiom}", lambda idiom=idiom: is_right(idiom)) for idiom in IDIOMS]
