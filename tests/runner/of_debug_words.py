"""Sessions of the lab's debugger in random words. Where each leads, and what a word then holds, is what mta_sim's
debugger says in its own commands."""

import glob
import os
import pty
import random
import re

import checks
import of_lab
import table
import tool
from table import unescaped

LINES = 120
NO_NAME = b"no word is named x: names need a source text with a comment that is a name, as .data 0 ; total\n"
NO_PLACE = b"until takes a label, as eat or eat+1, or a line\n"
NO_BREAK = b"break takes a label, as eat or eat+1, or a line, perhaps after a processor\n"
AT = re.compile(rb"after (\d+) of (\d+) steps")
# words that stand behind info, watch or delete
BEHIND_ANOTHER = {"streams", "threads", "points", "waiting", "registers", "tags", "trap"}
# the word that an answer shows, with its name if it has one
WORD = re.compile(rb"\[(\d+)\](?: [A-Za-z_]\S*)? (-?\d+), (full|empty)")


def random_line(chooser, words, processors, labels):
    """A line of the lab, and the command of mta_sim for the same, if it has one."""
    address, p = 8 * chooser.randrange(words), chooser.randrange(processors)
    name, word = chooser.choice(labels)
    count = chooser.randint(1, 4)
    return chooser.choice([
        (f"step {count}", None), (f"back {count}", None), ("s", None), ("next", None), ("continue", "c"),
        ("reverse-continue", "back"), (f"print [{address}]", f"m {address} 1"), (f"print [{address}]", f"m {address} 1"),
        (f"watch [{address}]", f"w {address}"), (f"watch [{address}] tags", f"wt {address}"),
        (f"break {p} {name}", f"b {p} {word}"), (f"delete {count}", f"d {count}"),
    ])


def labels_of(source):
    """The labels of a source at program words, each with its word."""
    found, word = [], 0
    for line in tool.read(source).decode().splitlines():
        line = line.split(";")[0]
        label, colon, rest = line.partition(":")
        statement = (rest if colon else line).strip()
        if colon and not statement.startswith("."):
            found.append((label.strip(), word))
        word += bool(statement) and not statement.startswith(".")
    return found


@checks.others("lab/debug_words")
def sessions():
    """Each example by each of its schedules."""
    for schedule in sorted(glob.glob(os.path.join(of_lab.EXAMPLES, "*.schedule"))):
        yield os.path.basename(schedule), lambda schedule=schedule: (True, agrees(of_lab.source_of(schedule), schedule))


@checks.others("lab/debug_refusals")
def refusals():
    """Words whose arguments say nothing: each is refused in words, and the session stays where it is."""
    for line, said in (("step x", b"step takes a number of steps, as 5\n"), ("back -1", b"back takes a number of steps, as 5\n"),
                       ("list 9", b"list takes a stream, as 2.0\n"), ("why x", NO_NAME),
                       ("delete x", b"delete takes the number of a point\n"), ("try x", b"try takes a stream, as 2.0\n"),
                       ("break 2 bare+99", NO_BREAK), ("break x bare", NO_BREAK), ("until bare+", NO_PLACE),
                       ("until 99", NO_PLACE), ("\x07\x1b[2K", b"\\x07\\x1b[2K: no such word; help lists them\n")):
        yield line, lambda line=line, said=said: (said, behind_the_first_line(line))


@checks.others("lab/debug_places")
def places():
    """A breakpoint at a label, behind one, or on a line; all of lock.asm, whose `bare` stands on line 19."""
    for place, told in (("bare", "bare"), ("bare+1", "bare+1"), ("bare + 1", "bare+1"), ("locked+7", "bare+1"), ("20", "bare+1"),
                        ("17", "locked+5")):
        wanted = "".join(f"point {p}: processor {p} at {told}\n" for p in range(4)).encode()
        yield place, lambda place=place, wanted=wanted: (wanted, behind_the_first_line(f"break {place}"))
    yield "of a processor", b"point 0: processor 2 at bare+1\n", behind_the_first_line("break 2 bare+1")


@checks.others("lab/debug_on_a_terminal")
def on_terminal():
    """Where a person types there is a word on rlwrap, and a prompt, whose line the end of the input ends."""
    greeting = b"help lists the words; rlwrap mta_lab debug .. has arrow keys and a history\n"
    begin = of_lab.lab("debug", "lock.asm", folder=of_lab.EXAMPLES).out
    for keys, said in ((b"\x04", b"\n"), (b"quit\n", b"quit\n")):
        yield f"{keys!r}", greeting + begin + b"(mta) " + said, typed(keys)


def typed(keys):
    """What a person sees of a session who types these keys at the first prompt."""
    child, terminal = pty.fork()
    if child == 0:
        os.chdir(of_lab.EXAMPLES)
        os.execv(tool.LAB, [tool.LAB, "debug", "lock.asm", "--color", "never"])
    seen, is_typed = b"", False
    while True:
        try:
            piece = os.read(terminal, 65536)
        except OSError:
            break
        if not piece:
            break
        seen += piece
        if seen.endswith(b"(mta) ") and not is_typed:
            os.write(terminal, keys)
            is_typed = True
    os.waitpid(child, 0)
    os.close(terminal)
    return seen.replace(b"\r\n", b"\n")


@checks.others("lab/debug_long_lines")
def long_lines():
    """A line that is too long is refused alone: the steps that were tried before it are there."""
    refused = b"a line has at most 65536 bytes: this one is not taken\n"
    tried = behind_the_first_line("try 2.0\ntry 3.0")
    for length, said in ((65_537, refused), (70_000, refused), (200_000, refused), (65_536, None)):
        line = "y" * length
        answer = said or line.encode() + b": no such word; help lists them\n"
        last = behind_the_first_line(f"try 2.0\ntry 3.0\n{line}\nback 0")
        goes_on = b"after 2 of 2 steps" in last.removeprefix(tried + answer)
        yield f"{length} bytes", (True, True), (last.startswith(tried + answer), goes_on)
        yield f"{length} bytes at the end", answer, behind_the_first_line(line, end="")


@checks.others("lab/debug_not_utf_8")
def not_utf_8():
    """A line that is not UTF-8 is refused by its number: it is not the empty line, which repeats the last command."""
    refused = b"line 2 is not UTF-8: it is not taken\n"
    *first, last = told_by(b"step\nwhere\n").splitlines(keepends=True)
    for name, line in (("a byte FF", b"\xff"), ("a letter that is cut off", b"where \xc3"), ("Latin-1", b"M\xfcller")):
        yield name, b"".join([*first, refused, last]), told_by(b"step\n" + line + b"\nwhere\n")
    yield "at the end", b"".join([*told_by(b"step\n").splitlines(keepends=True), refused]), told_by(b"step\n\xff")


def told_by(lines):
    """What a session over lock.asm answers to these bytes."""
    return of_lab.lab("debug", "lock.asm", "lock.ends.schedule", given=lines).out


@checks.each("lab/debug.tsv")
def answered(fields):
    """A session: what stands there first, and each line that is typed behind > and a blank, with its answer."""
    _, source, schedule, session = fields
    typed = [line[2:] for line in unescaped(session).decode().split("\n") if re.match("> [^ ]", line)]
    with tool.made_files(source=unescaped(source), schedule=unescaped(schedule)) as paths:
        said = of_lab.lab("debug", paths["source"], paths["schedule"], given="\n--\n".join(typed).encode())
    first, *answers = said.out.split(b"\n", 1)[0:1] + re.split(rb"(?m)^--: .*\n", said.out.split(b"\n", 1)[1])
    got = first + b"\n" + b"".join(b"> %s\n%s" % (line.encode(), answer) for line, answer in zip(typed, answers))
    return (unescaped(session), 0, b""), (got, said.status, said.err)


@checks.others("lab/debug_completions")
def completions():
    """The words that rlwrap completes: all that help names, and each is known, but for those behind another word."""
    words = {*tool.read(os.path.join(table.ROOT, "share/completions/mta_lab.rlwrap")).decode().split()}
    helped = {re.split("[ /]", line)[0] for line in behind_the_first_line("help").decode().splitlines()}
    yield "the words of help", set(), helped - words
    for word in sorted(words - BEHIND_ANOTHER):
        yield word, False, b"no such word" in behind_the_first_line(word)


def behind_the_first_line(line, end="\n"):
    said = of_lab.lab("debug", "lock.asm", "lock.ends.schedule", given=(line + end).encode())
    return said.out.partition(b"\n")[2]


def agrees(source, schedule):
    """Whether a session in words and one in commands stand at the same positions and show the same words."""
    image, chooser = tool.asm(tool.read(source)), random.Random(os.path.basename(schedule))
    listing = tool.listing(image).decode()
    words = max(1, sum(line.split(";")[0].strip().startswith((".data", ".word")) for line in listing.splitlines()))
    processors = listing.count(".entry")
    lines = [random_line(chooser, words, processors, labels_of(source)) for _ in range(LINES)]
    talk = "".join(f"{line}\n--\n" for line, _ in lines).encode()
    said = of_lab.lab("debug", source, schedule, given=talk)
    if said.status != 0 or said.err:
        return f"status {said.status}, complained {said.err!r}"
    return compare(lines, image, schedule, said.out)


def compare(lines, image, schedule, out):
    """Goes through the answers of the lab, each up to that of the `--` behind it, which is no word."""
    answers = re.split(rb"(?m)^--: .*\n", out)
    position, length = map(int, AT.search(answers[0]).groups())
    commands, wanted = [], []
    for (line, command), answer in zip(lines, answers):
        stands = AT.findall(answer)
        moved = int(stands[-1][0]) if stands else position
        if line.startswith(("step", "s ")) and moved != min(length, position + int((line.split() + [1])[1])):
            return f"{line} leads from {position} to {moved}"
        if line.startswith("back") and moved != max(0, position - int(line.split()[1])):
            return f"{line} leads from {position} to {moved}"
        if command is None:
            command = f"g {moved}"
        commands.append(command)
        wanted.append((line, answer, moved))
        position = moved
    told = tool.session(image, tool.read(schedule), ("\n".join(commands) + "\n").encode()).out.splitlines()
    return differs(commands, wanted, told) or True


def differs(commands, wanted, told):
    """The first answer that is not that of mta_sim; None where all are."""
    if len(told) != len(commands):
        return f"{len(told)} answers to {len(commands)} commands"
    for command, (line, answer, moved), text in zip(commands, wanted, told):
        if text.startswith(b"at ") and int(text.split()[1]) != moved:
            return f"{line}: {moved}, and {text!r}"
        if command.startswith("m ") and not same_word(answer, text):
            return f"{line}: {answer!r}, and {text!r}"
        if text.startswith(b"point ") and text not in answer:
            return f"{line}: {answer!r}, and {text!r}"
        if text.startswith(b"gone ") != answer.endswith(b" is gone\n"):
            return f"{line}: {answer!r}, and {text!r}"
    return None


def same_word(answer, text):
    """Whether the lab's text of a word and mta_sim's are of the same address, value and full/empty bit."""
    address, value, is_full = WORD.search(answer).groups()
    cell = text.split()
    return (int(address), int(value) % 2**64, is_full == b"full") == (
        int(cell[0], 16), int(cell[1], 16), bool(int(cell[2], 16) & 1))
