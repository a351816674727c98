"""Single lines of source texts: what each adds to the listing of a text, or its fault.

The line stands behind ten words, with ten others behind it. The labels that it may name are `a` before the third word,
`here` right before the line, `next` right behind it, and behind so many words more `last`, `past` and `far`."""

import checks
import of_sources
import tool
from table import unescaped

# a word that spells no instruction, and how a listing says so
WORD, LISTED = b".word 7\n", ".word 0x0000000000000007 ; %05d 0000000000000007"
BEHIND = {b"last": 127, b"past": 128, b"far": 389}
DATA, LISTED_DATA = b".data 5\n", ".fill 1, 0x0000000000000005, 1"


def words_behind(line):
    """How many words stand behind the line: ten, or as many as the label at its end asks for."""
    name = line.split(b" ")[-1]
    return BEHIND.get(name, 10), name if name in BEHIND else b"end"


def text_with(profile, line, has_data):
    """The text, and the number of the line in it."""
    count, label = words_behind(line)
    before = [b".profile 2\n" if profile == 2 else b"", b".entry 0\n", b"" if has_data else DATA]
    before += [2 * WORD, b"a: ", 8 * WORD, b"here:\n"]
    text = b"".join([*before, line, b"\nnext: ", count * WORD, label, b":\n"])
    return text, b"".join(before).count(b"\n") + 1


def listing_with(profile, line, listed):
    """The listing of the text where its line is listed so."""
    head = listed.split(" ")[0]
    if head == ".profile":
        profile = int(listed.split(" ")[1])
    # what stands before the words, the words, and the data
    parts = {".profile": [f".profile {profile}"], ".slim": [".slim 8"], ".chain": [".chain 8"] if profile == 2 else [],
             ".retry": [".retry 0"], ".trap": [], ".entry": [".entry 0"]}
    words = 10 * [LISTED] + ([listed] if " ; " in listed else []) + words_behind(line)[0] * [LISTED]
    data = [listed] if head == ".fill" else [LISTED_DATA]
    if head == ".entry":
        parts[head].append(listed)
    elif head in parts:
        parts[head] = [listed]
    words = [word % place if word is LISTED else word for place, word in enumerate(words)]
    return "".join(f"{text}\n" for text in [*sum(parts.values(), []), *words, *data]).encode()


def is_line_of(profile, fields):
    line, listed = unescaped(fields[0]), fields[1]
    source, number = text_with(profile, line, listed.startswith(".fill"))
    if listed.startswith("fault "):
        return f"!source line {number} {listed}".encode(), of_sources.listed(source)
    return listing_with(profile, line, listed), of_sources.listed(source)


@checks.each("asm/source_lines.tsv")
def is_line(fields):
    return is_line_of(1, fields)


@checks.each("asm/source_lines_two.tsv")
def is_line_of_profile_two(fields):
    return is_line_of(2, fields)


def defines(line, label):
    """Whether a line defines a label: an earlier line may name it."""
    source = b".entry 0\n.data 0\nLIT r1, " + label + b"\n" + line + b"\n"
    return tool.asm(source) != b"!source line 3 fault 7"


def counted(line):
    """Whether a line counts as a word: with it a label is too far away for a SKIP on an earlier line, else there is an
    image or a fault of the line itself."""
    source = b".entry 0\n.data 0\nSKIP ALWAYS, 0, far\n" + 127 * b"NOP\n" + line + b"\nfar:\n"
    found = tool.asm(source)
    if found == b"!source line 3 fault 4":
        return "word"
    return "none" if found.startswith((b"MTAP", b"!source line 131 ")) else found


def after_nop(*lines):
    """What a text of a word and these lines comes to."""
    return tool.asm(b"\n".join([b".entry 0", b".data 0", b"NOP", *lines]))


@checks.each("asm/cut_lines.tsv")
def is_cut(fields):
    """Whether the line counts, whether its label can be named, and whether it means what its parts mean."""
    line, label, statement = map(unescaped, fields[:3])
    has_name = label.isalnum()
    parts = statement if label == b"-" else label + b":" + statement
    found = (counted(line),
             label if has_name and defines(line, label) else b"no label",
             "the same" if after_nop(line) == after_nop(parts) else "something else")
    return (fields[3], label if has_name else b"no label", "the same"), found
