"""The layout of source texts: what `fmt` makes of lines, that it is made once and for all, that the image stays, and what it
does to files."""

import glob
import os
import tempfile

import checks
import table
import tool
from of_lab import lab
from table import unescaped

# what makes a program of the lines of the table: it stands before them, and has the layout
BEFORE = b"        .slim 1\n        .entry 0\n        .data 0\n"
RIGHT = BEFORE + b"        QUIT\n"
LOOSE = RIGHT.replace(b"        ", b" ")
FAULTY = BEFORE + b" QUITE\n"
# the one of the examples that has an error
MISSPELT = "examples/grading/submissions/misspelt.asm"


def laid_out(text):
    """How the lab ends that lays a text out, from standard input to standard output."""
    return lab("fmt", given=text)


def image_of(text):
    """The image that mta_lab makes of a text."""
    with tempfile.TemporaryDirectory(prefix="mta-case-") as folder:
        tool.write(os.path.join(folder, "a.asm"), text)
        lab("asm", "a.asm", folder=folder)
        return tool.read(os.path.join(folder, "a.image"))


@checks.each("lab/layouts.tsv")
def layouts(fields):
    """Lines behind BEFORE: what is made of them, of that once more, and whether the image stayed."""
    given, wanted = (BEFORE + unescaped(field) for field in fields)
    once = laid_out(given)
    again = laid_out(once.out)
    return ((0, wanted, b"", wanted, True),
            (once.status, once.out, once.err, again.out, image_of(given) is not None and image_of(given) == image_of(once.out)))


@checks.others("lab/layouts_of_programs")
def programs():
    """The programs of the repository: the examples and exercises have the layout, and the others keep their images."""
    for path in sorted(glob.glob(os.path.join(table.ROOT, "**/*.asm"), recursive=True)):
        name = os.path.relpath(path, table.ROOT)
        if name.startswith(("examples/", "exercises/")) and name != MISSPELT:
            yield f"{name} has it", lambda path=path: ((0, b""), seen_of(path))
        else:
            yield name, lambda path=path: kept(path)


def seen_of(path):
    ended = lab("fmt", "--check", path)
    return ended.status, ended.out


def kept(path):
    """Of a program that is right: its image, and that its layout is one for good; a faulty one is refused by its fault."""
    text = tool.read(path)
    with tempfile.TemporaryDirectory(prefix="mta-case-") as folder:
        tool.write(os.path.join(folder, "a.asm"), text)
        image = image_of(text)
        ended = lab("fmt", "a.asm", folder=folder)
        written = tool.read(os.path.join(folder, "a.asm"))
        if image is None:
            return (1, b"", text, True), (ended.status, ended.out, written, b"error: " in ended.err)
        again = lab("fmt", "--check", "a.asm", folder=folder)
        return (0, image, lines_of(text), 0, b""), (ended.status, image_of(written), lines_of(written), again.status, again.out)


def lines_of(text):
    """Each line of a text without its blanks, but for a line end more at the end of the text."""
    lines = text.removeprefix(b"\xEF\xBB\xBF").translate(None, b" \t\r").split(b"\n")
    return lines[:-1] if lines[-1] == b"" else lines


@checks.others("lab/layouts_of_files")
def files():
    """What is written, and named, and what is left as it is."""
    changed, refused = b"b.asm: laid out\n", b"error: no operation is called QUITE"
    yield from case("one of two changes", ["a.asm", "b.asm"], {"a.asm": RIGHT, "b.asm": LOOSE}, (0, changed), {"b.asm": RIGHT})
    yield from case("check", ["--check", "a.asm", "b.asm"], {"a.asm": RIGHT, "b.asm": LOOSE},
                    (1, b"b.asm: the layout would change\n"), {})
    yield from case("check, right", ["--check", "a.asm"], {"a.asm": RIGHT}, (0, b""), {})
    yield from case("a fault leaves all", ["b.asm", "c.asm"], {"b.asm": LOOSE, "c.asm": FAULTY}, (1, b""), {}, refused)
    yield from case("named twice", ["b.asm", "./b.asm"], {"b.asm": LOOSE}, (0, changed + b"./" + changed), {"b.asm": RIGHT})
    yield from case("no line end", ["b.asm"], {"b.asm": RIGHT.rstrip(b"\n")}, (0, changed), {"b.asm": RIGHT})
    yield from case("CR LF", ["b.asm"], {"b.asm": RIGHT.replace(b"\n", b"\r\n")}, (0, changed), {"b.asm": RIGHT})
    yield from case("byte order mark", ["b.asm"], {"b.asm": b"\xEF\xBB\xBF" + RIGHT}, (0, changed), {"b.asm": RIGHT})
    yield from case("Latin 1", ["b.asm"], {"b.asm": RIGHT + b"; \xE9 \r\n"}, (0, changed), {"b.asm": RIGHT + b"; \xE9\n"})
    yield from case("an image", ["b.asm"], {"b.asm": image_of(RIGHT)}, (1, b""), {}, b"this is an image, and no source text")
    yield from case("nothing there", ["b.asm"], {}, (1, b""), {}, b"b.asm: read failed: No such file")
    yield from case("an empty file", ["b.asm"], {"b.asm": b""}, (1, b""), {}, b"error: ")
    yield from case("a folder", ["."], {}, (1, b""), {}, b"Is a directory")
    yield from case("- beside a file", ["b.asm", "-"], {"b.asm": LOOSE}, (1, b""), {}, b"- is standard input, and goes alone")
    for words in (["-"], []):
        yield f"input {words}", (0, RIGHT), seen(lab("fmt", *words, given=LOOSE))
        yield f"input {words}, faulty", (1, b""), seen(lab("fmt", *words, given=FAULTY))
    yield "input, check", (1, b"-: the layout would change\n"), seen(lab("fmt", "--check", given=LOOSE))
    yield "input, check, right", (0, b""), seen(lab("fmt", "--check", "-", given=RIGHT))
    yield "input, right", (0, RIGHT), seen(laid_out(RIGHT))
    yield "input, Latin 1", (1, b""), seen(laid_out(RIGHT + b"; \xE9\n"))
    yield "a name with a control byte", (0, b"a\\x1b.asm: laid out\n"), hostile_name()
    yield "a link stays, and leads to the text", (True, RIGHT), through_link()


def seen(ended):
    return ended.status, ended.out


def case(name, words, given, wanted, changes, reason=b""):
    """Files in a folder of their own: how `fmt` ends, what it says, and what is in the files."""
    with tempfile.TemporaryDirectory(prefix="mta-case-") as folder:
        for file, text in given.items():
            tool.write(os.path.join(folder, file), text)
        ended = lab("fmt", *words, folder=folder)
        left = {file: tool.read(os.path.join(folder, file)) for file in os.listdir(folder)}
    yield name, (*wanted, {**given, **changes}, True), (ended.status, ended.out, left, reason in ended.err)


def hostile_name():
    with tempfile.TemporaryDirectory(prefix="mta-case-") as folder:
        tool.write(os.path.join(folder, "a\x1b.asm"), LOOSE)
        return seen(lab("fmt", "a\x1b.asm", folder=folder))


def through_link():
    with tempfile.TemporaryDirectory(prefix="mta-case-") as folder:
        tool.write(os.path.join(folder, "b.asm"), LOOSE)
        os.symlink("b.asm", os.path.join(folder, "a.asm"))
        lab("fmt", "a.asm", folder=folder)
        return os.path.islink(os.path.join(folder, "a.asm")), tool.read(os.path.join(folder, "b.asm"))
