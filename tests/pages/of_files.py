"""The page's files: their sizes, and that the script and the template have nothing by which a text could act."""

import re

import runs
import tally

PAGE = runs.ROOT / "page"
LINES, COLUMNS, FUNCTION = 250, 120, 40
# what would take a text for markup or for a program, or ask for something outside of the page
ACTING = re.compile(
    r"innerHTML|outerHTML|insertAdjacentHTML|document\.write|\beval\(|new Function|\bfetch\(|XMLHttpRequest|\bimport\b"
    r"|WebSocket|EventSource|sendBeacon|sessionStorage|indexedDB|cookie|\bsetAttribute\(\"style|\.style\.\w+ ="
)
# what a page keeps in the browser: which goals were reached, by these files alone
KEEPING, KEEPERS = re.compile(r"localStorage"), {"play/kept.js", "gallery/reached.js"}
BEGIN = re.compile(r"( {2})?(function \w+|\w+)\(.*\) \{$|const \w+ = .*=> \{$")
MARKUP = re.compile(r"\sstyle=|\son[a-z]+=|\ssrc=|<link|<iframe|<object|https?:")


def functions(text):
    """The functions and methods of a script, each with how many lines it has."""
    lines = text.split("\n")
    for begin, line in enumerate(lines):
        if not BEGIN.match(line):
            continue
        indent = len(line) - len(line.lstrip())
        end = next(i for i in range(begin + 1, len(lines)) if re.match(rf" {{{indent}}}\}}", lines[i]))
        yield line.strip(), end - begin + 1


def sizes(folder):
    """How long the files of a folder are."""
    for path in sorted(path for path in folder.iterdir() if path.is_file() and path.suffix != ".md"):
        lines = path.read_text(encoding="utf-8").split("\n")
        tally.check(f"{path.name} has at most {LINES} lines", len(lines) <= LINES + 1, len(lines))
        long = [number for number, line in enumerate(lines, 1) if len(line) > COLUMNS]
        tally.check(f"the lines of {path.name} have at most {COLUMNS} columns", not long, long)


def scripts(page):
    """The script of a page: its functions, and that no text acts in it."""
    own = [name for name in page.order() if not name.startswith("../")]
    tally.same("ORDER names each script once", sorted(own), sorted(path.name for path in page.folder.glob("*.js")))
    for name in page.order():
        text = page.read(name)
        long = [(what, length) for what, length in functions(text) if length > FUNCTION]
        tally.check(f"the functions of {name} have at most {FUNCTION} lines", not long, long)
        tally.same(f"{name} takes no text for markup and asks for nothing", ACTING.findall(text), [])
        if f"{page.folder.name}/{name}" not in KEEPERS:
            tally.same(f"{name} keeps nothing in the browser", KEEPING.findall(text), [])
        tally.check(f"{name} can stand in the page", "</script" not in text.lower() and "<!--" not in text)


def template(page):
    """The template of a page: its places."""
    text = page.read(page.template)
    tally.same("the template has no styles and handlers of its own", MARKUP.findall(text), [])
    places = text.split("@")[1::2]
    wanted = {page.place, "SCRIPT", "SCRIPT_HASH", "STYLE", "STYLE_HASH", "TITLE"}
    tally.same("the template's places", set(places), wanted)
    tally.same("each stands there once", len(places), len(set(places)))


def part(_):
    for page in runs.build.PAGES.values():
        sizes(page.folder)
        scripts(page)
        template(page)
