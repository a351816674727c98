"""The picture in README.md beside the page that its commands make today: docs/images/play_race.txt has the texts of the page
of which docs/images/make.sh took the picture, and that page has to have the same ones still. A picture that shows other
texts is made anew by docs/images/make.sh, which writes both files."""

import contextlib
import pathlib
import re
import sys

import runs
import tally

MAKER = runs.ROOT / "docs/images/make.sh"
TEXTS = runs.ROOT / "docs/images/play_race.txt"
README = runs.ROOT / "README.md"
# what the picture shows, from top to bottom and from left to right
SHOWN = ("#top", "#goals", "#where", "#lines", "#told", "#result", "#others", "#way-title", "#heads", "#ends", "#map-title",
         "#legend", "#explored", "#words", "#streams")


def step_names():
    """The steps after which the picture shows the page, as they stand in make.sh."""
    return re.search(r"^steps='(.*)'$", MAKER.read_text(encoding="utf-8"), re.MULTILINE)[1]


def readme_commands():
    """The commands of README.md that make the page: the copy of the program, what is expected, and play."""
    lines = re.findall(r"^\$ (.*)$", README.read_text(encoding="utf-8"), re.MULTILINE)
    return [next(line for line in lines if re.match(what, line)) for what in ("cp ", "printf ", "mta_lab play ")]


def readme_page(folder):
    """The page that the commands of README.md make."""
    copy, expected, play = readme_commands()
    source = pathlib.Path(folder) / copy.split()[2]
    source.write_bytes((runs.EXAMPLES / copy.split()[1]).read_bytes())
    text, path = re.match(r"printf '(.*)' > (\S+)$", expected).groups()
    requirements = pathlib.Path(folder) / path
    requirements.write_text(text.replace("\\n", "\n"))
    words = play.split()[2:]
    tally.same("README.md: play has the program that was copied, and what is expected",
               [words[0], words[words.index("--expect") + 1]], [copy.split()[2], path])
    return runs.played(folder, source, "--expect", str(requirements))


def open_picture(page):
    """Opens the page that the picture shows, after its steps."""
    page.open("readme", readme_page(page.folder))
    page.script("location.hash = arguments[0]; followLink()", f"#{step_names()}")


def texts_of(page):
    """The texts of the page that the picture shows, a line each."""
    open_picture(page)
    return "".join(f"{selector}: {page.text(selector)}\n" for selector in SHOWN)


def bare(text):
    """A text without its blanks and ends of lines: a browser has others between the parts of a page."""
    return re.sub(r"\s+", "", text)


def part(page):
    if not runs.has_pages():
        return
    words = readme_commands()[2]
    maker = MAKER.read_text(encoding="utf-8")
    tally.check("the picture is made by the command beside it", f'"$program" {words.removeprefix("mta_lab ")}' in maker, words)
    open_picture(page)
    wanted = TEXTS.read_text(encoding="utf-8")
    for selector in SHOWN:
        line = re.search(rf"^{re.escape(selector)}: (.*)$", wanted, re.MULTILINE)
        tally.same("README.md's picture has this text (else run docs/images/make.sh)", bare(page.text(selector)),
                   line and bare(line[1]))
    tally.same("README.md's picture has as many texts", len(wanted.splitlines()), len(SHOWN))
    page.quiet("README.md's picture")


if __name__ == "__main__":
    import stand_in

    with contextlib.ExitStack() as stack:
        sys.stdout.write(texts_of(stack.enter_context(stand_in.opened())))
