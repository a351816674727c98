"""What the text of a program, a comment or a name can't do: it is shown as text, and nothing comes of it."""

import html
import re

import origins
import runs
import tally

EVIL = (
    "</script><script>window.evil=1;alert(1)</script><img src=x onerror=window.evil=2>\"'`${window.evil=3}&lt;b&gt;"
    "<!--<script>@SCRIPT@ @RUN@ </style><style>*{display:none}</style>\\u003cb> \\ </title>"
)
LONG = 80_000
OTHERS = ("\u202eright to left", "\x7f", "e\u0301", "\U0001f600", "\t\ttabs", "]]>", "{{7*7}}", "javascript:alert(1)")
ADDED = "document.body.append(Object.assign(document.createElement(arguments[0]), { textContent: arguments[1] }))"
ALIVE = """
  return window.evil === undefined && document.images.length === 0 && document.scripts.length === 2
    && document.styleSheets.length === 1"""


def evil_run():
    """A run whose every text is hostile."""
    run = runs.sample("lock.lost_update")
    run["why"] = origins.why(run)
    run["name"], run["schedule"] = f"<img src=x onerror=window.evil=4>{EVIL}", f"{EVIL}.schedule"
    run["source"][0] = f"; {EVIL}"
    run["source"][1] = "; " + "x" * LONG
    run["source"][2] = "; " + "<b>" * (LONG // 3)
    run["source"][18] += f" ; {EVIL}"
    run["source"] += [f"; {text}" for text in OTHERS]
    run["program"] = [[line, f"{place}{EVIL}", statement + EVIL] for line, place, statement in run["program"]]
    run["data"] = [[address, count, line, EVIL] for address, count, line, _ in run["data"]]
    return run


def is_text(page, what, text):
    """Checks a page with hostile texts in its run."""
    run = runs.run_of(text)
    file = page.open("evil", text)
    page.painted()
    written = file.read_text(encoding="utf-8")
    scripts = written.count("<script"), written.count("</script")
    tally.same(f"{what}: as many script elements as in any page", scripts, (2, 2))
    tally.same(f"{what}: one style element", written.count("<style"), 1)
    tally.check(f"{what}: nothing of it ran", page.script(ALIVE))
    first = page.text("[data-line='1'] .text")
    tally.same(f"{what}: it is shown as text", first, run["source"][0])
    tally.same(f"{what}: no element came of it", page.all("#lines b, img, main script, main style"), [])
    tally.check(f"{what}: the page is no wider than the window",
                page.script("return document.documentElement.scrollWidth <= innerWidth"))
    title = re.search("<title>(.*?)</title>", written, re.DOTALL)[1]
    tally.same(f"{what}: the title", page.driver.title, html.unescape(title).strip())
    for position in (0, 4, 7):
        page.go(str(position))
        page.press("w")
    tally.same(f"{what}: no element came of it in a chain", page.all("#why img, #why script, #why style"), [])
    tally.check(f"{what}: nothing of it ran at other positions", page.script(ALIVE))
    page.quiet(what)


def policy(page):
    """The policy allows the page's own script and style, and nothing else."""
    content = page.one("meta[http-equiv]").get_attribute("content")
    parts = dict(part.strip().split(" ", 1) for part in content.split(";"))
    tally.same("the policy's default", parts.pop("default-src"), "'none'")
    tally.same("one hash for the script", len(re.findall(r"^'sha256-[\w+/=]+'$", parts.pop("script-src"))), 1)
    tally.same("one hash for the style", len(re.findall(r"^'sha256-[\w+/=]+'$", parts.pop("style-src"))), 1)
    tally.same("nothing more is allowed", set(parts.values()), {"'none'"})
    page.script(ADDED, "script", "window.evil = 5")
    page.script("document.body.setAttribute('onclick', 'window.evil = 6'); document.body.click()")
    page.script("document.body.append(Object.assign(new Image(), { src: 'https://example.org/x.png' }))")
    page.script(ADDED, "style", "body { display: none }")
    tally.check("another script is refused", page.script("return window.evil === undefined"))
    tally.check("another style is refused", page.script("return getComputedStyle(document.body).display !== 'none'"))
    refusals = []

    def is_refused():
        refusals.extend(entry["message"] for entry in page.driver.get_log("browser"))
        return any("x.png" in words and "violates" in words for words in refusals)

    tally.check("a request is refused", page.wait(is_refused), refusals)
    page.forget()


def by_program(page):
    """A hostile source, with a hostile file name, through mta_lab."""
    if not runs.has_pages():
        return
    name = "<img src=x onerror=window.evil=4>"
    source = page.folder / f"{name}.asm"
    lines = [f"; {EVIL}", ".slim 1", ".entry go", f".data 0 ; word 0: {EVIL}", f"go: STORE.S r0, r0, 0 ; {EVIL}",
             "LIT r1, 1 ; " + "x" * LONG, "; " + "<b>" * (LONG // 3), "SKIP ALWAYS, 0, go", ""]
    source.write_text("\n".join(lines))
    schedule = page.folder / f"{name}.schedule"
    schedule.write_text("0 0 8\n")
    is_text(page, "through mta_lab", runs.page_of(page.folder, source, schedule))


def part(page):
    is_text(page, "a made run", runs.page(evil_run()))
    policy(page)
    by_program(page)
