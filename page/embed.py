#!/usr/bin/env python3
"""embed.py [--check]: makes the constants of the pages' crates, below src/parts of each, of the files in this folder,
since a program of the kit can't include a file's text. The hashes that a policy names are among them. A file that pages
of several crates have is a constant of the first one, which adds it by a public function. With --check nothing is
written, and each file of constants that is not up to date is named."""

import difflib
import pathlib
import re
import sys
import textwrap

sys.dont_write_bytecode = True

from build import HERE, PAGES, hash_of

CRATES = HERE.parent / "crates"
# the functions of the texts between what is filled in, the title and the data, and where they stand
SECTIONS = {"head": "before the title", "middle": "between the title and the data", "tail": "after the data"}
# the longest line in the layout of rt fmt
LINE = 100


def texts(page):
    """The texts of a page: (None, what is filled in), or (the file, its text or a part of it)."""
    if re.search(r"</(script|style)|<!--", page.script() + page.style(), re.IGNORECASE):
        raise ValueError("a script or style would end its element")
    hashes = {"SCRIPT_HASH": hash_of(page.script()), "STYLE_HASH": hash_of(page.style())}
    found, text = [], ""
    for i, piece in enumerate(page.read(page.template).split("@")):
        if i % 2 == 0 or piece in hashes:
            text += hashes.get(piece, piece) if i % 2 else piece
            continue
        found.append((page.template, text))
        text = ""
        if piece == "STYLE":
            found += [(name, page.read(name)) for name in page.styles]
        elif piece == "SCRIPT":
            found += [(name, page.read(name)) for name in page.order()]
        else:
            found.append((None, piece.capitalize()))
    return found + [(page.template, text)]


def constant(text):
    """The constant of a text, in the layout of rt fmt: where its first line is long it stands on a line of its own."""
    marks = "#"
    while '"' + marks in text:
        marks += "#"
    name, value = "pub(crate) const TEXT: &str =", f'r{marks}"{text}"{marks};'
    is_long = len(f"{name} {value}".split("\n", maxsplit=1)[0]) > LINE
    return name + ("\n    " if is_long else " ") + value + "\n"


def module(page, source, text, made):
    """The module of a file's text, or of a part of it; of two pages that have the same text it is the same."""
    place = (page.folder / source).resolve().relative_to(HERE.parent)
    held = f"//! A text of the page: `{place}`. Made by `page/embed.py`.\n\n" + constant(text)
    name, _, kind = pathlib.Path(source).name.partition(".")
    name = f"{name}_{'style' if kind == 'css' else 'script'}"
    if source == page.template:
        parts = [other for other in made if other.startswith("template")]
        name = next((other for other in parts if made[other] == held), f"template_{len(parts) + 1}")
    if made.setdefault(name, held) != held:
        raise ValueError(f"two files would be the module {name}")
    return name


def pusher(name):
    """The name of the function that adds a text to pages of other crates too."""
    return f"push_{name}"


def section(kind, place, calls):
    """The function that adds the texts of a section of a page, by these calls."""
    adds = "?;\n".join(f"    {call}" for call in calls)
    which = f"{kind}_{place}" if kind == "pair" else place
    said = f"{SECTIONS[place]}, on a page of two runs" if kind == "pair" else SECTIONS[place]
    return (
        f"\n/// Adds what stands {said}.\n"
        + f"pub(crate) fn push_{which}(page: &mut String) -> Result<(), AllocError> {{\n{adds}\n}}\n"
    )


def common_calls(tables):
    """The function that adds the texts that the tails of two pages of a crate have in a row. Their calls become one of
    it, so each is proved once. Nothing where there are not two."""
    tails = [sections["tail"] for sections in tables.values()]
    if len(tails) != 2:
        return ""
    found = difflib.SequenceMatcher(None, *tails, autojunk=False).find_longest_match()
    calls = tails[0][found.a:found.a + found.size]
    for tail, begin in zip(tails, (found.a, found.b), strict=True):
        tail[begin:begin + found.size] = ["push_common_scripts(page)"]
    adds = "?;\n".join(f"    {call}" for call in calls)
    return (
        "\n/// Adds the scripts that both pages have after their own.\n"
        + f"fn push_common_scripts(page: &mut String) -> Result<(), AllocError> {{\n{adds}\n}}\n"
    )


def shared_function(name, source):
    """The function that adds a text to pages of other crates too."""
    return (
        f"\n/// Adds the text of `page/{source.name}`, which other pages have too.\n"
        + f"pub fn {pusher(name)}(page: &mut String) -> Result<(), AllocError> {{\n"
        + f"    page.push_str({name}::TEXT)\n}}\n"
    )


def crates_by_file():
    """By the path of each style and part of a script the crates whose pages have it, in the order of the pages."""
    found = {}
    for page in PAGES.values():
        for name in page.styles + page.order():
            crates = found.setdefault((page.folder / name).resolve(), [])
            if page.crate not in crates:
                crates.append(page.crate)
    return found


def files(crate, pages, users):
    """Each file of constants of a crate's pages with its text; `users` are the crates of each file."""
    made, taken, tables, shared = {}, set(), {}, {}
    for kind, page in pages.items():
        sections = [[]]
        for source, text in texts(page):
            if source is None:
                sections.append([])
                continue
            path = (page.folder / source).resolve()
            of = users.get(path, [crate])
            name = module(page, source, text, made if of[0] == crate else {})
            if of[0] != crate:
                taken.add((of[0], pusher(name)))
                sections[-1].append(f"{pusher(name)}(page)")
                continue
            sections[-1].append(f"page.push_str({name}::TEXT)")
            if len(of) > 1:
                shared[name] = shared_function(name, path)
        tables[kind] = dict(zip(SECTIONS, sections, strict=True))
    common = common_calls(tables)
    functions = "".join(section(kind, place, calls) for kind, sections in tables.items()
                        for place, calls in sections.items())
    parts = (
        "//! The texts of a page. Made by `page/embed.py` of the files in `page/`.\n\n"
        + "".join(f"mod {name};\n" for name in sorted(made))
        + "\n"
        + imports(taken)
        + "use std::alloc::AllocError;\n"
        + "".join(shared[name] for name in sorted(shared))
        + functions
        + common
    )
    return {"parts.rt": parts} | {f"parts/{name}.rt": text for name, text in made.items()}


def imports(taken):
    """The lines that import these functions of other crates, in the layout of rt fmt."""
    lines = []
    for crate in sorted({crate for crate, _ in taken}):
        names = ", ".join(sorted(name for of, name in taken if of == crate))
        line = f"use {crate}::{{{names}}};"
        filled = textwrap.fill(f"{names},", LINE, initial_indent="    ", subsequent_indent="    ")
        lines.append(line if len(line) <= LINE else f"use {crate}::{{\n{filled}\n}};")
    return "".join(f"{line}\n" for line in lines)


def stale_files(made, source):
    """The files that are not what is made."""
    there = {path.relative_to(source).as_posix(): path.read_text(encoding="utf-8")
             for path in source.glob("parts/*.rt")}
    path = source / "parts.rt"
    if path.is_file():
        there["parts.rt"] = path.read_text(encoding="utf-8")
    return [path for path in sorted(made.keys() | there.keys()) if made.get(path) != there.get(path)]


def main(words):
    crates, users = {}, crates_by_file()
    for kind, page in PAGES.items():
        crates.setdefault(page.crate, {})[kind] = page
    for crate, pages in crates.items():
        made, source = files(crate, pages, users), CRATES / crate / "src"
        for path in stale_files(made, source):
            if words == ["--check"]:
                print(f"crates/{crate}/src/{path}: not what page/embed.py makes")
            elif path in made:
                (source / path).parent.mkdir(exist_ok=True)
                (source / path).write_text(made[path], encoding="utf-8")
            else:
                (source / path).unlink()


if __name__ == "__main__":
    main(sys.argv[1:])
