#!/usr/bin/env python3
"""Headings that texts cite, and that the document has not which they name: a line each.

A citation is the name of a document, also of a crate's, with a heading in quotation marks next to it: NAME.md, "Heading",
or NAME.md ("Heading"), or "Heading", NAME.md. Documents cite so, and so do comments of code, definitions, tests and scripts. In a
document a heading in quotation marks that stands alone in brackets is one of its own, or of a document named shortly
before. A heading may be cited by its beginning, up to a bracket or a colon."""

import os
import re
import subprocess

ROOT = os.path.dirname(os.path.dirname(os.path.abspath(__file__)))
ENDINGS = (".md", ".rt", ".antt", ".py", ".sh", ".js", ".json", ".tsv", ".case", ".1", ".slurm")
NAME, HEADING, OTHERS = r"((?:crates/\w+/)?[A-Z_]+\.md)", r'"([A-Z][^"]{2,60})"', r'((?:(?:,| and|, and) "[A-Z][^"]{2,60}")*)'
BEFORE = re.compile(rf"{HEADING},? (?:of )?(?:docs/)?{NAME}")
AFTER = re.compile(rf"{NAME},? \(?{HEADING}{OTHERS}")
OWN = re.compile(rf"\({HEADING}{OTHERS}(?:, (?:above|below))?\)")
# how far before a heading alone its document may be named
NEAR = 120


def place_of(name):
    """Where a document is, or None."""
    paths = (os.path.join(ROOT, folder, name) for folder in ("docs", ""))
    return next(filter(os.path.exists, paths), None)


def headings(name):
    """The headings of a document, whole and up to a bracket or a colon."""
    with open(place_of(name), encoding="utf-8") as file:
        whole = [line.lstrip("#").strip().replace("`", "") for line in file if line.startswith("#")]
    return {*whole, *(re.split(r" \(|:", heading)[0] for heading in whole)}


def text_of(path):
    """A file as one line, without the marks of its comments."""
    with open(os.path.join(ROOT, path), encoding="utf-8", errors="replace") as file:
        lines = [re.sub(r"^(//[/!]?|--|#(?!#)|\*)\s?", "", line.strip()) for line in file]
    return " ".join(lines).replace('\\"', '"').replace("`", "")


def listed(heading, others):
    return [heading, *re.findall(r'"([^"]+)"', others)]


def cited(path, text):
    """What a text cites: the documents of which one has to have the heading, and the heading."""
    for heading, name in BEFORE.findall(text):
        yield (name,), heading
    for name, heading, others in AFTER.findall(text):
        yield from (((name,), each) for each in listed(heading, others))
    own = os.path.basename(path)
    for found in OWN.finditer(text) if place_of(own) and path.endswith(".md") else ():
        near = re.findall(NAME, text[max(0, found.start() - NEAR):found.end() + NEAR])
        yield from (((own, *near), each) for each in listed(found[1], found[2]))


def main():
    listing = ["git", "ls-files", "-co", "--exclude-standard"]
    files = subprocess.run(listing, cwd=ROOT, capture_output=True, text=True, check=True).stdout.split()
    known = {}
    for path in files:
        if not path.endswith(ENDINGS) or "/samples/" in path or not os.path.exists(os.path.join(ROOT, path)):
            continue
        for names, heading in sorted(set(cited(path, text_of(path)))):
            names = [name for name in names if place_of(name)]
            for name in names:
                known.setdefault(name, headings(name))
            if names and not any(heading.rstrip(".,") in known[name] for name in names):
                print(f'{path}: {names[0]} has no heading "{heading}"')


if __name__ == "__main__":
    main()
