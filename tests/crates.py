#!/usr/bin/env python3
"""The table "Crates, lowest first" of docs/ARCHITECTURE.md, made of crates.txt and of what the crates' own documents say.

  crates.py table   writes it
  crates.py check   says where the document has another one, which edges of crates.txt no source of the lab names, and
                    where there are too many ways through it

crates.txt has headings, lines "# == HEADING"; each becomes a part of the table. What a crate does is the first sentence
of its README.md. A crate that `mta_sim` needs is marked so."""

import os
import re
import sys

ROOT = os.path.dirname(os.path.dirname(os.path.abspath(__file__)))
DOCUMENT = f"{ROOT}/docs/ARCHITECTURE.md"
# the heading from which on crates are not part of the proved core
FIRST_OF_LAB = "What the lab says and shows"
# how many ways may lead from the libraries down: the kit follows each of them twice, and reads the files on it
MOST_WAYS = 358_000
TABLE = re.compile(r"(?s)(## Crates, lowest first\n\n).*?(?=\n\n## )")


def read(path):
    with open(path, encoding="utf-8") as file:
        return file.read()


def parts():
    """The headings of crates.txt, each with its crates and the libraries that these use."""
    found = []
    for line in read(f"{ROOT}/crates.txt").splitlines():
        if line.startswith("# == "):
            found.append((line.removeprefix("# == "), []))
        elif line[:1].isalpha():
            name, _, uses = line.partition(":")
            found[-1][1].append((name.split()[0], uses.split()))
    return found


def needed_by(program, uses):
    """The crates that a program stands on, and it."""
    found = {program}
    for name in reversed(list(uses)):
        if name in found:
            found |= {*uses[name]}
    return found


def about(crate):
    """The first sentence of the crate's document, as a cell of the table."""
    paragraph = read(f"{ROOT}/crates/{crate}/README.md").split("\n\n")[1]
    sentence = re.match(r"(?s).*?[.:](?=\s|$)", paragraph)[0]
    sentence = " ".join(sentence.split()).rstrip(".:").replace("|", "\\|")
    return sentence[0].lower() + sentence[1:] if sentence[1].islower() or sentence[1] == " " else sentence


def table():
    uses = {name: used for _, crates in parts() for name, used in crates}
    core, lines = needed_by("mta_sim", uses), []
    lines.append("What is marked * is part of `mta_sim`; `make crates` writes this table, of crates.txt and the crates' README.md.")
    for heading, crates in parts():
        lines += ["", f"**{heading}**", "", "| crate | does | stands on |", "|---|---|---|"]
        for name, used in crates:
            mark = " *" if name in core else ""
            on = ", ".join(f"`{it}`" for it in used) or "nothing"
            lines.append(f"| `{name}`{mark} | {about(name)} | {on} |")
    return "\n".join(lines)


def sources(crate):
    """What a crate's sources, definitions and lemmas say, but for comments."""
    lines = []
    for folder in ("src", "specs", "proofs"):
        for at, _, names in os.walk(f"{ROOT}/crates/{crate}/{folder}"):
            for name in names:
                lines += read(f"{at}/{name}").splitlines()
    return "\n".join(line for line in lines if not line.lstrip().startswith(("//", "--")))


def unnamed():
    """The edges of crates.txt that no source names, of the crates that stand after the proved core. Those with lemmas of
    their own are left out: the prover may find lemmas of a library that no source names."""
    headings = [heading for heading, _ in parts()]
    for heading, crates in parts()[headings.index(FIRST_OF_LAB):]:
        for name, used in crates:
            if os.path.isdir(f"{ROOT}/crates/{name}/proofs"):
                continue
            text = sources(name)
            for it in used:
                if not re.search(rf"\b{it}::|\bRattle\.{it}\.|#\[derive\([^)]*\b{it}\b", text):
                    yield f"crates.txt: no source of {name} names {it}"


def too_many_ways():
    """What to do where more ways lead down from the libraries than the gate has time for."""
    ways = {}
    for _, crates in parts():
        for name, used in crates:
            ways[name] = 1 + sum(ways.get(it, 0) for it in used)
    libraries = {name: count for name, count in ways.items() if not os.path.exists(f"{ROOT}/crates/{name}/src/main.rt")}
    total, most = sum(libraries.values()), sorted(libraries, key=libraries.get)[-3:]
    if total > MOST_WAYS:
        yield (f"crates.txt: {total} ways lead down from its libraries, and {MOST_WAYS} are the most; from {', '.join(most)} "
               "the most of all. Let a crate pass on what its callers use (docs/ARCHITECTURE.md, \"What a crate passes on\")")


def main():
    text = read(DOCUMENT)
    made = TABLE.sub(lambda found: found[1] + table(), text)
    if sys.argv[1:] == ["check"]:
        if made != text:
            print("docs/ARCHITECTURE.md has another table of crates: make crates writes it")
        print(*unnamed(), *too_many_ways(), sep="\n", end="")
    elif sys.argv[1:] == ["table"]:
        with open(DOCUMENT, "w", encoding="utf-8") as file:
            file.write(made)
    else:
        sys.exit(__doc__)


if __name__ == "__main__":
    main()
