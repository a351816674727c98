"""Whether three lists are one: what README.md names as proved, the rows of docs/PROMISES.md that say on which contracts each
of these rests ("What README.md names"), and the roots of TRUST.md. A line says what is not so."""

import re

import document
import sources

README, PROMISES, SECTION = "README.md", "docs/PROMISES.md", "What README.md names"
# a contract: its crate, its function and its clause
CONTRACT = re.compile(r"`(\w+) ([\w:]+) (\w+)`")
# what a row begins with that no item of README.md has
UNNAMED = "not named there: "


def text_of(path):
    with open(path, encoding="utf-8") as file:
        return file.read()


def items():
    """The items of README.md's list of what is proved, without what ends them."""
    proved = re.search(r"(?s)\n\*Proved\*,.*?\n\*Tested\*", text_of(README))
    found = re.findall(r"(?ms)^- (.*?)(?=^- |^\n|\Z)", proved[0] if proved else "")
    return [" ".join(item.split()).rstrip(";.") for item in found]


def cells(line):
    return [cell.strip() for cell in line.strip("|\n").split(" | ")]


def rows():
    """The rows of PROMISES.md about these items, and all its other rows."""
    before, heading, after = text_of(PROMISES).partition(f"\n## {SECTION}\n")
    own, next_heading, rest = after.partition("\n## ")
    tables = [[cells(line) for line in text.splitlines() if line.startswith("| ")] for text in (own, before + rest)]
    return tables[0][1:], tables[1]


def has_clause(function, clause):
    name = r"\{" if clause == "ensures" else rf"{clause}\b"
    return re.search(rf"\bensures\s*{name}", function.clauses)


def is_promised(path, clause, promises):
    """Whether a row of PROMISES.md has this clause of this function next to words that say what it is."""
    name, last = path.rpartition("::")[2], ""
    for row in promises:
        functions = row[1] if len(row) > 2 else ""
        last = last if functions == "the same" else functions
        if re.search(rf"\b{name}\b", last) and re.search(rf"\b({clause}|all|the same)\b", row[2] if len(row) > 2 else ""):
            return True
    return False


def faults_of_contract(crate, path, clause, promises):
    contract = f"`{crate} {path} {clause}`"
    found = sources.functions_named(crate, path)
    if len(found) != 1:
        yield f"{PROMISES}: {contract}: {len(found)} functions of the crate have this name"
    elif not has_clause(found[0], clause):
        yield f"{PROMISES}: {contract}: the function has no such clause"
    if f"{crate} {path}" not in document.ROOTS:
        yield f"{PROMISES}: {contract} is no root of TRUST.md (ROOTS of tests/trust/document.py)"
    if not is_promised(path, clause, promises):
        yield f"{PROMISES}: no other row says what {contract} promises"


def faults():
    named, promises = rows()
    said, roots = items(), set()
    for item in said:
        if item not in [row[0] for row in named]:
            yield f'{README}: no row of {PROMISES} ("{SECTION}") is about "{item}"'
    for row in named:
        contracts = CONTRACT.findall(row[1])
        if row[0] not in said and not row[0].startswith(UNNAMED):
            yield f'{PROMISES}: {README} has no item "{row[0]}"'
        if not contracts:
            yield f'{PROMISES}: no contract of "{row[0]}"'
        for contract in contracts:
            yield from faults_of_contract(*contract, promises)
        roots.update(f"{crate} {path}" for crate, path, _ in contracts)
    for root in document.ROOTS:
        if root not in roots:
            yield f'{PROMISES}: no row of "{SECTION}" has the root {root}'
    if not said:
        yield f"{README}: no list of what is proved"
