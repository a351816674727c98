"""Tables of grade in LibreOffice: each cell is the text that stands in it, numbers are numbers, and none is a formula."""

import os
import xml.etree.ElementTree

import part

NEEDS = ("soffice",)
NAMES = ("=1+2.asm", "+1.asm", "-1.asm", "@SUM(A1).asm", "=HYPERLINK(\"x\").asm", "plain.asm", "a, b \"c\".asm", "J\u00fcrgen.asm")
# the separators of fields in LibreOffice's filter for texts, by their codes
FILTERS = {"csv": "44,34,76,1", "tsv": "9,0,76,1"}
SPACES = {"table": "urn:oasis:names:tc:opendocument:xmlns:table:1.0", "office": "urn:oasis:names:tc:opendocument:xmlns:office:1.0",
          "text": "urn:oasis:names:tc:opendocument:xmlns:text:1.0"}


def named(space, name):
    return f"{{{SPACES[space]}}}{name}"


def cells_of(folder, name):
    """The rows of a table as LibreOffice loads it: of each cell that has something its kind, its text, and its formula."""
    kind = name.rpartition(".")[2]
    ended = part.called("soffice", f"-env:UserInstallation=file://{folder}/profile", "--headless", f"--infilter=CSV:{FILTERS[kind]}",
                        "--convert-to", "fods", name, folder=folder)
    path = os.path.join(folder, name.rpartition(".")[0] + ".fods")
    if not os.path.exists(path):
        raise ValueError(ended.stdout + ended.stderr)
    rows = [cells_in(row) for row in xml.etree.ElementTree.parse(path).iter(named("table", "table-row"))]
    return [cells for cells in rows if any(kind for kind, _, _ in cells)]


def cells_in(row):
    """The cells of a row. Equal ones that stand side by side are one, with their number."""
    cells = []
    for cell in row.iter(named("table", "table-cell")):
        text = "\n".join("".join(line.itertext()) for line in cell.iter(named("text", "p")))
        found = (cell.get(named("office", "value-type")), text, cell.get(named("table", "formula")))
        cells += [found] * (int(cell.get(named("table", "number-columns-repeated"), "1")) if found[0] else 1)
    return cells


def checks(folder):
    """A class with names that begin as formulas do, and a case whose name does."""
    for number, name in enumerate(NAMES):
        part.made(folder, name, part.RIGHT if number % 2 else part.WRONG)
    part.made(folder, "cases/=2+3.data", " .data 7\n")
    part.made(folder, "cases/=2+3.expect", "word 0 1\npoints 4\n")
    paths = [name for name in NAMES if name[0] != "-"]
    for form, name in (("moodle", "moodle.csv"), ("text", "text.tsv"), ("tsv", "fields.tsv")):
        printed = part.called(part.LAB, "grade", "--cases", "cases", "--format", form, *paths, "--", "-1.asm", folder=folder).stdout
        part.made(folder, name, printed)
        rows = cells_of(folder, name)
        yield f"{form}: rows", len(NAMES) + (form != "tsv"), len(rows)
        yield f"{form}: formulas", [], [cell for row in rows for cell in row if cell[2]]
    rows = in_order(cells_of(folder, "moodle.csv")[1:])
    points = [("float", "4" if number % 2 else "0", None) for number in range(len(NAMES))]
    yield "names", [written(name) for name in NAMES], [row[1][1] for row in rows]
    yield "grades", [[one, ("float", "4", None)] for one in points], [row[2:4] for row in rows]
    yield "dates", [("string", "-", None)] * len(NAMES), [row[4] for row in rows]


def written(name):
    """A name as tables have it."""
    return ("'" if name[0] in "=+-@" else "") + name


def in_order(rows):
    """The rows in the order of NAMES."""
    place = {written(name): number for number, name in enumerate(NAMES)}
    return sorted(rows, key=lambda row: place.get(row[1][1], len(NAMES)))
