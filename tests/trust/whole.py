"""Whether a page of what to trust is whole: read from the page itself and from the files that it names, by rules that are
coarser than those by which it is made. A line says what is not so."""

import functools
import glob
import re

ROW = re.compile(r"\| (\d+) \| (?:\w+ )?`([^`]+)` \|")
SUM = re.compile(r"\| `(\S+)` \| ([\d,]+) \| [\d,]+ \| [\d,]+ \| ([\d,]+) \|")
USE = re.compile(r"\b(?:pub |ghost )?use (Rattle\.[\w.]+)\.\{([^}]*)\}", re.S)
HEAD = re.compile(r"^(?:abbrev |unfoldable )?pub (?:record |data )?([^\s():]+)", re.M)
WORD = re.compile(r"[^\W\d][\w']*")


def without_remarks(text):
    return re.sub(r"(?m)(^|\s)--.*$|//.*$", "", text)


class Page:
    """What a page lists: by files, the names with their lines; the functions that it begins with; words of the kit."""

    def __init__(self, text):
        self.listed, self.roots, self.counted, self.sums, file, name = {}, {}, {}, {}, None, None
        for line in text.split("\n## Words of the kit\n")[0].splitlines():
            if line.startswith("### "):
                file = line[4:]
            elif line.startswith("## "):
                name = line[4:-1]
            elif found := SUM.match(line):
                self.sums[found[1]] = int(found[2].replace(",", "")) + int(found[3].replace(",", ""))
            elif found := re.match(r"`(crates/\S+)`, line (\d+)\.", line):
                self.roots[name] = found[1], int(found[2])
            elif found := ROW.match(line):
                self.listed[file, found[2]] = int(found[1])
                for root in (name, *re.findall(r"`([^`]+)`", line.rpartition(" | ")[2])):
                    self.counted[root] = self.counted.get(root, 0) + 1
        self.kit = set(re.findall(r"`([^`]+)`", text.split("\n## Words of the kit\n")[-1]))


class File:
    """A file as plain text: its lines, what it defines, and what its `use` lines bring in from definitions of ours."""

    def __init__(self, path):
        with open(path, encoding="utf-8") as file:
            self.text = file.read()
        self.lines, self.brought = self.text.splitlines(), {}
        self.own = {found[1]: self.text.count("\n", 0, found.start()) for found in HEAD.finditer(self.text)}
        for module, names in USE.findall(re.sub(r"//.*", "", self.text)):
            place = re.fullmatch(r"Rattle\.(\w+)\.specs\.([\w.]+)", module)
            home = place and f"crates/{place[1]}/specs/{place[2].replace('.', '/')}.antt"
            if home in SPECS:
                for name in names.split(","):
                    name, _, other = " ".join(name.split()).partition(" as ")
                    self.brought[other or name] = home, name

    def home(self, name):
        """The definition of this file that has a name: itself, or the data that has it as a case; None where none does."""
        if name in self.own:
            return name
        case = re.search(rf"(?m)^  {re.escape(name)} :", self.text)
        before = [own for own, line in self.own.items() if case and line < self.text.count("\n", 0, case.start())]
        return max(before, key=self.own.get, default=None)

    def block(self, line):
        """The lines from this one to the next that is blank, without remarks."""
        end = line
        while end < len(self.lines) and self.lines[end].strip():
            end += 1
        return without_remarks("\n".join(self.lines[line - 1:end]))

    def clauses(self, line):
        """The contract of a function whose head is in this line: all that stands before its body."""
        text = "\n".join(self.lines[line - 1:])
        indent = re.match(r" *", text)[0]
        return without_remarks(text.split(f"\n{indent}{{\n")[0])


SPECS = set(glob.glob("crates/*/specs/**/*.antt", recursive=True))
file_of = functools.lru_cache(maxsize=None)(File)


def names_in(text):
    return set(WORD.findall(text))


def definition_of(path, name):
    """The file and name of the definition that a name of a file stands for; None where it is the kit's, or nothing."""
    file = file_of(path)
    home = file.home(name) if path.endswith(".antt") else None
    if home is not None:
        return path, home
    return definition_of(*file.brought[name]) if name in file.brought else None


def missing(page, where, text, path):
    """The definitions of ours that a text of a file names, and that the page does not list."""
    for name in set(WORD.findall(text)):
        found = definition_of(path, name)
        if found and found not in page.listed and not is_bound(name, text):
            yield f"{where}: `{name}` of {found[0]} is not listed"


def is_bound(name, text):
    """Whether a text binds this name itself, as a variable or a field."""
    return re.search(rf"(?:λ|[({{])[^().{{}}]*\b{name}\b[^().{{}}]*(?:\.| :)|\bpub {name} :|[{{;]\s*{name}\s*=", text)


def faults(text, logic, roots):
    """What the page of these roots, with this logic, lacks or says wrong."""
    page = Page(text)
    if f"`{logic}`" not in text:
        yield f"the logic {logic} is not named"
    if not page.kit:
        yield "no words of the kit"
    for name in roots:
        if name not in page.roots:
            yield f"no part about {name}"
    for name, (path, line) in page.roots.items():
        if f"fn {name.rpartition('::')[2]}" not in file_of(path).lines[line - 1]:
            yield f"{name} is not in line {line} of {path}"
        if page.sums.get(name) != page.counted.get(name):
            yield f"{name}: {page.counted.get(name)} are listed, and it reaches {page.sums.get(name)}"
        yield from missing(page, name, file_of(path).clauses(line), path)
    for (path, name), line in page.listed.items():
        lines = file_of(path).lines
        if not 0 < line <= len(lines) or name.strip("◌") not in lines[line - 1]:
            yield f"`{name}` is not in line {line} of {path}"
        elif path.endswith(".antt"):
            yield from missing(page, f"{path}:{line}", file_of(path).block(line), path)
