"""The definitions of files in specs/: their names, lines, comments and words, and the names that a file brings in."""

import functools
import re

import layout

# a line that begins a definition; a law that is not public has no word before its name
HEAD = re.compile(r"(?:(?:abbrev|unfoldable) )?pub (?:(record|data) )?(\S+)|([^\s()]+) :(?: |$)")
USE = re.compile(r"use ([\w.]+?)(?:\.\{(.*)\})?(?: as (\w+))?$")


class Definition:
    """A definition: where it stands, from its comment to its last line, and what it says."""

    def __init__(self, module, name, kind, comment, begin, line):
        self.module, self.name, self.kind, self.comment = module, name, kind, comment
        self.begin, self.line, self.end = begin, line, line
        self.clauses, self.frame, self.constructors = [], "", []

    @property
    def lines(self):
        return self.end - self.begin + 1


class Names:
    """What `use` lines bring in: a name, or a word that stands before a dot, and the path of what it stands for."""

    def __init__(self, uses):
        self.paths, self.modules = {}, {}
        for use in uses:
            path, names, alias = USE.match(use).groups()
            path = layout.origin(path)
            if names is None:
                self.modules[alias or path.rsplit(".", 1)[-1]] = path
            for name in (names or "").split(","):
                name, _, other = name.strip().partition(" as ")
                if name:
                    self.paths[other or name] = f"{path}.{name}"


def uncommented(line):
    return re.sub(r"(^|\s)--.*", "", line)


def name_of(match):
    """The name that a head defines, without the brackets or colon behind it."""
    return (match.group(2) or match.group(3)).rstrip(":")


class Module:
    """A file in specs/."""

    def __init__(self, file):
        self.file, self.definitions, uses = file, {}, []
        comment, begin, frame, current = [], 0, "", None
        with open(file, encoding="utf-8") as text:
            lines = text.read().splitlines()
        for number, line in enumerate(lines, 1):
            if frame and line.startswith("  "):
                line = line[2:]
            elif line.strip() and not line.startswith(" "):
                frame = ""
            if line.startswith(("use ", "pub use ")):
                uses.append(line.removeprefix("pub "))
            elif line.startswith("--"):
                begin = begin or number
                comment.append(line.lstrip("- "))
            elif not line.strip():
                comment, begin = [], 0
            elif line.startswith("module "):
                frame, comment, begin = line, [], 0
            elif line.startswith("infix"):
                begin = begin or number
            else:
                head = None if line.startswith(("pub mod ", " ", "}")) else HEAD.match(line)
                if head:
                    current = Definition(self, name_of(head), head.group(1), comment, begin or number, number)
                    current.frame = frame
                    self.definitions[current.name] = current
                elif current and current.kind == "data" and line.startswith("  ") and ":" in line:
                    current.constructors.append(line.split(":")[0].strip())
                if current:
                    self.add(current, line, bool(head), number)
                comment, begin = [], 0
        self.names = Names(uses)
        self.constructors = {c: d for d in self.definitions.values() for c in d.constructors}

    @staticmethod
    def add(definition, line, is_head, number):
        line = uncommented(line)
        definition.end = number
        if is_head or not definition.kind and not line.startswith((" ", "}")):
            definition.clauses.append(line)
        else:
            definition.clauses[-1] += "\n" + line

    def find(self, name):
        return self.definitions.get(name) or self.constructors.get(name)


@functools.lru_cache(maxsize=None)
def module(file):
    return Module(file)


def tokens(text):
    return [token for token in re.split(r"[\s(){};,\[\]]+", text) if token]


def bound_in(text):
    """The names that a text binds: of functions, of groups with a type, by let, and fields of records."""
    bound = set()
    for group in re.findall(r"λ ([^.]*)\.", text):
        bound.update(tokens(group.split(":")[0]))
    for group in re.findall(r"[({]([^(){}:]+?) : ", text):
        bound.update(tokens(group))
    bound.update(re.findall(r"\blet (\w+)", text))
    bound.update(re.findall(r"^  pub (\w+) :", text, re.M))
    return bound


def free_words(text, bound):
    """The words of a text but for those that are bound in it, for the labels of records and for what is in quotes."""
    text = re.sub(r'"[^"]*"', " ", text)
    bound = bound | bound_in(text)
    text = re.sub(r"([{;]\s*)[\w']+\s*=(?!=)", r"\1", text)
    return [token for token in tokens(text) if token.split(".")[0] not in bound]


def words_of(definition):
    """The free words of a definition. Small names at the left of a clause are bound, but for constructors."""
    found = []
    head, clauses = definition.clauses[0], definition.clauses[1:]
    frame = bound_in(definition.frame)
    found += free_words(definition.frame, frame)
    own = set(definition.constructors) | {definition.name}
    found += free_words(head, frame | own | {"pub", "abbrev", "unfoldable", "record", "data", "where"})
    for clause in clauses:
        left = clause.split(" = ")[0].split(" =\n")[0]
        patterns = tokens(left)
        brought = definition.module.names.paths
        constructors = definition.module.constructors
        bound = {word for word in patterns if "." not in word and word[0].islower() and word not in constructors
                 and not (word in brought and is_pattern(brought[word]))}
        found += free_words(clause, frame | own | bound)
    return found


def is_pattern(path):
    """Whether a small name that is brought in can stand in a pattern: a constructor of ours, or a name of the kit."""
    file = file_of(path.rsplit(".", 1)[0])
    return file is None or path.rsplit(".", 1)[1] in module(file).constructors


def file_of(path):
    """The file in specs/ of a path Rattle.CRATE.specs.NAME; None where it is the kit's, or a type of src."""
    parts = path.split(".")
    if len(parts) < 4 or parts[0] != "Rattle" or parts[1] not in layout.CRATES or parts[3] == "declared":
        return None
    return f"crates/{parts[1]}/specs/{'/'.join(parts[3:])}.antt"
