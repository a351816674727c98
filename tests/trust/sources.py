"""Files in src/: their types and traits, the contracts of functions, and the names that a file brings in."""

import functools
import os
import re

import layout
import specs

ITEM = re.compile(r"(?:pub(?:\([\w: ]+\))? )?(struct|enum|trait|type|const) (\w+)")
FUNCTION = re.compile(r"\s*(pub(?:\([\w: ]+\))? )?(?:const )?fn (\w+)")
IMPL = re.compile(r"impl\b(?:<[^>]*>)? ?(?:.*? for )?(?:&'?\w* ?)?(\w+)")


class Item:
    """A type or trait of src: where it stands, and its doc."""

    def __init__(self, source, kind, name, line, comment, text):
        self.source, self.kind, self.name, self.line, self.comment, self.text = source, kind, name, line, comment, text
        self.lines = text.count("\n") + 1 + len(comment)


class Function:
    """A function with the type that it is of, its signature and its clauses."""

    def __init__(self, source, owner, is_public, name, line, text):
        self.source, self.owner, self.is_public, self.name, self.line = source, owner, is_public, name, line
        begin = re.search(r"\n\s*(?:requires|ensures)\b", text)
        self.signature = text[:begin.start()] if begin else text
        self.clauses = text[begin.start():] if begin else ""

    @property
    def path(self):
        return f"{self.owner}::{self.name}" if self.owner else self.name


def flattened(text, before=()):
    """The paths of a `use` tree, each with the name that it brings in."""
    text = text.strip()
    opening = text.find("{")
    if opening < 0:
        path, _, other = text.partition(" as ")
        parts = (*before, *path.split("::"))
        return [(other or parts[-1], parts)]
    inner, depth, begin, found = text[opening + 1:text.rindex("}")] + ",", 0, 0, []
    before = (*before, *[part for part in text[:opening].split("::") if part])
    for at, letter in enumerate(inner):
        depth += (letter == "{") - (letter == "}")
        if letter == "," and depth == 0:
            if inner[begin:at].strip():
                found += flattened(inner[begin:at], before)
            begin = at + 1
    return found


def block(lines, at, closing):
    """The lines from this one to the one that closes it."""
    end = at
    while end + 1 < len(lines) and not closing(lines[end]):
        end += 1
    return "\n".join(lines[at:end + 1])


def contract(lines, at):
    """A function from this line to where its body begins, or to the semicolon of one that has none."""
    indent, end, depth = re.match(" *", lines[at])[0], at, 0
    while end + 1 < len(lines):
        line = re.sub(r"\s*//.*", "", lines[end])
        depth += line.count("{") - line.count("}")
        if line.endswith(("{", "}")) and not line.startswith(indent + " ") or line.endswith(";") and depth == 0:
            break
        end += 1
    return "\n".join(lines[at:end + 1])


class Source:
    """A file in src/."""

    def __init__(self, file):
        self.file, self.items, self.functions, self.models, self.impls = file, {}, [], {}, {}
        with open(file, encoding="utf-8") as text:
            self.text = text.read()
        lines = self.text.splitlines()
        bare = re.sub(r"//.*", "", self.text)
        self.ghost = specs.Names([f"use {' '.join(use.split())}" for use in re.findall(r"\bghost use ([^;]*);", bare)])
        plain = re.findall(r"^(pub(?:\([\w: ]+\))? )?use ([^;]*);", bare, re.M)
        self.brought = {name: path for _, use in plain for name, path in flattened(use)}
        self.given = {name: path for public, use in plain if public.strip() == "pub" for name, path in flattened(use)}
        self.open_modules = re.findall(r"^pub mod (\w+);", bare, re.M)
        self.read_items(lines)

    def read_items(self, lines):
        comment, owner, is_of_trait = [], None, False
        for at, line in enumerate(lines):
            item, function = ITEM.match(line), FUNCTION.match(line)
            if line.startswith("impl"):
                owner = IMPL.match(line).group(1)
                is_of_trait = " for " in line
                self.impls.setdefault(owner, []).append(line)
                if " Model for " in line:
                    self.models[owner] = self.model(block(lines, at, lambda end: end == "}"))
            elif item:
                kind, name = item.groups()
                text = block(lines, at, lambda end: end == "}" or end.endswith(";") and not end.startswith(" "))
                self.items[name] = Item(self, kind, name, at + 1, comment, text)
                owner, is_of_trait = (name, True) if kind == "trait" else (None, False)
            elif function:
                self.add_function(lines, at, owner if line.startswith(" ") else None, function, is_of_trait)
            if line.startswith("///"):
                comment = comment + [line[3:].strip()]
            elif not line.startswith("#["):
                comment = []

    def add_function(self, lines, at, owner, function, is_of_trait):
        text = contract(lines, at)
        is_public = function.group(1) == "pub " or is_of_trait and owner is not None
        self.functions.append(Function(self, owner, is_public, function.group(2), at + 1, text))

    @staticmethod
    def model(text):
        return re.search(r"ghost Value = \{(.*?)\};", text, re.S).group(1)


@functools.lru_cache(maxsize=None)
def source(file):
    return Source(file)


def root_file(crate):
    for name in ("lib", "main"):
        if os.path.exists(f"crates/{crate}/src/{name}.rt"):
            return f"crates/{crate}/src/{name}.rt"
    return None


def module_file(crate, parts):
    return f"crates/{crate}/src/{'/'.join(parts)}.rt" if parts else root_file(crate)


def origin(path):
    """The path of an item in the crate whose own it is, where others pass that crate on."""
    while len(path) > 2 and path[0] in layout.CRATES:
        passed = source(root_file(path[0])).given.get(path[1], ("",))
        if passed[0] not in layout.CRATES:
            break
        path = [*passed, *path[2:]]
    return path


def find(file, name, seen=()):
    """The type or trait that a name stands for in a file of src; None where it is the kit's, or no item."""
    here = source(file)
    if name in here.items:
        return here.items[name]
    if name not in here.brought or (file, name) in seen:
        return None
    path = origin(list(here.brought[name]))
    crate, folder = layout.crate_of(file), file.split("/")[3:-1]
    stem = os.path.basename(file)[:-3]
    if path[0] == "crate":
        place = (crate, path[1:-1])
    elif path[0] == "super":
        place = (crate, folder + path[1:-1])
    elif path[0] in layout.CRATES:
        place = (path[0], path[1:-1])
    else:
        place = (crate, (folder if stem in ("lib", "main") else [*folder, stem]) + path[:-1])
    target = module_file(*place)
    if not target or not os.path.exists(target):
        return None
    return find(target, path[-1], (*seen, (file, name)))


def public_names(crate):
    """The names that a crate gives out, with the file that each stands in at the last; all of a program's."""
    file = root_file(crate)
    if file is None:
        return set()
    if file.endswith("main.rt"):
        return None
    names = set(source(file).given)
    names.update(re.findall(r"^pub (?:struct|enum|trait|type|const|fn) (\w+)", source(file).text, re.M))
    for inner in source(file).open_modules:
        inside = module_file(crate, [inner])
        names.update(source(inside).given)
        names.update(re.findall(r"^pub (?:struct|enum|trait|type|const|fn) (\w+)", source(inside).text, re.M))
    return names


def public_functions():
    """The functions that callers of a crate reach: those that it gives out, and those of types and traits that it does."""
    for crate in layout.CRATES:
        names = public_names(crate)
        for file in layout.source_files(crate):
            for function in source(file).functions:
                if function.is_public and (names is None or (function.owner or function.name) in names):
                    yield function


def functions_named(crate, path):
    """The functions of a crate with this path, also those that it does not give out."""
    return [f for file in layout.source_files(crate) for f in source(file).functions if f.path == path]
