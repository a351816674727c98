"""The commands of mta_lab and their arguments: the table `COMMANDS` of crates/lab_command_line, of its sources."""

import re
from dataclasses import dataclass, field
from pathlib import Path

ROOT = Path(__file__).resolve().parent.parent.parent
SOURCES = ROOT / "crates/lab_command_line/src"
TOKEN = re.compile(r'\s+|//[^\n]*|("(?:[^"\\]|\\.)*"|\w+(?:::\w+)*|.)', re.DOTALL)


@dataclass
class Value:
    """What a value is: `kind` is words, files, folders or text; `words` are those that are offered, `endings` how the
    names of files end, and `is_fixed` says that no other word is taken."""
    kind: str
    words: list = field(default_factory=list)
    endings: list = field(default_factory=list)
    is_fixed: bool = False


@dataclass
class Argument:
    """An argument of a command. `form` is Needed, Optional, Several, AnyNumber, Name, Flag or Option. A flag has no value. Only
    an option has a `presence`: Free, Needed, NeededWithout, Without or With. `others` are those that the form or the
    presence names."""
    name: str
    about: str
    form: str
    value: Value = None
    value_name: str = None
    presence: str = "Free"
    others: list = field(default_factory=list)

    @property
    def is_option(self):
        return self.form in ("Flag", "Option")

    @property
    def excluded(self):
        """The names of the options that it does not go with, by its own line of the table."""
        return self.others if self.form in ("Optional", "Flag") or self.presence in ("Without", "NeededWithout") else []


@dataclass
class Command:
    """A command, with its arguments in the order of the table."""
    name: str
    about: str
    arguments: list

    @property
    def options(self):
        return [it for it in self.arguments if it.is_option]

    @property
    def positions(self):
        return [it for it in self.arguments if not it.is_option]


def text_of(literal):
    """The text of a literal of the language."""
    held = re.sub(r"\\\n\s*", "", literal[1:-1])
    return re.sub(r"\\(.)", lambda it: {"n": "\n", "t": "\t"}.get(it[1], it[1]), held)


class Table:
    """The constants of the crate. An expression is a text, a number, a list, a tuple of a constructor and its list or
    dictionary of fields, or the path of what is no constant of the crate."""

    def __init__(self):
        self.constants, self.imports, self.module = {}, {}, None
        for path in SOURCES.glob("*.rt"):
            source = path.read_text(encoding="utf-8")
            for name, held in re.findall(r"(?ms)^(?:pub\(crate\) )?const (\w+): [^=]*=\s(.*?);$", source):
                self.constants[path.stem, name] = held
            for module, names in re.findall(r"use crate::(\w+)::(\{[^}]*\}|\w+);", source):
                for name in re.findall(r"\w+", names):
                    self.imports[path.stem, name] = module

    def constant(self, module, name):
        """What a constant of a module is."""
        reader = Table.__new__(Table)
        reader.constants, reader.imports, reader.module = self.constants, self.imports, module
        reader.tokens = [it for it in TOKEN.findall(self.constants[module, name]) if it]
        return reader.expression()

    def expression(self):
        held = self.primary()
        while self.tokens[:1] in (["/"], ["as"]):
            self.tokens.pop(0)
            held = f"{held} {self.primary()}"
        return held

    def primary(self):
        token = self.tokens.pop(0)
        if token == "&":
            return self.primary()
        if token.startswith('"'):
            return text_of(token)
        if token == "[":
            return self.listed("]")
        if self.tokens[:1] == ["("]:
            self.tokens.pop(0)
            return (token, self.listed(")"))
        if self.tokens[:1] == ["{"]:
            self.tokens.pop(0)
            return (token, self.fields())
        return self.named(token)

    def named(self, path):
        """What a path names."""
        module, _, last = path.rpartition("::")
        if not module:
            module = self.module if (self.module, path) in self.constants else self.imports.get((self.module, path))
        if (module, last) in self.constants:
            return self.constant(module, last)
        if (SOURCES / f"{module}.rt").exists():
            raise ValueError(f"{path} of {self.module} is no constant")
        return path

    def listed(self, end):
        """The expressions up to the end of a list."""
        found = []
        while self.tokens[0] != end:
            found.append(self.expression())
            if self.tokens[0] == ",":
                self.tokens.pop(0)
        self.tokens.pop(0)
        return found

    def fields(self):
        """The fields of a struct, up to its end."""
        found = {}
        while self.tokens[0] != "}":
            name = self.tokens.pop(0)
            self.tokens.pop(0)
            found[name] = self.expression()
            if self.tokens[0] == ",":
                self.tokens.pop(0)
        self.tokens.pop(0)
        return found


def explained_words():
    """The words that have a page of `explain`, as docs/words/make.py takes them."""
    pages = [path.read_text(encoding="ascii") for path in sorted((ROOT / "docs/words").glob("*.txt"))]
    return list(dict.fromkeys(" ".join(line for page in pages for line in re.findall(r"(?m)^= (.*)", page)).split()))


def exercises():
    """The numbers of the exercises."""
    return sorted(int(path.name[:2]) for path in (ROOT / "exercises").glob("[0-9][0-9]_*"))


def value_of(kind):
    """The value of a kind of the table."""
    name, held = kind if isinstance(kind, tuple) else (kind, [])
    match name.removeprefix("ValueKind::"):
        case "File":
            return Value("files", endings=held[0])
        case "Folder":
            return Value("folders")
        case "OneOf":
            return Value("words", held[0], is_fixed=True)
        case "OneOfOrOther":
            return Value("words", held[0])
        case "Explained":
            return Value("words", explained_words())
        case "Exercise":
            return Value("words", [str(number) for number in exercises()])
        case "Number" | "Text" | "Operand":
            return Value("text")
    raise ValueError(f"no value is of the kind {name}")


def argument_of(held):
    """The argument of an expression."""
    name, about, (form, parts) = held[1]
    form = form.removeprefix("Form::")
    if form == "Flag":
        return Argument(name, about, form, others=parts[0])
    if form != "Option":
        return Argument(name, about, form, value_of(parts[0]), name, others=parts[1] if form == "Optional" else [])
    value_name, kind, presence = parts
    presence, others = presence if isinstance(presence, tuple) else (presence, [[]])
    others = others[0] if isinstance(others[0], list) else others
    return Argument(name, about, form, value_of(kind), value_name, presence.removeprefix("Presence::"), others)


def commands():
    """The commands, in the order of the help, and the option that all have."""
    table = Table()
    found = [Command(it["name"], it["about"], [argument_of(argument) for argument in it["arguments"]])
             for _, it in table.constant("commands", "COMMANDS")]
    return found, argument_of(table.constant("parsers", "COLOUR"))
