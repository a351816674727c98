"""What the words of a contract reach: the definitions of specs/ and the types of src that they stand for, those of the
words of these, and so on; and the kit's names that are met on the way."""

import re

import layout
import sources
import specs


class Reach:
    def __init__(self):
        self.definitions, self.items, self.kit = {}, {}, {}
        self.open = []

    def close(self):
        while self.open:
            self.open.pop()()
        return self

    def add_definition(self, definition):
        key = definition.module.file, definition.name
        if key not in self.definitions:
            self.definitions[key] = definition
            self.open.append(lambda: self.add_words(specs.words_of(definition), definition.module.names,
                                                    definition.module, None))

    def add_item(self, item):
        key = item.source.file, item.name
        if key in self.items:
            return
        self.items[key] = item
        if item.name in item.source.models:
            words = specs.free_words(item.source.models[item.name], set())
            self.open.append(lambda: self.add_words(words, item.source.ghost, None, item.source))
        elif item.kind == "trait":
            for function in item.source.functions:
                if function.owner == item.name:
                    self.open.append(lambda function=function: self.add_contract(function))
        else:
            self.open.append(lambda: self.add_types(item.source, item.text))

    def add_types(self, source, text):
        """The types that a text of src names."""
        text = re.sub(r"//.*", "", text)
        for name in set(re.findall(r"\b[A-Z]\w*", text)):
            found = sources.find(source.file, name)
            if found and found.kind != "const":
                self.add_item(found)

    def add_contract(self, function):
        self.add_types(function.source, function.signature)
        if function.owner:
            owner = sources.find(function.source.file, function.owner)
            if owner:
                self.add_item(owner)
        text = re.sub(r"//.*", "", function.clauses)
        for clause in re.findall(r"\{(.*?)\}(?=\s*(?:requires|ensures|\{|;|$))", text, re.S):
            self.add_words(specs.free_words(clause, {"result"}), function.source.ghost, None, function.source)

    def add_words(self, words, names, module, source):
        """Words of a definition, or of a clause in a file of src."""
        for word in set(words):
            first, _, rest = word.partition(".")
            if first in names.paths:
                self.add_path(names.paths[first])
            elif first in names.modules:
                self.add_path(f"{names.modules[first]}.{rest.split('.')[0]}")
            elif module and module.find(first):
                self.add_definition(module.find(first))
            elif source and first[:1].isupper() and sources.find(source.file, first):
                self.add_item(sources.find(source.file, first))
        shown = set(words)
        for name, path in names.paths.items():
            parts = [part for part in name.split("◌") if part]
            if "◌" in name and parts and shown.issuperset(parts):
                self.add_path(path)

    def add_path(self, path):
        parts = path.split(".")
        module, name = ".".join(parts[:-1]), parts[-1]
        if len(parts) > 4 and parts[1] in layout.CRATES and parts[3] == "declared":
            inside = parts[4:]
            if "TheVariants" in inside:
                inside = inside[:inside.index("TheVariants")] + [None]
            file = sources.module_file(parts[1], inside[:-2])
            item = sources.source(file).items.get(inside[-2])
            if item is None:
                raise SystemExit(f"{path}: no such type in {file}")
            self.add_item(item)
            return
        file = specs.file_of(module)
        if file is None:
            self.kit.setdefault(module, set()).add(name)
            return
        found = specs.module(file).find(name)
        if found is None and name in specs.module(file).names.paths:
            self.add_path(specs.module(file).names.paths[name])
            return
        if found is None:
            raise SystemExit(f"{path}: no such definition in {file}")
        self.add_definition(found)


def of(functions):
    reach = Reach()
    for function in functions:
        reach.add_contract(function)
    return reach.close()
