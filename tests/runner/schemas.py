"""The JSON Schemas of share/schema, read by a small validator for the words that they use, so that no test hangs on what
a machine has. A schema becomes a function that takes a value and gives what is wrong with it: a text, or None."""

import functools
import json
import os
import re
import threading

import table

FOLDER = os.path.join(table.ROOT, "share/schema")
ENDING = ".schema.json"
# the words that say nothing of values, and those that others beside them read
SILENT = {"$schema", "title", "description", "$defs", "items", "minItems"}
TYPES = {"object": dict, "array": list, "string": str, "boolean": bool, "integer": int, "null": type(None)}


def names():
    """The kinds of objects, which name the schemas."""
    found = (name.removesuffix(ENDING) for name in os.listdir(FOLDER) if name.endswith(ENDING))
    return sorted(set(found) - {"parts"})


@functools.lru_cache(None)
def text(name):
    """A schema."""
    with open(os.path.join(FOLDER, name + ENDING), encoding="utf-8") as file:
        return json.load(file)


def is_of(kind, value):
    """Whether a value is of a type; true and false are no numbers."""
    return isinstance(value, TYPES[kind]) and (kind != "integer" or not isinstance(value, bool))


def same(one, other):
    """Whether two values are the same; true is not 1."""
    return json.dumps(one) == json.dumps(other)


def first(checks, value):
    """The first fault that checks find."""
    for check in checks:
        fault = check(value)
        if fault:
            return fault
    return None


class Reader:
    """The checks of the schema of a name."""

    def __init__(self, name):
        self.name = name

    def check(self, schema):
        """The check of a schema; a word that nobody reads is an error."""
        if schema is False:
            return lambda value: f"{value!r} has no place here"
        checks = []
        for word, given in schema.items():
            if word not in SILENT:
                checks.append(getattr(self, "of_" + word.replace("$", ""))(given, schema))
        if "items" in schema:
            checks.append(self.items(schema))
        return lambda value: first(checks, value)

    def of_ref(self, given, _):
        file, _, path = given.partition("#/$defs/")
        return lambda value: part(file.removesuffix(ENDING) or self.name, path)(value)

    def of_type(self, given, _):
        kinds = given if isinstance(given, list) else [given]
        return lambda value: None if any(is_of(kind, value) for kind in kinds) else f"{value!r} is no {given}"

    def of_const(self, given, _):
        return lambda value: None if same(value, given) else f"{value!r} is not {given!r}"

    def of_enum(self, given, _):
        return lambda value: None if any(same(value, it) for it in given) else f"{value!r} is none of {given}"

    def of_pattern(self, given, _):
        # (as in other languages the end is the end of the text)
        search = re.compile(re.sub(r"\$$", r"\\Z", given), re.ASCII).search
        return lambda value: None if not isinstance(value, str) or search(value) else f"{value!r} is not as {given}"

    def of_minimum(self, given, _):
        return lambda value: None if not is_of("integer", value) or value >= given else f"{value} is below {given}"

    def of_maximum(self, given, _):
        return lambda value: None if not is_of("integer", value) or value <= given else f"{value} is above {given}"

    def of_multipleOf(self, given, _):
        return lambda value: None if not is_of("integer", value) or value % given == 0 else f"{value} is not by {given}"

    def of_uniqueItems(self, given, _):
        return lambda value: None if not given or len(set(map(json.dumps, value))) == len(value) else f"{value} has one twice"

    def of_anyOf(self, given, _):
        checks = [self.check(schema) for schema in given]
        return lambda value: None if any(not check(value) for check in checks) else f"{value!r} is none of {len(checks)} forms"

    def of_oneOf(self, given, _):
        checks = [self.check(schema) for schema in given]
        return lambda value: (None if sum(not check(value) for check in checks) == 1
                              else f"{value!r} is not just one of {len(checks)} forms")

    def of_required(self, given, _):
        return lambda value: next((f"{name} is missing" for name in given if name not in value), None)

    def of_properties(self, given, _):
        checks = {name: self.check(schema) for name, schema in given.items()}
        return lambda value: next((f"{name}: {fault}" for name, check in checks.items()
                                   if name in value and (fault := check(value[name]))), None)

    def of_propertyNames(self, given, _):
        check = self.check(given)
        return lambda value: next(filter(None, map(check, value)), None)

    def of_additionalProperties(self, given, schema):
        known, check = set(schema.get("properties", ())), self.check(given)
        return lambda value: next((f"{name}: {fault}" for name, it in value.items()
                                   if name not in known and (fault := check(it))), None)

    def of_prefixItems(self, given, schema):
        checks = list(map(self.check, given))
        least = schema.get("minItems", 0)
        return lambda value: (f"{value} is too short" if len(value) < least else
                              next((f"at {at}: {fault}" for at, (check, it) in enumerate(zip(checks, value))
                                    if (fault := check(it))), None))

    def items(self, schema):
        """That of the items behind those that have schemas of their own."""
        skipped, check = len(schema.get("prefixItems", ())), self.check(schema["items"])
        least = schema.get("minItems", 0)
        return lambda value: (f"{value} is too short" if len(value) < least else
                              next((f"at {skipped + at}: {fault}" for at, it in enumerate(value[skipped:])
                                    if (fault := check(it))), None))


@functools.lru_cache(None)
def part(name, path):
    """The check of a part of a schema, or of all of it."""
    return Reader(name).check(text(name)["$defs"][path] if path else text(name))


def kind_of(value):
    """The kind of an object, as it says itself."""
    return value.get("object") if isinstance(value, dict) else None


def fault_of(value):
    """What is wrong with an object, by the schema of its kind; None where nothing is."""
    kind = kind_of(value)
    if kind not in names_known():
        return f"no schema has the name {kind!r}"
    return part(kind, "")(value)


@functools.lru_cache(None)
def names_known():
    return frozenset(names())


class Seen:
    """All objects that were printed: how many there are of each kind, and those with a fault."""

    def __init__(self):
        self.counts, self.faulty, self.lock = {}, [], threading.Lock()

    def line(self, line):
        """Also a line that was printed."""
        value = json.loads(line)
        fault = fault_of(value)
        with self.lock:
            self.counts[kind_of(value)] = self.counts.get(kind_of(value), 0) + 1
            if fault:
                self.faulty.append(f"{fault}: {line[:300]!r}")

    def call(self, words, printed):
        """Also what a call printed that was asked for objects."""
        if "--json" in words:
            for line in printed.splitlines():
                if line.startswith(b"{"):
                    self.line(line)


SEEN = Seen()
