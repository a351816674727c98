"""The objects that are printed, against the schemas of their kinds (share/schema): those of some commands of which each
has objects of other kinds, and all that any case has printed until then."""

import copy
import glob
import importlib.util
import json
import os
import tempfile

import checks
import schemas
import table
import tool
from of_lab import EXAMPLES, lab
from of_pages import run_in, written

CLAIMS = b"word 8 4\nnever word 8 is 3\n"
SPINS = b" .entry spin\n .entry wait\n .data 0, 0\nspin: SKIP ALWAYS, 0, spin\nwait: LOAD.S r1, r0, 0\n QUIT\n"
# commands that print objects, and the kinds of these; one that is starred comes once or more
KINDS = {
    "check --json grading/submissions/misspelt.asm count.asm": "message*",
    "view lock.asm lock.ends.schedule --json": "run step* end",
    "view trap_handler.asm trap_handler.ends.schedule --json": "run step* end",
    "compare lock.asm lock.ends.schedule lock.lost_update.schedule --json": "parting difference end end",
    "compare lock.asm lock.ends.schedule lock.ends.schedule --json": "end end",
    "survey lock.asm --seeds 5 --json": "outcome*",
    "survey philosophers.asm --seeds 20 --json": "outcome*",
    "survey lock.asm --seeds 5 --explore --expect claimless --json": "outcome* coverage",
    "survey lock.asm --seeds 5 --expect unshown --json": "outcome* unshown",
    "explore grading/submissions/racing.asm --expect unshown --json": "search search_end* unshown",
    "explore lock.asm --states 50 --json": "search",
    "explore grading/submissions/racing.asm --expect expected --json": "search search_end*",
    "explore spins.asm --json": "search search_end",
    "view spins.asm --steps 6 --round 2 --json": "run step* round end",
    "explore spins.asm --waiting --json": "search search_end waiting starving",
}


@checks.others("lab/objects")
def objects():
    """What is printed as JSON: an object a line, of the kinds that docs/LAB_REFERENCE.md names, and as the schemas of these say."""
    for line, kinds in KINDS.items():
        yield line, lambda line=line, kinds=kinds: (True, are_of_kinds(objects_of(line), kinds))
    yield "docs/LAB_REFERENCE.md", None, schemas.fault_of(example_of("LAB_REFERENCE.md"))
    yield "page", lambda: (None, schemas.fault_of(run_in(written("page", "lock.asm", "lock.lost_update.schedule")[1])))


def example_of(name):
    """The object that a document shows."""
    with open(os.path.join(table.ROOT, "docs", name), encoding="utf-8") as file:
        return json.loads(file.read().partition("```json\n")[2].partition("```")[0])


def objects_of(line):
    """The objects that a command prints in a folder with the examples."""
    with tempfile.TemporaryDirectory(prefix="mta-case-") as folder:
        for path in glob.glob(os.path.join(EXAMPLES, "*")):
            os.symlink(path, os.path.join(folder, os.path.basename(path)))
        for name, text in (("expected", CLAIMS), ("claimless", b"word 8 4\n"), ("unshown", b"some word 8 is 77\n"),
                           ("spins.asm", SPINS)):
            tool.write(os.path.join(folder, name), text)
        return [json.loads(text) for text in lab(*line.split(), folder=folder).out.splitlines()]


def are_of_kinds(found, kinds):
    """Whether objects are of these kinds in this order; else what is wrong with them."""
    faults = list(filter(None, map(schemas.fault_of, found)))
    if faults:
        return faults[:3]
    told = []
    for value in found:
        kind = schemas.kind_of(value)
        starred = kind + "*"
        told += [] if told[-1:] == [starred] else [starred if starred in kinds.split() else kind]
    return " ".join(told) == kinds or told


@checks.others("lab/schemas")
def the_schemas():
    """That the schemas refuse what is not as they say, and are schemas."""
    for line in KINDS:
        yield line, lambda line=line: ([], [wrong for value in objects_of(line)[:40] for wrong in passed_wrongly(value)])
    yield "in other words", lambda: ([], by_others())


def passed_wrongly(value):
    """Objects with one fault that are not refused."""
    wrong = [{**value, "more": 1}, *nested(value)]
    for name in value:
        wrong.append({**value, name: 0.5})
        # (a step that did not ask the memory has no reference)
        if name != "ref":
            wrong.append({key: it for key, it in value.items() if key != name})
    return [one for one in wrong if not schemas.fault_of(one)]


def nested(value):
    """The object with one more member in an object that is a part of it, or one more item in a list of fixed length."""
    for name, it in value.items():
        if isinstance(it, list) and it and isinstance(it[0], dict):
            changed = copy.deepcopy(value)
            changed[name][0]["more"] = 1
            yield changed
        if isinstance(it, list) and it and isinstance(it[0], list):
            changed = copy.deepcopy(value)
            changed[name][0].append(1)
            yield changed


def by_others():
    """What Python's jsonschema says of the schemas and of the same objects; nothing where it is not installed."""
    if importlib.util.find_spec("jsonschema") is None:
        return []
    import jsonschema
    import referencing

    files = {name: schemas.text(name) for name in [*schemas.names(), "parts"]}
    registry = referencing.Registry().with_resources(
        [(name + schemas.ENDING, referencing.Resource.from_contents(text)) for name, text in files.items()])
    found = []
    for name, text in files.items():
        jsonschema.Draft202012Validator.check_schema(text)
    readers = {name: jsonschema.Draft202012Validator(text, registry=registry) for name, text in files.items()}
    for line in KINDS:
        for value in objects_of(line)[:40]:
            found += [f"{line}: {error.message[:200]}" for error in readers[schemas.kind_of(value)].iter_errors(value)]
    return found


@checks.others("schemas/all_objects")
def all_objects():
    """All objects that cases have printed until now: tables and kinds come in the order of the alphabet."""
    lab("view", "lock.asm", "lock.ends.schedule", "--json")
    yield "objects are kept", True, schemas.SEEN.counts.get("step", 0) > 0
    yield "all objects", [], schemas.SEEN.faulty[:10]
