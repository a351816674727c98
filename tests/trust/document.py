"""TRUST.md: what the roots reach, in the order of reading."""

import textwrap

import layout
import reach
import sources

# the contracts that README.md's list of what is proved rests on, each by its crate; docs/PROMISES.md has them with their
# clauses ("What README.md names"), and named.py compares the two
ROOTS = (
    # mta_sim: the headline's first half, its second half, what stands below and above them
    "machine Machine::run", "mta_engines one_machine", "memory_lock threaded", "mta_sim run_tool",
    # every schedule: what a search has, how a run ends and who waits, what stands on a search
    "schedule_space explore", "schedule_space explore_ends", "end_kinds end_kind_of",
    "stream_waits waits_of",
    "stream_waits circle_of", "space_graphs ends_ahead", "busy_streams first_busy", "terminal_components terminal_roots",
    "terminal_components shortest_cycle",
    # what is expected, and whether it is so
    "expectation_files read_requirements", "expectations is_met", "claims Claim::holds", "claims Claim::is_shown",
    "program_rules is_kept",
    # runs: what went wrong in one, where two differ
    "run_findings lost_updates", "run_findings unread_stores", "run_findings torn_reads", "run_findings Findings::of",
    "whole_runs first_difference",
    # seeds, and verdicts
    "seed_outcomes outcomes_of", "seed_verdicts first_flaw", "seed_verdicts first_unshown_by_seeds", "schedule_verdicts is_right",
    "space_ends space_ends", "program_searches explore_program", "judgements judged_submission",
    "submission_rows row_on")
HEADLINE = ("mta_engines one_machine", "memory_lock threaded")

INTRODUCTION = """\
# What to trust

`make trust` writes this page, and `make test` tests that it is whole: it lists each definition that its functions and
definitions name. It is for an auditor. The check proves that the code meets its contracts, so what is left to read is
what the contracts say. That is the clauses of the functions below, and the definitions that their words stand for.

What has to be trusted:

- **The toolchain**: the prover and compiler of a Rattle kit whose logic is `{logic}`, and the compiler and
  linker behind them.
- **The C library**, and the operating system below it: files, terminals, memory and threads.
- **The kit's statements**: what the contracts of its libraries say of their functions, and what the words mean that the
  last part of this page lists.
- **The handwritten definitions below**: that they say what docs/MACHINE.md and docs/FORMATS.md say.
- **HANDLES**: `{handles}` What may wait owes no return, and no clause says that a thread runs
  or that a turn comes.

Not to be trusted, since the check decides: the bodies of functions, the files in proofs/, and how a type keeps its
value (`view` and `invariant` of its `impl Model`), of which callers see the `Value` alone.

Names are followed by the `use` lines of the file in which they stand: from the clauses of a function and the types of
its signature to the definitions and to the `Value` of each type, and from the words of those on. Lines are those of the
definitions with the comments right above them; imports and blank lines between definitions are not counted. The types
of `src/` that the definitions name are counted by themselves, with their docs: they say which fields and cases there
are.
"""


def root(named):
    """The function of a crate that a root names, "CRATE PATH". One that its crate does not give out has a contract too."""
    found = sources.functions_named(*named.split())
    if len(found) != 1:
        raise SystemExit(f"{named}: {len(found)} functions have this name")
    return found[0]


def shown(named):
    """A root as the page shows it: by its path, which no other root has."""
    return named.split()[1]


def sentence(comment):
    """The first sentence of a comment, as a cell of a table; empty where it has none."""
    text = " ".join(comment)
    for at in range(len(text) - 1):
        if text[at] in ".:" and text[at + 1] == " " and text[at + 2:at + 3].isupper():
            text = text[:at]
            break
    return text.rstrip(".").replace("|", "\\|")


def entries(found):
    """The definitions and types of a reach, in the order of reading, each by its file and name."""
    both = {key: (d.line, d.lines, d.comment, "") for key, d in found.definitions.items()}
    both.update({key: (i.line, i.lines, i.comment, i.kind) for key, i in found.items.items()})
    return dict(sorted(both.items(), key=lambda entry: layout.place(entry[0][0], entry[1][0])))


def sums(found):
    definitions, items = found.definitions, found.items
    return (len(definitions), sum(d.lines for d in definitions.values()), len({file for file, _ in definitions}),
            len(items), sum(i.lines for i in items.values()), len({file for file, _ in items}))


def table(heads, rows):
    numbers = "|".join("---" for _ in heads)
    return ["| " + " | ".join(heads) + " |", f"|{numbers}|"] + ["| " + " | ".join(map(str, row)) + " |" for row in rows]


def sum_table(reaches, functions):
    heads = ("root", "definitions", "lines", "files", "types of src", "lines", "files")
    rows = [(f"`{name}`", *map("{:,}".format, sums(found))) for name, found in reaches.items()]
    headline = [shown(named) for named in HEADLINE]
    both = reach.of([functions[name] for name in headline])
    rows.append((" and ".join(f"`{name}`" for name in headline) + ", the headline", *map("{:,}".format, sums(both))))
    return table(heads, rows)


def section(name, function, reaches, listed):
    """What a root reaches, but for what stands under the roots before it."""
    mine = entries(reaches[name])
    new = [(key, entry) for key, entry in mine.items() if key not in listed]
    old = len(mine) - len(new)
    lines = ["", f"## `{name}`", "", f"`{function.source.file}`, line {function.line}."]
    if old:
        lines += textwrap.wrap(f"{old} of the {len(mine)} definitions and types that it reaches stand under the roots "
                               f"above, where a row names it; these are the others.", 120)
    later = list(reaches)[list(reaches).index(name) + 1:]
    file, rows = None, []
    heads = ("line", "definition", "what it is") + (("also reached from",) if later else ())
    for (where, word), (line, _, comment, kind) in new + [((None, None), (0, 0, "", ""))]:
        if where != file:
            if rows:
                lines += ["", f"### {file}", ""] + table(heads, rows)
            file, rows = where, []
        if where:
            also = [f"`{other}`" for other in later if (where, word) in listed_keys(reaches[other])]
            entry = f"{kind} `{word}`".strip()
            rows.append((line, entry, sentence(comment)) + ((", ".join(also) or "none",) if later else ()))
    listed.update(key for key, _ in new)
    return lines


def listed_keys(found):
    return found.definitions.keys() | found.items.keys()


def kit_part(reaches):
    """The names of the kit's libraries that the definitions and clauses use, by the module that has them."""
    modules = {}
    for found in reaches.values():
        for module, names in found.kit.items():
            modules.setdefault(module, set()).update(names)
    lines = ["", "## Words of the kit", "",
             "Where the words above end. The kit's guides say what each means (`rt lemma NAME` prints it).", ""]
    rows = [(f"`{module}`", " ".join(f"`{name}`" for name in sorted(names)))
            for module, names in sorted(modules.items())]
    return lines + table(("module", "words"), rows)


def document(logic):
    functions = {shown(named): root(named) for named in ROOTS}
    if len(functions) < len(ROOTS):
        raise SystemExit("two roots have one path")
    reaches = {name: reach.of([function]) for name, function in functions.items()}
    with open("HANDLES", encoding="utf-8") as text:
        handles = text.read().strip()
    lines = INTRODUCTION.format(logic=logic, handles=handles).splitlines()
    lines += ["", "## How much it is", ""] + sum_table(reaches, functions)
    listed = set()
    for name, function in functions.items():
        lines += section(name, function, reaches, listed)
    return "\n".join(lines + kit_part(reaches)) + "\n"


def without_sentence():
    """The definitions and types that a root reaches and that have no comment."""
    found = reach.of([root(name) for name in ROOTS])
    return [(*key, line) for key, (line, _, comment, _) in entries(found).items() if not sentence(comment)]
