"""What is done with each table of cases. A module of this folder has the tables of one command or kind, and names for
each a function:

- by `@each(FILE)` one that takes the fields of a row and gives (wanted, got);
- by `@whole(FILE)` one that takes the list of all rows' fields, and gives such a pair for each row, in order;
- by `@others(NAME)` one for cases that are no table: it takes nothing and gives for each (name of the case, wanted,
  got), or (name of the case, a function that takes nothing and gives (wanted, got)); these are called side by side. The
  function may give (a better name, wanted, got), such as the line that shows the difference.

A case holds where what it wants is what it got."""

EACH, WHOLE, OTHERS = {}, {}, {}


def passed_over(name, program):
    """Says that cases are passed over, since a program is not installed."""
    print(f"{name}: not run, since {program} is not here", flush=True)


def each(file):
    return lambda check: EACH.setdefault(file, check)


def whole(file):
    return lambda check: WHOLE.setdefault(file, check)


def others(name):
    return lambda check: OTHERS.setdefault(name, check)
