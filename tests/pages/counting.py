"""Runs parts of the tests, and counts what they check."""

import tally


def run(parts, opened, names, clock):
    """Runs the parts of these names, each with a page of its own. The answer is a status."""
    for name in names:
        begin = clock()
        before = (tally.passed, tally.failed)
        with opened() as page:
            parts[name](page)
        held, broken = tally.passed - before[0], tally.failed - before[1]
        print(f"{name}: {held} passed, {broken} failed, {clock() - begin:.0f} s", flush=True)
    for words in tally.skipped:
        print(f"skipped: {words}")
    print(f"{tally.passed} passed, {tally.failed} failed")
    return 1 if tally.failed else 0
