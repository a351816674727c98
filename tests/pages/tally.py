"""What held, what did not, and what could not be looked at."""

passed = 0
failed = 0
skipped = []
# letters that are printed of what was seen in place of what was to be
SHOWN = 600


def check(what, holds, seen=""):
    """Counts a check, and prints one that does not hold with what was seen."""
    global passed, failed
    if holds:
        passed += 1
        return
    failed += 1
    print(f"not so: {what}: {str(seen)[:SHOWN]}", flush=True)


def same(what, seen, wanted):
    """Counts a check that two values are the same."""
    check(what, seen == wanted, f"{seen!r}, and not {wanted!r}")


def skip(words):
    """Notes once what could not be looked at, and why."""
    if words not in skipped:
        skipped.append(words)
