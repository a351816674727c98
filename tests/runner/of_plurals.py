"""Words that are counted, in all that cases have printed (plurals.py)."""

import checks
import plurals
from of_lab import lab

# what is printed by mistake, and what is not
NO = (b"0 of 1 points", b"made.html: more than 1 states", b"1 more of 2 lines, 1 lines")
YES = (b"0 of 1 point", b"11 points", b"2.1 steps", b"0 of 2 points", b"not at most 1 words", b"1 streams 2 | 3", b"1 wordsmith")


@checks.others("words/counted")
def counted():
    """What all cases have printed until now: tables and kinds come in the order of the alphabet."""
    for text in (*NO, *YES):
        yield text.decode(), text in NO, bool(plurals.WRONG.search(text))
    lab("view", "lock.asm", "lock.ends.schedule")
    yield "texts are kept", True, plurals.SEEN.count > 0
    yield "all texts", [], plurals.SEEN.faulty[:10]
