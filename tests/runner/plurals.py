"""Words that are counted, in what the lab prints: after a 1 stands one thing."""

import re
import threading

WORDS = b"points|messages|seeds|states|steps|lines|words|streams|cases|schedules|submissions"
# (expectations say "at most 1 words" for any number, a comment of an example has "Word 1 points", and a difference of
# runs has "1 streams 2 | 3": how many streams processor 1 has)
WRONG = re.compile(rb"(?<![\w.-])(?<!at most )(?<!at least )(?<![Ww]ord )1 (?:" + WORDS + rb")\b(?! \d+ \|)")


class Seen:
    """What was printed: how many texts, and the lines with a wrong word."""

    def __init__(self):
        self.count, self.faulty, self.lock = 0, [], threading.Lock()

    def text(self, words, printed):
        """Also what a call of these words printed, or wrote into a file."""
        found = [line[:300] for line in printed.splitlines() if WRONG.search(line)] if WRONG.search(printed) else []
        with self.lock:
            self.count += 1
            self.faulty += [f"{' '.join(words)}: {line!r}" for line in found]


SEEN = Seen()
