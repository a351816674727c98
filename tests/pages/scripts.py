"""The parts of the tests that ask what the scripts of the pages say: in a browser as all others, or under Node."""

import of_ends
import of_hints
import of_page_sentences
import of_readme
import of_sentences
import of_verdicts
import of_waiting
import of_why
import stand_in

ALL = {
    "verdicts": of_verdicts.part,
    "ends": of_ends.part,
    "hints": of_hints.part,
    "readme": of_readme.part,
    "sentences": of_sentences.part,
    "page_sentences": of_page_sentences.part,
    "why": of_why.part,
    "waiting": of_waiting.part,
}
opened = stand_in.opened
