"""The words of `mta_lab debug` that rlwrap completes: those of crates/lab_debugger, other names of them that have two
letters or more, and what stands after another word."""

import re

from commands import ROOT

SOURCES = ROOT / "crates/lab_debugger/src"


def completion():
    words, aliases = ((SOURCES / name).read_text(encoding="utf-8") for name in ("debug_words.rt", "debug_aliases.rt"))
    help_text = re.search(r'const HELP: &str = "\\\n(.*?)";', words, re.DOTALL)[1]
    found = re.findall(r'DebugWord::\w+ => "([^"]+)"', words)
    # `WORD: WHAT` or `WORD [P.S]: WHAT` in the text of help
    found += re.findall(r"([a-z]+)(?: \[P\.S\])?:", help_text)
    found += [name for name in re.findall(r'\("([^"]+)", DebugWord::', aliases) if len(name) > 1]
    return "".join(f"{word}\n" for word in dict.fromkeys(found))
