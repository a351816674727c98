#!/usr/bin/env python3
"""How plain documents for people are: words that the glossary of plain words replaces, the length of sentences, and the
reading ease by Flesch.

  plain_words.py            says what is not plain in the documents that are held to it, and in the code of all crates
  plain_words.py FILE..     says it of these files, and their reading ease

Of man pages, of the help texts of mta_lab and of advice on exercises only the words are looked for; of the crates'
README.md, of tasks and of hints all. Of code some of the words are: in comments that document, and in the names of
functions, fields and types.

A sentence is at most 30 words long, and a document's reading ease is at least 60: 206.835 - 1.015 * words a sentence
- 84.6 * syllables a word. Code doesn't count, nor do tables and headings, but for their words; a name in backquotes
counts as one short word."""

import glob
import os
import re
import sys

sys.dont_write_bytecode = True

import crates

ROOT = os.path.dirname(os.path.dirname(os.path.abspath(__file__)))
HELD = ("README.md", "CONTRIBUTING.md", "docs/TUTORIAL.md", "docs/CHEAT_SHEET.md",
        "docs/WRITING_PROGRAMS.md", "docs/LAB.md", "docs/LAB_REFERENCE.md", "docs/GRADING.md", "docs/PAGE.md",
        "docs/PLAY.md", "docs/EDITORS.md", "docs/RATTLE.md", "docs/GLOSSARY.md", "docs/MACHINE.md",
        "docs/FORMATS.md", "docs/PROMISES.md", "docs/ARCHITECTURE.md", "docs/DECISIONS.md", "docs/SPEED.md",
        "CHANGELOG.md", "page/README.md", "exercises/README.md")
HELD_TOO = ("crates/*/README.md", "exercises/*/task.md", "exercises/*/hints.md")
WORDS_ALONE = ("share/man/man1/*.1", "crates/lab_command_line/src/help.rt", "crates/lab_command_line/src/*arguments.rt",
               "exercises/*/advice")
EASE, LONGEST = 60, 30
# a word that readers stumble over, and what to write: those that code has not either, and those of documents alone
OF_CODE_TOO = (
    (r"\bbehind\b", "after, next to"),
    (r"\b(tells|told|telling)\b", "reports, shows, says"),
    (r"\b(goes|go|going) round\b", "loops"),
    (r"\bhands? out\b|\bgives? (it )?back\b|\b(given|giving it) back\b", "returns, releases"),
    (r"\bwish(es|ed)?\b", "requires"),
    (r"\breckon(s|ed)?\b", "computes"),
    (r"\bto and fro\b", "forward and back"),
    (r"\bfor ever\b", "forever"),
    (r"\bstrong sets?\b", "sets of states that cannot be left"),
    (r"\bone behind the other\b", "one after the other"),
)
PLAIN = (
    *OF_CODE_TOO,
    (r"\ba way leads\b|\bways lead\b", "can reach"),
    (r"\bstandstills?\b", "deadlock"),
    (r"\blooked at\b", "explored"),
    (r"\b(exactly|only) where\b", "exactly if, only if"),
    (r"\bnobody (runs|can go on|else)\b", "no stream"),
    (r"\bwhere (it|they|there|this|that|no|a|an|the) (is|are|has|have|says?|can)\b", "if"),
)

# a word of a name in code, and what to write
OF_NAMES = ((r"behind", "after, next"), (r"tell|tells|told|telling", "report, show, say, known, found"),
            (r"wish|wishes|wished", "expectation, required"))
# a function, a field or a parameter on a line of its own, a type
NAMES = re.compile(r"\bfn (\w+)|^\s*(?:pub(?:\([\w: ]+\))? )?([a-z]\w*): |\b(?:struct|enum|trait|type) (\w+)")

# what the core's own documents call a state (docs/GLOSSARY.md, "The field's words")
WORLD = (r"\b[Ww]orlds?\b", "state")
OF_THE_CORE = ("CONTRIBUTING.md", "docs/RATTLE.md", "docs/GLOSSARY.md", "docs/FORMATS.md", "docs/PROMISES.md",
               "docs/ARCHITECTURE.md", "docs/DECISIONS.md", "docs/SPEED.md", "CHANGELOG.md", "page/README.md")


def text_of(path, other=r"\||#|!\["):
    """The lines of a document, without code, and without what begins otherwise than sentences: tables, headings, pictures."""
    with open(path, encoding="utf-8") as file:
        lines, kept, in_code = file.read().splitlines(), [], False
        for line in lines:
            if line.startswith("```"):
                in_code = not in_code
            kept.append("" if in_code or re.match(rf"```|{other}", line) else line)
        return kept


def sentences_of(lines):
    """The sentences of these lines: a paragraph or an item of a list has one at least."""
    text = re.sub(r"`[^`]*`", "it", "\n".join(lines))
    text = re.sub(r"\[([^]]*)\]\([^)]*\)|[*_]", r"\1", text)
    for paragraph in re.split(r"\n\s*\n|\n(?=\s*(?:[-*]|\d+\.) )", text):
        for sentence in re.split(r"(?<=[.!?:])\s+", paragraph.strip()):
            words = re.findall(r"[A-Za-z][A-Za-z'-]*", sentence)
            if words:
                yield words


def syllables(word):
    """How many syllables a word has, nearly: its groups of vowels, but a silent e at its end."""
    word = word.lower()
    count = len(re.findall(r"[aeiouy]+", word))
    if re.search(r"[^aeiouyl]e$|[^td]ed$", word) and count > 1:
        count -= 1
    return max(count, 1)


def ease(sentences):
    words = [word for sentence in sentences for word in sentence]
    return 206.835 - 1.015 * len(words) / len(sentences) - 84.6 * sum(map(syllables, words)) / len(words)


def named(pattern):
    """The files of a pattern, by their paths from the root."""
    return sorted(os.path.relpath(path, ROOT) for path in glob.glob(f"{ROOT}/{pattern}", recursive=True))


def is_of_the_core(path):
    """Whether a document may name the definitions of the proved core."""
    return path in OF_THE_CORE or re.fullmatch(r"crates/\w+/README\.md", path)


def words_of_file(path):
    """The lines of a document, of a man page without its macros, or of a source without its comments and names of code."""
    if path.endswith(".md"):
        return text_of(f"{ROOT}/{path}", r"!\[")
    with open(f"{ROOT}/{path}", encoding="utf-8") as file:
        return [re.sub(r"^\s*//.*|^\.\w+ ?", "", line.rstrip()) for line in file]


def words_at_fault(path, lines):
    """The words in lines of a file that are not plain."""
    for number, line in enumerate(lines, 1):
        for pattern, plain in PLAIN if is_of_the_core(path) else (*PLAIN, WORLD):
            for found in re.finditer(pattern, re.sub(r"`[^`]*`", "", line)):
                yield f"{path}:{number}: '{found[0]}': write {plain}"


def name_at_fault(name):
    """The first word of a name in code that is not plain, and what to write; None where all are."""
    for word in re.findall(r"[A-Z]?[a-z]+", name):
        for pattern, plain in OF_NAMES:
            if re.fullmatch(pattern, word.lower()):
                return word, plain
    return None


def code_at_fault(crate):
    """What is not plain in the documenting comments and the names of a crate's sources; nothing where it is not there."""
    for path in named(f"crates/{crate}/src/**/*.rt"):
        with open(f"{ROOT}/{path}", encoding="utf-8") as file:
            lines = file.read().splitlines()
        for number, line in enumerate(lines, 1):
            comment = re.match(r"\s*//[/!](.*)", line)
            text = re.sub(r"`[^`]*`", "", comment[1]) if comment else ""
            for pattern, plain in OF_CODE_TOO:
                for found in re.finditer(pattern, text, re.I):
                    yield f"{path}:{number}: '{found[0]}': write {plain}"
            for found in NAMES.finditer(re.sub(r"//.*", "", line)):
                if fault := name_at_fault(name := next(filter(None, found.groups()))):
                    yield f"{path}:{number}: the name '{name}' has '{fault[0]}': write {fault[1]}"


def all_crates():
    """Each crate that crates.txt lists."""
    return (name for _, listed in crates.parts() for name, _ in listed)


def faults_of(path):
    """What is not plain in a document, a line each."""
    lines = text_of(f"{ROOT}/{path}")
    yield from words_at_fault(path, text_of(f"{ROOT}/{path}", r"!\["))
    sentences = list(sentences_of(lines))
    for words in sentences:
        if len(words) > LONGEST:
            yield f"{path}: {len(words)} words: {' '.join(words[:12])} .."
    if sentences and ease(sentences) < EASE:
        yield f"{path}: a reading ease of {ease(sentences):.0f}, below {EASE}"


def main():
    for path in sys.argv[1:] or (*HELD, *(path for pattern in HELD_TOO for path in named(pattern))):
        for fault in faults_of(path):
            print(fault)
        if sys.argv[1:]:
            print(f"{path}: a reading ease of {ease(list(sentences_of(text_of(f'{ROOT}/{path}')))):.0f}")
    for path in () if sys.argv[1:] else [path for pattern in WORDS_ALONE for path in named(pattern)]:
        for fault in words_at_fault(path, words_of_file(path)):
            print(fault)
    for crate in () if sys.argv[1:] else all_crates():
        for fault in code_at_fault(crate):
            print(fault)


if __name__ == "__main__":
    main()
