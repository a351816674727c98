"""Runs transcripts (transcripts.py), each in a folder of its own that has the files that it names, and no others."""

import functools
import os
import tempfile

import checks
import plurals
import table
import tool
import transcripts

PROGRAMS = dict(zip(transcripts.PROGRAMS, (tool.PROGRAM, tool.LAB)))


def call_of(case, folder):
    """Makes the files of a transcript in a folder, calls its program there, and gives how the call ended."""
    for part in case.of("= example"):
        os.symlink(os.path.join(table.ROOT, "examples", part.name), os.path.join(folder, part.name))
    for part in case.of("= file"):
        path = os.path.join(folder, part.name)
        os.makedirs(os.path.dirname(path), exist_ok=True)
        tool.write(path, part.text.data)
    program, *words = case.words
    return tool.call(*words, folder=folder, program=PROGRAMS[program])


def judged(file):
    """The line of a transcript from which on something else was got, with what was wanted there; else its last line."""
    case = transcripts.Transcript(file)
    with tempfile.TemporaryDirectory(prefix="mta-case-") as folder:
        ended = call_of(case, folder)
        left = [(part.text, tool.read(os.path.join(folder, part.name))) for part in case.of("= leaves")]
    for _, got in left:
        plurals.SEEN.text(case.words, got or b"")
    (command,), (status,) = case.of("$"), case.of("= status")
    errors = [part.text for part in case.of("= standard error")] or [transcripts.Text([], status.number)]
    for text, got in [(command.text, ended.out), (errors[0], ended.err), *left]:
        if got != text.data:
            return differing(case, text, got)
    return case.place(status.number), case.status, ended.status


def differing(case, text, got):
    """The first line of a text that is not what was got, and both."""
    if got is None:
        return case.place(text.begins[0][1] - 1), "a file", "none"
    begin, number = text.line_of(len(os.path.commonprefix([text.data, got])))
    return case.place(number), one_line(text.data, begin), one_line(got, begin)


def one_line(text, begin):
    """A text from a byte on, up to the end of its line."""
    line, end, _ = text[begin:].partition(b"\n")
    return line + end


def cases_of(files):
    """The cases that transcripts are."""
    return [(f"tests/cases/{file}", functools.partial(judged, file)) for file in files]


def by_folder():
    """The transcripts of each folder."""
    found = {}
    for file in transcripts.files():
        found.setdefault(os.path.dirname(file), []).append(file)
    return found


for at, inside in by_folder().items():
    checks.others(f"{at}/transcripts")(functools.partial(cases_of, inside))
