"""What a machine came to, as the end of a trace tells it, in the words of the debugger's answers."""

import re

IDLE = b"Idle ssw 0000000000000000 xr 0000000000000000 retries 0\n"
PIECES = re.compile(rb"^(?=processor |stream |cell )", re.MULTILINE)
FILL = re.compile(rb"^\.fill (\d+), 0x([0-9A-F]{16}), (\d+)\n", re.MULTILINE)
# the most words that `m` shows at once
MOST = 64


def end_of(text):
    """What stands behind the lines of a trace or a history: the processors, their streams, and the changed words."""
    return text[text.index(b"processor 0 "):]


def words_of(listing):
    """The data words of a listing, each its value and its tags."""
    for count, value, tags in FILL.findall(listing):
        yield from int(count) * [(value, b"%X" % int(tags))]


def numbers_of(listing):
    """The numbers of processors and of their streams."""
    return listing.count(b"\n.entry "), int(re.search(rb"\.slim (\d+)\n", listing).group(1))


def shown(listing, end):
    """Commands that show all streams and words of a machine with this listing, and their answers where it has come to
    this end."""
    streams, words = {}, dict(enumerate(words_of(listing)))
    for piece in PIECES.split(end):
        head, _, rest = piece.partition(b"\n")
        what, *fields = head.split(b" ")
        if what == b"stream":
            streams[tuple(map(int, fields))] = rest
        elif what == b"cell":
            words[int(fields[0], 16) // 8] = tuple(fields[1:])
    processors, slim = numbers_of(listing)
    commands, answers = [], []
    for place in ((p, s) for p in range(processors) for s in range(slim)):
        commands.append(b"r %d %d\n" % place)
        answers.append(streams.pop(place, IDLE))
    for first in range(0, len(words), MOST):
        count = min(MOST, len(words) - first)
        commands.append(b"m %d %d\n" % (8 * first, count))
        answers += [b"%012X %b %b\n" % (8 * k, *words[k]) for k in range(first, first + count)]
    return b"".join(commands), b"".join([*answers, *streams.values()])
