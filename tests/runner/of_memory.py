"""What the memory replies to requests, and its words after them."""

import checks
import tool
from printed import cell_line, text
from programs import assembled, data_line
from request_lines import Request, replied

# a trap goes on behind the word that trapped; a blocked reference is tried once more, and then traps
HANDLER = ["on: TGET r3, t0", "ADD r3, r3, 1", "TSET t0, r3", "XCHG t0", "SKIP ALWAYS, 0, on"]
HEAD = [".profile 2", ".slim 1", ".retry 1", ".trap on", ".entry go"]
# more steps than any of the programs takes
FUEL = 1000


def words_of(field):
    """The words of a field: each its value, a colon and its tags."""
    return [tuple(int(number, 16) for number in word.split(":")) for word in field.split(" ")]


def history_of(requests, replies):
    """The lines of the history; a blocked request stands there twice."""
    lines = []
    for request, reply in zip(requests, replies, strict=True):
        for _ in range(2 if reply.startswith("blocked") else 1):
            lines.append(f"{len(lines) + 1:7d}   0   0 {request.asked()} {replied(reply)}")
    return lines


@checks.each("threads/memory_requests.tsv")
def are_answered(fields):
    """One stream makes the requests one after the other and quits."""
    before, requests, replies, after, *limit = fields
    before, after = words_of(before), words_of(after)
    requests, replies = [Request(request) for request in requests.split(";")], replies.split(";")
    program = ["go: NOP", *(line for request in requests for line in request.source()), "QUIT", *HANDLER]
    chain = [f".chain {int(number, 16)}" for number in limit]
    image = assembled([*HEAD, *chain, *program, *(data_line(*word) for word in before)])
    places = enumerate(zip(before, after, strict=True))
    changed = [cell_line(8 * place, *new) for place, (old, new) in places if new != old]
    wanted = [*history_of(requests, replies), "processor 0 scur 0 sres 0", *changed]
    return text(wanted), tool.threads(image, FUEL)[0]
