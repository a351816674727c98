"""The lines of histories."""

import checks
import tool
from of_memory import words_of
from programs import assembled, data_line
from request_lines import Request

# how many steps all processors may take together
MOST = 1_000_000
# r2 says how many streams are started, one after the other, each with its number in r1
STARTING = [
    "RESERVE r0, r2", "TLIT t1, begin",
    "more: SUB.T r0, r3, r2", "SKIP EQ, 0, begin",
    "ADD r3, r3, 1", "CREATE t1, r3", "SKIP ALWAYS, 0, more",
]
# what stops a stream; its number is not given to another one
STOP = ".word 1"


@checks.each("threads/history_lines.tsv")
def is_written(fields):
    """The stream with the greatest number asks for tags until as many entries as there are to be stand before its own
    request; its processor's other streams stop, and the other processors quit."""
    line, place, request, words = fields
    number, processor, stream = (int(part) for part in place.split(" "))
    filling = [f"LIT r6, {number - 1}", "fill: TAGGET r7, r0, 0 | SUB.T r6, r6, 1", "SKIP NE, 0, fill"]
    image = assembled([
        ".profile 2", f".slim {stream + 1}", *[".entry idle"] * processor, ".entry go",
        f"go: LIT r2, {stream}", *STARTING,
        f"begin: LIT r2, {stream}", "SUB.T r0, r1, r2", "SKIP EQ, 0, ask", STOP,
        "ask: NOP", *(filling if number > 1 else []), *Request(request).source(), "idle: QUIT",
        *(data_line(*word) for word in words_of(words)),
    ])
    printed = tool.threads(image, MOST // (processor + 1))[0].decode().splitlines()
    return line, printed[number - 1] if number <= len(printed) else "no such line"
