"""Steps of a stream: their outcomes, and what they leave."""

import checks
import tool
from printed import text
from programs import assembled, data_line
from request_lines import Request
from streams import Start, placed

# the memory has so many full words that hold 0, but for those that a case names
WORDS = 16


class Around:
    """What else a case has, its items joined by semicolons, or `-` for none: `retry N` and `slim N` of the image,
    `reserve N` for the streams that are reserved before, words `ADDRESS=VALUE:TAGS`, and requests of processor 1, each
    behind the number of the step of stream 0 before which it is made, as `2: TAGSET 8 3 0`."""

    def __init__(self, field):
        self.numbers = {"retry": 0, "slim": 1, "reserve": 0}
        self.words, self.asked = [(0, 1)] * WORDS, []
        for item in field.split(";") if field != "-" else []:
            if ": " in item:
                step, _, request = item.partition(": ")
                self.asked.append((int(step), Request(request)))
            elif "=" in item:
                address, value, tags = (int(number, 16) for number in item.replace("=", ":").split(":"))
                self.words[address // 8] = value, tags
            else:
                name, number = item.split(" ")
                assert name in self.numbers
                self.numbers[name] = int(number)

    def directives(self):
        """The lines of the image but for its entries and its program."""
        numbers = [f".retry {self.numbers['retry']}", f".slim {self.numbers['slim']}"]
        return [".profile 2", ".trap 0", *numbers, *(data_line(*word) for word in self.words)]

    def asking(self):
        """The program of processor 1 and, for each of its lines but the last, the step before which it is taken;
        nothing where it asks nothing."""
        lines = [(step, line) for step, request in self.asked for line in request.source()]
        program = [line for _, line in lines] + ["QUIT"]
        return (program, [step for step, _ in lines]) if lines else ([], [])


def schedule(start, count, other):
    """Stream 0 is brought to its state and takes so many steps, each behind those of processor 1 that come before it;
    at last processor 1 quits."""
    lines = [f"0 0 {start.steps}"]
    for step in range(1, count + 1):
        lines += ["1 0"] * other.count(step) + ["0 0"]
    return text(lines + ["1 0"] * bool(other))


def whole_world(written, has_other):
    """The lines of a world text of which a case leaves out the two at its start, where the counts are 1, and processor
    1, which has quit."""
    lines = written.split(";")
    if not lines[0].startswith("processor "):
        lines = ["processor 0 scur 1 sres 1", "stream 0 0", *lines]
    processor = [line for line in lines if not line.startswith("cell ")]
    return processor + ["processor 1 scur 0 sres 0"] * has_other + lines[len(processor):]


@checks.each("run/stream_steps.tsv")
def are_taken(fields):
    before, around, program, outcomes, after = fields
    around, outcomes = Around(around), outcomes.split(";")
    start = Start(before, placed(before, program), around.numbers["reserve"])
    other, turns = around.asking()
    entries = [start.entry, start.entry + start.steps][:2 if other else 1]
    lines = [*around.directives(), *(f".entry {entry}" for entry in entries), *start.lines, *other]
    printed = tool.trace(assembled(lines), schedule(start, len(outcomes), turns)).decode().splitlines()
    count = start.steps + len(outcomes) + len(other)
    own = [line[25:] for line in printed[:count] if line[8:15] == "  0   0"]
    return text(outcomes + whole_world(after, bool(other))), text(own[start.steps:] + printed[count:])
