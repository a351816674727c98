"""The graph that stands in a page of `mta_lab play`."""

import json
import re

DIGITS = "0123456789ABCDEFGHIJKLMNOPQRSTUVWXYZabcdefghijklmnopqrstuvwxyz-_"


class Graph:
    """The graph that stands in a page."""

    def __init__(self, page):
        self.data = json.loads(re.search(r'id="graph-data">(.*?)</script>', page, re.DOTALL)[1])
        self.to = [column(one) for one in self.data["states"]["to"]]
        self.held = [column(one) for one in self.data["states"]["streams"]]
        self.ahead = column(self.data["states"]["ahead"])
        self.ends = {state: number for number, end in enumerate(self.data["ends"]) for state in end["states"]}

    def running(self, state):
        """The places of the streams that run in a state."""
        return [at for at, held in enumerate(self.held) if self.data["contents"][held[state]].get("status") == "running"]

    def steps(self, state):
        """The places of the streams whose step leads to another state."""
        return [at for at in self.running(state) if self.to[at][state] != state]


def column(packed):
    """The numbers of a column."""
    width, text = packed
    numbers = []
    for begin in range(0, len(text), width):
        number = 0
        for digit in text[begin:begin + width]:
            number = 64 * number + DIGITS.index(digit)
        numbers.append(number)
    return numbers
