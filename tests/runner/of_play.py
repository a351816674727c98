"""Pages on which the reader is the scheduler: the graph in a page against a search of all worlds by the machine of the
tests' own, what is judged, goals, and what is refused."""

import base64
import hashlib
import json
import os
import re
import subprocess
import sys
import tempfile

import checks
import table
import tool
from of_lab import EXAMPLES, lab
from of_pages import HOSTILE
from table import unescaped

PLAYED = os.path.join(table.ROOT, "tests", "spaces", "played.py")
# examples of few states, and programs that trap, spin, forward, or start streams of their own
SMALL = ("producer_consumer", "silent_wait", "trap_handler", "future", "forwarding", "count", "limited_wait",
         "grading/submissions/racing", "grading/submissions/locked", "grading/submissions/never_given_back", "lock")


def played(folder, source, *words):
    """How `play` ends, and the page that it writes; None where it writes none."""
    path = os.path.join(folder, "made.html")
    ended = lab("play", source, *words, "--out", path)
    return ended, tool.read(path).decode() if os.path.exists(path) else None


def graph_in(page):
    """The graph in a page."""
    return json.loads(re.search(r'<script type="application/json" id="graph-data">(.*?)</script>', page, re.DOTALL)[1])


@checks.others("play/graphs")
def graphs():
    """Each state, step and end, and what can still be reached."""
    for name in SMALL:
        yield name, lambda name=name: compared(os.path.join(EXAMPLES, f"{name}.asm"))
    folder = os.path.join(table.CASES, "lab_play")
    for name in sorted(os.listdir(folder)):
        if name.endswith(".asm"):
            yield name, lambda name=name: compared(os.path.join(folder, name))


def compared(source):
    with tempfile.TemporaryDirectory(prefix="mta-case-") as folder:
        ended, _ = played(folder, source)
        page = os.path.join(folder, "made.html")
        told = subprocess.run([sys.executable, PLAYED, source, page], capture_output=True, check=False)
    return (0, b"", b"", b""), (ended.status, ended.err, told.stdout, told.stderr[-300:])


@checks.each("lab_play/commands.tsv")
def commands(fields):
    """A command line: its status, what is said, and of each end of the page its kind, whether it is right, its fewest
    steps, and what it misses."""
    line, files, status, err, ends = fields
    with tempfile.TemporaryDirectory(prefix="mta-case-") as folder:
        for file in filter(None, files.split("|")):
            name, _, text = file.partition("=")
            tool.write(os.path.join(folder, name), unescaped(text))
        ended = lab(*line.split(), folder=folder)
        path = os.path.join(folder, "made.html")
        found = ends_in(tool.read(path).decode()) if os.path.exists(path) else ""
    return (int(status), unescaped(err).decode(), ends), (ended.status, ended.err.decode(), found)


def ends_in(page):
    """The ends of a page as a line, and the first goal."""
    data = graph_in(page)
    told = "; ".join(f"{end['kind']} {json.dumps(end['right'])} {end['shortest']}" + (f" ({end['missed']})" if end["missed"] else "")
                     for end in data["ends"])
    return told + ("" if data["goal"] is None else f"; goal {data['goal']}")


@checks.others("play/safety")
def safety():
    """A program whose texts look like markup, and the page's policy."""
    yield "hostile", hostile
    yield "policy", policy


def hostile():
    """What a program brings along stays text: the page's frame is that of another program's page."""
    with tempfile.TemporaryDirectory(prefix="mta-case-") as folder:
        source = os.path.join(folder, "x.asm")
        tool.write(source, HOSTILE.encode())
        _, page = played(folder, source, "--title", "</title><script>alert(1)</script>")
        _, other = played(folder, os.path.join(EXAMPLES, "mailbox.asm"))
    return frame(other), frame(page)


def frame(page):
    """A page without its title and its graph."""
    return re.sub(r"<title>.*?</title>|(?<=id=\"graph-data\">).*?(?=</script>)", "", page, flags=re.DOTALL)


def policy():
    """The hashes that the policy names are those of the style and the script."""
    with tempfile.TemporaryDirectory(prefix="mta-case-") as folder:
        _, page = played(folder, os.path.join(EXAMPLES, "mailbox.asm"))
    parts = re.findall(r"<style>(.*?)</style>|<script>(.*?)</script>", page, re.DOTALL)
    hashes = ["'sha256-" + base64.b64encode(hashlib.sha256("".join(one).encode()).digest()).decode() + "'" for one in parts]
    named = re.findall(r"(script|style)-src ('sha256-[^']+')", page)
    return sorted(hashes), sorted(value for _, value in named)
