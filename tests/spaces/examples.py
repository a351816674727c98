"""The examples: how many worlds the search for ends alone looks at, by the machine of the tests' own."""

import json
import os
import subprocess

import sources
from ends_alone import EndsAlone

FOLDER = os.path.join(os.path.dirname(os.path.dirname(os.path.dirname(os.path.abspath(__file__)))), "examples")
# those of Profile 1 whose worlds are searched in seconds, the longest first
NAMES = ("barrier", "readers_writer", "philosophers", "bounded_buffer", "fetch_add", "lock", "future", "count",
         "forwarding", "producer_consumer", "limited_wait", "silent_wait", "trap_handler")
MOST = 1_000_000


def differs(program, name):
    """In what an example differs; None where it does not."""
    path = os.path.join(FOLDER, f"{name}.asm")
    with open(path, encoding="utf-8") as file:
        alone = EndsAlone(sources.read(file.read()), (), (), MOST)
    ended = subprocess.run([program, "explore", "--json", path], capture_output=True, check=False)
    head = json.loads(ended.stdout.splitlines()[0])
    told, wanted = (head["worlds"], head["steps"]), (len(alone.worlds), len(alone.steps))
    return None if told == wanted else f"{name}: {told} worlds and steps, and not {wanted}"
