"""Pages of two runs that are made of the samples: the difference is worked out anew, by putting the runs' changes in
place step by step."""

import json

import build
import runs
import worlds

PARTS = ("schedule", "steps", "waits", "findings", "end")
HEAD = ("version", "name", "source", "program", "data", "names", "start", "slim")


def pair_of(one, other):
    """The object of two runs of one program."""
    pair = {key: one[key] for key in HEAD}
    pair |= {"object": "pair", "schedule": f"{one['schedule']} and {other['schedule']}"}
    pair["difference"] = difference_of(one, other)
    pair["runs"] = [{key: run[key] for key in PARTS} for run in (one, other)]
    return pair


def difference_of(one, other):
    """The first position at which the states differ, a run that has ended staying as it is; and in which places."""
    lengths = [len(run["steps"]) for run in (one, other)]
    at = [worlds.replayed(run, range(length + 1)) for run, length in zip((one, other), lengths)]
    for k in range(max(lengths) + 1):
        first, second = (states[min(k, length)] for states, length in zip(at, lengths))
        told = [[place, first.get(place, worlds.absent(place)), second.get(place, worlds.absent(place))]
                for place in sorted({*first, *second})]
        differ = [entry for entry in told if entry[1] != entry[2]]
        if differ:
            return {"version": 2, "object": "difference", "position": k, "differ": differ}
    return None


def page(pair):
    return build.PAGES["pair"].text(json.dumps(pair, separators=(",", ":")))
