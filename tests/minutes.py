#!/usr/bin/env python3
"""What a check costs, in processor seconds of each crate.

  minutes.py watch COMMAND..   runs a command that proves crates, and writes to out/minutes.tsv what it took of each crate
  minutes.py table             writes the table of docs/ARCHITECTURE.md ("What a check costs") from out/minutes.tsv
  minutes.py affected CRATE..  says which crates a change of these proves again, and their minutes by that table
  minutes.py fits PROCESSORS   says how long the gate takes on so many processors: computed from that table, not measured

`watch` looks at the kit's provers below the command twice a second: each names its crate, and whether it proves the crate,
its tests or one of its edits. Of what a run took from earlier ones the seconds stay that stood there. It needs Linux."""

import os
import re
import subprocess
import sys
import threading

ROOT = os.path.dirname(os.path.dirname(os.path.abspath(__file__)))
SECONDS = f"{ROOT}/out/minutes.tsv"
PAGE = f"{ROOT}/docs/ARCHITECTURE.md"
KINDS = ("proof", "tests", "edits")
HEAD = "| crate | proof | tests | edits | MB |\n|---|---|---|---|---|\n"
TICKS = os.sysconf("SC_CLK_TCK")


def crates():
    """The repository's crates that each crate stands on, lowest first; but those of tests, which the gate does not prove."""
    found = {}
    with open(f"{ROOT}/crates.txt", encoding="utf-8") as file:
        for name, below in re.findall(r"(?m)^([a-z]\w*)[^:\n]*:(.*)$", file.read().partition("# == Tests\n")[0]):
            found[name] = [it for it in below.split() if it in found]
    return found


def children(of):
    """The processes below one, from the table of all processes."""
    parents = {}
    for name in filter(str.isdigit, os.listdir("/proc")):
        try:
            with open(f"/proc/{name}/stat", encoding="utf-8", errors="replace") as file:
                fields = file.read().rpartition(")")[2].split()
        except OSError:
            continue
        parents.setdefault(int(fields[1]), []).append((int(name), int(fields[11]) + int(fields[12])))
    found, left = [], [of]
    while left:
        below = parents.get(left.pop(), [])
        found += below
        left += [it for it, _ in below]
    return found


def job_of(process):
    """The crate that a process proves, and what of it; None of other processes."""
    try:
        with open(f"/proc/{process}/cmdline", encoding="utf-8", errors="replace") as file:
            words = file.read().split("\0")
        folder = os.readlink(f"/proc/{process}/cwd")
    except OSError:
        return None
    if os.path.basename(words[0]) != "rattle" or "--crate-name" not in words:
        return None
    kind = "edits" if "/edits-" in folder else "tests" if "--test" in words else "proof"
    return words[words.index("--crate-name") + 1], kind


def memory_of(process):
    """The most memory that a process has held, in MB."""
    try:
        with open(f"/proc/{process}/status", encoding="utf-8") as file:
            return int(re.search(r"VmHWM:\s+(\d+)", file.read())[1]) // 1024
    except (OSError, TypeError):
        return 0


class Watch:
    """What the provers below a process have taken."""

    def __init__(self, process):
        self.process, self.taken = process, {}

    def look(self):
        for process, ticks in children(self.process):
            job = job_of(process)
            if job:
                memory = max(memory_of(process), self.taken.get((process, job), (0, 0))[1])
                self.taken[process, job] = ticks, memory

    def sums(self):
        """By crate and kind the processor seconds, and by crate the most memory of one process of its proof."""
        found = {}
        for (_, (crate, kind)), (ticks, memory) in self.taken.items():
            row = found.setdefault(crate, dict.fromkeys((*KINDS, "MB"), 0))
            row[kind] += ticks / TICKS
            row["MB"] = max(row["MB"], memory if kind == "proof" else 0)
        return found


def read_seconds():
    """The seconds that out/minutes.tsv has, by crate and kind."""
    found = {}
    try:
        with open(SECONDS, encoding="utf-8") as file:
            for line in file:
                crate, *cells = line.split("\t")
                found[crate] = dict(zip((*KINDS, "MB"), map(int, cells)))
    except OSError:
        pass
    return found


def watch(command):
    """Runs the command, and keeps what it took; its status."""
    ran, ended = subprocess.Popen(command, stdin=subprocess.DEVNULL), threading.Event()
    taken = Watch(ran.pid)

    def look():
        while not ended.wait(0.5):
            taken.look()

    looking = threading.Thread(target=look)
    looking.start()
    status = ran.wait()
    ended.set()
    looking.join()
    known = read_seconds()
    for crate, row in taken.sums().items():
        old = known.setdefault(crate, dict.fromkeys((*KINDS, "MB"), 0))
        old.update({kind: round(taken) for kind, taken in row.items() if round(taken)})
    os.makedirs(os.path.dirname(SECONDS), exist_ok=True)
    with open(SECONDS, "w", encoding="utf-8") as file:
        for crate in crates():
            if crate in known:
                cells = "\t".join(str(known[crate].get(kind, 0)) for kind in (*KINDS, "MB"))
                file.write(f"{crate}\t{cells}\n")
    return status


def longest_chain(rows):
    """The crates, each on the one before it, whose proofs one after another take longest, and their seconds."""
    ends = {}
    for crate, below in crates().items():
        length, chain = max((ends[it] for it in below), default=(0, []))
        ends[crate] = length + rows.get(crate, {}).get("proof", 0), [*chain, crate]
    return max(ends.values())


def minutes(seconds):
    return f"{seconds / 60:.0f}"


def table():
    """The table, its sum and its longest chain."""
    rows, edits = read_seconds(), {}
    for crate in crates():
        folder = f"{ROOT}/crates/{crate}/must-fail"
        edits[crate] = len([it for it in os.listdir(folder) if it.endswith(".edit")]) if os.path.isdir(folder) else 0
    text, sums = HEAD, dict.fromkeys(KINDS, 0)
    for crate in crates():
        row = rows.get(crate, dict.fromkeys((*KINDS, "MB"), 0))
        tried = f"{row['edits']} ({edits[crate]})" if edits[crate] else ""
        text += f"| `{crate}` | {row['proof']} | {row['tests'] or ''} | {tried} | {row['MB']} |\n"
        for kind in KINDS:
            sums[kind] += row[kind] if kind != "edits" or edits[crate] else 0
    text += f"| together | {sums['proof']} | {sums['tests']} | {sums['edits']} ({sum(edits.values())}) | |\n"
    length, chain = longest_chain(rows)
    text += (f"\nThat is {minutes(sum(sums.values()))} processor minutes: {minutes(sums['proof'])} for proofs, "
             f"{minutes(sums['tests'])} for tests, {minutes(sums['edits'])} for edits.\n"
             f"The longest chain takes {minutes(length)} processor minutes: {', '.join(f'`{it}`' for it in chain)}.\n")
    return text


def write_table():
    with open(PAGE, encoding="utf-8") as file:
        page = file.read()
    begin = page.index("| crate | proof | tests |")
    end = page.index("\n\n", page.index("The longest chain takes", begin))
    with open(PAGE, "w", encoding="utf-8") as file:
        file.write(page[:begin] + table().rstrip("\n") + page[end:])


def costs():
    """By crate the seconds that its proof, its tests and its edits take, by the table of the document."""
    with open(PAGE, encoding="utf-8") as file:
        rows = re.findall(r"(?m)^\| `(\w+)` \| (\d+) \| (\d*) \| (\d*)[^|]*\| \d+ \|$", file.read())
    return {crate: [int(it or 0) for it in cells] for crate, *cells in rows}


def affected(names):
    """Says which crates are proved again where these change, and what that takes by the table of the document."""
    below = crates()
    unknown = [it for it in names if it not in below]
    if unknown or not names:
        sys.exit(f"no crate {', '.join(unknown)}" if unknown else "which crates? make affected CRATES=\"machine waiting\"")
    cost, again = costs(), {*names}
    for crate, stands_on in below.items():
        if again & {*stands_on}:
            again.add(crate)
    for crate in filter(again.__contains__, below):
        taken = cost.get(crate)
        print(f"{crate:20} {'not measured' if taken is None else f'{sum(taken) / 60:6.1f} minutes'}")
    unknown = len(again - {*cost})
    rest = f", and {unknown} crates that are not measured" if unknown else ""
    print(f"{len(again)} crates, {sum(sum(cost.get(it, [])) for it in again) / 60:.0f} processor minutes{rest}")


def behind(jobs):
    """By job the seconds of the longest chain that begins with it. A job is its name, its seconds, and the jobs that it
    waits for, which stand before it."""
    longest = {name: seconds for name, (seconds, _) in jobs.items()}
    for name in reversed(jobs):
        for it in jobs[name][1]:
            longest[it] = max(longest[it], jobs[it][0] + longest[name])
    return longest


def length_of(jobs, processors):
    """The seconds from the first job's begin to the last one's end, where each processor that is free takes of the jobs
    that wait for none the one with the longest chain behind it."""
    chains, now, at_work, done, left = behind(jobs), 0, [], set(), {*jobs}
    while left or at_work:
        ready = sorted((it for it in left if done.issuperset(jobs[it][1])), key=lambda it: (-chains[it], it))
        for name in ready[: processors - len(at_work)]:
            left.remove(name)
            at_work.append((now + jobs[name][0], name))
        now, name = min(at_work)
        at_work.remove((now, name))
        done.add(name)
    return now


def fits(processors):
    """Says how long the gate takes on so many processors, by list scheduling: proofs, then edits."""
    cost, first, second = costs(), {}, {}
    for crate, below in crates().items():
        proof, tests, edits = cost.get(crate, (0, 0, 0))
        first[crate] = proof, below
        if tests:
            first[f"{crate}, tests"] = tests, [crate]
        second[crate] = edits, []
    proofs, edits = length_of(first, processors), length_of(second, processors)
    work = sum(seconds for jobs in (first, second) for seconds, _ in jobs.values())
    print(f"on {processors} processor{'s' if processors > 1 else ''} alone: {minutes(proofs + edits)} minutes, "
          f"{minutes(proofs)} for proofs, then {minutes(edits)} for edits\n"
          f'Computed, not measured: from the {minutes(work)} processor minutes of "What a check costs" and the crates that '
          "each\ncrate stands on, where each processor that is free takes what has the longest chain of crates behind it.\n"
          "What LLVM takes for the programs, the cases and the documents, some minutes, are not in it.")
    if missing := [it for it in crates() if it not in cost]:
        print(f"Not measured yet, and so not in it either: {', '.join(missing)}.")


def main():
    match sys.argv[1:]:
        case ["watch", *command] if command:
            sys.exit(watch(command))
        case ["table"]:
            write_table()
        case ["affected", *names]:
            affected(names)
        case ["fits", number] if number.isdigit() and int(number):
            fits(int(number))
        case _:
            sys.exit(__doc__)


main()
