"""The built program, run on files and a text, and the tally of such runs."""

import ctypes
import os
import re
import resource
import signal
import subprocess
import sys
import tempfile

ROOT = os.path.dirname(os.path.dirname(os.path.dirname(os.path.abspath(__file__))))
sys.path.append(os.path.join(ROOT, "tests"))
import built

TOOL, LAB, CALLS = map(built.place, ("mta_sim", "mta_lab", "library_calls"))
EXAMPLES = os.path.join(ROOT, "examples")
CASES = os.path.join(ROOT, "tests/cases")
MOST_INPUT = 33_554_432
# what a refusal may take: processor seconds, and bytes beside ten times its input; how often one that takes longer is run,
# since other work on the machine makes all runs longer, and the shortest one least
MOST_SECONDS, MOST_MEMORY, RUNS = 1, 40_000_000, 4
# after so many seconds a run is ended from outside
PATIENCE = 300
FAULT = re.compile(
    rb"mta_sim: (read failed|write failed|input too large|no memory|words line \d+|source line \d+ fault \d"
    rb"|image fault [1-7]|schedule line \d+ fault [1-3]|threads fault 2)\n"
)


# The peak memory of a new process begins with what this one has, so large texts are given back at once, where the C
# library can be told so: M_MMAP_THRESHOLD is -3.
getattr(ctypes.CDLL(None), "mallopt", lambda *_: None)(-3, 1_000_000)


class Ended:
    """How a run of the program ended."""

    def __init__(self, status, out, err, usage):
        self.status, self.out, self.err = status, out, err
        self.seconds, self.peak = usage.ru_utime + usage.ru_stime, usage.ru_maxrss * 1024

    def __str__(self):
        return f"status {self.status}, {len(self.out)} bytes printed, {self.err[:100]!r}"

    def is_done(self):
        return self.status == 0 and self.err == b""

    def is_refused(self, fault=None):
        """Refused with this fault, else with one of the table, and nothing printed."""
        if fault is not None:
            return (self.status, self.out, self.err) == (1, b"", b"mta_sim: " + fault + b"\n")
        return self.status == 1 and self.out == b"" and FAULT.fullmatch(self.err) is not None

    def is_clean(self):
        return self.is_done() or self.is_refused()


def run(words, text=b"", setup=None, output=None, tool=TOOL, **variables):
    """Runs the program, or another one, on a text, which may be an open file; setup is called in the new process."""
    def begin():
        signal.alarm(PATIENCE)
        if setup is not None:
            setup()

    with tempfile.TemporaryFile() as given, tempfile.TemporaryFile() as out, tempfile.TemporaryFile() as err:
        if isinstance(text, bytes):
            given.write(text)
            given.seek(0)
        process = subprocess.Popen(
            [tool, *words], stdin=given if isinstance(text, bytes) else text, stdout=output or out, stderr=err,
            preexec_fn=begin, env={**os.environ, **variables})
        _, status, usage = os.wait4(process.pid, 0)
        process.returncode = os.waitstatus_to_exitcode(status)
        out.seek(0)
        err.seek(0)
        return Ended(process.returncode, out.read(), err.read(), usage)


def within(limit):
    """What bounds the memory that a new process may ask for."""
    return lambda: resource.setrlimit(resource.RLIMIT_AS, (limit, limit))


class Tally:
    """Runs, how many were refused, what was not as it has to be, and the dearest refusal."""

    def __init__(self):
        self.runs = self.refused = 0
        self.wrong, self.seconds, self.beyond = [], 0.0, 0

    def __str__(self):
        text = f"{self.runs} runs, {self.refused} refused, {len(self.wrong)} wrong"
        if self.seconds == 0:
            return text
        room = max(self.beyond, 0) / 1_000_000
        return f"{text}; a refusal took at most {self.seconds:.2f} s, and {room:.0f} MB beside ten times its input"

    def add(self, other):
        self.runs += other.runs
        self.refused += other.refused
        self.wrong += other.wrong
        self.seconds = max(self.seconds, other.seconds)
        self.beyond = max(self.beyond, other.beyond)

    def check(self, what, holds):
        if not holds:
            self.wrong.append(what)
        return holds

    def run(self, words, text=b"", **how):
        """Runs the program, which has to refuse in time and within its memory, where it refuses."""
        size = len(text) if isinstance(text, bytes) else 0
        size += sum(os.path.getsize(word) for word in words if os.path.isfile(word))
        ended = run(words, text, **how)
        self.runs += 1
        if ended.status == 1:
            self.refused += 1
            seconds = self.least_seconds(ended, words, text, **how)
            self.seconds = max(self.seconds, seconds)
            self.beyond = max(self.beyond, ended.peak - 10 * size)
            what = " ".join(os.path.basename(word) for word in words)
            self.check(f"{what}: refused after {seconds:.2f} s", seconds < MOST_SECONDS)
            self.check(f"{what}: refused with {ended.peak} bytes", ended.peak <= 10 * size + MOST_MEMORY)
        return ended

    def least_seconds(self, ended, words, text, **how):
        """How long a refusal took, or the least of some more, if it took longer than it may and can be run again."""
        seconds = ended.seconds
        for _ in range(RUNS - 1 if isinstance(text, bytes) else 0):
            if seconds >= MOST_SECONDS:
                seconds = min(seconds, run(words, text, **how).seconds)
        return seconds

    def refuses(self, what, words, fault, text=b"", **how):
        """A run that has to end with this fault and nothing printed."""
        ended = self.run(words, text, **how)
        self.check(f"{what}: {ended}", ended.is_refused(fault))

    def does(self, what, words, text=b"", **how):
        """A run that has to be done; gives what it printed."""
        ended = self.run(words, text, **how)
        self.check(f"{what}: {ended}", ended.is_done())
        return ended.out


def write(folder, name, data):
    """A file of these bytes."""
    path = os.path.join(folder, name)
    with open(path, "wb") as file:
        file.write(data)
    return path


def read(path):
    """The bytes of a file; none where it is not there."""
    if not os.path.exists(path):
        return None
    with open(path, "rb") as file:
        return file.read()


def assembled(tally, folder, source, name):
    """The image of a source text, which has to be one."""
    path = os.path.join(folder, name)
    tally.does(f"asm {source}", ["asm", source, path])
    return path


def sources(*folders):
    """The source texts of folders, in order."""
    return sorted(os.path.join(folder, name) for folder in folders for name in os.listdir(folder)
                  if name.endswith(".asm"))


def schedules(source):
    """The schedules of a source text, in order."""
    folder, name = os.path.split(source)
    stem = name[:-len("asm")]
    return sorted(os.path.join(folder, other) for other in os.listdir(folder)
                  if other.startswith(stem) and other.endswith("schedule"))
