#!/usr/bin/env python3
"""How long mta_lab lsp lets an editor wait, of texts of 2,000 and 65,536 lines, without faults and with one on each eighth
line: from a change until its diagnostics are there, and what that takes of a processor; while somebody types, how long a
change waits until it is taken, how many of the changes are checked, and how long it takes until the last one's diagnostics
are there. What a change takes in instructions, where valgrind is. Times are medians; the longest stands behind them.

  language.py [LAB]

LAB is the lab that was built of the files that are here, by default; with PROGRAM=draft in the environment the draft."""

import sys

sys.dont_write_bytecode = True

import json
import os
import queue
import shutil
import statistics
import subprocess
import tempfile
import threading
import time

ROOT = os.path.dirname(os.path.dirname(os.path.abspath(__file__)))
sys.path.append(os.path.join(ROOT, "tests"))
import built

URI = "file:///text.mta"
STATEMENTS = ("LIT r1, 5", "ADD r2, r1, 3", "STORE.S r1, r0, 0 | ADD r1, r1, 1", "LOAD.N r4, r5, -1", "SUB.T r0, r1, 11",
              "SKIP NE, 0, -3", "XGET r4", "LOAD.S r3, r2, 1")
# the lines of a text; how many changes are timed; how many are typed, and after so many seconds each
SIZES = ((2_000, 40, 100, 0.02), (65_536, 10, 40, 0.1))
PATIENCE = 600


def text_of(lines, faulty, version):
    """A source text of so many lines of some 52 bytes, which is another one for each version."""
    made = [f"        .entry start            ; version {version}", "        .data 0", "start:  QUIT"]
    for number in range(lines - len(made)):
        statement = "QUITE" if faulty and number % 8 == 0 else STATEMENTS[number % len(STATEMENTS)]
        made.append(f"l{number}:".ljust(8) + statement.ljust(32) + "; what it does")
    return "\n".join(made) + "\n"


def framed(**message):
    body = json.dumps({"jsonrpc": "2.0", **message}).encode()
    return b"Content-Length: %d\r\n\r\n" % len(body) + body


def changed(text, version):
    """The message by which an editor sends a text anew."""
    return framed(method="textDocument/didChange", params={
        "textDocument": {"uri": URI, "version": version}, "contentChanges": [{"text": text}]})


class Session:
    """A session of an editor that has a text open. A thread reads, and notes when each message came."""

    def __init__(self, words, text):
        self.process = subprocess.Popen([*words, "lsp"], stdin=subprocess.PIPE, stdout=subprocess.PIPE, stderr=subprocess.DEVNULL)
        self.came = queue.Queue()
        threading.Thread(target=self.listen, daemon=True).start()
        self.send(framed(id=1, method="initialize", params={"capabilities": {}}))
        self.came.get(timeout=PATIENCE)
        self.send(framed(method="textDocument/didOpen", params={
            "textDocument": {"uri": URI, "languageId": "mta", "version": 0, "text": text}}))
        self.until(0)

    def listen(self):
        out = self.process.stdout
        while head := out.readline():
            out.readline()
            body = out.read(int(head.partition(b":")[2]))
            self.came.put((time.monotonic(), json.loads(body)))

    def send(self, data):
        """Sends bytes, and gives how many seconds it took until they were taken."""
        begin = time.monotonic()
        self.process.stdin.write(data)
        self.process.stdin.flush()
        return time.monotonic() - begin

    def until(self, version):
        """When the diagnostics of a version came, and how many came up to them."""
        count = 0
        while True:
            moment, message = self.came.get(timeout=PATIENCE)
            count += 1
            if message["params"]["version"] == version:
                return moment, count

    def end(self):
        self.send(framed(id=2, method="shutdown"))
        self.send(framed(method="exit"))
        self.process.stdin.close()
        _, status, usage = os.wait4(self.process.pid, 0)
        if status != 0:
            sys.exit("mta_lab lsp did not end as it should")
        return usage.ru_utime + usage.ru_stime


def shown(seconds):
    """The median and the longest of some times."""
    return f"{1000 * statistics.median(seconds):.1f} ms, at most {1000 * max(seconds):.1f}"


def single(words, lines, faulty, count):
    """The times from a change to its diagnostics, and the processor seconds of the session."""
    session, times = Session(words, text_of(lines, faulty, 0)), []
    for version in range(1, count + 1):
        message = changed(text_of(lines, faulty, version), version)
        begin = time.monotonic()
        session.send(message)
        times.append(session.until(version)[0] - begin)
    return times, session.end()


def typed(words, lines, faulty, count, pause):
    """Of changes one after another: how long each waited until it was taken, how many were checked, and the time from the
    last one to its diagnostics."""
    messages = [changed(text_of(lines, faulty, version), version) for version in range(1, count + 1)]
    session, waits = Session(words, text_of(lines, faulty, 0)), []
    for message in messages:
        begin = time.monotonic()
        waits.append(session.send(message))
        time.sleep(max(0, begin + pause - time.monotonic()))
    moment, checked = session.until(count)
    session.end()
    return waits, checked, moment - begin


def instructions(words, lines, faulty):
    """The instructions of a change with its diagnostics: those of a session of three changes less those of one, halved."""
    found = []
    for count in (1, 3):
        with tempfile.NamedTemporaryFile("r", encoding="utf-8") as log:
            counter = ["valgrind", "--tool=callgrind", "--callgrind-out-file=/dev/null", f"--log-file={log.name}"]
            single([*counter, *words], lines, faulty, count)
            found.append(int(log.read().rpartition("Collected :")[2].split()[0]))
    return (found[1] - found[0]) // 2


def main():
    program = sys.argv[1] if len(sys.argv) > 1 else built.path("mta_lab")
    for lines, count, keys, pause in SIZES:
        for faulty in (False, True):
            what = f"lsp, {lines} lines, {len(text_of(lines, faulty, 0))} bytes{', faults' if faulty else ''}"
            times, many = single([program], lines, faulty, count)
            _, one = single([program], lines, faulty, 1)
            print(f"{what}: diagnostics after {shown(times)}; {1000 * (many - one) / (count - 1):.1f} ms of a processor")
            waits, checked, last = typed([program], lines, faulty, keys, pause)
            print(f"  {keys} changes typed, one in {1000 * pause:.0f} ms: taken after {shown(waits)}; {checked} checked; the last "
                  f"one's diagnostics after {1000 * last:.1f} ms", flush=True)
            if shutil.which("valgrind"):
                print(f"  {instructions([program], lines, faulty) // lines} instructions a line", flush=True)


if __name__ == "__main__":
    main()
