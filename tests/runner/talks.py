"""Sessions of the debugger in which each line goes by the answers to those before it."""

import contextlib
import subprocess
import threading

import tool


class Talk:
    """A session that goes on."""

    def __init__(self, process):
        self.process = process

    def ask(self, line):
        """Types a line, and reads the first line of its answer."""
        self.process.stdin.write(line + b"\n")
        self.process.stdin.flush()
        return self.process.stdout.readline()

    def answer(self, line):
        """Types a line that does not move, and reads its whole answer: up to that of a line that stays where it is."""
        lines, found = [self.ask(line)], self.ask(b"s 0")
        while found and not found.startswith(b"at "):
            lines.append(found)
            found = self.process.stdout.readline()
        return b"".join(lines)


@contextlib.contextmanager
def talk(image, schedule):
    """A session over an image and a schedule. One that takes too long is ended, and then answers nothing."""
    with tool.made_files(image=image, schedule=schedule) as paths:
        words = [tool.PROGRAM, "debug", paths["image"], paths["schedule"]]
        with subprocess.Popen(words, stdin=subprocess.PIPE, stdout=subprocess.PIPE) as process:
            late = threading.Timer(tool.PATIENCE, process.kill)
            late.start()
            try:
                yield Talk(process)
            finally:
                late.cancel()
                process.stdin.close()
