"""A page in headless Firefox, which is spoken to in its own protocol, Marionette: a message is its length, a colon, and
JSON, `[0, number, command, parameters]` for a request and `[1, number, error, result]` for its answer."""

import contextlib
import json
import pathlib
import shutil
import socket
import subprocess
import tempfile
import time

NAMES = ("firefox-esr", "firefox")
# seconds until Firefox has to answer
PATIENCE = 60


def program():
    """The browser's program, where there is one."""
    return next(filter(None, map(shutil.which, NAMES)), None)


def free_port():
    with socket.create_server(("127.0.0.1", 0)) as server:
        return server.getsockname()[1]


class Firefox:
    """A browser that answers at a port."""

    def __init__(self, port, folder):
        self.folder, self.number = pathlib.Path(folder), 0
        self.socket = connected(port)
        self.read()
        self.ask("WebDriver:NewSession", capabilities={})

    def read(self):
        """The next message."""
        length = b""
        while not length.endswith(b":"):
            length += self.part(1)
        wanted, data = int(length[:-1]), b""
        while len(data) < wanted:
            data += self.part(wanted - len(data))
        return json.loads(data)

    def part(self, most):
        data = self.socket.recv(most)
        if not data:
            raise ConnectionError("Firefox has gone")
        return data

    def ask(self, command, **parameters):
        """Sends a command. The answer is its result."""
        self.number += 1
        data = json.dumps([0, self.number, command, parameters]).encode()
        self.socket.sendall(b"%d:%b" % (len(data), data))
        _, _, error, result = self.read()
        if error:
            raise RuntimeError(f"{command}: {error}")
        return result

    def open(self, name, text, fragment=""):
        """Shows a page with this text under a name."""
        file = self.folder / f"{name}.html"
        file.write_text(text, encoding="utf-8")
        self.ask("WebDriver:Navigate", url="about:blank")
        self.ask("WebDriver:Navigate", url=f"file://{file}{fragment}")

    def script(self, text, *arguments):
        """Runs a script in the page."""
        return self.ask("WebDriver:ExecuteScript", script=text, args=list(arguments), sandbox=None)["value"]

    def press(self, key):
        """Presses a key and lets it go."""
        actions = [{"type": what, "value": key} for what in ("keyDown", "keyUp")]
        self.ask("WebDriver:PerformActions", actions=[{"type": "key", "id": "keys", "actions": actions}])


def connected(port):
    """A connection to the port, as soon as there is one."""
    end = time.monotonic() + PATIENCE
    while True:
        try:
            return socket.create_connection(("127.0.0.1", port), timeout=PATIENCE)
        except OSError:
            if time.monotonic() > end:
                raise
            time.sleep(0.2)


@contextlib.contextmanager
def opened():
    """A browser with a folder, while it lasts."""
    with tempfile.TemporaryDirectory(prefix="mta-pages-", ignore_cleanup_errors=True) as folder:
        port = free_port()
        profile = pathlib.Path(folder) / "profile"
        profile.mkdir()
        (profile / "user.js").write_text(f'user_pref("marionette.port", {port});\n')
        words = [program(), "--headless", "--marionette", "--no-remote", "--profile", str(profile)]
        running = subprocess.Popen(words, stdout=subprocess.DEVNULL, stderr=subprocess.DEVNULL)
        try:
            yield Firefox(port, folder)
        finally:
            running.terminate()
            running.wait(timeout=PATIENCE)
