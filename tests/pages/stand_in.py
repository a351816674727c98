"""A page without a browser: its script runs under Node, over elements that have texts and no layout (stand_in.js)."""

import contextlib
import json
import pathlib
import shutil
import subprocess
import tempfile

import tally

SCRIPT = pathlib.Path(__file__).resolve().parent / "stand_in.js"
# what stands in the way of other parts: how a page looks, and what it loads
NODE = shutil.which("node")


class Page:
    """One page at a time, with as much of a browser's page (browser.py) as a test needs that asks what the page says."""

    def __init__(self, process, folder):
        self.process, self.folder = process, pathlib.Path(folder)

    def ask(self, **asked):
        """What the stand-in answers."""
        self.process.stdin.write(json.dumps(asked) + "\n")
        self.process.stdin.flush()
        answer = json.loads(self.process.stdout.readline() or '{"error": "Node has ended"}')
        if "error" in answer:
            raise RuntimeError(answer["error"])
        return answer["result"]

    def open(self, name, text, fragment=""):
        """Opens a page with this text under a name. The answer is its file."""
        assert not fragment, "a page without a browser has no link"
        file = self.folder / f"{name}.html"
        file.write_text(text, encoding="utf-8")
        self.ask(page=str(file))
        return file

    def script(self, text, *arguments):
        return self.ask(script=text, arguments=arguments)

    def text(self, selector):
        """The text of the first element of a selector, with one blank where it has several."""
        return " ".join(self.script("return document.querySelector(arguments[0]).textContent", selector).split())

    def press(self, *keys):
        for key in keys:
            self.ask(key=key)

    def quiet(self, what):
        """Nothing: an error of the script is one of the test."""


@contextlib.contextmanager
def opened():
    """Node with a folder, while it lasts."""
    with tempfile.TemporaryDirectory(prefix="mta-pages-") as folder:
        process = subprocess.Popen([NODE, SCRIPT], stdin=subprocess.PIPE, stdout=subprocess.PIPE, text=True)
        try:
            yield Page(process, folder)
        finally:
            process.stdin.close()
            process.wait()
