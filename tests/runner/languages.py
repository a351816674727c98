"""A client of the Language Server Protocol: it asks the lab, and reads responses and notifications. Edits are applied here by
the protocol's own counts."""

import contextlib
import json
import queue
import re
import subprocess
import threading

import tool

URI = "file:///text.mta"
# the name of what a document is called, and how it is changed
DOCUMENT, CHANGES = "textDocument", "contentChanges"


def framed(body):
    """The bytes of a message with its head."""
    return b"Content-Length: %d\r\n\r\n" % len(body) + body


class Client:
    """A session of a client. A thread reads, so that neither side waits for the other."""

    def __init__(self, process):
        self.process, self.id, self.version, self.kept = process, 0, 0, []
        self.came = queue.Queue()
        self.listener = threading.Thread(target=self.listen, daemon=True)
        self.listener.start()

    def listen(self):
        """Reads all messages; behind the last comes None."""
        out = self.process.stdout
        while line := out.readline():
            name, _, value = line.partition(b":")
            if name == b"Content-Length":
                out.readline()
                self.came.put(json.loads(out.read(int(value))))
        self.came.put(None)

    def send(self, data):
        """Sends bytes."""
        self.process.stdin.write(data)
        self.process.stdin.flush()

    def say(self, message):
        """Sends a message."""
        self.send(framed(json.dumps({"jsonrpc": "2.0", **message}).encode()))

    def notify(self, method, params=None):
        """Sends a notification."""
        self.say({"method": method} if params is None else {"method": method, "params": params})

    def next(self):
        """The next message; None behind the last."""
        return self.came.get(timeout=tool.PATIENCE)

    def response(self):
        """The next response. The notifications before it are kept."""
        while (message := self.next()) is not None and "method" in message:
            self.kept.append(message)
        return message

    def do(self, method, **params):
        """Asks, and gives the response, which has to be the request's."""
        self.id += 1
        self.say({"id": self.id, "method": method, "params": params})
        response = self.response()
        if response is None or response["id"] != self.id:
            raise ValueError(f"request {self.id}, {method}, was answered {response}")
        return response

    def ask(self, method, **params):
        """Asks, and gives the result."""
        response = self.do(method, **params)
        if "error" in response:
            raise ValueError(f"{method} {params} was refused: {response['error']}")
        return response["result"]

    def error(self, method, **params):
        """Asks, and gives the number and the words of the error."""
        found = self.do(method, **params).get("error", {})
        return found.get("code"), found.get("message")

    def diagnostics(self, version=None):
        """The next diagnostics; those of a version, where one is named."""
        while True:
            message = self.kept.pop(0) if self.kept else self.next()
            if message is None or version in (None, message["params"].get("version")):
                return message and message["params"]["diagnostics"]

    def opens(self, text, uri=URI, version=0):
        """Opens a text."""
        self.version = version
        self.notify("textDocument/didOpen", {DOCUMENT: {"uri": uri, "languageId": "mta", "version": version, "text": text}})

    def changes(self, text, uri=URI):
        """Sends the whole text anew."""
        self.version += 1
        self.notify("textDocument/didChange", {DOCUMENT: {"uri": uri, "version": self.version}, CHANGES: [{"text": text}]})

    def at(self, method, line, character, **more):
        """Asks of a place, and gives the result."""
        return self.ask(f"textDocument/{method}", **place_of(line, character), **more)

    def of(self, method, **more):
        """Asks of the text, and gives the result."""
        return self.ask(f"textDocument/{method}", textDocument={"uri": URI}, **more)

    def ends(self):
        """Ends the session as the protocol has it, and gives the status."""
        self.ask("shutdown")
        self.notify("exit")
        return self.process.wait()


def place_of(line, character, uri=URI):
    """The parameters that name a place."""
    return {DOCUMENT: {"uri": uri}, "position": {"line": line, "character": character}}


@contextlib.contextmanager
def raw_client():
    """A session in which nothing was sent. One that takes too long is ended."""
    with subprocess.Popen([tool.LAB, "lsp"], stdin=subprocess.PIPE, stdout=subprocess.PIPE) as process:
        late = threading.Timer(tool.PATIENCE, process.kill)
        late.start()
        session = Client(process)
        try:
            yield session
        finally:
            with contextlib.suppress(BrokenPipeError):
                process.stdin.close()
            session.listener.join()
            late.cancel()


@contextlib.contextmanager
def client(text=None):
    """A session that has begun, over a text where one is given, whose diagnostics are then still to be read."""
    with raw_client() as session:
        session.ask("initialize", processId=None, rootUri=None, capabilities={})
        session.notify("initialized", {})
        if text is not None:
            session.opens(text)
        yield session


def units(text):
    """How many units of UTF-16 a text has."""
    return len(text.encode("utf-16-le")) // 2


def lines_of(text):
    """The lines of a text with their ends, as the protocol cuts them."""
    return re.findall(r"[^\r\n]*(?:\r\n|\r|\n)|[^\r\n]+$", text) + ([""] if re.search(r"[\r\n]$|^$", text) else [])


def offset_of(lines, position):
    """How many characters of a text stand before a position."""
    line = lines[position["line"]].rstrip("\r\n")
    at = next((at for at in range(len(line) + 1) if units(line[:at]) >= position["character"]), len(line))
    return sum(map(len, lines[:position["line"]])) + at


def edited(text, edits):
    """A text after edits."""
    lines, out, at = lines_of(text), "", 0
    places = [(offset_of(lines, edit["range"]["start"]), offset_of(lines, edit["range"]["end"]), edit["newText"]) for edit in edits]
    for start, end, new in sorted(places):
        if start < at:
            raise ValueError("edits overlap")
        out, at = out + text[at:start] + new, end
    return out + text[at:]
