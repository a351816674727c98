"""A client of the Debug Adapter Protocol: it asks the lab, and reads responses and events."""

import contextlib
import json
import subprocess
import threading

import tool


def framed(body):
    """The bytes of a message with its head."""
    return b"Content-Length: %d\r\n\r\n" % len(body) + body


class Adapter:
    """A session of a client."""

    def __init__(self, process):
        self.process, self.seq, self.waiting = process, 0, []

    def send(self, data):
        """Sends bytes."""
        self.process.stdin.write(data)
        self.process.stdin.flush()

    def ask(self, command, **arguments):
        """Sends a request and gives its number."""
        self.seq += 1
        message = {"seq": self.seq, "type": "request", "command": command, "arguments": arguments}
        self.send(framed(json.dumps(message).encode()))
        return self.seq

    def read(self):
        """The next message; None behind the last."""
        length = None
        while line := self.process.stdout.readline():
            if line == b"\r\n" and length is not None:
                return json.loads(self.process.stdout.read(length))
            name, _, value = line.partition(b":")
            if name == b"Content-Length":
                length = int(value)
        return None

    def response(self):
        """The next response. The events before it are kept."""
        while (message := self.read()) is not None and message["type"] != "response":
            self.waiting.append(message)
        return message

    def do(self, command, **arguments):
        """Asks, and gives the response, which has to be the request's."""
        seq = self.ask(command, **arguments)
        response = self.response()
        if response is None or response["request_seq"] != seq or response["command"] != command:
            raise ValueError(f"request {seq}, {command}, was answered {response}")
        return response

    def body(self, command, **arguments):
        """Asks, and gives the body of the response, which has to be a success."""
        response = self.do(command, **arguments)
        if not response["success"]:
            raise ValueError(f"{command} {arguments} was refused: {response['message']}")
        return response.get("body")

    def event(self, name):
        """The next event of a name."""
        while True:
            message = self.waiting.pop(0) if self.waiting else self.read()
            if message is None or message.get("event") == name:
                return message and message.get("body")

    def move(self, command, **arguments):
        """Asks for a move, and gives where it stops: the position, the reason, the breakpoints."""
        self.body(command, **arguments)
        return stop_of(self.event("stopped"))

    def launched(self, program, schedule, **arguments):
        """Begins a session over a program, at its start."""
        self.body("initialize", adapterID="mta", linesStartAt1=True)
        self.body("launch", program=program, schedule=schedule, stopOnEntry=True, **arguments)
        self.event("initialized")
        return self.move("configurationDone")


def stop_of(body):
    """The position, the reason, the stream and the breakpoints of an event."""
    position = int(body["description"].split()[1])
    return position, body["reason"], body["threadId"], body["hitBreakpointIds"]


def thread_of(p, s):
    """The number of a stream as a thread."""
    return 256 * p + s + 1


@contextlib.contextmanager
def adapter():
    """A session. One that takes too long is ended."""
    with subprocess.Popen([tool.LAB, "dap"], stdin=subprocess.PIPE, stdout=subprocess.PIPE) as process:
        late = threading.Timer(tool.PATIENCE, process.kill)
        late.start()
        try:
            yield Adapter(process)
        finally:
            late.cancel()
            with contextlib.suppress(BrokenPipeError):
                process.stdin.close()
