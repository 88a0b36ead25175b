"""A client of `uringwalk dap`: it sends requests, and holds every message that comes against the protocol."""
import json
import os
import selectors
import subprocess
import time

import protocol

TOP = os.path.dirname(os.path.dirname(os.path.dirname(os.path.realpath(__file__))))
PROGRAM = os.path.realpath(os.environ.get("URINGWALK") or f"{TOP}/crates/uringwalk/out/uringwalk")
SECONDS = 120
RUN = 1
LARGEST = 2**31 - 1


class Failure(Exception):
    """What an adapter did that it should not."""


def frame(body):
    """Returns a message as its bytes are sent. A value that is no bytes is written as JSON."""
    if not isinstance(body, bytes):
        body = json.dumps(body).encode()
    return b"Content-Length: %d\r\n\r\n%s" % (len(body), body)


def frames_in(data):
    """Returns the messages that whole bytes hold, and what is left of them."""
    found = []
    while (end := data.find(b"\r\n\r\n")) >= 0:
        length = int(data[:end].split(b":")[1])
        if len(data) < end + 4 + length:
            break
        found.append(json.loads(data[end + 4:end + 4 + length]))
        data = data[end + 4 + length:]
    return found, data


class Held:
    """What was sent and what came, held against the rules of the order of messages."""

    def __init__(self):
        self.received, self.open, self.faults = 0, {}, []

    def hold(self, message):
        """Notes the faults of a message, which is the next one that comes."""
        self.faults += protocol.faults_of_message(message)
        self.received += 1
        if message.get("seq") != self.received:
            self.faults.append(f"seq is {message.get('seq')}, not {self.received}")
        if message.get("type") != "response":
            return
        number, command = message.get("request_seq"), message.get("command")
        if self.open.get(number) != command:
            self.faults.append(f"nobody asked for the response to {number}, {command}")
        earlier = [seq for seq, it in self.open.items() if it != "launch" and seq < number]
        if earlier and command != "launch":
            self.faults.append(f"{command} {number} is answered before {earlier}")
        self.open.pop(number, None)


class Adapter:
    """A running adapter. `events` are those that came and that nobody has taken."""

    succeeded = set()  # the commands of requests that succeeded, of all adapters

    def __init__(self):
        pipe = subprocess.PIPE
        self.process = subprocess.Popen([PROGRAM, "dap"], stdin=pipe, stdout=pipe, stderr=pipe)
        self.held, self.sent, self.data, self.waiting, self.events = Held(), 0, b"", [], []
        self.selector = selectors.DefaultSelector()
        self.selector.register(self.process.stdout, selectors.EVENT_READ)

    def __enter__(self):
        return self

    def __exit__(self, *_):
        self.process.kill()
        for pipe in (self.process.stdin, self.process.stdout, self.process.stderr):
            pipe.close()
        self.process.wait()
        self.selector.close()

    def write(self, data):
        self.process.stdin.write(data)
        self.process.stdin.flush()

    def framed(self, command, arguments):
        """Returns the bytes of the next request, which is expected to be sent."""
        self.sent += 1
        message = {"seq": self.sent, "type": "request", "command": command}
        if arguments:
            message["arguments"] = arguments
        self.held.open[self.sent] = command
        return frame(message)

    def send(self, command, arguments):
        """Sends a request, and returns its number."""
        self.write(self.framed(command, arguments))
        return self.sent

    def batch(self, asked):
        """Sends requests at once, and returns all messages up to the response to the last of them."""
        self.write(b"".join(self.framed(command, arguments) for command, arguments in asked))
        found = []
        while self.held.open:
            found.append(self.receive())
        return found

    def receive(self):
        """Returns the next message."""
        deadline = time.monotonic() + SECONDS
        while not self.waiting:
            if not self.selector.select(max(0, deadline - time.monotonic())):
                raise Failure(f"no message within {SECONDS} seconds; unanswered: {self.held.open}")
            data = os.read(self.process.stdout.fileno(), 1 << 16)
            if not data:
                raise Failure(f"the output ends; unanswered: {self.held.open}; {self.process.stderr.read()!r}")
            found, self.data = frames_in(self.data + data)
            self.waiting += found
        message = self.waiting.pop(0)
        self.held.hold(message)
        return message

    def answer(self, number):
        """Returns the response to a request. Events that come before it are kept."""
        while True:
            message = self.receive()
            if message["type"] == "response" and message["request_seq"] == number:
                if message["success"]:
                    self.succeeded.add(message["command"])
                return message
            self.events.append(message)

    def ask(self, command, **arguments):
        """Sends a request, and returns its response."""
        return self.answer(self.send(command, arguments))

    def body(self, command, **arguments):
        """Sends a request that has to succeed, and returns the body of its response."""
        response = self.ask(command, **arguments)
        if not response["success"]:
            raise Failure(f"{command} {arguments} is refused: {response.get('message')}")
        return response.get("body", {})

    def refusal(self, command, **arguments):
        """Sends a request that has to be refused, and returns the sentence about it."""
        response = self.ask(command, **arguments)
        if response["success"]:
            raise Failure(f"{command} {arguments} isn't refused")
        return response["body"]["error"]["format"]

    def event(self, name):
        """Returns the next event with a name, and drops those before it."""
        while True:
            message = self.events.pop(0) if self.events else self.receive()
            if message["type"] == "event" and message["event"] == name:
                return message

    def move(self, command, **arguments):
        """Sends a request that moves. Returns the body of `stopped`, and the text of `output` or None."""
        self.events.clear()
        self.body(command, **arguments)
        if self.events:
            raise Failure(f"{self.events} comes before the response to {command}")
        output = None
        while (message := self.receive())["event"] != "stopped":
            output = message["body"]["output"] if message["event"] == "output" else output
        return message["body"], output

    def start(self, from_1=True, **arguments):
        """Opens a session, and launches. Returns the response to `initialize`, and that to `launch` if it is refused."""
        made = self.ask("initialize", adapterID="uringwalk", linesStartAt1=from_1, columnsStartAt1=from_1, pathFormat="path")
        launched = self.send("launch", arguments)
        message = self.receive()
        if message["type"] == "response":
            return made, message
        if message["event"] != "initialized":
            raise Failure(f"not initialized: {message}")
        self.launched = launched
        return made, None

    def configured(self):
        """Ends the configuration, and returns the body of the first `stopped`."""
        self.body("configurationDone")
        response = self.receive()
        if response.get("request_seq") != self.launched or not response["success"]:
            raise Failure(f"not the answer to launch: {response}")
        self.succeeded.add("launch")
        return self.event("stopped")["body"]

    def value(self, expression):
        """Returns the value of a place."""
        return self.body("evaluate", expression=expression, context="watch")["result"]

    def moment(self):
        return int(self.value("moment"))

    def end(self):
        """Disconnects. Returns what is wrong: faults of messages, a status, or text on standard error."""
        self.body("disconnect")
        self.process.stdin.close()
        rest = self.process.stdout.read()
        status = self.process.wait(SECONDS)
        wrong = list(self.held.faults)
        if rest or self.waiting or self.held.open:
            wrong.append(f"after disconnect: {rest[:200]!r}, {self.waiting}, {self.held.open}")
        if status or (error := self.process.stderr.read()):
            wrong.append(f"status {status}" if status else f"standard error {error!r}")
        return wrong


def converse(data):
    """Has an adapter read bytes, and returns the bytes that it writes, those on standard error, and its status."""
    ran = subprocess.run([PROGRAM, "dap"], input=data, capture_output=True, timeout=SECONDS)
    return ran.stdout, ran.stderr, ran.returncode
