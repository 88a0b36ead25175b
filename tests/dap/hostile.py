"""Bad input: each row of the table of answers, random bytes, pieces of any size, and launches that are refused."""
import json
import os
import random
import resource
import subprocess

import protocol
from adapter import PROGRAM, RUN, SECONDS, Adapter, converse, frame, frames_in
from model import LONGEST, laid_out, program

MOST_BODY = 1 << 20
MOST_HEADER = 1024
MOST_NESTING = 127
LEFT_OUT = ("attach", "cancel", "modules", "pause", "progress", "restartFrame", "setExpression", "setVariable", "terminate",
            "terminateThreads", "writeMemory")
MIB = 1 << 20
INITIALIZE = {"adapterID": "uringwalk", "linesStartAt1": True, "columnsStartAt1": True, "pathFormat": "path"}


def request(seq, command, **arguments):
    return {"seq": seq, "type": "request", "command": command, "arguments": arguments}


def heard(checks, name, bodies, status=0):
    """Has an adapter read bodies, and returns the messages that it sends. A body of bytes is sent as it is."""
    out, err, code = converse(b"".join(frame(it) for it in bodies))
    messages, rest = frames_in(out)
    checks.same(f"{name}: the status, the rest, and standard error", (code, rest, err), (status, b"", b""))
    for number, message in enumerate(messages, 1):
        checks.same(f"{name}: faults", [*protocol.faults_of_message(message)], [])
        checks.same(f"{name}: seq", message["seq"], number)
    return messages


def outcomes(messages):
    return [(it["request_seq"], it["success"]) for it in messages if it["type"] == "response"]


def lost_framing(checks):
    """Framing that is lost ends the adapter, with the answers to what came before and a line on standard error."""
    hello = frame(request(1, "initialize", **INITIALIZE))
    body = json.dumps(request(2, "threads")).encode()
    length = len(body)
    cases = {
        "no length": b"Content-Type: text\r\n\r\n" + body,
        "no header": b"\r\n" + body,
        "two lengths": b"Content-Length: %d\r\nContent-Length: %d\r\n\r\n%s" % (length, length, body),
        "no number": b"Content-Length: many\r\n\r\n" + body,
        "no digits": b"Content-Length: \r\n\r\n" + body,
        "a negative number": b"Content-Length: -1\r\n\r\n" + body,
        "a number too large": b"Content-Length: %d\r\n\r\n" % (MOST_BODY + 1),
        "a number of many digits": b"Content-Length: 99999999999999999999999\r\n\r\n" + body,
        "a long header": b"X: " + b"y" * 1100 + b"\r\nContent-Length: %d\r\n\r\n%s" % (length, body),
        "a line feed alone": b"Content-Length: %d\n\n%s" % (length, body),
        "bytes that are no header": b"\0\xff" * 600,
    }
    for name, data in cases.items():
        out, err, status = converse(hello + data)
        messages, rest = frames_in(out)
        checks.same(f"{name}: the status", status, 1)
        checks.same(f"{name}: lines on standard error", err.count(b"\n"), 1)
        checks.same(f"{name}: the answer before", (outcomes(messages), rest), ([(1, True)], b""))


def limits(checks):
    """The longest body, header and nesting are read, and nothing beyond them. The name of the length may have any case."""
    hello = frame(request(1, "initialize", **INITIALIZE))
    body = json.dumps(request(2, "disconnect")).encode()

    def framed(size, name=b"Content-Length"):
        end = b"\r\n%s: %d\r\n\r\n" % (name, len(body))
        return b"X: " + b"y" * (size - 3 - len(end)) + end + body

    def nested(levels):
        return b'{"seq":2,"type":"request","command":"disconnect","x":' + b"[" * (levels - 1) + b"]" * (levels - 1) + b"}"
    read, refused = [(1, True), (2, True)], [(1, True), (0, False)]
    cases = {
        "the longest body": (frame(body + b" " * (MOST_BODY - len(body))), read, 0),
        "the longest header": (framed(MOST_HEADER), read, 0),
        "a header of one byte more": (framed(MOST_HEADER + 1), [(1, True)], 1),
        "the deepest nesting": (frame(nested(MOST_NESTING)), read, 0),
        "nesting of one level more": (frame(nested(MOST_NESTING + 1)), refused, 0),
        "a name in small letters": (framed(100, b"content-length"), read, 0),
        "an end within a header": (b"Content-Le", [(1, True)], 0),
        "an end within a body": (b"Content-Length: 9\r\n\r\n{", [(1, True)], 0),
    }
    for name, (data, wanted, code) in cases.items():
        out, _, status = converse(hello + data)
        checks.same(name, (outcomes(frames_in(out)[0]), status), (wanted, code))


def no_requests(checks):
    """What is no request of JSON is refused with the number 0; responses and events are ignored. Both continue."""
    deep = b'{"seq":2,"x":' + b"[" * 200 + b"]" * 200 + b"}"
    for name, body in {"no JSON": b"{]", "nothing": b"", "half a text": b'{"seq": 2', "bytes": b"\xff\xfe", "nesting": deep,
                       "a list": b"[1]", "a number": b"7", "null": b"null"}.items():
        messages = heard(checks, name, [request(1, "initialize", **INITIALIZE), body, request(3, "disconnect")])
        checks.same(f"{name}: refused", outcomes(messages), [(1, True), (0, False), (3, True)])
        checks.same(f"{name}: a message", bool(messages[1].get("message")), True)
    ignored = {"a response": {"seq": 2, "type": "response", "request_seq": 9, "success": True, "command": "x"},
               "an event": {"seq": 2, "type": "event", "event": "stopped", "body": {}}}
    for name, body in ignored.items():
        messages = heard(checks, name, [request(1, "initialize", **INITIALIZE), body, request(3, "disconnect")])
        checks.same(f"{name}: ignored", outcomes(messages), [(1, True), (3, True)])
    strange = request(70, "initialize", **INITIALIZE, colour="blue", more=[1, {"deep": None}])
    messages = heard(checks, "unknown arguments, and other numbers", [strange, request(7, "disconnect")])
    checks.same("unknown arguments, and other numbers: answered", outcomes(messages), [(70, True), (7, True)])
    messages = heard(checks, "an end of input", [request(1, "initialize", **INITIALIZE)])
    checks.same("an end of input: answered", outcomes(messages), [(1, True)])
    checks.same("no input", converse(b""), (b"", b"", 0))


def refused_requests(checks, run):
    """Requests that are refused, each between others that are answered."""
    launch = request(2, "launch", **run.launch(), stopOnEntry=True)
    begin = [request(1, "initialize", **INITIALIZE), launch, request(3, "configurationDone")]
    bad = [("fly", {}), ("initialize", INITIALIZE), ("launch", run.launch()), ("configurationDone", {}),
           ("stackTrace", {}), ("stackTrace", {"threadId": "one"}), ("stackTrace", {"threadId": 99}),
           ("scopes", {"frameId": 99}), ("variables", {"variablesReference": 0}),
           ("variables", {"variablesReference": 2**31 - 1}), ("variables", {"variablesReference": -1}),
           ("next", {"threadId": 0}), ("next", {"threadId": RUN, "granularity": "leap"}), ("continue", {}),
           ("evaluate", {"expression": 7}), ("evaluate", {"expression": "no place", "context": "watch"}),
           ("setDataBreakpoints", {"breakpoints": {}}), ("setExceptionBreakpoints", {"filters": ["all"]}),
           ("goto", {"threadId": RUN, "targetId": 1 << 40}), ("readMemory", {"memoryReference": "cq.tail", "count": 1}),
           ("disassemble", {"memoryReference": "here", "instructionCount": 1}),
           ("evaluate", {"expression": "goto 1", "context": "watch"}), ("evaluate", {"expression": "on 1", "context": "hover"}),
           *((command, {}) for command in LEFT_OUT)]
    asked = begin + [request(100 + index, command, **arguments) for index, (command, arguments) in enumerate(bad)]
    asked += [request(90, "evaluate", expression="moment"), request(91, "disconnect")]
    messages = heard(checks, "refused requests", asked)
    found = {it["request_seq"]: it for it in messages if it["type"] == "response"}
    for index, (command, arguments) in enumerate(bad):
        checks.same(f"{command} {arguments} is refused", found[100 + index]["success"], False)
    checks.same("nothing has moved", found[90]["body"]["result"], "0")
    early = [request(1, "threads"), request(2, "launch", **run.launch()), request(3, "initialize", **INITIALIZE),
             request(4, "next", threadId=RUN), request(5, "configurationDone"), request(6, "disconnect")]
    messages = heard(checks, "requests that come early", early)
    wanted = [(1, False), (2, False), (3, True), (4, False), (5, False), (6, True)]
    checks.same("requests that come early", outcomes(messages), wanted)
    checks.same("uris", outcomes(heard(checks, "uris", [request(1, "initialize", **{**INITIALIZE, "pathFormat": "uri"})])), [(1, False)])


def session(run):
    """Returns the bytes of a whole session."""
    asked = [request(1, "initialize", **INITIALIZE), request(2, "launch", **run.launch(), stopOnEntry=True),
             request(3, "configurationDone"), request(4, "next", threadId=RUN), request(5, "stackTrace", threadId=RUN),
             request(6, "continue", threadId=RUN), request(7, "stepBack", threadId=RUN), request(8, "disconnect")]
    return [frame(it) for it in asked]


def in_pieces(checks, run):
    """The answers are the same whatever the pieces are in which input comes."""
    data = b"".join(session(run))
    wanted = converse(data)[0]
    for size in (1, 7, 333):
        with Adapter() as adapter:
            for at in range(0, len(data), size):
                adapter.write(data[at:at + size])
            adapter.process.stdin.close()
            checks.same(f"pieces of {size}", adapter.process.stdout.read() == wanted, True)


def random_bytes(checks, run, seeds):
    """Bodies of random bytes between the messages of a session are refused, and the rest is answered. Random bytes that
    are no frames end it."""
    plain = outcomes(frames_in(converse(b"".join(session(run)))[0])[0])
    for seed in range(seeds):
        chance = random.Random(seed)
        data, count = [], 0
        for part in session(run):
            if chance.random() < 0.5:
                data.append(frame(b"\x80" + chance.randbytes(chance.randrange(200))))
                count += 1
            data.append(part)
        out, err, status = converse(b"".join(data))
        found = outcomes(frames_in(out)[0])
        checks.same(f"seed {seed}: status", (status, err), (0, b""))
        checks.same(f"seed {seed}: refused", len([it for it in found if it == (0, False)]), count)
        checks.same(f"seed {seed}: answered", [it for it in found if it[0]], plain)
        out, err, status = converse(session(run)[0] + chance.randbytes(2000) + session(run)[1])
        checks.same(f"seed {seed}: bytes between frames", (status, err.count(b"\n")), (1, 1))


def refusals_of_launch(checks, run, folder):
    """Launches that are refused, each followed by one that isn't."""
    def write(name, data):
        path = os.path.join(folder, name)
        with open(path, "wb") as it:
            it.write(data)
        return path
    text = open(run.path, "rb").read()
    script = json.loads(text)
    cases = {
        "a script with a fault": {"program": write("fault.json", text.replace(b'["push", 0]', b'["push", "x"]', 1))},
        "no JSON": {"program": write("no.json", text[:-3])},
        "a schedule that is refused": {"program": write("refused.json", json.dumps({**script, "schedule": [["issue", 99]]}).encode())},
    }
    for name, given in cases.items():
        first = program("check", given["program"]).splitlines()[0].removeprefix(f"{given['program']}:")
        refused_launch(checks, name, run, given, first.strip())
    others = {"a trace that is none": {"trace": write("none.trace", b"URINGWALK?")}, "a script for a trace": {"trace": run.path},
              "no file": {"program": f"{folder}/missing.json"}, "a folder": {"program": folder}, "nothing": {},
              "a script and a trace": {"program": run.path, "trace": run.path}, "a path that is no text": {"program": 7}}
    for name, given in others.items():
        refused_launch(checks, name, run, given, "")
    refused_launch(checks, "a path of two lines", run, {"program": f"{folder}/missing\n.json"}, "can't be read")


def refused_launch(checks, name, run, given, sentence):
    with Adapter() as adapter:
        _, response = adapter.start(**given)
        checks.same(f"{name}: refused", response is not None and not response["success"], True)
        if response:
            checks.same(f"{name}: the sentence", sentence in response["body"]["error"]["format"], True)
        launched = adapter.send("launch", {**run.launch(), "stopOnEntry": True})
        checks.same(f"{name}: another launch", adapter.receive().get("event"), "initialized")
        adapter.launched = launched
        checks.same(f"{name}: entry", adapter.configured()["reason"], "entry")
        checks.same(f"{name}: faults", adapter.end(), [])


def longest_bodies(checks, run):
    """Requests of the longest bodies are refused, though the refusals are longer, and the next ones are answered."""
    def filled(command, before, after):
        head = b'{"seq":4,"type":"request","command":' + command + before
        return head + b"x" * (MOST_BODY - len(head) - len(after)) + after
    begin = [request(1, "initialize", **INITIALIZE), request(2, "launch", **run.launch(), stopOnEntry=True)]
    end = [request(3, "configurationDone"), request(5, "disconnect")]
    path = b',"arguments":{"program":"/'
    for name, body, at in (("a command", filled(b'"', b"", b'"}'), 3), ("a launch", filled(b'"launch"', path, b'"}}'), 1),
                           ("a restart", filled(b'"restart"', b',"arguments":{' + path[1:], b'"}}}'), 3),
                           ("an expression", filled(b'"evaluate"', b',"arguments":{"context":"watch","expression":"', b'"}}'), 3)):
        checks.same(f"{name}: bytes", len(body), MOST_BODY)
        asked = begin + end
        asked.insert(at, body)
        found = sorted(outcomes(heard(checks, f"the longest body, of {name}", asked)))
        checks.same(f"the longest body, of {name}", found, [(1, True), (2, True), (3, True), (4, False), (5, True)])


def longest_source(checks, folder):
    """A trace of the most events that has a source shows it, though it has more bytes than a request may have."""
    script = {"entries": 1, "threads": [[["put", 0, {"op": 0, "ud": 1}], ["push", 0]]],
              "schedule": [["step", 0]] * 2 + [["tick", 100000000000]] * (LONGEST - 2)}
    path, trace = os.path.join(folder, "ticks.json"), os.path.join(folder, "ticks.trace")
    with open(path, "w", encoding="utf-8") as it:
        it.write(laid_out(script))
    program("trace", path, trace)
    asked = [request(1, "initialize", **INITIALIZE), request(2, "launch", trace=trace, stopOnEntry=True),
             request(3, "configurationDone"), request(4, "source", sourceReference=1), request(5, "disconnect")]
    found = {it["request_seq"]: it for it in heard(checks, "the longest source", asked) if it["type"] == "response"}
    lines = found[4].get("body", {}).get("content", "").splitlines()
    checks.same("the longest source: lines", (len(lines), lines[-1:]), (LONGEST, ["tick 100000000000"]))


def limited(megabytes):
    return lambda: resource.setrlimit(resource.RLIMIT_AS, (megabytes * MIB, megabytes * MIB))


def out_of_memory(checks, run, small):
    """A launch without enough memory fails, and another may follow."""
    asked = [request(1, "initialize", **INITIALIZE), request(2, "launch", **run.launch()), request(3, "launch", **small.launch()),
             request(4, "configurationDone"), request(5, "disconnect")]
    refused = 0
    for megabytes in (24, 32, 48, 64, 96, 128, 256, 512, 1024):
        ran = subprocess.run([PROGRAM, "dap"], input=b"".join(frame(it) for it in asked), capture_output=True, timeout=SECONDS,
                             preexec_fn=limited(megabytes))
        found = dict(outcomes(frames_in(ran.stdout)[0]))
        if found.get(2) is None and ran.returncode:
            continue
        if found.get(2):
            break
        refused += 1
        checks.same(f"{megabytes} MiB: another launch", (found.get(3), found.get(5), ran.returncode), (True, True, 0))
    checks.same("some launch runs out of memory", refused > 0, True)
