"""Where runs of an editor stop: breakpoints of each kind, findings, targets, and lines of the console."""

import json
import re

from adapter import Adapter, RUN
from walking import jump

MOST_DATA = 64
WRITE = 23


def nearest(moments, at, forward):
    """Returns the nearest of some moments above or below a position, or None."""
    if forward:
        return min((it for it in moments if it > at), default=None)
    return max((it for it in moments if it < at), default=None)


def runs_through(checks, adapter, run, name, above, below, reason):
    """Runs from stop to stop, from the start to the end and back."""
    jump(checks, adapter, 0)
    for command, moments, end in (("continue", above, len(run)), ("reverseContinue", below, 0)):
        while True:
            at = adapter.moment()
            stopped, _ = adapter.move(command, threadId=RUN)
            wanted = nearest(moments, at, command == "continue")
            checks.same(f"{name}: {command} from {at}", adapter.moment(), end if wanted is None else wanted)
            if wanted is None:
                checks.same(f"{name}: {command} to an end", stopped["reason"], "pause")
                break
            checks.same(f"{name}: {command} to {wanted}", stopped["reason"], reason)


def verified(checks, name, body, wanted):
    checks.same(f"{name}: verified", [it["verified"] for it in body["breakpoints"]], wanted)


def unverified(checks, name, body):
    """Holds that a breakpoint isn't set, and that the response says why."""
    found = body["breakpoints"]
    checks.same(name, [(it["verified"], bool(it.get("message"))) for it in found], [(False, True)])


def line_of_event(run, index):
    first = next(number for number, line in enumerate(run.source, 1) if line.strip() == '"schedule": [')
    return first + 1 + index


def line_breakpoints(checks, adapter, run):
    """Sets a breakpoint on each kind of line: an event stops before it, an instruction before each step that does it."""
    source = {"path": run.path}
    index = len(run) // 2
    line = line_of_event(run, index)
    body = adapter.body("setBreakpoints", source=source, breakpoints=[{"line": line}, {"line": 1}])
    verified(checks, "a line", body, [True, False])
    checks.same("a line's number", body["breakpoints"][0].get("line"), line)
    runs_through(checks, adapter, run, "an event's line", [index], [index], "breakpoint")
    thread, program = max(enumerate(run.script["threads"]), key=lambda it: len(it[1]))
    counters = run.counters()
    instruction = next(number for number, line in enumerate(run.source, 1) if line.strip() == '"threads": [')
    instruction += 1 + sum(len(it) + 2 for it in run.script["threads"][:thread]) + 2
    moments = [it for it in range(len(run)) if run.is_of(f"thread {thread}", it) and counters[it][thread] == 1]
    adapter.body("setBreakpoints", source=source, breakpoints=[{"line": instruction}])
    runs_through(checks, adapter, run, "an instruction's line", moments, moments, "breakpoint")
    targets = adapter.body("gotoTargets", source=source, line=instruction)["targets"]
    found = []
    for target in targets:
        adapter.move("goto", threadId=RUN, targetId=target["id"])
        found.append(adapter.moment())
    checks.same("targets of an instruction's line", found, moments)
    conditional = adapter.body("setBreakpoints", source=source, breakpoints=[{"line": line, "condition": "= 1"}])
    unverified(checks, "a line with a condition", conditional)
    other = adapter.body("setBreakpoints", source={"path": "/other.json"}, breakpoints=[{"line": line}])
    unverified(checks, "another file", other)
    locations = adapter.body("breakpointLocations", source=source, line=line)["breakpoints"]
    checks.same("locations of a line", [it["line"] for it in locations], [line])
    targets = adapter.body("gotoTargets", source=source, line=line)["targets"]
    checks.same("targets of a line", [it["line"] for it in targets], [line])
    stopped, _ = adapter.move("goto", threadId=RUN, targetId=targets[0]["id"])
    checks.same("goto", (stopped["reason"], adapter.moment()), ("goto", index))
    adapter.body("setBreakpoints", source=source, breakpoints=[])


def trace_breakpoints(checks, adapter, run):
    """Sets a breakpoint on a line of a trace's source."""
    source = adapter.body("stackTrace", threadId=RUN)["stackFrames"][0]["source"]
    index = len(run) // 2
    verified(checks, "a trace's line", adapter.body("setBreakpoints", source=source, breakpoints=[{"line": index + 1}]), [True])
    runs_through(checks, adapter, run, "a trace's line", [index], [index], "breakpoint")
    adapter.body("setBreakpoints", source=source, breakpoints=[])


def data_breakpoints(checks, adapter, run):
    """Sets data breakpoints: forward a run stops after a change, back before it."""
    for place in ("cq.tail", "row 0", "pc 0"):
        info = adapter.body("dataBreakpointInfo", name=place)
        body = adapter.body("setDataBreakpoints", breakpoints=[{"dataId": info["dataId"]}])
        verified(checks, place, body, [True])
        changed = run.changed_at(place)
        runs_through(checks, adapter, run, place, [it + 1 for it in changed], changed, "data breakpoint")
    checks.same("no place", adapter.body("dataBreakpointInfo", name="cq.middle")["dataId"], None)
    many = [{"dataId": f"mem {it}"} for it in range(MOST_DATA + 1)]
    verified(checks, "65 places", adapter.body("setDataBreakpoints", breakpoints=many), [True] * MOST_DATA + [False])
    values = [{"dataId": "cq.tail", "condition": f"= {it}"} for it in range(MOST_DATA)]
    both = many[:40] + values[:25] + [many[0], values[0]]
    body = adapter.body("setDataBreakpoints", breakpoints=both)
    verified(checks, "64 places and values, and two again", body, [True] * MOST_DATA + [False, True, True])
    verified(checks, "no place", adapter.body("setDataBreakpoints", breakpoints=[{"dataId": "cq.middle"}]), [False])
    odd = adapter.body("setDataBreakpoints", breakpoints=[{"dataId": "cq.tail", "condition": "> 2"}])
    unverified(checks, "a condition that is none", odd)
    met = [index + 1 for index, changes in enumerate(run.changes) if ("cq.tail", "2") in [(it[0], it[2]) for it in changes]]
    verified(checks, "a value", adapter.body("setDataBreakpoints", breakpoints=[{"dataId": "cq.tail", "condition": "= 2"}]), [True])
    jump(checks, adapter, 0)
    adapter.move("continue", threadId=RUN)
    checks.same("a value is met", adapter.moment(), met[0] if met else len(run))
    adapter.body("setDataBreakpoints", breakpoints=[])


def other_breakpoints(checks, adapter, run):
    """Sets breakpoints on events by their names, and on moments by their addresses."""
    name = next(it for it in run.events if it.startswith("finish "))
    named = [index for index, it in enumerate(run.events) if it == name]
    body = adapter.body("setFunctionBreakpoints", breakpoints=[{"name": name}, {"name": "finnish"}])
    verified(checks, name, body, [True, False])
    runs_through(checks, adapter, run, name, named, named, "breakpoint")
    names = [{"name": it} for it in ("issue", name, "finish")]
    verified(checks, "three names", adapter.body("setFunctionBreakpoints", breakpoints=names), [True] * 3)
    named = [index for index, it in enumerate(run.events) if it.split(" ")[0] in ("issue", "finish")]
    runs_through(checks, adapter, run, "three names", named, named, "breakpoint")
    conditional = adapter.body("setFunctionBreakpoints", breakpoints=[{"name": name, "condition": "= 1"}])
    unverified(checks, "a name with a condition", conditional)
    adapter.body("setFunctionBreakpoints", breakpoints=[])
    moments = [1, len(run) // 2]
    wanted = [{"instructionReference": str(it)} for it in moments]
    beyond = [{"instructionReference": str(it)} for it in (len(run), len(run) + 1)]
    body = adapter.body("setInstructionBreakpoints", breakpoints=wanted + beyond)
    verified(checks, "addresses", body, [True, True, False, False])
    runs_through(checks, adapter, run, "addresses", moments, moments, "breakpoint")
    adapter.body("setInstructionBreakpoints", breakpoints=[])
    window = adapter.body("disassemble", memoryReference="2", instructionOffset=-4, instructionCount=8)["instructions"]
    checks.same("disassembled", [it["instruction"] for it in window[2:]], run.events[:6])
    checks.same("addresses of events", [int(it["address"], 0) for it in window[2:]], list(range(6)))


def instruction_of(run, finding):
    """Returns the instruction at which a finding points whose moment no event shows, or None."""
    threads = run.script["threads"]
    if finding["kind"] in ("waits", "stuck"):
        return threads[finding["threads"][0]][int(re.search(r"instruction (\d+)", finding["text"])[1])]
    put = finding["put"][0] if finding["kind"] == "unfinished" else None
    return threads[put["thread"]][put["instruction"]] if put else None


def pointed(checks, adapter, run, finding, stopped):
    """Holds that an editor shows the instruction at which a finding points, if no event at its moment shows it."""
    frame = adapter.body("stackTrace", threadId=stopped["threadId"])["stackFrames"][0]
    if instruction := instruction_of(run, finding):
        checks.same(f"{finding['kind']} points at", json.loads(run.text_of(frame)), instruction)
    elif finding["kind"] == "not-durable" and "source" in frame:
        word, _, entry = json.loads(run.text_of(frame))
        checks.same("not-durable points at a WRITE", (word, entry["op"]), ("put", WRITE))


def findings(checks, adapter, run):
    """Stops at faults and at notes."""
    for filters in (["faults"], ["notes"], ["faults", "notes"]):
        wanted = [it for it in run.findings if ("faults" if it["fault"] else "notes") in filters]
        adapter.body("setExceptionBreakpoints", filters=filters)
        moments = [it["moment"] for it in wanted]
        runs_through(checks, adapter, run, str(filters), moments, moments, "exception")
        if not wanted:
            continue
        jump(checks, adapter, 0)
        for at in sorted({*moments} - {0}):
            stopped, _ = adapter.move("continue", threadId=RUN)
            here = [it for it in wanted if it["moment"] == at]
            checks.same(f"{filters}: the text of an exception at {at}", stopped.get("text"), here[0]["text"])
            info = adapter.body("exceptionInfo", threadId=RUN)
            checks.same(f"{filters}: the exception at {at}", (info["exceptionId"], info.get("description")),
                        (here[0]["kind"], here[0]["text"]))
            if run.script:
                pointed(checks, adapter, run, here[0], stopped)
    adapter.body("setExceptionBreakpoints", filters=[])


def restarts_to_a_fault(checks, run):
    """Launches and restarts a run that stops only at faults: each time the text is that of the fault, and not of a note before it."""
    fault = next(it for it in run.findings if it["fault"])
    first = next(it for it in run.findings if it["moment"] == fault["moment"])
    checks.same("a note before the first fault, at its moment", first["fault"], False)
    wanted = ("exception", fault["text"], fault["moment"], fault["kind"], fault["text"])
    with Adapter() as adapter:
        adapter.start(**run.launch())
        adapter.body("setExceptionBreakpoints", filters=["faults"])
        checks.same("the first fault", shown_fault(adapter, adapter.configured()), wanted)
        for number in (1, 2):
            adapter.events.clear()
            adapter.body("restart")
            stopped = adapter.event("stopped")["body"]
            checks.same(f"the first fault after restart {number}", shown_fault(adapter, stopped), wanted)
        checks.same("messages", adapter.end(), [])


def shown_fault(adapter, stopped):
    """Returns what the editor shows where a run stopped: why, the text, the moment, and the exception."""
    info = adapter.body("exceptionInfo", threadId=RUN)
    return stopped["reason"], stopped.get("text"), adapter.moment(), info["exceptionId"], info.get("description")


def console(checks, adapter, run):
    """Types lines of the program into the console. One that moves sends `continued` and `stopped`, another one neither."""
    jump(checks, adapter, 1)
    body = adapter.body("evaluate", expression="where", context="repl")
    checks.same("where", body["result"], f"at 1 of {len(run)}")
    checks.same("show", adapter.body("evaluate", expression="show pc 0", context="repl")["result"], adapter.value("pc 0"))
    checks.same("no event", adapter.events, [])
    adapter.body("evaluate", expression="watch cq.tail", context="repl")
    adapter.events.clear()
    changed = nearest([it + 1 for it in run.changed_at("cq.tail")], 1, True)
    if changed is not None:
        body = adapter.body("evaluate", expression="cont", context="repl")
        checks.same("cont", body["result"], f"change at {changed}")
        adapter.event("continued")
        adapter.event("stopped")
        checks.same("cont moves", adapter.moment(), changed)
    adapter.body("evaluate", expression="unwatch", context="repl")
    adapter.refusal("evaluate", expression="fly", context="watch")
    response = adapter.ask("completions", text="show cq.", column=9)
    words = [it.get("text") or it["label"] for it in response["body"]["targets"]]
    checks.same("completions", any("cq.tail" in it for it in words), True)
    checks.same("first words", completed(adapter, "w", 2), [("watch", 1), ("where", 1)])
    checks.same("no first word of the console", completed(adapter, "mem", 4), [])
    checks.same("a column after a pair of units", completed(adapter, "\U0001d11e cq.head", 7), [("cq.head", 3), ("cq.tail", 3)])


def completed(adapter, text, column):
    """Returns the words that complete a text, and how many units each replaces."""
    targets = adapter.body("completions", text=text, column=column)["targets"]
    return [(it["label"], it["length"]) for it in targets]


def first_stops(checks, run):
    """Launches that run to the first stop: one at the start, and one after it."""
    lines = [{"line": line_of_event(run, it)} for it in (0, 3)]
    for moment, first in ((0, lines), (3, lines[1:])):
        with Adapter() as adapter:
            adapter.start(**run.launch())
            adapter.body("setBreakpoints", source={"path": run.path}, breakpoints=first)
            checks.same(f"the first stop at {moment}", adapter.configured()["reason"], "breakpoint")
            checks.same(f"the moment of the first stop at {moment}", adapter.moment(), moment)
            checks.same("messages", adapter.end(), [])


def targets_of_one_line(checks, run):
    """Asks for the targets of a script that is one line: each moment once, and with a column those of what is there."""
    source = {"path": run.path}
    with Adapter() as adapter:
        adapter.start(**run.launch(), stopOnEntry=True)
        adapter.configured()
        found = adapter.body("gotoTargets", source=source, line=1)["targets"]
        checks.same("targets of one line", sorted(it["id"] for it in found), list(range(len(run))))
        for target in found:
            there = adapter.body("gotoTargets", source=source, line=1, column=target["column"])["targets"]
            checks.same(f"targets at column {target['column']}", [it["id"] for it in there], [target["id"]])
        checks.same("messages", adapter.end(), [])


def targets(checks, adapter, run):
    """Steps into the next completions."""
    jump(checks, adapter, 0)
    frame = adapter.body("stackTrace", threadId=RUN)["stackFrames"][0]["id"]
    found = adapter.body("stepInTargets", frameId=frame)["targets"]
    ends = [index + 1 for index, it in enumerate(run.events) if it.startswith("finish ")]
    checks.same("targets", len(found), len(ends[:64]))
    checks.same("the first target", found[0]["label"], f"row {run.events[ends[0] - 1].split(' ')[1]} completes")
    adapter.move("stepIn", threadId=RUN, targetId=found[0]["id"])
    checks.same("stepIn to a target", adapter.moment(), ends[0])
    jump(checks, adapter, 0)
