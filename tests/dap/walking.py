"""What an editor sees as it goes forward and back through a run."""
import base64
import json

from adapter import LARGEST, RUN

SCOPES = ["Thread", "Rings", "Requests", "Objects", "Memory", "Changes", "Findings"]
PAGE = 256
BATCH = 32
AHEAD = 16384
DEEP = 3  # how many levels of variables are opened


def variables(adapter, reference, **page):
    return adapter.body("variables", variablesReference=reference, **page)["variables"]


def scopes(adapter, frame):
    """Returns the scopes of a frame by their names."""
    return {it["name"]: it for it in adapter.body("scopes", frameId=frame)["scopes"]}


def frames(adapter, run):
    """Returns the only frame of each thread, by the thread's name."""
    found = {}
    for thread in adapter.body("threads")["threads"]:
        stack = adapter.body("stackTrace", threadId=thread["id"])["stackFrames"]
        found[thread["name"]] = stack[0] if len(stack) == 1 else None
    return found


def held(checks, adapter, name, moment, places):
    """Compares the position, and the values of places, with what the log says."""
    checks.same(f"{name}: the position", adapter.moment(), moment)
    for place, value in places:
        checks.same(f"{name}: {place} at {moment}", adapter.value(place), value)
    if places:
        hovered = adapter.body("evaluate", expression=places[0][0], context="hover")["result"]
        checks.same(f"{name}: {places[0][0]} at {moment}, hovered", hovered, places[0][1])


def step(checks, adapter, run, command, to):
    """Steps all threads by one event, and holds what it changed."""
    forward = command != "stepBack"
    index = to - 1 if forward else to
    stopped, output = adapter.move(command, threadId=RUN)
    reason = "pause" if to in (0, len(run)) else "step"
    checks.same(f"{command} to {to}: the reason", stopped["reason"], reason)
    if forward:
        checks.same(f"{command} to {to}: the output", output, run.logged(index))
    held(checks, adapter, command, to, [(place, new if forward else old) for place, old, new in run.changes[index]])


def steps_at_an_end(checks, adapter, command, moment):
    """Holds that a step at an end of the run stays there, and stops."""
    stopped, _ = adapter.move(command, threadId=RUN)
    checks.same(f"{command} at an end", (stopped["reason"], adapter.moment()), ("pause", moment))


def whole(checks, adapter, run):
    """Goes through all moments, forward and back."""
    for to in range(1, len(run) + 1):
        step(checks, adapter, run, "stepIn" if to % 3 == 0 else "next", to)
    steps_at_an_end(checks, adapter, "next", len(run))
    for to in range(len(run) - 1, -1, -1):
        step(checks, adapter, run, "stepBack", to)
    steps_at_an_end(checks, adapter, "stepBack", 0)


def jump(checks, adapter, moment):
    """Goes to a moment by a line of the console. One that stays at its position sends no event."""
    if adapter.moment() == moment:
        return
    adapter.events.clear()
    adapter.body("evaluate", expression=f"goto {moment}", context="repl")
    adapter.event("continued")
    checks.same(f"goto {moment}", adapter.event("stopped")["body"]["reason"], "goto")


def asked_and_wanted(run, command, to):
    """Returns the requests that step to a moment and show it, and what their answers have, in order."""
    forward = command != "stepBack"
    index = to - 1 if forward else to
    places = [(place, new if forward else old) for place, old, new in run.changes[index]]
    expressions = [("moment", str(to)), *places]
    asked = [(command, {"threadId": RUN})]
    asked += [("evaluate", {"expression": it, "context": "watch"}) for it, _ in expressions]
    wanted = [command, *([run.logged(index)] if forward else []), "pause" if to in (0, len(run)) else "step"]
    return asked, wanted + [value for _, value in expressions]


def content_of(message):
    """Returns the value of a response, the text or the reason of an event, or else its command."""
    body = message.get("body", {})
    return body.get("result") or body.get("output") or body.get("reason") or message.get("command")


def in_batches(checks, adapter, run):
    """Goes through all moments of a long run, forward and back, with many requests at once."""
    way = [("next", to) for to in range(1, len(run) + 1)] + [("stepBack", to) for to in range(len(run) - 1, -1, -1)]
    for start in range(0, len(way), BATCH):
        asked, wanted = [], []
        for command, to in way[start:start + BATCH]:
            requests, answers = asked_and_wanted(run, command, to)
            asked += requests
            wanted += answers
        found = [content_of(it) for it in adapter.batch(asked)]
        for one, other in zip(found, wanted):
            checks.same(f"{way[start]}", one, other)
        checks.same(f"{way[start]}: messages", len(found), len(wanted))


def by_threads(checks, adapter, run):
    """Steps each thread through the run by its own stop points, forward and back."""
    for number, name in enumerate(run.threads(), 1):
        points = run.stop_points(name)
        way = [("next", it) for it in points[1:]] + [("stepBack", it) for it in reversed(points[:-1])]
        for command, to in way:
            adapter.move(command, threadId=number)
            checks.same(f"{command} of {name}", adapter.moment(), to)
    adapter.move("next", threadId=len(run.threads()), granularity="instruction")
    checks.same("next by instruction", adapter.moment(), 1)
    adapter.move("stepOut", threadId=RUN)
    checks.same("stepOut leaves a moment", adapter.moment() > 1, True)
    jump(checks, adapter, 0)


def next_event(run, thread, moment):
    """Returns the index of the next event of a thread, or None."""
    return next((it for it in range(moment, len(run)) if run.is_of(thread, it)), None)


def sourced(checks, name, moment, frame, wanted):
    """Holds that a frame has a source and a line, or neither. Returns whether it has both."""
    found = "source" in frame
    checks.same(f"the source and the line of {name} at {moment}", (found, frame["line"] > 0), (wanted, wanted))
    return found and wanted


def frames_of_script(checks, adapter, run, moments):
    """Holds that a thread's frame is its next instruction, and that of the others their next event."""
    counters = run.counters()
    for moment in moments:
        jump(checks, adapter, moment)
        found = frames(adapter, run)
        checks.same(f"threads at {moment}", list(found), run.threads())
        for name, frame in found.items():
            if name.startswith("thread "):
                program = run.script["threads"][int(name[7:])]
                items, index = program, counters[moment][int(name[7:])]
            else:
                items, index = run.script["schedule"], next_event(run, name, moment)
            if not sourced(checks, name, moment, frame, index is not None and index < len(items)):
                continue
            checks.same(f"the source of {name}", frame["source"].get("path"), run.path)
            checks.same(f"the text of {name} at {moment}", json.loads(run.text_of(frame)), items[index])


def frames_of_trace(checks, adapter, run, moments):
    """Holds that a frame's line is its next event's in the source, whose lines are the events."""
    frame = frames(adapter, run)["run"]
    reference = frame["source"]["sourceReference"]
    content = adapter.body("source", sourceReference=reference, source=frame["source"])["content"]
    checks.same("the lines of the source", content.splitlines(), run.events)
    for moment in moments:
        jump(checks, adapter, moment)
        for name, frame in frames(adapter, run).items():
            index = next_event(run, name, moment)
            if sourced(checks, name, moment, frame, index is not None):
                checks.same(f"the line of {name} at {moment}", frame["line"], index + 1)


def far_event(checks, adapter, run):
    """Holds what the kernel's frame says of an event that is at the end, farther than a frame looks ahead."""
    last = len(run) - 1
    none = f"no event in the next {AHEAD}"
    for moment, name in ((0, none), (last - AHEAD, none), (last - AHEAD + 1, run.events[last]), (last + 1, "no event")):
        jump(checks, adapter, moment)
        checks.same(f"the kernel's frame at {moment}", frames(adapter, run)["kernel"]["name"], name)


def opened(checks, adapter, reference, depth):
    """Yields the variables below a reference."""
    for variable in variables(adapter, reference, start=0, count=40):
        yield variable
        if variable["variablesReference"] and depth:
            yield from opened(checks, adapter, variable["variablesReference"], depth - 1)


def all_scopes(checks, adapter, run, moment):
    """Opens each scope of each thread. What has a place shows the place's value, as `evaluate` does."""
    jump(checks, adapter, moment)
    for name, frame in frames(adapter, run).items():
        found = scopes(adapter, frame["id"])
        checks.same(f"the scopes of {name}", list(found), SCOPES)
        for scope in found.values() if name == "run" else [found["Thread"]]:
            checks.same("a reference is in range", 0 < scope["variablesReference"] <= LARGEST, True)
            for variable in opened(checks, adapter, scope["variablesReference"], DEEP):
                if place := variable.get("evaluateName"):
                    checks.same(f"{place} at {moment}", variable["value"], adapter.value(place))


def changes_scope(checks, adapter, run, moment):
    """Holds that the scope Changes lists what the last event changed."""
    jump(checks, adapter, moment)
    scope = scopes(adapter, frames(adapter, run)["run"]["id"])["Changes"]
    names = [it["name"] for it in variables(adapter, scope["variablesReference"])]
    wanted = [] if moment == 0 else run.lines[moment - 1]
    if len(wanted) <= PAGE:
        checks.same(f"how many changes at {moment}", len(names), len(wanted))
        checks.same(f"changes at {moment}", [line.startswith(f"{it} ") for it, line in zip(names, wanted)],
                    [True] * len(wanted))


def findings_scope(checks, adapter, run, moment):
    """Holds that the scope Findings has sentences of `explain`."""
    jump(checks, adapter, moment)
    scope = scopes(adapter, frames(adapter, run)["run"]["id"])["Findings"]
    texts = [it["text"] for it in run.findings]
    for variable in variables(adapter, scope["variablesReference"]):
        checks.same("a finding's sentence", any(it in variable["value"] for it in texts), True)


def pages(checks, adapter, run):
    """Holds that a page is a slice, and that a container shows its first 256 children and how many more there are."""
    memory = scopes(adapter, frames(adapter, run)["run"]["id"])["Memory"]
    reference = memory["variablesReference"]
    checks.same("bytes of memory", memory.get("indexedVariables"), 65536)
    first = variables(adapter, reference)
    checks.same("children and the rest", (len(first), first[-1]["name"], str(65536 - PAGE) in first[-1]["value"]),
                (PAGE + 1, "..", True))
    page = variables(adapter, reference, filter="indexed", start=100, count=50)
    checks.same("a page", [it["name"] for it in page], [f"mem {it}" for it in range(100, 150)])
    checks.same("a page is a slice", page, first[100:150])
    last = variables(adapter, reference, filter="indexed", start=65530, count=50)
    checks.same("the last page", [it["name"] for it in last], [f"mem {it}" for it in range(65530, 65536)])


def memory(checks, adapter, run, moment):
    """Holds that readMemory gives the bytes that the places show."""
    jump(checks, adapter, moment)
    found = adapter.body("readMemory", memoryReference="mem 0", offset=4, count=16)
    wanted = [adapter.value(f"mem {it}") for it in range(4, 20)]
    checks.same("bytes of memory", base64.b64decode(found["data"]).hex(), "".join(wanted))
    found = adapter.body("readMemory", memoryReference="mem 65530", offset=0, count=16)
    checks.same("bytes past the end", (len(base64.b64decode(found["data"])), found.get("unreadableBytes")), (6, 10))
