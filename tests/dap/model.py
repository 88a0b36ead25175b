"""What a run has to look like in an editor: its events and changes as `log` prints them, and where a script's items are."""
import json
import os
import re
import struct
import subprocess

from adapter import PROGRAM, SECONDS, TOP

LONE = re.compile(r"(?:sq|cq)\.[a-z]+|bfront|clock|counted|poller")
BYTES = ("mem", "file", "durable", "pipe")
RANGE = re.compile(r"(.*?)(\d+)\.\.(\d+)$")
POLLER = ("take", "sleep")
# Two threads and a poller.
POLLED = {
    "entries": 4, "sqpoll": True, "threads": [
        [["put", 0, {"op": 0, "ud": 1}], ["push", 0], ["reap"]],
        [["put", 1, {"op": 0, "ud": 2}], ["push", 1], ["enter", 0, 1, 1], ["reap"]]],
    "schedule": [["step", 0], ["step", 1], ["step", 0], ["take", 1], ["step", 1], ["take", 1], ["issue", 0], ["issue", 1],
                 ["finish", 1], ["step", 1], ["step", 1], ["finish", 0], ["step", 0], ["sleep"]]}
# A thread waits for a READ that never completes, and another one is stuck.
HELD = {
    "entries": 2, "objects": [{"name": "p", "pipe": 8}], "fds": ["p:r", "p:w"], "threads": [
        [["put", 0, {"op": 22, "fd": 3, "len": 4, "ud": 1}], ["push", 0], ["enter", 1, 1, 1]],
        [["store", 64, "00"], ["reap"]]],
    "schedule": [["step", 0], ["step", 1], ["step", 0], ["step", 0], ["issue", 0], ["tick", 1]]}
# As many files as a script may have, each as long as it may be.
MOST_OBJECTS = 32
MOST_BYTES = 65536
FILES = {
    "entries": 1, "objects": [{"name": f"f{it}", "file": "07" * MOST_BYTES} for it in range(MOST_OBJECTS)],
    "fds": [f"f{it}" for it in range(MOST_OBJECTS)], "threads": [[["put", 0, {"op": 0, "ud": 1}], ["push", 0]]],
    "schedule": [["step", 0], ["step", 0]]}
LONGEST = 65536
PROGRAM_LENGTH = 4096
EVENT_BYTES = 16
TICK = 7


def example(name):
    with open(f"{TOP}/examples/{name}/script.json", encoding="utf-8") as it:
        return json.load(it)


def commands():
    """Returns the commands of the requests that the adapter knows."""
    with open(f"{TOP}/crates/dap_messages/src/command.rt", encoding="utf-8") as it:
        return re.findall(r'Command::\w+ => "(\w+)"', it.read())


def long_script():
    """Returns a script of 65,536 events: cycles of a NOP by one thread after the other, and ticks at the end."""
    threads, schedule = [[]], []
    for cycle in range((LONGEST - 8) // 6):
        if len(threads[-1]) + 4 > PROGRAM_LENGTH:
            threads.append([])
        threads[-1] += [["put", cycle % 8, {"op": 0, "ud": cycle}], ["push", cycle % 8], ["enter", 1, 0, 0], ["reap"]]
        step = ["step", len(threads) - 1]
        schedule += [step, step, step, ["issue", cycle], ["finish", cycle], step]
    schedule += [["tick", 1]] * (LONGEST - len(schedule))
    return {"entries": 8, "threads": threads, "schedule": schedule}


def far_script():
    """Returns a script whose only event of the kernel is after more events than a frame looks ahead."""
    count = 5
    program = [["put", 0, {"op": 0, "ud": 0}]] * PROGRAM_LENGTH
    schedule = [["step", it] for it in range(count) for _ in range(PROGRAM_LENGTH)]
    return {"entries": 8, "threads": [program] * count, "schedule": [*schedule, ["tick", 1]]}


def laid_out(script):
    """Returns a script's text with an item of its lists on each line."""
    def rows(items, indent):
        return ",\n".join(f"{indent}{json.dumps(it)}" for it in items)
    head = {key: value for key, value in script.items() if key not in ("threads", "schedule")}
    threads = ",\n".join(f"    [\n{rows(it, '      ')}\n    ]" for it in script["threads"])
    members = [f"  {json.dumps(key)}: {json.dumps(value)}" for key, value in head.items()]
    members += [f'  "threads": [\n{threads}\n  ]', f'  "schedule": [\n{rows(script["schedule"], "    ")}\n  ]']
    return "{\n" + ",\n".join(members) + "\n}\n"


def program(*words):
    """Returns what the program prints."""
    ran = subprocess.run([PROGRAM, *words], capture_output=True, text=True, timeout=SECONDS, stdin=subprocess.DEVNULL)
    return ran.stdout


def each_place(line):
    """Yields each place of a line of the log, with its old and new values: each byte of a range."""
    words = line.split(" ")
    size = 1 if LONE.fullmatch(words[0]) else 3 if words[0] in BYTES[1:] else 2
    place, (old, new) = " ".join(words[:size]), " ".join(words[size:]).split(" -> ")
    found = RANGE.match(place)
    if not found:
        yield place, old, new
        return
    first, last = int(found[2]), int(found[3])
    for index in range(last - first + 1):
        part = slice(2 * index, 2 * index + 2)
        yield f"{found[1]}{first + index}", old[part], new[part]


class Run:
    """A run: its path, its events in the log's words, the lines of what each changed, and its script if it has one."""

    def __init__(self, path, script=None):
        self.path, self.script = path, script
        self.events, self.lines = [], []
        for line in program("log", path).splitlines():
            if line.startswith("  "):
                self.lines[-1].append(line[2:])
            else:
                self.events.append(line.split(" ", 1)[1])
                self.lines.append([])
        self.changes = [[it for line in lines for it in each_place(line)] for lines in self.lines]
        self.findings = json.loads(program("explain", path, "--json"))
        self.source = open(path, encoding="utf-8").read().splitlines() if script else None

    def __len__(self):
        return len(self.events)

    def launch(self):
        return {"program" if self.script else "trace": self.path}

    def logged(self, index):
        """Returns the text of an event in the log."""
        return "".join(f"{line}\n" for line in [f"{index} {self.events[index]}", *(f"  {it}" for it in self.lines[index])])

    def threads(self):
        """Returns the names of the threads that an editor sees, in the order of their numbers from 1."""
        count = len(self.script["threads"]) if self.script else self.thread_count
        polled = self.script.get("sqpoll", False) if self.script else False
        return ["run", *(f"thread {it}" for it in range(count)), *(["poller"] if polled else []), "kernel"]

    def is_of(self, thread, index):
        """Returns whether an event is one of a thread's."""
        word = self.events[index].split(" ")[0]
        if thread == "run":
            return True
        if word == "step":
            return self.events[index] == "step" + thread.removeprefix("thread")
        return thread == ("poller" if word in POLLER else "kernel")

    def stop_points(self, thread):
        """Returns the moments at which a thread stops as it steps."""
        after = {index + 1 for index in range(len(self)) if self.is_of(thread, index)}
        return sorted({0, len(self)} | after)

    def changed_at(self, place):
        """Returns the events that change a place."""
        return [index for index, changes in enumerate(self.changes) if any(it[0] == place for it in changes)]

    def counters(self):
        """Returns, for each moment, the next instruction of each thread."""
        now = [0] * len(self.script["threads"])
        found = [list(now)]
        for changes in self.changes:
            for place, _, new in changes:
                if place.startswith("pc "):
                    now[int(place[3:])] = int(new)
            found.append(list(now))
        return found

    def text_of(self, frame):
        """Returns the text of the script in a frame's range."""
        first, last = frame["line"] - 1, frame["endLine"] - 1
        lines = self.source[first:last + 1]
        lines[-1] = lines[-1][:frame["endColumn"] - 1]
        return "\n".join([lines[0][frame["column"] - 1:], *lines[1:]])


def write_run(folder, name, script, text_of=laid_out):
    """Writes a script, with an item on each line unless it is to be one line, and returns its run."""
    path = os.path.join(folder, f"{name}.json")
    with open(path, "w", encoding="utf-8") as it:
        it.write(text_of(script))
    return Run(path, script)


def write_trace(folder, name, script):
    """Writes the trace of a script, and returns its run."""
    path = os.path.join(folder, f"{name}.trace")
    given = write_run(folder, name, script)
    program("trace", given.path, path)
    made = Run(path)
    made.thread_count = len(script["threads"])
    return made


def write_longer(folder, run, count):
    """Writes a trace with the events of a shorter one and ticks after them, and returns its run."""
    path = os.path.join(folder, f"{count}.trace")
    with open(run.path, "rb") as it:
        data = it.read()
    start = len(data) - EVENT_BYTES * len(run)
    more = struct.pack("<B3xIQ", TICK, 0, 1) * (count - len(run))
    with open(path, "wb") as it:
        it.write(data[:start - 4] + struct.pack("<I", count) + data[start:] + more)
    made = Run(path)
    made.thread_count = run.thread_count
    return made
