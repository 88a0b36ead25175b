"""Runs of the model, as `log` prints them: the state after each event, and what a comparison needs of it."""
import re
import struct
from dataclasses import dataclass

import children
import traces

# How many words the name of a place has, by its first word.
WIDTHS = {"sq.head": 1, "sq.tail": 1, "cq.head": 1, "cq.tail": 1, "sq.flags": 1, "sq.dropped": 1, "bfront": 1, "clock": 1,
          "counted": 1, "poller": 1, "file": 3, "durable": 3, "pipe": 3}
EVENT = re.compile(r"\d+ ([a-z]+)")
REFUSED = re.compile(r"fault schedule (\d+) \d+")
TIMERS = (11, 15)
SQPOLL = 1


class Fault(Exception):
    """The program ended with a fault: its line, and its status."""

    def __init__(self, text, status):
        super().__init__(text)
        self.text, self.status = text, status


@dataclass
class Row:
    """A request, its entry, and how it completed."""
    number: int
    entry: traces.Entry
    taken: int
    time: bytes
    unit: int
    phase: str = "queued"
    issued: int = None
    ended: int = None
    result: int = None


class State:
    """The state of the model after some events, as far as it is compared."""

    def __init__(self, setup):
        self.setup = setup
        self.memory = bytearray(setup.memory)
        self.files = {it.name: bytearray(it.contents) for it in setup.objects if it.kind == traces.FILE}
        self.durable = {name: bytearray(contents) for name, contents in self.files.items()}
        self.words = {"sq.head": 0, "sq.tail": 0, "cq.head": 0, "cq.tail": 0, "bfront": 0, "clock": 0}
        self.array, self.slots, self.posted, self.backlog = {}, {}, {}, {}
        self.rows = []
        self.completions = []
        self.calls = [[] for _ in setup.threads]
        self.last = [0 for _ in setup.threads]
        self.next = [0 for _ in setup.threads]
        self.waits = [False for _ in setup.threads]
        self.awake = bool(setup.options & SQPOLL)

    def produced(self):
        """Returns how many completions there are, with those of the backlog."""
        return self.words["cq.tail"] + len(self.backlog) - self.words["bfront"]

    def sequence(self):
        """Returns all completions in order: those that were in the ring, and those in the backlog."""
        waiting = [self.backlog[at] for at in range(self.words["bfront"], len(self.backlog))]
        return [*self.completions, *map(completion, waiting)]

    def apply(self, number, event, changes):
        """Carries out an event by what it changed."""
        tail, programs = self.words["cq.tail"], list(self.next)
        slots = list(self.taken_from(self.words["sq.head"], changes))
        entries = [self.slots.get(index, bytes(64)) for index in slots]
        memory = bytes(self.memory) if slots else b""
        for place, new in changes:
            self.set(place, new, number, entries, memory)
        for at in range(tail, self.words["cq.tail"]):
            self.completions.append(completion(self.posted.get(at % self.setup.completions, bytes(16))))
        if event.kind == "step" and self.next[event.number] > programs[event.number]:
            kind = self.setup.threads[event.number][programs[event.number]][0]
            if kind in (traces.ENTER, traces.CLOSE):
                self.calls[event.number].append(self.last[event.number])

    def taken_from(self, head, changes):
        """Yields the slot of each entry that an event took."""
        new = next((int(new) for place, new in changes if place == ["sq.head"]), head)
        for at in range(head, new):
            slot = self.array.get(at % self.setup.entries, 0)
            if slot < self.setup.entries:
                yield slot

    def set(self, place, new, number, entries, memory):
        """Sets a place to its new value."""
        word, *names = place
        if word in self.words:
            self.words[word] = int(new)
        elif word == "array":
            self.array[int(names[0])] = int(new)
        elif word == "slot":
            self.slots[int(names[0])] = bytes.fromhex(new)
        elif word == "cqe":
            self.posted[int(names[0])] = bytes.fromhex(new)
        elif word == "backlog":
            self.backlog[int(names[0])] = bytes.fromhex(new)
        elif word == "row":
            self.set_row(int(names[0]), new.split(), number, entries, memory)
        elif word == "mem":
            put_bytes(self.memory, names[0], new)
        elif word == "file":
            put_bytes(self.files[names[0]], names[1], new)
        elif word == "len":
            resize(self.files[names[0]], int(new))
        elif word == "durable":
            put_bytes(self.durable[names[0]], names[1], new)
        elif word == "dlen":
            resize(self.durable[names[0]], int(new))
        elif word == "poller":
            self.awake = new == "awake"
        elif word in ("pc", "last", "stage"):
            self.set_thread(word, int(names[0]), new)

    def set_thread(self, word, thread, new):
        if word == "pc":
            self.next[thread] = int(new)
        elif word == "last":
            self.last[thread] = int(new)
        else:
            self.waits[thread] = new.startswith("waiting")

    def set_row(self, row, words, number, entries, memory):
        if row == len(self.rows):
            entry = traces.Entry.read(entries[row - sum(it.taken < number for it in self.rows)])
            self.rows.append(Row(row, entry, number, memory[entry.addr:entry.addr + 16], int(words[5])))
        it = self.rows[row]
        it.phase = words[6]
        if it.phase == "issued":
            it.issued = number
        if it.phase == "ended":
            it.ended, it.result = number, int(words[7])


def completion(raw):
    """Returns the user_data, the result and the flags of a completion."""
    return struct.unpack("<QiI", raw)


def put_bytes(into, where, new):
    raw, at = bytes.fromhex(new), int(where.split("..")[0])
    if len(into) < at + len(raw):
        into.extend(bytes(at + len(raw) - len(into)))
    into[at:at + len(raw)] = raw


def resize(into, length):
    del into[length:]
    into.extend(bytes(length - len(into)))


def change(line):
    """Returns the place of a line of `log`, and its new value."""
    words = line.split(" ")
    width = WIDTHS.get(words[0], 2)
    return words[:width], line.split(" -> ", 1)[1]


def changes_of(text):
    """Returns what each printed event changed."""
    found = []
    for line in text.splitlines():
        if line.startswith("  "):
            found[-1].append(change(line[2:]))
        elif EVENT.match(line):
            found.append([])
    return found


class Program:
    """The proved program, and a folder for the traces that it reads."""

    def __init__(self, path, room):
        self.path, self.room = path, room

    def run(self, *words):
        """Runs the program, and returns what it prints; a fault is raised."""
        ran = children.run([self.path, *words])
        if ran.returncode:
            raise Fault(ran.stderr, ran.returncode)
        return ran.stdout

    def log(self, setup, events, start=0):
        """Runs events, and returns what each from `start` on changed, up to the first that is refused."""
        path = f"{self.room}/run.trace"
        with open(path, "wb") as it:
            it.write(setup.with_events(events))
        ran = children.run([self.path, "log", path, "--from", str(start)])
        if ran.returncode and not REFUSED.match(ran.stderr):
            raise Fault(ran.stderr, ran.returncode)
        return changes_of(ran.stdout)


class Run:
    """Events that the model accepted, and the state after them."""

    def __init__(self, program, setup):
        self.program, self.setup = program, setup
        self.events, self.state = [], State(setup)
        self.moments = []

    def extend(self, events):
        """Appends events up to the first that is refused. Returns how many were accepted."""
        found = self.program.log(self.setup, [*self.events, *events], len(self.events))
        for event, changes in zip(events, found):
            self.state.apply(len(self.events), event, changes)
            self.events.append(event)
            self.moments.append(self.moment())
        return len(found)

    def moment(self):
        """Returns what is needed of the state after the newest event."""
        state = self.state
        words = state.words
        return {"clock": words["clock"], "produced": state.produced(), "tail": words["cq.tail"],
                "next": list(state.next), "waits": list(state.waits), "waiting": words["sq.tail"] - words["sq.head"],
                "awake": state.awake}

    def before(self, index, thread):
        """Returns a thread's next instruction before an event, and whether it waits."""
        if index == 0:
            return 0, False
        moment = self.moments[index - 1]
        return moment["next"][thread], moment["waits"][thread]

    def calls(self, index):
        """Returns whether an event is a step of a thread that begins a call."""
        event = self.events[index]
        if event.kind != "step":
            return False
        at, waits = self.before(index, event.number)
        return not waits and self.setup.threads[event.number][at][0] in (traces.ENTER, traces.CLOSE)
