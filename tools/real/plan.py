"""The plan of a run on a kernel: when each event is over, and when each time comes that a request is given.

The model's clock moves by ticks alone. A tick becomes a wait in which the times that come in it come one after the other,
at least GROUP apart; a time that no tick reaches comes never."""
import struct

from model import TIMERS

MILLISECOND = 1000000
SETTLING, GROUP = 15 * MILLISECOND, 25 * MILLISECOND
NEVER = 10 ** 13
ABSOLUTE = 1


def length_of(row):
    """Returns the time in nanoseconds that a request was given."""
    seconds, nanoseconds = struct.unpack("<qq", row.time)
    return seconds * 10 ** 9 + nanoseconds


def deadlines(run):
    """Returns the deadline of each request that has a time and was issued, by its row."""
    found = {}
    for row in run.state.rows:
        if row.entry.op in TIMERS and row.issued is not None:
            start = 0 if row.entry.opflags & ABSOLUTE else run.moments[row.issued]["clock"]
            found[row.number] = start + length_of(row)
    return found


class Plan:
    """The lines that the C program reads; `length` is how long the run takes."""

    def __init__(self, run):
        self.run, self.setup = run, run.setup
        self.due = deadlines(run)
        self.length = 0
        self.begun, self.coming = [], {}
        self.lines = []
        self.place_events()
        self.place_timers()

    def text(self):
        return "".join(f"{line}\n" for line in self.lines)

    def place_events(self):
        clock, since = 0, 0
        for index, event in enumerate(self.run.events):
            moment = self.run.moments[index]
            if event.kind in ("step", "take", "tick"):
                since = self.length
                if event.kind == "tick":
                    self.length += self.reach(clock, moment["clock"])
                elif event.kind == "take" or self.run.calls(index):
                    self.length += SETTLING
                self.lines.append(f"event {index} {int(self.is_second(index, event))} {self.length} {self.posted_by(index)}")
            elif event.kind == "expire":
                since = max(since, self.coming.get(self.due[event.number], 0))
            self.begun.append(since)
            clock = moment["clock"]

    def reach(self, before, after):
        """Places the times that a tick reaches, and returns how long it takes."""
        times = sorted({due for due in self.due.values() if before < due <= after})
        for number, due in enumerate(times, 1):
            self.coming[due] = self.length + number * GROUP
        return (len(times) + 1) * GROUP

    def is_second(self, index, event):
        return event.kind == "step" and self.run.before(index, event.number)[1]

    def posted_by(self, index):
        """Returns how many completions were posted before the next event of a thread, the poller or the clock."""
        events = self.run.events
        while index + 1 < len(events) and events[index + 1].kind in ("issue", "finish", "expire"):
            index += 1
        return self.run.moments[index]["tail"]

    def place_timers(self):
        for row in self.run.state.rows:
            if row.entry.op in TIMERS and len(row.time) == 16 and row.result != -22:
                since = NEVER if row.issued is None else self.begun[row.issued]
                self.lines.append(f"timer {row.number} {self.at(row, since)} {min(since, self.length)}")

    def at(self, row, since):
        """Returns when the time of a request comes."""
        if row.issued is None:
            return NEVER
        if row.number not in self.due or self.due[row.number] > self.run.state.words["clock"]:
            return NEVER
        return self.coming.get(self.due[row.number], since)
