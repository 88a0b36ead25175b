"""Whether a kernel could make a schedule: it issues the requests of a submission, in order, before the submission ends, and a NOP,
a cancellation or a removal completes as it is issued (io_uring_enter(2)).

A kernel has the choice of when it issues requests with IOSQE_ASYNC and FSYNCs, which workers carry out, and those from the first
with IOSQE_IO_DRAIN on. The later requests of a chain it issues before the next step of the thread that submitted them."""
from traces import Event

NOP, FSYNC, REMOVALS = 0, 3, {7: "removal", 12: "removal", 14: "cancel"}
DRAIN, ASYNC = 2, 16


def is_linked(row):
    """Returns whether a request follows another one of its chain."""
    return row.unit != row.number


def is_for_workers(entry):
    """Returns whether a worker carries a request out from the start."""
    return entry.op == FSYNC or bool(entry.flags & ASYNC)


def noun_of(entry):
    """Returns what a request is called that completes as it is issued, or None for another one."""
    if is_for_workers(entry):
        return None
    return "NOP" if entry.op == NOP else REMOVALS.get(entry.op)


class Schedule:
    """The events of a run, and when each of its requests was submitted, issued and completed."""

    def __init__(self, run):
        self.run, self.events, self.rows = run, run.events, run.state.rows

    def may_be_late(self, row):
        """Returns whether a kernel may issue a request after its submission, or complete it after it is issued."""
        return is_for_workers(row.entry) or any(it.entry.flags & DRAIN for it in self.rows[:row.number + 1])

    def is_left(self, index, row):
        """Returns whether a request isn't issued before an event, though the model accepts that."""
        if row.issued is not None and row.issued < index or row.ended is not None and row.ended < index:
            return False
        tried = [*self.events[:index], Event("issue", row.number)]
        return len(self.run.program.log(self.run.setup, tried, index)) == 1

    def goes_on(self, index, row):
        """Returns whether an event is a step of the thread that submitted a request."""
        by, event = self.events[row.taken], self.events[index]
        return by.kind == event.kind == "step" and by.number == event.number

    def lateness(self, index, row):
        """Returns why an event comes late for a request, or None where the request leaves it the choice."""
        if self.may_be_late(row):
            return None
        if row.issued is None or row.issued >= index:
            if is_linked(row) and not self.goes_on(index, row) or not self.is_left(index, row):
                return None
            call = "take" if self.events[row.taken].kind == "take" else "enter"
            return f"row {row.number} is issued late, a kernel issues it in the {call} of event {row.taken}"
        noun = noun_of(row.entry)
        if noun and (row.ended is None or row.ended >= index):
            return f"a {noun} completes later than it is issued"
        return None

    def does_next(self, index, row):
        """Returns whether an event is what the submission does with a request."""
        event = self.events[index]
        does = event.kind == "issue" or event.kind == "finish" and bool(noun_of(row.entry))
        return does and event.number == row.number

    def first_late(self):
        """Returns the index of the first event that comes late, and why it is late, or None for a schedule that a kernel could make."""
        first, count, passed = 0, 0, []
        for index, event in enumerate(self.events):
            rows = sorted(self.rows[first:count], key=is_linked)
            for row in [*passed, *rows]:
                if self.does_next(index, row):
                    break
                if why := self.lateness(index, row):
                    return index, why
            else:
                passed += [row for row in rows if is_linked(row) and self.is_left(index, row)]
                first = event.number if event.kind == "issue" else count
            count = sum(row.taken <= index for row in self.rows)
        return None
