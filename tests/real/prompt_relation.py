"""Prompt order as its definition has it: what is due before each event of a schedule, by asking the program what it accepts."""
import model
import traces

DRAIN, ASYNC, FSYNC = 2, 16, 3
INLINE = 0, 7, 12, 14  # a NOP and the removals complete as they are issued


class Relation:
    """A schedule and its requests."""

    def __init__(self, script, program, room):
        self.program = model.Program(program, room)
        self.program.run("trace", script, f"{room}/relation.trace")
        with open(f"{room}/relation.trace", "rb") as it:
            self.setup, self.events = traces.read(it.read())
        run = model.Run(self.program, self.setup)
        run.extend(self.events)
        self.rows = run.state.rows

    def accepts(self, index, kind, row):
        tried = [*self.events[:index], traces.Event(kind, row.number)]
        return len(self.program.log(self.setup, tried, index)) == 1

    def due(self, index, window):
        """Returns the kind of the event that is due at an index, and its request, or None once the submission has ended."""
        for is_later in (False, True):
            for row in window:
                if (row.unit != row.number) != is_later:
                    continue
                is_inline = row.entry.op in INLINE and not row.entry.flags & ASYNC
                for kind in ("issue", "finish") if is_inline else ("issue",):
                    if self.accepts(index, kind, row):
                        return kind, row
        return None

    def leaves_the_choice(self, row):
        """Returns whether a kernel may issue a request after its submission: a worker does it, or what is left of the submission."""
        drained = any(it.entry.flags & DRAIN for it in self.rows[:row.number + 1])
        return drained or row.unit != row.number or row.entry.op == FSYNC or bool(row.entry.flags & ASYNC)

    def first_late(self):
        """Returns the first request that isn't done as it is due, or None for a prompt schedule."""
        first = count = 0
        for index, event in enumerate(self.events):
            due = self.due(index, self.rows[first:count])
            if due and (due[0], due[1].number) != (event.kind, event.number):
                return due[1]
            if not due:
                first = event.number if event.kind == "issue" else count
            count = sum(row.taken <= index for row in self.rows)
        return None
