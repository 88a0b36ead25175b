"""The eager run of a script, as `trace --eager` writes it: the schedule's steps, takes and ticks, and after each what the
submission does, and all that a kernel can do by then."""
import collections
import json

import prompt
import traces
from model import REFUSED, Fault, Run
from traces import Event

BY_ITSELF = "a poller takes by itself"


class OtherSchedule(Exception):
    """The schedule completes otherwise than the eager run: the index of the event that shows it, and why, if that is known."""

    def __init__(self, index, why=None):
        super().__init__(index)
        self.index, self.why = index, why


def events_of(program, script):
    """Returns the events of the eager run."""
    path = f"{program.room}/eager.trace"
    try:
        program.run("trace", script, path, "--eager")
    except Fault as it:
        if found := REFUSED.match(it.text):
            raise OtherSchedule(int(found[1])) from it
        raise
    with open(path, "rb") as it:
        return traces.read(it.read())[1]


def let_return(run):
    """An enter whose completions are there returns, also where the schedule ends before."""
    for thread, waits in enumerate(run.state.waits):
        if waits:
            run.extend([Event("step", thread)])


def check_takes(run, schedule):
    """A poller takes all entries that there are."""
    takes = [index for index, event in enumerate(schedule) if event.kind == "take"]
    waiting = [moment["waiting"] for event, moment in zip(run.events, run.moments) if event.kind == "take"]
    for index, left in zip(takes, waiting):
        if left:
            raise OtherSchedule(index, BY_ITSELF)


def check_completions(run, plain, whole):
    """Both runs have the same completions, in any order."""
    left = collections.Counter(run.state.sequence())
    posted = iter(whole.state.sequence())
    last, done = len(plain.events) - 1, 0
    for index, moment in enumerate(whole.moments):
        while done < moment["produced"]:
            it = next(posted)
            done += 1
            if not left[it]:
                raise OtherSchedule(min(index, last))
            left[it] -= 1
    if any(left.values()):
        raise OtherSchedule(last)


def check_bytes(run, plain, whole):
    """Both runs leave the same bytes in memory and files, and the same durable ones."""
    for name in ("memory", "files", "durable"):
        if getattr(whole.state, name) != getattr(run.state, name):
            raise OtherSchedule(len(plain.events) - 1)


def does_more(run):
    """Does the next thing that a kernel does without another step, take or tick, and returns whether there is one."""
    rows = [row for row in run.state.rows if row.ended is None]
    for row in sorted(rows, key=prompt.is_linked):
        for kind in ("issue", "finish") if prompt.noun_of(row.entry) else ("issue",):
            if run.extend([Event(kind, row.number)]):
                return True
    return any(run.extend([Event(kind, row.number)]) for row in rows for kind in ("finish", "expire"))


def finished(plain):
    """Returns a run, and then all that a kernel does without another step, take or tick."""
    run = Run(plain.program, plain.setup)
    run.extend(plain.events)
    while does_more(run):
        pass
    return run


def place_of_take(plain):
    """Returns the event before which a kernel's poller takes what is in the ring at the end of a run, or None where it sleeps.

    It is the first call of a thread after the last take, since a poller takes sooner than that; or the end."""
    if not (plain.moments and plain.moments[-1]["waiting"] and plain.moments[-1]["awake"]):
        return None
    takes = [index for index, event in enumerate(plain.events) if event.kind == "take"]
    for index in range(max([0, *takes]) + 1, len(plain.events)):
        before = plain.moments[index - 1]
        if plain.calls(index) and before["waiting"] and before["awake"]:
            return index
    return len(plain.events)


def taken_to_its_end(program, script, run, plain):
    """Returns the eager run of a script whose poller also takes what is in the ring at the end, as a kernel's does."""
    place = place_of_take(plain)
    if place is None:
        return run
    with open(script, encoding="utf-8") as it:
        longer = json.load(it)
    waiting = plain.moments[place - 1]["waiting"]
    longer["schedule"].insert(place, ["take", waiting])
    path = f"{program.room}/longer.json"
    with open(path, "w", encoding="utf-8") as it:
        json.dump(longer, it)
    whole = Run(program, run.setup)
    whole.extend(events_of(program, path))
    return whole


def made(program, script, setup):
    """Returns the eager run of a script."""
    run = Run(program, setup)
    run.extend(events_of(program, script))
    return run


def settled(program, script, run, plain):
    """Returns the eager run of a script and what follows it on a kernel, given that run and the schedule's own."""
    whole = taken_to_its_end(program, script, run, plain)
    let_return(whole)
    return whole


def check(run, plain):
    """Raises OtherSchedule where a schedule's own run completes otherwise than its eager run, or leaves other bytes, once a kernel
    has done what is left to do at its end."""
    check_takes(run, plain.events)
    whole = finished(plain)
    check_completions(run, plain, whole)
    check_bytes(run, plain, whole)
