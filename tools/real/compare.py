"""What the model and a kernel did, place by place."""
from collections import Counter
from dataclasses import dataclass

SHOWN = 16


@dataclass
class Difference:
    """A place, its value here, and its value on the kernel. `subject` is what the place is about; `ours` and `theirs` are
    the results of completions, or the values of words and calls."""
    what: str
    here: str
    kernel: str
    subject: tuple
    ours: list
    theirs: list
    name: str = ""

    def line(self):
        known = f", known: {self.name}" if self.name else ""
        return f"{self.what} here {self.here}, kernel {self.kernel}{known}"


def text_of(completions):
    """Returns the results of completions, and their flags where they have some."""
    shown = [f"{result} with flags {flags}" if flags else str(result) for _, result, flags in sorted(completions)]
    return " and ".join(shown) or "none"


def of_completions(here, there):
    """Yields the completions of each user_data that differ."""
    users = dict.fromkeys(user for user, *_ in [*here, *there])
    for user in users:
        ours = Counter(it for it in here if it[0] == user)
        theirs = Counter(it for it in there if it[0] == user)
        if ours != theirs:
            ours, theirs = [sorted(side.elements()) for side in (ours - theirs, theirs - ours)]
            results = [[result for _, result, _ in side] for side in (ours, theirs)]
            yield Difference(f"completion of user_data {user}", text_of(ours), text_of(theirs), ("completion", user), *results)


def of_calls(state, outcome):
    """Yields what enters and closes returned that differs. A thread's first different call is enough."""
    for thread, here in enumerate(state.calls):
        ours = [str(value) for value in here] + ["waits"] * state.waits[thread]
        theirs = [str(value) for at, value in outcome.calls if at == thread] + ["waits"] * (thread in outcome.waits)
        for call in range(max(len(ours), len(theirs))):
            sides = [(side[call:] or ["none"])[0] for side in (ours, theirs)]
            if sides[0] != sides[1]:
                values = [side[call:call + 1] for side in (ours, theirs)]
                yield Difference(f"last {thread}, call {call}", *sides, ("call", thread, call), *values)
                break


def of_words(state, outcome):
    for word in ("sq.head", "cq.tail"):
        here, there = state.words[word] % 2 ** 32, outcome.words[word]
        if here != there:
            yield Difference(word, str(here), str(there), ("word", word), [here], [there])


def shown(raw):
    return raw[:SHOWN].hex() + ".." * (len(raw) > SHOWN)


def of_bytes(name, here, there, subject):
    """Yields each row of bytes that differ, and the lengths if they do."""
    at, end = 0, min(len(here), len(there))
    while at < end:
        first = at
        while at < end and here[at] != there[at]:
            at += 1
        if at > first:
            where = f"{first}..{at - 1}" if at - first > 1 else f"{first}"
            yield Difference(f"{name} {where}", shown(here[first:at]), shown(there[first:at]), (*subject, first, at), [], [])
        at += 1
    if len(here) != len(there):
        where = *subject, end, max(len(here), len(there))
        yield Difference(f"len of {name}", str(len(here)), str(len(there)), where, [len(here)], [len(there)])


def differences(state, outcome):
    """Returns all places that are compared and differ."""
    found = [*of_completions(state.sequence(), outcome.completions), *of_calls(state, outcome), *of_words(state, outcome)]
    found += of_bytes("mem", state.memory, outcome.memory, ("memory",))
    for name, contents in state.files.items():
        found += of_bytes(f"file {name}", contents, outcome.files.get(name, b""), ("file", name))
    return found


def is_in_order(state, outcome):
    return [*state.sequence()] == outcome.completions
