"""Fails each allocation of a call of the program `allocation_faults` in turn, alone and with all later ones.

A run prints what its calls answered, and after each call one sum of the state and one of everything else. They are compared
with those of runs without failures: after a failure everything must be as before the call, and the same call made again must
answer and leave what it does without a failure.

A call may also succeed without an allocation: a list that can't double its capacity requests room for one more item, if that
allocation alone fails, and a record that can't have its own memory keeps that of its notes.
"""
import re
from collections import namedtuple

from room import Wrong, note_of, numbers_of, require
from situations import SCRIPTS
from sums import beginnings, seat_sum

# The least number of places that the sum of a state covers.
LEAST_PLACES = 65536
# Each allocation up to this one also fails together with all later ones.
MOST_OF_ALL = 10
# More allocations than any call makes.
NEVER = 2**32 - 1
LINE = re.compile(r"answer (\d+) (\d+), state ([0-9a-f]{16}) of (\d+), rest ([0-9a-f]{16}) of (\d+)")
# The sum of the state and the number of its places, the sum of everything else and the number of its values.
Sums = namedtuple("Sums", "state places rest values")


def parsed(done):
    """Returns what a run printed: the answer of each call, and the sums after it."""
    require(done.returncode == 0, f"status {done.returncode}: {done.stderr.decode().strip()}")
    found = [LINE.fullmatch(line) for line in done.stdout.decode().splitlines()]
    require(len(found) in (1, 2) and all(found), f"it printed {done.stdout.decode()!r}")
    return [((int(it[1]), int(it[2])), Sums(it[3], int(it[4]), it[5], int(it[6]))) for it in found]


def ran(room, situation, number, how="one"):
    """Runs a situation. Returns what it printed, whether the failure was injected, and the number of allocations."""
    words = [room.allocation_faults, *situation.words(room.script(situation.over), number)]
    done, reached, count = room.ran(words, "allocation", how, None, room.lines_of(situation.asked))
    return parsed(done), reached, count


class Expected:
    """What a situation prints without a failure: the sums before the call, its answer, and the sums after it.

    `done` is what it prints while allocations are counted. The state of a session is not read before the call then, since
    reading it changes it."""

    def __init__(self, room, situation):
        calls, _, _ = ran(room, situation, 0)
        self.before, (self.first, self.after) = calls[0][1], calls[-1]
        self.done, reached, self.count = ran(room, situation, NEVER)
        require(not reached and self.first[0] == 0, f"answer {self.first} without a failure")
        same = self.done == calls[-1:] or situation.call == "line" and self.done[0][0] == self.first
        require(same, f"{self.done} and then {calls[-1:]}")
        for sums in self.before, self.after, self.done[0][1]:
            enough = sums.values > 0 if situation.call in ("line", "serve") else sums.places >= LEAST_PLACES
            require(enough, f"{sums} covers too little")


def stepped(room, over, at):
    """Returns the sums of the states before and after an event of a schedule, as `State::step` leaves them."""
    if (over, at) not in room.made:
        words = [room.allocation_faults, "step", room.script(over), "0", str(at), "0"]
        (_, before), (_, after) = parsed(room.ran(words, "allocation", "one", None)[0])
        room.made[over, at] = before[:2], after[:2]
    return room.made[over, at]


def written(room, situation):
    """Returns the sums of all prefixes of what the word `walk` writes for the lines of a session."""
    if ("walk", situation.over) not in room.made:
        words = [room.uringwalk, "walk", room.script(situation.over)]
        done, _, _ = room.ran(words, "allocation", "one", 0, room.lines_of(situation.asked))
        require(done.returncode == 0, f"walk: status {done.returncode}")
        room.made["walk", situation.over] = beginnings(done.stdout)
    return room.made["walk", situation.over]


def check_against_others(room, situation, expected):
    """Compares what a call leaves without a failure with what other calls lead to."""
    call, over, at = situation.call, situation.over, situation.start
    first, state, rest = expected.first, expected.after[:2], expected.after[2:]
    if call in ("attempt", "take_offer", "offer"):
        check_live(room, situation, expected)
    elif call in ("copy", "snapshot"):
        require(rest == state, f"{rest} is no copy of {state}")
    elif call == "start":
        require(rest == stepped(room, over, 0)[0], f"{rest} is not the start")
    elif call == "unwind":
        require(state == stepped(room, over, 0)[0], f"{state} is not the start")
    elif call == "finish":
        require(first == (0, at), f"{first[1]} of {at} receipts were redeemed")
        require(state == stepped(room, over, at - 1)[1], f"{state} is not the end")
    elif call == "serve":
        require(rest[0] == written(room, situation)[-1], f"{rest} is not the sum of all replies")


def check_live(room, situation, expected):
    """Checks that a live run has the events of the schedule and the state that they lead to, and that an actor received the
    receipts of its own events."""
    at, run = situation.start, SCRIPTS[situation.over]()
    require(expected.first == (0, at), f"answer {expected.first} at the moment {at}")
    for sums, more in (expected.before, 0), (expected.after, situation.call != "offer"):
        state, rest = stepped(room, situation.over, at)[more], seat_sum(run, at, at + more)
        require(sums[:3] == (*state, rest), f"{sums}, and not {state}, {rest}")


def is_one(answer, expected):
    """Whether an answer has this kind, and this number where that is fixed."""
    return answer[0] == expected[0] and expected[1] in (None, answer[1])


def check_failed(room, situation, expected, calls, earlier):
    """Checks a call with a failed allocation. Returns its answer."""
    require(len(calls) == 2, f"it printed {calls}")
    (answer, kept), (again, left) = calls
    if situation.rising:  # no answer names an earlier event than the answer before it
        require(earlier is None or answer[1] >= earlier[1], f"answer {answer} comes after {earlier}")
    require(any(is_one(answer, each) for each in situation.answers), f"answer {answer}, not one of {situation.answers}")
    if situation.closes:  # a prefix of the output was written, and nothing is written after it
        require(kept.rest in written(room, situation), f"{kept} is no prefix of the output")
        require((again, left) == ((4, 0), expected.before), f"the second call answers {again}, {left}, not that it is closed")
    else:
        require(kept == expected.before, f"after the failure {kept}, not {expected.before}")
        require(again == expected.first, f"the second call answers {again}, not {expected.first}")
        require(left == expected.after, f"after the second call {left}, not {expected.after}")
    return answer


def try_quiet(room, situation, expected):
    """Checks that a call that allocates nothing succeeds while every allocation fails."""
    calls, reached, count = ran(room, situation, 1, "all")
    require(not reached and count == 0, f"{count} allocations")
    require(calls == expected.done, f"{calls}, not {expected.done}")
    return 3, 0, ""


def try_situation(room, situation):
    """Returns the number of runs that passed, the number of failures that the call reported, and a note."""
    expected = Expected(room, situation)
    check_against_others(room, situation, expected)
    count = expected.count
    if situation.quiet or situation.spares and count == 0:
        return try_quiet(room, situation, expected)
    require(count > 0, "it allocates nothing")
    numbers, runs, answers = numbers_of(count), 3, []
    for how, most in (("one", count), ("all", MOST_OF_ALL)):
        earlier = None
        for number in (each for each in numbers if each <= most):
            runs += 1
            try:
                calls, reached, _ = ran(room, situation, number, how)
                require(reached, "it was not reached")
                if calls[0][0][0] == 0:
                    require(calls == expected.done, f"{calls}, not {expected.done}")
                else:
                    earlier = check_failed(room, situation, expected, calls, earlier)
                    answers.append(earlier)
            except Wrong as wrong:
                raise Wrong(f"allocation {number} of {count}, {how}: {wrong}") from wrong
    calls, reached, _ = ran(room, situation, count + 1)
    require(not reached, f"there is another allocation after {count}")
    require(calls == expected.done, f"{calls}, not {expected.done}")
    for wanted in situation.answers:
        require(situation.spares or any(is_one(answer, wanted) for answer in answers), f"no answer was {wanted}")
    return runs, len(answers), note_of(numbers, count)
