#!/usr/bin/env python3
"""Runs a script's threads on the io_uring of this machine, and compares what happens with the model.

It belongs to no crate and rests on no contract: nothing here is proved. `./uringwalk real --help` prints the usage."""
import os
import shutil
import signal
import sys
import tempfile

sys.dont_write_bytecode = True
HERE = os.path.dirname(os.path.realpath(__file__))
sys.path.insert(0, HERE)
import children  # noqa: E402
import compare  # noqa: E402
import eager  # noqa: E402
import kernel  # noqa: E402
import known  # noqa: E402
import model  # noqa: E402
import plan  # noqa: E402
import prompt  # noqa: E402
import traces  # noqa: E402

SAME, UNWRITTEN, WORDS, DIFFERS, OTHER_SCHEDULE, UNABLE = 0, 1, 2, 3, 4, 69
TRIES = 3
PAGE = 4096
MINUTE = 60 * 10 ** 9
LIMIT = 20 * 10 ** 9
USAGE = """Usage: uringwalk-real SCRIPT

Runs the threads of a script on the io_uring of this machine, and compares what happens with the model. The run that it
compares is the schedule's steps, takes and ticks, and after each all that a kernel does by then. A schedule that ends early
continues with what a kernel does by itself. It needs python3 and cc, and no rights. It is outside the proved program. In a
clone it is ./uringwalk real SCRIPT.

The first line is one of:
  same                             completions, results of calls, ring words, memory and files
  same, other order                the same, but completions were posted in another order
  differs                          followed by a line WHAT here X, kernel Y for each difference; known: NAME is the
                                   item of docs/DECISIONS.md that explains it
  not a kernel's schedule: event I: WHY
                                   the schedule completes requests otherwise than a kernel can
  a kernel may choose otherwise: event I
                                   and this one can't be made to take the schedule's choice
  nothing to run: the schedule is empty
  not settled                      the run takes more than 20 seconds
  can't be run here: REASON

Where the schedule completes otherwise than the run that is compared, a second line says how that run compares.

Status: 0 if it is the same, 1 for a fault of the script or the output, 2 for a fault of the words, 3 if it differs, 4 if the
schedule is empty or is not the run that is compared, or if that didn't settle, 69 if it can't be run here.
"""


class Verdict(Exception):
    """What is printed, and the status."""

    def __init__(self, lines, status):
        super().__init__(lines)
        self.lines, self.status = lines, status


def unable(reason):
    return Verdict([f"can't be run here: {reason}"], UNABLE)


def next_pipe(size):
    """Returns the least capacity of a kernel's pipe that is at least `size`: a power of two of pages."""
    capacity = PAGE
    while capacity < size:
        capacity *= 2
    return capacity


def check_setup(setup):
    """Refuses what no ring of a kernel can be set to."""
    if setup.base:
        raise unable(f"base is {setup.base}, and the ring words of a kernel start at 0")
    for it in setup.objects:
        if it.kind == traces.PIPE and next_pipe(it.size) != it.size:
            raise unable(f"pipe {it.name} has {it.size} bytes, which aren't whole pages; {next_pipe(it.size)} are")


def check_schedule(schedule):
    """Refuses what can't be asked of a kernel."""
    for index, event in enumerate(schedule):
        if event.kind == "finish" and event.wide:
            ending = "with EIO" if event.wide == traces.EIO else "short"
            raise unable(f"event {index} completes a request {ending}, which a kernel can't be asked to do")
    if sum(event.wide for event in schedule if event.kind == "tick") > MINUTE:
        raise unable("the clock passes a minute")


def why_other(plain, other):
    """Returns why a schedule completes otherwise than its eager run. A prompt one is a kernel's."""
    late = prompt.Schedule(plain).first_late()
    if late is None:
        return f"a kernel may choose otherwise: event {other.index}"
    index, why = min(late, (other.index, other.why)) if other.why else late
    return f"not a kernel's schedule: event {index}: {why}"


class Trial:
    """A script, its eager run, and the folder for files."""

    def __init__(self, script, program, room, built=None):
        self.program, self.room = model.Program(program, room), room
        path = f"{room}/schedule.trace"
        self.program.run("trace", script, path)
        with open(path, "rb") as it:
            self.setup, self.schedule = traces.read(it.read())
        if not self.schedule:
            raise Verdict(["nothing to run: the schedule is empty"], OTHER_SCHEDULE)
        check_setup(self.setup)
        check_schedule(self.schedule)
        self.built = built
        plain = model.Run(self.program, self.setup)
        plain.extend(self.schedule)
        if self.least_length(plain) > LIMIT:
            raise kernel.NotSettled
        try:
            run = eager.made(self.program, script, self.setup)
        except eager.OtherSchedule as it:
            raise Verdict([why_other(plain, it), f"the eager run: event {it.index} is refused"], OTHER_SCHEDULE) from it
        self.other = self.otherness(run, plain)
        self.eager = eager.settled(self.program, script, run, plain)
        self.plan = plan.Plan(self.eager)

    def otherness(self, run, plain):
        """Returns why the schedule isn't its eager run, or None where it completes as that does."""
        try:
            eager.check(run, plain)
        except eager.OtherSchedule as it:
            return why_other(plain, it)
        return None

    def least_length(self, plain):
        """Returns a time that the run takes at least: that of the calls, takes and ticks of the schedule's own run."""
        settled = sum(map(len, plain.state.calls)) + sum(event.kind == "take" for event in self.schedule)
        return settled * plan.SETTLING + sum(event.kind == "tick" for event in self.schedule) * plan.GROUP

    def compared(self):
        """Runs it on the kernel. Returns the differences, and whether the completions are in the model's order."""
        self.built = self.built or kernel.build(self.room)
        trace = self.setup.with_events(self.eager.events)
        outcome = kernel.run(self.built, trace, self.plan.text(), self.room)
        found = compare.differences(self.eager.state, outcome)
        known.name_all(found, self.eager, outcome)
        return found, compare.is_in_order(self.eager.state, outcome)

    def verdict(self):
        """Returns what is printed, and the status."""
        lines, status = self.comparison()
        if self.other is None:
            return lines, status
        return [self.other, f"the eager run: {lines[0]}", *lines[1:]], OTHER_SCHEDULE

    def comparison(self):
        """Returns how the eager run compares, and the status of that. It differs if it does each time."""
        if self.plan.length > LIMIT:
            raise kernel.NotSettled
        for _ in range(TRIES):
            found, in_order = self.compared()
            if not found:
                return ["same" if in_order else "same, other order"], SAME
        return ["differs", *(it.line() for it in found)], DIFFERS


def answer(script, program, room, built=None):
    """Returns the lines for a script, and the status. The line of a fault is on standard error."""
    try:
        return Trial(script, program, room, built).verdict()
    except Verdict as it:
        return it.lines, it.status
    except kernel.Unable as it:
        return [f"can't be run here: {it}"], UNABLE
    except OSError as it:
        return [f"can't be run here: {it.filename or room}: {it.strerror}"], UNABLE
    except kernel.NotSettled:
        return ["not settled"], OTHER_SCHEDULE
    except model.Fault as it:
        sys.stderr.write(it.text)
        return [], it.status


def end(number, _):
    """Ends this process by a signal. Another one doesn't keep it from removing its files."""
    for each in children.ENDING:
        signal.signal(each, lambda *_: None)
    sys.exit(128 + number)


def answer_in_folder(script, program):
    """Returns the answer for a script, for which there is a temporary folder until then."""
    signal.pthread_sigmask(signal.SIG_BLOCK, children.ENDING)  # until the folder is known here
    try:
        room = tempfile.mkdtemp(prefix="uringwalk-real-")
    except OSError as it:
        return [f"can't be run here: there is no folder for temporary files: {it.strerror}"], UNABLE
    try:
        signal.pthread_sigmask(signal.SIG_UNBLOCK, children.ENDING)
        return answer(script, program, room)
    finally:
        shutil.rmtree(room, ignore_errors=True)


def main():
    words = sys.argv[1:]
    if words in (["-h"], ["--help"]):
        print(USAGE, end="")
        return SAME
    if len(words) != 1 or words[0].startswith("-"):
        print(USAGE, end="", file=sys.stderr)
        return WORDS
    for number in children.ENDING:
        signal.signal(number, end)
    lines, status = answer_in_folder(words[0], os.environ["URINGWALK"])
    try:
        os.write(1, "".join(f"{line}\n" for line in lines).encode())
    except OSError as it:
        print(f"uringwalk-real: the output can't be written: {it.strerror}", file=sys.stderr)
        return UNWRITTEN
    return status


if __name__ == "__main__":
    sys.exit(main())
