"""The scripts on which failures are injected, and the calls of the program `allocation_faults` on them."""
import json

NOP, FSYNC, POLL_ADD, POLL_REMOVE, TIMEOUT, TIMEOUT_REMOVE = 0, 3, 6, 7, 11, 12
ASYNC_CANCEL, LINK_TIMEOUT, READ, WRITE = 14, 15, 22, 23
DRAIN, LINK = 2, 4
FIVE_SECONDS = [100, (5).to_bytes(16, "little").hex()]
PIPE = {"objects": [{"name": "p", "pipe": 64}], "fds": ["p:r", "p:w"], "memory": [FIVE_SECONDS]}
STEP = ["step", 0]


def entry(op, **keys):
    return {"op": op, **keys}


def submitted(*entries):
    """Returns the instructions of a thread that submits entries with one Enter."""
    puts = [["put", slot, each] for slot, each in enumerate(entries)]
    return puts + [["push", slot] for slot in range(len(entries))] + [["enter", len(entries), 0, 0]]


def script(entries, threads, schedule, **keys):
    return {"entries": entries, **keys, "threads": threads, "schedule": schedule}


def ended(row):
    return [["issue", row], ["finish", row]]


def one_nop():
    program = submitted(entry(NOP, ud=7)) + [["reap"]]
    return script(1, [program], [STEP] * 3 + ended(0) + [STEP])


def expired_guard():
    """A LINK_TIMEOUT cancels its READ, and with it the rest of the chain."""
    program = submitted(entry(READ, fd=3, len=8, flags=LINK, ud=1), entry(LINK_TIMEOUT, addr=100, len=1, flags=LINK, ud=2),
                        entry(NOP, flags=LINK, ud=3), entry(NOP, ud=4))
    return script(4, [program], [STEP] * 9 + [["issue", 0], ["tick", 5000000000], ["expire", 1]], **PIPE)


def met_counts():
    """A cancel completes a READ and the rest of its chain, and the completions complete a TIMEOUT that counts them."""
    timeouts = [entry(TIMEOUT, addr=100, len=1, off=count, ud=ud) for count, ud in ((3, 1), (4, 5))]
    program = submitted(timeouts[0], entry(READ, fd=3, len=8, flags=LINK, ud=2), entry(NOP, ud=3),
                        entry(ASYNC_CANCEL, addr=2, ud=4), timeouts[1])
    issues = [["issue", row] for row in (0, 1, 3, 4)]
    return script(8, [program], [STEP] * 11 + issues + [["finish", 3]], **PIPE)


def full_backlog():
    """An Enter flushes the backlog, and the completion of its failing entry is added to it."""
    program = []
    for ud in (1, 2, 3):
        program += [["put", 0, entry(NOP, ud=ud)], ["push", 0], ["enter", 1, 0, 0]]
    program += [["put", 0, entry(99, ud=4)], ["push", 0], ["enter", 1, 0, 0], ["reap"], ["enter", 1, 0, 0]]
    return script(1, [program], [STEP] * 9 + ended(0) + ended(1) + ended(2) + [STEP] * 5)


def written_page():
    """A WRITE changes each of 4,096 bytes."""
    program = submitted(entry(WRITE, fd=3, len=4096, ud=1))
    return script(1, [program], [STEP] * 3 + ended(0), memory=[[0, "01" * 4096]],
                  objects=[{"name": "f", "file": "00" * 4096}], fds=["f"])


def canceled_rows(count=5000, first=4000):
    """A cancel completes `count` TIMEOUTs."""
    puts = [["put", 0, entry(ASYNC_CANCEL, opflags=1)], ["put", 1, entry(TIMEOUT, len=1)]]
    threads = [puts + [["push", 0]] + [["push", 1]] * first + [["enter", first + 1, 0, 0]],
               [["push", 1]] * (count - first) + [["enter", count - first, 0, 0]]]
    steps = [["step", thread] for thread in (0, 1) for _ in threads[thread]]
    return script(4096, threads, steps + [["issue", row] for row in range(count + 1)] + [["finish", 0]])


def ticks(count=10):
    return script(1, [], [["tick", 1]] * count)


def twelve_ticks():
    return ticks(12)


def counter():
    """A WRITE to an eventfd and a READ of it, and forty ticks."""
    program = [["put", 0, entry(WRITE, fd=3, addr=0, len=8, ud=1)], ["push", 0],
               ["put", 1, entry(READ, fd=3, addr=8, len=8, ud=2)], ["push", 1], ["enter", 2, 0, 0]]
    return script(8, [program], [STEP] * 5 + ended(0) + ended(1) + [["tick", 1]] * 40,
                  memory=[[0, "0500000000000000"]], objects=[{"name": "e", "eventfd": 0}], fds=["e"])


def all_opcodes():
    """A request of each opcode, on a file, a pipe and an eventfd."""
    requests = [entry(WRITE, fd=3, len=8, flags=LINK, ud=1), entry(READ, fd=3, addr=64, len=8, flags=LINK, ud=2),
                entry(FSYNC, fd=3, ud=3), entry(POLL_ADD, fd=4, opflags=1, ud=33), entry(POLL_REMOVE, addr=33, ud=5),
                entry(TIMEOUT, addr=100, len=1, ud=55), entry(TIMEOUT_REMOVE, addr=55, ud=7),
                entry(READ, fd=4, addr=128, len=4, flags=LINK, ud=77), entry(LINK_TIMEOUT, addr=100, len=1, ud=9),
                entry(ASYNC_CANCEL, addr=77, ud=10), entry(WRITE, fd=5, len=4, ud=11), entry(READ, fd=4, addr=160, len=4, ud=12),
                entry(WRITE, fd=6, addr=200, len=8, ud=13), entry(READ, fd=6, addr=208, len=8, ud=14),
                entry(NOP, flags=DRAIN, ud=15)]
    program = submitted(*requests) + [["store", 300, "616263"], ["reap"], ["reap"], ["close", 3]]
    events = [STEP] * 31 + ended(0) + ended(1) + ended(2) + [["issue", 3]] + ended(4) + [["issue", 5]] + ended(6)
    events += [["issue", 7]] + ended(9) + ended(10) + ended(11) + ended(12) + ended(13) + ended(14)
    objects = [{"name": "f", "file": "000102"}, {"name": "p", "pipe": 64}, {"name": "e", "eventfd": 0}]
    return script(16, [program], events + [STEP] * 4, objects=objects, fds=["f", "p:r", "p:w", "e"],
                  memory=[[0, "6162636465666768"], FIVE_SECONDS, [200, "0100000000000000"]])


def polled():
    """The poller sleeps, is woken by an Enter, and takes an entry."""
    program = [["put", 0, entry(NOP, ud=1)], ["push", 0], ["enter", 1, 0, 2]]
    return script(1, [program], [["sleep"]] + [STEP] * 3 + [["take", 1]], sqpoll=True)


def two_stores():
    return script(1, [[["store", 0, "aa"], ["store", 1, "bb"]]], [STEP] * 2)


def one_step_too_many():
    """The events of `two_stores`, and then one that is refused."""
    return script(1, two_stores()["threads"], [STEP] * 3)


SCRIPTS = {each.__name__: each for each in (one_nop, expired_guard, met_counts, full_backlog, written_page, canceled_rows,
                                            ticks, twelve_ticks, counter, all_opcodes, polled, two_stores,
                                            one_step_too_many)}


def rounded(entries):
    return 1 << (entries - 1).bit_length()


def shown_places(run, memory=65536):
    """Returns the lines that show each place of a script's setup, and the number of watches and breaks."""
    size = rounded(run["entries"])
    names = "sq.head sq.tail sq.flags sq.dropped cq.head cq.tail bfront clock counted".split()
    names += [f"{word} {i}" for word in ("array", "slot") for i in range(size)] + [f"cqe {i}" for i in range(2 * size)]
    names += [f"mem {i}" for i in range(memory)] + [f"{word} {i}" for word in ("row", "backlog") for i in range(64)]
    files = set()
    for each in run.get("objects", []):
        name = each["name"]
        if "file" in each:
            files.add(name)
            names += [f"len {name}", f"dlen {name}"] + [f"{word} {name} {i}" for word in ("file", "durable") for i in range(256)]
        elif "pipe" in each:
            names += [f"put {name}", f"taken {name}"] + [f"pipe {name} {i}" for i in range(each["pipe"])]
        else:
            names += [f"event {name}"]
    for number, name in enumerate(run.get("fds", []), 3):
        names += [f"open {number}"] + ([f"pos {number}"] if name in files else [])
    names += [f"{word} {t}" for word in ("pc", "stage", "last", "got") for t in range(len(run["threads"]))]
    return "\n".join(["where"] + [f"show {name}" for name in names] + ["watch sq.dropped", "break sq.dropped = 4000000000"])


class Situation:
    """A call of `allocation_faults` on a script, and what a failed allocation makes of it.

    over     the script
    answers  the answers to failed allocations, each of which must occur; None is any number
    asked    the lines of a session by which all of its state is compared, or that are served
    quiet    the call allocates nothing
    rising   the answers name events, and a later allocation names no earlier event
    closes   after a failure the session is closed
    spares   the call may succeed without an allocation, or make none: the notes of a step reuse the memory of an earlier
             step, and its record keeps theirs, or holds a few bytes itself
    """

    def __init__(self, call, over, start=0, goal=0, lines=(), answers=((1, 0),), asked=None, quiet=False, rising=False,
                 closes=False, spares=False):
        self.call, self.over, self.start, self.goal, self.lines = call, over, start, goal, list(lines)
        self.answers, self.asked, self.quiet, self.rising, self.closes = answers, asked, quiet, rising, closes
        self.spares = spares

    @property
    def name(self):
        lines = "".join(f" '{line}'" for line in self.lines)
        return f"{self.call} {self.over} {self.start} {self.goal}{lines}"

    def words(self, path, number):
        return [self.call, path, str(number), str(self.start), str(self.goal), *self.lines]


def last(name):
    return len(SCRIPTS[name]()["schedule"]) - 1


def calls_of_states():
    for name in ("expired_guard", "full_backlog", "met_counts", "written_page", "canceled_rows"):
        yield Situation("step", name, last(name), answers=((17, 0),))
    for at in range(last("all_opcodes") + 1):
        yield Situation("step", "all_opcodes", at, answers=((17, 0),), spares=at > 0)
    for at in (0, 3, 4):
        yield Situation("step", "polled", at, answers=((17, 0),))
    for name in ("one_nop", "all_opcodes"):
        whole = last(name) + 1
        yield Situation("start", name, answers=((3, 0),))
        yield Situation("copy", name, whole)
        yield Situation("snapshot", name, whole)
        yield Situation("look", name, whole, quiet=True)
        yield Situation("unwind", name, whole, quiet=True)


def calls_of_walkers():
    # The allocations that must succeed: those of the lists that grow, and of copies of the state at 4, 8 and 12.
    yield Situation("extend", "twelve_ticks", 2, 1, answers=[(2, event) for event in (1, 2, 5, 6, 9)], rising=True)
    yield Situation("goto", "all_opcodes", 30, 5, answers=((2, 0),))
    for call in ("goto", "move_to"):
        yield Situation(call, "ticks", 9, 5, quiet=True)
    yield Situation("goto", "ticks", 10, 9, quiet=True)
    yield Situation("goto", "all_opcodes", 45, 43, quiet=True)  # back over the checkpoint at 44
    yield Situation("move_to", "all_opcodes", 3, 30, answers=((2, 0),))
    yield Situation("last_state", "all_opcodes", 3)
    yield Situation("back", "ticks", 10, quiet=True)
    yield Situation("on", "ticks", 9, spares=True)
    yield Situation("on", "written_page", 4)
    for at in (49, 6):
        yield Situation("rcont", "counter", at)
    yield Situation("rcont", "counter", 8, quiet=True)
    for at in (0, 7, 9, 12):
        yield Situation("cont", "counter", at)


def calls_of_sessions():
    yield Situation("line", "counter", 49, lines=["goto 5"], asked="counter")
    yield Situation("line", "counter", 49, lines=["rcont", "goto 7", "watch event e"], asked="counter")
    yield Situation("line", "counter", 49, lines=["cont", "goto 7", "watch event e", "break clock = 2"], asked="counter")
    yield Situation("line", "counter", 49, lines=["cont", "goto 7", "break clock = 40"], asked="counter")
    yield Situation("line", "counter", 49, lines=["back 45"], asked="counter")
    yield Situation("line", "counter", 49, lines=["on 30", "goto 3"], asked="counter")
    yield Situation("line", "counter", 49, lines=["watch event e"], asked="counter")
    yield Situation("line", "counter", 49, lines=["break event e = 5", "watch clock"], asked="counter")
    yield Situation("line", "counter", 49, lines=["show row 0"], asked="counter")
    yield Situation("line", "counter", 49, lines=["unwatch", "watch clock"], asked="counter")
    yield Situation("line", "two_stores", 1, 2, lines=["sync"], asked="two_stores")
    yield Situation("line", "two_stores", 0, 2, lines=["sync"], asked="two_stores")
    yield Situation("line", "two_stores", 2, 1, lines=["sync"], asked="two_stores")
    yield Situation("line", "one_step_too_many", 0, 3, lines=["sync"], asked="two_stores")
    served = "where\nshow got 0\ngoto 3\nwatch cq.tail\nbreak last 0 = 1\ncont\nrcont\nshow row 0\nwhere\n"
    yield Situation("serve", "one_nop", 6, lines=[""], asked=served, answers=((3, None),), closes=True)


def calls_of_live_runs():
    for name in ("one_nop", "all_opcodes"):
        for at in range(last(name) + 1):
            yield Situation("attempt", name, at, answers=((3, 17),), spares=at > 0)
    for at in range(last("one_nop") + 1):
        yield Situation("take_offer", "one_nop", at, answers=((3, 17),), spares=at > 0)
        yield Situation("offer", "one_nop", at, quiet=True)
    yield Situation("finish", "one_nop", last("one_nop") + 1, quiet=True)


def all_situations():
    for made in (calls_of_states, calls_of_walkers, calls_of_sessions, calls_of_live_runs):
        yield from made()


def text_of(name):
    return json.dumps(SCRIPTS[name](), separators=(",", ":"))
