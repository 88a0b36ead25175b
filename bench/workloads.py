"""Workloads as traces of form 2: their bytes, and what a session over them is asked."""
import struct

MASK = 2**64 - 1
PROGRAM = 4096  # instructions of a program, at most
THREADS = 16
PAGE = 4096

NOP, FSYNC, POLL_ADD, TIMEOUT, ASYNC_CANCEL, LINK_TIMEOUT, READ, WRITE = 0, 3, 6, 11, 14, 15, 22, 23
IO_LINK = 4
POLLIN = 1


def entry(opcode, flags=0, fd=0, off=0, addr=0, length=0, operation_flags=0, user_data=7):
    """The 64 bytes of a submission entry."""
    fields = struct.pack("<BBHiQQIIQ", opcode, flags, 0, fd, off, addr, length, operation_flags, user_data)
    return fields + bytes(24)


class Trace:
    """A setup and its events. Threads do instructions one after the other: where one's program is full, the next continues."""

    def __init__(self, entries, cq, sqpoll=False):
        self.entries, self.cq, self.sqpoll = entries, cq, sqpoll
        self.memory, self.objects, self.descriptors = b"", [], []
        self.programs, self.events, self.rows = [[]], [], 0
        self.rounds = [(0, 0)]

    # What a setup has.

    def file(self, name, content):
        self.objects.append(struct.pack("<B", len(name)) + name + b"\1" + struct.pack("<I", len(content)) + content)
        return self.descriptor(0)

    def pipe(self, name, capacity):
        """Its read end and its write end."""
        self.objects.append(struct.pack("<B", len(name)) + name + b"\2" + struct.pack("<I", capacity))
        return self.descriptor(1), self.descriptor(2)

    def descriptor(self, end):
        self.descriptors.append(bytes([len(self.objects) - 1, end]))
        return len(self.descriptors) + 2

    # What threads do.

    def room(self, instructions):
        """Makes room for a number of instructions in one program."""
        if len(self.programs[-1]) + instructions > PROGRAM:
            self.programs.append([])

    def do(self, instruction):
        self.room(1)
        self.programs[-1].append(instruction)
        self.event(1, len(self.programs) - 1)

    def put(self, entries):
        for slot, it in enumerate(entries):
            self.do(b"\1" + struct.pack("<I", slot) + it)

    def push(self, slots):
        for slot in slots:
            self.do(b"\2" + struct.pack("<I", slot))

    def enter(self, submitted):
        self.do(b"\4" + struct.pack("<III", submitted, 0, 0))

    def reap(self, completions=1):
        for _ in range(completions):
            self.do(b"\5")

    # What else happens.

    def event(self, kind, number=0, wide=0):
        self.events.append(struct.pack("<BxxxIQ", kind, number, wide))

    def take(self, most):
        self.event(2, most)

    def issue(self, row):
        self.event(4, row)

    def finish(self, row):
        self.event(5, row)

    def end(self, row):
        self.issue(row)
        self.finish(row)

    def expire(self, row):
        self.event(6, row)

    def tick(self, nanoseconds):
        self.event(7, 0, nanoseconds)

    def round(self, rows):
        """Counts rows that the events up to here have submitted."""
        self.rows += rows
        self.rounds.append((len(self.events), self.rows))

    def rows_there(self):
        """How many rows the events submit, without those of a round that was cut."""
        return max(rows for events, rows in self.rounds if events <= len(self.events))

    def bytes(self):
        assert len(self.programs) <= THREADS, "too many threads"
        out = [b"URTRACE2", struct.pack("<HHBI", self.entries, self.cq, self.sqpoll, 0)]
        memory = self.memory.rstrip(b"\0")
        out += [struct.pack("<I", len(memory)), memory]
        for items in (self.objects, self.descriptors):
            out += [struct.pack("<I", len(items)), *items]
        out.append(struct.pack("<I", len(self.programs)))
        for program in self.programs:
            out += [struct.pack("<I", len(program)), *program]
        return b"".join([*out, struct.pack("<I", len(self.events)), *self.events])


def cycle(trace, slot, row):
    """One request: pushed, entered, issued, finished and reaped, in five events."""
    trace.room(3)
    trace.push([slot])
    trace.enter(1)
    trace.end(row)
    trace.reap()
    trace.round(1)


def nops(events):
    """NOP cycles."""
    trace = Trace(1, 1)
    trace.put([entry(NOP)])
    while len(trace.events) < events:
        cycle(trace, 0, trace.rows)
    return cut(trace, events)


def chains(events):
    """Chains of 64 that are cut in the middle: rows 0 to 31 are NOPs and complete one after the other. Row 32 reads from a
    descriptor that isn't open, so it fails as it is issued and severs the 31 rows after it."""
    trace = Trace(64, 128)
    trace.put([entry(NOP, IO_LINK), entry(READ, IO_LINK, fd=3, length=1), entry(NOP)])
    while len(trace.events) < events:
        trace.room(64 + 1 + 64)
        trace.push([0] * 32 + [1] + [0] * 30 + [2])
        trace.enter(64)
        for row in range(trace.rows, trace.rows + 32):
            trace.end(row)
        trace.issue(trace.rows + 32)
        trace.reap(64)
        trace.round(64)
    return cut(trace, events)


def rows(count):
    """A number of rows, taken in batches of 4,096 by the poller; one in sixty completes, the others wait."""
    trace = Trace(4096, 8192, sqpoll=True)
    trace.put([entry(NOP)])
    while trace.rows < count:
        batch = min(4096, count - trace.rows)
        trace.push([0] * batch)
        trace.take(batch)
        trace.round(batch)
    for row in range(count // 60):
        trace.end(row)
    return trace


def transfers(events):
    """A page of a file is read and written over another, and then goes through a pipe: each of the four requests
    changes 4,096 bytes, and each round has other bytes than the one before."""
    trace = Trace(8, 16)
    file = trace.file(b"f", b"\1" * PAGE + b"\2" * PAGE + bytes(PAGE))
    read_end, write_end = trace.pipe(b"p", PAGE)
    trace.put([
        entry(READ, fd=file, off=0, length=PAGE),
        entry(READ, fd=file, off=PAGE, length=PAGE),
        entry(WRITE, fd=file, off=2 * PAGE, length=PAGE),
        entry(WRITE, fd=write_end, length=PAGE),
        entry(READ, fd=read_end, addr=PAGE, length=PAGE),
    ])
    slots = [0, 2, 3, 4, 1, 2, 3, 4]
    while len(trace.events) < events:
        cycle(trace, slots[trace.rows % 8], trace.rows)
    return cut(trace, events)


def reads(count):
    """A number of READs of a page of a file, each with its own user_data, taken at once and issued; none completes."""
    trace = Trace(4096, 8192)
    descriptor = trace.file(b"f", bytes(range(256)) * (PAGE // 256))
    for batch in range(0, count, 4096):
        slots = range(min(4096, count - batch))
        for slot in slots:
            trace.do(b"\1" + struct.pack("<I", slot) + entry(READ, fd=descriptor, length=PAGE, user_data=batch + slot + 1))
            trace.push([slot])
        trace.enter(len(slots))
        trace.round(len(slots))
    for row in range(count):
        trace.issue(row)
    return trace


def mixed_round(trace, first_slot):
    """Submits eleven rows, the first of them from this slot, and completes and reaps all."""
    trace.room(11 + 1 + 11)
    trace.push([first_slot, *range(1, 11)])
    trace.enter(11)
    first = trace.rows
    for row in range(4):  # a page of the file through the pipe, and back to another page
        trace.end(first + row)
    trace.issue(first + 4)  # waits for the pipe, and its linked timeout for a second
    trace.issue(first + 6)  # waits for the pipe, until the next row cancels it
    trace.end(first + 7)
    trace.issue(first + 8)  # waits for one completion: that of the next row
    trace.end(first + 9)
    trace.issue(first + 10)  # waits for a second
    trace.tick(10**9)
    trace.expire(first + 5)
    trace.expire(first + 10)
    trace.reap(11)
    trace.round(11)


def mixed(events):
    """Files, pipes, links, linked timeouts, timeouts and cancels, eleven rows a round."""
    trace = Trace(16, 32)
    clock = 4 * PAGE  # the address of a time of one second: seconds and nanoseconds
    trace.memory = bytes(clock) + struct.pack("<qq", 1, 0)
    file = trace.file(b"f", b"\1" * PAGE + b"\2" * PAGE + bytes(PAGE))
    read_end, write_end = trace.pipe(b"p", PAGE)
    trace.put([
        entry(READ, IO_LINK, fd=file, off=0, length=PAGE),
        entry(WRITE, IO_LINK, fd=write_end, length=PAGE),
        entry(READ, fd=read_end, addr=PAGE, length=PAGE),
        entry(WRITE, fd=file, off=2 * PAGE, addr=PAGE, length=PAGE),
        entry(READ, IO_LINK, fd=read_end, addr=2 * PAGE, length=1),
        entry(LINK_TIMEOUT, addr=clock, length=1),
        entry(POLL_ADD, fd=read_end, operation_flags=POLLIN, user_data=60),
        entry(ASYNC_CANCEL, addr=60),
        entry(TIMEOUT, off=1, addr=clock, length=1),
        entry(NOP),
        entry(TIMEOUT, addr=clock, length=1),
        entry(READ, IO_LINK, fd=file, off=PAGE, length=PAGE),
    ])
    turn = 0
    while len(trace.events) < events:
        mixed_round(trace, 11 if turn % 2 else 0)
        turn += 1
    return cut(trace, events)


def cut(trace, events):
    """Keeps a number of events from the start, and drops the others."""
    trace.events = trace.events[:events]
    return trace


def jumps(moments, count):
    """Jumps to moments that look random, the same ones for each number of moments (Knuth's multiplier for 64 bits)."""
    lines, wanted, seed = [], [], 0
    for _ in range(count):
        seed = (seed * 6364136223846793005 + 1442695040888963407) & MASK
        moment = (seed >> 32) % (moments + 1)
        lines.append(f"goto {moment}")
        wanted.append(f"at {moment} of {moments}")
    return lines, wanted


def stops(moments, count, number_of_rows):
    """For a number of rows, spread evenly: from the start on to the row's first change, and from the end back to its last."""
    lines, wanted = [], []
    for turn in range(1, count + 1):
        row = turn * number_of_rows // (count + 1)
        lines += ["unwatch", f"watch row {row}", "goto 0", "cont", f"goto {moments}", "rcont"]
        wanted += ["watching 0", "watching 1", f"at 0 of {moments}", "change at", f"at {moments} of {moments}", "change at"]
    return lines, wanted


# What a run is called, and what makes it. The number of --events is that of its events, of `rows` that of its rows.
WORKLOADS = {
    "nops": ("NOP cycles", nops),
    "chains": ("chains of 64, cut in the middle", chains),
    "rows": ("rows, one in sixty of which ends", rows),
    "transfers": ("4,096-byte transfers, file and pipe", transfers),
    "reads": ("4,096 READs that don't complete", lambda events: reads(4096)),
    "mixed": ("mixed: files, pipes, links, linked timeouts, timeouts, cancels", mixed),
}
