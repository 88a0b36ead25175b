"""Random programs: scripts of one or two threads over files, a pipe and an eventfd, with chains, drains, timers, cancels
and polls, with a poller or without, with `submit_all` or without. Their schedule is empty. A program is the same for the
same generator of random numbers. Long programs are for live runs: they have up to three threads, and no drains."""
NOP, FSYNC, POLL_ADD, POLL_REMOVE, TIMEOUT, TIMEOUT_REMOVE = 0, 3, 6, 7, 11, 12
ASYNC_CANCEL, LINK_TIMEOUT, READ, WRITE = 14, 15, 22, 23
IO_DRAIN, IO_LINK, IO_HARDLINK = 2, 4, 8
AT_POSITION = 2**64 - 1
TIMES = 512  # the address of three times, 16 bytes each: 0 s, 0.000000005 s, 5 s
FDS = {3: "a", 4: "b", 5: "p:r", 6: "p:w", 7: "e", 8: "a"}


def entry(pick):
    """A random entry, as a script has it."""
    op = pick.choice([NOP, NOP, FSYNC, POLL_ADD, POLL_REMOVE, TIMEOUT, TIMEOUT_REMOVE, ASYNC_CANCEL, LINK_TIMEOUT, READ, READ, READ, WRITE, WRITE, WRITE, 99])
    flags = pick.choice([0, 0, 0, 0, IO_LINK, IO_LINK, IO_LINK, IO_HARDLINK, IO_DRAIN, IO_DRAIN | IO_LINK])
    it = {"op": op, "flags": flags, "ud": pick.randrange(1, 9)}
    if op in (READ, WRITE):
        it.update(fd=pick.choice([3, 3, 4, 5, 6, 7, 8, 9]), addr=pick.randrange(0, 64), len=pick.choice([0, 1, 4, 8, 8, 16, 300]),
                  off=pick.choice([0, 2, 8, 40, AT_POSITION]))
    elif op in (FSYNC, POLL_ADD):
        it.update(fd=pick.choice([3, 4, 5, 6, 7]))
        if op == POLL_ADD:
            it.update(opflags=pick.choice([1, 4, 5]))
    elif op in (TIMEOUT, LINK_TIMEOUT):
        it.update(addr=TIMES + 16 * pick.randrange(3), len=1, opflags=pick.choice([0, 0, 1]))
        if op == TIMEOUT:
            it.update(off=pick.choice([0, 0, 1, 3]))
    elif op in (POLL_REMOVE, TIMEOUT_REMOVE):
        it.update(addr=pick.randrange(1, 9))
    elif op == ASYNC_CANCEL:
        it.update(addr=pick.randrange(1, 9), opflags=pick.choice([0, 0, 1, 2, 3]), fd=pick.choice([3, 5, 6]))
    return it


def thread(pick, entries):
    """The instructions of a thread."""
    program = []
    for _ in range(pick.randrange(2, 5)):
        count = pick.randrange(1, 4)
        for at in range(count):
            slot = pick.randrange(entries)
            program += [["put", slot, entry(pick)], ["push", slot if pick.random() < 0.97 else entries + 3]]
        program.append(["enter", count, pick.choice([0, 0, 0, 1, 2]), pick.choice([0, 0, 1, 1, 2, 3])])
        for _ in range(pick.randrange(0, 3)):
            program.append(["reap"])
        if pick.random() < 0.3:
            program.append(["store", pick.randrange(64), pick.randbytes(pick.randrange(1, 12)).hex()])
        if pick.random() < 0.15:
            program.append(["close", pick.choice([4, 5, 6, 7, 8, 9])])
    return program


def setup(pick):
    """A random script without its schedule."""
    entries = pick.choice([1, 2, 4, 8])
    times = b"".join(s.to_bytes(8, "little") + n.to_bytes(8, "little") for s, n in ((0, 0), (0, 5), (5, 0)))
    return {
        "entries": entries,
        "sqpoll": pick.random() < 0.3,
        "submit_all": pick.random() < 0.3,
        "base": pick.choice([0, 0, 2**32 - 2]),
        "memory": [[0, pick.randbytes(64).hex()], [TIMES, times.hex()]],
        "objects": [{"name": "a", "file": pick.randbytes(24).hex()}, {"name": "b", "file": ""}, {"name": "p", "pipe": pick.choice([4, 16])},
                    {"name": "e", "eventfd": pick.choice([0, 0, 3])}],
        "fds": list(FDS.values()),
        "threads": [thread(pick, entries) for _ in range(pick.randrange(1, 3))],
        "schedule": [],
    }


def long_thread(pick, slots, sqpoll, most_reaped):
    """The instructions of a thread that uses some of the slots. It reaps no more completions than it submits plain NOPs, so
    that it doesn't wait for requests that never complete."""
    program = []
    wanted = pick.choice([1000, 3500])
    while len(program) < wanted:
        plain = pick.randrange(3)
        entries = [{"op": NOP, "ud": pick.randrange(1, 9)}] * plain + [entry(pick) for _ in range(pick.randrange(4))]
        for it in entries:
            slot = pick.choice(slots)
            program += [["put", slot, {**it, "flags": it.get("flags", 0) & ~IO_DRAIN}], ["push", slot]]
        program += [["enter", 0, 0, 3]] if sqpoll else [["enter", 4096, 0, pick.choice([0, 1, 1, 3])]] * 3
        program += [["reap"]] * min(plain, most_reaped)
        if pick.random() < 0.3:
            program.append(["store", pick.randrange(64), pick.randbytes(pick.randrange(1, 12)).hex()])
    return program


def long_setup(pick):
    """A random script without its schedule, whose threads have up to 3,500 instructions. If they don't reap, completions
    overflow."""
    it = setup(pick)
    it["entries"], it["cq"] = pick.choice([(64, 8192), (64, 128), (512, 2048)])
    threads, most_reaped = pick.randrange(1, 4), pick.randrange(3)
    it["threads"] = [long_thread(pick, range(at, it["entries"], threads), it["sqpoll"], most_reaped) for at in range(threads)]
    return it
