"""Programs without a bug, each of which someone may take for one with a bug: their scripts, and the options that they need."""

READ, WRITE, FSYNC, CANCEL, TIMEOUT, LINK_TIMEOUT = 22, 23, 3, 14, 11, 15
DRAIN, LINK, ASYNC, ALL, BY_DESCRIPTOR, GETEVENTS = 2, 4, 16, 1, 2, 1
REAP = ["reap"]
PIPE = {"objects": [{"name": "p", "pipe": 4096}], "fds": ["p:r", "p:w"]}


def submit(*entries, wait=0, first=0):
    """Returns the instructions that submit entries in the slots from the first on, and wait for completions and reap them."""
    written = [it for slot, entry in enumerate(entries, first) for it in (["put", slot, entry], ["push", slot])]
    return [*written, ["enter", len(entries), wait, GETEVENTS if wait else 0], *[REAP] * wait]


def read(**fields):
    return {"op": READ, "len": 4, **fields}


def write(**fields):
    return {"op": WRITE, "len": 4, **fields}


def time_of(seconds):
    """Returns a time as the bytes in memory."""
    return seconds.to_bytes(8, "little").hex() + "00" * 8


def script(*threads, **setup):
    return {"entries": 4, **setup, "threads": [*threads], "schedule": []}


def nop(user_data):
    return {"op": 0, "ud": user_data}


def copied_by_two_buffers():
    """Returns a copy of eight bytes: while four are written, the next four are read into another buffer."""
    return [*submit(read(fd=3, addr=0, ud=1), wait=1),
            *submit(write(fd=4, addr=0, ud=2), read(fd=3, off=4, addr=100, ud=3), wait=2),
            *submit(write(fd=4, off=4, addr=100, ud=4), {"op": FSYNC, "flags": DRAIN, "fd": 4, "ud": 5}, wait=2)]


def written_ahead():
    """Returns one chain that makes a log durable, and then the data."""
    log = write(fd=3, flags=LINK, ud=1), {"op": FSYNC, "fd": 3, "flags": LINK, "ud": 2}
    return submit(*log, write(fd=4, flags=LINK, ud=3), {"op": FSYNC, "fd": 4, "ud": 4}, wait=4)


# Each program's name, its script, and the options with which it shows no fault.
PROGRAMS = [
    ("cancel, and wait for both",
     script([*submit(read(fd=3, ud=1)), *submit({"op": CANCEL, "addr": 1, "ud": 2}, wait=2, first=1)], **PIPE), []),
    ("cancel all of a descriptor",
     script([*submit(read(fd=3, ud=1), read(fd=3, addr=8, ud=2)),
             *submit({"op": CANCEL, "fd": 3, "opflags": ALL | BY_DESCRIPTOR, "ud": 3}, wait=3, first=2)], **PIPE), []),
    ("a cancel before the request that a NOP holds back",
     script(submit({"op": 0, "flags": LINK, "ud": 1}, {"op": CANCEL, "addr": 3, "ud": 2}, read(fd=3, ud=3), wait=3), **PIPE), []),
    ("close after the submission",
     script([*submit(read(fd=3, len=8, ud=1)), ["close", 3], ["enter", 0, 1, GETEVENTS], REAP],
            objects=[{"name": "e", "eventfd": 1}], fds=["e"]), []),
    ("cancel a request that a worker issues",
     script([*submit(read(fd=3, flags=ASYNC, ud=1)), *submit({"op": CANCEL, "addr": 1, "ud": 2}, wait=2, first=1)], **PIPE), []),
    ("close after the submission of a chain",
     script([*submit({"op": 0, "flags": LINK, "ud": 1}, read(fd=3, len=8, ud=2)), ["close", 3],
             ["enter", 0, 2, GETEVENTS], REAP, REAP], objects=[{"name": "e", "eventfd": 1}], fds=["e"]), []),
    ("two submitters and one reaper",
     script([*submit(nop(1)), ["enter", 0, 4, GETEVENTS], *[REAP] * 4],
            [it for number in (1, 2, 3) for it in submit(nop(number + 1), first=number)]), []),
    ("a small ring that is reaped in time",
     script([it for _ in range(3) for it in submit(nop(1), nop(2), wait=2)], entries=2, cq=2), []),
    ("a time that is used again",
     script([*submit({"op": TIMEOUT, "addr": 100, "len": 1, "ud": 1}), ["store", 100, time_of(2)],
             *submit({"op": TIMEOUT, "addr": 100, "len": 1, "ud": 2}, wait=2, first=1)], memory=[[100, time_of(1)]]), []),
    ("a copy by two buffers",
     script(copied_by_two_buffers(), objects=[{"name": "from", "file": "6162636465666768"}, {"name": "to", "file": ""}],
            fds=["from", "to"]), ["--sound-device"]),
    ("a log in one chain",
     script(written_ahead(), memory=[[0, "61626364"]], objects=[{"name": "log", "file": ""}, {"name": "data", "file": ""}],
            fds=["log", "data"]), ["--sound-device"]),
    ("a read with a linked timeout",
     script(submit(read(fd=3, flags=LINK, ud=1), {"op": LINK_TIMEOUT, "addr": 100, "len": 1, "ud": 2}, wait=2),
            memory=[[100, time_of(1)]], **PIPE), ["--allow", "timed-out"]),
    ("a read with a linked timeout, and its writer",
     script(submit(read(fd=3, flags=LINK, ud=1), {"op": LINK_TIMEOUT, "addr": 100, "len": 1, "ud": 2}, wait=2),
            [["put", 2, write(fd=4, ud=3)], ["push", 2], ["enter", 1, 0, 0]], memory=[[100, time_of(1)]], **PIPE),
     ["--allow", "timed-out"]),
    ("an eventfd loop that idles",
     script([*submit(read(fd=3, len=8, ud=1)), *[["enter", 0, 1, GETEVENTS], REAP] * 2, ["enter", 0, 1, GETEVENTS], REAP],
            submit(write(fd=3, len=8, ud=2), first=1),
            memory=[[0, (1).to_bytes(8, "little").hex()]], objects=[{"name": "e", "eventfd": 0}], fds=["e"]), []),
]
