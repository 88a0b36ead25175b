"""Traces of form 2 (docs/TRACES.md): their setup and their events."""
import struct
from dataclasses import dataclass, field

KINDS = {1: "step", 2: "take", 3: "sleep", 4: "issue", 5: "finish", 6: "expire", 7: "tick"}
NUMBERS = {word: number for number, word in KINDS.items()}
FILE, PIPE, EVENTFD = 1, 2, 3
PUT, PUSH, STORE, ENTER, REAP, CLOSE = range(1, 7)
EIO = 1 << 32


@dataclass(frozen=True)
class Event:
    """An event: its word, the thread, row or count that it names, and its wide number."""
    kind: str
    number: int = 0
    wide: int = 0

    def packed(self):
        return struct.pack("<B3xIQ", NUMBERS[self.kind], self.number, self.wide)


@dataclass
class Object:
    name: str
    kind: int
    size: int = 0
    contents: bytes = b""
    counter: int = 0


@dataclass
class Entry:
    """The fields of a submission entry that are examined here."""
    op: int
    flags: int
    ioprio: int
    fd: int
    off: int
    addr: int
    len: int
    opflags: int
    user_data: int
    rest: bytes

    @classmethod
    def read(cls, raw):
        return cls(*struct.unpack("<BBHiQQIIQ24s", raw))


@dataclass
class Setup:
    raw: bytes
    entries: int = 0
    completions: int = 0
    options: int = 0
    base: int = 0
    memory: bytes = b""
    objects: list = field(default_factory=list)
    descriptors: list = field(default_factory=list)
    threads: list = field(default_factory=list)

    def with_events(self, events):
        """Returns the trace of these events."""
        return self.raw + struct.pack("<I", len(events)) + b"".join(event.packed() for event in events)


class Reader:
    def __init__(self, raw):
        self.raw, self.at = raw, 0

    def bytes(self, count):
        self.at += count
        return self.raw[self.at - count:self.at]

    def number(self, width, signed=False):
        return int.from_bytes(self.bytes(width), "little", signed=signed)

    def items(self, read):
        return [read() for _ in range(self.number(4))]

    def object(self):
        found = Object(self.bytes(self.number(1)).decode(), self.number(1))
        if found.kind == FILE:
            found.contents = self.bytes(self.number(4))
        elif found.kind == PIPE:
            found.size = self.number(4)
        else:
            found.counter = self.number(8)
        return found

    def instruction(self):
        """Returns the kind of an instruction, its numbers, and its bytes."""
        kind = self.number(1)
        if kind == PUT:
            return kind, (self.number(4),), self.bytes(64)
        if kind == STORE:
            numbers = self.number(4), self.number(4)
            return kind, numbers, self.bytes(numbers[1])
        if kind == CLOSE:
            return kind, (self.number(4, signed=True),), b""
        count = {PUSH: 1, ENTER: 3, REAP: 0}[kind]
        return kind, tuple(self.number(4) for _ in range(count)), b""


def read(raw):
    """Returns the setup and the events of a trace that `trace` wrote."""
    it = Reader(raw)
    it.bytes(8)
    sizes = it.number(2), it.number(2), it.number(1), it.number(4)
    memory = it.bytes(it.number(4)).ljust(65536, b"\0")
    objects = it.items(it.object)
    descriptors = it.items(lambda: (it.number(1), it.number(1)))
    threads = it.items(lambda: it.items(it.instruction))
    setup = Setup(raw[:it.at], *sizes, memory, objects, descriptors, threads)
    words = struct.iter_unpack("<B3xIQ", raw[it.at + 4:])
    return setup, [Event(KINDS[kind], number, wide) for kind, number, wide in words]
