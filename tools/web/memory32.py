#!/usr/bin/env python3
"""Gives a WebAssembly module of one 64-bit memory a 32-bit one, which every browser has.

usage: tools/web/memory32.py IN.wasm OUT.wasm

Addresses stay 64-bit numbers in the code, and are cut to 32 bits where the memory or the table is used. Nothing else changes.
A module with anything that isn't known here is refused.
"""
import sys

I32, I64, F32, F64 = 0x7F, 0x7E, 0x7D, 0x7C
WRAP, EXTEND_SIGNED, EXTEND = b"\xa7", b"\xac", b"\xad"
LOCAL_GET, LOCAL_SET, I32_CONST, I64_CONST, END = b"\x20", b"\x21", b"\x41", 0x42, 0x0B
LOADS = range(0x28, 0x36)
STORED = dict(zip(range(0x36, 0x3F), (I32, I64, F32, F64, I32, I32, I64, I64, I64)))  # the kind of what a store stores
MEMORY_SIZE, MEMORY_GROW, CALL_INDIRECT, PREFIX = 0x3F, 0x40, 0x11, 0xFC
CONVERSIONS, MEMORY_COPY, MEMORY_FILL = range(8), 10, 11  # after the prefix
# Instructions by what follows them: nothing, one number, a fixed count of bytes.
BARE = {0x00, 0x01, 0x05, 0x0B, 0x0F, 0x1A, 0x1B, *range(0x45, 0xC5)}
NUMBERED = {0x02, 0x03, 0x04, 0x0C, 0x0D, 0x10, 0x20, 0x21, 0x22, 0x23, 0x24, 0x41, 0x42}
SIZED = {0x43: 4, 0x44: 8}
BRANCH_TABLE = 0x0E
CUSTOM, TYPES, IMPORTS, FUNCTIONS, TABLES, MEMORIES, ELEMENTS, CODE, DATA = 0, 1, 2, 3, 4, 5, 9, 10, 11
IS_64 = 4  # the bit of a memory's or table's limits


class Unknown(Exception):
    """What a module has that isn't known here."""


def unsigned(number):
    """Returns a number as WebAssembly writes it: seven bits a byte, lowest first."""
    out = bytearray()
    while number > 0x7F:
        out.append(number & 0x7F | 0x80)
        number >>= 7
    return bytes([*out, number])


def signed(number):
    out = bytearray()
    while not -64 <= number < 64:
        out.append(number & 0x7F | 0x80)
        number >>= 7
    return bytes([*out, number & 0x7F])


class Reader:
    """Reads a part of the module from its start."""

    def __init__(self, data, at=0, end=None):
        self.data, self.at, self.end = data, at, len(data) if end is None else end

    def byte(self):
        self.at += 1
        return self.data[self.at - 1]

    def number(self):
        result, shift = 0, 0
        while True:
            byte = self.byte()
            result |= (byte & 0x7F) << shift
            shift += 7
            if byte < 0x80:
                return result

    def signed_number(self):
        start, result = self.at, self.number()
        return result - (1 << 7 * (self.at - start)) if self.data[self.at - 1] & 0x40 else result

    def bytes(self, count):
        self.at += count
        return self.data[self.at - count:self.at]

    def part(self):
        """Returns a reader of the part whose length comes next, and skips it."""
        length = self.number()
        self.at += length
        return Reader(self.data, self.at - length, self.at)

    def rest(self):
        return self.data[self.at:self.end]

    def expect(self, byte, what):
        if self.byte() != byte:
            raise Unknown(what)


class Function:
    """The code of one function, as it is rewritten."""

    def __init__(self, reader, parameters):
        self.reader, self.out, self.spares = reader, bytearray(), {}
        self.groups = reader.number()
        start, self.locals = reader.at, parameters
        for _ in range(self.groups):
            self.locals += reader.number()
            reader.byte()
        self.declared = reader.data[start:reader.at]
        while reader.at < reader.end:
            self.instruction()

    def spare(self, kind, name=""):
        """Returns the number of a local that only the rewriting uses."""
        return unsigned(self.spares.setdefault((kind, name), self.locals + len(self.spares)))

    def offset(self):
        """Reads what follows a load or a store."""
        alignment, start = self.reader.number(), self.reader.number()
        if alignment >= 64 or start >= 1 << 32:
            raise Unknown("an offset that is too large")
        return unsigned(alignment) + unsigned(start)

    def instruction(self):
        reader, start = self.reader, self.reader.at
        code = reader.byte()
        if code in LOADS:
            self.out += WRAP + bytes([code]) + self.offset()
        elif code in STORED:
            spare = self.spare(STORED[code])
            self.out += LOCAL_SET + spare + WRAP + LOCAL_GET + spare + bytes([code]) + self.offset()
        elif code == MEMORY_SIZE:
            self.out += bytes([code, reader.byte()]) + EXTEND
        elif code == MEMORY_GROW:
            self.out += WRAP + bytes([code, reader.byte()]) + EXTEND_SIGNED
        elif code == PREFIX:
            self.prefixed(start)
        else:
            self.skip(code)
            self.out += (WRAP if code == CALL_INDIRECT else b"") + reader.data[start:reader.at]

    def prefixed(self, start):
        reader, code = self.reader, self.reader.number()
        if code in CONVERSIONS:
            self.out += reader.data[start:reader.at]
            return
        if code not in (MEMORY_COPY, MEMORY_FILL):
            raise Unknown(f"instruction 0xfc {code}")
        is_copy = code == MEMORY_COPY
        reader.bytes(2 if is_copy else 1)
        count, second = self.spare(I64, "count"), self.spare(I64, "from") if is_copy else self.spare(I32, "byte")
        self.out += LOCAL_SET + count + LOCAL_SET + second + WRAP + LOCAL_GET + second + (WRAP if is_copy else b"")
        self.out += LOCAL_GET + count + WRAP + reader.data[start:reader.at]

    def skip(self, code):
        """Reads what follows an instruction that stays as it is."""
        reader = self.reader
        if code in BARE:
            return
        numbers = 1 if code in NUMBERED else 2 if code == CALL_INDIRECT else 0
        if code == BRANCH_TABLE:
            numbers = reader.number() + 1
        elif code in SIZED:
            reader.bytes(SIZED[code])
        elif not numbers:
            raise Unknown(f"instruction {code:#x}")
        for _ in range(numbers):
            reader.number()

    def text(self):
        added = b"".join(b"\x01" + bytes([kind]) for kind, _ in self.spares)
        whole = unsigned(self.groups + len(self.spares)) + self.declared + added + self.out
        return unsigned(len(whole)) + whole


def start_of(reader):
    """Reads the start of a segment, which becomes a 32-bit constant."""
    reader.expect(0, "a segment of another kind")
    reader.expect(I64_CONST, "a segment whose start is no constant")
    start = reader.signed_number()
    reader.expect(END, "a segment whose start is no constant")
    if not 0 <= start < 1 << 31:
        raise Unknown("a segment whose start is out of range")
    return b"\x00" + I32_CONST + signed(start) + bytes([END])


class Module:
    """The sections of a module, as they are rewritten."""

    def __init__(self, data):
        self.data, self.parameters, self.types = data, [], []
        self.rewritten = {TYPES: self.read_types, IMPORTS: self.read_imports, FUNCTIONS: self.read_functions, TABLES: self.limits,
                          MEMORIES: self.limits, ELEMENTS: self.elements, CODE: self.code, DATA: self.segments}

    def read_types(self, reader):
        whole = reader.rest()
        for _ in range(reader.number()):
            reader.expect(0x60, "a type that is no function")
            self.parameters.append(reader.number())
            reader.bytes(self.parameters[-1])
            reader.bytes(reader.number())
        return whole

    def read_imports(self, reader):
        whole = reader.rest()
        for _ in range(reader.number()):
            reader.bytes(reader.number())
            reader.bytes(reader.number())
            reader.expect(0, "an import that is no function")
            reader.number()
        return whole

    def read_functions(self, reader):
        whole = reader.rest()
        self.types = [reader.number() for _ in range(reader.number())]
        return whole

    def limits(self, reader):
        """Drops the bit of a 64-bit memory or table; a table has the kind of its elements before it."""
        count = reader.number()
        if count != 1:
            raise Unknown("several memories or tables")
        kind = reader.bytes(1) if reader.data[reader.at] in (0x70, 0x6F) else b""
        return unsigned(count) + kind + bytes([reader.byte() & ~IS_64]) + reader.rest()

    def elements(self, reader):
        count = reader.number()
        out = unsigned(count)
        for _ in range(count):
            out += start_of(reader)
            first = reader.at
            for _ in range(reader.number()):
                reader.number()
            out += reader.data[first:reader.at]
        return out

    def code(self, reader):
        count = reader.number()
        functions = [Function(reader.part(), self.parameters[self.types[number]]).text() for number in range(count)]
        return unsigned(count) + b"".join(functions)

    def segments(self, reader):
        count = reader.number()
        out = [unsigned(count)]
        for _ in range(count):
            out.append(start_of(reader))
            length = reader.number()
            out.append(unsigned(length) + reader.bytes(length))
        return b"".join(out)

    def text(self):
        reader, out = Reader(self.data, 8), bytearray(self.data[:8])
        while reader.at < reader.end:
            kind = reader.byte()
            section = reader.part()
            if kind == CUSTOM:
                continue
            text = self.rewritten.get(kind, Reader.rest)(section)
            out += bytes([kind]) + unsigned(len(text)) + text
        return bytes(out)


def lower(data):
    """Returns the module with a 32-bit memory."""
    return Module(data).text()


def main(words):
    if len(words) != 2:
        print(__doc__, end="", file=sys.stderr)
        return 2
    with open(words[0], "rb") as file:
        data = file.read()
    try:
        made = lower(data)
    except Unknown as why:
        print(f"memory32: {words[0]} has {why}", file=sys.stderr)
        return 1
    with open(words[1], "wb") as file:
        file.write(made)
    return 0


if __name__ == "__main__":
    sys.exit(main(sys.argv[1:]))
