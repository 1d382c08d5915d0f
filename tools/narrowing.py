"""A WebAssembly module with a memory of 32 bits, made out of one with a memory of 64 bits.

Numbers keep their 64 bits, those that are addresses too; only where one is used as an address are its low 32 bits
taken. That changes nothing as long as every address in use lies below 4 GiB, as all of a memory do that no engine makes
larger. Browsers without 64-bit memories run the narrow module, and the others run it faster. A module that has anything
this file doesn't know is refused. Binaryen calls the same step memory64-lowering, and Emscripten MEMORY64=2.

Source: WebAssembly Core Specification, Binary Format.
"""
I32, I64, F32, F64, V128 = 0x7F, 0x7E, 0x7D, 0x7C, 0x7B
WRAP, EXTEND_SIGNED = 0xA7, 0xAC
LOADS = range(0x28, 0x36)
STORES = {0x36: I32, 0x37: I64, 0x38: F32, 0x39: F64, 0x3A: I32, 0x3B: I32, 0x3C: I64, 0x3D: I64, 0x3E: I64}
CUSTOM, TYPES, IMPORTS, FUNCTIONS, TABLES, MEMORIES, GLOBALS, EXPORTS, START, ELEMENTS, CODE, DATA, COUNT = range(13)
IS_64 = 4
MAGIC = b"\0asm\1\0\0\0"
# 3 GiB: a stack that is used up goes below 0, which is above them, so the run stops
MOST_PAGES = 49152


class Refused(Exception):
    """In one line, why a module isn't one that is taken."""


class Reader:
    """The bytes of a module, or of a part of it, from a place on."""

    def __init__(self, data, place=0):
        self.data, self.place = data, place

    def byte(self):
        self.place += 1
        return self.data[self.place - 1]

    def unsigned(self):
        value = shift = 0
        while True:
            byte = self.byte()
            value |= (byte & 127) << shift
            shift += 7
            if byte < 128:
                return value

    def skip_number(self):
        while self.byte() >= 128:
            pass

    def signed(self):
        value = shift = 0
        while True:
            byte = self.byte()
            value |= (byte & 127) << shift
            shift += 7
            if byte < 128:
                return value - (1 << shift) if byte & 64 else value

    def take(self, count):
        self.place += count
        return self.data[self.place - count:self.place]


def unsigned(value):
    found = bytearray()
    while True:
        byte, value = value & 127, value >> 7
        found.append(byte | (128 if value else 0))
        if not value:
            return bytes(found)


def signed(value):
    found = bytearray()
    while True:
        byte, value = value & 127, value >> 7
        is_last = value == (-1 if byte & 64 else 0)
        found.append(byte | (0 if is_last else 128))
        if is_last:
            return bytes(found)


def limits(reader):
    """The least and the most of a memory's or a table's limits; the most may be None."""
    flags = reader.unsigned()
    if flags & ~(IS_64 | 1):
        raise Refused(f"limits with flags {flags}")
    least = reader.unsigned()
    return least, reader.unsigned() if flags & 1 else None


def as_limits(least, most):
    return unsigned(0) + unsigned(least) if most is None else unsigned(1) + unsigned(least) + unsigned(most)


def place(reader):
    """The place of a segment, a constant of 64 bits, as one of 32."""
    if reader.byte() != 0x42:
        raise Refused("a segment whose place isn't a constant")
    value = reader.signed()
    if reader.byte() != 0x0B or not 0 <= value < 1 << 31:
        raise Refused("a segment's place")
    return b"\x41" + signed(value) + b"\x0b"


def tables(reader):
    count = reader.unsigned()
    return unsigned(count) + b"".join(bytes([reader.byte()]) + as_limits(*limits(reader)) for _ in range(count))


def memories(reader):
    if reader.unsigned() != 1:
        raise Refused("not one memory")
    least, most = limits(reader)
    return unsigned(1) + as_limits(least, min(most or MOST_PAGES, MOST_PAGES))


def elements(reader):
    count = reader.unsigned()
    found = unsigned(count)
    for _ in range(count):
        if reader.unsigned() != 0:
            raise Refused("a segment of a table that isn't a plain one")
        found += b"\0" + place(reader)
        number = reader.unsigned()
        found += unsigned(number) + b"".join(unsigned(reader.unsigned()) for _ in range(number))
    return found


def data(reader):
    count = reader.unsigned()
    found = unsigned(count)
    for _ in range(count):
        if reader.unsigned() != 0:
            raise Refused("a segment of the memory that isn't a plain one")
        found += b"\0" + place(reader)
        size = reader.unsigned()
        found += unsigned(size) + reader.take(size)
    return found


def imports(reader):
    """The names of the functions that a module imports, each with the name of the module that it is of."""
    names = []
    for _ in range(reader.unsigned()):
        names.append(tuple(reader.take(reader.unsigned()).decode() for _ in range(2)))
        if reader.byte() != 0:
            raise Refused("an import that isn't a function")
        reader.skip_number()
    return names


def sections(module):
    """The kinds and the bodies of the sections of a module."""
    if module[:8] != MAGIC:
        raise Refused("no module")
    reader = Reader(module, len(MAGIC))
    while reader.place < len(module):
        kind = reader.byte()
        yield kind, reader.take(reader.unsigned())


def imported(module):
    """The functions that a module imports."""
    return [name for kind, body in sections(module) if kind == IMPORTS for name in imports(Reader(body))]


def types_of(reader):
    """How many parameters each type of function has."""
    found = []
    for _ in range(reader.unsigned()):
        if reader.byte() != 0x60:
            raise Refused("a type that isn't a function's")
        parameters = reader.unsigned()
        reader.take(parameters)
        reader.take(reader.unsigned())
        found.append(parameters)
    return found


CHANGED = {TABLES: tables, MEMORIES: memories, ELEMENTS: elements, DATA: data}


class Function:
    """A function's code with its addresses narrowed."""

    def __init__(self, reader, parameters):
        self.reader, self.found, self.used = reader, bytearray(), {}
        groups = [(reader.unsigned(), reader.byte()) for _ in range(reader.unsigned())]
        self.first = parameters + sum(number for number, _ in groups)
        self.slots = []
        self.code()
        groups += [(1, kind) for kind in self.slots]
        head = unsigned(len(groups)) + b"".join(unsigned(number) + bytes([kind]) for number, kind in groups)
        body = head + bytes(self.found)
        self.body = unsigned(len(body)) + body

    def local(self, kind, number=0):
        """A local of its own, for a value that is above an address on the stack."""
        key = (kind, number)
        if key not in self.used:
            self.used[key] = self.first + len(self.slots)
            self.slots.append(kind)
        return unsigned(self.used[key])

    def emit(self, *codes):
        for code in codes:
            self.found += bytes([code]) if isinstance(code, int) else code

    def copied(self, begin):
        self.found += self.reader.data[begin:self.reader.place]

    def code(self):
        reader, end = self.reader, len(self.reader.data)
        while reader.place < end:
            self.instruction(reader.place, reader.byte())

    def instruction(self, begin, code):
        reader = self.reader
        if code in LOADS:
            self.emit(WRAP)
            self.access(code)
        elif code in STORES:
            slot = self.local(STORES[code])
            self.emit(0x21, slot, WRAP, 0x20, slot)
            self.access(code)
        elif code == 0x3F:
            self.emit(code, reader.byte(), EXTEND_SIGNED)
        elif code == 0x40:
            self.emit(WRAP, code, reader.byte(), EXTEND_SIGNED)
        elif code == 0x11:
            self.emit(WRAP, code, unsigned(reader.unsigned()), unsigned(reader.unsigned()))
        elif code == 0xFC:
            self.extended(begin, reader.unsigned())
        elif code == 0xFD:
            self.vector(begin, reader.unsigned())
        else:
            self.skip_operands(code)
            self.copied(begin)

    def access(self, *codes):
        align, offset = self.reader.unsigned(), self.reader.unsigned()
        if align >= 64 or offset >= 1 << 31:
            raise Refused("an access with another memory or a large offset")
        self.emit(*codes, unsigned(align), unsigned(offset))

    def vector(self, begin, code):
        """An instruction on 128 bits; those on memory are loads, of all or of one lane, and stores."""
        reader = self.reader
        if code <= 10 or code in (0x5C, 0x5D):
            self.emit(WRAP)
            self.access(0xFD, unsigned(code))
        elif code == 11 or 0x54 <= code <= 0x5B:
            slot = self.local(V128)
            self.emit(0x21, slot, WRAP, 0x20, slot)
            self.access(0xFD, unsigned(code))
            if code != 11:
                self.emit(reader.byte())
        else:
            if code in (12, 13):
                reader.take(16)
            elif 0x15 <= code <= 0x22:
                reader.byte()
            elif code > 0xFF:
                raise Refused(f"the instruction FD {code:X}")
            self.copied(begin)

    def extended(self, begin, code):
        reader = self.reader
        if code < 8:
            self.copied(begin)
        elif code in (10, 11):
            length, second = self.local(I64), self.local(I64 if code == 10 else I32, 1)
            self.emit(0x21, length, 0x21, second, WRAP, 0x20, second)
            if code == 10:
                self.emit(WRAP)
            self.emit(0x20, length, WRAP, 0xFC, code, reader.take(2 if code == 10 else 1))
        else:
            raise Refused(f"the instruction FC {code}")

    def skip_operands(self, code):
        reader = self.reader
        if code in (0x02, 0x03, 0x04, 0x0C, 0x0D, 0x10, 0x41, 0x42, *range(0x20, 0x25)):
            reader.skip_number()
        elif code == 0x0E:
            for _ in range(reader.unsigned() + 1):
                reader.skip_number()
        elif code == 0x1C:
            reader.take(reader.unsigned())
        elif code == 0x43:
            reader.take(4)
        elif code == 0x44:
            reader.take(8)
        elif not (code in (0x00, 0x01, 0x05, 0x0B, 0x0F, 0x1A, 0x1B) or 0x45 <= code <= 0xC4):
            raise Refused(f"the instruction {code:02X}")


def code(reader, kinds):
    count = reader.unsigned()
    found = [unsigned(count)]
    for number in range(count):
        size = reader.unsigned()
        found.append(Function(Reader(reader.take(size)), kinds[number]).body)
    return b"".join(found)


def narrowed(wide):
    """The module with a memory of 32 bits."""
    found, types, kinds = bytearray(MAGIC), [], []
    for kind, body in sections(wide):
        reader = Reader(body)
        if kind == CUSTOM:
            continue
        if kind == TYPES:
            types = types_of(reader)
        elif kind == FUNCTIONS:
            kinds = [types[reader.unsigned()] for _ in range(reader.unsigned())]
        elif kind in CHANGED:
            body = CHANGED[kind](reader)
        elif kind == CODE:
            body = code(reader, kinds)
        elif kind not in (IMPORTS, GLOBALS, EXPORTS, START, COUNT):
            raise Refused(f"a section {kind}")
        found += bytes([kind]) + unsigned(len(body)) + body
    return bytes(found)
