#!/usr/bin/env python3
"""Makes of a WebAssembly module with a 64-bit memory one with a 32-bit memory, which more browsers run, and faster.

Usage: lower.py IN.wasm OUT.wasm. It needs only Python.

Functions keep their types, so a pointer stays an i64. It is cut to 32 bits where it is used, as an address or as the index of a function. That changes nothing
in a program whose accesses all lie within its memory. What isn't known here is refused: the message says what, and nothing is written. Custom sections, which
only describe a module, are left out. Nothing proves this file.
"""

from __future__ import annotations

import sys
from collections.abc import Callable
from pathlib import Path

MAGIC = b"\0asm\1\0\0\0"
SECTIONS = ["custom", "type", "import", "function", "table", "memory", "global", "export", "start", "element", "code", "data", "data count"]
I32, I64, F32, F64 = 0x7F, 0x7E, 0x7D, 0x7C

# Instructions that are written here.
GET, SET, CONST_32, END = b"\x20", b"\x21", b"\x41", b"\x0b"
WRAP, EXTEND_SIGNED, EXTEND_UNSIGNED = b"\xa7", b"\xac", b"\xad"

# Instructions by what follows them, in the order of their codes: nothing; one number; the alignment and offset of an access.
PLAIN = {0x00, 0x01, 0x05, 0x0B, 0x0F, 0x1A, 0x1B, *range(0x45, 0xC5)}
NUMBERED = {0x02, 0x03, 0x04, 0x0C, 0x0D, 0x10, *range(0x20, 0x25), 0x41, 0x42}
FLOATS = {0x43: 4, 0x44: 8}
BRANCHES, CALL_INDIRECT, MEMORY_SIZE, MEMORY_GROW, LONGER = 0x0E, 0x11, 0x3F, 0x40, 0xFC
LOADS = range(0x28, 0x36)
STORES = {0x36: I32, 0x37: I64, 0x38: F32, 0x39: F64, 0x3A: I32, 0x3B: I32, 0x3C: I64, 0x3D: I64, 0x3E: I64}

# Instructions with a longer code: conversions, which nothing follows, and those of whole ranges of memory.
CONVERSIONS = range(8)
MEMORY_COPY, MEMORY_FILL = 10, 11


class Refused(Exception):
    """The module has something that isn't known here."""


def unsigned(number: int) -> bytes:
    """Returns a number as LEB128."""
    out = bytearray()
    while number >= 0x80:
        out.append(number & 0x7F | 0x80)
        number >>= 7
    out.append(number)
    return bytes(out)


def signed(number: int) -> bytes:
    """Returns a number as signed LEB128."""
    out = bytearray()
    while not -0x40 <= number < 0x40:
        out.append(number & 0x7F | 0x80)
        number >>= 7
    out.append(number & 0x7F)
    return bytes(out)


class Reader:
    """Reads bytes from the first to the last."""

    def __init__(self, data: bytes) -> None:
        self.data = data
        self.at = 0

    def is_at_end(self) -> bool:
        return self.at == len(self.data)

    def byte(self) -> int:
        self.at += 1
        return self.data[self.at - 1]

    def bytes(self, count: int) -> bytes:
        if self.at + count > len(self.data):
            raise Refused("a part that is cut off")
        self.at += count
        return self.data[self.at - count : self.at]

    def skip(self) -> None:
        """Skips a number."""
        while self.byte() >= 0x80:
            pass

    def number(self) -> int:
        found = shift = 0
        while True:
            byte = self.byte()
            found |= (byte & 0x7F) << shift
            shift += 7
            if byte < 0x80:
                return found

    def signed_number(self) -> int:
        start = self.at
        found = self.number()
        bits = 7 * (self.at - start)
        return found - (1 << bits) if found >> (bits - 1) else found

    def copied(self, read: Callable[[], object]) -> bytes:
        """Returns the bytes that `read` reads."""
        start = self.at
        read()
        return self.data[start : self.at]


def limits(reader: Reader) -> tuple[bytes, bool]:
    """Returns the limits of a memory or a table as those of a 32-bit one, and whether it was a 64-bit one."""
    flags = reader.byte()
    if flags & ~5:
        raise Refused(f"limits of kind {flags:#x}")
    least = reader.number()
    most = reader.number() if flags & 1 else None
    if max(least, most or 0) >= 1 << 32:
        raise Refused(f"a limit of {max(least, most or 0)}")
    return bytes([flags & 1]) + unsigned(least) + (b"" if most is None else unsigned(most)), bool(flags & 4)


def offset(reader: Reader) -> bytes:
    """Returns the constant that says where a segment begins, as one of 32 bits."""
    code, number, end = reader.byte(), reader.signed_number(), reader.byte()
    if code != 0x42 or end != END[0] or not 0 <= number < 1 << 32:
        raise Refused("a segment that doesn't begin at a constant of 64 bits below 4 GiB")
    return CONST_32 + signed(number - (1 << 32) if number >= 1 << 31 else number) + END


class Body:
    """The code of one function while it is lowered."""

    def __init__(self, code: bytes, parameters: int, is_table_wide: bool) -> None:
        self.reader = Reader(code)
        self.is_table_wide = is_table_wide
        self.groups = [(self.reader.number(), self.reader.byte()) for _ in range(self.reader.number())]
        self.first_new = parameters + sum(count for count, _ in self.groups)
        self.new: list[int] = []
        self.out = bytearray()
        self.copied_to = self.reader.at

    def local(self, kind: int, which: int = 0) -> bytes:
        """Returns the index of a local of this kind that is only used here: the first or the second."""
        while self.new.count(kind) <= which:
            self.new.append(kind)
        at = [index for index, found in enumerate(self.new) if found == kind][which]
        return unsigned(self.first_new + at)

    def insert(self, at: int, code: bytes) -> None:
        """Copies the code up to `at`, and adds other code there."""
        self.out += self.reader.data[self.copied_to : at] + code
        self.copied_to = at

    def place(self) -> None:
        """Writes the alignment and offset of an access, as short as they can be: engines refuse longer offsets in a 32-bit memory."""
        self.insert(self.reader.at, b"")
        alignment, at = self.reader.number(), self.reader.number()
        if alignment > 4 or at >= 1 << 32:
            raise Refused(f"an access with alignment {alignment} at offset {at}")
        self.out += unsigned(alignment) + unsigned(at)
        self.copied_to = self.reader.at

    def expect_zero(self) -> None:
        """Reads the index of a memory or table, which is 0."""
        if self.reader.number() != 0:
            raise Refused("a second memory or table")

    def instruction(self) -> None:
        at = self.reader.at
        code = self.reader.byte()
        if code in PLAIN:
            pass
        elif code in NUMBERED:
            self.reader.skip()
        elif code in LOADS:
            self.insert(at, WRAP)
            self.place()
        elif code in STORES:
            value = self.local(STORES[code])
            self.insert(at, SET + value + WRAP + GET + value)
            self.place()
        elif code in FLOATS:
            self.reader.bytes(FLOATS[code])
        else:
            self.rare_instruction(at, code)

    def rare_instruction(self, at: int, code: int) -> None:
        if code == BRANCHES:
            for _ in range(self.reader.number() + 1):
                self.reader.skip()
        elif code == CALL_INDIRECT:
            if self.is_table_wide:
                self.insert(at, WRAP)
            self.reader.skip()
            self.expect_zero()
        elif code == MEMORY_SIZE:
            self.expect_zero()
            self.insert(self.reader.at, EXTEND_UNSIGNED)
        elif code == MEMORY_GROW:
            self.insert(at, WRAP)
            self.expect_zero()
            self.insert(self.reader.at, EXTEND_SIGNED)
        elif code == LONGER:
            self.longer_instruction(at, self.reader.number())
        else:
            raise Refused(f"the instruction {code:#x}")

    def longer_instruction(self, at: int, code: int) -> None:
        if code == MEMORY_COPY:
            source, count = self.local(I64, 0), self.local(I64, 1)
            self.insert(at, SET + count + SET + source + WRAP + GET + source + WRAP + GET + count + WRAP)
            self.expect_zero()
            self.expect_zero()
        elif code == MEMORY_FILL:
            value, count = self.local(I32), self.local(I64)
            self.insert(at, SET + count + SET + value + WRAP + GET + value + GET + count + WRAP)
            self.expect_zero()
        elif code not in CONVERSIONS:
            raise Refused(f"the instruction {LONGER:#x} {code}")

    def lowered(self) -> bytes:
        while not self.reader.is_at_end():
            self.instruction()
        self.insert(self.reader.at, b"")
        groups = self.groups + [(1, kind) for kind in self.new]
        return unsigned(len(groups)) + b"".join(unsigned(count) + bytes([kind]) for count, kind in groups) + self.out


class Module:
    """A module while it is lowered: what its sections say to those that follow."""

    def __init__(self) -> None:
        self.parameters: list[int] = []
        self.functions: list[int] = []
        self.is_table_wide = False
        self.lowerings = {
            "type": self.types,
            "import": self.imports,
            "function": self.function_types,
            "table": self.tables,
            "memory": self.memories,
            "element": self.elements,
            "code": self.bodies,
            "data": self.segments,
        }

    def types(self, reader: Reader) -> bytes:
        def one() -> None:
            if reader.byte() != 0x60:
                raise Refused("a type that isn't a function's")
            count = reader.number()
            self.parameters.append(count)
            reader.bytes(count)
            reader.bytes(reader.number())

        return every(reader, lambda: reader.copied(one))

    def imports(self, reader: Reader) -> bytes:
        def one() -> None:
            reader.bytes(reader.number())
            reader.bytes(reader.number())
            if reader.byte() != 0:
                raise Refused("an import that isn't a function")
            reader.skip()

        return every(reader, lambda: reader.copied(one))

    def function_types(self, reader: Reader) -> bytes:
        return every(reader, lambda: reader.copied(lambda: self.functions.append(reader.number())))

    def tables(self, reader: Reader) -> bytes:
        def one() -> bytes:
            kind = reader.bytes(1)
            table, self.is_table_wide = limits(reader)
            return kind + table

        return every(reader, one, most=1)

    def memories(self, reader: Reader) -> bytes:
        def one() -> bytes:
            memory, is_wide = limits(reader)
            if not is_wide:
                raise Refused("a memory that isn't a 64-bit one")
            return memory

        return every(reader, one, most=1)

    def elements(self, reader: Reader) -> bytes:
        def one() -> bytes:
            if not self.is_table_wide or reader.number() != 0:
                raise Refused("a segment of a table that isn't a plain list of functions for a 64-bit one")
            return b"\0" + offset(reader) + every(reader, lambda: reader.copied(reader.skip))

        return every(reader, one)

    def bodies(self, reader: Reader) -> bytes:
        kinds = iter(self.functions)

        def one() -> bytes:
            body = Body(reader.bytes(reader.number()), self.parameters[next(kinds)], self.is_table_wide).lowered()
            return unsigned(len(body)) + body

        return every(reader, one)

    def segments(self, reader: Reader) -> bytes:
        def one() -> bytes:
            if reader.number() != 0:
                raise Refused("data that isn't put into the memory at the start")
            where = offset(reader)
            data = reader.bytes(reader.number())
            return b"\0" + where + unsigned(len(data)) + data

        return every(reader, one)


def every(reader: Reader, one: Callable[[], bytes], most: int | None = None) -> bytes:
    """Returns a list, each item as `one` returns it. There may be no more than `most`."""
    count = reader.number()
    if most is not None and count > most:
        raise Refused("a second memory or table")
    return unsigned(count) + b"".join([one() for _ in range(count)])


def lower(data: bytes) -> bytes:
    """Returns the module with a 32-bit memory."""
    reader, module, out = Reader(data), Module(), bytearray(MAGIC)
    if reader.bytes(len(MAGIC)) != MAGIC:
        raise Refused("another first line than a module of version 1")
    while not reader.is_at_end():
        kind = reader.byte()
        section = Reader(reader.bytes(reader.number()))
        if kind >= len(SECTIONS):
            raise Refused(f"a section of kind {kind}")
        if SECTIONS[kind] == "custom":
            continue
        change = module.lowerings.get(SECTIONS[kind], lambda same: same.bytes(len(same.data)))
        changed = change(section)
        if not section.is_at_end():
            raise Refused(f"a section {SECTIONS[kind]} with more than its list")
        out += bytes([kind]) + unsigned(len(changed)) + changed
    return bytes(out)


if __name__ == "__main__":
    try:
        lowered = lower(Path(sys.argv[1]).read_bytes())
    except (Refused, IndexError) as why:
        sys.exit(f"{sys.argv[0]}: {sys.argv[1]} has {why}")
    Path(sys.argv[2]).write_bytes(lowered)
