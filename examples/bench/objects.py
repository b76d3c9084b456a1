"""Makes the objects that bench.py measures: ELF64 relocatable files for x86-64."""

import struct

PLT32, PC32, ABS64, NONE = 4, 2, 1, 0
PROGBITS, SYMTAB, STRTAB, RELA, NOBITS, GROUP = 1, 2, 3, 4, 8, 17
WRITE, ALLOC, CODE, INFO = 1, 2, 4, 0x40
GLOBAL_FUNCTION, GLOBAL_NONE, LOCAL_SECTION = 0x12, 0x10, 3


class Object:
    """A relocatable file: sections are added in order, and the tables come last."""

    def __init__(self):
        self.data, self.headers = bytearray(64), [bytes(64)]
        self.names, self.places = bytearray(b"\0"), {}

    def name(self, text):
        if text not in self.places:
            self.places[text] = len(self.names)
            self.names += text.encode() + b"\0"
        return self.places[text]

    def section(self, name, kind, flags, content=b"", size=None, link=0, info=0, align=1, entsize=0, at=None):
        """Adds a section, and gives its number. `at` is the place of bytes that stand already."""
        if at is None:
            at = len(self.data)
            self.data += content
        size = len(content) if size is None else size
        self.headers.append(struct.pack("<IIQQQQIIQQ", self.name(name), kind, flags, 0, at, size, link, info, align, entsize))
        return len(self.headers) - 1

    def relocations(self, name, target, symbols, content, at=None, size=None):
        return self.section(name, RELA, INFO, content, size, symbols, target, 8, 24, at)

    def tables(self, symbols, locals_, strings, symbol_table):
        """Adds the symbol table, whose number must be the one foretold, and the string tables."""
        assert self.section(".symtab", SYMTAB, 0, symbols, None, symbol_table + 1, locals_, 8, 24) == symbol_table
        self.section(".strtab", STRTAB, 0, strings)
        self.name(".shstrtab")
        self.section(".shstrtab", STRTAB, 0, bytes(self.names))

    def bytes(self):
        self.data[:64] = struct.pack(
            "<16sHHIQQQIHHHHHH", b"\x7fELF\x02\x01\x01", 1, 62, 1, 0, 0, len(self.data), 0, 64, 0, 0, 64, len(self.headers),
            len(self.headers) - 1,
        )
        return bytes(self.data) + b"".join(self.headers)


def symbol(name, info, section, value=0, size=0):
    return struct.pack("<IBBHQQ", name, info, 0, section, value, size)


def rela(offset, kind, number, addend):
    return struct.pack("<QQq", offset, number << 32 | kind, addend)


class Strings:
    def __init__(self):
        self.bytes = bytearray(b"\0")

    def add(self, text):
        place = len(self.bytes)
        self.bytes += text.encode() + b"\0"
        return place


FUNCTIONS, CALLED, CALLS, POINTERS, STEP = 16, 16, 110, 12, 40


def function_name(n, k):
    return f"function_{n}_{k}" if n or k else "start"


def common_object(n, count):
    """Object n of `count`: 10 KB, with 37 symbols and 122 fields. In each second one some calls stand behind the others, as compilers
    write tail calls."""
    made, strings = Object(), Strings()
    size = STEP * CALLS
    text = made.section(".text", PROGBITS, ALLOC | CODE, bytes([0x90]) * size, align=16)
    rodata = made.section(".rodata", PROGBITS, ALLOC, b"constant text\0\0\0" * 16, align=8)
    data = made.section(".data", PROGBITS, ALLOC | WRITE, bytes(8 * POINTERS), align=8)
    bss = made.section(".bss", NOBITS, ALLOC | WRITE, size=256, align=32)
    symbols = [bytes(24)] + [symbol(0, LOCAL_SECTION, s) for s in (text, rodata, data, bss)]
    local = len(symbols)
    for k in range(FUNCTIONS):
        symbols.append(symbol(strings.add(function_name(n, k)), GLOBAL_FUNCTION, text, size // FUNCTIONS * k, 64))
    for k in range(CALLED):
        symbols.append(symbol(strings.add(function_name((7 * n + 11 * k + 1) % count, k)), GLOBAL_NONE, 0))
    calls = [rela(STEP * k + 1, PLT32, local + k % (FUNCTIONS + CALLED), -4) for k in range(CALLS)]
    if n % 2:
        calls = calls[0::2] + calls[1::2]
    pointers = [rela(8 * k, ABS64, 1 + k % 3, 8 * k) for k in range(POINTERS)]
    table = len(made.headers) + 2
    made.relocations(".rela.text", text, table, b"".join(calls))
    made.relocations(".rela.data", data, table, b"".join(pointers))
    made.tables(b"".join(symbols), local, bytes(strings.bytes), table)
    return made.bytes()


def many_fields(names, calls):
    """An object of so many functions, each with so many calls to GLOBAL names."""
    made, strings = Object(), Strings()
    size = 5 * calls
    text = made.section(".text", PROGBITS, ALLOC | CODE, bytes([0x90]) * (size * names), align=16)
    symbols = [bytes(24)]
    for n in range(names):
        symbols.append(symbol(strings.add("start" if n == 0 else f"function_{n}"), GLOBAL_FUNCTION, text, size * n, size))
    entries = bytearray(24 * names * calls)
    for n in range(names):
        for k in range(calls):
            place = n * calls + k
            struct.pack_into("<QQq", entries, 24 * place, 5 * place + 1, (1 + (n * 7919 + k * 104729) % names) << 32 | PLT32, -4)
    table = len(made.headers) + 1
    made.relocations(".rela.text", text, table, bytes(entries))
    made.tables(b"".join(symbols), 1, bytes(strings.bytes), table)
    return made.bytes()


def bss(size):
    """An object with so many bytes of bss, which takes a kit past the limit of its span."""
    made = Object()
    made.section(".bss", NOBITS, ALLOC | WRITE, size=size)
    made.tables(bytes(24), 1, b"\0", 2)
    return made.bytes()


def long_names(length, fields):
    """An object with a name of so many bytes, defined and called so many times."""
    made = Object()
    text = made.section(".text", PROGBITS, ALLOC | CODE, bytes([0x90]) * (5 * fields), align=16)
    strings = b"\0" + b"start\0" + b"n" * length + b"\0"
    symbols = [bytes(24), symbol(1, GLOBAL_FUNCTION, text), symbol(7, GLOBAL_FUNCTION, text), symbol(8, GLOBAL_FUNCTION, text)]
    entries = [rela(5 * k + 1, PLT32, 2 + k % 2, -4) for k in range(fields)]
    table = len(made.headers) + 1
    made.relocations(".rela.text", text, table, b"".join(entries))
    made.tables(b"".join(symbols), 1, strings, table)
    return made.bytes()


def one_range(length, sections):
    """An object whose relocation sections all name the same bytes, of entries that change nothing."""
    made = Object()
    text = made.section(".text", PROGBITS, ALLOC | CODE, bytes([0x90]) * 16, align=16)
    entries = rela(0, NONE, 0, 0) * (length // 24)
    table = 1 + len(made.headers) + sections - 1
    at = len(made.data)
    made.data += entries
    for _ in range(sections):
        made.relocations(".rela.text", text, table, b"", at, len(entries))
    made.tables(bytes(24) + symbol(1, GLOBAL_FUNCTION, text), 1, b"\0start\0", table)
    return made.bytes()


def groups(count):
    """An object of so many groups, each of which lists the members of all: only the first may."""
    made = Object()
    text = made.section(".text", PROGBITS, ALLOC | CODE, bytes([0x90]) * 16, align=16)
    parts = [made.section(f".text.{k}", PROGBITS, ALLOC | CODE, b"\xc3") for k in range(count)]
    table = len(made.headers) + count
    content = struct.pack(f"<I{count}I", 1, *parts)
    at = len(made.data)
    made.data += content
    for _ in range(count):
        made.section(".group", GROUP, 0, b"", len(content), table, 1, 4, 4, at)
    made.tables(bytes(24) + symbol(1, GLOBAL_FUNCTION, text), 1, b"\0start\0", table)
    return made.bytes()
