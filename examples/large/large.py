"""An object of 20,005 sections and 100,000 relocation entries.

10,000 of the sections are functions of 96 bytes, each with a GLOBAL symbol, and as many are their relocation sections, with ten
calls each, by offset in a relocation section as compilers write them, or from the last to the first. An object without a flaw is
linked; a flawed one has its only flaw in what is checked last, a group of 2 bytes, so that all of it is read and nothing is linked.
"""

import struct

FUNCTIONS, CALLS, SIZE = 10000, 10, 96


def header(name, kind, flags, offset, size, link=0, info=0, align=1, entsize=0):
    return struct.pack("<IIQQQQIIQQ", name, kind, flags, 0, offset, size, link, info, align, entsize)


def make_object(ascending, flawed):
    data, headers = bytearray(64), [header(0, 0, 0, 0, 0)]
    names, strings, symbols = bytearray(b"\0.rela\0"), bytearray(b"\0"), bytearray(24)
    symbol_table = 1 + 2 * FUNCTIONS
    for n in range(FUNCTIONS):
        text = len(data)
        data += b"\x90" * (SIZE - 1) + b"\xc3"
        offsets = [8 * k for k in range(CALLS)]
        if not ascending:
            offsets.reverse()
        entries = len(data)
        for k, offset in enumerate(offsets):
            target = (7 * n + k) % FUNCTIONS
            data += struct.pack("<QQq", offset, (1 + target) << 32 | 4, -4)
        headers.append(header(len(names), 1, 6, text, SIZE, align=16))
        headers.append(header(1, 4, 0x40, entries, len(data) - entries, symbol_table, 1 + 2 * n, 8, 24))
        names += b".text.f%d\0" % n
        symbols += struct.pack("<IBBHQQ", len(strings), 0x12, 0, 1 + 2 * n, 0, SIZE)
        strings += b"start\0" if n == 0 else b"f%d\0" % n
    tables = [(2, symbols, symbol_table + 1, 1, 8, 24), (3, strings, 0, 0, 1, 0), (3, names, 0, 0, 1, 0)]
    if flawed:
        tables.append((17, b"\0\0", symbol_table, 1, 4, 4))
    else:
        tables.append((1, b"", 0, 0, 1, 0))
    for kind, content, link, info, align, entsize in tables:
        headers.append(header(1, kind, 0, len(data), len(content), link, info, align, entsize))
        data += content
    data[:64] = struct.pack(
        "<16sHHIQQQIHHHHHH", b"\x7fELF\x02\x01\x01", 1, 62, 1, 0, 0, len(data), 0, 64, 0, 0, 64, len(headers), symbol_table + 2
    )
    return data + b"".join(headers)
