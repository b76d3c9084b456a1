"""The gap object of given sizes, by Python's struct. gap_object.py TEXT RODATA DATA BSS prints its length and its SHA-256 digest;
a fifth word names a file to write it to."""

import hashlib
import struct
import sys

NAMES = b"\0.text\0.rodata\0.data\0.bss\0.shstrtab\0"
PADDING = bytes(4)


def header(name, kind, flags, offset, size, align):
    return struct.pack("<IIQQQQIIQQ", name, kind, flags, 0, offset, size, 0, 0, align, 0)


def gap_object(text, rodata, data, bss):
    rodata_at = 64 + text
    data_at = rodata_at + rodata
    names_at = data_at + data
    headers_at = names_at + len(NAMES + PADDING)
    ident = b"\x7fELF\2\1\1" + bytes(9)
    return (
        ident
        + struct.pack("<HHIQQQIHHHHHH", 1, 62, 1, 0, 0, headers_at, 0, 64, 0, 0, 64, 6, 5)
        + text * b"\xcc"
        + bytes(rodata + data)
        + NAMES
        + PADDING
        + header(0, 0, 0, 0, 0, 0)
        + header(NAMES.index(b".text"), 1, 6, 64, text, 16)
        + header(NAMES.index(b".rodata"), 1, 2, rodata_at, rodata, 16)
        + header(NAMES.index(b".data"), 1, 3, data_at, data, 16)
        + header(NAMES.index(b".bss"), 8, 3, names_at, bss, 16)
        + header(NAMES.index(b".shstrtab"), 3, 0, names_at, len(NAMES), 1)
    )


if __name__ == "__main__":
    made = gap_object(*map(int, sys.argv[1:5]))
    print(len(made), hashlib.sha256(made).hexdigest())
    if len(sys.argv) > 5:
        with open(sys.argv[5], "wb") as file:
            file.write(made)
