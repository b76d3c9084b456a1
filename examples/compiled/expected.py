"""What relink is to answer for one object, by the tables of docs/formats.md and the rules of docs/definitions.md: its first flaw,
whether its link has a fault, and the image.

The program is compared with this second reading of the documents, which shares nothing with it and is written to be read.
"""

import hashlib
import os
import sys

sys.path.append(os.path.join(os.path.dirname(os.path.abspath(__file__)), "..", "order"))
import order

BASE = 0xFFFFFFFF81000000
PAGE = 4096
SPAN_LIMIT = 512 << 20
SIZE_LIMIT = 1 << 30

NULL, PROGBITS, SYMTAB, STRTAB, RELA, NOTE, NOBITS, REL = 0, 1, 2, 3, 4, 7, 8, 9
INIT_ARRAY, FINI_ARRAY, GROUP, UNWIND = 14, 15, 17, 0x70000001
WRITE, ALLOC, EXECINSTR, TLS, COMPRESSED, EXCLUDE = 1, 2, 4, 0x400, 0x800, 0x80000000
UNDEF, ABS, COMMON = 0, 0xFFF1, 0xFFF2
LOCAL, GLOBAL, WEAK = 0, 1, 2
WIDTHS = {0: 0, 1: 8, 2: 4, 4: 4, 9: 4, 10: 4, 11: 4, 12: 2, 13: 2, 14: 1, 15: 1, 24: 8, 41: 4, 42: 4}
PRIORITIES = (b".init_array.", b".fini_array.", b".ctors.", b".dtors.")
SLOT_TYPES = (9, 41, 42)
RELATIVE_TYPES = (2, 4, 13, 15, 24)
# The widths of values that have a sign, that have none, and that may have one.
SIGNED = {2: 32, 4: 32, 9: 32, 11: 32, 13: 16, 15: 8, 41: 32, 42: 32}
UNSIGNED = {10: 32}
EITHER = {12: 16, 14: 8}
# The classes in order, each with the areas that stand behind its ordinary pieces, and the permission of its header.
CLASSES = {
    "text": ((b".init", b".fini"), 5),
    "rodata": ((b".eh_frame",), 4),
    "data": ((b".ctors", b".dtors", b".init_array", b".fini_array"), 6),
    "bss": ((), 6),
}
AREA_TYPES = {INIT_ARRAY: b".init_array", FINI_ARRAY: b".fini_array"}


class Flaw(Exception):
    """The first flaw of an object: its kind, and its place in the file."""

    def __init__(self, kind, at):
        super().__init__(f"{kind} {at}")


class LinkFault(Exception):
    """A fault of the link."""


class Record:
    """The fields of a record, by name, place and width."""

    def __init__(self, bytes_, place, fields):
        self.place = place
        for name, at, width in fields:
            setattr(self, name, number(bytes_, place + at, width))


EHDR = (
    ("kind", 16, 2), ("machine", 18, 2), ("version", 20, 4), ("shoff", 40, 8), ("ehsize", 52, 2),
    ("shentsize", 58, 2), ("shnum", 60, 2), ("shstrndx", 62, 2),
)
SHDR = (
    ("name", 0, 4), ("kind", 4, 4), ("flags", 8, 8), ("offset", 24, 8), ("size", 32, 8),
    ("link", 40, 4), ("info", 44, 4), ("align", 48, 8), ("entsize", 56, 8),
)
SYM = (("name", 0, 4), ("info", 4, 1), ("other", 5, 1), ("section", 6, 2), ("value", 8, 8), ("size", 16, 8))
RELOCATION = (("offset", 0, 8), ("kind", 8, 4), ("symbol", 12, 4), ("addend", 16, 8))


def number(bytes_, at, width):
    return int.from_bytes(bytes_[at:at + width], "little")


def is_alignment(n):
    return n in [1 << k for k in range(22)]


class Object:
    """An object without a flaw; making one of bytes that have a flaw raises the first."""

    def __init__(self, bytes_):
        self.bytes = bytes_
        self.read_table()
        self.read_sections()
        self.read_symbols()
        self.read_fields()
        self.read_groups()

    def text(self, table, place):
        """The text at a place of a string table; None where no zero byte of the table ends it."""
        if place >= table.size:
            return None
        end = self.bytes.find(b"\0", table.offset + place, table.offset + table.size)
        return None if end < 0 else self.bytes[table.offset + place:end]

    def has_kind(self, n, kind):
        return 0 < n < len(self.sections) and self.sections[n].kind == kind

    def read_table(self):
        b = self.bytes
        if len(b) < 64:
            raise Flaw("Head(Truncated)", len(b))
        for i, byte in enumerate(b"\x7fELF"):
            if b[i] != byte:
                raise Flaw("Head(Magic)", i)
        head = Record(b, 0, EHDR)
        for kind, good, at in (
            ("IdentClass", b[4] == 2, 4), ("IdentOrder", b[5] == 1, 5), ("IdentVersion", b[6] == 1, 6),
            ("FileType", head.kind == 1, 16), ("Machine", head.machine == 62, 18), ("FileVersion", head.version == 1, 20),
            ("HeadSize", head.ehsize == 64, 52), ("SectionSize", head.shentsize == 64, 58),
        ):
            if not good:
                raise Flaw(f"Head({kind})", at)
        if head.shnum == 0 and head.shoff != 0:
            raise Flaw("Unsupported(Extended)", 60)
        if head.shstrndx == 0xFFFF:
            raise Flaw("Unsupported(Extended)", 62)
        if head.shnum == 0:
            raise Flaw("SectionTable", 60)
        if head.shoff + 64 * head.shnum > len(b):
            raise Flaw("SectionTable", 40)
        self.sections = [Record(b, head.shoff + 64 * n, SHDR) for n in range(head.shnum)]
        self.sections[0].kind = NULL
        self.sections[0].flags = 0
        if not self.has_kind(head.shstrndx, STRTAB):
            raise Flaw("SectionTable", 62)
        self.names = self.sections[head.shstrndx]

    def read_sections(self):
        for s in self.sections[1:]:
            if s.kind not in (NULL, NOBITS) and s.offset + s.size > len(self.bytes):
                raise Flaw("SectionRange", s.place + 24)
        for s in self.sections[1:]:
            s.text = b"" if s.kind == NULL else self.text(self.names, s.name)
            if s.text is None:
                raise Flaw("NameRange", s.place)
            if not s.flags & ALLOC:
                continue
            if s.flags & TLS:
                raise Flaw("Unsupported(Tls)", s.place + 8)
            if s.flags & COMPRESSED:
                raise Flaw("Unsupported(Compressed)", s.place + 8)
            if s.flags & WRITE and s.flags & EXECINSTR:
                raise Flaw("Unsupported(WriteExecute)", s.place + 8)
            if s.kind not in (PROGBITS, NOTE, NOBITS, INIT_ARRAY, FINI_ARRAY, UNWIND):
                raise Flaw("Unsupported(SectionType)", s.place + 4)
            if s.text.startswith(PRIORITIES):
                raise Flaw("Unsupported(Priority)", s.place)
            if s.align != 0 and not is_alignment(s.align):
                raise Flaw("Align", s.place + 48)
            if s.size > SIZE_LIMIT:
                raise Flaw("SectionRange", s.place + 32)

    def read_symbols(self):
        self.symbols = []
        tables = [s for s in self.sections[1:] if s.kind == SYMTAB]
        if len(tables) > 1:
            raise Flaw("SymbolTable", tables[1].place + 4)
        if not tables:
            return
        table = tables[0]
        if table.size == 0 or table.size % 24:
            raise Flaw("SymbolTable", table.place + 32)
        if table.entsize != 24:
            raise Flaw("SymbolTable", table.place + 56)
        if not self.has_kind(table.link, STRTAB):
            raise Flaw("SymbolTable", table.place + 40)
        count = table.size // 24
        if table.info == 0 or table.info > count:
            raise Flaw("SymbolTable", table.place + 44)
        zero = Record(bytes(24), 0, SYM)
        zero.binding, zero.kind, zero.text = LOCAL, 0, b""
        self.symbols.append(zero)
        for n in range(1, count):
            self.symbols.append(self.read_symbol(n, table))

    def read_symbol(self, n, table):
        y = Record(self.bytes, table.offset + 24 * n, SYM)
        y.binding, y.kind, y.visibility = y.info >> 4, y.info & 15, y.other & 3
        y.text = self.text(self.sections[table.link], y.name)
        if y.text is None or (y.binding != LOCAL and y.text == b""):
            raise Flaw("NameRange", y.place)
        if (y.binding == LOCAL) != (n < table.info):
            raise Flaw("SymbolTable", y.place + 4)
        if y.binding > 2:
            raise Flaw("Unsupported(Binding)", y.place + 4)
        if y.kind == 6:
            raise Flaw("Unsupported(Tls)", y.place + 4)
        if y.kind == 10:
            raise Flaw("Unsupported(Ifunc)", y.place + 4)
        if y.kind > 5:
            raise Flaw("Unsupported(SymbolType)", y.place + 4)
        if y.section == 0xFFFF:
            raise Flaw("Unsupported(Extended)", y.place + 6)
        if y.section not in (ABS, COMMON) and (y.section >= 0xFF00 or y.section >= len(self.sections)):
            raise Flaw("SymbolSection", y.place + 6)
        if y.binding == LOCAL and y.section in (0, COMMON):
            raise Flaw("SymbolSection", y.place + 6)
        if y.section == COMMON and not is_alignment(y.value):
            raise Flaw("Align", y.place + 8)
        if 0 < y.section < 0xFF00 and y.value > SIZE_LIMIT:
            raise Flaw("SymbolSection", y.place + 8)
        if y.section == COMMON and y.size > SIZE_LIMIT:
            raise Flaw("SymbolSection", y.place + 16)
        return y

    def read_fields(self):
        self.fields = []
        taken = set()
        for s in self.sections[1:]:
            if s.kind not in (RELA, REL):
                continue
            if s.info >= len(self.sections):
                raise Flaw("RelaLink", s.place + 44)
            target = self.sections[s.info]
            if not target.flags & ALLOC:
                continue
            if s.kind == REL:
                raise Flaw("RelaKindForm", s.place + 4)
            if target.kind == NOBITS:
                raise Flaw("RelaLink", s.place + 44)
            if not self.has_kind(s.link, SYMTAB):
                raise Flaw("RelaLink", s.place + 40)
            if s.entsize != 24:
                raise Flaw("RelaLink", s.place + 56)
            if s.size % 24:
                raise Flaw("RelaLink", s.place + 32)
            for place in range(s.offset, s.offset + s.size, 24):
                f = Record(self.bytes, place, RELOCATION)
                f.section = s.info
                f.width = WIDTHS.get(f.kind, 0)
                if f.symbol >= len(self.symbols):
                    raise Flaw("RelaLink", f.place + 8)
                if f.offset + f.width > target.size:
                    raise Flaw("RelaPlace", f.place)
                mine = {(s.info, byte) for byte in range(f.offset, f.offset + f.width)}
                if mine & taken:
                    raise Flaw("FieldOverlap", f.place)
                taken |= mine
                self.fields.append(f)

    def read_groups(self):
        self.comdats = []
        grouped = set()
        for n, s in enumerate(self.sections):
            if n == 0 or s.kind != GROUP:
                continue
            if s.size < 4 or s.size % 4:
                raise Flaw("GroupForm", s.place + 32)
            if not self.has_kind(s.link, SYMTAB):
                raise Flaw("GroupForm", s.place + 40)
            if s.info == 0 or s.info >= len(self.symbols):
                raise Flaw("GroupForm", s.place + 44)
            flags = number(self.bytes, s.offset, 4)
            if flags > 1:
                raise Flaw("GroupForm", s.offset)
            members = []
            for place in range(s.offset + 4, s.offset + s.size, 4):
                member = number(self.bytes, place, 4)
                if member == 0 or member >= len(self.sections) or member == n or member in grouped:
                    raise Flaw("GroupForm", place)
                grouped.add(member)
                members.append(member)
            if flags == 1:
                self.comdats.append((self.signature(s.info), members))

    def signature(self, n):
        """The name of a group: that of its symbol, or of the section of a symbol of type SECTION."""
        y = self.symbols[n]
        return self.sections[y.section].text if y.kind == 3 and 0 < y.section < len(self.sections) else y.text

    def kept(self):
        """The numbers of the sections that are linked."""
        seen, removed = set(), set()
        for name, members in self.comdats:
            if name in seen:
                removed.update(members)
            seen.add(name)
        return [n for n, s in enumerate(self.sections) if s.flags & ALLOC and not s.flags & EXCLUDE and n not in removed]


def class_of(s):
    if s.flags & EXECINSTR:
        return "text"
    if not s.flags & WRITE:
        return "rodata"
    return "bss" if s.kind == NOBITS else "data"


def area_of(s):
    """The area in which a section stands, by its name or else by its type; None for an ordinary one."""
    areas = CLASSES[class_of(s)][0]
    for area in (s.text, AREA_TYPES.get(s.kind)):
        if area in areas:
            return area
    return None


class Kernel:
    """The kernel of one object, whose entry is a name; making one that has a fault raises it."""

    def __init__(self, read, entry, gaps):
        self.read = read
        self.gaps = dict(zip(CLASSES, gaps))
        self.addresses = {}
        self.parts = []  # class, address, size, bytes, padding before it
        self.loads = []  # class, start, end
        self.kept = read.kept()
        self.name_symbols()
        if entry not in self.definitions:
            raise LinkFault("NoEntry")
        self.find_targets()
        self.place()
        if self.loads[-1][2] - BASE > SPAN_LIMIT:
            raise LinkFault("Span")
        self.write(entry)

    def name_symbols(self):
        """Where each name leads: to its GLOBAL definition, its common, or its first WEAK definition."""
        globals_, commons, weaks = {}, {}, {}
        for y in self.read.symbols:
            if y.binding == LOCAL:
                continue
            if y.section == COMMON:
                size, align = commons.get(y.text, (0, 1))
                commons[y.text] = max(size, y.size), max(align, y.value)
            elif y.section == ABS or y.section in self.kept:
                if y.binding == GLOBAL and y.text in globals_:
                    raise LinkFault("Doubled")
                (globals_ if y.binding == GLOBAL else weaks).setdefault(y.text, self.own_target(y))
        self.commons = [(name, *form) for name, form in commons.items() if name not in globals_]
        named = {name: ("common " + str(k), 0) for k, (name, _, _) in enumerate(self.commons)}
        self.definitions = {**weaks, **named, **globals_}

    def own_target(self, y):
        """The target of a symbol that has a section, or is absolute: a piece and the offset in it, or "absolute" and the value."""
        return ("absolute", y.value) if y.section == ABS else (y.section, y.value)

    def target(self, f):
        """What a field leads to; None where that is nothing at all."""
        y = self.read.symbols[f.symbol]
        if f.symbol == 0:
            return "absolute", 0
        if y.binding != LOCAL:
            if y.text in self.definitions:
                return self.definitions[y.text]
            if y.binding == WEAK:
                return "zero", 0
            raise LinkFault("Undefined")
        if y.section == ABS or y.section in self.kept:
            return self.own_target(y)
        if self.read.sections[f.section].text == b".eh_frame":
            return None
        raise LinkFault("Removed")

    def find_targets(self):
        """The fields that are linked, each with its target, and the targets that need eight bytes in the table."""
        self.fields, self.slots = [], []
        for f in self.read.fields:
            if f.section not in self.kept or f.kind == 0:
                continue
            if f.kind not in WIDTHS:
                raise LinkFault("Kind")
            target = self.target(f)
            self.fields.append((f, target))
            if f.kind in SLOT_TYPES and target is not None and target not in self.slots:
                self.slots.append(target)

    def place(self):
        """Lays out the classes, one behind the other."""
        at = BASE
        for name, (areas, _) in CLASSES.items():
            at = up(at, PAGE)
            mine = [n for n in self.kept if class_of(self.read.sections[n]) == name]
            padding = b"\xcc" if name == "text" else b"\0"
            for area in (None, *areas):
                inner = padding
                for n in mine:
                    s = self.read.sections[n]
                    if area_of(s) == area:
                        bytes_ = None if s.kind == NOBITS else self.read.bytes[s.offset:s.offset + s.size]
                        at = self.put(name, n, at, max(s.align, 1), s.size, bytes_, inner)
                        inner = b"\x90" if area in (b".init", b".fini") else padding
                if area is None:
                    # the gap stands behind the object, which is the head
                    gap = self.gaps[name]
                    at = self.put(name, "gap", at, 16, gap, padding * gap, padding)
            if name == "rodata" and self.slots:
                at = self.put(name, "table", at, 8, 8 * len(self.slots), None, padding)
            if name == "bss":
                for k, (_, size, align) in enumerate(self.commons):
                    at = self.put(name, "common " + str(k), at, align, size, None, padding)
            start = next((part[1] for part in self.parts if part[0] == name), at)
            self.loads.append((name, start, at))

    def put(self, name, key, at, align, size, bytes_, padding):
        """Puts a part of a class at the next place that its alignment divides, and answers its end."""
        self.addresses[key] = up(at, align)
        self.parts.append((name, self.addresses[key], size, bytes_, padding))
        return self.addresses[key] + size

    def address(self, target):
        """The psABI's S of a target."""
        where, value = target
        return value if where in ("absolute", "zero") else self.addresses[where] + value

    def write(self, entry):
        """The bytes of the file."""
        loads = [load for load in self.loads if load[2] > load[1]]
        ends = [end for name, _, end in loads if name != "bss"]
        memory = bytearray(ends[-1] - BASE if ends else 0)
        for name, start, end in loads:
            if name != "bss":
                self.fill(memory, name, start)
        for k, target in enumerate(self.slots):
            place = self.addresses["table"] + 8 * k - BASE
            memory[place:place + 8] = (self.address(target) % 2**64).to_bytes(8, "little")
        for f, target in self.fields:
            place = self.addresses[f.section] + f.offset
            value = 0 if target is None else self.value(f, target, place)
            memory[place - BASE:place - BASE + f.width] = value.to_bytes(8, "little")[:f.width]
        headers = b""
        for name, start, end in loads:
            size = end - start
            words = (PAGE + start - BASE, start, start, 0 if name == "bss" else size, size, PAGE)
            headers += b"".join(n.to_bytes(4, "little") for n in (1, CLASSES[name][1]))
            headers += b"".join(n.to_bytes(8, "little") for n in words)
        numbers = (
            (2, 2), (62, 2), (1, 4), (self.address(self.definitions[entry]) % 2**64, 8), (64 if loads else 0, 8), (0, 8),
            (0, 4), (64, 2), (56, 2), (len(loads), 2), (0, 2), (0, 2), (0, 2),
        )
        self.told = len(self.kept) + len(self.commons), len(self.fields)
        image = b"\x7fELF\x02\x01\x01" + bytes(9) + b"".join(n.to_bytes(width, "little") for n, width in numbers) + headers
        self.image = image.ljust(PAGE, b"\0") + bytes(memory) if ends else image

    def fill(self, memory, name, start):
        """Puts the pieces of a class and the padding between them."""
        at = start
        for of, address, size, bytes_, padding in self.parts:
            if of != name:
                continue
            memory[at - BASE:address - BASE] = padding * (address - at)
            if bytes_ is not None:
                memory[address - BASE:address - BASE + size] = bytes_
            at = address + size

    def value(self, f, target, place):
        """The value of a field, modulo 2^64."""
        s = self.addresses["table"] + 8 * self.slots.index(target) if f.kind in SLOT_TYPES else self.address(target)
        v = (s + f.addend - (place if f.kind in SLOT_TYPES + RELATIVE_TYPES else 0)) % 2**64
        signed, unsigned, either = SIGNED.get(f.kind), UNSIGNED.get(f.kind), EITHER.get(f.kind)
        if (
            signed and not (v < 2**(signed - 1) or v >= 2**64 - 2**(signed - 1))
            or unsigned and v >= 2**unsigned
            or either and not (v < 2**either or v >= 2**64 - 2**(either - 1))
        ):
            raise LinkFault("Range")
        return v


def up(n, align):
    return (n + align - 1) // align * align


FAULTS = {"Undefined": 1, "Doubled": 2, "Kind": 3, "Range": 4, "Removed": 7, "NoEntry": 8, "Span": 10}


def expected(bytes_, entry, seed):
    """The status of a link of the object alone, as the kit's fourth line, a word on why, the image, and how the line begins that is
    written to standard output."""
    try:
        kernel = Kernel(Object(bytes_), entry, order.gaps(seed, b"/bsd"))
    except Flaw as flaw:
        return 13, str(flaw), None, b"relink: object 0 line 4\n"
    except LinkFault as fault:
        return 14, str(fault), None, b"relink: link fault %d " % FAULTS[str(fault)]
    pieces, fields = kernel.told
    digest = hashlib.sha256(kernel.image).hexdigest()
    line = f"/kit linked pieces {pieces} fields {fields} bytes {len(kernel.image)} sha256 {digest}\n"
    return 0, "linked", kernel.image, line.encode()
