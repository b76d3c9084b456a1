"""roomy.py KIT BASE OBJECT..: looks by readelf that a kit is roomy, as `IsRoomy` of crates/kl_model says it: its sections leave room in the span of an
image, and each relocation leads near its symbol. Such a kit is refused neither for its span nor for a range, whatever seed is drawn."""

import re
import subprocess
import sys

SPAN, GAPS, PAGES, NEAR, HIGH = 2**29, 2**20, 2**24, 2**30, 2**64 - 2**31


def output(*words):
    return subprocess.run(words, check=True, capture_output=True, text=True).stdout


def allocated(path):
    """The size and alignment of each allocated section, by its name."""
    row = r"^\s*\[\s*\d+\] (\S*)\s+[A-Z_]+\s+[0-9a-f]{16} [0-9a-f]+ ([0-9a-f]+) [0-9a-f]{2}\s+(\S*)\s+\d+\s+\d+\s+(\d+)$"
    found = re.findall(row, output("readelf", "-SW", path), re.M)
    return {name: (int(size, 16), int(align)) for name, size, flags, align in found if "A" in flags}


def relocations(path):
    """The section, the type, and the symbol's value and the addend together, of each relocation."""
    section = None
    for line in output("readelf", "-rW", path).split("\n"):
        if match := re.match(r"Relocation section '\.rela(\S+)'", line):
            section = match[1]
        elif match := re.match(r"[0-9a-f]{16}\s+[0-9a-f]{16} R_X86_64_(\S+)\s+([0-9a-f]{16}) .* ([+-]) ([0-9a-f]+)$", line):
            yield section, match[1], int(match[2], 16), int(match[3] + match[4], 16)


def is_near(kind, value, addend, base):
    if kind in ("64", "PC64"):
        return True
    if kind in ("PC32", "PLT32"):
        return abs(value + addend) <= NEAR
    if kind in ("GOTPCREL", "GOTPCRELX", "REX_GOTPCRELX"):
        return abs(addend) <= NEAR
    return kind == "32S" and base >= HIGH and HIGH - base <= value + addend <= NEAR


def main():
    kit, base, names = sys.argv[1], int(sys.argv[2], 16), sys.argv[3:]
    taken, count = GAPS + PAGES, 0
    for name in names:
        path = f"{kit}/{name}"
        sections = allocated(path)
        taken += sum(size + align for size, align in sections.values())
        for section, kind, value, addend in relocations(path):
            if section not in sections:
                continue
            if not is_near(kind, value, addend, base):
                sys.exit(f"{name}: a relocation {kind} in {section} isn't near: {value:#x} and {addend:#x}")
            taken += 8
            count += 1
    if taken > SPAN:
        sys.exit(f"the sections take {taken} bytes, and an image {SPAN} at most")
    print(f"the kit is roomy: {taken} bytes at most under every order, and {count} relocations near what they lead to")
    if not count:
        sys.exit("no relocation was found")


main()
