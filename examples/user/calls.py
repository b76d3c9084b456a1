"""calls.py KIT BASE OBJECT..: looks by objdump where each call in the image of a kit leads, and compares with where its relocation asks
it to lead, by readelf of the objects and the map."""

import re
import subprocess
import sys


def output(*words):
    return subprocess.run(words, check=True, capture_output=True, text=True).stdout


def pieces(kit):
    """The address of each piece, by input and section."""
    with open(f"{kit}/linked.map.relink") as file:
        found = re.findall(r"^piece (\d+) (\d+) 0x([0-9a-f]+) ", file.read(), re.M)
    return {(int(i), int(s)): int(address, 16) for i, s, address in found}


def disassembled(kit, base):
    """Where each call or jump of the image leads, by its address."""
    text = output("objdump", "-D", "-b", "binary", "-m", "i386:x86-64", f"--adjust-vma={base - 4096:#x}", f"{kit}/linked.relink")
    found = re.findall(r"^\s*([0-9a-f]+):.*\t(?:call|jmp)\s+0x([0-9a-f]+)$", text, re.M)
    return {int(at, 16): int(to, 16) for at, to in found}


def symbols(path):
    """The value, binding, section and name of each symbol, by its number."""
    row = r"^ *(\d+): ([0-9a-f]+) +\S+ +\S+ +(\S+) +\S+ +(\d+|UND|ABS|COM) *(\S*)$"
    found = re.findall(row, output("readelf", "-sW", path), re.M)
    return {int(n): (int(value, 16), binding, section, name) for n, value, binding, section, name in found}


def calls(path):
    """The section, the place, the symbol's number and the addend of each field of the types PC32 and PLT32."""
    sections = {name: int(n) for n, name in re.findall(r"^\s*\[\s*(\d+)\] (\S+)", output("readelf", "-SW", path), re.M)}
    found, section = [], None
    for line in output("readelf", "-rW", path).split("\n"):
        if match := re.match(r"Relocation section '\.rela(\S+)'", line):
            section = sections[match[1]]
        elif match := re.match(r"([0-9a-f]{16})\s+([0-9a-f]{16}) R_X86_64_(?:PC32|PLT32)\s.* ([+-]) ([0-9a-f]+)$", line):
            found.append((section, int(match[1], 16), int(match[2], 16) >> 32, int(match[3] + match[4], 16)))
    return found


def main():
    kit, base, names = sys.argv[1], int(sys.argv[2], 16), sys.argv[3:]
    placed, leads = pieces(kit), disassembled(kit, base)
    tables = [symbols(f"{kit}/{name}") for name in names]
    defined = {}
    for i, table in enumerate(tables):
        for value, binding, section, name in table.values():
            if binding in ("GLOBAL", "WEAK") and section.isdigit() and (i, int(section)) in placed:
                defined.setdefault(name, placed[i, int(section)] + value)
    seen = 0
    for i, name in enumerate(names):
        for section, place, number, addend in calls(f"{kit}/{name}"):
            at = placed.get((i, section), 0) + place - 1
            if at not in leads:
                continue
            value, binding, home, symbol = tables[i][number]
            target = placed[i, int(home)] + value if binding == "LOCAL" else defined[symbol]
            if leads[at] != (target + addend + 4) % 2**64:
                sys.exit(f"{name}: the call at {at:#x} leads to {leads[at]:#x}, and not to {target + addend + 4:#x}")
            seen += 1
    print(f"{seen} calls and jumps lead to their functions")
    if not seen:
        sys.exit("no call was found")


main()
