"""compare.py RELINK OBJECTS KIT: runs RELINK on each object of the folder OBJECTS, whole, cut and changed, in the place of the kit's
object, and compares its status, its image and the files of the kit with what expected.py reads in the object."""

import collections
import os
import random
import subprocess
import sys
import tempfile
from concurrent.futures import ThreadPoolExecutor

import expected

CUTS, CHANGES = 24, 72
NAMES = {0: "linked", 13: "with a flaw", 14: "refused by the linker"}
SCRATCH = ".relink"
SEED = bytes(range(32))


def fields(bytes_):
    """The places and widths of the fields of the headers and tables that stand in an object, as far as they lie in it."""
    places = [(at, width) for _, at, width in expected.EHDR]
    shoff, count = expected.number(bytes_, 40, 8), expected.number(bytes_, 60, 2)
    for n in range(count):
        header = shoff + 64 * n
        places += [(header + at, width) for _, at, width in expected.SHDR]
        kind, offset, size = (expected.number(bytes_, header + at, width) for at, width in ((4, 4), (24, 8), (32, 8)))
        table = {2: (expected.SYM, 24), 4: (expected.RELOCATION, 24), 17: ((("word", 0, 4),), 4)}.get(kind)
        if table:
            places += [(at + p, w) for at in range(offset, offset + size, table[1]) for _, p, w in table[0]]
    return [(at, width) for at, width in places if at + width <= len(bytes_)]


def variants(name, bytes_):
    """The object whole, cut to lengths that are near the ends of its parts or drawn, and with a field or two changed."""
    draw = random.Random(name)
    yield "whole", bytes_
    if len(bytes_) < 64 or bytes_[:4] != b"\x7fELF":
        return
    lengths = set(draw.sample(range(len(bytes_)), min(CUTS, len(bytes_)))) | {0, 63, 64, len(bytes_) - 1}
    for length in sorted(lengths):
        yield f"cut to {length}", bytes_[:length]
    places = fields(bytes_)
    for _ in range(CHANGES):
        changed = bytearray(bytes_)
        words = []
        for at, width in draw.sample(places, draw.choice((1, 1, 2))):
            old = expected.number(bytes_, at, width)
            new = draw.choice((0, 1, len(bytes_), 2**64 - 1, old + 1, old - 1, old ^ 1 << draw.randrange(8 * width)))
            changed[at:at + width] = (new % 256**width).to_bytes(width, "little")
            words.append(f"{new % 256**width:#x} at {at}")
        yield ", ".join(words), bytes(changed)


def files(kit):
    return {name: open(os.path.join(kit, name), "rb").read() for name in os.listdir(kit)}


def is_told(said, status):
    """Whether standard error has what is told of a status: nothing of 0, and else one line of the kit or its object."""
    if status == 0:
        return said == b""
    lines = said.split(b"\n")
    return len(lines) == 2 and lines[0].startswith(b"relink: ") and b"/kit/" in lines[0] and lines[0].isascii()


def try_object(relink, conf, entry, bytes_):
    """What is wrong with relink's answer to the object, if anything, and the expected status."""
    status, why, image, line = expected.expected(bytes_, entry, SEED)
    with tempfile.TemporaryDirectory() as folder:
        kit = os.path.join(folder, "kit")
        os.mkdir(kit)
        given = {"link.conf": conf, "kernel.o": bytes_}
        for name, content in given.items():
            with open(os.path.join(kit, name), "wb") as file:
                file.write(content)
        run = subprocess.run([relink, "link", "/kit", "--seed", SEED.hex()], cwd=folder, capture_output=True, timeout=60)
        left = files(kit)
        others = os.listdir(folder) != ["kit"]
    wrong = []
    if run.returncode != status:
        wrong.append(f"status {run.returncode}, and not {status}: {why}")
    lined = run.stdout.startswith(line) and run.stdout.endswith(b"\n") if status == 14 else run.stdout == line
    if not lined or not is_told(run.stderr, status):
        wrong.append(f"it printed {run.stdout + run.stderr!r}")
    if others or {name: left[name] for name in left if not name.endswith(SCRATCH)} != given:
        wrong.append("it changed a file that is not its own")
    if run.returncode == 0 and status == 0 and left.get("linked.relink") != image:
        wrong.append("the image differs")
    return "; ".join(wrong), status


def main():
    relink, objects, kit = sys.argv[1:]
    conf = files(kit)["link.conf"]
    entry = conf.split(b"\n")[2].split(b" ")[1]
    counts, failures = collections.Counter(), 0
    with ThreadPoolExecutor(4) as pool:
        for name in sorted(name for name in os.listdir(objects) if name.endswith(".o")):
            bytes_ = open(os.path.join(objects, name), "rb").read()
            tries = list(variants(name, bytes_))
            answers = pool.map(lambda t: try_object(relink, conf, entry, t[1]), tries)
            for (what, _), (wrong, status) in zip(tries, answers):
                counts[status] += 1
                if what == "whole":
                    print(f"{name}: {status}, {NAMES[status]}")
                if wrong:
                    failures += 1
                    print(f"{name}, {what}: {wrong}", file=sys.stderr)
    print(", ".join(f"{counts[status]} {NAMES[status]}" for status in sorted(counts)))
    if failures:
        sys.exit(f"{failures} answers differ")


main()
