"""expected.py N SEED: the line that `relink generate N --seed SEED` is to write, by docs/formats.md: the kit that is made, its image under the
drawn order and gaps, and the digest. It shares nothing with the program."""

import hashlib
import os
import sys

sys.path.append(os.path.join(os.path.dirname(os.path.abspath(__file__)), "..", "order"))
import order

BASE, PAGE, OUTPUT = 0xFFFFFFFF81000000, 4096, b"/bsd"


def up(n, align):
    return -(-n // align) * align


def laid(start, sizes, align, gap):
    """The places of the parts of a class, of which the first is the head's and the gap stands behind it, and the end of the class."""
    places, at = [], start
    for number, size in enumerate(sizes):
        places.append(up(at, align))
        at = places[-1] + size
        if number == 0:
            at = up(at, 16) + gap
    return places, at


def text_size(k):
    return 16 + 16 * (k % 4)


def header(flags, start, end, in_file):
    size = end - start
    words = (PAGE + start - BASE, start, start, size if in_file else 0, size, PAGE)
    return b"".join(n.to_bytes(4, "little") for n in (1, flags)) + b"".join(n.to_bytes(8, "little") for n in words)


def image(count, seed):
    """The bytes of the image: code, the gap of rodata, the words of data, and the gap of bss, which has no bytes in the file."""
    sequence = [0] + [1 + k for k in order.order(seed, OUTPUT, count - 1)]
    gaps = order.gaps(seed, OUTPUT)
    places, text_end = laid(BASE, [text_size(k) for k in sequence], 16, gaps[0])
    text = dict(zip(sequence, places))
    rodata = up(text_end, PAGE)
    data = up(rodata + gaps[1], PAGE)
    places, data_end = laid(data, [8] * count, 8, gaps[2])
    words = dict(zip(sequence, places))
    bss = up(data_end, PAGE)
    memory = bytearray(b"\xcc" * (text_end - BASE)) + bytes(data_end - text_end)
    for k in range(count):
        distance = (text[(7 * k + 1) % count] - text[k] - 5) % 2**32
        code = b"\xe8" + distance.to_bytes(4, "little") + b"\x90" * (text_size(k) - 6) + b"\xc3"
        memory[text[k] - BASE:text[k] - BASE + len(code)] = code
        memory[words[k] - BASE:words[k] - BASE + 8] = text[k].to_bytes(8, "little")
    numbers = ((2, 2), (62, 2), (1, 4), (text[0], 8), (64, 8), (0, 8), (0, 4), (64, 2), (56, 2), (4, 2), (0, 2), (0, 2), (0, 2))
    front = b"\x7fELF\x02\x01\x01" + bytes(9) + b"".join(n.to_bytes(width, "little") for n, width in numbers)
    front += header(5, BASE, text_end, True) + header(4, rodata, rodata + gaps[1], True)
    front += header(6, data, data_end, True) + header(6, bss, bss + gaps[3], False)
    return front.ljust(PAGE, b"\0") + bytes(memory)


def main():
    count, seed = int(sys.argv[1]), bytes.fromhex(sys.argv[2])
    found = image(count, seed)
    digest = hashlib.sha256(found).hexdigest()
    print(f"generated {count} pieces {2 * count} fields {2 * count} bytes {len(found)} sha256 {digest}")


main()
