"""What a seed decides, by a second reading of the documents: the SHA-256 of its purpose, the ChaCha20 stream (RFC 8439) from that, the
shuffle of rand 0.9, and the sizes of the gaps. order.py SEED OUTPUT COUNT prints the order and the gaps."""

import hashlib
import struct
import sys

MASK = 0xFFFFFFFF


def quarter(s, a, b, c, d):
    for x, y, z, turn in ((a, b, d, 16), (c, d, b, 12), (a, b, d, 8), (c, d, b, 7)):
        s[x] = (s[x] + s[y]) & MASK
        s[z] ^= s[x]
        s[z] = (s[z] << turn | s[z] >> 32 - turn) & MASK


def words(key):
    """The words of the stream: blocks from 0 on, counted by 64 bits, and a nonce of zeros."""
    block = 0
    while True:
        start = [*struct.unpack("<4I", b"expand 32-byte k"), *struct.unpack("<8I", key), block & MASK, block >> 32, 0, 0]
        s = list(start)
        for _ in range(10):
            for column in ((0, 4, 8, 12), (1, 5, 9, 13), (2, 6, 10, 14), (3, 7, 11, 15)):
                quarter(s, *column)
            for diagonal in ((0, 5, 10, 15), (1, 6, 11, 12), (2, 7, 8, 13), (3, 4, 9, 14)):
                quarter(s, *diagonal)
        yield from ((x + y) & MASK for x, y in zip(s, start))
        block += 1


def below(bound, stream):
    """A number below a bound: the upper half of the product of a word and the bound, with a carry that a second word decides."""
    product = next(stream) * bound
    high, low = product >> 32, product & MASK
    if low > -bound & MASK and low + (next(stream) * bound >> 32) > MASK:
        high += 1
    return high


def shuffled(items, stream):
    """The shuffle of Fisher and Yates upwards; one draw serves as many indices as the product of their bounds has room in a word for."""
    chunk, left = 0, 1
    for n in range(len(items)):
        if left == 0:
            bound, left = n + 1, 1
            while bound * (n + 1 + left) <= MASK:
                bound, left = bound * (n + 1 + left), left + 1
            chunk = below(bound, stream)
        left -= 1
        chunk, index = (chunk, chunk) if left == 0 else divmod(chunk, n + 1)
        items[n], items[index] = items[index], items[n]
    return items


def sub_seed(seed, label, purpose):
    return hashlib.sha256(seed + b"\0" + label + b"\0" + purpose).digest()


def order(seed, label, count):
    return shuffled(list(range(count)), words(sub_seed(seed, label, b"order")))


def gaps(seed, label):
    stream = words(sub_seed(seed, label, b"gaps"))
    return [16 * (1 + next(stream) % 2**14) for _ in range(4)]


if __name__ == "__main__":
    seed, output, count = bytes.fromhex(sys.argv[1]), sys.argv[2].encode(), int(sys.argv[3])
    print("order", *order(seed, output, count))
    print("gaps", *gaps(seed, output))
