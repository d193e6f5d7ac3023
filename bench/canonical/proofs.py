"""Proofs that are made to hurt, within the limits of the format.

    proofs.py KIND FILE    writes the proof of this kind
    proofs.py              prints the kinds, one a line

`chains_*` is two long equal beginnings with many leaves in mixed order after each: whoever compares whole
paths compares the beginnings again for each leaf.
"""

import struct
import sys

MAGIC = b'\x00OpenTimestamps\x00\x00Proof\x00\xbf\x89\xe2\xe8\x84\xe8\x92\x94'
HEADER = MAGIC + b'\x01\x08' + 32 * b'\x03'
FORK = b'\xff'
SHA256 = b'\x08'
MIB = 1024 * 1024
# Heights are below 2^21, so that each leaf is as long.
HEIGHTS = 1_048_573


def leaf(height):
    """The attestation of this height of Bitcoin."""
    spelled = bytes([128 + height % 128, 128 + height // 128 % 128, 64 + height // 16_384 % 64])
    return b'\x00\x05\x88\x96\x0d\x73\xd7\x19\x01\x03' + spelled


def forked(items):
    """A node of these items, each with the node after it: a fork before each but the last."""
    return b''.join(FORK + item for item in items[:-1]) + items[-1]


def leaves(count, start, step):
    return forked([leaf((start + at * step) % HEIGHTS) for at in range(count)])


def twice(beginning, size, mixed):
    """Two equal beginnings with as many leaves as make a file of this size."""
    count = (size - len(HEADER) - 2 * len(beginning) - 8) // 28
    one = leaves(count, 1, 7919) if mixed else leaves(count, 7, 0)
    other = leaves(count, 500_000, 104_729) if mixed else leaves(count, 7, 0)
    return FORK + beginning + one + beginning + other


def appends(count):
    """So many times an append of 4064 bytes and SHA-256."""
    return count * (b'\xf0\xe0\x1f' + 4064 * b'\x55' + SHA256)


def wide(count, step, height=None):
    """So many paths: an append of the path's number, SHA-256, and a leaf."""
    numbers = [at * step % 100_003 if step > 1 else at for at in range(count)]
    return forked([b'\xf0\x04' + struct.pack('>I', number) + SHA256 + leaf(number if height is None else height)
                   for number in numbers])


def comb(levels):
    """At each of so many levels a leaf beside the way on."""
    return b''.join(FORK + leaf(at) + SHA256 for at in range(levels)) + leaf(1000)


KINDS = {
    'chains_256k': lambda: twice(appends(7), MIB // 4, True),
    'chains_1m': lambda: twice(appends(31), MIB, True),
    'chains_4m': lambda: twice(appends(125), 4 * MIB, True),
    'hashes_1m': lambda: twice(254 * SHA256, MIB, True),
    'hashes_4m': lambda: twice(254 * SHA256, 4 * MIB, True),
    'equal_heights_1m': lambda: wide(47_500, 1, 7),
    'equal_heights_4m': lambda: wide(190_000, 1, 7),
    'combs': lambda: FORK + SHA256 + comb(253) + SHA256 + comb(253),
    'hash_chains_1m': lambda: forked([200 * SHA256 + leaf(at * 7919 % HEIGHTS) for at in range(4_750)]),
    'hash_chains_4m': lambda: forked([200 * SHA256 + leaf(at * 7919 % HEIGHTS) for at in range(19_000)]),
    'in_order': lambda: wide(100_000, 1),
    'shuffled': lambda: wide(100_000, 70_001),
}


def made(kind):
    data = HEADER + KINDS[kind]()
    assert len(data) <= 4 * MIB, kind
    return data


def main():
    if len(sys.argv) == 1:
        print('\n'.join(KINDS))
        return
    kind, name = sys.argv[1:]
    with open(name, 'wb') as file:
        file.write(made(kind))


if __name__ == '__main__':
    main()
