#!/usr/bin/python3
"""Writes a journal of so many commitments, all of them different, and where the third word is `anchored` a tip over
all of them and its anchor in a block of one transaction. A fourth word says how many anchors there are, each over as many.

    bench/calendar/journal.py FILE COUNT [anchored [ANCHORS]]

The values are made from their definitions by hashlib and struct.
"""

import hashlib
import struct
import sys


def sha256(data):
    return hashlib.sha256(data).digest()


def commitment(i):
    return struct.pack('>IQ', 1700000000, i) * 3 + bytes(8)


def root(hashes):
    """The root of a calendar's tree, level by level: an odd last part is lifted."""
    while len(hashes) > 1:
        above = [sha256(hashes[k] + hashes[k + 1]) for k in range(0, len(hashes) - 1, 2)]
        if len(hashes) % 2:
            above.append(hashes[-1])
        hashes = above
    return hashes[0]


def group(kind, payload):
    entry = bytes([kind]) + struct.pack('>I', len(payload)) + payload
    return b'\xa5' + struct.pack('>HI', 1, len(entry)) + entry


def anchor(out, first, count):
    """A tip over some of the commitments, and its anchor."""
    tip = root([sha256(commitment(i)) for i in range(first, first + count)])
    out.write(group(2, struct.pack('>QQ', first, count) + tip))
    prefix = bytes(4) + b'\1' + bytes(36) + b'\0' + bytes(4) + b'\1' + bytes(8) + b'\x22\x6a\x20'
    suffix = bytes(4)
    block = sha256(sha256(prefix + tip + suffix))
    out.write(group(3, struct.pack('>QQQ', first, count, 7) + block + struct.pack('>H', len(prefix)) + prefix
                    + struct.pack('>H', len(suffix)) + suffix + b'\0'))


def main():
    name, count = sys.argv[1], int(sys.argv[2])
    anchors = int((sys.argv[4:] or [1])[0]) if sys.argv[3:4] == ['anchored'] else 0
    part = count // max(anchors, 1)
    with open(name, 'wb') as out:
        out.write(b'OTSCAL\x02\n')
        for first in range(0, count, part):
            for i in range(first, min(first + part, count)):
                out.write(group(1, commitment(i)))
            if anchors:
                anchor(out, first, min(part, count - first))
        out.write(b'\0')


main()
