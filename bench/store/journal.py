"""FILE ORDER THOUSANDS: a journal of so many thousand commitments, a thousand in a group. In `rising` order the first
four bytes of each are a second, one more than the last one's; in `shuffled` order all 44 are random."""

import random
import sys

name, order, thousands = sys.argv[1], sys.argv[2], int(sys.argv[3])
entry = bytes.fromhex("010000002c")
source = random.Random(1)
second = 1_700_000_000
with open(name, "wb") as out:
    out.write(b"OTSCAL\x02\n")
    for _ in range(thousands):
        group = bytearray(b"\xa5" + (1000).to_bytes(2, "big") + (1000 * 49).to_bytes(4, "big"))
        for _ in range(1000):
            second += 1
            prefix = second.to_bytes(4, "big") if order == "rising" else source.randbytes(4)
            group += entry + prefix + source.randbytes(40)
        out.write(group)
    out.write(b"\0")
