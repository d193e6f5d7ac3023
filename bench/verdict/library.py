"""The library's half of verdict.sh, which puts the folder of against_reference.py on its path.

    library.py make PROOF FOUND NONE    writes the proof and two tables of headers
    library.py judge TABLE PROOF        prints the verdict, and the microseconds of reading the proof, of
                                        verifying its attestations, and of verifying them in a walk that
                                        applies every operation anew

The library applies the operations as it reads, and keeps each message. `verdict` of ots_verdicts is given a
tree without them, as the last walk is.
"""

import hashlib
import random
import sys
import time

from against_reference import PATHS, read_file, sample
from bitcoin.core import CBlockHeader
from opentimestamps.core.notary import BitcoinBlockHeaderAttestation, VerificationError

# Which path's value stands as the root at which height. At 30,000 it is that of another height's path.
FOUND = {30_000: 20_000, 50_000: 50_000, 75_000: 75_000}
NONE = {30_000: 20_000}


def table(roots):
    """80 random bytes a height, with these roots at 36 to 67."""
    data = bytearray(random.Random(PATHS).randbytes(80 * PATHS))
    for height, path in roots.items():
        root = hashlib.sha256(bytes(32) + path.to_bytes(4, 'big')).digest()
        data[80 * height + 36:80 * height + 68] = root
    return bytes(data)


def write(path, data):
    with open(path, 'wb') as file:
        file.write(data)


def headers_in(path):
    with open(path, 'rb') as file:
        data = file.read()
    return [CBlockHeader.deserialize(data[at:at + 80]) for at in range(0, len(data), 80)]


def attestations_anew(stamp, message):
    """As `all_attestations` of the library, with each message computed anew."""
    for attestation in stamp.attestations:
        yield message, attestation
    for op, child in stamp.ops.items():
        yield from attestations_anew(child, op(message))


def verdict(attestations, headers):
    """The least height that is confirmed and its time, or None."""
    best = None
    for message, attestation in attestations:
        if not isinstance(attestation, BitcoinBlockHeaderAttestation):
            continue
        height = attestation.height
        if height >= len(headers):
            continue
        try:
            seconds = attestation.verify_against_blockheader(message, headers[height])
        except VerificationError:
            continue
        if best is None or height < best[0]:
            best = height, seconds
    return best


def timed(action):
    """What it answers, and the microseconds that it took."""
    start = time.perf_counter()
    answer = action()
    return answer, round(1e6 * (time.perf_counter() - start))


def judge(table_name, proof_name):
    # The proof comes before the table, whose objects would slow the library's reading.
    proof, reading = timed(lambda: read_file(proof_name))
    stamp = proof.timestamp
    headers = headers_in(table_name)
    best, verifying = timed(lambda: verdict(stamp.all_attestations(), headers))
    again, anew = timed(lambda: verdict(attestations_anew(stamp, stamp.msg), headers))
    if again != best:
        sys.exit(f'the two verdicts of the library differ: {best}, {again}')
    print('no path' if best is None else 'yes block %d time %d' % best)
    print(reading, verifying, anew)


def main():
    command, *words = sys.argv[1:]
    if command == 'make':
        for path, data in zip(words, [sample(range(PATHS)), table(FOUND), table(NONE)]):
            write(path, data)
    else:
        judge(*words)


if __name__ == '__main__':
    sys.setrecursionlimit(10000)
    main()
