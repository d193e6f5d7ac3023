#!/usr/bin/python3
"""Measures `ots` beside the reference library python-opentimestamps, each on the same proof of 100,000
paths, which the library wrote: 2,083,552 bytes. `canon` reads and writes it; `merge` joins its paths of
even height to those of odd height. Output goes to a file. It is run by hand, and needs Debian's
python3-opentimestamps and the built program (`./run ots`).

    bench/against_reference.py
"""

import io
import os
import subprocess
import sys
import tempfile
import time

from opentimestamps.core.notary import BitcoinBlockHeaderAttestation
from opentimestamps.core.op import OpAppend, OpSHA256
from opentimestamps.core.serialize import BytesSerializationContext, StreamDeserializationContext
from opentimestamps.core.timestamp import DetachedTimestampFile, Timestamp

TOP = os.path.dirname(os.path.dirname(os.path.abspath(__file__)))
PROGRAM = os.path.join(TOP, 'build', 'ots')
PATHS = 100_000
ROUNDS = 5


def sample(numbers):
    """The proof with these heights, as the library writes it."""
    stamp = Timestamp(bytes(32))
    for number in numbers:
        child = stamp.ops.add(OpAppend(number.to_bytes(4, 'big'))).ops.add(OpSHA256())
        child.attestations.add(BitcoinBlockHeaderAttestation(number))
    return serialized(DetachedTimestampFile(OpSHA256(), stamp))


def serialized(proof):
    ctx = BytesSerializationContext()
    proof.serialize(ctx)
    return ctx.getbytes()


def read_file(path):
    with open(path, 'rb') as file:
        return read(file.read())


def read(data):
    return DetachedTimestampFile.deserialize(StreamDeserializationContext(io.BytesIO(data)))


def walk(stamp, depth, out):
    for attestation in sorted(stamp.attestations):
        out.write(f'{depth} bitcoin {attestation.height}\n')
    for op, child in sorted(stamp.ops.items(), key=lambda item: item[0]):
        out.write(f'{depth} {op}\n')
        walk(child, depth + 1, out)


def best(action):
    """The least of some runs, in seconds."""
    times = []
    for _ in range(ROUNDS):
        start = time.perf_counter()
        action()
        times.append(time.perf_counter() - start)
    return min(times)


def main():
    data = sample(range(PATHS))
    with tempfile.TemporaryDirectory() as folder:
        def put(name, data):
            path = os.path.join(folder, name)
            with open(path, 'wb') as file:
                file.write(data)
            return path

        whole = put('whole.ots', data)
        parts = [put('even.ots', sample(range(0, PATHS, 2))), put('odd.ots', sample(range(1, PATHS, 2)))]
        ours, theirs = os.path.join(folder, 'ours'), os.path.join(folder, 'theirs')

        def ots_info():
            with open(ours, 'wb') as out:
                subprocess.run([PROGRAM, 'info', whole], stdout=out, check=True)

        def ots_writes(*words):
            if os.path.exists(ours):
                os.remove(ours)
            subprocess.run([PROGRAM, *words, ours], check=True)

        def library_info():
            with open(theirs, 'w', encoding='ascii') as out:
                walk(read_file(whole).timestamp, 0, out)

        def library_canon():
            put('theirs', serialized(read_file(whole)))

        def library_merge():
            first, second = map(read_file, parts)
            first.timestamp.merge(second.timestamp)
            put('theirs', serialized(first))

        def is_same():
            with open(ours, 'rb') as one, open(theirs, 'rb') as two:
                return one.read() == two.read()

        print(f'{PATHS} paths, {len(data)} bytes')
        for words, our_way, their_way in [
                ('info', ots_info, library_info),
                ('canon', lambda: ots_writes('canon', whole), library_canon),
                ('merge', lambda: ots_writes('merge', *parts), library_merge)]:
            a, b = best(our_way), best(their_way)
            print(f'{words}: ots {1000 * a:.0f} ms, the library {1000 * b:.0f} ms, {b / a:.1f} times')
            if words != 'info' and not is_same():
                sys.exit(f'{words}: the two outputs differ')


if __name__ == '__main__':
    sys.setrecursionlimit(10000)
    main()
