#!/usr/bin/python3
"""Compares `ots canon`, `merge` and `prune` with a plain canonicalisation of this program's own.

    interop/canonical.py

It works on trees of the reference library's operations and attestations, in which equal siblings stay apart, as
they stand in a file; the library itself joins them when it reads. Small random trees with many equal siblings,
and the large proofs of bench/canonical/proofs.py. For each large proof it prints the SHA-256 of each result.
Every output must be the same, byte for byte. It needs the built program (./run ots) and Debian's
python3-opentimestamps, is run by hand, and takes some six minutes on four processors with other work beside:
two seconds for the random trees, a minute for each of the proofs of 4 MiB with chains of long appends or of hashes,
two and a half for the one of 19,000 chains of hashes. All but some ten seconds of it is this script's own.
"""

import hashlib
import io
import os
import random
import subprocess
import sys
import tempfile

TOP = os.path.dirname(os.path.dirname(os.path.abspath(__file__)))
sys.path.insert(0, os.path.join(TOP, 'bench', 'canonical'))

from opentimestamps.core.notary import (BitcoinBlockHeaderAttestation, LitecoinBlockHeaderAttestation,
                                        PendingAttestation, TimeAttestation)
from opentimestamps.core.op import Op
from opentimestamps.core.serialize import BytesSerializationContext, StreamDeserializationContext
from proofs import FORK, HEADER, KINDS, made

PROGRAM = os.path.join(TOP, 'build', 'ots')
RANDOM_TREES = 500


# A node is the list of its items: attestations, and pairs of an operation and the node after it.

def read_node(ctx):
    items = []
    tag = ctx.read_bytes(1)
    while tag == FORK:
        items.append(read_item(ctx, ctx.read_bytes(1)))
        tag = ctx.read_bytes(1)
    items.append(read_item(ctx, tag))
    return items


def read_item(ctx, tag):
    if tag == b'\x00':
        return TimeAttestation.deserialize(ctx)
    op = Op.deserialize_from_tag(ctx, tag)
    return op, read_node(ctx)


def spelled(item):
    ctx = BytesSerializationContext()
    item.serialize(ctx)
    return ctx.getbytes()


def write_node(items, out):
    for at, item in enumerate(items):
        if at + 1 < len(items):
            out += FORK
        if isinstance(item, tuple):
            out += spelled(item[0])
            write_node(item[1], out)
        else:
            out += b'\x00' + spelled(item)


def order_of_op(op):
    return op.TAG, op[0] if len(op) else b''


def order_of_attestation(attestation):
    if isinstance(attestation, (BitcoinBlockHeaderAttestation, LitecoinBlockHeaderAttestation)):
        return attestation.TAG, attestation.height
    if isinstance(attestation, PendingAttestation):
        return attestation.TAG, attestation.uri.encode()
    return attestation.TAG, attestation.payload


def canonical(nodes):
    """The canonical node with the paths of all of these."""
    attestations = {}
    after = {}
    for items in nodes:
        for item in items:
            if isinstance(item, tuple):
                after.setdefault(order_of_op(item[0]), (item[0], []))[1].append(item[1])
            else:
                attestations.setdefault(order_of_attestation(item), item)
    return ([attestations[key] for key in sorted(attestations)] +
            [(after[key][0], canonical(after[key][1])) for key in sorted(after)])


def least_height(items):
    """The least Bitcoin height below a node, or None."""
    heights = []
    for item in items:
        if isinstance(item, tuple):
            heights.append(least_height(item[1]))
        elif isinstance(item, BitcoinBlockHeaderAttestation):
            heights.append(item.height)
    return min((height for height in heights if height is not None), default=None)


def pruned(nodes):
    """What is left of these nodes: the first path to the least height, or all."""
    form = canonical(nodes)
    height = least_height(form)
    return form if height is None else first_path(form, height)


def first_path(items, height):
    for item in items:
        if isinstance(item, tuple):
            if least_height(item[1]) == height:
                return [(item[0], first_path(item[1], height))]
        elif isinstance(item, BitcoinBlockHeaderAttestation) and item.height == height:
            return [item]
    raise AssertionError('no path')


def file_of(items):
    out = bytearray(HEADER)
    write_node(items, out)
    return bytes(out)


def tree_of(data):
    return read_node(StreamDeserializationContext(io.BytesIO(data[len(HEADER):])))


# ---- random trees

OPS = [b'\x02', b'\x08', b'\xf0\x01\x01', b'\xf0\x02\x01\x01', b'\xf0\x01\x02', b'\xf1\x01\x01', b'\xf2']
ATTESTATIONS = [b'\x00\x05\x88\x96\x0d\x73\xd7\x19\x01\x01' + bytes([height]) for height in (3, 5)] + [
    b'\x00\x06\x86\x9a\x0d\x73\xd7\x1b\x45\x01\x02', b'\x00\x83\xdf\xe3\x0d\x2e\xf9\x0c\x8e\x02\x01u',
    b'\x00\x01\x02\x03\x04\x05\x06\x07\x08\x01\x07']


def random_node(rng, depth):
    items = []
    for _ in range(rng.choice([1, 1, 2, 3, 4])):
        if depth == 0 or rng.randrange(3) == 0:
            items.append(rng.choice(ATTESTATIONS))
        else:
            items.append(rng.choice(OPS[:rng.choice([1, 3, 7])]) + random_node(rng, depth - 1))
    return b''.join(FORK + item for item in items[:-1]) + items[-1]


# ---- the program

def result(words):
    """The file that a command writes as its last word, or its refusal."""
    if os.path.exists(words[-1]):
        os.remove(words[-1])
    done = subprocess.run([PROGRAM, *words], stdout=subprocess.PIPE, check=False)
    if done.returncode != 0:
        sys.exit(f'ots {" ".join(words)}: status {done.returncode}, {done.stdout!r}')
    with open(words[-1], 'rb') as file:
        return file.read()


def expect(what, ours, theirs):
    if ours != theirs:
        sys.exit(f'{what}: ots wrote another file')


def compare(folder, what, first, second):
    """The three commands on a proof, and on it with another."""
    names = [os.path.join(folder, name) for name in ('first', 'second', 'out')]
    for name, data in zip(names, (first, second)):
        with open(name, 'wb') as file:
            file.write(data)
    one, other = tree_of(first), tree_of(second)
    results = {'canon': (result(['canon', names[0], names[2]]), file_of(canonical([one]))),
               'merge': (result(['merge', names[0], names[1], names[2]]), file_of(canonical([one, other]))),
               'prune': (result(['prune', names[0], names[2]]), file_of(pruned([one])))}
    for command, (ours, theirs) in results.items():
        expect(f'{what} {command}', ours, theirs)
    return {command: ours for command, (ours, _) in results.items()}


def main():
    if not os.access(PROGRAM, os.X_OK):
        sys.exit('build/ots is not there: ./run ots builds it')
    sys.setrecursionlimit(10_000)
    rng = random.Random(1)
    with tempfile.TemporaryDirectory() as folder:
        for number in range(RANDOM_TREES):
            first, second = (HEADER + random_node(rng, 4) for _ in range(2))
            compare(folder, f'random tree {number}', first, second)
        print(f'{RANDOM_TREES} random trees: no difference')
        for kind in KINDS:
            data = made(kind)
            for command, file in compare(folder, kind, data, data).items():
                print(kind, command, len(file), hashlib.sha256(file).hexdigest())


if __name__ == '__main__':
    main()
