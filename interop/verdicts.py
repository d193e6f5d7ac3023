#!/usr/bin/python3
"""Compares the verdicts of `ots verify` with those of the reference library python-opentimestamps.

    interop/verdicts.py

It makes a file, a proof of it by the library's own classes, and tables of block headers of which some
have a path's value as their Merkle root, and runs `ots verify` on them. The answer is to be the least
height of Bitcoin that the library's `verify_against_blockheader` confirms, with the time that it gives,
and where there is none, the same of Litecoin. The library has no check for Litecoin, whose headers are
Bitcoin's in form; that of Bitcoin stands in for it.

It ends with status 1 on a difference. It is run by hand; the library is Debian's python3-opentimestamps.
"""

import random
import sys
import tempfile

from against_reference import HASHES, build, grow, nodes_of, ots, put, serialized, some_bytes
from bitcoin.core import CBlockHeader
from opentimestamps.core.notary import (BitcoinBlockHeaderAttestation, LitecoinBlockHeaderAttestation,
                                        VerificationError)
from opentimestamps.core.op import OpSHA256
from opentimestamps.core.timestamp import DetachedTimestampFile, Timestamp

COUNT = 2000
CHAINS = [BitcoinBlockHeaderAttestation, LitecoinBlockHeaderAttestation]


def some_proof(rng, target):
    """A proof of the target, with blocks of low heights among its attestations."""
    hash_op = rng.choice(HASHES)()
    stamp = Timestamp(hash_op(target))
    grow(rng, stamp, rng.choice([0, 1, 3, 6]))
    for _ in range(rng.choice([0, 1, 2, 5])):
        node = rng.choice(list(nodes_of(stamp)))
        if len(node.msg) != 32 or rng.randrange(4) == 0:
            node = node.ops.add(OpSHA256())
        node.attestations.add(rng.choice(CHAINS)(rng.randrange(8)))
    return DetachedTimestampFile(hash_op, stamp)


def some_table(rng, chain, stamp):
    """The height of a first header, and the headers. Some have the root that an attestation wants."""
    first = rng.choice([0, 0, 1, 5])
    table = []
    for height in range(first, first + rng.choice([1, 3, 8])):
        wanted = [msg for msg, a in stamp.all_attestations()
                  if isinstance(a, chain) and a.height == height and len(msg) == 32]
        # A root that is attested to another height, or to none, is to confirm nothing.
        others = [node.msg for node in nodes_of(stamp) if len(node.msg) == 32]
        root = some_bytes(rng, 32, 32)
        if wanted and rng.randrange(2) == 0:
            root = rng.choice(wanted)
        elif others and rng.randrange(4) == 0:
            root = rng.choice(others)
        table.append(CBlockHeader(rng.randrange(2 ** 31), some_bytes(rng, 32, 32), root,
                                  rng.randrange(2 ** 32), rng.randrange(2 ** 32), rng.randrange(2 ** 32)))
    return first, table


def least_confirmed(stamp, chain, first, table):
    """The least height that the library confirms, and the time that it gives."""
    confirmed = []
    for msg, attestation in stamp.all_attestations():
        if isinstance(attestation, chain) and first <= attestation.height < first + len(table):
            bitcoin = BitcoinBlockHeaderAttestation(attestation.height)
            try:
                time = bitcoin.verify_against_blockheader(msg, table[attestation.height - first])
            except VerificationError:
                continue
            confirmed.append((attestation.height, time))
    return min(confirmed, default=None)


def library_answer(proof, target, tables):
    """The status and the line that the library's verdict comes to."""
    if proof.file_hash_op(target) != proof.file_digest:
        return 1, 'no digest\n'
    for words, chain, table in zip(['yes block', 'yes litecoin block'], CHAINS, tables):
        found = table and least_confirmed(proof.timestamp, chain, *table)
        if found:
            return 0, f'{words} {found[0]} time {found[1]}\n'
    return 1, 'no path\n'


def main():
    sys.setrecursionlimit(10000)
    build()
    rng = random.Random(20261127)
    answers = {}
    with tempfile.TemporaryDirectory() as folder:
        for number in range(COUNT):
            target = some_bytes(rng, 0, rng.choice([0, 20, 300]))
            proof = some_proof(rng, target)
            tables = [some_table(rng, CHAINS[0], proof.timestamp), None]
            if rng.randrange(2) == 0:
                tables[1] = some_table(rng, CHAINS[1], proof.timestamp)
            if rng.randrange(10) == 0:
                target += b'x'
            words = [put(folder, 'file', target), put(folder, 'file.ots', serialized(proof))]
            for name, option, table in zip(['headers', 'litecoin'], ['--from', '--litecoin-from'], tables):
                if table:
                    path = put(folder, name, b''.join(header.serialize() for header in table[1]))
                    words += [path] if name == 'headers' else ['--litecoin', path]
                    words += [option, str(table[0])]
            ours, theirs = ots('verify', *words), library_answer(proof, target, tables)
            if ours != theirs:
                print(f'verdict {number}: {ours} against {theirs}, on {serialized(proof).hex()}')
                sys.exit(1)
            kind = theirs[1].split(' block')[0].strip()
            answers[kind] = answers.get(kind, 0) + 1
    told = ', '.join(f'{kind} {times}' for kind, times in sorted(answers.items()))
    print(f'verify: {COUNT} verdicts compared, no difference ({told})')


if __name__ == '__main__':
    main()
