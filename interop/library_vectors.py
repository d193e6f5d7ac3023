#!/usr/bin/python3
"""Runs the conformance vectors of the reference library's profile over python-opentimestamps.

    interop/library_vectors.py [FILE..]

Of vectors/ it takes proofs (whether the library reads them, and whether the items are the same), canonical forms, joins and
verdicts (by the library's own objects), operations, and Merkle trees of calendars. Where the two differ on purpose, as
docs/FORMAT.md says, the difference is counted by its name; every other one is printed, and it ends with status 1 then. Where
the library is missing it says so and ends with 0. The library is Debian's python3-opentimestamps; it is run by hand.
"""

import glob
import io
import json
import os
import sys

try:
    from bitcoin.core import CBlockHeader
    from opentimestamps.core.notary import (BitcoinBlockHeaderAttestation, LitecoinBlockHeaderAttestation, PendingAttestation,
                                            VerificationError)
    from opentimestamps.core.op import (MsgValueError, OpAppend, OpHexlify, OpPrepend, OpReverse, OpRIPEMD160, OpSHA1, OpSHA256,
                                        UnaryOp)
    from opentimestamps.core.serialize import BytesSerializationContext, DeserializationError, StreamDeserializationContext
    from opentimestamps.core.timestamp import DetachedTimestampFile, Timestamp, make_merkle_tree
except ImportError as error:
    print(f'the library opentimestamps (Debian: python3-opentimestamps) is not here ({error}); nothing was compared')
    sys.exit(0)

import plain

TOP = os.path.dirname(os.path.dirname(os.path.abspath(__file__)))
OPS = {'sha1': OpSHA1, 'ripemd160': OpRIPEMD160, 'sha256': OpSHA256, 'append': OpAppend, 'prepend': OpPrepend,
       'reverse': OpReverse, 'hexlify': OpHexlify}
# What this project refuses and the library reads, by the fault that a vector has.
ON_PURPOSE = {'keccak': 'Keccak-256 is refused by name', 'non-minimal number': 'a number in a longer form is refused',
              'number too large': 'a number of 2^64 or more is refused', 'payload number': 'a height in a longer form is refused',
              'bad version': 'the version in a longer form is refused'}


def opened(data):
    return DetachedTimestampFile.deserialize(StreamDeserializationContext(io.BytesIO(data)))


def written(proof):
    out = BytesSerializationContext()
    proof.serialize(out)
    return out.getbytes()


def item(attestation):
    if isinstance(attestation, PendingAttestation):
        return f'pending {attestation.uri or "-"}'
    if isinstance(attestation, (BitcoinBlockHeaderAttestation, LitecoinBlockHeaderAttestation)):
        return f'{"bitcoin" if isinstance(attestation, BitcoinBlockHeaderAttestation) else "litecoin"} {attestation.height}'
    return f'unknown {attestation.TAG.hex()} {attestation.payload.hex() or "-"}'


def paths(timestamp, before=()):
    """The paths of a timestamp, each a tuple of words."""
    for attestation in timestamp.attestations:
        yield before + (item(attestation),)
    for op, after in timestamp.ops.items():
        word = op.TAG_NAME if isinstance(op, UnaryOp) else f'{op.TAG_NAME} {op[0].hex()}'
        yield from paths(after, before + (word,))


def listed(lines):
    """The paths of a listing, each a tuple of words."""
    path, found = [], []
    for line in lines[1:]:
        depth, _, words = line.partition(' ')
        del path[int(depth):]
        if words.split(' ')[0] in OPS:
            path.append(words)
        else:
            found.append(tuple(path) + (words,))
    return found


def proof(case):
    try:
        found = opened(bytes.fromhex(case['bytes']))
    except (DeserializationError, MsgValueError, ValueError, UnicodeDecodeError, RecursionError) as error:
        return ('agree', None) if 'fault' in case else ('DIFFER', f'the library refuses it: {error!r}')
    if 'fault' in case:
        return (ON_PURPOSE[case['fault']], None) if case['fault'] in ON_PURPOSE else ('DIFFER', f'the library reads it, here: {case["fault"]}')
    its, ours = list(paths(found.timestamp)), listed(case['listing'])
    if sorted(its) == sorted(ours):
        return 'agree', None
    # (the later of two equal operations takes the place of the earlier)
    if set(its) <= set(ours):
        return 'of equal siblings the library keeps the later', None
    return 'DIFFER', 'other paths'


def joined(data):
    """The library's own object of a proof, whose equal siblings are joined by its own merge."""
    return opened(data)


def rewritten(case):
    try:
        one = joined(bytes.fromhex(case['first']))
        if case['kind'] == 'merge':
            two = joined(bytes.fromhex(case['second']))
            if 'fault' in case:
                return ('agree', None) if one.timestamp.msg != two.timestamp.msg or one.file_hash_op != two.file_hash_op else ('DIFFER', 'one digest')
            one.timestamp.merge(two.timestamp)
        found = written(one)
    except (DeserializationError, MsgValueError, ValueError) as error:
        return 'DIFFER', f'{error!r}'
    if found == bytes.fromhex(case['result']):
        return 'agree', None
    result = set(paths(opened(bytes.fromhex(case['result'])).timestamp))
    return ('of equal siblings the library keeps the later', None) if set(paths(one.timestamp)) < result else ('DIFFER', 'another result')


def verify(case):
    found = opened(bytes.fromhex(case['proof']))
    target = bytes.fromhex(case['target'])
    if found.file_hash_op(target) != found.timestamp.msg:
        return ('agree', None) if case['verdict'] == 'no digest' else ('DIFFER', 'no digest')
    headers, best = bytes.fromhex(case['headers']), None
    for message, attestation in found.timestamp.all_attestations():
        if not isinstance(attestation, BitcoinBlockHeaderAttestation):
            continue
        at = attestation.height - case['first']
        if 0 <= at < len(headers) // 80 and (best is None or attestation.height < best[0]):
            try:
                time = attestation.verify_against_blockheader(message, CBlockHeader.deserialize(headers[80 * at:80 * at + 80]))
                best = attestation.height, time
            except VerificationError:
                pass
    said = f'yes block {best[0]} time {best[1]}' if best else 'no path'
    if said == case['verdict']:
        return 'agree', None
    if case['verdict'] == 'no digest':
        return 'DIFFER', said
    ends = [it for it in plain.read_proof(bytes.fromhex(case['proof']))[2] if it[0] == 'end']
    lost = len(list(found.timestamp.all_attestations())) < len({(it[1], it[2], k) for k, it in enumerate(ends)})
    return ('of equal siblings the library keeps the later', None) if lost else ('DIFFER', said)


def operation(case):
    argument = bytes.fromhex(case['argument'])
    try:
        op = OPS[case['operation']](argument) if argument else OPS[case['operation']]()
        said = op(bytes.fromhex(case['message'])).hex()
    except (MsgValueError, ValueError):
        return ('agree', None) if 'fault' in case else ('DIFFER', 'refused')
    if 'fault' in case:
        # (the library has no empty results: reversing nothing gives nothing)
        return ('an operation on no bytes is refused', None) if case['fault'] == 'empty' else ('DIFFER', said)
    return ('agree', None) if said == case['result'] else ('DIFFER', said)


def way(timestamp):
    """The operations from a leaf of a tree to its root."""
    while timestamp.ops:
        (op, timestamp), = timestamp.ops.items()
        yield [op.TAG_NAME, '' if isinstance(op, UnaryOp) else op[0].hex()]


def tree(case):
    leaves = [Timestamp(bytes.fromhex(case['leaves'][at:at + 64])) for at in range(0, len(case['leaves']), 64)]
    root = make_merkle_tree(leaves).msg.hex() if len(leaves) > 1 else leaves[0].msg.hex()
    path = list(way(leaves[case['index']]))
    return ('agree', None) if (root, path) == (case['root'], case['path']) else ('DIFFER', f'{root} {path}')


KINDS = {'proof': proof, 'canon': rewritten, 'merge': rewritten, 'verify': verify, 'operation': operation, 'calendar-tree': tree}


def main():
    counts, bad = {}, 0
    for name in sys.argv[1:] or sorted(glob.glob(os.path.join(TOP, 'vectors', '*.jsonl'))):
        with open(name, encoding='utf8') as file:
            for case in map(json.loads, file):
                word, why = KINDS[case['kind']](case) if case['kind'] in KINDS else ('passed over', None)
                counts[case['kind'], word] = counts.get((case['kind'], word), 0) + 1
                if word == 'DIFFER':
                    bad += 1
                    print(f'{case["kind"]}, {case["name"]}: {why}')
    for (kind, word), count in sorted(counts.items()):
        print(f'{count} {kind}: {word}')
    sys.exit(1 if bad else 0)


main()
