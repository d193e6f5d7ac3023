#!/usr/bin/python3
"""Compares blocks as `ots_block` reads them with those of python-bitcoinlib.

    interop/blocks.py [whole | changed | cut | segwit]

whole    makes 2,000 blocks by the library's own classes, with and without witnesses, and compares the ids of
         their transactions and their Merkle roots with the library's
changed  changes a byte of 2,000 such blocks, and compares the same, and whether they are blocks at all, with what
         the library's reader says; each way in which the two differ on purpose is counted by name
cut      cuts such blocks, at some of them one byte longer, and compares the place that is told with the fields
         of the library's objects
segwit   prints the block that the tests have, its ids and its stripped transactions

Without a word it does the first three. It ends with status 1 on a difference. Where the library is missing it says
so and ends with status 0. It needs rt, and is run by hand; the library is Debian's python3-bitcoinlib. The program
is built in a folder of its own, outside the repository, from interop/blocks/main.rt.in. The three comparisons take some
20 seconds on four processors with other work beside (this script's part was measured: 7 for whole, 6 for changed, 4 for
cut). Before them rt proves ots_block and the crates below it in that folder, which takes longer and was not measured.
"""

import collections
import os
import random
import shutil
import struct
import subprocess
import sys
import tempfile

try:
    from bitcoin.core import (CBlock, COutPoint, CTransaction, CTxIn, CTxInWitness, CTxOut, CTxWitness)
    from bitcoin.core.script import CScript, CScriptWitness
    from bitcoin.core.serialize import SerializationError, VarIntSerializer
except ImportError:
    print('the library bitcoin (Debian: python3-bitcoinlib) is not here; nothing was compared')
    sys.exit(0)

TOP = os.path.dirname(os.path.dirname(os.path.abspath(__file__)))
CRATES = ['ots_base', 'ots_outside', 'ots_varint', 'ots_ripemd', 'ots_ops', 'ots_merkle', 'ots_headers', 'ots_block']
COUNT = 2000


def build(work):
    """Builds the program in this folder, and answers its path."""
    lines = {line.split(':')[0].split()[0]: line
             for line in open(os.path.join(TOP, 'crates.txt'), encoding='utf8') if line[0] not in '#\n'}
    with open(os.path.join(work, 'crates.txt'), 'w', encoding='utf8') as out:
        out.writelines(lines[name] for name in CRATES)
        out.write('blocks: ots_block ots_headers ots_merkle hex anyhow\n')
    for name in CRATES:
        shutil.copytree(os.path.join(TOP, 'crates', name), os.path.join(work, 'crates', name),
                        ignore=shutil.ignore_patterns('out'))
    made = os.path.join(work, 'crates', 'blocks')
    os.makedirs(os.path.join(made, 'src'))
    os.makedirs(os.path.join(made, 'specs'))
    shutil.copy(os.path.join(TOP, 'interop', 'blocks', 'main.rt.in'), os.path.join(made, 'src', 'main.rt'))
    open(os.path.join(made, 'specs', 'Lib.antt'), 'w', encoding='utf8').close()
    done = subprocess.run(['rt', 'run', '--', '/dev/null'], cwd=made, stdin=subprocess.DEVNULL,
                          stdout=subprocess.PIPE, stderr=subprocess.STDOUT, check=False)
    program = os.path.join(made, 'out', 'blocks')
    if not os.access(program, os.X_OK):
        sys.exit(done.stdout.decode(errors='replace'))
    return program


def ours(program, blocks):
    """A line of words for each of these blocks."""
    with tempfile.NamedTemporaryFile() as file:
        for block in blocks:
            file.write(struct.pack('>I', len(block)) + block)
        file.flush()
        done = subprocess.run([program, file.name], stdin=subprocess.DEVNULL, stdout=subprocess.PIPE, check=True)
    return [line.split() for line in done.stdout.decode().splitlines()]


# ---- the library's blocks

def some_bytes(rng, least, most):
    return rng.randbytes(rng.randint(least, most))


def some_length(rng):
    """Mostly short, some of three bytes of length, few of five."""
    kind = rng.randrange(40)
    if kind == 0:
        return rng.choice([65535, 65536, 70000])
    if kind < 6:
        return rng.choice([252, 253, 254, 255, 256, 300, 1000])
    return rng.randrange(40)


def some_transaction(rng):
    inputs = [CTxIn(COutPoint(some_bytes(rng, 32, 32), rng.randrange(2 ** 32)), CScript(rng.randbytes(some_length(rng))),
                    rng.randrange(2 ** 32)) for _ in range(rng.choice([1, 1, 1, 2, 3, 8]))]
    outputs = [CTxOut(rng.randrange(2 ** 62), CScript(rng.randbytes(some_length(rng))))
               for _ in range(rng.choice([0, 1, 1, 2, 2, 5]))]
    witness = CTxWitness()
    if rng.randrange(2):
        witness = CTxWitness([CTxInWitness(CScriptWitness([rng.randbytes(some_length(rng))
                                                           for _ in range(rng.choice([0, 1, 2, 3]))]))
                              for _ in inputs])
    return CTransaction(inputs, outputs, rng.randrange(2 ** 32), rng.randrange(2 ** 31), witness)


def some_block(rng):
    count = rng.choice([1, 1, 2, 3, 4, 5, 7, 8, 12])
    if rng.randrange(200) == 0:
        count = 300
    root = some_bytes(rng, 32, 32) if rng.randrange(4) == 0 else None
    block = CBlock(rng.randrange(2 ** 31), rng.randbytes(32), nTime=rng.randrange(2 ** 32), nBits=rng.randrange(2 ** 32),
                   nNonce=rng.randrange(2 ** 32), vtx=[some_transaction(rng) for _ in range(count)])
    if root is not None:
        # A header that is not of these transactions: reading does not look at that.
        object.__setattr__(block, 'hashMerkleRoot', root)
    return block


def words_of(block):
    ids = [tx.GetTxid() for tx in block.vtx]
    root = CBlock.build_merkle_tree_from_txids(ids)[-1]
    return ['block', block.hashMerkleRoot.hex(), root.hex()] + [txid.hex() for txid in ids]


def length_of(number):
    return len(VarIntSerializer.serialize(number))


def fields_of(block):
    """The lengths of the fields of a block, in order."""
    yield from (4, 32, 32, 4, 4, 4)
    yield length_of(len(block.vtx))
    for tx in block.vtx:
        yield 4
        marked = not tx.wit.is_null()
        if marked:
            yield from (1, 1)
        yield length_of(len(tx.vin))
        for i in tx.vin:
            yield from (36, length_of(len(i.scriptSig)), len(i.scriptSig), 4)
        yield length_of(len(tx.vout))
        for o in tx.vout:
            yield from (8, length_of(len(o.scriptPubKey)), len(o.scriptPubKey))
        if marked:
            for w in tx.wit.vtxinwit:
                yield length_of(len(w.scriptWitness.stack))
                for item in w.scriptWitness.stack:
                    yield from (length_of(len(item)), len(item))
        yield 4


def starts_of(block):
    """The fields of a block, each with its first byte and its length."""
    place = 0
    for length in fields_of(block):
        yield place, length
        place += length


# ---- the comparisons

def differ(what, bytes_, expected, got):
    print(f'{what}: {" ".join(expected)[:200]} and {" ".join(got)[:200]}: {bytes_.hex()[:2000]}')
    sys.exit(1)


def whole(program, rng):
    blocks = [some_block(rng) for _ in range(COUNT)]
    raw = [block.serialize() for block in blocks]
    transactions = 0
    for block, bytes_, got in zip(blocks, raw, ours(program, raw), strict=True):
        if words_of(block) != got:
            differ('whole', bytes_, words_of(block), got)
        transactions += len(block.vtx)
    print(f'whole: {COUNT} blocks with {transactions} transactions are the same')


ON_PURPOSE = {'NonMinimal': 'a number in a longer form than it needs',
              'BadFlag': 'a marker with another flag, which the library reads as 0 inputs',
              'NoTransaction': 'no transaction'}


def changed(program, rng):
    raw = []
    while len(raw) < COUNT:
        block = some_block(rng)
        bytes_ = bytearray(block.serialize())
        place = rng.randrange(len(bytes_))
        if rng.randrange(3):
            # A number, a marker or a flag: the bytes that say where other fields are.
            place = rng.choice([start for start, length in starts_of(block) if length in (1, 3, 5) and start >= 80])
        bytes_[place] = rng.choice([0, 1, 2, 0xfd, 0xfe, 0xff, (bytes_[place] + 1) % 256, rng.randrange(256)])
        raw.append(bytes(bytes_))
    seen = collections.Counter()
    for bytes_, got in zip(raw, ours(program, raw), strict=True):
        try:
            expected = words_of(CBlock.deserialize(bytes_))
        except (SerializationError, IndexError, ValueError, OverflowError, MemoryError):
            expected = ['bad']
        if expected[0] == 'bad':
            if got[0] != 'bad':
                differ('changed', bytes_, expected, got)
            seen['no block for both'] += 1
        elif got[0] == 'bad':
            if got[2] not in ON_PURPOSE:
                differ('changed', bytes_, expected, got)
            seen[ON_PURPOSE[got[2]]] += 1
        elif expected != got:
            differ('changed', bytes_, expected, got)
        else:
            seen['the same block'] += 1
    for what, count in sorted(seen.items()):
        print(f'changed: {count} times {what}')


def cut(program, rng):
    raw, expected = [], []
    for _ in range(COUNT):
        block = some_block(rng)
        bytes_ = block.serialize()
        fields = list(starts_of(block))
        if sum(fields[-1]) != len(bytes_):
            sys.exit('the fields are not those of the bytes')
        n = rng.randrange(len(bytes_)) if rng.randrange(4) else max(0, rng.choice(fields)[0] - rng.randrange(2))
        if rng.randrange(10) == 0:
            raw.append(bytes_ + rng.randbytes(rng.randint(1, 50)))
            expected.append(['bad', str(len(bytes_)), 'Rest'])
        else:
            # A field of no bytes is whole.
            first = next(start for start, length in fields if start + length > n)
            raw.append(bytes_[:n])
            expected.append(['bad', str(first), 'Truncated'])
    for bytes_, want, got in zip(raw, expected, ours(program, raw), strict=True):
        if want != got:
            differ('cut', bytes_, want, got)
    print(f'cut: {COUNT} places are the same')


def segwit():
    coinbase = CTransaction([CTxIn(COutPoint(), CScript(bytes.fromhex('03010203')), 0xffffffff)],
                            [CTxOut(5000000000, CScript(b'\x51'))], 0, 1)
    inputs = [CTxIn(COutPoint(bytes(range(32)), 1), CScript(b''), 0xfffffffe),
              CTxIn(COutPoint(bytes(range(32, 64)), 7), CScript(bytes.fromhex('160014') + bytes(20)), 0xfffffffd)]
    outputs = [CTxOut(1234567, CScript(bytes.fromhex('0014') + bytes(range(20)))), CTxOut(1, CScript(b'\x6a\x04abcd'))]
    witness = CTxWitness([CTxInWitness(CScriptWitness([b'\x30' * 71, b'\x02' * 33])),
                          CTxInWitness(CScriptWitness([b'', b'\x21' * 260]))])
    block = CBlock(4, bytes(32), nTime=1600000000, nBits=0x170e92aa, nNonce=42,
                   vtx=[coinbase, CTransaction(inputs, outputs, 500000, 2, witness)])
    print(block.serialize().hex())
    for tx in block.vtx:
        print(tx.GetTxid().hex(), CTransaction(tx.vin, tx.vout, tx.nLockTime, tx.nVersion).serialize().hex())
    # No input after a marker: the library reads it and has no way to write it.
    bare = bytes.fromhex('01000000' '0001' '00' '01' '0100000000000000' '0151' '00000000')
    print(bare.hex(), CTransaction.deserialize(bare).GetTxid().hex())


def main():
    word = sys.argv[1] if len(sys.argv) > 1 else ''
    if word == 'segwit':
        segwit()
        return
    with tempfile.TemporaryDirectory() as work:
        program = build(work)
        for name, compare in (('whole', whole), ('changed', changed), ('cut', cut)):
            if word in ('', name):
                compare(program, random.Random(f'blocks {name}'))


main()
