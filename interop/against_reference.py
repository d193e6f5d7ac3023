#!/usr/bin/python3
"""Compares `ots` with the reference library python-opentimestamps.

    interop/against_reference.py [info | changed | purpose | canon | merge | prune]

info     makes proofs with the library's own classes, serializes them by the library, runs `ots info`
         on each, and compares every line with a walk over the library's own objects
changed  changes bytes of such proofs, and compares whether `ots info` takes the file with whether
         the library's reader does; each way in which the two differ on purpose is counted by name
purpose  makes a file for each such way, and compares both answers with what they are to be
canon    writes such proofs with siblings in any order and some of them twice, runs `ots canon` on each,
         and compares its output with what the library writes of its own objects
merge    makes pairs of proofs of one digest, runs `ots merge` on each pair, and compares its output with
         what the library writes of its own merge
prune    runs `ots prune` on such proofs, and compares its output with what the library writes of the
         first path to the least Bitcoin height, or of all where no Bitcoin height is there

Without a word it does all. It ends with status 1 on a difference. Where the library is missing it
says so and ends with status 0. It is run by hand; the library is Debian's python3-opentimestamps.
"""

import io
import os
import random
import subprocess
import sys
import tempfile

try:
    from opentimestamps.core.notary import (BitcoinBlockHeaderAttestation,
                                            LitecoinBlockHeaderAttestation, PendingAttestation,
                                            UnknownAttestation)
    from opentimestamps.core.op import (MsgValueError, OpAppend, OpHexlify, OpPrepend, OpReverse,
                                        OpRIPEMD160, OpSHA1, OpSHA256)
    from opentimestamps.core.serialize import (BytesSerializationContext, DeserializationError,
                                               StreamDeserializationContext)
    from opentimestamps.core.timestamp import DetachedTimestampFile, Timestamp
except ImportError:
    print('the library opentimestamps (Debian: python3-opentimestamps) is not here; nothing was compared')
    sys.exit(0)

TOP = os.path.dirname(os.path.dirname(os.path.abspath(__file__)))
PROGRAM = os.path.join(TOP, 'build', 'ots')

CALENDARS = ['https://alice.btc.calendar.opentimestamps.org', 'https://bob.btc.calendar.opentimestamps.org',
             'https://finney.calendar.eternitywall.com', 'http://127.0.0.1:14788', '']
HASHES = [OpSHA1, OpRIPEMD160, OpSHA256]


def build():
    """Builds the program where its sources are newer."""
    subprocess.run([os.path.join(TOP, 'run'), 'ots'], stdin=subprocess.DEVNULL,
                   stdout=subprocess.DEVNULL, check=False)
    if not os.access(PROGRAM, os.X_OK):
        sys.exit('the program ots could not be built')


def ots(*words):
    """The status of a run of the program, and what it printed."""
    done = subprocess.run([PROGRAM, *words], stdin=subprocess.DEVNULL, stdout=subprocess.PIPE,
                          stderr=subprocess.PIPE, check=False)
    if done.stderr:
        sys.exit(f'ots {" ".join(words)} wrote to standard error: {done.stderr!r}')
    return done.returncode, done.stdout.decode()


# ---- proofs

def some_bytes(rng, least, most):
    return bytes(rng.randrange(256) for _ in range(rng.randint(least, most)))


def some_height(rng):
    return rng.choice([0, 1, 127, 128, 300, 16384, rng.randrange(2 ** 20), rng.randrange(2 ** 63)])


def some_attestation(rng):
    kind = rng.randrange(8)
    if kind < 3:
        return PendingAttestation(rng.choice(CALENDARS))
    if kind < 5:
        return BitcoinBlockHeaderAttestation(some_height(rng))
    if kind < 6:
        return LitecoinBlockHeaderAttestation(some_height(rng))
    return UnknownAttestation(bytes([rng.randrange(1, 5)]) + some_bytes(rng, 7, 7),
                              some_bytes(rng, 0, rng.choice([0, 3, 200])))


def some_op(rng, message):
    kind = rng.randrange(10)
    if kind < 3:
        return OpAppend(some_bytes(rng, 1, rng.choice([4, 32, 200])))
    if kind < 5:
        return OpPrepend(some_bytes(rng, 1, rng.choice([4, 32, 200])))
    if kind < 8:
        return rng.choice(HASHES)()
    return OpReverse() if kind == 8 or len(message) > 1000 else OpHexlify()


def grow(rng, stamp, depth):
    """Adds items to a node, at least one."""
    attestations = rng.choice([0, 0, 1, 1, 2, 4]) if depth > 0 else rng.choice([1, 2])
    for _ in range(attestations):
        stamp.attestations.add(some_attestation(rng))
    children = rng.choice([0, 1, 1, 1, 2, 3]) if depth > 0 else 0
    if not stamp.attestations and children == 0:
        children = 1
    for _ in range(children):
        op = some_op(rng, stamp.msg)
        try:
            child = stamp.ops.add(op)
        except MsgValueError:
            stamp.attestations.add(some_attestation(rng))
            continue
        if not child.attestations and not child.ops:
            grow(rng, child, depth - 1)


def some_proof(rng):
    hash_op = rng.choice(HASHES)()
    stamp = Timestamp(some_bytes(rng, hash_op.DIGEST_LENGTH, hash_op.DIGEST_LENGTH))
    grow(rng, stamp, rng.choice([0, 1, 3, 6, 12]))
    return DetachedTimestampFile(hash_op, stamp)


def serialized(proof):
    ctx = BytesSerializationContext()
    proof.serialize(ctx)
    return ctx.getbytes()


def spelled(item):
    """The bytes of an operation or an attestation."""
    ctx = BytesSerializationContext()
    item.serialize(ctx)
    return ctx.getbytes()


def in_any_order(rng, stamp):
    """A node's bytes with its items in any order and some of them twice."""
    items = [b'\0' + spelled(attestation) for attestation in stamp.attestations]
    items += [spelled(op) + in_any_order(rng, child) for op, child in stamp.ops.items()]
    items += [item for item in items if len(item) < 100 and rng.randrange(8) == 0]
    rng.shuffle(items)
    return b''.join(b'\xff' + item for item in items[:-1]) + items[-1]


def file_in_any_order(rng, proof):
    """A proof's file with siblings in any order and some of them twice."""
    head = DetachedTimestampFile.HEADER_MAGIC + b'\x01' + spelled(proof.file_hash_op)
    return head + proof.file_digest + in_any_order(rng, proof.timestamp)


def copied(proof):
    """The same proof, in other objects."""
    return DetachedTimestampFile.deserialize(StreamDeserializationContext(io.BytesIO(serialized(proof))))


def nodes_of(stamp):
    yield stamp
    for child in stamp.ops.values():
        yield from nodes_of(child)


def some_pair(rng):
    """Two proofs of one digest, of which some have a part in common."""
    first = some_proof(rng)
    if rng.randrange(3) == 0:
        second = DetachedTimestampFile(first.file_hash_op, Timestamp(first.file_digest))
        grow(rng, second.timestamp, rng.choice([0, 1, 3, 6]))
        return first, second
    second = copied(first)
    for proof in (first, second):
        grow(rng, rng.choice(list(nodes_of(proof.timestamp))), rng.choice([0, 1, 3]))
    return first, second


def paths_of(stamp):
    """The paths of a node, in the library's order."""
    for attestation in sorted(stamp.attestations):
        yield [], attestation
    for op, child in sorted(stamp.ops.items(), key=lambda item: item[0]):
        for ops, attestation in paths_of(child):
            yield [op, *ops], attestation


def pruned(proof):
    """What is to be left of a proof."""
    complete = [path for path in paths_of(proof.timestamp) if isinstance(path[1], BitcoinBlockHeaderAttestation)]
    if not complete:
        return proof
    ops, attestation = min(complete, key=lambda path: path[1].height)
    left = DetachedTimestampFile(proof.file_hash_op, Timestamp(proof.file_digest))
    stamp = left.timestamp
    for op in ops:
        stamp = stamp.ops.add(op)
    stamp.attestations.add(attestation)
    return left


# ---- the lines

def words_of(item):
    if isinstance(item, PendingAttestation):
        return 'pending ' + (item.uri or '-')
    if isinstance(item, BitcoinBlockHeaderAttestation):
        return f'bitcoin {item.height}'
    if isinstance(item, LitecoinBlockHeaderAttestation):
        return f'litecoin {item.height}'
    if isinstance(item, UnknownAttestation):
        return f'unknown {item.TAG.hex()} {item.payload.hex() or "-"}'
    if len(item) > 0:
        return f'{item.TAG_NAME} {item[0].hex()}'
    return item.TAG_NAME


def walk(stamp, depth):
    """The lines of a node, in the library's order."""
    for attestation in sorted(stamp.attestations):
        yield f'{depth} {words_of(attestation)}'
    for op, child in sorted(stamp.ops.items(), key=lambda item: item[0]):
        yield f'{depth} {words_of(op)}'
        yield from walk(child, depth + 1)


def lines_of(proof):
    head = f'file {proof.file_hash_op.TAG_NAME} {proof.file_digest.hex()}'
    return '\n'.join([head, *walk(proof.timestamp, 0)]) + '\n'


# ---- comparisons

def compare_info(rng, folder, count):
    """Every line of `ots info` on the library's own proofs."""
    name = os.path.join(folder, 'proof.ots')
    for number in range(count):
        proof = some_proof(rng)
        with open(name, 'wb') as file:
            file.write(serialized(proof))
        status, text = ots('info', name)
        if status != 0 or text != lines_of(proof):
            print(f'proof {number} differs: status {status}\n{text}\nagainst\n{lines_of(proof)}')
            return False
    print(f'info: {count} proofs compared, no difference')
    return True


def put(folder, name, data):
    """The path of a file with this name and these bytes."""
    path = os.path.join(folder, name)
    with open(path, 'wb') as file:
        file.write(data)
    return path


def compare_output(folder, words, proof):
    """Whether the command with these words writes what the library writes of the proof."""
    output = os.path.join(folder, 'output.ots')
    status, text = ots(*words, output)
    if (status, text) != (0, ''):
        print(f'{words}: status {status}, {text!r}')
        return False
    with open(output, 'rb') as file:
        data = file.read()
    os.remove(output)
    theirs = library_reads(data)
    if theirs is None or theirs != proof or data != serialized(proof):
        print(f'{words}: {data.hex()}\nagainst\n{serialized(proof).hex()}')
        return False
    return True


def compare_canon(rng, folder, count):
    """The output of `ots canon`."""
    for _ in range(count):
        proof = some_proof(rng)
        given = put(folder, 'given.ots', file_in_any_order(rng, proof))
        if not compare_output(folder, ['canon', given], proof):
            return False
    print(f'canon: {count} proofs compared, no difference')
    return True


def compare_merge(rng, folder, count):
    """The output of `ots merge`, in both orders of its inputs."""
    for _ in range(count):
        first, second = some_pair(rng)
        files = [put(folder, name, file_in_any_order(rng, proof))
                 for name, proof in [('first.ots', first), ('second.ots', second)]]
        first.timestamp.merge(second.timestamp)
        for names in (files, files[::-1]):
            if not compare_output(folder, ['merge', *names], first):
                return False
    print(f'merge: {count} pairs compared in both orders, no difference')
    return True


def compare_prune(rng, folder, count):
    """The output of `ots prune`."""
    for _ in range(count):
        proof = some_proof(rng)
        given = put(folder, 'given.ots', file_in_any_order(rng, proof))
        if not compare_output(folder, ['prune', given], pruned(proof)):
            return False
    print(f'prune: {count} proofs compared, no difference')
    return True


def library_reads(data):
    """The proof that the library reads, or None."""
    try:
        return DetachedTimestampFile.deserialize(StreamDeserializationContext(io.BytesIO(data)))
    except (DeserializationError, ValueError, KeyError):
        return None


def has_ethereum(data):
    return bytes.fromhex('30fe8087b5c7ead7') in data


def changed(rng, data):
    """The file with some bytes changed."""
    data = bytearray(data)
    for _ in range(rng.choice([1, 1, 1, 2, 5])):
        way = rng.randrange(6)
        place = rng.randrange(len(data))
        if way == 0:
            data[place] = rng.choice([0, 2, 3, 8, 0x67, 0x80, 0xf0, 0xf1, 0xf2, 0xf3, 0xff])
        elif way == 1:
            data[place] = rng.randrange(256)
        elif way == 2:
            del data[place]
        elif way == 3:
            data.insert(place, rng.choice([0, 1, 8, 0x80, 0xff, rng.randrange(256)]))
        elif way == 4 and rng.randrange(4) == 0:
            del data[place:]
        else:
            data[max(place, 31) % len(data)] ^= 1 << rng.randrange(8)
        if not data:
            data = bytearray(b'\0')
    return bytes(data)


ON_PURPOSE = {
    'non-minimal number': 'a padded number',
    'number too large': 'a number of 2^64 or more',
    'payload number': 'a padded or too large number in a payload',
    'bad version': 'a padded version byte',
    'keccak': 'keccak',
    'trailing bytes': 'trailing bytes',
}


def compare_changed(rng, folder, count):
    """Whether changed files are taken."""
    name = os.path.join(folder, 'changed.ots')
    classes, taken, refused = {}, 0, 0
    for number in range(count):
        data = changed(rng, serialized(some_proof(rng)))
        with open(name, 'wb') as file:
            file.write(data)
        status, text = ots('info', name)
        theirs = library_reads(data)
        if status == 0 and theirs is not None:
            taken += 1
            if text != lines_of(theirs):
                # The library sorts siblings and keeps one of equal ones; each of its lines is ours.
                if not set(lines_of(theirs).split('\n')) <= set(text.split('\n')):
                    print(f'file {number}: taken by both, and other lines: {data.hex()}\n{text}\nagainst\n{lines_of(theirs)}')
                    return False
                classes['siblings in another order, or equal ones'] = classes.get('siblings in another order, or equal ones', 0) + 1
        elif status == 3 and theirs is None:
            refused += 1
        elif status == 3:
            reason = text.strip().rsplit(': ', 1)[-1]
            if reason not in ON_PURPOSE:
                print(f'file {number}: refused for {reason}, and taken by the library: {data.hex()}')
                return False
            classes[ON_PURPOSE[reason]] = classes.get(ON_PURPOSE[reason], 0) + 1
        elif status == 0 and has_ethereum(data):
            classes['an Ethereum payload, kept unread'] = classes.get('an Ethereum payload, kept unread', 0) + 1
        else:
            print(f'file {number}: status {status}, and refused by the library: {data.hex()}')
            return False
    print(f'changed: {count} files compared, {taken} taken and {refused} refused by both, no difference but on purpose:')
    for words, times in sorted(classes.items()):
        print(f'    {words}: {times}')
    return True


HEAD = DetachedTimestampFile.HEADER_MAGIC + b'\x01\x08' + bytes(range(32))
BLOCK_0 = bytes.fromhex('000588960d73d719010100')


def compare_purpose(_rng, folder, _count):
    """Each way in which the two differ on purpose: the file, the program's status and words, whether the library reads it."""
    bitcoin = bytes.fromhex('000588960d73d71901')
    unknown = b'\x00\x01\x02\x03\x04\x05\x06\x07\x08\x80\x40' + 8192 * b'p'
    rows = [
        ('a padded version byte', DetachedTimestampFile.HEADER_MAGIC + b'\x81\x00' + HEAD[32:] + BLOCK_0, 3, 'at 31: bad version', True),
        ('a padded length', HEAD + b'\xf0\x81\x00x' + BLOCK_0, 3, 'at 65: non-minimal number', True),
        ('a padded height', HEAD + bitcoin + b'\x02\x80\x00', 3, 'at 65: payload number', True),
        ('a height of 2^64', HEAD + bitcoin + b'\x0a' + 9 * b'\x80' + b'\x02', 3, 'at 65: payload number', True),
        ('keccak', HEAD + b'\x67' + BLOCK_0, 3, 'at 65: keccak', True),
        ('a byte after the tree', HEAD + BLOCK_0 + b'\x00', 3, 'at 76: trailing bytes', False),
        ('more than 4 MiB', HEAD + 512 * (b'\xff' + unknown) + BLOCK_0, 8, 'too big', True),
        ('an Ethereum payload of no height', HEAD + bytes.fromhex('0030fe8087b5c7ead702ffff'), 0, 'unknown 30fe8087b5c7ead7 ffff', False),
        ('equal siblings', HEAD + b'\xff\x08' + BLOCK_0 + b'\x08' + BLOCK_0[:-1] + b'\x01', 0, '0 sha256\n1 bitcoin 0\n0 sha256\n1 bitcoin 1\n', True),
    ]
    name = os.path.join(folder, 'purpose.ots')
    for words, data, want, line, reads in rows:
        with open(name, 'wb') as file:
            file.write(data)
        status, text = ots('info', name)
        if (status, line in text, library_reads(data) is not None) != (want, True, reads):
            print(f'{words}: status {status}, {text!r}, the library reads it: {library_reads(data) is not None}')
            return False
    print(f'purpose: {len(rows)} ways compared, each as it is to be')
    return True


def main():
    words = sys.argv[1:] or ['info', 'changed', 'purpose', 'canon', 'merge', 'prune']
    sys.setrecursionlimit(10000)
    build()
    rng = random.Random(20260131)
    comparisons = {
        'info': lambda f: compare_info(rng, f, 2000),
        'changed': lambda f: compare_changed(rng, f, 4000),
        'purpose': lambda f: compare_purpose(rng, f, 0),
        'canon': lambda f: compare_canon(rng, f, 1000),
        'merge': lambda f: compare_merge(rng, f, 1000),
        'prune': lambda f: compare_prune(rng, f, 1000),
    }
    for word in words:
        if word not in comparisons:
            sys.exit(__doc__)
    with tempfile.TemporaryDirectory() as folder:
        if not all(comparisons[word](folder) for word in words):
            sys.exit(1)


if __name__ == '__main__':
    main()
