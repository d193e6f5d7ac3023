#!/usr/bin/python3
"""A second reader, in plain Python and nothing but its standard library, written from docs/FORMAT.md and docs/HTTP.md alone.

    interop/plain.py info PROOF                      what the proof says: the file's digest, and each item with the
                                                     number of operations before it
    interop/plain.py verify FILE PROOF HEADERS FROM  whether a path of the proof takes the file's digest to the Merkle
                                                     root of a header: HEADERS has 80 bytes a header, FROM is the
                                                     height of the first
    interop/plain.py list JOURNAL                    the records of a calendar's journal
    interop/plain.py answer JOURNAL COMMITMENT       the tree from a commitment to its block, in hexadecimal
    interop/plain.py vectors FILE..                  runs the conformance vectors of the kinds that it knows

It is what an archivist can print on paper and keep beside his proofs: it shares no line with the programs of this
repository, and takes the same proofs and journals and no others. It ends with 0 where the answer is yes, with 1 where it
is no, and with 2 where the input is no proof, no journal or no such file. Every rule stands in docs/FORMAT.md.
"""

import hashlib
import json
import sys
from struct import unpack

MAGIC = bytes.fromhex('004f70656e54696d657374616d7073000050726f6f6600bf89e2e884e89294')
PENDING, BITCOIN, LITECOIN = (bytes.fromhex(it) for it in ('83dfe30d2ef90c8e', '0588960d73d71901', '06869a0d73d71b45'))
HASHES = {0x02: ('sha1', 20), 0x03: ('ripemd160', 20), 0x08: ('sha256', 32)}
NAMES = {0xf0: 'append', 0xf1: 'prepend', 0xf2: 'reverse', 0xf3: 'hexlify'}
URI_BYTES = set(b'abcdefghijklmnopqrstuvwxyzABCDEFGHIJKLMNOPQRSTUVWXYZ0123456789-._/:')
JOURNAL = b'OTSCAL\x02\n'
MOST_JOURNAL = 1_073_741_824


class Bad(Exception):
    """The input is not of its form."""


def need(holds, why):
    if not holds:
        raise Bad(why)


# ---- hashes

def ripemd160(data):
    """RIPEMD-160, of Dobbertin, Bosselaers and Preneel (1996), which not every hashlib has."""
    rho = [7, 4, 13, 1, 10, 6, 15, 3, 12, 0, 9, 5, 2, 14, 11, 8]
    rows = [[11, 14, 15, 12, 5, 8, 7, 9, 11, 13, 14, 15, 6, 7, 9, 8], [12, 13, 11, 15, 6, 9, 9, 7, 12, 15, 11, 13, 7, 8, 7, 7],
            [13, 15, 14, 11, 7, 7, 6, 8, 13, 14, 13, 12, 5, 5, 6, 9], [14, 11, 12, 14, 8, 6, 5, 5, 15, 12, 15, 14, 9, 9, 8, 6],
            [15, 12, 13, 13, 9, 5, 8, 6, 14, 11, 12, 11, 8, 6, 5, 5]]
    mixes = [lambda x, y, z: x ^ y ^ z, lambda x, y, z: (x & y) | (~x & z), lambda x, y, z: (x | ~y) ^ z,
             lambda x, y, z: (x & z) | (y & ~z), lambda x, y, z: x ^ (y | ~z)]
    mask = 0xffffffff

    def lane(state, words, order, constants, functions):
        a, b, c, d, e = state
        for turn in range(5):
            for i in order:
                x = (a + functions[turn](b, c, d) + words[i] + constants[turn]) & mask
                s = rows[turn][i]
                a, b, c, d, e = e, (((x << s) | (x >> (32 - s))) + e) & mask, b, ((c << 10) | (c >> 22)) & mask, d
            order = [rho[i] for i in order]
        return a, b, c, d, e

    state = (0x67452301, 0xefcdab89, 0x98badcfe, 0x10325476, 0xc3d2e1f0)
    data += b'\x80' + bytes((55 - len(data)) % 64) + (8 * len(data)).to_bytes(8, 'little')
    for at in range(0, len(data), 64):
        words = [int.from_bytes(data[at + i:at + i + 4], 'little') for i in range(0, 64, 4)]
        one = lane(state, words, range(16), [0, 0x5a827999, 0x6ed9eba1, 0x8f1bbcdc, 0xa953fd4e], mixes)
        two = lane(state, words, [(9 * i + 5) % 16 for i in range(16)],
                   [0x50a28be6, 0x5c4dd124, 0x6d703ef3, 0x7a6d76e9, 0], mixes[::-1])
        state = tuple((state[(k + 1) % 5] + one[(k + 2) % 5] + two[(k + 3) % 5]) & mask for k in range(5))
    return b''.join(it.to_bytes(4, 'little') for it in state)


def hashed(tag, message):
    if tag == 0x03:
        return ripemd160(message)
    return hashlib.new(HASHES[tag][0], message).digest()


def sha256(data):
    return hashlib.sha256(data).digest()


# ---- numbers

def read_number(data, at):
    """A varuint: base 128, the lowest seven bits first, in its shortest form and below 2^64."""
    value = 0
    for k in range(10):
        need(at + k < len(data), 'it ends within a number')
        byte = data[at + k]
        need(k < 9 or byte <= 1, 'a number is too large')
        value |= (byte & 0x7f) << (7 * k)
        if byte < 0x80:
            need(k == 0 or byte != 0, 'a number is padded')
            return value, at + k + 1
    raise Bad('a number is too large')


def number(value):
    out = b''
    while value >= 0x80:
        out, value = out + bytes([value & 0x7f | 0x80]), value >> 7
    return out + bytes([value])


def read_bytes(data, at, least, most):
    count, at = read_number(data, at)
    need(least <= count <= most, 'a length is out of bounds')
    need(at + count <= len(data), 'it ends within bytes')
    return data[at:at + count], at + count


# ---- trees

def result_length(tag, length, argument):
    """How long an operation's result is, which must have 1 to 4,096 bytes; of no bytes it is a hash alone, or an argument."""
    if tag in HASHES:
        return HASHES[tag][1]
    if tag in (0xf0, 0xf1):
        length += len(argument)
    else:
        need(length > 0, 'an operation on no bytes')
        length *= 2 if tag == 0xf3 else 1
    need(length <= 4096, 'a result is too long')
    return length


def applied(tag, argument, message):
    if tag in HASHES:
        return hashed(tag, message)
    return {0xf0: message + argument, 0xf1: argument + message, 0xf2: message[::-1], 0xf3: message.hex().encode()}[tag]


def read_attestation(data, at):
    need(at + 8 <= len(data), 'it ends within an attestation')
    kind, at = data[at:at + 8], at + 8
    payload, at = read_bytes(data, at, 0, 8192)
    if kind == PENDING:
        uri, end = read_bytes(payload, 0, 0, 1000)
        need(end == len(payload), 'bytes after a URI')
        need(all(byte in URI_BYTES for byte in uri), 'a byte that no URI has')
        return (kind, uri), at
    if kind in (BITCOIN, LITECOIN):
        height, end = read_number(payload, 0)
        need(end == len(payload), 'bytes after a height')
        return (kind, height), at
    return (kind, payload), at


def read_tree(data, at, length):
    """The items of a tree in the order of the file, each with the operations before it, and where it ends. An item is
    ('op', tag, argument, depth) or ('end', kind, value, depth)."""
    items, open_nodes, forked = [], [(length, 0)], False
    while open_nodes:
        need(at < len(data), 'it ends within a tree')
        tag, at = data[at], at + 1
        length, depth = open_nodes[-1]
        if tag == 0xff:
            need(not forked, 'a fork directly after a fork')
            open_nodes.append((length, depth))
            forked = True
            continue
        forked = False
        if tag == 0:
            found, at = read_attestation(data, at)
            items.append(('end', *found, depth))
            open_nodes.pop()
            continue
        need(tag in HASHES or tag in NAMES, 'an operation that is not known')
        argument = b''
        if tag in (0xf0, 0xf1):
            argument, at = read_bytes(data, at, 1, 4096)
        need(depth < 255, 'a path of more than 255 operations')
        open_nodes[-1] = (result_length(tag, length, argument), depth + 1)
        items.append(('op', tag, argument, depth))
    return items, at


def read_proof(data):
    """The tag of the hash, the digest, and the items of the tree."""
    need(len(data) <= 4_194_304, 'it is too long for a proof')
    need(data[:31] == MAGIC, 'it is no proof file')
    version, at = read_number(data, 31)
    need(version == 1, 'its version is another')
    need(at < len(data) and data[at] in HASHES, 'its hash is not known')
    tag, at = data[at], at + 1
    digest = data[at:at + HASHES[tag][1]]
    need(len(digest) == HASHES[tag][1], 'it ends within the digest')
    items, end = read_tree(data, at + len(digest), len(digest))
    need(end == len(data), 'bytes after the tree')
    return tag, digest, items


def attested(digest, items):
    """The message of each attestation, path by path: the operations at depths 0, 1, .. before it, each the latest."""
    path = []
    for what, first, second, depth in items:
        del path[depth:]
        if what == 'op':
            before = path[-1] if path else digest
            path.append(applied(first, second, before))
        else:
            yield first, second, path[-1] if path else digest


def described(item):
    what, first, second, depth = item
    if what == 'op':
        name = HASHES[first][0] if first in HASHES else NAMES[first]
        return f'{depth} {name}' + (f' {second.hex()}' if second else '')
    if first == PENDING:
        return f'{depth} pending {second.decode() or "-"}'
    if first in (BITCOIN, LITECOIN):
        return f'{depth} {"bitcoin" if first == BITCOIN else "litecoin"} {second}'
    return f'{depth} unknown {first.hex()} {second.hex() or "-"}'


def verdict(target, proof, headers, first):
    """What `verify` says of a file's bytes, or of their digest's maker: yes with the least height and its time."""
    tag, digest, items = read_proof(proof)
    need(len(headers) % 80 == 0, 'the headers are no table')
    if hashed(tag, target) != digest:
        return 'no digest'
    return confirmed(digest, items, headers, first)


def confirmed(digest, items, headers, first):
    best = None
    for kind, height, message in attested(digest, items):
        if kind == BITCOIN and first <= height < first + len(headers) // 80:
            header = headers[80 * (height - first):][:80]
            if header[36:68] == message and (best is None or height < best[0]):
                best = height, unpack('<I', header[68:72])[0]
    return f'yes block {best[0]} time {best[1]}' if best else 'no path'


# ---- journals

def read_journal(data):
    """The records: ('commit', bytes), ('tip', first, count, root), ('anchor', first, count, height, root, prefix, suffix, steps)."""
    need(len(data) <= MOST_JOURNAL, 'it is too long for a journal')
    if len(data) <= 9:
        return []
    need(data[:8] == JOURNAL, 'it is no journal of version 2')
    at, entries = 8, []
    while data[at] == 0xa5:
        need(at + 7 <= len(data), 'it ends within a group')
        count, length = unpack('>HI', data[at + 1:at + 7])
        end = at + 7 + length
        need(1 <= count <= 1024 and end < len(data), 'it ends within a group')
        at += 7
        for _ in range(count):
            need(at + 5 <= end, 'a group of another length')
            kind, size = unpack('>BI', data[at:at + 5])
            need(44 <= size <= 1_048_576 and at + 5 + size <= end, 'an entry of another length')
            entries.append((kind, data[at + 5:at + 5 + size]))
            at += 5 + size
        need(at == end, 'a group of another length')
    return records_of(entries)


def records_of(entries):
    records, commitments, covered, tips = [], 0, 0, {}
    for kind, payload in entries:
        if kind == 1:
            need(len(payload) == 44, 'a commitment of another length')
            records.append(('commit', payload))
            commitments += 1
        elif kind == 2:
            need(len(payload) == 48, 'a tip of another length')
            first, count = unpack('>QQ', payload[:16])
            need(first == covered and count >= 1 and first + count == commitments, 'a tip that may not stand there')
            need((first, count) not in tips, 'a tip that is there already')
            records.append(('tip', first, count, payload[16:]))
            tips[first, count] = payload[16:]
        else:
            need(kind == 3, 'a record of another kind')
            record = read_anchor(payload)
            need((record[1], record[2]) in tips and record[1] + record[2] > covered, 'an anchor that may not stand there')
            records.append(record)
            covered = record[1] + record[2]
    return records


def read_anchor(payload):
    first, count, height = unpack('>QQQ', payload[:24])
    root, at = payload[24:56], 56
    parts = []
    for _ in range(2):
        need(at + 2 <= len(payload), 'an anchor of another length')
        size = unpack('>H', payload[at:at + 2])[0]
        parts.append(payload[at + 2:at + 2 + size])
        at += 2 + size
    need(at < len(payload) and len(parts[0]) + 32 + len(parts[1]) <= 4096, 'an anchor of another length')
    steps = payload[at + 1:]
    need(payload[at] <= 32 and len(steps) == 33 * payload[at] and height < 2 ** 63, 'an anchor of another form')
    branch = [(steps[k], steps[k + 1:k + 33]) for k in range(0, len(steps), 33)]
    need(all(side in (0, 1) for side, _ in branch), 'a step of another form')
    return 'anchor', first, count, height, root, parts[0], parts[1], branch


def tree_root(leaves):
    """The root of a calendar's tree: split after the greatest power of two below the count."""
    if len(leaves) == 1:
        return leaves[0]
    split = 1 << (len(leaves) - 1).bit_length() - 1
    return sha256(tree_root(leaves[:split]) + tree_root(leaves[split:]))


def tree_path(leaves, i):
    if len(leaves) == 1:
        return []
    split = 1 << (len(leaves) - 1).bit_length() - 1
    if i < split:
        return tree_path(leaves[:split], i) + [(0xf0, tree_root(leaves[split:])), (0x08, b'')]
    return tree_path(leaves[split:], i - split) + [(0xf1, tree_root(leaves[:split])), (0x08, b'')]


def answer(records, commitment):
    """The operations from a commitment to its block and the height, None where none holds it yet, or 'unknown'."""
    commitments = [record[1] for record in records if record[0] == 'commit']
    if commitment not in commitments:
        return 'unknown'
    i = commitments.index(commitment)
    for record in records:
        if record[0] == 'anchor' and record[1] <= i < record[1] + record[2]:
            _, first, count, height, _, prefix, suffix, branch = record
            ops = [(0x08, b'')] + tree_path([sha256(it) for it in commitments[first:first + count]], i - first)
            ops += [(0xf1, prefix)] * bool(prefix) + [(0xf0, suffix)] * bool(suffix) + [(0x08, b'')] * 2
            for side, other in branch:
                ops += [((0xf0 if side else 0xf1), other), (0x08, b''), (0x08, b'')]
            return ops, height
    return None


def spelled(ops, height):
    """The bytes of the tree of one path that ends in Bitcoin."""
    out = b''
    for tag, argument in ops:
        out += bytes([tag]) + (number(len(argument)) + argument if tag in (0xf0, 0xf1) else b'')
    payload = number(height)
    return out + b'\0' + BITCOIN + number(len(payload)) + payload


def described_record(index, record):
    if record[0] == 'commit':
        return f'commit {index} {record[1].hex()}'
    return ' '.join([record[0], *map(str, record[1:3 if record[0] == 'tip' else 4]), record[3 if record[0] == 'tip' else 4].hex()])


# ---- conformance vectors

def tried(case):
    """What this reader says of a vector, as the vector has it; None where it does not know the kind."""
    kind, data = case['kind'], bytes.fromhex(case.get('bytes', ''))
    if kind == 'number':
        value, length = read_number(data, 0)
        return {'value': str(value), 'length': length}
    if kind == 'hash':
        return {'digest': hashed(next(tag for tag, (name, _) in HASHES.items() if name == case['hash']), data).hex()}
    if kind == 'proof':
        tag, digest, items = read_proof(data)
        return {'listing': [f'file {HASHES[tag][0]} {digest.hex()}', *map(described, items)]}
    if kind == 'verify':
        target, proof, headers = (bytes.fromhex(case[key]) for key in ('target', 'proof', 'headers'))
        return {'verdict': verdict(target, proof, headers, case['first'])}
    if kind == 'calendar-tree':
        leaves = [bytes.fromhex(case['leaves'][k:k + 64]) for k in range(0, len(case['leaves']), 64)]
        names = {**NAMES, 0x08: 'sha256'}
        return {'root': tree_root(leaves).hex(), 'path': [[names[tag], argument.hex()] for tag, argument in tree_path(leaves, case['index'])]}
    if kind == 'journal':
        records = read_journal(data)
        places = [sum(it[0] == 'commit' for it in records[:k]) for k in range(len(records))]
        return {'records': [described_record(place, record) for place, record in zip(places, records)]}
    if kind == 'answer':
        found = answer(read_journal(bytes.fromhex(case['journal'])), bytes.fromhex(case['commitment']))
        return {'answer': 'not found' if found == 'unknown' else 'pending' if found is None else spelled(*found).hex()}
    return None


def run_vectors(names):
    """Runs the vectors of these files, says how many of which kinds agree or are passed over, and each difference."""
    counts, bad = {}, 0
    for name in names:
        with open(name, encoding='utf8') as file:
            for line in file:
                case = json.loads(line)
                try:
                    said = tried(case)
                except Bad:
                    said = {'fault': case.get('fault')} if 'fault' in case else {'refused': 'here'}
                agrees = said is not None and all(case.get(key) == value for key, value in said.items()) and ('fault' in case) == ('fault' in said)
                word = 'passed over' if said is None else 'agree' if agrees else 'DIFFER'
                counts[case['kind'], word] = counts.get((case['kind'], word), 0) + 1
                if word == 'DIFFER':
                    bad += 1
                    print(f'{case["kind"]}, {case["name"]}: {said}')
    for (kind, word), count in sorted(counts.items()):
        print(f'{count} {kind} {word}')
    return 1 if bad else 0


# ---- commands

def main(words):
    command = words[0] if words else ''

    def data(k):
        with open(words[k], 'rb') as file:
            return file.read()

    if command == 'info' and len(words) == 2:
        tag, digest, items = read_proof(data(1))
        print('\n'.join([f'file {HASHES[tag][0]} {digest.hex()}', *map(described, items)]))
        return 0
    if command == 'verify' and len(words) == 5:
        said = verdict(data(1), data(2), data(3), int(words[4]))
        print(said)
        return 0 if said.startswith('yes') else 1
    if command == 'list' and len(words) == 2:
        index = 0
        for record in read_journal(data(1)):
            print(described_record(index, record))
            index += record[0] == 'commit'
        return 0
    if command == 'answer' and len(words) == 3:
        found = answer(read_journal(data(1)), bytes.fromhex(words[2]))
        print('not found' if found == 'unknown' else 'pending' if found is None else spelled(*found).hex())
        return 0 if isinstance(found, tuple) else 1
    if command == 'vectors' and len(words) > 1:
        return run_vectors(words[1:])
    sys.exit(__doc__)


if __name__ == '__main__':
    try:
        sys.exit(main(sys.argv[1:]))
    except (Bad, OSError) as error:
        print(error)
        sys.exit(2)
