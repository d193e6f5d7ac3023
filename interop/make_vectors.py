#!/usr/bin/python3
"""Makes the conformance vectors of vectors/ from the plain models beside this script.

    interop/make_vectors.py [--check]

Each file of vectors/ has one line of JSON for each case: `name` says what it shows, `kind` what is asked, and the other
keys are the question and the answer; vectors/README.md has the table of kinds. The answers are those of the models
client_rows.py, format_rows.py, bitcoin_rows.py, store_rows.py and http_rows.py, which are hashlib and readers of their
own; nothing of this repository is run. With --check nothing is written, and it ends with status 1 where a file is
another. It takes some seconds.
"""

import hashlib
import hmac
import json
import os
import random
import struct
import sys

import bitcoin_rows
import calendar_model
import client_rows
import format_rows
import http_rows
import store_rows
from client_rows import BITCOIN, HASHES, LITECOIN, NAMES, PENDING, Fault
from upgrades import APPEND, HEXLIFY, MAGIC, PREPEND, REVERSE, RIPEMD160, SHA1, SHA256, counted, number, spelled

FOLDER = os.path.join(os.path.dirname(os.path.dirname(os.path.abspath(__file__))), 'vectors')
MADE = {}
CODES = {name: tag for tag, name in NAMES.items()}


def put(file, kind, name, **keys):
    MADE.setdefault(file, []).append({'kind': kind, 'name': name, **keys})


def sha256(data):
    return hashlib.sha256(data).digest()


# ---- numbers, hashes, operations

def numbers(rng):
    for value in sorted({edge + step for k in range(0, 64, 7) for edge in (1 << k,) for step in (-1, 0, 1)} | {300, (1 << 64) - 1}):
        data = number(value)
        put('numbers', 'number', f'{value} in its shortest form', bytes=data.hex(), value=str(value), length=len(data))
        put('numbers', 'number', f'{value}, and a byte after it', bytes=(data + b'\x2a').hex(), value=str(value), length=len(data))
        put('numbers', 'number', f'{value} in one byte more', bytes=(data[:-1] + bytes([data[-1] | 0x80, 0])).hex(),
            fault='padded' if len(data) < 10 else 'large')
        if len(data) > 1:
            put('numbers', 'number', f'{value} without its last byte', bytes=data[:-1].hex(), fault='short')
    for data in (b'', b'\xff' * 9 + b'\x02', b'\x80' * 10, b'\xff' * 10, b'\x80' * 9):
        found = client_rows.read_number(data, 0)[0]
        put('numbers', 'number', f'{len(data)} bytes that spell no number', bytes=data.hex(), fault=found)


def hashes(rng):
    for name in ('sha1', 'ripemd160', 'sha256'):
        for length in [*range(0, 20), 31, 32, 33, *range(53, 67), 119, 120, 127, 128, 129, 255, 256, 1000, 4096]:
            data = rng.randbytes(length)
            put('hashes', 'hash', f'{name} of {length} bytes', hash=name, bytes=data.hex(), digest=format_rows.digest(name, data).hex())


def some_op(rng, length):
    """An operation that may be refused on a message of this length."""
    tag = rng.choice([SHA1, RIPEMD160, SHA256, APPEND, PREPEND, REVERSE, HEXLIFY])
    size = rng.choice([1, 2, 8, 32, 4096 - length, 4097 - length]) if tag in (APPEND, PREPEND) else 0
    return tag, rng.randbytes(min(max(size, 1), 4096)) if size else b''


def operations(rng):
    for length in [0, 1, 2, 20, 32, 64, 2047, 2048, 2049, 4095, 4096]:
        for _ in range(18):
            tag, argument = some_op(rng, length)
            message = rng.randbytes(length)
            made = format_rows.result((tag, argument), message)
            keys = {'fault': made.split(' ')[0] if made == 'empty' else 'too long'} if isinstance(made, str) else {'result': made.hex()}
            put('operations', 'operation', f'{NAMES[tag]} of {length} bytes' + (f' with {len(argument)}' if argument else ''),
                operation=NAMES[tag], argument=argument.hex(), message=message.hex(), **keys)


# ---- proofs

URIS = [b'', b'http://127.0.0.1:14788', b'https://a.example.org/path', b'x' * 1000]


def some_end(rng):
    pick = rng.randrange(5)
    if pick == 0:
        return 'end', PENDING, counted(rng.choice(URIS[:3]))
    if pick in (1, 2):
        return 'end', BITCOIN, number(rng.choice([0, 1, 127, 128, 800000, rng.randrange(1 << 20)]))
    return ('end', LITECOIN, number(rng.randrange(3000))) if pick == 3 else ('end', rng.randbytes(8), rng.randbytes(rng.randrange(9)))


def some_tree(rng, depth, length):
    items = []
    for _ in range(rng.choice([1, 1, 1, 2, 2, 3])):
        if depth == 0 or rng.randrange(3) == 0:
            items.append(some_end(rng))
            continue
        tag = rng.choice([SHA1, RIPEMD160, SHA256, SHA256, APPEND, PREPEND, REVERSE, HEXLIFY])
        tag = SHA256 if tag == HEXLIFY and length > 1000 else tag
        argument = rng.randbytes(rng.randrange(1, 6)) if tag in (APPEND, PREPEND) else b''
        after = HASHES[tag][1] if tag in HASHES else 2 * length if tag == HEXLIFY else length + len(argument)
        items.append(('op', (tag, argument), some_tree(rng, depth - 1, after)))
    if len(items) > 1 and rng.randrange(4) == 0:
        items.append(items[0])
    return items


def file_of(tag, digest, tree):
    return MAGIC[:31] + b'\1' + bytes([tag]) + digest + spelled(tree)


def some_file(rng, depth=4):
    tag = rng.choice([SHA1, RIPEMD160, SHA256, SHA256])
    digest = rng.randbytes(HASHES[tag][1])
    return tag, digest, some_tree(rng, depth, len(digest))


def put_proof(name, data):
    try:
        tag, digest, tree = client_rows.read_proof(data)
        put('proofs', 'proof', name, bytes=data.hex(), listing=[f'file {NAMES[tag]} {digest.hex()}', *client_rows.listing(tree, 0)])
    except Fault as fault:
        put('proofs', 'proof', name, bytes=data.hex(), fault=fault.words, place=fault.place)


def proofs(rng):
    usual = file_of(SHA256, sha256(b'hello world'), [
        ('op', (APPEND, bytes(16)), [('op', (SHA256, b''), [('end', PENDING, counted(URIS[1])), ('op', (PREPEND, b'\1\2'), [
            ('op', (RIPEMD160, b''), [('end', BITCOIN, number(358391))])])])])])
    put_proof('a usual proof', usual)
    for length in range(len(usual)):
        put_proof(f'its first {length} bytes', usual[:length])
    for place in range(len(usual)):
        for byte in sorted({usual[place] ^ 1, usual[place] ^ 0x80, 0xff, 0x67, 0x00} - {usual[place]}):
            put_proof(f'byte {place} made {byte:02x}', usual[:place] + bytes([byte]) + usual[place + 1:])
    put_proof('a byte after the tree', usual + b'\0')
    put_proof('255 operations', file_of(SHA1, bytes(20), nested(255)))
    put_proof('256 operations', file_of(SHA1, bytes(20), nested(256)))
    for size in (4076, 4077):
        put_proof(f'20 bytes and an argument of {size}', file_of(SHA1, bytes(20), [('op', (APPEND, bytes(size)), [('end', BITCOIN, b'\0')])]))
    for size in (8192, 8193):
        put_proof(f'an unknown payload of {size} bytes', file_of(SHA1, bytes(20), [('end', b'\1' * 8, bytes(size))]))
    for k in range(400):
        put_proof(f'random tree {k}', file_of(*some_file(rng)))


def nested(count):
    tree = [('end', BITCOIN, b'\0')]
    for _ in range(count):
        tree = [('op', (SHA256, b''), tree)]
    return tree


def canonical(rng):
    for k in range(130):
        tag, digest, tree = some_file(rng)
        other = some_tree(rng, 3, len(digest))
        first, second = file_of(tag, digest, tree), file_of(tag, digest, other)
        put('canonical', 'canon', f'random tree {k}', first=first.hex(), result=file_of(tag, digest, client_rows.canonical(tree)).hex())
        put('canonical', 'prune', f'random tree {k}', first=first.hex(), result=file_of(tag, digest, client_rows.pruned(tree)).hex())
        put('canonical', 'merge', f'random trees {k}', first=first.hex(), second=second.hex(),
            result=file_of(tag, digest, client_rows.canonical(tree + other)).hex())
    for k in range(5):
        one, two = some_file(rng), some_file(rng)
        put('canonical', 'merge', f'proofs of two digests {k}', first=file_of(*one).hex(), second=file_of(*two).hex(),
            fault=f'differs {NAMES[one[0]]} {one[1].hex()} {NAMES[two[0]]} {two[1].hex()}')


# ---- verdicts

def verdicts(rng):
    for k in range(300):
        target = rng.randbytes(rng.randrange(60))
        tag = rng.choice([SHA1, RIPEMD160, SHA256, SHA256])
        digest = format_rows.digest(NAMES[tag], target)
        tree = some_tree(rng, 4, len(digest))
        first = rng.choice([0, 1, 100])
        headers = [bytearray(rng.randbytes(80)) for _ in range(rng.randrange(1, 6))]
        for ops, kind, payload in client_rows.paths(tree):
            height = client_rows.read_number(payload, 0)[0] if kind == BITCOIN else None
            if height is not None and first <= height < first + len(headers) and rng.randrange(3):
                headers[height - first][36:68] = client_rows.value(ops, digest).ljust(32, b'\0')[:32]
        shown = rng.randbytes(len(target)) if rng.randrange(8) == 0 and target else target
        table = {first + i: bytes(header) for i, header in enumerate(headers)}
        line, _ = client_rows.verdict(tag, digest, tree, format_rows.digest(NAMES[tag], shown), [(BITCOIN, 'block', table)])
        put('verdicts', 'verify', f'random proof {k}', target=shown.hex(), proof=file_of(tag, digest, tree).hex(),
            headers=b''.join(headers).hex(), first=first, verdict=line)
    for k in range(200):
        target, first, height = rng.randbytes(20), 10, rng.choice([9, 10, 11, 12, 13, 14])
        ops = [(SHA256, b''), (APPEND, rng.randbytes(32)), (SHA256, b''), (SHA256, b'')][:rng.randrange(1, 5)]
        headers = [bytearray(rng.randbytes(80)) for _ in range(4)]
        root = client_rows.value(ops, sha256(target))
        if first <= height < first + 4 and len(root) == 32 and k % 4:
            headers[height - first][36:68] = root
        tree = [('end', BITCOIN, number(height))]
        for op in reversed(ops):
            tree = [('op', op, tree)]
        table = {first + i: bytes(header) for i, header in enumerate(headers)}
        line, _ = client_rows.verdict(SHA256, sha256(target), tree, sha256(target), [(BITCOIN, 'block', table)])
        put('verdicts', 'verify', f'one path {k}', target=target.hex(), proof=file_of(SHA256, sha256(target), tree).hex(),
            headers=b''.join(headers).hex(), first=first, verdict=line)


# ---- Merkle trees, rounds, blocks

def told(steps):
    return [[NAMES[tag], (argument or b'').hex()] for tag, argument in steps]


def trees(rng):
    for count in [*range(1, 66), 100, 127, 128, 129, 200]:
        leaves = [rng.randbytes(32) for _ in range(count)]
        i = rng.randrange(count)
        put('trees', 'calendar-tree', f'{count} leaves, and the path of leaf {i}', leaves=''.join(it.hex() for it in leaves),
            root=bitcoin_rows.root_of(leaves).hex(), index=i, path=told(bitcoin_rows.path(leaves, i)))
    for count in [*range(1, 40), 63, 64, 65, 100]:
        ids = [rng.randbytes(32) for _ in range(count)]
        rising, i = list(calendar_model.block_levels(ids)), rng.randrange(count)
        put('trees', 'block-tree', f'{count} transactions, and the branch of {i}', ids=''.join(it.hex() for it in ids), root=rising[-1][0].hex(),
            index=i, branch=[['right' if side else 'left', other.hex()] for side, other in calendar_model.branch_of(rising, i)])
    for k in range(30):
        key, second = rng.randbytes(rng.randrange(1, 65)), rng.randrange(1 << 32)
        tickets = [(rng.randbytes(rng.randrange(1, 65)), rng.randbytes(16)) for _ in range(rng.randrange(1, 9))]
        signed = struct.pack('>I', second) + bitcoin_rows.root_of([sha256(digest + nonce) for digest, nonce in tickets])
        put('trees', 'commitment', f'a round of {len(tickets)}', key=key.hex(), second=second, digests=[it.hex() for it, _ in tickets],
            nonces=[it.hex() for _, it in tickets], commitment=(signed + hmac.digest(key, signed, 'sha256')[:8]).hex())


def some_transaction(rng, has_witness):
    inputs = [rng.randbytes(36) + counted(rng.randbytes(rng.randrange(4))) + rng.randbytes(4) for _ in range(rng.randrange(1, 4))]
    outputs = [rng.randbytes(8) + counted(rng.randbytes(rng.randrange(30))) for _ in range(rng.randrange(1, 4))]
    middle = bytes([len(inputs)]) + b''.join(inputs) + bytes([len(outputs)]) + b''.join(outputs)
    version, lock = rng.randbytes(4), rng.randbytes(4)
    witness = b''.join(bytes([2]) + counted(rng.randbytes(3)) + counted(b'') for _ in inputs)
    return version + b'\0\1' + middle + witness + lock if has_witness else version + middle + lock


def some_block(rng, count):
    body = bytes([count]) + b''.join(some_transaction(rng, rng.randrange(2)) for _ in range(count))
    header = bytearray(rng.randbytes(80))
    found = bitcoin_rows.Reader(bytes(header) + body).block()[1]
    if rng.randrange(5):
        header[36:68] = list(calendar_model.block_levels([bitcoin_rows.twice(it) for it in found]))[-1][0]
    return bytes(header) + body


def blocks(rng):
    for k in range(60):
        data = some_block(rng, rng.randrange(1, 9))
        put_block(f'random block {k}', data)
    data = some_block(rng, 2)
    for length in sorted(set(range(0, len(data), 3)) | {80, 81, len(data) - 1}):
        put_block(f'the first {length} bytes of a block', data[:length])
    for place in range(80, len(data), 2):
        put_block(f'byte {place} of a block made ff', data[:place] + b'\xff' + data[place + 1:])
    put_block('a byte after a block', data + b'\0')


def put_block(name, data):
    fault = bitcoin_rows.fault_of(data)
    if fault != 'a block':
        reason, _, place = fault.rpartition(' at ')
        put('blocks', 'block', name, bytes=data.hex(), fault=reason, place=int(place))
        return
    root, found = bitcoin_rows.Reader(data).block()
    ids = [bitcoin_rows.twice(it) for it in found]
    put('blocks', 'block', name, bytes=data.hex(), root=root.hex(), ids=[it.hex() for it in ids],
        computed=list(calendar_model.block_levels(ids))[-1][0].hex())


# ---- journals

class Journal:
    """A journal with true values, as it grows."""

    def __init__(self):
        self.groups, self.commitments, self.covered, self.tips = [], [], 0, []

    def group(self, entries):
        self.groups.append(b'\xa5' + store_rows.group_body(entries))

    def commit(self, payload):
        self.commitments.append(payload)
        return 1, payload

    def tip(self):
        count = len(self.commitments) - self.covered
        root = bitcoin_rows.root_of([sha256(it) for it in self.commitments[self.covered:]])
        self.tips.append((self.covered, count, root))
        return 2, struct.pack('>QQ', self.covered, count) + root

    def anchor(self, rng, which):
        first, count, root = self.tips[which]
        prefix, suffix = rng.randbytes(rng.randrange(0, 40)), rng.randbytes(rng.randrange(0, 9))
        reached, steps = bitcoin_rows.twice(prefix + root + suffix), []
        for _ in range(rng.randrange(0, 4)):
            side, other = rng.randrange(2), rng.randbytes(32)
            steps.append(bytes([side]) + other)
            reached = bitcoin_rows.twice(reached + other if side else other + reached)
        self.covered = first + count
        self.tips = []
        return 3, (struct.pack('>QQQ', first, count, rng.randrange(900000)) + reached + struct.pack('>H', len(prefix)) + prefix
                   + struct.pack('>H', len(suffix)) + suffix + bytes([len(steps)]) + b''.join(steps))

    def bytes(self):
        return b'OTSCAL\x02\n' + b''.join(self.groups) + b'\0'


def some_journal(rng):
    journal = Journal()
    for _ in range(rng.randrange(1, 9)):
        pick = rng.randrange(4)
        if pick < 2 or len(journal.commitments) == journal.covered:
            journal.group([journal.commit(rng.randbytes(44)) for _ in range(rng.randrange(1, 4))])
        elif pick == 2 or not journal.tips:
            if not journal.tips or journal.tips[-1][0] + journal.tips[-1][1] != len(journal.commitments):
                journal.group([journal.tip()])
        else:
            journal.group([journal.anchor(rng, rng.randrange(len(journal.tips)))])
    return journal


def described(data):
    """The lines of `list`, or what is wrong."""
    if len(data) <= 9:
        return []
    entries, _ = store_rows.read_journal(data)
    records, lines, index = store_rows.Records(entries), [], 0
    del records
    for kind, payload in entries:
        if kind == 1:
            lines.append(f'commit {index} {payload.hex()}')
            index += 1
        elif kind == 2:
            tip = store_rows.Tip(payload)
            lines.append(f'tip {tip.first} {tip.count} {tip.root.hex()}')
        else:
            anchor = store_rows.Anchor(payload)
            lines.append(f'anchor {anchor.first} {anchor.count} {anchor.height} {anchor.root.hex()}')
    return lines


def put_journal(name, data):
    try:
        put('journals', 'journal', name, bytes=data.hex(), records=described(data))
    except store_rows.Refused as refused:
        word, _, place = str(refused).partition(' ')
        if word == 'bad':
            put('journals', 'journal', name, bytes=data.hex(), fault='bad record', place=int(place))
        elif word == 'damaged':
            put('journals', 'journal', name, bytes=data.hex(), fault='damaged', place=int(place))
        else:
            put('journals', 'journal', name, bytes=data.hex(), fault=str(refused))


def journals(rng):
    for k in range(120):
        journal = some_journal(rng)
        data = journal.bytes()
        put_journal(f'random journal {k}', data)
        records = store_rows.Records(store_rows.read_journal(data)[0])
        for commitment in journal.commitments[:3] + [rng.randbytes(44)]:
            put('journals', 'answer', f'of random journal {k}', journal=data.hex(), commitment=commitment.hex(), answer=answered(records, commitment))
    data = some_journal(rng).bytes()
    for length in range(0, len(data), 2):
        put_journal(f'the first {length} bytes of a journal', data[:length])
    for place in range(0, len(data), 3):
        put_journal(f'byte {place} of a journal made 01', data[:place] + b'\1' + data[place + 1:]) if place < 20 else None
    for k in range(12):
        for name, spoilt in spoilt_journals(rng):
            put_journal(f'{name}, {k}', spoilt)
    put_journal('bytes after the closed gate', data + b'\xa5\xff\xff')
    put_journal('version 1', b'OTSCAL\x01\n' + data[8:])


def spoilt_journals(rng):
    """Journals of whole groups with a record that may not stand where it does."""
    for name, kind, change in (('a commitment of 45 bytes', 1, lambda it: it + b'\0'), ('a record of kind 4', 4, lambda it: it),
                               ('a tip from the next commitment on', 2, lambda it: it[:7] + bytes([it[7] + 1]) + it[8:]),
                               ('a tip of one commitment less', 2, lambda it: it[:15] + bytes([it[15] - 1]) + it[16:]),
                               ('a tip of 49 bytes', 2, lambda it: it + b'\0')):
        journal = some_journal(rng)
        entry = journal.commit(rng.randbytes(44))
        entry = journal.tip() if kind == 2 else entry
        if kind == 2:
            journal.group([(1, journal.commitments[-1])])
        journal.group([(kind, change(entry[1]))])
        yield name, journal.bytes()


def answered(records, commitment):
    """The tree of an answer in hexadecimal, or its words."""
    i = records.index(commitment)
    if i is None:
        return 'not found'
    anchor = records.covering(i)
    if anchor is None:
        return 'pending'
    leaves = [sha256(it) for it in records.commitments[anchor.first:anchor.first + anchor.count]]
    steps = [(SHA256, b'')] + [(tag, argument or b'') for tag, argument in bitcoin_rows.path(leaves, i - anchor.first)]
    steps += [(PREPEND, anchor.prefix)] * bool(anchor.prefix) + [(APPEND, anchor.suffix)] * bool(anchor.suffix) + [(SHA256, b'')] * 2
    for side, other in anchor.steps:
        steps += [(APPEND if side else PREPEND, other)] + [(SHA256, b'')] * 2
    tree = [('end', BITCOIN, number(anchor.height))]
    for step in reversed(steps):
        tree = [('op', step, tree)]
    return spelled(tree).hex()


# ---- messages

REFUSED = {'400': 'bad request', '404': 'not found', '405': 'method not allowed', '411': 'length required', '413': 'too large'}


def put_request(name, data):
    said = http_rows.read_request(http_rows.Link(data))
    if said == 'closed':
        return
    word, _, rest = said.partition(' ')
    if word == 'refused':
        put('http', 'request', name, bytes=data.hex(), status=int(rest), word=REFUSED[rest])
    else:
        put('http', 'request', name, bytes=data.hex(), asks=said.replace('timestamp ', 'commitment '))


def requests(rng):
    post = b'POST /digest HTTP/1.1\r\nHost: a\r\nContent-Length: 4\r\n\r\nabcd'
    put_request('a digest', post)
    for length in range(1, len(post)):
        put_request(f'its first {length} bytes', post[:length])
    for method in (b'GET', b'POST', b'PUT', b'HEAD', b'get'):
        for target in (b'/digest', b'/digest/', b'/', b'/timestamp/', b'/timestamp/00', b'/timestamp/0', b'/timestamp/0g', b'/timestamp/aB',
                       b'/records/0', b'/records/', b'/records/01', b'/records/9223372036854775807', b'/records/9223372036854775808', b'*'):
            for version in (b'HTTP/1.0', b'HTTP/1.1', b'HTTP/2.0'):
                put_request(f'{method.decode()} {target.decode()} {version.decode()}', method + b' ' + target + b' ' + version + b'\r\n\r\n')
    for digits in (126, 128, 130):
        put_request(f'{digits} digits of a commitment', b'GET /timestamp/' + b'a' * digits + b' HTTP/1.1\r\n\r\n')
    for value in (b'0', b'1', b'64', b'65', b'+4', b'4 ', b' 4', b'04', b'', b'4,4', b'0x4', b'9' * 30):
        put_request(f'a length of "{value.decode()}"', b'POST /digest HTTP/1.1\r\nContent-Length:' + value + b'\r\n\r\n' + b'd' * 64)
    for extra in (b'Content-Length: 4', b'Transfer-Encoding: chunked', b'transfer-encoding: identity', b'Bad Name: 1', b'NoColon'):
        put_request(f'a field {extra.decode()}', b'POST /digest HTTP/1.1\r\nContent-Length: 4\r\n' + extra + b'\r\n\r\nabcd')
    for count in (63, 64, 65):
        put_request(f'{count} fields', b'GET / HTTP/1.1\r\n' + b'A: b\r\n' * count + b'\r\n')


def replies(rng):
    def put_reply(name, data):
        words, body = http_rows.read_body(http_rows.Link(data))
        put('http', 'reply', name, bytes=data.hex(), **({'outcome': words} if body is None else {'body': body.hex()}))

    whole = b'HTTP/1.1 200 OK\r\nContent-Length: 5\r\n\r\nhello'
    put_reply('a reply', whole)
    for length in range(0, len(whole)):
        put_reply(f'its first {length} bytes', whole[:length])
    for status in (100, 199, 201, 204, 301, 404, 500, 503, 999):
        put_reply(f'status {status}', b'HTTP/1.1 %d Word\r\n\r\n' % status)
    for line in (b'Content-Length: 5', b'Content-Length: 6', b'Content-Length: +5', b'Transfer-Encoding: chunked', b'X: y'):
        put_reply(f'a field {line.decode()}', b'HTTP/1.1 200 OK\r\n' + line + b'\r\n\r\nhello')
    for size in (9999, 10000, 10001):
        put_reply(f'a body of {size} bytes with no length', b'HTTP/1.1 200 OK\r\n\r\n' + b'd' * size)
        put_reply(f'a length of {size}', b'HTTP/1.1 200 OK\r\nContent-Length: %d\r\n\r\n' % size + b'd' * min(size, 10))


def addresses(rng):
    pieces = [b'http://a', b'http://a:1', b'http://a:65535', b'http://a:65536', b'http://a:0', b'http://a:01', b'http://', b'https://a', b'http://a/',
              b'http://A-b.c', b'http://a_b', b'http://' + b'h' * 253, b'http://' + b'h' * 254, b'', b'http://a:']
    lists = pieces + [b','.join([one, two]) for one in pieces[:4] for two in pieces] + [b','.join(b'http://h%d' % k for k in range(n)) for n in (15, 16, 17)]
    for data in lists:
        found, bad = http_rows.addresses(data)
        if bad:
            put('http', 'addresses', f'a list of {data.count(b",") + 1}', list=data.decode(), place=int(bad.split()[2]), https=bad.endswith('true'))
        else:
            put('http', 'addresses', f'a list of {len(found)}', list=data.decode(), addresses=[[host, port] for _, host, port in found])


# ---- chains

def chains(rng):
    for k in range(40):
        header, headers = bytes(80), []
        for _ in range(rng.randrange(1, 5)):
            bits = rng.choice([0x207fffff, 0x207fffff, 0x207fffff, 0x1d00ffff, 0x20800001, 0])
            link = client_rows.block_hash(header) if headers and rng.randrange(6) else rng.randbytes(32)
            while True:
                header = rng.randbytes(4) + link + rng.randbytes(36) + struct.pack('<I', bits) + rng.randbytes(4)
                if bits != 0x207fffff or rng.randrange(8) == 0 or client_rows.header_fault(header, None) is None:
                    break
            headers.append(header)
        first = rng.randrange(5)
        fault = next(((first + i, why) for i, it in enumerate(headers) for why in [client_rows.header_fault(it, headers[i - 1] if i else None)] if why), None)
        keys = {'fault': fault[1], 'height': fault[0]} if fault else {'tip': client_rows.block_hash(headers[-1])[::-1].hex()}
        put('verdicts', 'chain', f'random headers {k}', headers=b''.join(headers).hex(), first=first, **keys)


def main():
    for seed, make in enumerate((numbers, hashes, operations, proofs, canonical, verdicts, chains, trees, blocks, journals, requests, replies, addresses)):
        make(random.Random(2026 + seed))
    total, bad = 0, False
    for file, lines in sorted(MADE.items()):
        text = ''.join(json.dumps(line) + '\n' for line in lines)
        path, total = f'{FOLDER}/{file}.jsonl', total + len(lines)
        if sys.argv[1:] == ['--check']:
            with open(path, encoding='utf8') as kept:
                if kept.read() != text:
                    print(f'{path} is another')
                    bad = True
            continue
        with open(path, 'w', encoding='utf8') as out:
            out.write(text)
    kinds = {}
    for lines in MADE.values():
        for line in lines:
            kinds[line['kind']] = kinds.get(line['kind'], 0) + 1
    print(f'{total} vectors of {len(kinds)} kinds: ' + ', '.join(f'{count} {kind}' for kind, count in kinds.items()))
    sys.exit(1 if bad else 0)


if __name__ == '__main__':
    main()
