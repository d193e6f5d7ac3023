#!/usr/bin/python3
"""Makes the transcript that the rows of the client are to have, with a plain model of the client.

    interop/client_rows.py [--write]

reads the script crates/ots_client_rows/stdin, whose language the head of that crate describes, and compares the
crate's stdout with what this model says of each line. With --write it writes that file. The program is compared
with the same file by `rt ci`.

The model reads proofs, brings them to their canonical form, prunes, verifies, reads replies, addresses and words, and
counts the calls that are to fail, all by itself; hashes are those of hashlib. The tree over several files is that
of stamps.py, the spelling of trees and numbers that of upgrades.py. It runs nothing of this repository. It is run
by hand, takes some seconds, and ends with status 1 at a difference.
"""

import hashlib
import os
import re
import struct
import sys

from stamps import deepest, root, sha256, way
from upgrades import APPEND, BITCOIN, HEXLIFY, PENDING, PREPEND, REVERSE, SHA1, SHA256, apply, number, paths, spelled

CRATE = os.path.join(os.path.dirname(os.path.dirname(os.path.abspath(__file__))), 'crates', 'ots_client_rows')

MAGIC = b'\0OpenTimestamps\0\0Proof\0\xbf\x89\xe2\xe8\x84\xe8\x92\x94'
LITECOIN = bytes.fromhex('06869a0d73d71b45')
RIPEMD160, KECCAK, FORK, ATTESTATION = 0x03, 0x67, 0xff, 0x00
HASHES = {SHA1: ('sha1', 20), RIPEMD160: ('ripemd160', 20), SHA256: ('sha256', 32)}

USAGE = 'usage: ots info, canon, merge, prune, verify, stamp, upgrade, sample, chain'
MOST_BYTES = 4_194_304
MOST_HEADERS = 83_886_080
MOST_PINS = 1024
MOST_REPLY = 10_000
MOST_OPERATIONS, MOST_MESSAGE, MOST_PAYLOAD, MOST_URI = 255, 4096, 8192, 1000


class Fault(Exception):
    """Why bytes are no tree or no proof: the place of the token, and the words for the reason."""

    def __init__(self, place, words):
        super().__init__(place, words)
        self.place, self.words = place, words


class End(Exception):
    """How a run ends that does not do its work: its number and its last line."""

    def __init__(self, status, line):
        super().__init__(status, line)
        self.status, self.line = status, line


# ---- reading proofs. A tree is a list of items, ('end', kind, payload) or ('op', (tag, argument), tree).

def read_number(data, at):
    """A number and the place after it; or 'short', 'padded' or 'large' and nothing."""
    value = 0
    for i in range(10):
        if at + i >= len(data):
            return 'short', None
        byte = data[at + i]
        if i == 9 and byte > 1:
            return 'large', None
        if i > 0 and byte == 0:
            return 'padded', None
        value |= (byte & 0x7f) << 7 * i
        if byte < 0x80:
            return value, at + i + 1
    raise AssertionError('ten bytes have an answer')


def payload_fault(kind, payload):
    """What is wrong with the payload of an attestation of a kind that has a form."""
    value, at = read_number(payload, 0)
    if value == 'short':
        return 'payload short'
    if value in ('padded', 'large'):
        return 'payload number'
    if kind == PENDING:
        if value > MOST_URI:
            return 'bad uri'
        uri = payload[at:at + value]
        if len(uri) < value:
            return 'payload short'
        if not re.fullmatch(rb'[A-Za-z0-9._/:-]*', uri):
            return 'bad uri'
        at += value
    return 'payload rest' if at < len(payload) else None


class Reader:
    """Reads the tree that stands in bytes from a place on, below a message of a length and so many operations."""

    def __init__(self, data, at):
        self.data, self.at = data, at

    def part(self, least, most, words):
        """The bytes after their length, for the token at this place, which begins before."""
        length, at = read_number(self.data, self.at)
        if at is None:
            reason = {'short': 'truncated', 'padded': 'non-minimal number', 'large': 'number too large'}[length]
            raise Fault(self.token, reason)
        if length < least:
            raise Fault(self.token, 'empty argument')
        if length > most:
            raise Fault(self.token, words)
        if at + length > len(self.data):
            raise Fault(self.token, 'truncated')
        self.at = at + length
        return self.data[at:self.at]

    def tag(self):
        self.token = self.at
        if self.at >= len(self.data):
            raise Fault(self.at, 'truncated')
        self.at += 1
        return self.data[self.at - 1]

    def attestation(self):
        kind = self.data[self.at:self.at + 8]
        if len(kind) < 8:
            raise Fault(self.token, 'truncated')
        self.at += 8
        payload = self.part(0, MOST_PAYLOAD, 'payload too long')
        fault = payload_fault(kind, payload) if kind in (PENDING, BITCOIN, LITECOIN) else None
        if fault:
            raise Fault(self.token, fault)
        return ('end', kind, payload)

    def operation(self, tag, length, depth):
        token = self.token
        argument = self.part(1, MOST_MESSAGE, 'argument too long') if tag in (APPEND, PREPEND) else b''
        if depth == MOST_OPERATIONS:
            raise Fault(token, 'too deep')
        length = HASHES[tag][1] if tag in HASHES else length * (2 if tag == HEXLIFY else 1) + len(argument)
        if length > MOST_MESSAGE:
            raise Fault(token, 'result too long')
        return ('op', (tag, argument), self.tree(length, depth + 1))

    def item(self, tag, length, depth):
        if tag == KECCAK:
            raise Fault(self.token, 'keccak')
        if tag == ATTESTATION:
            return self.attestation()
        if tag not in HASHES and tag not in (APPEND, PREPEND, REVERSE, HEXLIFY):
            raise Fault(self.token, 'unknown operation')
        return self.operation(tag, length, depth)

    def tree(self, length, depth):
        items = []
        while True:
            tag = self.tag()
            if tag != FORK:
                return items + [self.item(tag, length, depth)]
            tag = self.tag()
            if tag == FORK:
                raise Fault(self.token, 'fork after fork')
            items.append(self.item(tag, length, depth))


def read_tree(data, at, length, depth):
    """The tree that these bytes are from a place on."""
    reader = Reader(data, at)
    tree = reader.tree(length, depth)
    if reader.at < len(data):
        raise Fault(reader.at, 'trailing bytes')
    return tree


def read_proof(data):
    """The tag of the hash, the digest and the tree of a proof file."""
    if data[:31] != MAGIC[:len(data)]:
        raise Fault(0, 'bad magic')
    if len(data) < 31:
        raise Fault(0, 'truncated')
    for place, allowed, words in ((31, (1,), 'bad version'), (32, HASHES, 'bad hash operation')):
        if len(data) <= place:
            raise Fault(place, 'truncated')
        if data[place] not in allowed:
            raise Fault(place, 'keccak' if (place, data[place]) == (32, KECCAK) else words)
    length = HASHES[data[32]][1]
    if len(data) < 33 + length:
        raise Fault(33, 'truncated')
    return data[32], data[33:33 + length], read_tree(data, 33 + length, length, 0)


def spelled_proof(tag, digest, tree):
    """The two pieces of a proof file: what stands before its tree, and that."""
    return MAGIC + b'\1' + bytes([tag]) + digest, spelled(tree)


# ---- trees

def order_of_end(item):
    """Attestations are in the order of their kinds, and then of their heights, URIs or payloads."""
    _, kind, payload = item
    if kind in (BITCOIN, LITECOIN):
        return kind, read_number(payload, 0)[0]
    return kind, payload[read_number(payload, 0)[1]:] if kind == PENDING else payload


def canonical(tree):
    """The tree with the same paths in canonical form."""
    ends, after = {}, {}
    for item in tree:
        if item[0] == 'end':
            ends[order_of_end(item)] = item
        else:
            after.setdefault(item[1], []).extend(item[2])
    return [ends[key] for key in sorted(ends)] + [('op', op, canonical(after[op])) for op in sorted(after)]


def heights(tree, chain):
    """The heights of a chain that paths end in."""
    return [read_number(payload, 0)[0] for _, kind, payload in paths(tree) if kind == chain]


def first_path(tree, height):
    """The first path to this height of Bitcoin, as a tree."""
    for item in tree:
        if item[0] == 'end' and heights([item], BITCOIN) == [height]:
            return [item]
        if item[0] == 'op' and height in heights(item[2], BITCOIN):
            return [('op', item[1], first_path(item[2], height))]
    raise AssertionError('no path')


def pruned(tree):
    found = heights(tree, BITCOIN)
    return first_path(canonical(tree), min(found)) if found else canonical(tree)


def value(ops, message):
    for op in ops:
        message = apply(op, message)
    return message


NAMES = {SHA1: 'sha1', RIPEMD160: 'ripemd160', SHA256: 'sha256', APPEND: 'append', PREPEND: 'prepend',
         REVERSE: 'reverse', HEXLIFY: 'hexlify'}


def listing(tree, depth):
    """The lines of `info` for a tree."""
    for item in tree:
        if item[0] == 'op':
            tag, argument = item[1]
            yield f'{depth} {NAMES[tag]}' + (f' {argument.hex()}' if argument else '')
            yield from listing(item[2], depth + 1)
        else:
            yield f'{depth} {words_of_end(item[1], item[2])}'


def words_of_end(kind, payload):
    first, at = read_number(payload, 0)
    if kind == PENDING:
        return f'pending {payload[at:].decode() or "-"}'
    if kind in (BITCOIN, LITECOIN):
        return f'{"bitcoin" if kind == BITCOIN else "litecoin"} {first}'
    return f'unknown {kind.hex()} {payload.hex() or "-"}'


# ---- what a run is done on

class Calls:
    """Calls that are counted, of which some are to fail."""

    def __init__(self, failing):
        self.failing, self.made = failing, 0

    def fails(self):
        self.made += 1
        return self.made in self.failing


class Outside:
    """The files, what is printed, the calendars and the nonces of one run."""

    def __init__(self, stage):
        self.files, self.old = dict(stage.files), stage.files
        self.shelf, self.sink = Calls(stage.failing['shelf']), Calls(stage.failing['sink'])
        self.dialer, self.draws = Calls(stage.failing['dial']), Calls(stage.failing['nonce'])
        self.replies, self.nonces = list(stage.replies.values()), stage.nonces
        self.text, self.asked = '', []

    def read(self, name):
        """A file's bytes. One call opens it, one reads it where it has bytes, and one meets its end."""
        opening = self.shelf.fails()
        if name not in self.files:
            raise End(4, f'no file {name}')
        if opening:
            raise End(6, f'read fault {name}')
        data = self.files[name]
        assert len(data) < 1024 or not self.shelf.failing, 'a long file takes more reads'
        if any([self.shelf.fails() for _ in range(2 if data else 1)]):
            raise End(6, f'read fault {name}')
        return data

    def make(self, name, pieces):
        """Makes a file. One call creates it, and one writes each of these pieces."""
        creating = self.shelf.fails()
        if name in self.files:
            raise End(5, f'exists {name}')
        if creating:
            raise End(7, f'write fault {name}')
        self.files[name] = b''
        for piece in pieces:
            if self.shelf.fails():
                raise End(7, f'write fault {name}')
            self.files[name] += piece

    def print(self, lines):
        """Prints lines in one write, where there are any."""
        if lines and self.sink.fails():
            raise End(7, None)
        self.text += ''.join(line + '\n' for line in lines)

    def draw(self):
        if self.draws.fails() or len(self.nonces) < 16:
            raise End(11, 'nonce fault')
        nonce, self.nonces = self.nonces[:16], self.nonces[16:]
        return nonce

    def ask(self, address, request, length, depth):
        """The words for what a calendar answers, and its tree where that is good."""
        reply = self.replies.pop(0) if self.replies else b''
        assert b'Content-Length' in reply or not self.dialer.failing, 'a body without a length takes more reads'
        if self.dialer.fails():
            return 'unreachable', None
        host, _, port = address[len('http://'):].partition(':')
        sent = [f'{host}:{port or 80}', b'']
        self.asked.append(sent)
        if self.dialer.fails():
            return 'unreachable', None
        sent[1] = request(host + (f':{port}' if port not in ('', '80') else ''))
        if self.dialer.fails():
            return 'unreachable', None
        return reply_of(reply, length, depth)


def reply_of(reply, length, depth):
    """What a reply says: words, and a tree where it is good."""
    head, end, body = reply.partition(b'\r\n\r\n')
    first = re.match(rb'HTTP/1\.[01] ([0-9]{3})( |\r|$)', head)
    if not end or not first:
        return 'not http', None
    status = int(first[1])
    if status != 200:
        return f'status {status}', None
    fields = [line.split(b':', 1) for line in head.split(b'\r\n')[1:]]
    lengths = [text.strip() for name, text in fields if name.lower() == b'content-length']
    if any(name.lower() == b'transfer-encoding' for name, _ in fields) or len(lengths) > 1:
        return 'not http', None
    if lengths:
        if not lengths[0].isdigit():
            return 'not http', None
        wanted = int(lengths[0])
        if wanted > MOST_REPLY:
            return 'too long', None
        if len(body) < wanted:
            return 'not http', None
        body = body[:wanted]
    elif len(body) > MOST_REPLY:
        return 'too long', None
    try:
        return 'ok', read_tree(body, 0, length, depth)
    except Fault as fault:
        return f'bad reply at {fault.place}: {fault.words}', None


def request_for_digest(digest):
    return lambda host: (f'POST /digest HTTP/1.1\r\nHost: {host}\r\nAccept: application/vnd.opentimestamps.v1\r\n'
                         f'Content-Type: application/octet-stream\r\nContent-Length: {len(digest)}\r\n'
                         'Connection: close\r\n\r\n').encode() + digest


def request_for_commitment(message):
    return lambda host: (f'GET /timestamp/{message.hex()} HTTP/1.1\r\nHost: {host}\r\n'
                         'Accept: application/vnd.opentimestamps.v1\r\nConnection: close\r\n\r\n').encode()


# ---- words

def arguments(words, places, options, several=False):
    """The values of the words after a command, by place and by option."""
    given, values, at = [], {}, 0
    while at < len(words):
        word = words[at]
        at += 1
        if word == '--':
            given += words[at:]
            break
        if not word.startswith('-') or word == '-':
            given.append(word)
            continue
        name, equals, text = word.partition('=')
        if name[2:] not in options or not name.startswith('--') or name in values:
            raise End(2, USAGE)
        if not equals:
            if at == len(words) or re.match('-.', words[at]):
                raise End(2, USAGE)
            text, at = words[at], at + 1
        values[name] = text
    if len(given) != places and not (several and len(given) > places):
        raise End(2, USAGE)
    if '' in given or any(needed and '--' + name not in values for name, needed in options.items()):
        raise End(2, USAGE)
    return given, values


def number_in(text, least, most):
    if not re.fullmatch('0|[1-9][0-9]*', text) or not least <= int(text) <= most:
        raise End(2, USAGE)
    return int(text)


def addresses(text):
    """The addresses of a list of calendars."""
    found, place = [], 0
    for piece in text.split(','):
        form = re.fullmatch(r'http://[A-Za-z0-9.-]{1,253}(:[1-9][0-9]{0,4})?', piece)
        if not form or piece in found or len(found) == 16 or form[1] and int(form[1][1:]) > 65535:
            https = piece.startswith('https://')
            raise End(14, f'{"https is not supported" if https else "bad address"} at {place}')
        found.append(piece)
        place += len(piece) + 1
    return found


# ---- commands

def proof_in(out, name):
    data = out.read(name)
    if len(data) > MOST_BYTES:
        raise End(8, f'too big {name}')
    try:
        return read_proof(data)
    except Fault as fault:
        raise End(3, f'bad proof {name} at {fault.place}: {fault.words}') from fault


def info(out, words):
    [name], _ = arguments(words, 1, {})
    tag, digest, tree = proof_in(out, name)
    out.print([f'file {NAMES[tag]} {digest.hex()}', *listing(tree, 0)])
    return 0


def write_proof(out, name, tag, digest, tree):
    pieces = spelled_proof(tag, digest, tree)
    if sum(map(len, pieces)) > MOST_BYTES:
        raise End(8, f'too big {name}')
    out.make(name, pieces)


def canon(out, words, form=canonical):
    [name, to], _ = arguments(words, 2, {})
    tag, digest, tree = proof_in(out, name)
    write_proof(out, to, tag, digest, form(tree))
    return 0


def prune(out, words):
    return canon(out, words, pruned)


def merge(out, words):
    [first, second, to], _ = arguments(words, 3, {})
    tag, digest, tree = proof_in(out, first)
    other_tag, other_digest, other = proof_in(out, second)
    if (tag, digest) != (other_tag, other_digest):
        raise End(13, f'differs {NAMES[tag]} {digest.hex()} {NAMES[other_tag]} {other_digest.hex()}')
    write_proof(out, to, tag, digest, canonical(tree + other))
    return 0


def headers_in(out, name, first):
    """The headers of a file, by their heights."""
    data = out.read(name)
    if not data or len(data) % 80 or len(data) > MOST_HEADERS:
        raise End(9, f'bad headers {min(len(data), MOST_HEADERS + 1)}')
    return {first + at // 80: data[at:at + 80] for at in range(0, len(data), 80)}


def verdict(tag, digest, tree, target, tables):
    """The line of a verdict and its number, where each chain has these headers."""
    if target != digest:
        return 'no digest', 1
    for chain, words, table in tables:
        found = [height for ops, kind, payload in paths(tree) if kind == chain
                 for height in [read_number(payload, 0)[0]]
                 if height in table and value(ops, digest) == table[height][36:68]]
        if found:
            time, = struct.unpack('<I', table[min(found)][68:72])
            return f'yes {words} {min(found)} time {time}', 0
    return 'no path', 1


def verify(out, words):
    [target, proof, headers], options = arguments(words, 3, {'from': True, 'litecoin': False, 'litecoin-from': False})
    first = number_in(options['--from'], 0, 2 ** 63 - 1)
    if ('--litecoin' in options) != ('--litecoin-from' in options):
        raise End(2, USAGE)
    litecoin = {}
    if '--litecoin' in options:
        other_first = number_in(options['--litecoin-from'], 0, 2 ** 63 - 1)
    bitcoin = headers_in(out, headers, first)
    if '--litecoin' in options:
        litecoin = headers_in(out, options['--litecoin'], other_first)
    tag, digest, tree = proof_in(out, proof)
    found = hashlib.new(NAMES[tag], out.read(target)).digest()
    line, status = verdict(tag, digest, tree, found,
                           [(BITCOIN, 'block', bitcoin), (LITECOIN, 'litecoin block', litecoin)])
    out.print([line])
    return status


def stamp(out, words):
    files, options = arguments(words, 1, {'calendars': True, 'min': True}, several=True)
    least = number_in(options['--min'], 1, 16)
    calendars = addresses(options['--calendars'])
    digests = [sha256(out.read(name)) for name in files]
    nonces = [out.draw() for _ in files]
    leaves = tuple(sha256(digest + nonce) for digest, nonce in zip(digests, nonces))
    request = request_for_digest(root(leaves))
    lines, good = [], []
    for address in calendars:
        said, tree = out.ask(address, request, 32, deepest(len(leaves)))
        lines.append(f'{address} {said}')
        good += [tree] if tree else []
    out.print(lines)
    if len(good) < least:
        raise End(10, f'too few {len(good)} of {least}')
    below = canonical([item for tree in good for item in tree])
    for i, name in enumerate(files):
        tree = below
        for op in reversed([(APPEND, nonces[i]), (SHA256, b''), *way(leaves, i)]):
            tree = [('op', op, tree)]
        write_proof(out, name + '.ots', SHA256, digests[i], tree)
        out.print([f'wrote {name}.ots'])
    return 0


def pending_pairs(digest, tree):
    """Each pair of a URI and a message that a proof asks for, with the greatest depth at which it stands."""
    found = {}
    for ops, kind, payload in paths(tree):
        if kind == PENDING:
            pair = payload[read_number(payload, 0)[1]:].decode(), value(ops, digest)
            found[pair] = max(found.get(pair, 0), len(ops))
    return found


def joined(digest, tree, answers):
    """The tree with what calendars answered after its pending attestations."""
    def after(items, message):
        more = []
        for item in items:
            more.append(item if item[0] == 'end' else ('op', item[1], after(item[2], apply(item[1], message))))
            if item[0] == 'end' and item[1] == PENDING:
                uri = item[2][read_number(item[2], 0)[1]:].decode()
                more += answers.get((uri, message)) or []
        return more
    return canonical(after(tree, digest))


def upgrade(out, words):
    [name, to], options = arguments(words, 2, {'calendars': True})
    calendars = addresses(options['--calendars'])
    tag, digest, tree = proof_in(out, name)
    lines, answers = [], {}
    for (uri, message), depth in pending_pairs(digest, tree).items():
        if uri not in calendars:
            lines.append(f'skipped {uri or "-"}')
            continue
        said, answers[uri, message] = out.ask(uri, request_for_commitment(message), len(message), depth)
        lines.append(f'{uri} {said}')
    out.print(lines)
    made = joined(digest, tree, answers)
    write_proof(out, to, tag, digest, made)
    complete = bool(heights(made, BITCOIN))
    out.print(['complete' if complete else 'pending'])
    return 0 if complete else 1


def sample(out, words):
    [text], _ = arguments(words, 1, {})
    count = number_in(text, 1, 100_000)
    digest = sha256(struct.pack('>Q', count))
    tree = [('op', (APPEND, struct.pack('>I', i)), [('op', (SHA256, b''), [('end', BITCOIN, number(i))])])
            for i in reversed(range(count))]
    file = b''.join(spelled_proof(SHA256, digest, canonical(tree)))
    half = count // 2
    header = bytes(36) + sha256(digest + struct.pack('>I', half)) + bytes.fromhex('29ab5f49') + bytes(8)
    line, status = verdict(SHA256, digest, read_proof(file)[2], digest, [(BITCOIN, 'block', {half: header})])
    out.print([f'paths {count}', f'bytes {len(file)}', f'digest {sha256(file).hex()}', line])
    return status


def target_of(bits):
    """The greatest hash that compact bits allow, as a number, or none where they stand for no target."""
    exponent, digits = bits >> 24, bits % 2 ** 23
    target = digits << 8 * (exponent - 3) if exponent >= 3 else digits >> 8 * (3 - exponent)
    return None if bits >> 23 & 1 or not 0 < target < 2 ** 256 else target


def block_hash(header):
    return sha256(sha256(header))


def header_fault(header, before):
    """Why a header is not good after the one before it, where there is one; or none."""
    if before and header[4:36] != block_hash(before):
        return 'bad link'
    target = target_of(int.from_bytes(header[72:76], 'little'))
    if target is None:
        return 'bad bits'
    return 'above target' if int.from_bytes(block_hash(header), 'little') > target else None


def pins_in(out, name):
    """The pins of a file, each a height and a hash as it is shown."""
    *lines, rest = out.read(name).decode('latin-1').split('\n')
    found = []
    for line in lines + ([rest] if rest or not lines else []):
        form = re.fullmatch('(0|[1-9][0-9]{0,18}) ([0-9a-f]{64})', line)
        whole = len(found) < len(lines) and len(found) < MOST_PINS
        if not whole or not form or int(form[1]) >= 2 ** 63:
            raise End(17, f'bad pins line {len(found) + 1}')
        found.append((int(form[1]), form[2]))
    return found


def chain(out, words):
    [name], options = arguments(words, 1, {'from': True, 'pins': False})
    first = number_in(options['--from'], 0, 2 ** 63 - 1)
    if options.get('--pins') == '':
        raise End(2, USAGE)
    headers = headers_in(out, name, first)
    pins = pins_in(out, options['--pins']) if '--pins' in options else None
    for height, header in headers.items():
        fault = header_fault(header, headers.get(height - 1))
        if fault:
            raise End(16, f'broken at {height}: {fault}')
    shown = {height: block_hash(header)[::-1].hex() for height, header in headers.items()}
    for height, hash_shown in pins or []:
        if shown.get(height) != hash_shown:
            raise End(18, f'pin fails {height}')
    last = max(headers)
    out.print([f'chain {first} to {last} tip {shown[last]}'] + ([] if pins is None else [f'pins {len(pins)}']))
    return 0


COMMANDS = {'info': info, 'canon': canon, 'merge': merge, 'prune': prune, 'verify': verify, 'stamp': stamp,
            'upgrade': upgrade, 'sample': sample, 'chain': chain}


def run(out, words):
    """The number that a run ends with."""
    try:
        try:
            if not words or words[0] not in COMMANDS:
                raise End(2, USAGE)
            return COMMANDS[words[0]](out, words[1:])
        except End as end:
            if end.line is not None:
                out.print([end.line])
            return end.status
    except End as end:
        return end.status


# ---- the script

def words_of(line):
    """The words of a line, texts in quotes with their quotes."""
    return re.findall(r'(?:"(?:[^"\\]|\\.)*"|[^ "])+', line)


def text_of(word):
    if word[0] != '"':
        return word
    return re.sub(r'\\(.)', lambda found: {'n': '\n', 'r': '\r'}.get(found[1], found[1]), word[1:-1])


def texts_of(words):
    for word in words:
        braces = re.fullmatch(r'([^"{]*)\{(\d+)\.\.(\d+)\}(.*)', word)
        if braces:
            yield from (f'{braces[1]}{n}{braces[4]}' for n in range(int(braces[2]), int(braces[3]) + 1))
        else:
            yield text_of(word)


class Stage:
    def __init__(self):
        self.files, self.replies, self.nonces = {}, {}, b''
        self.failing = {'shelf': [], 'sink': [], 'dial': [], 'nonce': []}


class Script:
    def __init__(self):
        self.named, self.stage, self.made, self.asked = {}, Stage(), {}, []
        self.said = []

    def bytes_of(self, pieces):
        return b''.join(map(self.piece, pieces))

    def piece(self, piece):
        if piece[0] == '"':
            return text_of(piece).encode()
        if piece[0] == '$':
            name, cut, end = piece[1:].partition('[..')
            return self.named[name][:int(end[:-1])] if cut else self.named[name]
        if '*' in piece:
            digits, count = piece.split('*')
            return bytes.fromhex(digits) * int(count)
        braces = re.fullmatch(r'([0-9a-f]*)\{(\d+)\.\.(\d+)\}([0-9a-f]*)', piece)
        if braces:
            return b''.join(bytes.fromhex(braces[1]) + struct.pack('>H', n) + bytes.fromhex(braces[4])
                            for n in range(int(braces[2]), int(braces[3]) + 1))
        return bytes.fromhex(piece)

    def read(self, line):
        if not line.startswith('each '):
            self.obey(line)
            return
        self.said.append(line)
        _, numbers, lines = line.split(' ', 2)
        first, last = map(int, numbers.split('..'))
        for n in range(first, last + 1):
            for part in lines.replace('@', str(n)).split('; '):
                self.obey(part)

    def obey(self, line):
        self.said.append(line)
        if line.startswith('#') or not line:
            return
        word, *rest = words_of(line)
        if word in ('ots', 'real'):
            self.run(list(texts_of(rest)))
        elif word == 'made':
            self.compare(self.made.get(rest[0]), self.bytes_of(rest[1:]))
        elif word == 'asked':
            at = int(rest[0]) - 1
            self.compare(self.asked[at][1] if at < len(self.asked) else None, self.bytes_of(rest[1:]))
        else:
            self.prepare(word, rest)

    def prepare(self, word, rest):
        stage = self.stage
        if word == 'clear':
            self.stage = Stage()
        elif word == 'let':
            self.named[rest[0]] = self.bytes_of(rest[1:])
        elif word == 'file':
            stage.files.update((name, self.bytes_of(rest[1:])) for name in texts_of(rest[:1]))
        elif word == 'nonces':
            stage.nonces = self.bytes_of(rest)
        elif word in ('shelf', 'sink'):
            stage.failing[word] = list(map(int, rest))
        elif rest[0] == 'fails':
            stage.failing[word] = list(map(int, rest[1:]))
        else:
            assert word == 'dial', word
            stage.replies[rest[0]] = self.bytes_of(rest[1:])

    def run(self, words):
        out = Outside(self.stage)
        status = run(out, words)
        self.stage.failing = Stage().failing
        self.made = {name: out.files[name] for word in words for name in (word, word + '.ots')
                     if name in out.files and name not in out.old}
        self.asked = out.asked
        self.said += out.text.splitlines()
        self.said += [f'+ {name} {len(data)}' for name, data in self.made.items()]
        self.said.append(f'= {status}' + (', asked ' + ' '.join(to for to, _ in out.asked) if out.asked else ''))

    def compare(self, found, wanted):
        if found != wanted:
            sys.exit(f'{self.said[-1]}: the model has {found.hex() if found is not None else None}')
        self.said.append('= so it is')


def main():
    script = Script()
    with open(os.path.join(CRATE, 'stdin'), encoding='utf8') as lines:
        for line in lines:
            script.read(line.rstrip('\n'))
    said = ''.join(line + '\n' for line in script.said)
    name = os.path.join(CRATE, 'stdout')
    if sys.argv[1:] == ['--write']:
        with open(name, 'w', encoding='utf8') as file:
            file.write(said)
        return
    with open(name, encoding='utf8') as file:
        differs = file.read() != said
    print(f'{len(script.said)} lines, {"another transcript" if differs else "no difference"}')
    sys.exit(1 if differs else 0)


if __name__ == '__main__':
    main()
