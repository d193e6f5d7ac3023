#!/usr/bin/python3
"""Makes the transcript that the rows of the format are to have, with a plain model of the format.

    interop/format_rows.py [--write]
    interop/format_rows.py pairs        prints the rows on random trees, as they stand in that script

reads the script crates/ots_format_rows/stdin, whose language the heads of that crate's modules describe, and compares the
crate's stdout with what this model says of each line. With --write it writes that file. The program is compared with
the same file by `rt ci`.

The model spells numbers, applies operations, reads trees and proofs, brings them to their canonical form, joins and
prunes them, and looks heights up in tables of headers, all by itself or with the reader of client_rows.py; hashes are
those of hashlib, and RIPEMD-160 is written out below, from its authors' paper. It runs nothing of this repository. It is
run by hand, takes a minute or two, and ends with status 1 at a difference.
"""

import functools
import hashlib
import os
import sys

from client_rows import (FORK, HASHES, KECCAK, LITECOIN, MAGIC, MOST_BYTES, MOST_MESSAGE, MOST_OPERATIONS, MOST_PAYLOAD,
                         MOST_URI, Fault, Reader, payload_fault, read_number)
from upgrades import APPEND, BITCOIN, HEXLIFY, PENDING, PREPEND, REVERSE, RIPEMD160, SHA1, SHA256, counted, number

CRATE = os.path.join(os.path.dirname(os.path.dirname(os.path.abspath(__file__))), 'crates', 'ots_format_rows')


# ---- RIPEMD-160, of Dobbertin, Bosselaers and Preneel (1996)

ROWS = [[11, 14, 15, 12, 5, 8, 7, 9, 11, 13, 14, 15, 6, 7, 9, 8], [12, 13, 11, 15, 6, 9, 9, 7, 12, 15, 11, 13, 7, 8, 7, 7],
        [13, 15, 14, 11, 7, 7, 6, 8, 13, 14, 13, 12, 5, 5, 6, 9], [14, 11, 12, 14, 8, 6, 5, 5, 15, 12, 15, 14, 9, 9, 8, 6],
        [15, 12, 13, 13, 9, 5, 8, 6, 14, 11, 12, 11, 8, 6, 5, 5]]
RHO = [7, 4, 13, 1, 10, 6, 15, 3, 12, 0, 9, 5, 2, 14, 11, 8]
LEFT = [0, 0x5a827999, 0x6ed9eba1, 0x8f1bbcdc, 0xa953fd4e]
RIGHT = [0x50a28be6, 0x5c4dd124, 0x6d703ef3, 0x7a6d76e9, 0]
MASK = 0xffffffff
MIX = [lambda x, y, z: x ^ y ^ z, lambda x, y, z: x & y | ~x & z, lambda x, y, z: (x | ~y) ^ z,
       lambda x, y, z: x & z | y & ~z, lambda x, y, z: x ^ (y | ~z)]


def line(h, words, order, constants, mixes):
    """One of the two lines of five rounds."""
    a, b, c, d, e = h
    for turn in range(5):
        for i in order:
            x = a + mixes[turn](b, c, d) + words[i] + constants[turn] & MASK
            s = ROWS[turn][i]
            a, b, c, d, e = e, (x << s | x >> 32 - s) + e & MASK, b, (c << 10 | c >> 22) & MASK, d
        order = [RHO[i] for i in order]
    return a, b, c, d, e


@functools.lru_cache(None)
def ripemd160(data):
    h = [0x67452301, 0xefcdab89, 0x98badcfe, 0x10325476, 0xc3d2e1f0]
    padded = data + b'\x80' + bytes((55 - len(data)) % 64) + (8 * len(data)).to_bytes(8, 'little')
    for at in range(0, len(padded), 64):
        words = [int.from_bytes(padded[at + i:at + i + 4], 'little') for i in range(0, 64, 4)]
        left = line(h, words, range(16), LEFT, MIX)
        right = line(h, words, [(9 * i + 5) % 16 for i in range(16)], RIGHT, MIX[::-1])
        h = [h[(i + 1) % 5] + left[(i + 2) % 5] + right[(i + 3) % 5] & MASK for i in range(5)]
    return b''.join(word.to_bytes(4, 'little') for word in h)


def digest(name, data):
    return ripemd160(data) if name == 'ripemd160' else hashlib.new(name, data).digest()


# ---- words

NAMES = {}
TAGS = {'sha1': SHA1, 'ripemd160': RIPEMD160, 'sha256': SHA256, 'append': APPEND, 'prepend': PREPEND,
        'reverse': REVERSE, 'hexlify': HEXLIFY}
WORDS = {tag: word for word, tag in TAGS.items()}


def split_times(word):
    word, _, times = word.partition('*')
    return word, int(times or 1)


def bytes_of(text):
    out = b''
    for word in text.split(' '):
        if word not in ('', '-'):
            part, times = split_times(word)
            if part in NAMES:
                out += NAMES[part] * times
            elif part.startswith('"') and part.endswith('"') and len(part) > 1:
                out += part[1:-1].encode() * times
            else:
                assert part == part.lower(), part
                out += bytes.fromhex(part) * times
    return out


def numbered(first, last, words):
    """The bytes of these words for each number."""
    for number in range(first, last + 1) if first <= last else range(first, last - 1, -1):
        height = bytes([128 + number % 128, 128 + number // 128 % 128, 64 + number // 16384])
        forms = {'@4': number.to_bytes(4, 'big'), '@3': height, '@d': b'%04d' % number}
        yield b''.join(forms[word] if word in forms else bytes_of(word) for word in words.split(' '))


def op_of(word):
    name, _, argument = word.partition(':')
    return TAGS[name], bytes_of(argument)


def ops_of(text):
    ops = []
    for word in text.split(' '):
        if word not in ('', '-'):
            name, times = (word, 1) if ':' in word else split_times(word)
            ops += [op_of(name)] * times
    return ops


def told(data):
    if not data:
        return '-'
    if len(data) > 1 and data == data[:1] * len(data):
        return f'{data[:1].hex()}*{len(data)}'
    if len(data) <= 512:
        return data.hex()
    return f'{len(data)} bytes of SHA-256 {hashlib.sha256(data).hexdigest()}'


def yes(is_so):
    return 'yes' if is_so else 'no'


def order(values):
    return ' '.join(''.join('<' if a < b else '=' if a == b else '>' for b in values) for a in values)


# ---- numbers

READ = {'short': 'short', 'padded': 'not minimal', 'large': 'too large'}


def about_number(word, rest):
    if word == 'write':
        spelled = number(int(rest))
        out = spelled + b'\x55' * (10 - len(spelled))
        return f'{told(out)} {len(spelled)} {len(spelled)} {about_number("read", out.hex())}'
    value, used = read_number(bytes_of(rest), 0)
    if word == 'read':
        if used is None:
            return f'{READ[value]} fed {"more" if value == "short" else READ[value]}'
        return f'{value} in {used} fed {value}'
    if used is None:
        return 'more' if value == 'short' else READ[value]
    return f'too short {value}' if value < 1 else f'too long {value}' if value > 4096 else str(value)


# ---- hashes

def about_hash(word, rest):
    if word == 'tag':
        return f'{TAGS[rest]:02x} {HASHES[TAGS[rest]][1]}'
    if word == 'whole':
        return ripemd160(bytes_of(rest)).hex()
    if word == 'by':
        return ripemd160(bytes_of(rest.split(' ', 1)[1])).hex()
    if word == 'pieces':
        name, rest = rest.split(' ', 1)
        return digest(name, b''.join(bytes_of(part) for part in rest.split(' | '))).hex()
    if word == 'digest':
        data = bytes_of(rest)
        return data.hex() if len(data) in (20, 32) else 'none'
    first, second = (bytes_of(part) for part in rest.split(' | '))
    is_digest = [len(data) in (20, 32) for data in (first, second)]
    return yes(first == second if all(is_digest) else is_digest == [False, False])


# ---- operations

def result(op, message):
    """What an operation makes of a message, or why nothing."""
    tag, argument = op
    most = 2048 if tag == HEXLIFY and len(message) <= MOST_MESSAGE else MOST_MESSAGE
    if len(message) > most:
        return f'too long {len(message)} {most}'
    if tag in HASHES:
        return digest(HASHES[tag][0], message)
    if tag in (REVERSE, HEXLIFY):
        return 'empty' if not message else message[::-1] if tag == REVERSE else message.hex().encode()
    made = message + argument if tag == APPEND else argument + message
    return made if len(made) <= MOST_MESSAGE else f'too long {len(made)} {MOST_MESSAGE}'


def result_length(op, length):
    if length > 10000:
        return f'too long {length} {MOST_MESSAGE}'
    made = result(op, bytes(length))
    return made if isinstance(made, str) else str(len(made))


def value(ops, message):
    for op in ops:
        message = result(op, message)
        if isinstance(message, str):
            break
    return message


def said(made):
    return made if isinstance(made, str) else told(made)


def in_place(op, message):
    return f'in place {said(result(op, message))} yes'


def spelled_op(op):
    tag, argument = op
    return bytes([tag]) + (counted(argument) if tag in (APPEND, PREPEND) else b'')


def said_op(op):
    tag, argument = op
    return WORDS[tag] + (' ' + told(argument) if tag in (APPEND, PREPEND) else '')


def said_ops(ops):
    return ' '.join(map(said_op, ops))


def about_op(word, rest):
    if word in ('argument', 'borrowed', 'message'):
        data = bytes_of(rest)
        if word != 'message' and not 1 <= len(data) <= 4096:
            return f'too long {len(data)}' if data else 'empty'
        return f'{told(data)} {told(data)}'
    if word == 'list':
        return f'0 {said_ops(ops_of(rest))} copied {said_ops(ops_of(rest))}'
    if word == 'order':
        return order(ops_of(rest))
    if word == 'length':
        length, op = rest.split(' ')
        return result_length(op_of(op), int(length))
    op, _, rest = rest.partition(' ')
    op, data = op_of(op), bytes_of(rest)
    if word == 'copy':
        return f'{said_op(op)} yes'
    if word == 'spell':
        return f'{told(spelled_op(op))} yes'
    if word == 'apply':
        return f'{said(result(op, data))} {in_place(op, data)}'
    there = f'{result_length(op, len(data))} {in_place(op, data)}'
    return f'{there} yes {there}'


# ---- attestations

def said_end(kind, payload):
    first, at = read_number(payload, 0)
    if kind == PENDING:
        return f'"{payload[at:].decode()}"'
    if kind in (BITCOIN, LITECOIN):
        return f'{"bitcoin" if kind == BITCOIN else "litecoin"} {first}'
    return f'unknown {told(kind)} {told(payload)}'


def rank(kind, payload):
    first, at = read_number(payload, 0)
    return kind, first if kind in (BITCOIN, LITECOIN) else payload[at:] if kind == PENDING else payload


def uri_fault(data):
    if len(data) > MOST_URI:
        return f'too long {len(data)}'
    for at, byte in enumerate(data):
        if not (chr(byte).isalnum() and byte < 128 or byte in b'._/:-'):
            return f'bad byte at {at}'
    return None


def known_fault(kind, payload):
    return payload_fault(kind, payload) if kind in (PENDING, BITCOIN, LITECOIN) else None


def about_attestation(word, rest):
    if word == 'check':
        return uri_fault(bytes_of(rest)) or 'a uri'
    if word == 'uri':
        text = uri_fault(bytes_of(rest)) or f'"{bytes_of(rest).decode()}"'
        return f'{text} where it stands {text}'
    parts = [(bytes_of(part.split(' ', 1)[0]), bytes_of(part.split(' ', 1)[1])) for part in rest.split(' | ')]
    if word == 'order':
        return order([rank(*part) for part in parts])
    [(kind, payload)] = parts
    assert len(payload) <= MOST_PAYLOAD
    if word == 'spell':
        spelled = b'\0' + kind + counted(payload)
        return f'{told(spelled)} yes {len(spelled)} {len(spelled)}'
    there = known_fault(kind, payload) or said_end(kind, payload)
    return f'{there} where it stands {there}'


# ---- trees: lists of tokens, each FORK, ('op', (tag, argument)) or ('end', kind, payload)

def length_after(op, length):
    tag, argument = op
    return HASHES[tag][1] if tag in HASHES else length * (2 if tag == HEXLIFY else 1) + len(argument)


class Nodes:
    """The open nodes of a tree, each as the length of its message and its depth."""

    def __init__(self, length, depth):
        self.open, self.forked = [(length, depth)], False

    def last(self):
        return self.open[-1]

    def take(self, token):
        """Whether a token may stand there, as to lengths and depths."""
        if token == FORK:
            self.forked = True
            return True
        length, depth = self.open[-1] if self.forked else self.open.pop()
        self.forked = False
        if token[0] == 'op':
            length = length_after(token[1], length)
            self.open.append((length, depth + 1))
            return length <= MOST_MESSAGE and depth < MOST_OPERATIONS
        return True


def token_at(reader, nodes):
    """The next token, or its fault."""
    tag = reader.tag()
    if tag == FORK:
        if nodes.forked:
            raise Fault(reader.token, 'fork after fork')
        return FORK
    if tag == 0:
        return reader.attestation()
    if tag not in WORDS:
        raise Fault(reader.token, 'keccak' if tag == KECCAK else 'unknown operation')
    argument = reader.part(1, MOST_MESSAGE, 'argument too long') if tag in (APPEND, PREPEND) else b''
    if nodes.last()[1] == MOST_OPERATIONS:
        raise Fault(reader.token, 'too deep')
    if length_after((tag, argument), nodes.last()[0]) > MOST_MESSAGE:
        raise Fault(reader.token, 'result too long')
    return 'op', (tag, argument)


def read_tree(data, length=32, depth=0, at=0):
    """The tokens of the tree that begins there, and the place after it."""
    reader, nodes, tokens = Reader(data, at), Nodes(length, depth), []
    while nodes.open:
        tokens.append(token_at(reader, nodes))
        nodes.take(tokens[-1])
    return tokens, reader.at


def spelled_token(token):
    if token == FORK:
        return b'\xff'
    return spelled_op(token[1]) if token[0] == 'op' else b'\0' + token[1] + counted(token[2])


def spelled(tokens):
    return b''.join(map(spelled_token, tokens))


def depths(tokens):
    nodes, found = Nodes(1, 0), []
    for token in tokens:
        found.append(nodes.last()[1])
        nodes.take(token)
    return found


def is_sound(tokens, length, depth):
    nodes = Nodes(length, depth)
    return all([nodes.take(token) for token in tokens])


def beside(first, second):
    place = max(at for at, depth in enumerate(depths(first)) if depth == 0 and first[at] != FORK)
    return first[:place] + [FORK] + first[place:] + second


def paths(tokens):
    """The operations and the attestation of each path."""
    found, nodes, forked, ops = [], [0], False, []
    for token in tokens:
        if token == FORK:
            forked = True
            continue
        depth = nodes[-1] if forked else nodes.pop()
        forked = False
        del ops[depth:]
        if token[0] == 'op':
            ops.append(token[1])
            nodes.append(depth + 1)
        else:
            found.append((ops[:], token[1], token[2]))
    return found


def made_tree(text):
    trees = []
    for step in text.split(' , '):
        word, _, rest = step.partition(' ')
        if word == 'single':
            *ops, end = rest.split(' ')
            kind, _, payload = end.partition(':')
            trees.append([('op', op) for op in ops_of(' '.join(ops))] + [('end', bytes_of(kind), bytes_of(payload))])
        elif word == 'read':
            trees.append(read_tree(bytes_of(rest))[0])
        elif word == 'under':
            trees.append([('op', op) for op in ops_of(rest)] + trees.pop())
        else:
            second = trees.pop()
            trees.append(beside(trees.pop(), second))
    return trees.pop()


def numbers_of(text):
    return [int(word) for word in text.split(' ') if word != '-']


PIECE = 24_566


def written(tokens, capacity, failing):
    """What a sink takes. A tree is written in pieces of at least this many bytes, but for the last one."""
    text = spelled(tokens)
    pieces = -(-len(text) // PIECE)
    fits = [i for i in range(1, pieces + 1) if i not in failing and i * PIECE <= capacity]
    if len(fits) == pieces or not failing:
        return f'{told(text)} yes'
    return f'write fault, large pieces {next(i for i in range(pieces + 1) if i + 1 not in fits)} yes'


def uri_of(payload):
    return payload[read_number(payload, 0)[1]:].decode()


def about_tree(word, rest):
    if word == 'room':
        rooms = ' '.join(yes(int(count) < 1 << 32) for count in rest.split(' '))
        return f'{rooms} {told(spelled([FORK, ("end", BITCOIN, number(0)), ("end", BITCOIN, number(7))]))}'
    if word == 'make':
        tree = made_tree(rest)
        at = ' '.join(map(str, depths(tree)))
        return f'{told(spelled(tree))} {len(spelled(tree))} yes {at} listed {at}'
    if word == 'sound':
        length, depth, rest = rest.split(' ', 2)
        tree = made_tree(rest)
        return f'{yes(is_sound(tree, int(length), int(depth)))} {len(spelled(tree))}'
    left, rest = rest.split(' | ')
    tree = made_tree(rest)
    if word == 'write':
        capacity, failing = left.split(' ', 1)
        return written(tree, int(capacity), numbers_of(failing))
    name, data = left.split(' ', 1)
    data = bytes_of(data)
    if len(data) != HASHES[TAGS[name]][1] or not is_sound(tree, len(data), 0):
        return 'no proof'
    if word == 'proof':
        return str(len(spelled(tree)))
    found = [f'path {i} {len(ops)} "{uri_of(payload)}" {told(value(ops, data))}'
             for i, (ops, kind, payload) in enumerate(paths(tree)) if kind == PENDING]
    return ' '.join([str(len(found))] + (found if len(found) <= 10 else found[-1:]))


# ---- reading

def outcome(data, length, depth):
    """The place after a tree, or its fault, and how many bytes show which of them it is."""
    def answer(count):
        try:
            return read_tree(data[:count], length, depth)[1]
        except Fault as fault:
            return fault
    found = answer(len(data))
    least, most = -1, len(data)
    while isinstance(found, Fault) and found.words != 'truncated' and most - least > 1:
        middle = (least + most) // 2
        fault = answer(middle)
        if isinstance(fault, Fault) and fault.words == 'truncated':
            least = middle
        else:
            most = middle
    return found, most


def said_outcome(found, after):
    if isinstance(found, Fault):
        return f'fault {found.place} {found.words} after {after}'
    return f'tree of {found} yes'


def runs(answers):
    text, last, times = '', None, 0
    for answer in [*answers, None]:
        if times and answer != last:
            text += f' {last} times {times};'
            times = 0
        last, times = answer, times + 1
    return text[1:]


def about_pieces(pieces):
    came, said_so_far = b'', []
    for piece in pieces:
        came += piece
        found, shown = outcome(came, 32, 0)
        if isinstance(found, Fault) and found.words == 'truncated':
            said_so_far.append('more;')
        elif isinstance(found, Fault):
            again = ' '.join([said_outcome(found, 0)] * 3)
            return ' '.join(said_so_far + [said_outcome(found, len(came)), again])
        else:
            used = found - len(came) + len(piece)
            return ' '.join(said_so_far + [f'done {used} {said_outcome(found, 0)}'])
    return ' '.join(said_so_far + [said_outcome(found, len(came))])


def said_token(token):
    return 'fork' if token == FORK else said_op(token[1]) if token[0] == 'op' else said_end(*token[1:])


def about_next(pieces):
    said_so_far, data, nodes, place, kept = [], b'', Nodes(32, 0), 0, 0
    for piece in pieces:
        data = data[:place + kept] + piece
        reader = Reader(data, place)
        try:
            token = token_at(reader, nodes)
        except Fault as fault:
            if fault.words != 'truncated':
                return ' '.join(said_so_far + [f'fault {fault.place} {fault.words}'])
            kept += len(piece)
            said_so_far.append(f'none at {place}')
            continue
        nodes.take(token)
        used, place, kept = reader.at - place - kept, reader.at, 0
        said_so_far.append(f'{used} {yes(not nodes.open)} {said_token(token)}')
        if not nodes.open:
            break
        said_so_far.append(f'at {place}')
    return ' '.join(said_so_far)


def about_reading(word, rest):
    if word == 'pieces':
        return about_pieces([bytes_of(part) for part in rest.split(' | ')])
    if word == 'next':
        return about_next([bytes_of(part) for part in rest.split(' | ')])
    if word == 'token':
        reader = Reader(bytes_of(rest), 0)
        try:
            token = token_at(reader, Nodes(1, 0))
            return f'{reader.at} {said_token(token)}'
        except Fault as fault:
            return fault.words
    if word == 'tokens':
        data = bytes_of(rest.split(' ', 1)[1])
        return f'{read_tree(data)[1]} yes'
    length, depth, rest = rest.split(' ', 2)
    length, depth = int(length), int(depth)
    size = 0
    if word == 'by':
        size, rest = rest.split(' ', 1)
        size = int(size)
    data = bytes_of(rest)
    if word == 'cuts':
        return runs(said_outcome(outcome(data[:end], length, depth)[0], end) for end in range(len(data) + 1))
    found, shown = outcome(data, length, depth)
    if word == 'tree':
        return said_outcome(found, len(data))
    if word == 'by':
        return said_outcome(found, min(-(-shown // size) * size, len(data)))
    return runs(said_outcome(found, first if first >= shown else len(data)) for first in range(len(data) + 1))


# ---- proof files

def read_file(data):
    """The name of the hash, the digest and the tokens of a proof file."""
    if len(data) > MOST_BYTES:
        raise Fault(0, None)
    if data[:31] != MAGIC[:len(data)]:
        raise Fault(0, 'bad magic' if len(data) >= 31 else 'truncated')
    if len(data) < 31:
        raise Fault(0, 'truncated')
    if len(data) == 31 or data[31] != 1:
        raise Fault(31, 'truncated' if len(data) == 31 else 'bad version')
    if len(data) == 32 or data[32] not in HASHES:
        raise Fault(32, 'truncated' if len(data) == 32 else 'keccak' if data[32] == KECCAK else 'bad hash operation')
    name, length = HASHES[data[32]]
    if len(data) < 33 + length:
        raise Fault(33, 'truncated')
    tokens, end = read_tree(data, length, 0, 33 + length)
    if end < len(data):
        raise Fault(end, 'trailing bytes')
    return name, data[33:33 + length], tokens


def said_fault(fault):
    return f'fault {fault.place} {fault.words}' if fault.words else 'too big'


def said_file(data):
    try:
        return f'{read_file(data)[0]} {len(data)} yes'
    except Fault as fault:
        return said_fault(fault)


def reads(data, cuts, most=1 << 16):
    """How often a source is read that gives so many bytes at a time, the last time to see that it has ended."""
    count, left = 1, len(data)
    while left:
        left -= min(left, cuts[count - 1] if count <= len(cuts) else most, most)
        count += 1
    return count


def about_file(word, rest):
    if word == 'read':
        return said_file(bytes_of(rest))
    if word == 'cuts':
        data = bytes_of(rest)
        return runs(f'{said_file(data[:end])} {said_file(data[:end])}' for end in range(len(data) + 1))
    if word == 'write':
        failing, data = rest.split(' | ')
        data = bytes_of(data)
        pieces = [33 + len(read_file(data)[1]), len(data)]
        failed = [i for i in numbers_of(failing) if i <= 2]
        taken = ([0] + pieces)[failed[0] - 1] if failed else len(data)
        return f'{yes(not failed)} {taken} yes'
    cuts, failing, data = rest.split(' | ')
    data = bytes_of(data)
    if word == 'source':
        is_fault = min(numbers_of(failing) or [1 << 64]) <= reads(data, numbers_of(cuts))
        return 'read fault' if is_fault else said_file(data)
    name, limit, cuts = cuts.split(' ', 2)
    if min(numbers_of(failing) or [1 << 64]) <= reads(data, numbers_of(cuts)):
        return 'read fault'
    return f'too long {limit}' if len(data) > int(limit) else digest(name, data).hex()


# ---- canonical forms

def grouped(found, depth):
    """The canonical tokens of paths that have their first operations, so many, in common."""
    ends, after = {}, {}
    for path in found:
        if len(path[0]) == depth:
            ends[rank(*path[1:])] = ('end', *path[1:])
        else:
            after.setdefault(path[0][depth], []).append(path)
    items = [[ends[key]] for key in sorted(ends)]
    items += [[('op', op)] + grouped(after[op], depth + 1) for op in sorted(after)]
    tokens = []
    for item in items[:-1]:
        tokens += [FORK] + item
    return tokens + items[-1]


def canonical(tokens):
    return grouped(paths(tokens), 0)


def pruned(form):
    """The first of the paths of a canonical form to the least height of Bitcoin, or all where there is none."""
    found = paths(form)
    heights = [rank(kind, payload)[1] for _, kind, payload in found if kind == BITCOIN]
    if not heights:
        return form
    ops, kind, payload = next(path for path in found if path[1] == BITCOIN and rank(*path[1:])[1] == min(heights))
    return [('op', op) for op in ops] + [('end', kind, payload)]


def named(data):
    return next((name for name, known in NAMES.items() if known == data), told(data))


def said_tree(tokens):
    text = spelled(tokens)
    return ' '.join(named(spelled_token(token)) for token in tokens) if len(text) <= 2000 else told(text)


def said_form(tokens, form):
    return f'canonical {yes(form == tokens)} yes equal yes'


def joined(first, second):
    if first[:2] != second[:2]:
        return f'differ {first[0]} {first[1].hex()} {second[0]} {second[1].hex()}'
    return f'{first[0]} {first[1].hex()} {said_tree(grouped(paths(first[2]) + paths(second[2]), 0))}'


def about_canon(word, rest):
    if word in ('merge', 'pair'):
        first, second = (read_file(bytes_of(part)) for part in rest.split(' | '))
        if word == 'merge':
            return joined(first, second)
        both = [f'{said_tree(form)} {said_form(tree, form)} pruned {said_tree(pruned(form))} ;'
                for _, _, tree in (first, second) for form in [canonical(tree)]]
        return f'{both[0]} {both[1]} {joined(first, second)}'
    trees = [read_tree(bytes_of(part))[0] for part in rest.split(' | ')]
    if word == 'equal':
        return yes(canonical(trees[0]) == canonical(trees[1]))
    [tree] = trees
    form = canonical(tree)
    if word == 'form':
        return f'{said_tree(form)} {said_form(tree, form)}'
    if word == 'is':
        return yes(form == tree)
    if word == 'prune':
        return said_tree(pruned(form))
    return f'{len(spelled(tree))} {len(spelled(form))} {said_form(tree, form)} {len(spelled(pruned(form)))}'


# ---- what calendars are asked for

def pairs_of(data, tokens):
    """The pairs of a URI and a message, as they first stand, each with the depth of its deepest place."""
    found = {}
    for ops, kind, payload in paths(tokens):
        if kind == PENDING:
            pair = uri_of(payload), value(ops, data)
            found[pair] = max(found.get(pair, 0), len(ops))
    return found


def completed(data, tokens, trees):
    answers = dict(zip(pairs_of(data, tokens), trees))
    found = []
    for ops, kind, payload in paths(tokens):
        found.append((ops, kind, payload))
        tree = answers.get((uri_of(payload), value(ops, data))) if kind == PENDING else None
        found += [(ops + more, kind, payload) for more, kind, payload in paths(tree or [])]
    return grouped(found, 0)


def about_pairs(word, rest):
    if word == 'bitcoin':
        return yes(any(kind == BITCOIN for _, kind, _ in paths(read_tree(bytes_of(rest))[0])))
    file, *trees = rest.split(' | ')
    _, data, tokens = read_file(bytes_of(file))
    found = pairs_of(data, tokens)
    if word == 'of':
        each = [f'"{uri}" {told(message)} {depth};' for (uri, message), depth in found.items()]
        return ' '.join([str(len(found)), yes(not found)] + (each if len(each) <= 10 else each[-1:]))
    trees = [None if part == '-' else read_tree(bytes_of(part))[0] for part in trees]
    fit = all(tree is None or is_sound(tree, len(message), depth)
              for tree, ((_, message), depth) in zip(trees, found.items()))
    if word == 'fit':
        return yes(fit)
    assert fit and len(trees) == len(found)
    return said_tree(completed(data, tokens, trees))


# ---- verdicts

def table_of(text):
    """The headers by their heights."""
    first, _, rest = text.partition(' ')
    data = bytes_of(rest)
    return {} if first == '-' else {int(first) + at // 80: data[at:at + 80] for at in range(0, len(data), 80)}


def confirmed(data, tokens, tables):
    """The chain, the height and the time of the least block of Bitcoin that a path confirms, or of Litecoin."""
    for kind, word, table in zip((BITCOIN, LITECOIN), ('bitcoin', 'litecoin'), tables):
        heights = [rank(kind, payload)[1] for ops, its, payload in paths(tokens) if its == kind
                   and table.get(rank(kind, payload)[1], bytes(80))[36:68] == value(ops, data)]
        if heights:
            return f'{word} {min(heights)} {int.from_bytes(table[min(heights)][68:72], "little")}'
    return None


def checked(data, tables):
    try:
        name, message, tokens = read_file(data)
    except Fault as fault:
        return said_fault(fault)
    return f'{name} {message.hex()} {confirmed(message, tokens, tables) or "none"}'


def about_verdict(word, rest):
    if word == 'value':
        ops, message = rest.split(' | ')
        return said(value(ops_of(ops), bytes_of(message)))
    parts = rest.split(' | ')
    if word == 'of':
        target, file, *tables = parts
        _, data, tokens = read_file(bytes_of(file))
        return confirmed(data, tokens, map(table_of, tables)) or 'no path' if data == bytes_of(target) else 'no digest'
    if word == 'on':
        return about_verdict('of', ' | '.join([parts[0], parts[3], parts[1], parts[2]]))
    if word == 'source':
        cuts, failing, table, file = parts
        data = bytes_of(file)
        is_fault = min(numbers_of(failing) or [1 << 64]) <= reads(data, numbers_of(cuts))
        return 'read fault' if is_fault else checked(data, [table_of(table), {}])
    if word == 'room':
        return ' '.join([str(256 * (4096 + 2) + TOKEN_READER + 65)] * 3)
    if word == 'by':
        parts[0] = parts[0].split(' ', 1)[1]
    tables = [table_of(part) for part in parts[:2]]
    data = b''.join(map(bytes_of, parts[2:]))
    if word == 'cuts':
        return runs(f'{checked(data[:end], tables)} {checked(data[:end], tables)} {said_file(data[:end])}'
                    for end in range(len(data) + 1))
    return checked(data, tables)


# ---- random trees

# What a reader of tokens keeps: the bytes of a cut token, 64 more, and eight bytes for each open node.
TOKEN_READER = 8203 + 64 + 8 * 256

STEPS = 'A3 A5 L2 P 02 08 f00101 f0020101 f00102 f10101 f10102 f2'.split()


class Random:
    """Numbers by a fixed linear congruence."""

    def __init__(self, state):
        self.state = state

    def number(self):
        self.state = (self.state * 6364136223846793005 + 1442695040888963407) % (1 << 64)
        return self.state // 8589934592 % 251


def some_path(rng, before):
    alike = rng.number() % 4
    steps = [step for at, step in enumerate(before) if at < alike and step >= 4]
    own = rng.number() % 4
    kinds = 1 + rng.number() % 8
    steps += [4 + rng.number() % kinds for _ in range(own)]
    return steps + [rng.number() % 4]


def some_tree(rng):
    """The words of a tree whose paths may share less with their neighbours than they could."""
    listed, before = [], []
    for _ in range(1 + rng.number() % 14):
        path = some_path(rng, before)
        common = next((at for at, (a, b) in enumerate(zip(before, path)) if a != b or a < 4), 0)
        listed.append((path, min(common, rng.number() % 4)))
        before = path
    words = []
    for at, (path, shared) in enumerate(listed):
        for depth in range(shared, len(path)):
            later = next((it for _, it in listed[at + 1:] if it <= depth), -1)
            words += ['ff'] * (later == depth) + [STEPS[path[depth]]]
    return ' '.join(words)


def random_pairs():
    rng = Random(2026)
    for _ in range(400):
        print(f'canon pair FILE {some_tree(rng)} | FILE {some_tree(rng)}')


# ---- the transcript

ABOUT = {'number': about_number, 'hash': about_hash, 'op': about_op, 'attestation': about_attestation,
         'tree': about_tree, 'read': about_reading, 'file': about_file, 'canon': about_canon, 'pairs': about_pairs,
         'verdict': about_verdict}


def transcript(script):
    for text in script.splitlines():
        yield text
        word, _, rest = text.partition(' ')
        if word == 'let':
            name, _, rest = rest.partition(' ')
            NAMES.setdefault(name, bytes_of(rest))
        elif word == 'each':
            name, first, last, words = rest.split(' ', 3)
            NAMES.setdefault(name, b''.join(numbered(int(first), int(last), words)))
        elif word not in ('', '#'):
            question, _, rest = rest.partition(' ')
            yield f'= {ABOUT[word](question, rest)}'


def main():
    if sys.argv[1:] == ['pairs']:
        random_pairs()
        return
    with open(os.path.join(CRATE, 'stdin'), encoding='utf8') as script:
        made = ''.join(text + '\n' for text in transcript(script.read()))
    name = os.path.join(CRATE, 'stdout')
    if sys.argv[1:] == ['--write']:
        with open(name, 'w', encoding='utf8') as file:
            file.write(made)
        return
    with open(name, encoding='utf8') as file:
        differs = file.read() != made
    print(f'{made.count(chr(10))} lines, {"another transcript" if differs else "no difference"}')
    sys.exit(1 if differs else 0)


if __name__ == '__main__':
    main()
