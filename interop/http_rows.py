#!/usr/bin/python3
"""Makes the transcript that the rows of a calendar's conversations are to have, with a plain model of them.

    interop/http_rows.py [--write]

reads the script crates/ots_http_rows/stdin, whose language the head of that crate describes, and compares the crate's
stdout with what this model says of each line. With --write it writes that file. The program is compared with the same
file by `rt ci`.

The model reads addresses and messages by a grammar of its own (RFC 9112, with the limits and the table of statuses that
docs/GUIDE.md tells), counts what is read of a link and which call fails, and stamps and completes proofs; trees and
proofs are read and brought to their canonical form by client_rows.py, the tree over several files is that of stamps.py,
and hashes are those of hashlib. It runs nothing of this repository. It is run by hand, takes some seconds, and ends
with status 1 at a difference.
"""

import hashlib
import os
import re
import sys

from client_rows import (Fault, Script, canonical, joined, pending_pairs, read_proof, read_tree,
                         request_for_commitment, request_for_digest, spelled_proof, text_of, words_of)
from stamps import deepest, root, sha256, way
from upgrades import APPEND, SHA256, paths, spelled

CRATE = os.path.join(os.path.dirname(os.path.dirname(os.path.abspath(__file__))), 'crates', 'ots_http_rows')

MOST_HEAD, MOST_FIELDS, MOST_DIGEST, MOST_BODY = 8192, 64, 64, 10_000
MOST_CALENDARS = 16
TOLD = 512


class Failed(Exception):
    """A call that fails."""


# ---- what is told

def told(data):
    """Bytes in hexadecimal digits, many by their number and their SHA-256."""
    if not data:
        return '-'
    if len(data) > 1 and data == data[:1] * len(data):
        return f'{data[:1].hex()}*{len(data)}'
    if len(data) <= TOLD:
        return data.hex()
    return f'{len(data)} bytes of SHA-256 {hashlib.sha256(data).hexdigest()}'


def quoted(data):
    """Bytes as a text in quotes."""
    if len(data) > TOLD:
        return told(data)
    ends = {13: '\\r', 10: '\\n'}
    return '"' + ''.join(ends.get(byte) or (chr(byte) if 32 <= byte < 127 and chr(byte) not in '"\\' else f'\\x{byte:02x}')
                         for byte in data) + '"'


# ---- addresses

def addresses(data):
    """The texts, hosts and ports of a list of addresses, or the words for the one that is bad."""
    found, place = [], 0
    for piece in data.split(b','):
        form = re.fullmatch(rb'http://([A-Za-z0-9.-]{1,253})(?::([1-9][0-9]{0,4}))?', piece)
        port = int(form[2] or 80) if form else 0
        if not form or port > 65535 or piece in [text for text, _, _ in found] or len(found) == MOST_CALENDARS:
            return None, f'bad at {place} {"true" if piece.startswith(b"https://") else "false"}'
        found.append((piece, form[1].decode(), port))
        place += len(piece) + 1
    return found, None


def about_addresses(data):
    found, bad = addresses(data)
    return bad or ' '.join(f'{text.decode()} is {host} {port};' for text, host, port in found)


# ---- heads of messages: RFC 9112, sections 2 to 5, with bare line feeds and without folded fields

class Partial(Exception):
    """Bytes end within a head."""


class Bad(Exception):
    """Bytes are no head, whatever follows them."""


TOKEN = frozenset(b"!#$%&'*+-.^_`|~0123456789abcdefghijklmnopqrstuvwxyzABCDEFGHIJKLMNOPQRSTUVWXYZ")


class Cursor:
    """Reads the head in bytes."""

    def __init__(self, data):
        self.data, self.at = data, 0

    def peek(self):
        if self.at == len(self.data):
            raise Partial
        return self.data[self.at]

    def take(self):
        byte = self.peek()
        self.at += 1
        return byte

    def word(self, text):
        for byte in text:
            if self.take() != byte:
                raise Bad

    def run(self, holds):
        start = self.at
        while holds(self.peek()):
            self.at += 1
        return self.data[start:self.at]

    def end_of_line(self):
        byte = self.take()
        if byte == 13:
            byte = self.take()
        if byte != 10:
            raise Bad

    def empty_lines(self):
        while self.peek() in b'\r\n':
            self.end_of_line()

    def version(self):
        self.word(b'HTTP/1.')
        if self.take() not in b'01':
            raise Bad

    def text(self):
        """What may stand in a value: tabs, blanks, signs and bytes past ASCII."""
        return self.run(lambda byte: byte == 9 or byte >= 32 and byte != 127)

    def fields(self):
        found = []
        while self.peek() not in b'\r\n':
            if len(found) == MOST_FIELDS:
                raise Bad
            name = self.run(TOKEN.__contains__)
            if not name or self.take() != ord(':'):
                raise Bad
            value = self.text().strip(b' \t')
            self.end_of_line()
            found.append((name.lower(), value))
        self.end_of_line()
        return found

    def request(self):
        self.empty_lines()
        method = self.run(TOKEN.__contains__)
        if not method or self.take() != 32:
            raise Bad
        target = self.run(lambda byte: byte > 32 and byte != 127)
        if not target or self.take() != 32:
            raise Bad
        try:
            target.decode()
        except UnicodeDecodeError as error:
            raise Bad from error
        self.version()
        self.end_of_line()
        return method, target, self.fields()

    def reply(self):
        self.empty_lines()
        self.version()
        self.word(b' ')
        digits = bytes(self.take() for _ in range(3))
        if not digits.isdigit():
            raise Bad
        if self.peek() not in b'\r\n':
            self.word(b' ')
            self.text()
        self.end_of_line()
        return int(digits), self.fields()


# ---- what is read of a link

class Link:
    """Bytes that come in pieces of these sizes, and then all at once; the call of this number fails."""

    def __init__(self, data, pieces=(), failing=0):
        self.data, self.pieces, self.failing = data, list(pieces), failing
        self.given, self.calls = 0, 0

    def read(self, most):
        self.calls += 1
        if self.calls == self.failing:
            raise Failed
        count = min(most, len(self.data) - self.given)
        if self.pieces:
            count = min(count, max(self.pieces.pop(0), 1))
        self.given += count
        return self.data[self.given - count:self.given]


def read_head(link, form):
    """The bytes that came, and the head that they begin with and its length; or nothing, or 'ended'. A head is looked for in
    the first piece, and in each that ends a line after a first byte that is none of an empty line."""
    came = b''
    while len(came) < MOST_HEAD:
        piece = link.read(MOST_HEAD - len(came))
        if not piece:
            return came, None, 0 if came else 'ended'
        first, came = not came, came + piece
        if first or came.strip(b'\r\n') and b'\n' in piece:
            cursor = Cursor(came)
            try:
                return came, form(cursor), cursor.at
            except Partial:
                pass
            except Bad:
                break
    return came, None, 0


def read_on(link, came, end):
    """What has come once so many bytes have, or all."""
    while len(came) < end:
        piece = link.read(end - len(came))
        if not piece:
            break
        came += piece
    return came


def stated_length(fields, most):
    """The length of the body that fields state: a number, or 'none', 'bad' or 'great'."""
    lengths = [value for name, value in fields if name == b'content-length']
    if any(name == b'transfer-encoding' for name, _ in fields) or len(lengths) > 1:
        return 'bad'
    if not lengths:
        return 'none'
    if not re.fullmatch(rb'[0-9]+', lengths[0]):
        return 'bad'
    return int(lengths[0]) if int(lengths[0]) <= most else 'great'


def read_request(link):
    """What a calendar reads."""
    came, head, length = read_head(link, Cursor.request)
    if head is None:
        return 'closed' if length == 'ended' else 'refused 400'
    method, target, fields = head
    if target == b'/digest':
        if method != b'POST':
            return 'refused 405'
        size = stated_length(fields, MOST_DIGEST)
        if size in ('none', 'bad', 'great', 0):
            return 'refused ' + {'none': '411', 'bad': '400', 'great': '413', 0: '400'}[size]
        body = read_on(link, came, length + size)[length:length + size]
        return f'digest {body.hex()}' if len(body) == size else 'refused 400'
    if target.startswith(b'/records/'):
        if method != b'GET':
            return 'refused 405'
        number = target[len(b'/records/'):]
        if not re.fullmatch(rb'0|[1-9][0-9]*', number) or int(number) >= 2 ** 63:
            return 'refused 400'
        return f'records {int(number)}'
    if not target.startswith(b'/timestamp/'):
        return 'refused 404'
    if method != b'GET':
        return 'refused 405'
    digits = target[len(b'/timestamp/'):]
    if len(digits) > 2 * MOST_DIGEST:
        return 'refused 404'
    if not re.fullmatch(rb'([0-9A-Fa-f]{2})+', digits):
        return 'refused 400'
    return f'timestamp {digits.decode().lower()}'


def read_body(link):
    """What a client reads: words, and the body of a good reply."""
    came, head, length = read_head(link, Cursor.reply)
    if head is None:
        return 'not http', None
    status, fields = head
    if status != 200:
        return f'status {status}', None
    size = stated_length(fields, MOST_BODY)
    if size in ('bad', 'great'):
        return {'bad': 'not http', 'great': 'too long'}[size], None
    if size == 'none':
        body = read_on(link, came, length + MOST_BODY + 1)[length:]
        return ('too long', None) if len(body) > MOST_BODY else ('good', body)
    body = read_on(link, came, length + size)[length:length + size]
    return ('good', body) if len(body) == size else ('not http', None)


def read_reply(link):
    words, body = read_body(link)
    return words if body is None else f'good {told(body)}'


def came(reader, link):
    """What a reader says of a link, and how many bytes it has read."""
    try:
        return reader(link), link.given
    except Failed:
        return 'fault', link.given


def runs(answers):
    """Answers of the same words, each with as many bytes as the one before it or one more, told together."""
    groups = []
    for words, read in answers:
        if groups and groups[-1][0] == words and read in (groups[-1][2], groups[-1][2] + 1):
            groups[-1][2:] = [read, groups[-1][3] + 1]
        else:
            groups.append([words, read, read, 1])
    return [f'{words} read {first} to {last} times {times};' for words, first, last, times in groups]


def about_reading(reader, how, data, sizes):
    if how == 'cut':
        links = [Link(data, sizes)]
    else:
        links = [Link(data), Link(data, [1] * len(data))]
    said = ['%s read %d;' % came(reader, link) for link in links]
    if how == 'faults':
        said += runs(came(reader, Link(data, [1] * len(data), failing)) for failing in range(1, len(data) + 1))
    return ' '.join(said)


# ---- messages that are written

# RFC 9110, section 15, and RFC 4918, section 11.5
PHRASES = {400: 'Bad Request', 404: 'Not Found', 405: 'Method Not Allowed', 411: 'Length Required',
           413: 'Content Too Large', 500: 'Internal Server Error', 503: 'Service Unavailable', 507: 'Insufficient Storage'}
STATUSES = {'bad request': 400, 'not found': 404, 'pending': 404, 'method not allowed': 405, 'length required': 411,
            'too large': 413, 'clock': 500, 'busy': 503, 'disk': 503, 'nonce': 503,
            'upstream': 503, 'journal full': 507}


def reply_head(status, phrase, kind, length):
    return (f'HTTP/1.1 {status} {phrase}\r\nContent-Type: {kind}\r\nContent-Length: {length}\r\n'
            'Connection: close\r\n\r\n').encode()


def host_of(address):
    """The host of a request's field, with a port that is not the default."""
    [(_, host, port)], _ = addresses(address.encode())
    return host + (f':{port}' if port != 80 else '')


def pieces_of(kind, rest, script):
    """The pieces in which a message is written."""
    if kind == 'tree':
        data = script.bytes_of(rest)
        assert spelled(read_tree(data, 0, 32, 0)) == data and len(data) < 24_000
        head = reply_head(200, 'OK', 'application/octet-stream', len(data))
        return [head + data] if len(data) <= 10_000 else [head, data]
    if kind == 'page':
        data = script.bytes_of(rest)
        if len(data) > 10_000:
            return None
        return [reply_head(200, 'OK', 'application/octet-stream', len(data)) + data]
    first = text_of(rest[0])
    if kind == 'records':
        return [(f'GET /records/{int(rest[1])} HTTP/1.1\r\nHost: {host_of(first)}\r\n'
                 'Accept: application/vnd.opentimestamps.v1\r\nConnection: close\r\n\r\n').encode()]
    if kind == 'text':
        body = first.encode() + b'\n'
        return [reply_head(STATUSES[first], PHRASES[STATUSES[first]], 'text/plain', len(body)) + body]
    data = script.bytes_of(rest[1:])
    return [{'post': request_for_digest, 'get': request_for_commitment}[kind](data)(host_of(first))]


def about_writing(room, failing, pieces):
    """What a link takes of the pieces of a message, or that it is none that may be written."""
    taken = b''
    if pieces is None:
        return f'fault {quoted(taken)}'
    for number, piece in enumerate(pieces, 1):
        if number == failing or len(taken) + len(piece) > room:
            return f'fault {quoted(taken)}'
        taken += piece
    return f'done {quoted(taken)}'


# ---- runs that ask calendars

class Conversation:
    """A link to a calendar whose calls are counted with those of the whole run."""

    def __init__(self, dialer, reply):
        self.dialer, self.reply, self.at = dialer, reply, 0

    def read(self, most):
        self.dialer.call()
        piece = self.reply[self.at:self.at + most]
        self.at += len(piece)
        return piece


class Dialer:
    """The calendars of a run, by their replies."""

    def __init__(self, replies, failing):
        self.replies, self.failing, self.calls, self.sent = list(replies), failing, 0, []

    def call(self):
        self.calls += 1
        if self.calls in self.failing:
            raise Failed

    def exchange(self, address, request):
        reply = self.replies.pop(0) if self.replies else b''
        self.call()
        _, host, port = address
        sent = [host, port, b'']
        self.sent.append(sent)
        self.call()
        sent[2] = request(host + (f':{port}' if port != 80 else ''))
        return read_body(Conversation(self, reply))

    def ask(self, address, request, length, depth):
        """The words for what a calendar answers, and its tree where that is good."""
        try:
            words, body = self.exchange(address, request)
        except Failed:
            return 'unreachable;', None
        if body is None:
            return f'{words};', None
        try:
            tree = read_tree(body, 0, length, depth)
        except Fault as fault:
            return f'bad reply at {fault.place}: {fault.words};', None
        return f'{tokens(tree)} tokens;', tree


def tokens(tree):
    """How many tokens a tree has: a fork before each item but the last."""
    return len(tree) - 1 + sum(1 if item[0] == 'end' else 1 + tokens(item[2]) for item in tree)


def files(count):
    """The digests and the nonces of the first files."""
    return [(sha256(b'file %d' % n), bytes((16 * n + k) % 256 for k in range(16))) for n in range(count)]


def leaves_of(count):
    return tuple(sha256(digest + nonce) for digest, nonce in files(count))


def stamped(dialer, calendars, message, depth):
    """The words for what came of posting a digest, and the good trees."""
    answers = [dialer.ask(address, request_for_digest(message), len(message), depth) for address in calendars]
    return ' '.join(words for words, _ in answers), [tree for _, tree in answers if tree]


def proved(dialer, calendars, count, place):
    """The same for the root of the first files, and the proof of one of them, if there is one."""
    leaves = leaves_of(count)
    said, good = stamped(dialer, calendars, root(leaves), deepest(count))
    if not good:
        return said, None
    digest, nonce = files(count)[place]
    tree = canonical([item for tree in good for item in tree])
    for op in reversed([(APPEND, nonce), (SHA256, b''), *way(leaves, place)]):
        tree = [('op', op, tree)]
    return said, (SHA256, digest, tree)


def upgraded(dialer, calendars, data):
    """The words for what came of asking for each pair, and the proof that the answers complete."""
    tag, digest, tree = read_proof(data)
    said, answers = [], {}
    for (uri, message), depth in pending_pairs(digest, tree).items():
        words = 'skipped;'
        for address in [address for address in calendars if address[0].decode() == uri][:1]:
            words, answers[uri, message] = dialer.ask(address, request_for_commitment(message), len(message), depth)
        said.append(f'{told(message)} {uri} {words}')
    made = joined(digest, tree, answers)
    assert len(set(paths(made))) == len(list(paths(made)))
    return ' '.join(said), (tag, digest, made)


class HttpScript(Script):
    """The script of this crate, with the pieces of the client's."""

    def __init__(self):
        super().__init__()
        self.replies, self.failing = [], []

    def obey(self, line):
        self.said.append(line)
        if line.startswith('#') or not line:
            return
        word, *rest = words_of(line)
        if word == 'let':
            self.named[rest[0]] = self.bytes_of(rest[1:])
        elif word == 'clear':
            self.replies, self.failing = [], []
        elif word == 'dial':
            self.replies.append(self.bytes_of(rest))
        elif word == 'fails':
            self.failing = list(map(int, rest))
        elif word in ('stamp', 'prove', 'upgrade'):
            self.ask(word, text_of(rest[0]), rest[1:])
        else:
            self.said.append('= ' + self.answer(word, rest))

    def answer(self, word, rest):
        if word == 'addresses':
            return about_addresses(self.bytes_of(rest))
        if word in ('request', 'reply'):
            sizes = list(map(int, rest[1].split(','))) if rest[0] == 'cut' else []
            data = self.bytes_of(rest[2:] if sizes else rest[1:])
            return about_reading(read_request if word == 'request' else read_reply, rest[0], data, sizes)
        if word == 'write':
            return about_writing(int(rest[0]), int(rest[1]), pieces_of(rest[2], rest[3:], self))
        assert word == 'batch', word
        count = int(rest[0])
        return f'{count} files, depth {deepest(count)} root {root(leaves_of(count)).hex()}'

    def ask(self, word, text, rest):
        calendars, _ = addresses(text.encode())
        dialer, proof = Dialer(self.replies, self.failing), None
        if word == 'stamp':
            said, _ = stamped(dialer, calendars, self.bytes_of(rest[1:]), int(rest[0]))
        elif word == 'prove':
            said, proof = proved(dialer, calendars, int(rest[0]), int(rest[1]))
        else:
            said, proof = upgraded(dialer, calendars, self.bytes_of(rest))
        self.failing = []
        self.said.append(f'= {said}'.rstrip())
        self.said += [f'sent {host} {port} {quoted(data)}' for host, port, data in dialer.sent]
        if proof:
            self.said.append(f'file {told(b"".join(spelled_proof(*proof)))}')


def main():
    script = HttpScript()
    with open(os.path.join(CRATE, 'stdin'), encoding='utf8') as lines:
        for line in lines:
            script.obey(line.rstrip('\n'))
    said = ''.join(line + '\n' for line in script.said)
    name = os.path.join(CRATE, 'stdout')
    if sys.argv[1:] == ['--write']:
        with open(name, 'w', encoding='utf8') as file:
            file.write(said)
        return
    with open(name, encoding='utf8') as file:
        kept = file.read().splitlines()
    differing = 0
    for number, (found, wanted) in enumerate(zip(kept + [''] * len(script.said), script.said), 1):
        if found != wanted:
            print(f'line {number}: {found}\n  is to be: {wanted}')
            differing += 1
    differing += abs(len(kept) - len(script.said))
    print(f'{len(script.said)} lines, {differing or "no"} difference{"s" if differing > 1 else ""}')
    sys.exit(1 if differing else 0)


if __name__ == '__main__':
    main()
