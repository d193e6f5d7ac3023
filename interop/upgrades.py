#!/usr/bin/python3
"""Compares `ots upgrade`, over real sockets, with a plain model in Python.

    interop/upgrades.py [NUMBER]

makes NUMBER random proofs, 500 where none is given, with pending attestations of two calendars that
this script serves, of one that refuses connections, and of one that the list does not name. It runs
`ots upgrade` on each, and compares: the lines that it prints and its status; the requests that the
calendars got, each pair of a calendar and a message once and in order; and the paths of what it wrote
with all old paths and, for each pending path with a good answer, its operations before each path of that.
What is written is also to be its own canonical form (`ots canon`).

The model has its own reader and writer of proofs, and needs no library. It ends with status 1 on a
difference. It is run by hand.
"""

import hashlib
import http.server
import os
import random
import socket
import subprocess
import sys
import tempfile
import threading

TOP = os.path.dirname(os.path.dirname(os.path.abspath(__file__)))
PROGRAM = os.path.join(TOP, 'build', 'ots')

MAGIC = b'\x00OpenTimestamps\x00\x00Proof\x00\xbf\x89\xe2\xe8\x84\xe8\x92\x94\x01'
PENDING = bytes.fromhex('83dfe30d2ef90c8e')
BITCOIN = bytes.fromhex('0588960d73d71901')
OTHER = bytes.fromhex('0102030405060708')

SHA1, RIPEMD160, SHA256, APPEND, PREPEND, REVERSE, HEXLIFY = 0x02, 0x03, 0x08, 0xf0, 0xf1, 0xf2, 0xf3


def number(n):
    """The varuint of n."""
    spelled = b''
    while n >= 0x80:
        spelled += bytes([n & 0x7f | 0x80])
        n >>= 7
    return spelled + bytes([n])


def counted(data):
    return number(len(data)) + data


def apply(op, message):
    """What an operation, a pair of its tag and its argument, makes of a message."""
    tag, argument = op
    if tag == SHA1:
        return hashlib.sha1(message).digest()
    if tag == SHA256:
        return hashlib.sha256(message).digest()
    if tag == RIPEMD160:
        from format_rows import ripemd160  # (which stands on this script's own words)
        return ripemd160(message)
    if tag == APPEND:
        return message + argument
    if tag == PREPEND:
        return argument + message
    if tag == REVERSE:
        return message[::-1]
    return message.hex().encode()


# A tree is a list of items: ('end', tag, payload), or ('op', operation, tree).

def spelled(tree):
    items = []
    for item in tree:
        if item[0] == 'end':
            items.append(b'\x00' + item[1] + counted(item[2]))
        else:
            tag, argument = item[1]
            items.append(bytes([tag]) + (counted(argument) if tag in (APPEND, PREPEND) else b'') + spelled(item[2]))
    return b''.join(b'\xff' + item for item in items[:-1]) + items[-1]


class Reader:
    def __init__(self, data):
        self.data, self.at = data, 0

    def take(self, count):
        taken = self.data[self.at:self.at + count]
        assert len(taken) == count
        self.at += count
        return taken

    def number(self):
        n = shift = 0
        while True:
            byte = self.take(1)[0]
            n |= (byte & 0x7f) << shift
            shift += 7
            if byte < 0x80:
                return n

    def item(self, tag):
        if tag == 0:
            kind = self.take(8)
            return ('end', kind, self.take(self.number()))
        argument = self.take(self.number()) if tag in (APPEND, PREPEND) else b''
        return ('op', (tag, argument), self.tree())

    def tree(self):
        items = []
        while True:
            tag = self.take(1)[0]
            if tag != 0xff:
                return items + [self.item(tag)]
            items.append(self.item(self.take(1)[0]))


def paths(tree, before=()):
    """The paths of a tree: its operations and then its attestation, in preorder."""
    for item in tree:
        if item[0] == 'end':
            yield before, item[1], item[2]
        else:
            yield from paths(item[2], before + (item[1],))


def some_op(rng):
    tag = rng.choice([SHA1, SHA256, SHA256, APPEND, PREPEND, REVERSE])
    return tag, bytes(rng.randrange(256) for _ in range(rng.randrange(1, 9))) if tag in (APPEND, PREPEND) else b''


def some_tree(rng, ends, depth):
    """A random tree, of which a path ends in one of these attestations."""
    items = []
    for _ in range(rng.choice([1, 1, 1, 2, 2, 3])):
        if depth == 0 or rng.random() < 0.4:
            items.append(('end', *rng.choice(ends)))
        else:
            items.append(('op', some_op(rng), some_tree(rng, ends, depth - 1)))
    return items


def answer(port, message):
    """The body with which the calendar at this port answers, or nothing for 404."""
    rng = random.Random(b'%d %s' % (port, message))
    if rng.random() < 0.3:
        return None
    ends = [(BITCOIN, number(rng.randrange(900000))), (OTHER, b'x'), (PENDING, counted(b'http://later'))]
    return some_tree(rng, ends, 3)


class Handler(http.server.BaseHTTPRequestHandler):
    def do_GET(self):
        message = bytes.fromhex(self.path.rsplit('/', 1)[1])
        self.server.asked.append((self.server.server_port, message))
        tree = answer(self.server.server_port, message)
        body = b'' if tree is None else spelled(tree)
        self.send_response(404 if tree is None else 200)
        self.send_header('Content-Length', str(len(body)))
        self.end_headers()
        self.wfile.write(body)

    def log_message(self, *_):
        pass


def served(asked):
    server = http.server.HTTPServer(('127.0.0.1', 0), Handler)
    server.asked = asked
    threading.Thread(target=server.serve_forever, daemon=True).start()
    return server


def refusing():
    """A port at which nobody listens, and the socket that holds it."""
    holder = socket.socket()
    holder.bind(('127.0.0.1', 0))
    return holder.getsockname()[1], holder


def model(digest, tree, ports, refused, skipped):
    """The lines, the requests and the paths that are to come."""
    lines, requests, given = [], [], {}
    found = set(paths(tree))
    for ops, kind, payload in paths(tree):
        if kind != PENDING:
            continue
        uri = payload[1:].decode()
        message = digest
        for op in ops:
            message = apply(op, message)
        if (uri, message) not in given:
            if uri == skipped:
                given[uri, message], line = None, f'skipped {uri}'
            elif uri == f'http://127.0.0.1:{refused}':
                given[uri, message], line = None, f'{uri} unreachable'
            else:
                port = ports[uri]
                requests.append((port, message))
                given[uri, message] = answer(port, message)
                line = f'{uri} ok' if given[uri, message] else f'{uri} status 404'
            lines.append(line)
        for more, end, rest in paths(given[uri, message] or []):
            found.add((ops + more, end, rest))
    complete = any(kind == BITCOIN for _, kind, _ in found)
    return lines + ['complete' if complete else 'pending'], 0 if complete else 1, requests, found


def compare(seed, folder, ports, refused, skipped, asked):
    rng = random.Random(seed)
    digest = hashlib.sha256(b'%d' % seed).digest()
    uris = [*ports, f'http://127.0.0.1:{refused}', skipped]
    ends = [(PENDING, counted(uri.encode())) for uri in uris] * 3 + [(OTHER, b'y')]
    if rng.random() < 0.3:
        ends.append((BITCOIN, number(7)))
    tree = some_tree(rng, ends, 4)
    old, new, again = (os.path.join(folder, name) for name in ('old', 'new', 'again'))
    with open(old, 'wb') as file:
        file.write(MAGIC + b'\x08' + digest + spelled(tree))
    lines, status, requests, found = model(digest, tree, ports, refused, skipped)
    asked.clear()
    calendars = ','.join(uris[:-1])
    done = subprocess.run([PROGRAM, 'upgrade', '--calendars', calendars, old, new], stdin=subprocess.DEVNULL,
                          stdout=subprocess.PIPE, check=False)
    subprocess.run([PROGRAM, 'canon', new, again], stdin=subprocess.DEVNULL, stdout=subprocess.DEVNULL, check=True)
    with open(new, 'rb') as file:
        written = file.read()
    with open(again, 'rb') as file:
        canonical = file.read()
    os.remove(new)
    os.remove(again)
    reader = Reader(written)
    prefix = reader.take(len(MAGIC) + 1 + 32)
    got = [*paths(reader.tree())]
    return (done.stdout.decode() == ''.join(line + '\n' for line in lines) and done.returncode == status
            and asked == requests and prefix == MAGIC + b'\x08' + digest and reader.at == len(written)
            and len(got) == len(set(got)) and set(got) == found and written == canonical)


def main():
    count = int(sys.argv[1]) if len(sys.argv) > 1 else 500
    if not os.access(PROGRAM, os.X_OK):
        sys.exit('build/ots is not there: ./run ots builds it')
    asked, total, wrong = [], 0, 0
    servers = [served(asked), served(asked)]
    ports = {f'http://127.0.0.1:{server.server_port}': server.server_port for server in servers}
    refused, _holder = refusing()
    with tempfile.TemporaryDirectory() as folder:
        for seed in range(count):
            if not compare(seed, folder, ports, refused, 'https://calendar.example', asked):
                print(f'proof {seed}: another answer')
                wrong += 1
            total += len(asked)
    print(f'{count} proofs, {total} requests, {wrong} differences')
    sys.exit(1 if wrong else 0)


if __name__ == '__main__':
    main()
