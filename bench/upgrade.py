#!/usr/bin/python3
"""Processor time and peak of memory of `ots upgrade` on proofs that are made to hurt.

    bench/upgrade.py [PROGRAM]

Nobody is asked, since no address of the list has their URI: many pairs of a URI and a message, many places of
one pair, and many URIs at one message of 4096 bytes, of six characters and, so that most of them fit, of three;
each at a quarter, a half and the whole of 4 MiB. Then a calendar that this script serves answers one message with a tree
of almost 10,000 bytes, and the proof has that message at 64, 256, 1,024, 16,384 and 65,536 places: at 64 and 256 the result is a
proof file, and at the others it is too big for one. Last, 100 and 400 messages of which each stands at 26 places, one
below the other, and an answer that has the same branch at 26 places of that kind: what is put in coincides, and fits. PROGRAM is build/ots where none is given. It needs /usr/bin/time: a child of this
script would have this script's own peak of memory.
"""

import http.server
import itertools
import os
import string
import subprocess
import sys
import tempfile
import threading

TOP = os.path.dirname(os.path.dirname(os.path.abspath(__file__)))
PROGRAM = sys.argv[1] if len(sys.argv) > 1 else os.path.join(TOP, 'build', 'ots')
PREFIX = b'\x00OpenTimestamps\x00\x00Proof\x00\xbf\x89\xe2\xe8\x84\xe8\x92\x94\x01\x08' + bytes(32)
PENDING = b'\x00' + bytes.fromhex('83dfe30d2ef90c8e')
# Append 4064 bytes to the digest's 32.
LONG = b'\xf0\xe0\x1f' + b'a' * 4064

# The characters that a URI may have.
CHARACTERS = string.ascii_letters + string.digits + '-._/:'


def end(uri):
    return PENDING + bytes([len(uri) + 1, len(uri)]) + uri


def forked(items):
    return b''.join(b'\xff' + item for item in items[:-1]) + items[-1]


def pairs(count):
    return PREFIX + forked([b'\xf0\x04' + i.to_bytes(4, 'big') + end(b'http://calendar.x') for i in range(count)])


def places(count):
    return PREFIX + LONG + forked([end(b'')] * count)


def uris(count):
    return PREFIX + LONG + forked([end(b'%06d' % i) for i in range(count)])


def short_uris(count):
    three = itertools.islice(itertools.product(CHARACTERS, repeat=3), count)
    return PREFIX + LONG + forked([end(''.join(uri).encode()) for uri in three])


def one_message(left, uri):
    """The message that `left` letters make of the digest, once for each way to append them in pieces."""
    if left == 0:
        return end(uri)
    return forked([b'\xf0' + bytes([piece]) + b'a' * piece + one_message(left - piece, uri)
                   for piece in range(1, left + 1)])


def below_each_other(item):
    """The item, and again after each two operations `reverse`, which leave the message as it was: 26 times."""
    tree = item
    for _ in range(25):
        tree = b'\xff' + item + b'\xf2\xf2' + tree
    return tree


def messages(count, uri):
    return PREFIX + forked([b'\xf0\x02' + i.to_bytes(2, 'big') + below_each_other(end(uri)) for i in range(count)])


def answer():
    """A tree of almost 10,000 bytes, most of whose tokens have one byte: 48 paths of 190 hashes each."""
    return forked([b'\xf0\x01' + bytes([i]) + b'\x08' * 190 + end(b'u') for i in range(48)])


class Calendar(http.server.BaseHTTPRequestHandler):
    def do_GET(self):
        body = self.server.body
        self.send_response(200)
        self.send_header('Content-Length', str(len(body)))
        self.end_headers()
        self.wfile.write(body)

    def log_message(self, *_):
        pass


def run(name, proof, folder, calendar='http://127.0.0.1:9', expected=1):
    old, new = os.path.join(folder, 'old'), os.path.join(folder, 'new')
    with open(old, 'wb') as file:
        file.write(proof)
    told = os.path.join(folder, 'told')
    words = ['/usr/bin/time', '-q', '-f', '%U %S %M', '-o', told]
    ended = subprocess.run(words + [PROGRAM, 'upgrade', '--calendars', calendar, old, new], stdin=subprocess.DEVNULL,
                           stdout=subprocess.DEVNULL).returncode
    if ended != expected:
        sys.exit(f'{name}: status {ended}')
    if os.path.exists(new):
        os.remove(new)
    with open(told) as file:
        user, system, peak = map(float, file.read().split())
    print(f'{name}: {len(proof)} bytes, {user + system:.2f} s, {peak / 1024:.0f} MB')


def main():
    if not os.access(PROGRAM, os.X_OK):
        sys.exit(f'{PROGRAM} is not there: ./run ots builds it')
    with tempfile.TemporaryDirectory() as folder:
        for count in (25000, 50000, 100000):
            run(f'{count} pairs', pairs(count), folder)
        for count in (85000, 170000, 340000):
            run(f'{count} places of one pair', places(count), folder)
        for count in (56000, 112000, 224000):
            run(f'{count} URIs at one message of 4096 bytes', uris(count), folder)
        for count in (69750, 139500, 279000):
            run(f'{count} URIs of three characters at it', short_uris(count), folder)
        server = http.server.HTTPServer(('127.0.0.1', 0), Calendar)
        server.body = answer()
        threading.Thread(target=server.serve_forever, daemon=True).start()
        calendar = f'http://127.0.0.1:{server.server_port}'
        for letters, expected in ((7, 1), (9, 1), (11, 8), (15, 8), (17, 8)):
            proof = PREFIX + one_message(letters, calendar.encode())
            run(f'an answer of {len(answer())} bytes at {2 ** (letters - 1)} places', proof, folder, calendar, expected)
        server.body = below_each_other(b'\x08' * 150 + end(b'u'))
        for count in (100, 400):
            run(f'an answer of {len(server.body)} bytes to {count} messages, each at 26 places one below the other',
                messages(count, calendar.encode()), folder, calendar)


if __name__ == '__main__':
    main()
