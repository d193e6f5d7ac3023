#!/usr/bin/python3
"""Compares `ots stamp`, over real sockets, with a plain model in Python.

    interop/stamps.py [NUMBER]

makes NUMBER runs of `ots stamp`, 300 where none is given, each with 1 to 9 random files and 1 to 4
calendars: three that this script serves and one that refuses connections. A calendar answers a random
tree, one with a byte after it, a tree that was cut, one that is too deep, too many bytes, garbage, a
status or nothing. It compares: the lines that `ots` prints and its status; that each calendar got one
request, in order, for one and the same root; and for each file that its proof leads from the digest by
a nonce of its own to that root, the root of the tree over all files (split at the greatest power of two
below their count), and then by each path of each good answer, and that nothing else is in it. What is written is also
to be its own canonical form (`ots canon`). Where too few calendars answered, no proof may be there. Then it makes one
run of 1,024 files with 16 calendars, and some that are refused for their words, their addresses or an absent file.

The reader and the writer of proofs are those of upgrades.py. Where the reference library is there
(python3-opentimestamps), it reads each proof too, and what it finds attested is compared. It ends with
status 1 on a difference, and is run by hand.
"""

import functools
import hashlib
import http.server
import os
import random
import subprocess
import sys
import tempfile
import threading

try:
    from opentimestamps.core.serialize import BytesDeserializationContext, BytesSerializationContext
    from opentimestamps.core.timestamp import DetachedTimestampFile
except ImportError:
    DetachedTimestampFile = None

from upgrades import (APPEND, BITCOIN, MAGIC, OTHER, PENDING, PREPEND, PROGRAM, SHA256, Reader, apply, counted,
                      number, paths, refusing, some_tree, spelled)


def sha256(data):
    return hashlib.sha256(data).digest()


def halves(leaves):
    half = 1 << (len(leaves) - 1).bit_length() - 1
    return leaves[:half], leaves[half:]


@functools.lru_cache(maxsize=10000)
def root(leaves):
    """The root over a tuple of leaves."""
    if len(leaves) == 1:
        return leaves[0]
    first, last = halves(leaves)
    return sha256(root(first) + root(last))


def way(leaves, i):
    """The operations from the i-th leaf to the root."""
    if len(leaves) == 1:
        return ()
    first, last = halves(leaves)
    if i < len(first):
        return way(first, i) + ((APPEND, root(last)), (SHA256, b''))
    return way(last, i - len(first)) + ((PREPEND, root(first)), (SHA256, b''))


def deepest(count):
    return 2 + max(len(way((b'x',) * count, i)) for i in range(count))


def answer(rng, depth):
    """What a calendar sends: the head's status, the body, the words of its line and its tree if it is good."""
    ends = [(BITCOIN, number(rng.randrange(900000))), (OTHER, b'x'), (PENDING, counted(b'http://later'))]
    tree = some_tree(rng, ends, 3)
    body = spelled(tree)
    kind = rng.choice(['tree'] * 6 + ['rest', 'cut', 'deep', 'long', 'status', 'garbage', 'nothing'])
    if kind == 'tree':
        return 200, body, 'ok', tree
    if kind == 'rest':
        return 200, body + b'\0', f'bad reply at {len(body)}: trailing bytes', None
    if kind == 'cut':
        return 200, bytes([SHA256]) * 3, 'bad reply at 3: truncated', None
    if kind == 'deep':
        room = 255 - depth
        return 200, bytes([SHA256]) * 255, f'bad reply at {room}: too deep', None
    if kind == 'long':
        return 200, bytes(10001), 'too long', None
    if kind == 'status':
        status = rng.choice([400, 404, 500, 503])
        return status, b'no\n', f'status {status}', None
    return (0 if kind == 'garbage' else -1), b'', 'not http', None


class Handler(http.server.BaseHTTPRequestHandler):
    def do_POST(self):
        root = self.rfile.read(int(self.headers['Content-Length']))
        self.server.asked.append((self.server.server_port, self.path, root))
        status, body = self.server.answers[self.server.server_port]
        if status > 0:
            self.send_response(status)
            self.send_header('Content-Length', str(len(body)))
            self.end_headers()
            self.wfile.write(body)
        elif status == 0:
            self.wfile.write(b'garbage\r\n\r\n')

    def log_message(self, *_):
        pass


def served(asked, answers):
    server = http.server.HTTPServer(('127.0.0.1', 0), Handler)
    server.asked, server.answers = asked, answers
    threading.Thread(target=server.serve_forever, daemon=True).start()
    return server


def is_proof(written, canonical, content, leaves, i, trees):
    """Whether this is the i-th file's proof, with the leaf that its nonce makes."""
    reader = Reader(written)
    prefix = reader.take(len(MAGIC) + 1 + 32)
    found = [*paths(reader.tree())]
    ops = way(leaves, i)
    nonce = found[0][0][0][1]
    before = ((APPEND, nonce), (SHA256, b'')) + ops
    wanted = {(before + more, end, rest) for tree in trees for more, end, rest in paths(tree)}
    return (prefix == MAGIC + b'\x08' + sha256(content) and reader.at == len(written) and len(nonce) == 16
            and len(found) == len(set(found)) and set(found) == wanted and written == canonical)


def is_read_by_library(written, content):
    """Whether the reference library finds the same attested messages, if it is there."""
    if DetachedTimestampFile is None:
        return True
    reader = Reader(written)
    reader.take(len(MAGIC) + 1 + 32)
    wanted = set()
    for ops, kind, payload in paths(reader.tree()):
        message = sha256(content)
        for op in ops:
            message = apply(op, message)
        wanted.add((message, kind, payload))
    found = set()
    for message, attestation in DetachedTimestampFile.deserialize(BytesDeserializationContext(written)).timestamp.all_attestations():
        payload = BytesSerializationContext()
        attestation._serialize_payload(payload)
        found.add((message, attestation.TAG, payload.getbytes()))
    return found == wanted


def leaf_of(written, content):
    """The leaf of a file, by the nonce in its proof."""
    reader = Reader(written)
    reader.take(len(MAGIC) + 1 + 32)
    first = next(paths(reader.tree()))[0][0]
    return sha256(sha256(content) + first[1])


def read(name):
    with open(name, 'rb') as file:
        return file.read()


def compare(seed, folder, ports, refused, asked, answers, files=None):
    """Whether one run is as it is to be: of some files with some calendars, or of so many with all of them."""
    rng = random.Random(seed)
    contents = [bytes(rng.randrange(256) for _ in range(rng.randrange(40))) for _ in range(files or rng.randrange(1, 10))]
    names = [os.path.join(folder, f'{seed}-{i}') for i in range(len(contents))]
    for name, content in zip(names, contents):
        with open(name, 'wb') as file:
            file.write(content)
    used = ports if files else rng.sample([*ports, refused], rng.randrange(1, 5))
    least, depth = rng.randrange(1, 4), deepest(len(contents))
    lines, trees = [], []
    for port in used:
        if port == refused:
            lines.append(f'http://127.0.0.1:{port} unreachable')
            continue
        status, body, words, tree = answer(rng, depth)
        answers[port] = status, body
        lines.append(f'http://127.0.0.1:{port} {words}')
        trees += [tree] if tree else []
    asked.clear()
    calendars = ','.join(f'http://127.0.0.1:{port}' for port in used)
    done = subprocess.run([PROGRAM, 'stamp', '--calendars', calendars, '--min', str(least), *names],
                          stdin=subprocess.DEVNULL, stdout=subprocess.PIPE, check=False)
    proofs = [name + '.ots' for name in names]
    if len(trees) < least:
        lines.append(f'too few {len(trees)} of {least}')
        good = done.returncode == 10 and not any(os.path.exists(proof) for proof in proofs)
    else:
        lines += [f'wrote {proof}' for proof in proofs]
        written = [read(proof) for proof in proofs]
        leaves = tuple(leaf_of(proof, content) for proof, content in zip(written, contents))
        good = done.returncode == 0 and len(set(leaves)) == len(leaves)
        good = good and all(sent == root(leaves) for _, _, sent in asked)
        for i, (proof, content) in enumerate(zip(written, contents)):
            again = os.path.join(folder, 'again')
            subprocess.run([PROGRAM, 'canon', proofs[i], again], stdout=subprocess.DEVNULL, check=True)
            good = good and is_proof(proof, read(again), content, leaves, i, trees) and is_read_by_library(proof, content)
            os.remove(again)
    return (good and done.stdout.decode() == ''.join(line + '\n' for line in lines)
            and [(port, path) for port, path, _ in asked] == [(port, '/digest') for port in used if port != refused]
            and len({root for _, _, root in asked}) <= 1)


def is_refused(words, status, line):
    """Whether these words are refused with this line."""
    done = subprocess.run([PROGRAM, 'stamp', *words], stdin=subprocess.DEVNULL, stdout=subprocess.PIPE, check=False)
    return done.returncode == status and done.stdout.decode() == line + '\n'


def refusals(folder):
    """How many of the refused calls are answered otherwise than they are to be."""
    name, absent = os.path.join(folder, 'refused'), os.path.join(folder, 'absent')
    with open(name, 'wb'):
        pass
    usage = 'usage: ots info, canon, merge, prune, verify, stamp, upgrade, sample, chain'
    many = ','.join(f'http://127.0.0.1:{port}' for port in range(1, 18))
    calls = [
        (['--calendars', 'http://a,http://a', '--min', '1', name], 14, 'bad address at 9'),
        (['--calendars', 'http://a:0', '--min', '1', name], 14, 'bad address at 0'),
        (['--calendars', '', '--min', '1', absent], 14, 'bad address at 0'),
        (['--calendars', 'http://a,https://b', '--min', '1', name], 14, 'https is not supported at 9'),
        (['--calendars', many, '--min', '1', name], 14, f'bad address at {many.rindex("http")}'),
        (['--calendars', 'http://a', '--min', '1', absent], 4, f'no file {absent}'),
        (['--calendars', 'http://a', '--min', '17', name], 2, usage),
        (['--calendars', 'http://a', '--min', '1', *[name] * 1025], 2, usage),
        (['--calendars', 'http://a', '--min', '1'], 2, usage),
    ]
    wrong = [words for words, status, line in calls if not is_refused(words, status, line)]
    for words in wrong:
        print('refused otherwise:', ' '.join(words)[:100])
    return len(wrong)


def main():
    count = int(sys.argv[1]) if len(sys.argv) > 1 else 300
    if not os.access(PROGRAM, os.X_OK):
        sys.exit('build/ots is not there: ./run ots builds it')
    asked, answers, wrong = [], {}, 0
    ports = [served(asked, answers).server_port for _ in range(16)]
    refused, _holder = refusing()
    with tempfile.TemporaryDirectory() as folder:
        for seed in range(count):
            if not compare(seed, folder, ports[:3], refused, asked, answers):
                print(f'run {seed}: another answer')
                wrong += 1
        if not compare(count, folder, ports, refused, asked, answers, files=1024):
            print('1,024 files with 16 calendars: another answer')
            wrong += 1
        wrong += refusals(folder)
    print(f'{count} runs, one of 1,024 files with 16 calendars, 9 refusals, {wrong} differences, {"read by" if DetachedTimestampFile else "without"} the reference library')
    sys.exit(1 if wrong else 0)


if __name__ == '__main__':
    main()
