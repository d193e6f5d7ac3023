#!/usr/bin/python3
"""Runs `otsgate` over real sockets before two calendars, `otsd serve`, with clients of its own and `ots stamp`.

    interop/gateway.py [--clients NUMBER] [--round NUMBER] [--otsgate FILE]

Two calendars serve on ports of 127.0.0.1, and a gateway that needs a tree of both. NUMBER clients, 64 where none is
given, send a random digest each, as POST /digest, in rounds of 16 where none is given; another client is `ots stamp`.
Of each reply it is checked by Python's hashlib that it has at most 10,000 bytes, that its two paths end in the URIs of
the two calendars, and that all clients of a round have the same root after their own way. The gateway ends by itself,
with the lines of its rounds.

Then the calendars are stopped, `tip` is called, a block is made for each whose one transaction holds the tip's root, and
`anchor` is called. Each client's commitments are asked of the calendars, and lead to the blocks' Merkle roots; the
proof that `ots stamp` wrote is completed by `ots upgrade` and confirmed by `ots verify` with each block's header.

Where the reference library is there (python3-opentimestamps), its RemoteCalendar is one of the clients of each round;
what it got is completed by the library at both calendars, and the library confirms it with both headers.

Then peers that mean ill, which take some 45 seconds:
- 8 links that say nothing are a round of 8: it is over within 13 seconds, for all of them have the same 10;
- of three calendars the middle one lets in and says nothing, and two are needed: the clients have their trees within 23
  seconds, for each calendar is given 20;
- 8 clients that have their reply and do not close: the gateway closes them within 3 seconds of the last reply, for all of
  them have the same second;
- a signal to end, while 7 of a round of 8 are there: each of them gets an end and no reply.
It runs build/ots, build/otsd and build/otsgate or FILE (`./run NAME` builds each), prints what it did, and ends with status 1
at the first difference. It is run by hand.
"""

import argparse
import atexit
import hashlib
import http.client
import os
import random
import signal
import socket
import struct
import subprocess
import sys
import tempfile
import threading
import time

from stamps import sha256
from upgrades import APPEND, BITCOIN, PENDING, SHA256, Reader, apply, paths

try:
    from bitcoin.core import CBlockHeader
    from opentimestamps.calendar import RemoteCalendar
    from opentimestamps.core.notary import BitcoinBlockHeaderAttestation, PendingAttestation
    from opentimestamps.core.serialize import BytesSerializationContext
except ImportError:
    RemoteCalendar = None

TOP = os.path.dirname(os.path.dirname(os.path.abspath(__file__)))
OTS, OTSD, OTSGATE = (os.path.join(TOP, 'build', name) for name in ('ots', 'otsd', 'otsgate'))
MOST_BODY = 10_000
HEIGHT = 800_000
REQUEST = b'POST /digest HTTP/1.1\r\nHost: x\r\nContent-Length: 32\r\n\r\n'
otsgate = OTSGATE


def fail(text):
    """Ends with a difference."""
    print(text)
    sys.exit(1)


def same(what, got, wanted):
    if got != wanted:
        fail(f'{what}: {got!r}, and not {wanted!r}')


def free_port():
    """A port of this machine that nobody listens on."""
    with socket.socket() as one:
        one.bind(('127.0.0.1', 0))
        return one.getsockname()[1]


def run(folder, *words):
    """The status of a command, and what it prints."""
    done = subprocess.run(words, cwd=folder, stdout=subprocess.PIPE, stderr=subprocess.DEVNULL, check=False)
    return done.returncode, done.stdout.decode()


def done(folder, *words):
    """What a command prints, which has to end with status 0."""
    status, text = run(folder, *words)
    if status != 0:
        fail(f'{words}: status {status}, {text!r}')
    return text


class Calendar:
    """`otsd serve` on a journal of its own."""

    def __init__(self, folder, name, port):
        self.folder, self.name, self.port = folder, name, port
        self.uri = f'http://127.0.0.1:{port}'
        self.process = None

    def start(self):
        words = [OTSD, self.name, 'serve', '--key', self.name + '.key', '--uri', self.uri, '--port', str(self.port)]
        self.process = subprocess.Popen(words, cwd=self.folder, stdout=subprocess.PIPE)
        atexit.register(self.process.kill)
        same('what serve prints', self.process.stdout.readline(), f'listening {self.port}\n'.encode())

    def stop(self):
        self.process.send_signal(signal.SIGTERM)
        same('how serve ends', self.process.wait(60), -signal.SIGTERM)

    def anchor(self, height):
        """Anchors all commitments in a block whose one transaction holds the tip's root, and answers its header."""
        tip = bytes.fromhex(done(self.folder, OTSD, self.name, 'tip').split()[3])
        script = b'\x6a\x20' + tip
        transaction = (struct.pack('<I', 1) + b'\x01' + bytes(32) + b'\xff' * 4 + b'\x00' + b'\xff' * 4 + b'\x01' +
                       bytes(8) + bytes([len(script)]) + script + bytes(4))
        merkle_root = sha256(sha256(transaction))
        header = struct.pack('<I', 1) + bytes(32) + merkle_root + struct.pack('<III', 1_700_000_000, 0x207fffff, 0)
        with open(os.path.join(self.folder, self.name + '.block'), 'wb') as out:
            out.write(header + b'\x01' + transaction)
        same('what anchor prints', done(self.folder, OTSD, self.name, 'anchor', self.name + '.block', '--height',
                                        str(height)).split()[-1], str(height))
        return header


class Gateway:
    """`otsgate` before calendars, until it has accepted so many."""

    def __init__(self, calendars, least, port, most, accept):
        self.calendars, self.port = calendars, port
        words = [otsgate, '--calendars', ','.join(one.uri for one in calendars), '--min', str(least), '--port',
                 str(port), '--round', str(most), '--accept', str(accept)]
        self.process = subprocess.Popen(words, stdout=subprocess.PIPE)
        atexit.register(self.process.kill)
        same('what it prints', self.process.stdout.readline(), f'listening {port}\n'.encode())

    def most_memory(self):
        """The most memory that it had, in KiB."""
        with open(f'/proc/{self.process.pid}/status', encoding='ascii') as status:
            return next(int(line.split()[1]) for line in status if line.startswith('VmHWM'))

    def end(self):
        """Its lines, once it has ended by itself."""
        text = self.process.stdout.read().decode()
        same('how it ends', self.process.wait(60), 0)
        return text


def asked(port, method, target, body=None):
    """The status and the body of a reply."""
    link = http.client.HTTPConnection('127.0.0.1', port, timeout=120)
    link.request(method, target, body)
    reply = link.getresponse()
    read = reply.status, reply.read()
    link.close()
    return read


def stamped(port, digest):
    status, body = asked(port, 'POST', '/digest', digest)
    if status != 200:
        fail(f'a digest got {status}: {body!r}')
    return body


def remotely_stamped(port, digest):
    """The same by the reference library's client: its timestamp."""
    return RemoteCalendar(f'http://127.0.0.1:{port}').submit(digest, timeout=120)


def written(timestamp):
    """What the library writes of a timestamp."""
    context = BytesSerializationContext()
    timestamp.serialize(context)
    return context.getbytes()


def completed_remotely(timestamp, headers):
    """The library asks each calendar that a timestamp names, and confirms what it got with these headers."""
    pending = [(message, one.uri) for message, one in timestamp.all_attestations()
               if isinstance(one, PendingAttestation)]
    nodes = dict((node.msg, node) for node in all_nodes(timestamp))
    for message, uri in pending:
        nodes[message].merge(RemoteCalendar(uri).get_timestamp(message, timeout=60))
    confirmed = {}
    for message, one in timestamp.all_attestations():
        if isinstance(one, BitcoinBlockHeaderAttestation):
            header = headers[one.height - HEIGHT]
            one.verify_against_blockheader(message, CBlockHeader.deserialize(header))
            confirmed[one.height] = True
    same('the heights that the library confirms', sorted(confirmed), [HEIGHT + place for place in range(len(headers))])


def all_nodes(timestamp):
    """A timestamp and those below it."""
    yield timestamp
    for below in timestamp.ops.values():
        yield from all_nodes(below)


def at_once(jobs):
    """What these functions answer, each in a thread of its own."""
    answers = [None] * len(jobs)

    def work(place):
        answers[place] = jobs[place]()

    threads = [threading.Thread(target=work, args=(place,)) for place in range(len(jobs))]
    for one in threads:
        one.start()
    for one in threads:
        one.join()
    if None in answers:
        fail('a client failed')
    return answers


def value(ops, message):
    for op in ops:
        message = apply(op, message)
    return message


def own_way(ops):
    """A nonce is put after the digest, that is hashed, and steps of two operations follow, the second a hash, as long
    as they put 32 bytes: the gateway's part of a path, and the calendar's, which begins with another nonce, of 16."""
    if len(ops) < 2 or ops[0][0] != APPEND or len(ops[0][1]) != 16 or ops[1][0] != SHA256:
        fail(f'no own way: {ops}')
    place = 2
    while place + 1 < len(ops) and len(ops[place][1]) == 32 and ops[place + 1][0] == SHA256:
        place += 2
    return ops[:place], ops[place:]


def check_reply(digest, body, uris, as_sent=True):
    """Its leaf, the root of its round, and a commitment for each calendar. The library writes the trees of a node in an
    order of its own, so that of what it writes again the paths are put in the order of the calendars."""
    if len(body) > MOST_BODY:
        fail(f'a reply of {len(body)} bytes')
    reader = Reader(body)
    tree = reader.tree()
    same('the end of a reply', reader.at, len(body))
    all_paths = list(paths(tree))
    if not as_sent:
        all_paths.sort(key=lambda path: uris.index(path[2][1:].decode()))
    same('the attestations', [(kind, payload[1:].decode()) for _, kind, payload in all_paths],
         [(PENDING, uri) for uri in uris])
    ways = [own_way(ops) for ops, _, _ in all_paths]
    same('the own way of both paths', ways[0][0], ways[1][0])
    way = ways[0][0]
    leaf = sha256(digest + way[0][1])
    return leaf, value(way, digest), [value(ops, digest) for ops, _, _ in all_paths]


def check_round(replies):
    """All clients of a round have one root."""
    roots = {one[1] for one in replies}
    same('the roots of a round', len(roots), 1)
    return roots.pop()


def leads_to_block(calendar, commitment, merkle_root, height):
    status, body = asked(calendar.port, 'GET', '/timestamp/' + commitment.hex())
    same('the status of an anchored commitment', status, 200)
    (ops, kind, payload), = paths(Reader(body).tree())
    same('its attestation', (kind, Reader(payload).number()), (BITCOIN, height))
    same('its Merkle root', value(ops, commitment), merkle_root)


def whole(folder, rng, clients, most):
    calendars = [Calendar(folder, name, free_port()) for name in ('first', 'second')]
    for one in calendars:
        with open(os.path.join(folder, one.name + '.key'), 'wb') as out:
            out.write(rng.randbytes(32))
        one.start()
    uris = [one.uri for one in calendars]
    rounds = clients // most
    gateway = Gateway(calendars, 2, free_port(), most, rounds * most + 1)
    all_commitments, timestamps = [], []
    began = time.monotonic()
    for _ in range(rounds):
        digests = [rng.randbytes(rng.choice([20, 32, 32, 64])) for _ in range(most)]
        if RemoteCalendar is not None:
            digests[0] = rng.randbytes(32)
        jobs = [lambda digest=digest: stamped(gateway.port, digest) for digest in digests]
        if RemoteCalendar is not None:
            jobs[0] = lambda digest=digests[0]: remotely_stamped(gateway.port, digest)
        bodies = at_once(jobs)
        if RemoteCalendar is not None:
            timestamps.append(bodies[0])
            bodies[0] = written(bodies[0])
        replies = [check_reply(digest, body, uris, as_sent=RemoteCalendar is None or place != 0)
                   for place, (digest, body) in enumerate(zip(digests, bodies))]
        check_round(replies)
        all_commitments += [commitments for _, _, commitments in replies]
    seconds = time.monotonic() - began
    memory = gateway.most_memory()
    with open(os.path.join(folder, 'file'), 'wb') as out:
        out.write(rng.randbytes(1000))
    url = f'http://127.0.0.1:{gateway.port}'
    same('what stamp prints', done(folder, OTS, 'stamp', '--calendars', url, '--min', '1', 'file'),
         f'{url} ok\nwrote file.ots\n')
    lines = ''.join(f'{uri} ok\n' for uri in uris)
    same('the lines of the gateway', gateway.end(), (lines + f'round {most}\n') * rounds + lines + 'round 1\n')
    print(f'{rounds} rounds of {most} in {seconds:.2f} seconds, and one of `ots stamp`; the gateway had at most '
          f'{memory} KiB' + ('' if RemoteCalendar else '; the reference library is not here'))
    # pending, and then anchored
    for commitments in all_commitments[:3]:
        for calendar, commitment in zip(calendars, commitments):
            same('a pending commitment', asked(calendar.port, 'GET', '/timestamp/' + commitment.hex())[0], 404)
    headers = []
    for place, calendar in enumerate(calendars):
        calendar.stop()
        headers.append(calendar.anchor(HEIGHT + place))
        calendar.start()
    for commitments in all_commitments:
        for place, (calendar, commitment) in enumerate(zip(calendars, commitments)):
            leads_to_block(calendar, commitment, headers[place][36:68], HEIGHT + place)
    print(f'{len(all_commitments)} replies, each with a commitment at both calendars that leads to its block')
    for timestamp in timestamps:
        completed_remotely(timestamp, headers)
    if timestamps:
        print(f'{len(timestamps)} of them completed at both calendars and confirmed by the reference library')
    upgraded = run(folder, OTS, 'upgrade', '--calendars', ','.join(uris), 'file.ots', 'complete.ots')
    same('the status of upgrade', upgraded[0], 0)
    for place, header in enumerate(headers):
        with open(os.path.join(folder, 'headers'), 'wb') as out:
            out.write(header)
        verified = run(folder, OTS, 'verify', 'file', 'complete.ots', 'headers', '--from', str(HEIGHT + place))
        if verified[0] != 0:
            fail(f'verify: {verified}')
    print('the proof that ots stamp wrote is completed at both calendars, and confirmed by both headers')
    for calendar in calendars:
        calendar.stop()


def causes(folder, rng):
    """Fewer trees than are needed, a GET, and a request that is refused."""
    calendar = Calendar(folder, 'third', free_port())
    with open(os.path.join(folder, 'third.key'), 'wb') as out:
        out.write(rng.randbytes(32))
    calendar.start()
    silent = Calendar(folder, 'nobody', free_port())
    gateway = Gateway([calendar, silent], 2, free_port(), 1, 3)
    same('a digest with too few calendars', asked(gateway.port, 'POST', '/digest', bytes(32)), (503, b'upstream\n'))
    same('a commitment', asked(gateway.port, 'GET', '/timestamp/00'), (404, b'not found\n'))
    same('another method', asked(gateway.port, 'PUT', '/digest', b'x'), (405, b'method not allowed\n'))
    same('its lines', gateway.end(), f'{calendar.uri} ok\n{silent.uri} unreachable\nround 0\nround 0\nround 0\n')
    calendar.stop()
    print('503 upstream, 404 and 405 where they are due')


class Silent:
    """A calendar that lets in and says nothing."""

    def __init__(self):
        self.socket = socket.create_server(('127.0.0.1', 0))
        self.uri = f'http://127.0.0.1:{self.socket.getsockname()[1]}'


def calendars_of(folder, rng, names):
    """Calendars that serve."""
    made = [Calendar(folder, name, free_port()) for name in names]
    for one in made:
        with open(os.path.join(folder, one.name + '.key'), 'wb') as out:
            out.write(rng.randbytes(32))
        one.start()
    return made


def within(what, began, most):
    """Says how long it took, and ends where that was longer."""
    took = time.monotonic() - began
    if took > most:
        fail(f'{what}: {took:.1f} s, and not within {most}')
    print(f'{what}: {took:.1f} s of {most}', flush=True)


def sent(port, digests):
    """Clients that have sent a digest each."""
    links = [socket.create_connection(('127.0.0.1', port), timeout=60) for _ in digests]
    for one, digest in zip(links, digests):
        one.sendall(REQUEST + digest)
    return links


def read_whole(link):
    """All that comes of a link up to its end, which may be a reset."""
    got = b''
    try:
        while piece := link.recv(65536):
            got += piece
    except ConnectionResetError:
        pass
    return got


def ill(folder, rng):
    """Peers that mean ill, on either side."""
    calendars = calendars_of(folder, rng, ('fifth', 'sixth'))
    # silent links
    gateway = Gateway(calendars, 2, free_port(), 8, 8)
    began = time.monotonic()
    links = [socket.create_connection(('127.0.0.1', gateway.port)) for _ in range(8)]
    same('its lines of silent links', gateway.end(), 'round 0\n')
    within('a round of 8 links that say nothing', began, 13)
    for one in links:
        one.close()
    # a silent calendar
    silent = Silent()
    gateway = Gateway([calendars[0], silent, calendars[1]], 2, free_port(), 2, 2)
    began = time.monotonic()
    digests = [rng.randbytes(32) for _ in range(2)]
    replies = at_once([lambda digest=digest: stamped(gateway.port, digest) for digest in digests])
    within('two trees of three calendars, of which one says nothing', began, 23)
    check_round([check_reply(digest, body, [one.uri for one in calendars]) for digest, body in zip(digests, replies)])
    same('its lines with a silent calendar', gateway.end(),
         f'{calendars[0].uri} ok\n{silent.uri} unreachable\n{calendars[1].uri} ok\nround 2\n')
    # clients that do not close
    gateway = Gateway(calendars, 2, free_port(), 8, 8)
    links = sent(gateway.port, [rng.randbytes(32) for _ in range(8)])
    for one in links:
        if b' 200 ' not in read_whole(one)[:20]:
            fail('a client that does not close has no reply')
    began = time.monotonic()
    gateway.end()
    within('the end of a round of 8 clients that do not close', began, 3)
    for one in links:
        one.close()
    # a signal
    gateway = Gateway(calendars, 2, free_port(), 8, 16)
    links = sent(gateway.port, [rng.randbytes(32) for _ in range(7)])
    time.sleep(1)
    began = time.monotonic()
    gateway.process.send_signal(signal.SIGTERM)
    same('how it ends by a signal', gateway.process.wait(60), -signal.SIGTERM)
    same('what the clients of its round get', {read_whole(one) for one in links}, {b''})
    same('its lines by then', gateway.process.stdout.read(), b'')
    within('the end by a signal, with 7 of a round of 8 there', began, 3)
    for calendar in calendars:
        calendar.stop()


def main():
    global otsgate
    parser = argparse.ArgumentParser()
    parser.add_argument('--seed', type=int, default=1)
    parser.add_argument('--clients', type=int, default=64)
    parser.add_argument('--round', type=int, default=16)
    parser.add_argument('--otsgate', default=OTSGATE)
    words = parser.parse_args()
    otsgate = words.otsgate
    for program in OTS, OTSD, otsgate:
        if not os.access(program, os.X_OK):
            print(f'{program} is not there: ./run {os.path.basename(program)} builds it', file=sys.stderr)
            sys.exit(70)
    rng = random.Random(words.seed)
    with tempfile.TemporaryDirectory() as folder:
        whole(folder, rng, words.clients, words.round)
        causes(folder, rng)
        ill(folder, rng)
    print('no difference')


if __name__ == '__main__':
    main()
