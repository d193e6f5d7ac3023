#!/usr/bin/python3
"""Compares `ots upgrade`, over real sockets, with the reference library's own merge.

    interop/library_upgrades.py [NUMBER]

makes NUMBER random proofs, 500 where none is given, with the classes of the reference library
(python3-opentimestamps), each with pending attestations of two calendars. This script serves both, and
they answer what the library's classes write. Each proof is upgraded by `ots`; what it wrote is read by the
library, and compared with the library's merge of the proof and the same answers at each pending place. A
pending attestation stays, as in the library's own merge. It ends with status 1 on a difference, and is run
by hand.
"""

import hashlib
import http.server
import os
import random
import subprocess
import sys
import tempfile
import threading

from opentimestamps.core.notary import BitcoinBlockHeaderAttestation, PendingAttestation
from opentimestamps.core.op import OpAppend, OpPrepend, OpSHA1, OpSHA256
from opentimestamps.core.serialize import BytesDeserializationContext, BytesSerializationContext
from opentimestamps.core.timestamp import DetachedTimestampFile, Timestamp

TOP = os.path.dirname(os.path.dirname(os.path.abspath(__file__)))
PROGRAM = os.path.join(TOP, 'build', 'ots')


def some_bytes(rng):
    return bytes(rng.randrange(256) for _ in range(rng.randrange(1, 20)))


def grow(rng, stamp, depth, end):
    """Adds random operations below a timestamp, of which each path ends as `end` says."""
    for _ in range(rng.choice([1, 1, 1, 2, 3])):
        if depth == 0 or rng.random() < 0.25:
            stamp.attestations.add(end(rng))
            continue
        kind = rng.choice(['append', 'prepend', 'sha256', 'sha1'])
        op = {'append': OpAppend(some_bytes(rng)), 'prepend': OpPrepend(some_bytes(rng)), 'sha256': OpSHA256(),
              'sha1': OpSHA1()}[kind]
        grow(rng, stamp.ops.add(op), depth - 1, end)


def answer(port, message):
    """What the calendar at this port answers for a message, or nothing for 404."""
    rng = random.Random(b'%d %s' % (port, message))
    if rng.random() < 0.25:
        return None
    stamp = Timestamp(message)
    grow(rng, stamp, 3, lambda r: r.choice([BitcoinBlockHeaderAttestation(r.randrange(900000)), PendingAttestation('http://later')]))
    return stamp


def spelled(stamp):
    context = BytesSerializationContext()
    stamp.serialize(context)
    return context.getbytes()


class Handler(http.server.BaseHTTPRequestHandler):
    def do_GET(self):
        stamp = answer(self.server.server_port, bytes.fromhex(self.path.rsplit('/', 1)[1]))
        body = b'' if stamp is None else spelled(stamp)
        self.send_response(404 if stamp is None else 200)
        self.send_header('Content-Length', str(len(body)))
        self.end_headers()
        self.wfile.write(body)

    def log_message(self, *_):
        pass


def complete(stamp, ports):
    """Merges into each pending place what its calendar answers, as the library merges."""
    for below in list(stamp.ops.values()):
        complete(below, ports)
    for attestation in list(stamp.attestations):
        if isinstance(attestation, PendingAttestation) and attestation.uri in ports:
            given = answer(ports[attestation.uri], stamp.msg)
            if given is not None:
                stamp.merge(given)


def compare(seed, folder, ports):
    rng = random.Random(seed)
    file = DetachedTimestampFile(OpSHA256(), Timestamp(hashlib.sha256(b'%d' % seed).digest()))
    grow(rng, file.timestamp, 4, lambda r: PendingAttestation(r.choice([*ports, 'https://calendar.example'])))
    old, new = os.path.join(folder, 'old'), os.path.join(folder, 'new')
    with open(old, 'wb') as out:
        out.write(spelled(file))
    done = subprocess.run([PROGRAM, 'upgrade', '--calendars', ','.join(ports), old, new], stdin=subprocess.DEVNULL,
                          stdout=subprocess.DEVNULL, check=False)
    with open(new, 'rb') as written:
        upgraded = DetachedTimestampFile.deserialize(BytesDeserializationContext(written.read()))
    os.remove(new)
    complete(file.timestamp, ports)
    attested = any(isinstance(a, BitcoinBlockHeaderAttestation) for _, a in file.timestamp.all_attestations())
    return upgraded.timestamp == file.timestamp and done.returncode == (0 if attested else 1)


def main():
    count = int(sys.argv[1]) if len(sys.argv) > 1 else 500
    if not os.access(PROGRAM, os.X_OK):
        sys.exit('build/ots is not there: ./run ots builds it')
    servers = [http.server.HTTPServer(('127.0.0.1', 0), Handler) for _ in range(2)]
    for server in servers:
        threading.Thread(target=server.serve_forever, daemon=True).start()
    ports = {f'http://127.0.0.1:{server.server_port}': server.server_port for server in servers}
    with tempfile.TemporaryDirectory() as folder:
        wrong = [seed for seed in range(count) if not compare(seed, folder, ports)]
    print(f'{count} proofs, {len(wrong)} differences')
    sys.exit(1 if wrong else 0)


if __name__ == '__main__':
    main()
