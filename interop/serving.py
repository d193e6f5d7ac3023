#!/usr/bin/python3
"""Runs `otsd serve` beside the reference library's own client.

    interop/serving.py OTSD

OTSD is the built program. For 1, 4 and 16 threads, with as many workers, the class RemoteCalendar of
python-opentimestamps stamps 1,000 digests over real sockets of 127.0.0.1. The program is stopped by a signal, as
an operator stops it, and begun anew on its journal. Then `tip` is called, a block is made with python3-bitcoinlib
whose one transaction holds the tip's root, and `anchor` is called. RemoteCalendar fetches each commitment, and the
timestamps are verified against the block's header by the library's own verify_against_blockheader.

Then two workers serve while one client connects and sends nothing, and others send half a request and reset the
connection: 100 digests are stamped meanwhile, and the silent client is cut off once its minute is over and another
connection has come.

It prints how many digests, commitments and verified timestamps there were, and ends with status 1 at the first
difference. It needs Debian's python3-opentimestamps and python3-bitcoinlib, and is run by hand.
"""

import atexit
import hashlib
import os
import signal
import socket
import struct
import subprocess
import sys
import tempfile
import threading
import time

try:
    from bitcoin.core import CBlock, CMutableTransaction, CTxIn, CTxOut, COutPoint
    from bitcoin.core.script import CScript, OP_RETURN
    from opentimestamps.calendar import CommitmentNotFoundError, RemoteCalendar
    from opentimestamps.core.notary import BitcoinBlockHeaderAttestation, PendingAttestation
except ImportError:
    print('the libraries opentimestamps and bitcoin (Debian: python3-opentimestamps) are not here; nothing was compared')
    sys.exit(0)

DIGESTS = 1000
THREADS = (1, 4, 16)
HEIGHT = 800000


def fail(text):
    """Ends with a difference."""
    print(text)
    sys.exit(1)


def free_port():
    """A port of this machine that nobody listens on."""
    with socket.socket() as one:
        one.bind(('127.0.0.1', 0))
        return one.getsockname()[1]


def do(otsd, folder, *words):
    """What a command prints, which has to end with status 0."""
    done = subprocess.run([otsd, 'journal', *words], cwd=folder, stdout=subprocess.PIPE, check=False)
    if done.returncode != 0:
        fail(f'{words}: status {done.returncode}')
    return done.stdout.decode()


class Server:
    """`otsd serve` on the folder's journal."""

    def __init__(self, otsd, folder, uri, port, workers):
        words = [otsd, 'journal', 'serve', '--key', 'key', '--uri', uri, '--port', str(port), '--workers', str(workers)]
        # The program ends only by a signal: nothing bounds its connections.
        self.process = subprocess.Popen(words, cwd=folder, stdout=subprocess.PIPE, stderr=subprocess.DEVNULL)
        atexit.register(self.process.kill)
        if self.process.stdout.readline() != f'listening {port}\n'.encode():
            fail('it does not listen')

    def stop(self):
        """Stops it, as an operator does."""
        self.process.send_signal(signal.SIGTERM)
        if self.process.wait(60) != -signal.SIGTERM:
            fail('it ended by itself')


def in_threads(count, items, work):
    """Does the work on each item, in so many threads, and answers the results in order."""
    results = [None] * len(items)

    def run(first):
        for place in range(first, len(items), count):
            try:
                results[place] = work(items[place])
            except Exception as error:  # told as a difference below
                results[place] = error

    running = [threading.Thread(target=run, args=(first,)) for first in range(count)]
    for one in running:
        one.start()
    for one in running:
        one.join()
    for one in results:
        if isinstance(one, Exception):
            fail(f'the library refused: {one!r}')
    return results


def commitment_of(timestamp, uri):
    """The one commitment of a timestamp, at which its pending attestation stands."""
    all_of = list(timestamp.all_attestations())
    if len(all_of) != 1 or all_of[0][1] != PendingAttestation(uri):
        fail(f'not one pending attestation of {uri}: {all_of}')
    return all_of[0][0]


def block_with(root):
    """A block whose one transaction holds a root."""
    transaction = CMutableTransaction([CTxIn(COutPoint())], [CTxOut(0, CScript([OP_RETURN, root]))])
    block = CBlock(vtx=[transaction])
    return CBlock(hashMerkleRoot=block.calc_merkle_root(), nTime=1700000000, vtx=[transaction])


def round_of(otsd, folder, threads, base):
    """Stamps so many digests, anchors them, and verifies each."""
    port = free_port()
    uri = f'http://127.0.0.1:{port}'
    digests = [hashlib.sha256(f'{base} {threads} {number}'.encode()).digest() for number in range(DIGESTS)]
    server = Server(otsd, folder, uri, port, threads)
    timestamps = in_threads(threads, digests, lambda digest: RemoteCalendar(uri).submit(digest, timeout=60))
    commitments = [commitment_of(one, uri) for one in timestamps]
    try:
        RemoteCalendar(uri).get_timestamp(commitments[0], timeout=60)
        fail('a pending commitment was answered')
    except CommitmentNotFoundError:
        pass
    server.stop()
    listed = [line.split()[2] for line in do(otsd, folder, 'list').splitlines() if line.startswith('commit ')]
    if not {one.hex() for one in commitments} <= set(listed):
        fail('a commitment that was answered is not in the journal')
    root = do(otsd, folder, 'tip').split()[3]
    block = block_with(bytes.fromhex(root))
    with open(os.path.join(folder, f'block-{threads}'), 'wb') as out:
        out.write(block.serialize())
    do(otsd, folder, 'anchor', f'block-{threads}', '--height', str(HEIGHT + threads))
    server = Server(otsd, folder, uri, port, threads)
    fetched = in_threads(threads, commitments, lambda one: RemoteCalendar(uri).get_timestamp(one, timeout=60))
    server.stop()
    verified = 0
    for commitment, timestamp in zip(commitments, fetched):
        (message, attestation), = timestamp.all_attestations()
        if timestamp.msg != commitment or attestation != BitcoinBlockHeaderAttestation(HEIGHT + threads):
            fail('another commitment or height')
        if attestation.verify_against_blockheader(message, block.get_header()) != 1700000000:
            fail('another time')
        verified += 1
    print(f'{threads} threads: {len(digests)} digests, {len(set(commitments))} commitments, {verified} verified')


def reset(port):
    """Sends half a request, and resets the connection."""
    with socket.create_connection(('127.0.0.1', port)) as one:
        one.sendall(b'POST /digest HTTP/1.1\r\nContent-Length: 32\r\n\r\nhalf')
        one.setsockopt(socket.SOL_SOCKET, socket.SO_LINGER, struct.pack('ii', 1, 0))


def rude_clients(otsd, folder):
    """Clients that are silent or break off hold none but their own worker."""
    port = free_port()
    uri = f'http://127.0.0.1:{port}'
    server = Server(otsd, folder, uri, port, 2)
    with socket.create_connection(('127.0.0.1', port)) as silent:
        begun = time.monotonic()
        digests = [hashlib.sha256(f'rude {number}'.encode()).digest() for number in range(100)]

        def submit(digest):
            reset(port)
            return RemoteCalendar(uri).submit(digest, timeout=30)

        stamped = in_threads(4, digests, submit)
        served = time.monotonic() - begun
        for one in stamped:
            commitment_of(one, uri)
        # Its minute is over, and the next connection comes.
        time.sleep(65)
        submit(hashlib.sha256(b'later').digest())
        silent.settimeout(10)
        try:
            if silent.recv(1) != b'':
                fail('a silent client got a byte')
        except ConnectionResetError:
            pass
    server.stop()
    print(f'{len(stamped)} digests beside rude clients in {served:.1f} seconds; a silent one was cut off')


def main():
    """One journal for all."""
    otsd = os.path.abspath(sys.argv[1])
    with tempfile.TemporaryDirectory() as folder:
        with open(os.path.join(folder, 'key'), 'wb') as key:
            key.write(os.urandom(32))
        for threads in THREADS:
            round_of(otsd, folder, threads, 'digest')
        rude_clients(otsd, folder)


main()
