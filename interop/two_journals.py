#!/usr/bin/python3
"""Runs a calendar whose journal is full and its successor behind nginx, under one address.

    interop/two_journals.py [--small] [FOLDER]

It writes a journal of 1 GiB less a few bytes: 1,000 commitments with their tip and its anchor, and then commitments
until no further one fits. `otsd serve` with it, and another `otsd serve` with a new journal that has ten anchored
commitments, stand behind nginx with examples/nginx-two-journals.conf. Then
- the full calendar alone answers a digest by 507 `journal full`, and `tip` on its journal says `journal full`;
- through the proxy a digest is stamped, and its commitment is `pending`;
- an anchored commitment of either journal is answered by its way to the block, byte for byte as by its own calendar alone;
- an unknown commitment is `not found`;
- the record that a mirror asks for is that of the new journal.
Then the earlier calendar hangs, and then it is down:
- what the new one has is answered as before, an anchored commitment and one that is `pending`, and a digest is stamped; while
  the earlier one hangs a question takes the 10 seconds that it is given;
- what the new one does not have, which the earlier one may have, gets 503 `earlier journal`.
Then the earlier one is there again, and the new one is down:
- what the earlier one has is answered as before, and everything else gets 502.
It prints a line for each, and ends with their number, and with 1 where one is not as it should be. It needs nginx, 2.5 GB
of memory and 1.1 GB of room in FOLDER, takes some three minutes, speaks to 127.0.0.1 alone, and is run by hand. With
--small the earlier journal has the 1,000 commitments alone, so nothing is tried of a full one; that takes half a minute.
"""

import argparse
import atexit
import hashlib
import os
import shutil
import signal
import socket
import struct
import subprocess
import sys
import tempfile
import time

TOP = os.path.dirname(os.path.dirname(os.path.abspath(__file__)))
OTSD = os.path.join(TOP, 'build', 'otsd')
LIMIT = 1_073_741_824
ANCHORED = 1000
# The first commitment of the new journal: one that is in no journal of 1 GiB.
NEW = 10**9
# What is said of a commitment that only the earlier journal may have, while that is down.
DOWN = (503, b'earlier journal\n')


def sha256(data):
    return hashlib.sha256(data).digest()


def commitment(i):
    return struct.pack('>IQ', 1700000000, i) * 3 + bytes(8)


def root(hashes):
    while len(hashes) > 1:
        above = [sha256(hashes[k] + hashes[k + 1]) for k in range(0, len(hashes) - 1, 2)]
        hashes = above + hashes[-1:] if len(hashes) % 2 else above
    return hashes[0]


def entry(kind, payload):
    return bytes([kind]) + struct.pack('>I', len(payload)) + payload


def group(entries):
    body = b''.join(entries)
    return b'\xa5' + struct.pack('>HI', len(entries), len(body)) + body


def write_anchored(out, places):
    """The begin of a journal: these commitments, their tip, and its anchor."""
    commitments = [commitment(i) for i in places]
    out.write(b'OTSCAL\x02\n' + group([entry(1, one) for one in commitments]))
    tip = root([sha256(one) for one in commitments])
    out.write(group([entry(2, struct.pack('>QQ', 0, len(places)) + tip)]))
    prefix = bytes(4) + b'\1' + bytes(36) + b'\0' + bytes(4) + b'\1' + bytes(8) + b'\x22\x6a\x20'
    block = sha256(sha256(prefix + tip + bytes(4)))
    out.write(group([entry(3, struct.pack('>QQQ', 0, len(places), 7) + block + struct.pack('>H', len(prefix)) + prefix
                           + struct.pack('>H', 4) + bytes(4) + b'\0')]))


def write_full(name):
    """A journal in which no further commitment fits."""
    with open(name, 'wb') as out:
        write_anchored(out, range(ANCHORED))
        i = ANCHORED
        while (left := LIMIT - out.tell() - 1) >= 7 + 49:
            count = min(1000, (left - 7) // 49)
            out.write(group([entry(1, commitment(k)) for k in range(i, i + count)]))
            i += count
        out.write(b'\0')
        return i


def free_port():
    with socket.socket() as one:
        one.bind(('127.0.0.1', 0))
        return one.getsockname()[1]


def served(folder, journal, uri, port):
    words = [OTSD, journal, 'serve', '--key', 'key', '--uri', uri, '--port', str(port)]
    process = subprocess.Popen(words, cwd=folder, stdout=subprocess.PIPE)
    atexit.register(process.kill)
    if process.stdout.readline() != f'listening {port}\n'.encode():
        sys.exit('a calendar does not listen')
    return process


def proxied(folder, own, present, full):
    with open(os.path.join(TOP, 'examples', 'nginx-two-journals.conf'), encoding='utf8') as file:
        text = file.read()
    text = text.replace('listen 80 ', f'listen 127.0.0.1:{own} ').replace('127.0.0.1:14788', f'127.0.0.1:{present}')
    text = text.replace('127.0.0.1:14789', f'127.0.0.1:{full}')
    with open(os.path.join(folder, 'site'), 'w', encoding='utf8') as file:
        file.write(text)
    # As Debian's nginx.conf includes a file of sites-enabled.
    name = os.path.join(folder, 'nginx.conf')
    with open(name, 'w', encoding='utf8') as file:
        file.write(f'pid {folder}/nginx.pid;\nerror_log {folder}/nginx.log;\nevents {{ }}\n'
                   f'http {{ include {folder}/site; }}\n')
    process = subprocess.Popen([shutil.which('nginx') or '/usr/sbin/nginx', '-p', folder, '-c', name, '-g', 'daemon off;'],
                               stderr=subprocess.DEVNULL)
    atexit.register(process.wait)
    atexit.register(process.terminate)
    for _ in range(100):
        try:
            socket.create_connection(('127.0.0.1', own)).close()
            return
        except OSError:
            time.sleep(0.1)
    sys.exit('nginx does not listen')


def asked(port, request):
    """The status and the body of a reply."""
    with socket.create_connection(('127.0.0.1', port), timeout=60) as one:
        one.sendall(request)
        reply = b''
        while piece := one.recv(65536):
            reply += piece
    head, _, body = reply.partition(b'\r\n\r\n')
    return int(head.split()[1]), body


def get(port, path):
    return asked(port, f'GET {path} HTTP/1.1\r\nHost: x\r\nConnection: close\r\n\r\n'.encode())


def post(port, digest):
    return asked(port, b'POST /digest HTTP/1.1\r\nHost: x\r\nContent-Length: 32\r\nConnection: close\r\n\r\n' + digest)


def commitment_of(digest, tree):
    """Where the one path of a reply to a digest leads, before its pending attestation."""
    message, at = digest, 0
    while tree[at] != 0:
        tag, at = tree[at], at + 1
        if tag == 0x08:
            message = sha256(message)
        else:
            length = tree[at]
            argument, at = tree[at + 1:at + 1 + length], at + 1 + length
            message = message + argument if tag == 0xf0 else argument + message
    return message


def timed_get(port, path, wanted):
    """Whether this is the answer, and how long it took, in whole seconds."""
    began = time.monotonic()
    return get(port, path) == wanted, round(time.monotonic() - began)


def main():
    parser = argparse.ArgumentParser()
    parser.add_argument('--small', action='store_true')
    parser.add_argument('folder', nargs='?')
    words = parser.parse_args()
    if not os.access(OTSD, os.X_OK):
        print(f'{OTSD} is not there: ./run otsd builds it', file=sys.stderr)
        sys.exit(70)
    with tempfile.TemporaryDirectory(dir=words.folder) as folder:
        good, bad = [], []

        def see(what, found, wanted):
            (good if found == wanted else bad).append(what)
            print(f'{what}: {found}' if found == wanted else f'{what}: {found}, NOT {wanted}', flush=True)

        old_name, new_name = os.path.join(folder, 'full.journal'), os.path.join(folder, 'new.journal')
        if words.small:
            with open(old_name, 'wb') as out:
                write_anchored(out, range(ANCHORED))
                out.write(b'\0')
        else:
            count = write_full(old_name)
            print(f'a journal of {os.path.getsize(old_name)} bytes and {count} commitments')
        with open(new_name, 'wb') as out:
            write_anchored(out, range(NEW, NEW + 10))
            out.write(b'\0')
        with open(os.path.join(folder, 'key'), 'wb') as out:
            out.write(os.urandom(32))
        if not words.small:
            tip = subprocess.run([OTSD, 'full.journal', 'tip'], cwd=folder, stdout=subprocess.PIPE)
            see('tip on the full journal', (tip.returncode, tip.stdout[:13]), (24, b'journal full '))
        own, present, full = free_port(), free_port(), free_port()
        uri = f'http://127.0.0.1:{own}'
        began = time.monotonic()
        earlier = served(folder, 'full.journal', uri, full)
        print(f'the earlier one listens after {time.monotonic() - began:.0f} s')
        later = served(folder, 'new.journal', uri, present)
        proxied(folder, own, present, full)
        digest = os.urandom(32)
        if not words.small:
            see('a digest at the full one', post(full, digest), (507, b'journal full\n'))
        status, tree = post(own, digest)
        see('a digest through the proxy', status, 200)
        waiting = '/timestamp/' + commitment_of(digest, tree).hex()
        in_old, in_new = ('/timestamp/' + commitment(i).hex() for i in (ANCHORED // 2, NEW + 5))
        unknown = '/timestamp/' + '00' * 44
        old_alone, new_alone = get(full, in_old), get(present, in_new)
        see('anchored ones at their own calendars', (old_alone[0], new_alone[0]), (200, 200))
        see('its commitment through the proxy', get(own, waiting), (404, b'pending\n'))
        see('that of the earlier one through the proxy, byte for byte', get(own, in_old) == old_alone, True)
        see('that of the new one through the proxy, byte for byte', get(own, in_new) == new_alone, True)
        see('an unknown one through the proxy', get(own, unknown), (404, b'not found\n'))
        see('the first record through the proxy is that of the new journal', get(own, '/records/0') == get(present, '/records/0'), True)

        earlier.send_signal(signal.SIGSTOP)
        see('the earlier one hangs: one of the new one, byte for byte, and the seconds', timed_get(own, in_new, new_alone), (True, 10))
        see('the earlier one hangs: 503 for one of the earlier one, and the seconds', timed_get(own, in_old, DOWN), (True, 10))
        earlier.kill()
        earlier.wait()
        see('the earlier one is down: one of the new one, byte for byte', get(own, in_new) == new_alone, True)
        see('the earlier one is down: one that is pending', get(own, waiting), (404, b'pending\n'))
        see('the earlier one is down: one of the earlier one', get(own, in_old), DOWN)
        see('the earlier one is down: an unknown one', get(own, unknown), DOWN)
        see('the earlier one is down: a digest', post(own, os.urandom(32))[0], 200)

        later.kill()
        later.wait()
        served(folder, 'full.journal', uri, full)
        see('the new one is down: one of the earlier one, byte for byte', get(own, in_old) == old_alone, True)
        see('the new one is down: one of the new one', get(own, in_new)[0], 502)
        see('the new one is down: a digest', post(own, digest)[0], 502)
        see('the new one is down: a record', get(own, '/records/0')[0], 502)
        print(f'{len(good)} as they should be, {len(bad)} not')
        sys.exit(1 if bad else 0)


main()
