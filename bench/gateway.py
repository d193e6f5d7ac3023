#!/usr/bin/python3
"""Measures `otsgate` over loopback: how long a round takes, how many digests a second, and how much memory.

    bench/gateway.py [--rounds NUMBER] [--size NUMBER]

A gateway of up to SIZE links a round, 1,024 where none is given, stands before one calendar, `otsd serve`. All
connections of a round are begun and their digests sent before any reply is read, by one thread. What is printed for a
quarter of SIZE and for SIZE: the seconds from the first connection to the last reply, in the middle of NUMBER rounds, 5
where none is given, and the digests a second. The calendar alone is asked beside it, with 64 workers and as many
connections at once. Then two tiers stand before it: eight gateways of an eighth of SIZE links a round, and above them one with
rounds of 4, of 8 and of 1, which all eight ask at the same time.

Then the calendar is one in Python whose reply has 9,600 bytes, so that each reply of the gateway has almost 10,000,
and the most memory that the gateway had (VmHWM of /proc) is printed, for a quarter of SIZE and for SIZE.

It runs build/otsd and build/otsgate (`./run NAME` builds each), and needs as many open files as a round has links, twice.
"""

import argparse
import http.server
import os
import random
import resource
import socket
import statistics
import subprocess
import sys
import tempfile
import threading
import time

TOP = os.path.dirname(os.path.dirname(os.path.abspath(__file__)))
OTSD, OTSGATE = (os.path.join(TOP, 'build', name) for name in ('otsd', 'otsgate'))
BELOW = 8


def free_port():
    with socket.socket() as one:
        one.bind(('127.0.0.1', 0))
        return one.getsockname()[1]


def begun(words, port, **how):
    """A program that listens."""
    process = subprocess.Popen(words, stdout=subprocess.PIPE, **how)
    assert process.stdout.readline() == f'listening {port}\n'.encode()
    return process


def one_round(port, digests):
    """The seconds until each of these digests, sent at once, has its reply, and the bytes of the longest."""
    return one_round_of([(port, digest) for digest in digests])


def one_round_of(sent):
    """The same of digests that are each sent to a port."""
    began = time.monotonic()
    links = []
    for port, digest in sent:
        link = socket.create_connection(('127.0.0.1', port))
        link.sendall(b'POST /digest HTTP/1.1\r\nHost: a\r\nContent-Length: 32\r\n\r\n' + digest)
        links.append(link)
    sizes = []
    for link in links:
        size = 0
        first = b''
        while piece := link.recv(65536):
            first = first or piece[:12]
            size += len(piece)
        assert first == b'HTTP/1.1 200', first
        sizes.append(size)
        link.close()
    return time.monotonic() - began, max(sizes)


def memory_of(process):
    with open(f'/proc/{process.pid}/status', encoding='ascii') as status:
        return next(int(line.split()[1]) for line in status if line.startswith('VmHWM'))


class Big(http.server.BaseHTTPRequestHandler):
    """A calendar whose reply is a tree of 9,600 bytes: two attestations of an unknown kind."""

    def do_POST(self):
        self.rfile.read(int(self.headers['Content-Length']))
        tree = b'\xff' + unknown(8000) + unknown(1577)
        assert len(tree) == 9600, len(tree)
        self.send_response(200)
        self.send_header('Content-Length', str(len(tree)))
        self.end_headers()
        self.wfile.write(tree)

    def log_message(self, *_):
        pass


def unknown(size):
    return b'\x00' + bytes(range(8)) + bytes([size & 0x7f | 0x80, size >> 7]) + bytes(size)


def gateway_before(calendar, size, accept):
    """A gateway with rounds of so many links, and its port."""
    port = free_port()
    words = [OTSGATE, '--calendars', calendar, '--min', '1', '--port', str(port), '--round', str(size), '--accept',
             str(accept)]
    return begun(words, port), port


def tiers_of(rng, calendar, below, size, above, rounds):
    """The seconds of each round of so many gateways below one whose rounds have `above` links."""
    upper, port = gateway_before(calendar, above, below * rounds)
    lower = [gateway_before(f'http://127.0.0.1:{port}', size, size * rounds) for _ in range(below)]
    times, longest = [], 0
    for _ in range(rounds):
        seconds, most = one_round_of([(port, rng.randbytes(32)) for _ in range(size) for _, port in lower])
        times.append(seconds)
        longest = max(longest, most)
    for gateway in [upper] + [gateway for gateway, _ in lower]:
        assert gateway.wait(60) == 0
        gateway.stdout.close()
    return times, longest


def rounds_of(rng, calendar, size, rounds):
    """The seconds of each round, the bytes of the longest reply and the gateway's memory."""
    gateway, port = gateway_before(calendar, size, size * rounds)
    times, longest, memory = [], 0, 0
    for _ in range(rounds):
        seconds, most = one_round(port, [rng.randbytes(32) for _ in range(size)])
        times.append(seconds)
        longest = max(longest, most)
        if gateway.poll() is None:
            memory = max(memory, memory_of(gateway))
    assert gateway.wait(60) == 0
    gateway.stdout.close()
    return times, longest, memory


def main():
    parser = argparse.ArgumentParser()
    parser.add_argument('--rounds', type=int, default=5)
    parser.add_argument('--size', type=int, default=1024)
    words = parser.parse_args()
    for program in OTSD, OTSGATE:
        if not os.access(program, os.X_OK):
            print(f'{program} is not there: ./run {os.path.basename(program)} builds it', file=sys.stderr)
            sys.exit(70)
    most = resource.getrlimit(resource.RLIMIT_NOFILE)[1]
    resource.setrlimit(resource.RLIMIT_NOFILE, (min(most, 8192), most))
    rng = random.Random(1)
    sizes = (words.size // 4, words.size)
    with tempfile.TemporaryDirectory() as folder:
        with open(os.path.join(folder, 'key'), 'wb') as out:
            out.write(rng.randbytes(32))
        port = free_port()
        uri = f'http://127.0.0.1:{port}'
        calendar = begun([OTSD, 'journal', 'serve', '--key', 'key', '--uri', uri, '--port', str(port), '--workers', '64'],
                         port, cwd=folder)
        for size in sizes:
            times, longest, memory = rounds_of(rng, uri, size, words.rounds)
            middle = statistics.median(times)
            print(f'a round of {size}: {middle * 1000:.0f} ms, {size / middle:.0f} digests a second, replies of at most '
                  f'{longest} bytes with their head, at most {memory} KiB')
        times = [one_round(port, [rng.randbytes(32) for _ in range(words.size)])[0] for _ in range(words.rounds)]
        middle = statistics.median(times)
        print(f'the calendar alone, {words.size} connections at once: {middle * 1000:.0f} ms, {words.size / middle:.0f} '
              'digests a second')
        for above in 4, BELOW, 1:
            times, longest = tiers_of(rng, uri, BELOW, words.size // BELOW, above, words.rounds)
            middle = statistics.median(times)
            print(f'{BELOW} gateways with rounds of {words.size // BELOW} below one with rounds of {above}: {middle * 1000:.0f} ms, '
                  f'at most {max(times) * 1000:.0f}, {words.size / middle:.0f} digests a second, replies of at most {longest} bytes')
        calendar.kill()
    server = http.server.ThreadingHTTPServer(('127.0.0.1', 0), Big)
    threading.Thread(target=server.serve_forever, daemon=True).start()
    for size in sizes:
        times, longest, memory = rounds_of(rng, f'http://127.0.0.1:{server.server_port}', size, words.rounds)
        print(f'a round of {size} with replies of {longest} bytes: {statistics.median(times) * 1000:.0f} ms, at most '
              f'{memory} KiB')


if __name__ == '__main__':
    main()
