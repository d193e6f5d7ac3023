#!/usr/bin/python3
"""Microseconds of `GET /records/N` of `otsd serve` over loopback, a connection each, at the first, the middle and the last
page of a journal of 250,000 and of 1,000,000 commitments, and of all pages one after the other. build/otsd has to be there.
"""

import os
import socket
import struct
import subprocess
import tempfile
import time

TOP = os.path.dirname(os.path.dirname(os.path.abspath(__file__)))
PROGRAM = os.path.join(TOP, 'build', 'otsd')
PORT = 14790
GROUP = 1024
PAGE = 128


def write_journal(name, count):
    """A journal of so many commitments, in groups."""
    with open(name, 'wb') as file:
        file.write(b'OTSCAL\x02\x0a')
        for first in range(0, count, GROUP):
            entries = b''.join(struct.pack('>BIII36x', 1, 44, 1_700_000_000, n)
                               for n in range(first, min(first + GROUP, count)))
            file.write(struct.pack('>BHI', 0xa5, min(GROUP, count - first), len(entries)) + entries)
        file.write(b'\x00')


def page(number):
    """The body of a page, read to the connection's end."""
    with socket.create_connection(('127.0.0.1', PORT)) as link:
        link.sendall(f'GET /records/{number} HTTP/1.1\r\nHost: 127.0.0.1\r\n\r\n'.encode())
        got = b''
        while piece := link.recv(65536):
            got += piece
    head, _, body = got.partition(b'\r\n\r\n')
    assert head.startswith(b'HTTP/1.1 200 ') and body[:8] == struct.pack('>Q', number)
    return body


def mean(number, times=500):
    began = time.perf_counter()
    for _ in range(times):
        page(number)
    return (time.perf_counter() - began) / times * 1e6


def walk(count):
    """Pages and seconds from the first page to the one that is empty."""
    began, number, pages = time.perf_counter(), 0, 0
    while len(body := page(number)) > 8:
        number, pages = number + (len(body) - 8) // 49, pages + 1
    assert number == count
    return pages, time.perf_counter() - began


def main():
    with tempfile.TemporaryDirectory() as place:
        with open(os.path.join(place, 'key'), 'wb') as key:
            key.write(b'k' * 32)
        for count in 250_000, 1_000_000:
            name = os.path.join(place, f'{count}')
            write_journal(name, count)
            serving = subprocess.Popen([PROGRAM, name, 'serve', '--key', os.path.join(place, 'key'), '--uri',
                                        f'http://127.0.0.1:{PORT}', '--port', str(PORT)], stdout=subprocess.PIPE)
            serving.stdout.readline()
            times = [mean(number) for number in (0, count // 2, count - PAGE)]
            pages, seconds = walk(count)
            serving.kill()
            serving.wait()
            print(f'{count} records: first {times[0]:.0f}, middle {times[1]:.0f}, last {times[2]:.0f} microseconds a page; '
                  f'all {pages} pages in {seconds:.1f} s, {count / seconds:.0f} records a second')


main()
