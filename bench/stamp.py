#!/usr/bin/python3
"""Processor time, time and peak of memory of `ots stamp`, over real sockets to calendars that this script
serves: 250 and 1,000 files of 1 KiB with one calendar, whose answer is some 80 bytes; and what is made to
hurt: 256 and 1,024 files with 16 calendars, of which each answers some 10,000 bytes, the most that is read,
in paths of one operation and of 201, which no other calendar has. build/ots has to be there, and /usr/bin/time: a child
of this script would have this script's own peak of memory.

    bench/stamp.py [--program OTS] [--folder FOLDER] [--count N [--runs R]]

The files, and so the proofs, are in a new folder within FOLDER, and else where temporary files are; which file
system that is, is told. With --count only N files of 1 KiB with one calendar are stamped (1 to 1,024, the most of
one call), R times, 5 where it isn't given, each with new files, and the least, the median and the greatest time
is told. Beside it stand the same number of times that this script makes the calls for as many outputs by itself (opens the folder,
creates a file, syncs the folder, and twice writes and syncs the file), in turn with `ots`: what the disk takes of it.
"""

import argparse
import http.server
import os
import statistics
import sys
import tempfile
import threading
import time

TOP = os.path.dirname(os.path.dirname(os.path.abspath(__file__)))
PENDING = b'\x00' + bytes.fromhex('83dfe30d2ef90c8e')
SOME = b'\xf0\x20' + bytes(32) + b'\x08' + b'\xf1\x041234' + b'\xf0\x08' + bytes(8) + PENDING + b'\x12\x11http://calendar.x'


def forked(items):
    return b''.join(b'\xff' + item for item in items[:-1]) + items[-1]


def paths(size, name, hashes):
    """As many paths as fit, each of an append that no other calendar has, so many hashes and an attestation."""
    one = 1 + len(b'\xf0\x03xxx' + PENDING + b'\x02\x01u') + hashes
    return forked([b'\xf0\x03' + bytes([name]) + i.to_bytes(2, 'big') + b'\x08' * hashes + PENDING + b'\x02\x01u'
                   for i in range(size // one)])


class Handler(http.server.BaseHTTPRequestHandler):
    def do_POST(self):
        self.rfile.read(int(self.headers['Content-Length']))
        self.send_response(200)
        self.send_header('Content-Length', str(len(self.server.body)))
        self.end_headers()
        self.wfile.write(self.server.body)

    def log_message(self, *_):
        pass


def measured(given, name, count, size, servers, bodies):
    """The bytes that were written by one call of `ots stamp`, the time that it took, what it used, and its peak of memory."""
    for server, body in zip(servers, bodies):
        server.body = body
    with tempfile.TemporaryDirectory(dir=given.folder) as folder:
        names, told = [], os.path.join(folder, 'told')
        for i in range(count):
            names.append(os.path.join(folder, f'{i:04}'))
            with open(names[-1], 'wb') as file:
                file.write(os.urandom(size))
        calendars = ','.join(f'http://127.0.0.1:{server.server_port}' for server in servers)
        # So that no sync of the program has to write these files.
        os.sync()
        words = [given.program, 'stamp', '--calendars', calendars, '--min', str(len(servers)), *names]
        began = time.monotonic()
        child = os.posix_spawn('/usr/bin/time', ['/usr/bin/time', '-q', '-f', '%M', '-o', told, *words], os.environ,
                               file_actions=[(os.POSIX_SPAWN_OPEN, 0, os.devnull, os.O_RDONLY, 0),
                                             (os.POSIX_SPAWN_OPEN, 1, os.devnull, os.O_WRONLY, 0)])
        _, status, used = os.wait4(child, 0)
        took = time.monotonic() - began
        if os.waitstatus_to_exitcode(status) != 0:
            sys.exit(f'{name}: status {os.waitstatus_to_exitcode(status)}')
        with open(told, encoding='ascii') as file:
            peak = int(file.read()) / 1024
        return sum(os.path.getsize(file + '.ots') for file in names), took, used, peak


def run(given, name, count, size, servers, bodies):
    written, took, used, peak = measured(given, name, count, size, servers, bodies)
    print(f'{count} {name}: {written} bytes written, {took:.2f} s, of the processor '
          f'{used.ru_utime:.2f} s and {used.ru_stime:.2f} s in the system, {peak:.1f} MB', flush=True)


def calls_alone(given, count, length):
    """The time of the calls for as many outputs of this length, made here."""
    pieces = bytes(65), bytes(length - 65)
    with tempfile.TemporaryDirectory(dir=given.folder) as folder:
        os.sync()
        began = time.monotonic()
        for i in range(count):
            above = os.open(folder, os.O_RDONLY | os.O_DIRECTORY)
            made = os.open(os.path.join(folder, str(i)), os.O_WRONLY | os.O_CREAT | os.O_EXCL)
            os.fsync(above)
            os.close(above)
            for piece in pieces:
                os.write(made, piece)
                os.fdatasync(made)
            os.close(made)
        return time.monotonic() - began


def spread(times):
    return f'{min(times):.3f}, {statistics.median(times):.3f} and {max(times):.3f} s'


def repeated(given, servers):
    """One number of files, some times."""
    times, users, systems, alone = [], [], [], []
    for _ in range(given.runs):
        written, took, used, peak = measured(given, f'{given.count} files', given.count, 1024, servers[:1], [SOME])
        times.append(took)
        users.append(used.ru_utime)
        systems.append(used.ru_stime)
        alone.append(calls_alone(given, given.count, written // given.count))
    print(f'{given.count} files of 1 KiB, 1 calendar: {written} bytes written, the least, the median and the greatest of {given.runs} runs '
          f'{spread(times)}, of the processor {spread(users)} and in the system {spread(systems)}, {peak:.1f} MB')
    print(f'the calls and syncs for as many files, made by this script: {spread(alone)}')


def file_system_of(folder):
    """The type of the file system that a folder is in, and where it is mounted."""
    path, best = os.path.realpath(folder), ('/', 'unknown')
    with open('/proc/mounts', encoding='utf8') as mounts:
        for line in mounts:
            _, place, kind, *_ = line.split(' ')
            if (path + '/').startswith(place.rstrip('/') + '/') and len(place) >= len(best[0]):
                best = place, kind
    return best[1]


def main():
    parser = argparse.ArgumentParser()
    parser.add_argument('--program', default=os.path.join(TOP, 'build', 'ots'))
    parser.add_argument('--folder', default=tempfile.gettempdir())
    parser.add_argument('--count', type=int)
    parser.add_argument('--runs', type=int, default=5)
    given = parser.parse_args()
    given.program = os.path.abspath(given.program)
    if not os.access(given.program, os.X_OK):
        sys.exit(f'{given.program} is not there: ./run ots builds it')
    if given.runs < 1 or given.count is not None and not 1 <= given.count <= 1024:
        sys.exit('--count is 1 to 1024, and --runs 1 or more')
    servers = [http.server.HTTPServer(('127.0.0.1', 0), Handler) for _ in range(16)]
    for server in servers:
        threading.Thread(target=server.serve_forever, daemon=True).start()
    print(f'in {given.folder}, of the file system {file_system_of(given.folder)}', flush=True)
    if given.count is not None:
        repeated(given, servers)
        return
    for count in (250, 1000):
        run(given, 'files of 1 KiB, 1 calendar', count, 1024, servers[:1], [SOME])
    for hashes in (0, 200):
        bodies = [paths(10000, i, hashes) for i in range(len(servers))]
        for count in (256, 1024):
            run(given, f'files, 16 calendars with paths of {hashes + 1} operations ({len(bodies[0])} bytes each)', count, 1, servers, bodies)


if __name__ == '__main__':
    main()
