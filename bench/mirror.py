#!/usr/bin/python3
"""`otsmirror` beside curl, and on pages that are made to hurt.

    bench/mirror.py [beside | hurt]

`beside`: rounds and records a second of a first copy of 100,000 and of 1,000,000 commitments from `otsd serve` over
loopback, both journals in memory (/dev/shm), and the time of a round in the first and in the last tenth; the same with
the mirror's journal where temporary files are, mostly a disk; beside it the pages a second that curl fetches and writes
to /dev/shm, all by one process, and 500 of them by a process each. Three times in turn; the median is printed, and how
the times ranged.

`hurt`: processor time and time of `otsmirror`, at a quarter and at full size, with a calendar in Python that answers
with the most commitments, with the longest records, with one record a page, with 404, with 10,000 random bytes, with
pages of which the last record is bad, and with anchors after many tips. Of each it prints by how much the processor
time grew; 4 is a line.

build/otsmirror, and for `beside` build/otsd and curl, have to be there. With no word it does both.
"""

import os
import random
import shutil
import socket
import statistics
import struct
import subprocess
import sys
import tempfile
import threading
import time

TOP = os.path.dirname(os.path.dirname(os.path.abspath(__file__)))
OTSD, OTSMIRROR = (os.path.join(TOP, 'build', name) for name in ('otsd', 'otsmirror'))
IN_MEMORY = '/dev/shm'
GROUP, PAGE = 1024, 128
COMMIT, TIP, ANCHOR = 1, 2, 3


def entry(kind, payload):
    return struct.pack('>BI', kind, len(payload)) + payload


def commitment(number):
    return entry(COMMIT, struct.pack('>IQ32x', 1_700_000_000, number))


# ---- beside curl

def write_journal(name, count):
    """A journal of so many commitments, in groups."""
    with open(name, 'wb') as file:
        file.write(b'OTSCAL\x02\x0a')
        for first in range(0, count, GROUP):
            entries = b''.join(commitment(n) for n in range(first, min(first + GROUP, count)))
            file.write(struct.pack('>BHI', 0xa5, min(GROUP, count - first), len(entries)) + entries)
        file.write(b'\x00')


def free_port():
    with socket.socket() as one:
        one.bind(('127.0.0.1', 0))
        return one.getsockname()[1]


def mirror(folder, address, count):
    """Seconds of a whole copy, and of a round in its first and in its last tenth."""
    name = os.path.join(folder, 'mirror')
    ends = [time.perf_counter()]
    with subprocess.Popen([OTSMIRROR, name, address, '--rounds', '1000000'], stdout=subprocess.PIPE) as running:
        for line in running.stdout:
            if line.startswith(b'took '):
                ends.append(time.perf_counter())
    seconds = time.perf_counter() - ends[0]
    assert (running.returncode, line) == (0, f'records {count}\n'.encode())
    os.remove(name)
    # The first round has the start of the program.
    tenth = (len(ends) - 2) // 10
    return seconds, (ends[1 + tenth] - ends[1]) / tenth, (ends[-1] - ends[-1 - tenth]) / tenth


def one_curl(folder, urls):
    """Seconds of one process that fetches all."""
    words = os.path.join(folder, 'words')
    with open(words, 'w') as file:
        for url in urls:
            file.write(f'url = "{url}"\noutput = "{os.path.join(folder, "page")}"\n')
    began = time.perf_counter()
    subprocess.run(['curl', '--silent', '--fail', '--config', words], check=True)
    return time.perf_counter() - began


def many_curls(folder, urls):
    began = time.perf_counter()
    for url in urls:
        subprocess.run(['curl', '--silent', '--fail', '--output', os.path.join(folder, 'page'), url], check=True)
    return time.perf_counter() - began


def told(rates):
    return f'{statistics.median(rates):.0f} ({min(rates):.0f} to {max(rates):.0f})'


def beside_curl(folder, disk, count):
    journal, port = os.path.join(folder, 'calendar'), free_port()
    write_journal(journal, count)
    key = os.path.join(folder, 'key')
    with open(key, 'wb') as file:
        file.write(b'k' * 32)
    address = f'http://127.0.0.1:{port}'
    serving = subprocess.Popen([OTSD, journal, 'serve', '--key', key, '--uri', address, '--port', str(port)],
                               stdout=subprocess.PIPE)
    try:
        assert serving.stdout.readline() == f'listening {port}\n'.encode()
        urls = [f'{address}/records/{number}' for number in range(0, count, PAGE)]
        some = urls[::max(1, len(urls) // 500)][:500]
        rounds, on_disk, curl, curls, first, last = [], [], [], [], [], []
        for _ in range(3):
            seconds, at_first, at_last = mirror(folder, address, count)
            rounds.append(len(urls) / seconds)
            first.append(at_first * 1e6)
            last.append(at_last * 1e6)
            on_disk.append(len(urls) / mirror(disk, address, count)[0])
            curl.append(len(urls) / one_curl(folder, urls))
            curls.append(len(some) / many_curls(folder, some))
    finally:
        serving.kill()
        serving.wait()
    os.remove(journal)
    speed = statistics.median(rounds)
    print(f'{count} records, {len(urls)} pages')
    print(f'  otsmirror               {told(rounds)} rounds a second, {speed * count / len(urls):.0f} records a second')
    print(f'  a round                 first tenth {told(first)}, last tenth {told(last)} microseconds')
    print(f'  with a journal on disk  {told(on_disk)} rounds a second')
    for name, rates in ('one curl            ', curl), ('a curl for each page', curls):
        ratio = speed / statistics.median(rates)
        print(f'  {name}    {told(rates)} pages a second: otsmirror has {ratio:.2f} times as many', flush=True)


# ---- made to hurt

class Calendar:
    """A server that answers the page from a number on with what a function makes of it, a body or a whole reply."""

    def __init__(self, body_at):
        self.body_at = body_at
        self.listening = socket.create_server(('127.0.0.1', 0), backlog=16)
        self.address = f'http://127.0.0.1:{self.listening.getsockname()[1]}'
        threading.Thread(target=self.serve, daemon=True).start()

    def serve(self):
        while True:
            link, _ = self.listening.accept()
            with link:
                asked = link.recv(4096)
                body = self.body_at(int(asked[13:asked.index(b' ', 13)]))
                link.sendall(body if body[:5] == b'HTTP/' else
                             b'HTTP/1.1 200 OK\r\nContent-Length: %d\r\n\r\n' % len(body) + body)


def page(number, entries):
    return struct.pack('>Q', number) + b''.join(entries)


def most_commitments(number):
    return page(number, [commitment(n) for n in range(number, number + PAGE)])


def one_commitment(number):
    return page(number, [commitment(number)])


def tip(first, count):
    return entry(TIP, struct.pack('>QQ32x', first, count))


def anchor(first, count, rest=bytes(5)):
    return entry(ANCHOR, struct.pack('>QQQ32x', first, count, 1) + rest)


# Prefix, suffix and branch as long as they may be.
LONGEST = struct.pack('>H2032xH2032xB', 2032, 2032, 32) + bytes(33 * 32)


def longest_records(number):
    """A commitment, its tip, and the longest anchor of that."""
    at = number // 3
    return page(number, [commitment(at), tip(at, 1), anchor(at, 1, LONGEST)])


def last_is_bad(number):
    """All may follow but the last, a tip of no commitment."""
    return page(number, [commitment(n) for n in range(number, number + PAGE - 1)] + [tip(0, 0)])


def anchors_after(tips):
    """One commitment and so many tips of it; and then pages of a commitment, its tip, and the anchor of that."""
    def body_at(number):
        if number == 0:
            return page(0, [commitment(0)])
        if number <= tips:
            return page(number, [tip(0, 1)] * min(PAGE, tips + 1 - number))
        at = (number - tips - 1) // 3
        first, count = (0, 2) if at == 0 else (at + 1, 1)
        return page(number, [commitment(at + 1), tip(first, count), anchor(first, count)])
    return body_at


def run(body_at, rounds, folder):
    """Seconds of the processor and by the clock, and the last line."""
    name, lines = os.path.join(folder, 'mirror'), os.path.join(folder, 'lines')
    address = Calendar(body_at).address
    began = time.perf_counter()
    child = os.fork()
    if child == 0:
        os.dup2(os.open(lines, os.O_WRONLY | os.O_CREAT | os.O_TRUNC, 0o600), 1)
        os.execv(OTSMIRROR, [OTSMIRROR, name, address, '--rounds', str(rounds)])
    _, status, used = os.wait4(child, 0)
    seconds = time.perf_counter() - began
    if not os.WIFEXITED(status) or os.WEXITSTATUS(status) != 1:
        sys.exit(f'the wait status {status}')
    with open(lines) as file:
        printed = file.read().split('\n')
    os.remove(name)
    return used.ru_utime + used.ru_stime, used.ru_maxrss, seconds, printed[-2], set(printed[:-2])


def hurt(folder):
    garbage = random.Random(1).getrandbits(80_000).to_bytes(10_000, 'big')
    not_found = b'HTTP/1.1 404 Not Found\r\nContent-Length: 0\r\n\r\n'
    shapes = {
        '128 commitments a page': (lambda size: (most_commitments, 8000 * size // 4)),
        'one commitment a page': (lambda size: (one_commitment, 16000 * size // 4)),
        'the longest record in each page': (lambda size: (longest_records, 16000 * size // 4)),
        '404': (lambda size: ((lambda _: not_found), 16000 * size // 4)),
        '10,000 random bytes': (lambda size: ((lambda _: garbage), 16000 * size // 4)),
        'pages of which the last record is bad': (lambda size: (last_is_bad, 16000 * size // 4)),
        'a million tips, then anchors': (lambda size: (anchors_after(PAGE * 8000 * size // 4), 16000 * size // 4 + 1)),
    }
    for name, shape in shapes.items():
        at_a_quarter = None
        for size in 1, 4:
            body_at, rounds = shape(size)
            used, memory, seconds, end, kinds = run(body_at, rounds, folder)
            line = (f'{name}: {rounds} rounds ({", ".join(sorted(kinds)[:3])}), {end}: {used:.2f} s of the processor, '
                    f'{used / rounds * 1e6:.0f} microseconds a round, {seconds:.1f} s, {memory // 1024} MB')
            print(line + (f': {used / at_a_quarter:.1f} times' if at_a_quarter else ''), flush=True)
            at_a_quarter = used


def main():
    wanted = sys.argv[1:] or ['beside', 'hurt']
    for program in [OTSMIRROR] + [OTSD] * ('beside' in wanted):
        if not os.access(program, os.X_OK):
            sys.exit(f'{program} is not there: ./run {os.path.basename(program)} builds it')
    if 'beside' in wanted and not shutil.which('curl'):
        sys.exit('curl is not there')
    with tempfile.TemporaryDirectory(dir=IN_MEMORY) as folder, tempfile.TemporaryDirectory() as disk:
        if 'beside' in wanted:
            for count in 100_000, 1_000_000:
                beside_curl(folder, disk, count)
        if 'hurt' in wanted:
            hurt(folder)


if __name__ == '__main__':
    main()
