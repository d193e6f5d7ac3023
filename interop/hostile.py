#!/usr/bin/python3
"""Runs `otsd serve` over real sockets among clients that mean ill.

    interop/hostile.py [--workers W] [--kind KIND] [--hostile N] [--proxy] [--seconds T] [--most S] [--longest L] [--otsd FILE]

N clients of one kind hold connections to a calendar of W workers, 4 where nothing is said, each begun anew a hundredth
of a second after it is closed. The kinds, and N where nothing is said:

    silent         1,000   sends nothing
    dripping       1,000   sends a byte of a request's head every two seconds
    both           1,000   so many of either
    dripping-body     16   sends a whole head, and then a byte of the body every two seconds
    leaving           63   sends half a head, says that nothing more comes, and waits for the answer
    resetting         63   sends half a head, and then a reset
    all                    one after another

Meanwhile one good client sends a digest each tenth of a second for T seconds, 24 where nothing is said, which is more than
two of the times after which a calendar gives up on a client; and at least three digests. Each reply is read whole. It
prints how long the replies took, the middle one and the longest, and the same of three seconds before the strangers came;
and of the calendar the most memory, the most descriptors and the part of one processor that it used. It ends with status 1
where the middle one took longer than S seconds, the longest longer than L, the calendar used more than half of a processor,
or it ended.

Where nothing is said of them, S is a tenth of a second and L a second: a client that has not sent the head of a request
takes no worker. It is the middle one that is held to a tenth: a machine with other work lets the calendar itself wait, and
N clients that came at the same moment are all given up at the same moment, which a reply waits for. A reply also waits for
two syncs of the disk: TMPDIR=/dev/shm puts the journal where they take no time. Where N clients that drip their body are
as many as the W workers or more, both are N / W times 11 seconds and 2, since each holds a worker until 10 seconds after
its accept.

With --proxy all of them go through nginx with examples/nginx.conf, the strangers from so many addresses of 127.0.1.0/24
that the limit of one address holds none of them up: then S and L are a tenth of a second and a second for every kind.
And before the strangers come it is tried that the limit holds: of 24 clients of one address that drip their body 8 are
refused by 429.

All kinds take some five minutes with 4 workers, and three with the proxy. The strangers are a process of their own, with
one thread.

    interop/hostile.py --few-descriptors

runs a calendar of 16 workers under `ulimit -n 64`, and one under `ulimit -n 20`, among 200 silent connections, each begun
anew when it is closed. The limit leaves room to hold only some of them, so the oldest are closed early, long before their
10 seconds: 20 digests among them, and 20 once they are gone, are answered within two seconds each. They are sent with the
connect: a good client whose request came more than four milliseconds later could be closed early too. It takes some ten
seconds.

    interop/hostile.py --burst N

has N good clients that connect at once, each with one digest. All of them are answered, and no connect takes 0.9 seconds
or more, which is what a full listening queue would cost. It prints how long the connects and the replies took, and how
often the system found a listening queue full meanwhile. It takes a few seconds.

It runs build/otsd (`./run otsd` builds it), speaks to 127.0.0.0/8 alone, and is run by hand. More than some 900 clients
need a limit on open files (`ulimit -Hn`) above that: the script raises its own limit as far as it may.
"""

import argparse
import atexit
import contextlib
import heapq
import multiprocessing
import os
import random
import resource
import selectors
import shutil
import signal
import socket
import statistics
import struct
import subprocess
import sys
import tempfile
import time

TOP = os.path.dirname(os.path.dirname(os.path.abspath(__file__)))
OTSD = os.path.join(TOP, 'build', 'otsd')
HEAD = b'POST /digest HTTP/1.1\r\nHost: x\r\nContent-Length: 32\r\n\r\n'
COUNTS = {'silent': 1000, 'dripping': 1000, 'both': 1000, 'dripping-body': 16, 'leaving': 63, 'resetting': 63}
DRIP_SECONDS = 2
# The part of a processor that these clients may take of the calendar.
MOST_PROCESSOR = 0.5
# As examples/otsd.service has it.
DESCRIPTORS = 8192
# How many connections of one address examples/nginx.conf lets through.
ADDRESS_LIMIT = 16


class Wrong(Exception):
    """What a program did otherwise than promised."""


def free_port():
    with socket.socket() as one:
        one.bind(('127.0.0.1', 0))
        return one.getsockname()[1]


class Calendar:
    """`otsd serve` with so many descriptors."""

    def __init__(self, folder, otsd, workers, descriptors=DESCRIPTORS):
        self.port, self.most_files = free_port(), 0
        with open(os.path.join(folder, 'key'), 'wb') as out:
            out.write(os.urandom(32))
        words = [otsd, 'journal', 'serve', '--key', 'key', '--uri', f'http://127.0.0.1:{self.port}',
                 '--port', str(self.port), '--workers', str(workers)]
        limit = min(descriptors, resource.getrlimit(resource.RLIMIT_NOFILE)[1])
        self.process = subprocess.Popen(
            words, cwd=folder, stdout=subprocess.PIPE,
            preexec_fn=lambda: resource.setrlimit(resource.RLIMIT_NOFILE, (limit, limit)))
        atexit.register(self.process.kill)
        if self.process.stdout.readline() != f'listening {self.port}\n'.encode():
            raise Wrong('the calendar does not listen')
        self.began, self.ticks = time.monotonic(), self.used()

    def used(self):
        """The ticks of a processor that it used so far."""
        with open(f'/proc/{self.process.pid}/stat', encoding='ascii') as file:
            fields = file.read().rpartition(')')[2].split()
        return int(fields[11]) + int(fields[12])

    def see(self):
        """Has to be done now and then, for its most descriptors."""
        if self.process.poll() is not None:
            raise Wrong(f'the calendar ended with {self.process.returncode}')
        self.most_files = max(self.most_files, len(os.listdir(f'/proc/{self.process.pid}/fd')))

    def part(self):
        """The part of a processor that it used since it listens."""
        return (self.used() - self.ticks) / os.sysconf('SC_CLK_TCK') / (time.monotonic() - self.began)

    def needs(self):
        """What it needed so far."""
        with open(f'/proc/{self.process.pid}/status', encoding='ascii') as status:
            memory = next(int(line.split()[1]) for line in status if line.startswith('VmHWM'))
        return (f'the calendar had at most {memory} KiB and {self.most_files} descriptors, and used {self.part():.1%} of a '
                'processor')

    def __enter__(self):
        return self

    def __exit__(self, *_):
        self.process.send_signal(signal.SIGTERM)
        self.process.wait(60)


@contextlib.contextmanager
def proxied(folder, port):
    """nginx before this port, by its own port. What it includes is examples/nginx.conf, as Debian's nginx.conf includes
    a file of sites-enabled; only ports are others."""
    own = free_port()
    with open(os.path.join(TOP, 'examples', 'nginx.conf'), encoding='utf8') as file:
        site = file.read()
    if site.count('listen 80 ') != 1 or site.count('127.0.0.1:14788') != 1 or f'calendar_addresses {ADDRESS_LIMIT};' not in site:
        raise Wrong('examples/nginx.conf is not as this script takes it')
    site = site.replace('listen 80 ', f'listen 127.0.0.1:{own} ').replace('127.0.0.1:14788', f'127.0.0.1:{port}')
    with open(os.path.join(folder, 'site'), 'w', encoding='utf8') as file:
        file.write(site)
    name = os.path.join(folder, 'nginx.conf')
    with open(name, 'w', encoding='utf8') as file:
        file.write(f'pid {folder}/nginx.pid;\nerror_log {folder}/nginx.log;\nworker_processes 2;\n'
                   f'events {{ worker_connections 4096; }}\nhttp {{ include {folder}/site; }}\n')
    process = subprocess.Popen([shutil.which('nginx') or '/usr/sbin/nginx', '-p', folder, '-c', name, '-g', 'daemon off;'],
                               stderr=subprocess.DEVNULL)
    try:
        for _ in range(100):
            try:
                socket.create_connection(('127.0.0.1', own)).close()
                break
            except OSError:
                time.sleep(0.1)
        else:
            raise Wrong('nginx does not listen')
        yield own
    finally:
        process.terminate()
        process.wait()


class Strangers:
    """Clients that mean ill, in one thread: each is a socket, what it still has to drip, and its address."""

    def __init__(self, kinds, port, own_addresses, begun):
        self.port, self.begun = port, begun
        self.selector = selectors.DefaultSelector()
        # When a client has something to do: to send a byte, or to begin anew.
        self.due, self.turn = [], 0
        for kind, count in kinds:
            for place in range(count):
                address = f'127.0.1.{1 + place // 8 % 250}' if own_addresses else None
                # Spread over the time between two bytes, so that they do not all send at once.
                self.at(time.monotonic() + DRIP_SECONDS * place / count / 4, self.begin, kind, address)

    def at(self, moment, what, *words):
        self.turn += 1
        heapq.heappush(self.due, (moment, self.turn, what, words))

    def run(self):
        while True:
            now = time.monotonic()
            while self.due and self.due[0][0] <= now:
                _, _, what, words = heapq.heappop(self.due)
                what(*words)
            wait = self.due[0][0] - time.monotonic() if self.due else 1
            for key, _ in self.selector.select(max(wait, 0)):
                self.heard(key.fileobj, *key.data)

    def begin(self, kind, address):
        one = socket.socket()
        try:
            if address:
                one.setsockopt(socket.IPPROTO_IP, 24, 1)  # IP_BIND_ADDRESS_NO_PORT
                one.bind((address, 0))
            one.settimeout(5)
            one.connect(('127.0.0.1', self.port))
            one.setblocking(False)
            if kind == 'dripping-body':
                one.send(HEAD)
        except OSError:
            one.close()
            self.at(time.monotonic() + 0.05, self.begin, kind, address)
            return
        with self.begun.get_lock():
            self.begun.value += 1
        if kind == 'leaving':
            try:
                one.send(HEAD[:30])
                one.shutdown(socket.SHUT_WR)
            except OSError:
                pass
        if kind == 'resetting':
            try:
                one.send(HEAD[:30])
            except OSError:
                pass
            one.setsockopt(socket.SOL_SOCKET, socket.SO_LINGER, struct.pack('ii', 1, 0))
            one.close()
            self.at(time.monotonic() + 0.01, self.begin, kind, address)
            return
        self.selector.register(one, selectors.EVENT_READ, (kind, address))
        if kind in ('dripping', 'dripping-body'):
            self.at(time.monotonic() + DRIP_SECONDS, self.drip, one, kind, 0)

    def drip(self, one, kind, sent):
        # One that was closed and is begun anew is another socket.
        if one.fileno() < 0:
            return
        try:
            one.send(HEAD[sent % 50:][:1] if kind == 'dripping' else b'x')
        except OSError:
            pass
        self.at(time.monotonic() + DRIP_SECONDS, self.drip, one, kind, sent + 1)

    def heard(self, one, kind, address):
        """Something has come, its end as a rule: then it is begun anew."""
        try:
            if one.recv(65536) != b'':
                return
        except OSError:
            pass
        self.selector.unregister(one)
        one.close()
        self.at(time.monotonic() + 0.01, self.begin, kind, address)


class Hostile:
    """Strangers in a process of their own, until they are ended."""

    def __init__(self, kinds, port, own_addresses):
        self.begun = multiprocessing.Value('Q')
        self.process = multiprocessing.Process(
            target=lambda: Strangers(kinds, port, own_addresses, self.begun).run(), daemon=True)
        self.process.start()

    def see(self):
        if not self.process.is_alive():
            raise Wrong('the strangers ended')

    def __enter__(self):
        return self

    def __exit__(self, *_):
        self.process.terminate()
        self.process.join()


def stamped(port, rng, most):
    """How long the reply to a digest took."""
    began, reply = time.monotonic(), b''
    try:
        with socket.create_connection(('127.0.0.1', port), timeout=most) as one:
            one.sendall(HEAD + rng.randbytes(32))
            while piece := one.recv(65536):
                reply += piece
    except OSError as error:
        raise Wrong(f'a digest got {reply!r}, and after {time.monotonic() - began:.3f} s {error!r}')
    see_reply(reply)
    return time.monotonic() - began


def see_reply(reply):
    head, _, body = reply.partition(b'\r\n\r\n')
    if b' 200 ' not in head.partition(b'\r\n')[0]:
        raise Wrong(f'a digest got {reply!r}')
    if f'content-length: {len(body)}'.encode() not in head.lower():
        raise Wrong(f'a reply of {len(body)} bytes after {head!r}')


def see_limit(port):
    """Of one address nginx lets only so many through whose head has come."""
    links = []
    for _ in range(ADDRESS_LIMIT + 8):
        one = socket.create_connection(('127.0.0.1', port), source_address=('127.0.2.1', 0))
        one.sendall(HEAD)
        one.settimeout(2)
        links.append(one)
    time.sleep(1)
    refused = 0
    for one in links:
        try:
            one.setblocking(False)
            refused += b' 429 ' in one.recv(100)
        except BlockingIOError:
            pass
        one.close()
    if refused != 8:
        raise Wrong(f'of {len(links)} clients of one address {refused} are refused by 429, and not 8')
    print(f'of {len(links)} clients of one address that drip their body nginx refuses {refused} by 429', flush=True)


def good_client(calendar, port, rng, seconds, patience):
    """How long the replies took to a digest each tenth of a second, at least three of them."""
    took, began = [], time.monotonic()
    while len(took) < 3 or time.monotonic() - began < seconds:
        took.append(stamped(port, rng, patience))
        calendar.see()
        time.sleep(max(0, 0.1 - took[-1]))
    return took


def among(folder, kind, words, rng):
    """One kind of strangers, and a good client."""
    count = words.hostile or COUNTS[kind]
    workers_held = kind == 'dripping-body' and count >= words.workers and not words.proxy
    slow = count / words.workers * 11 + 2
    most = words.most or (slow if workers_held else 0.1)
    longest = words.longest or words.most or (slow if workers_held else 1)
    kinds = [('silent', count), ('dripping', count)] if kind == 'both' else [(kind, count)]
    with contextlib.ExitStack() as stack:
        calendar = stack.enter_context(Calendar(folder, words.otsd, words.workers))
        port = calendar.port
        if words.proxy:
            port = stack.enter_context(proxied(folder, calendar.port))
            see_limit(port)
        alone = good_client(calendar, port, rng, 3, 20)
        hostile = stack.enter_context(Hostile(kinds, port, words.proxy))
        time.sleep(2)
        took = good_client(calendar, port, rng, words.seconds, longest * 3 + 10)
        hostile.see()
        needs, part = calendar.needs(), calendar.part()
    who = ' and '.join(f'{number} {name}' for name, number in kinds)
    print(f'{words.workers} workers, {who} clients with {hostile.begun.value} connections{", through nginx" if words.proxy else ""}: '
          f'{len(took)} digests, a reply took {statistics.median(took):.3f} s of {most:g}, at most {max(took):.3f} s of {longest:g}, '
          f'and before they came {statistics.median(alone):.3f} s, at most {max(alone):.3f} s; {needs}', flush=True)
    if statistics.median(took) > most or max(took) > longest:
        print('that is too long', flush=True)
        return False
    if part > MOST_PROCESSOR:
        print(f'that is more than {MOST_PROCESSOR:.0%} of a processor', flush=True)
        return False
    return True


def few_descriptors(folder, otsd, descriptors, rng):
    with Calendar(folder, otsd, 16, descriptors) as calendar:
        with Hostile([('silent', 200)], calendar.port, False) as hostile:
            time.sleep(2)
            during = [stamped(calendar.port, rng, 30) for _ in range(20)]
            hostile.see()
            begun = hostile.begun.value
        after = [stamped(calendar.port, rng, 30) for _ in range(20)]
        calendar.see()
    print(f'{descriptors} descriptors, 16 workers, 200 silent clients with {begun} connections: 20 digests among them, a reply took '
          f'{statistics.median(during):.3f} s, at most {max(during):.3f} s of 2; 20 after them, {statistics.median(after):.3f} s, at '
          f'most {max(after):.3f} s of 2', flush=True)
    return max(during + after) <= 2 and begun > 400


def overflows():
    """How often the system found a listening queue full."""
    with open('/proc/net/netstat', encoding='ascii') as file:
        names, values = [line.split() for line in file if line.startswith('TcpExt:')]
    return int(values[names.index('ListenOverflows')])


def burst(folder, otsd, workers, count, rng):
    """So many good clients at once."""
    with Calendar(folder, otsd, workers) as calendar:
        selector, before, began = selectors.DefaultSelector(), overflows(), time.monotonic()
        for _ in range(count):
            one = socket.socket()
            one.setblocking(False)
            one.connect_ex(('127.0.0.1', calendar.port))
            selector.register(one, selectors.EVENT_WRITE, (time.monotonic(), bytearray()))
        connects, replies = [], []
        while len(replies) < count:
            events = selector.select(60)
            if not events:
                raise Wrong(f'{len(replies)} of {count} are answered')
            for key, event in events:
                (begun, reply), now = key.data, time.monotonic()
                if event & selectors.EVENT_WRITE:
                    connects.append(now - begun)
                    key.fileobj.send(HEAD + rng.randbytes(32))
                    selector.modify(key.fileobj, selectors.EVENT_READ, key.data)
                    continue
                piece = key.fileobj.recv(65536)
                reply += piece
                if not piece:
                    see_reply(bytes(reply))
                    replies.append(now - begun)
                    selector.unregister(key.fileobj)
                    key.fileobj.close()
        took, full = time.monotonic() - began, overflows() - before
        calendar.see()
        late = sum(one >= 0.9 for one in connects)
        print(f'{workers} workers, {count} clients at once: all are answered in {took:.3f} s; a connect took '
              f'{statistics.median(connects):.3f} s, at most {max(connects):.3f} s of 0.9, {late} longer than that; a reply took '
              f'{statistics.median(replies):.3f} s, at most {max(replies):.3f} s; {full} times a listening queue was full; '
              f'{calendar.needs()}', flush=True)
    return late == 0


def main():
    parser = argparse.ArgumentParser()
    parser.add_argument('--workers', type=int, default=4)
    parser.add_argument('--hostile', type=int)
    parser.add_argument('--kind', choices=[*COUNTS, 'all'], default='all')
    parser.add_argument('--seconds', type=float, default=24)
    parser.add_argument('--most', type=float)
    parser.add_argument('--longest', type=float)
    parser.add_argument('--proxy', action='store_true')
    parser.add_argument('--few-descriptors', action='store_true')
    parser.add_argument('--burst', type=int)
    parser.add_argument('--otsd', default=OTSD)
    words = parser.parse_args()
    words.otsd = os.path.abspath(words.otsd)
    if not os.access(words.otsd, os.X_OK):
        print(f'{words.otsd} is not there: ./run otsd builds it', file=sys.stderr)
        sys.exit(70)
    hard = resource.getrlimit(resource.RLIMIT_NOFILE)[1]
    resource.setrlimit(resource.RLIMIT_NOFILE, (hard, hard))
    multiprocessing.set_start_method('fork')
    rng = random.Random(1)
    if words.few_descriptors:
        jobs = [(f'{count} descriptors', lambda folder, count=count: few_descriptors(folder, words.otsd, count, rng))
                for count in (64, 20)]
    elif words.burst:
        jobs = [('a burst', lambda folder: burst(folder, words.otsd, words.workers, words.burst, rng))]
    else:
        jobs = [(kind, lambda folder, kind=kind: among(folder, kind, words, rng))
                for kind in (COUNTS if words.kind == 'all' else [words.kind])]
    good = 0
    for name, job in jobs:
        with tempfile.TemporaryDirectory() as folder:
            try:
                good += job(folder)
            except Wrong as wrong:
                print(f'{name}: {wrong}', flush=True)
    print(f'{good} of {len(jobs)} as promised')
    sys.exit(0 if good == len(jobs) else 1)


if __name__ == '__main__':
    main()
