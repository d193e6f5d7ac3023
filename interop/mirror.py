#!/usr/bin/python3
"""Runs `otsmirror` on real sockets and files, beside `otsd serve` and beside a calendar in Python that answers badly.

    interop/mirror.py [--seed N] [--count N]

build/ots, build/otsd and build/otsmirror have to be there. A calendar of `--count` commitments, 100,000 where none is
given, at least 2,000, with four tips and two anchors among them, is made by `calendar_model.py` and served by `otsd`.

- A mirror of it is killed at random moments and started again, until a run ends by itself, `current` and with status 0.
  After each kill its journal has to hold pages of the calendar's records, from the first on and each whole, at least
  those that were printed as taken and at most one more. At the end `otsd list` prints the same of both.
- `ots upgrade` of a proof that is anchored, and of one that is not, prints, writes and ends the same at the mirror,
  which is served where the calendar was, as at the calendar.
- A journal that is served is not opened; a calendar without records is `current`; digests are put into a calendar while
  it is mirrored; a calendar that is stopped is `unreachable`.
- A calendar in Python answers with pages that are cut, changed, repeated, out of order or too long, with other
  statuses, with what is no HTTP, or breaks the connection: first each kind once, and then 400 at random. Each line has
  to be as this script says, and the journal has to hold the pages that were taken, and else nothing.
- Replies that never end, a calendar that is silent and one that lets nobody in: how long a round takes. A minute is the
  limit, and the system may end a wait an eighth late (the timer wheel of Linux): so none has to take over 68 seconds.

It prints what was seen, and ends with status 1 at the first difference, and with 70 where a program is not there. It
needs Python 3.8 alone, is run by hand, and takes some two minutes. `--seed` gives other records, moments and replies.
"""

import argparse
import atexit
import os
import random
import signal
import socket
import struct
import subprocess
import sys
import tempfile
import threading
import time

from calendar_model import (ANCHOR, COMMIT, MAGIC_2, TIP, Anchor, bitcoin, merkle_root, pending, read_group, sha256,
                            spelled_entry, twice)

TOP = os.path.dirname(os.path.dirname(os.path.abspath(__file__)))
OTS, OTSD, OTSMIRROR = (os.path.join(TOP, 'build', name) for name in ('ots', 'otsd', 'otsmirror'))
PAGE_RECORDS, PAGE_BYTES = 128, 10_000
HEIGHT = 850_000
# What a conversation may last, and how late the timer of a wait may be.
SECONDS, LATE = 60, 8
PROOF_HEAD = b'\0OpenTimestamps\0\0Proof\0' + bytes.fromhex('bf89e2e884e8929401') + b'\x08'


def fail(text):
    """Ends with a difference, also where a server finds it."""
    print(f'difference: {text}', flush=True)
    if threading.current_thread() is not threading.main_thread():
        os._exit(1)
    sys.exit(1)


def same(what, got, wanted):
    if got != wanted:
        fail(f'{what}: {got!r}, not {wanted!r}')


# ---- a calendar's records

def some_bytes(rng, length):
    return rng.getrandbits(8 * length).to_bytes(length, 'big')


class Stamped:
    """A digest that a calendar has put under a commitment of its own."""

    def __init__(self, rng, second):
        self.digest, self.nonce, self.mac = (some_bytes(rng, length) for length in (32, 16, 8))
        self.second = struct.pack('>I', second)
        self.commitment = self.second + sha256(self.digest + self.nonce) + self.mac

    def proof(self, uri):
        return (PROOF_HEAD + self.digest + b'\xf0\x10' + self.nonce + b'\x08\xf1\x04' + self.second + b'\xf0\x08'
                + self.mac + pending(uri))


def tip_of(commits, first):
    """The tip over the commitments from one on, and its root."""
    root = merkle_root([sha256(one) for one in commits[first:]])
    return (TIP, struct.pack('>QQ', first, len(commits) - first) + root), root


def anchor_of(rng, first, count, root, height, lengths, steps):
    """An anchor of a tip, in a transaction and under a branch that are made up."""
    prefix, suffix = (some_bytes(rng, length) for length in lengths)
    branch = [(rng.randrange(2), some_bytes(rng, 32)) for _ in range(steps)]
    top = twice(prefix + root + suffix)
    for side, other in branch:
        top = twice(top + other if side else other + top)
    return ANCHOR, Anchor(first, count, height, top, prefix, suffix, branch).spelled()


def make_records(rng, count):
    """The records of a calendar, and two digests that were stamped: one is anchored, the other one is not.

    Of the four tips the second and the third are anchored, the third in the longest record that there is."""
    early, late = rng.randrange(count // 3), rng.randrange(count * 4 // 5, count)
    stamped = {at: Stamped(rng, 1_700_000_000 + at) for at in (early, late)}
    commits, records = [], []
    for at in range(count):
        made = struct.pack('>I', 1_700_000_000 + at) + some_bytes(rng, 40)
        commits.append(stamped[at].commitment if at in stamped else made)
        records.append((COMMIT, commits[-1]))
        if at == count // 4:
            records.append(tip_of(commits, 0)[0])
        if at == count // 3:
            tip, first_root = tip_of(commits, 0)
            first_count = len(commits)
            records.append(tip)
        if at == count // 2:
            records.append(anchor_of(rng, 0, first_count, first_root, HEIGHT, (60, 20), 11))
        if at == count * 2 // 3:
            tip, root = tip_of(commits, first_count)
            records += [tip, anchor_of(rng, first_count, len(commits) - first_count, root, HEIGHT + 1, (4000, 64), 32)]
            covered = len(commits)
        if at == count * 3 // 4:
            records.append(tip_of(commits, covered)[0])
    return records, stamped[early], stamped[late]


def groups_of(records, size):
    return [records[first:first + size] for first in range(0, len(records), size)]


def spelled_group(records):
    body = b''.join(spelled_entry(*record) for record in records)
    return b'\xa5' + struct.pack('>HI', len(records), len(body)) + body


def spelled_journal(groups):
    return MAGIC_2 + b''.join(spelled_group(group) for group in groups) + b'\0'


def page_at(records, number):
    """The records of a page: as many as fit."""
    taken, size = [], 8
    for record in records[number:number + PAGE_RECORDS]:
        size += 5 + len(record[1])
        if size > PAGE_BYTES:
            break
        taken.append(record)
    return taken


def pages_of(records):
    pages, number = [], 0
    while number < len(records):
        pages.append(page_at(records, number))
        number += len(pages[-1])
    return pages


def spelled_page(number, records):
    return struct.pack('>Q', number) + b''.join(spelled_entry(*record) for record in records)


def write(name, data):
    with open(name, 'wb') as file:
        file.write(data)


def read(name):
    with open(name, 'rb') as file:
        return file.read()


class Kept:
    """The journal that a mirror is to have: these pages, each a group."""

    def __init__(self, pages):
        self.whole = spelled_journal(pages)
        self.ends, self.counts = [8], [0]
        for page in pages:
            self.ends.append(self.ends[-1] + len(spelled_group(page)))
            self.counts.append(self.counts[-1] + len(page))

    def look(self, name):
        """How many records the journal of this name holds, all in whole pages; a closed gate ends it."""
        data = read(name) if os.path.exists(name) else b''
        if len(data) <= 9:
            # It is being made.
            return 0
        gate = 8
        same('the magic', data[:8], MAGIC_2)
        while data[gate:gate + 1] == b'\xa5':
            _, gate = read_group(data, gate)
        if gate not in self.ends:
            fail(f'the journal holds no whole pages: a gate at {gate}')
        if data[:gate] != self.whole[:gate]:
            fail('the journal holds other records')
        same('the last gate', data[gate:gate + 1], b'\0')
        return self.counts[self.ends.index(gate)]


# ---- the programs

def free_port():
    with socket.socket() as one:
        one.bind(('127.0.0.1', 0))
        return one.getsockname()[1]


class Calendar:
    """`otsd serve` on a journal."""

    def __init__(self, folder, journal, port):
        words = [OTSD, journal, 'serve', '--key', 'key', '--uri', f'http://127.0.0.1:{port}', '--port', str(port)]
        self.process = subprocess.Popen(words, cwd=folder, stdout=subprocess.PIPE)
        atexit.register(self.process.kill)
        same('what serve prints', self.process.stdout.readline(), f'listening {port}\n'.encode())

    def stop(self):
        self.process.send_signal(signal.SIGTERM)
        same('how serve ends', self.process.wait(60), -signal.SIGTERM)


def run(folder, *words):
    """The status of a program, and what it prints."""
    done = subprocess.run(words, cwd=folder, stdout=subprocess.PIPE, stderr=subprocess.PIPE, check=False, timeout=600)
    same(f'{words}: standard error', done.stderr, b'')
    return done.returncode, done.stdout.decode()


def mirrored(folder, journal, port, rounds):
    return run(folder, OTSMIRROR, journal, f'http://127.0.0.1:{port}', '--rounds', str(rounds))


def taken_in(lines):
    return sum(int(line.split()[1]) for line in lines if line.startswith('took '))


# ---- a mirror that is killed

def run_killed(folder, port, seconds):
    """Runs the mirror for at most so long, and answers its whole lines, and its status, which is `None` where it was
    killed."""
    with open(os.path.join(folder, 'lines'), 'wb') as out:
        process = subprocess.Popen([OTSMIRROR, 'mirror', f'http://127.0.0.1:{port}', '--rounds', '1000000'], cwd=folder,
                                   stdout=out)
        try:
            status = process.wait(seconds)
        except subprocess.TimeoutExpired:
            process.kill()
            # It may have ended just before.
            status = process.wait()
            status = None if status == -signal.SIGKILL else status
    return read(os.path.join(folder, 'lines')).decode().split('\n')[:-1], status


def killed_runs(rng, folder, port, kept):
    """Kills the mirror at random moments until a run ends by itself."""
    name, held, kills, unprinted, without = os.path.join(folder, 'mirror'), 0, 0, 0, 0
    longest = 0.01
    while True:
        lines, status = run_killed(folder, port, rng.uniform(0, longest))
        now = kept.look(name)
        printed = held + taken_in(lines)
        if status is not None:
            same('the last lines', (status, lines[-2:]), (0, ['current', f'records {kept.counts[-1]}']))
            same('the records of the last run', (printed, now), (kept.counts[-1], kept.counts[-1]))
            return kills, unprinted, without
        at = kept.counts.index(now)
        if now < printed:
            fail(f'{printed} records were printed as taken, and {now} are in the journal')
        if printed != now and (at == 0 or printed != kept.counts[at - 1]):
            fail(f'{now} records are in the journal, and {printed} were printed: more than a page')
        kills, unprinted, without = kills + 1, unprinted + (printed != now), without + (now == held)
        # Where the opening takes all of the time there has to be more.
        longest = longest * 1.25 if now == held else max(0.02, longest * 0.97)
        held = now


# ---- proofs at both

def upgraded(folder, port, name):
    """How `ots upgrade` of a proof ends, what it prints and what it writes."""
    out = os.path.join(folder, 'upgraded')
    if os.path.exists(out):
        os.remove(out)
    ended = run(folder, OTS, 'upgrade', '--calendars', f'http://127.0.0.1:{port}', name, 'upgraded')
    return ended, read(out) if os.path.exists(out) else None


def compare_proofs(folder, port, names, at_calendar):
    for name in names:
        same(f'the upgrade of the {name} proof', upgraded(folder, port, name), at_calendar[name])


# ---- a calendar in Python

class Reply:
    """What is done with a connection once its request is read, and the line that it gives."""

    def __init__(self, line, *parts, then='close', taken=()):
        self.line, self.parts, self.then, self.taken = line, parts, then, list(taken)

    def play(self, link):
        for part in self.parts:
            link.sendall(part)
        if self.then == 'reset':
            link.setsockopt(socket.SOL_SOCKET, socket.SO_LINGER, struct.pack('ii', 1, 0))
        elif self.then == 'silence':
            link.recv(1)
        elif self.then == 'drip':
            while True:
                link.sendall(b'X')
                time.sleep(0.5)
        elif self.then == 'flood':
            while True:
                link.sendall(b'X' * 65536)


class BadCalendar:
    """A server that asks a function for the reply of each request, which is for the page from a number on."""

    def __init__(self, replies):
        self.replies, self.seen = replies, []
        self.listening = socket.create_server(('127.0.0.1', 0))
        self.port = self.listening.getsockname()[1]
        threading.Thread(target=self.serve, daemon=True).start()

    def serve(self):
        while True:
            link, _ = self.listening.accept()
            with link:
                try:
                    self.replies(self.number_of(link)).play(link)
                except OSError:
                    # The mirror closed its side.
                    pass

    @staticmethod
    def number_of(link):
        got = b''
        while b'\r\n\r\n' not in got:
            piece = link.recv(65536)
            if not piece:
                raise ConnectionError
            got += piece
        method, target, version = got.split(b'\r\n')[0].split(b' ')
        if (method, target[:9], version) != (b'GET', b'/records/', b'HTTP/1.1'):
            fail(f'the request {got!r}')
        return int(target[9:])


def head(code, length=None, more=b''):
    return (b'HTTP/1.1 %d Some\r\n' % code + (b'' if length is None else b'Content-Length: %d\r\n' % length) + more
            + b'\r\n')


def good(body):
    return head(200, len(body)) + body


def took(number, page):
    return Reply(f'took {len(page)}', good(spelled_page(number, page)), taken=page)


def bad_page(body):
    return Reply('bad page' if len(body) <= PAGE_BYTES else 'too long', good(body))


def false_tip(commits):
    """A tip that begins after the first commitment that no anchor covers."""
    return TIP, struct.pack('>QQ', 1, commits) + bytes(32)


def bad_pages(rng, records, number):
    """Pages of which nothing is to be taken, each with a name. The number is of a record in the midst."""
    page = page_at(records, number)
    whole = spelled_page(number, page)
    place = rng.randrange(8)
    changed = bytearray(whole)
    changed[place] ^= rng.randrange(1, 256)
    return {
        'no byte': b'',
        'less than a number': whole[:7],
        'another number': bytes(changed),
        'the page before': spelled_page(number - 100, page_at(records, number - 100)),
        'the page after': spelled_page(number + 1, page_at(records, number + 1)),
        'the first page': spelled_page(0, page_at(records, 0)),
        'a page that is cut': whole[:-rng.randrange(1, 5 + len(page[-1][1]))],
        'a byte after the page': whole + b'\0',
        'more than 128 records': spelled_page(number, [(COMMIT, bytes(44))] * 129),
        'an unknown kind': spelled_page(number, page[:-1] + [(4, page[-1][1])]),
        'a short commitment': spelled_page(number, page[:-1] + [(COMMIT, page[-1][1][:-1])]),
        'a long commitment': spelled_page(number, page[:-1] + [(COMMIT, page[-1][1] + b'\0')]),
        'a length over the end': spelled_page(number, page)[:9] + b'\xff' * 4 + spelled_page(number, page)[13:],
        'a tip of another first': spelled_page(number, page[:-1] + [false_tip(number)]),
        'an anchor of no tip': spelled_page(number, page[:-1] + [anchor_of(rng, 7, 9, bytes(32), 1, (9, 9), 1)]),
        'ten thousand bytes': some_bytes(rng, PAGE_BYTES),
    }


def other_replies(records, number):
    """Replies that are no good page, and some that are one in another way, each with a name."""
    page = page_at(records, number)
    body = spelled_page(number, page)
    some = page[:5]
    return {
        'another status': Reply('status 404', head(404, 5), b'some\n'),
        'a fault of the server': Reply('status 500', head(500)),
        'another good status': Reply('status 204', head(204)),
        'a status and an endless body': Reply('status 503', head(503), then='flood'),
        'a length of 10,001': Reply('too long', head(200, 10_001), b'x' * 10_001),
        'a great length': Reply('too long', head(200, 10 ** 18)),
        'a length of a hundred digits': Reply('too long', head(200, 10 ** 99)),
        'no length and 10,001 bytes': Reply('too long', head(200), b'x' * 10_001),
        'an endless body': Reply('too long', head(200), then='flood'),
        'closed at once': Reply('not http'),
        'half a head': Reply('not http', head(200, 8)[:-2]),
        'no head': Reply('not http', b'\0\1\2\3\r\n\r\n'),
        'another protocol': Reply('not http', b'SSH-2.0-OpenSSH_9.2\r\n\r\n'),
        'a long head': Reply('not http', head(200, 8, b'X: ' + b'x' * 8192 + b'\r\n'), body),
        'many fields': Reply('not http', head(200, len(body), b'X: x\r\n' * 64), body),
        'an endless head': Reply('not http', b'HTTP/1.1 200 OK\r\nX: ', then='flood'),
        'chunks': Reply('not http', head(200, None, b'Transfer-Encoding: chunked\r\n'), b'0\r\n\r\n'),
        'two lengths': Reply('not http', head(200, len(body), b'Content-Length: 8\r\n'), body),
        'a length that is no number': Reply('not http', head(200, None, b'Content-Length: -1\r\n'), body),
        'a body that is cut': Reply('not http', head(200, len(body)), body[:-1]),
        'a body that is cut after a record': Reply('not http', head(200, len(body)), body[:-49]),
        'reset before the reply': Reply('unreachable', then='reset'),
        'reset in the body': Reply('unreachable', head(200, len(body)), body[:-1], then='reset'),
        'a body without a length': Reply(f'took {len(page)}', head(200), body, taken=page),
        'such a body, cut after a record': Reply('took 5', head(200), spelled_page(number, some), taken=some),
        'such a body, cut in a record': Reply('bad page', head(200), body[:-1]),
        'such a body, reset': Reply('unreachable', head(200), body[:-1], then='reset'),
        'a page of one record': took(number, page[:1]),
        'a page with bytes after its length': Reply('took 5', good(spelled_page(number, some)), b'more', taken=some),
        'the number alone': Reply('current', good(spelled_page(number, []))),
    }


def each_kind(rng, folder, records):
    """Each reply once, in a run of one round. The mirror has 300 records before each."""
    start = spelled_journal(groups_of(records[:300], 128))
    kinds = {name: bad_page(body) for name, body in bad_pages(rng, records, 300).items()}
    kinds.update(other_replies(records, 300))
    for name, reply in kinds.items():
        write(os.path.join(folder, 'bad'), start)
        calendar = BadCalendar(lambda _, reply=reply: reply)
        ended = mirrored(folder, 'bad', calendar.port, 1)
        count = 300 + len(reply.taken)
        same(name, ended, (0 if reply.line == 'current' else 1, f'{reply.line}\nrecords {count}\n'))
        wanted = groups_of(records[:300], 128) + ([reply.taken] if reply.taken else [])
        same(f'{name}: the journal', read(os.path.join(folder, 'bad')), spelled_journal(wanted))
    return len(kinds)


def at_random(rng, folder, records, rounds):
    """Rounds of replies at random, until all records are taken: which lines there were."""
    name = os.path.join(folder, 'random')
    lines, pages, counts = [], [], {}

    def reply_for(number):
        held = sum(len(page) for page in pages)
        same('the number that is asked for', number, held)
        if len(lines) >= rounds or not 200 <= held < len(records) - 300:
            page = page_at(records, number)
            reply = took(number, page) if page else Reply('current', good(spelled_page(number, [])))
        elif rng.random() < 0.5:
            reply = bad_page(rng.choice(list(bad_pages(rng, records, number).values())))
        else:
            replies = other_replies(records, number)
            del replies['the number alone']
            reply = rng.choice(list(replies.values()))
        lines.append(reply.line)
        if reply.taken:
            pages.append(reply.taken)
        return reply

    calendar = BadCalendar(reply_for)
    status, text = mirrored(folder, 'random', calendar.port, 1_000_000)
    for place, (got, wanted) in enumerate(zip(text.split('\n'), lines)):
        same(f'line {place} of random replies', got, wanted)
    ended = ''.join(f'{line}\n' for line in lines) + f'records {len(records)}\n'
    same('the end of random replies', (status, text == ended), (0, True))
    same('random replies: the journal', read(name), spelled_journal(pages))
    for line in lines:
        word = 'took' if line.startswith('took') else line
        counts[word] = counts.get(word, 0) + 1
    return counts


# ---- limits of time

class FullCalendar:
    """A socket that listens, and whose queue is full: who connects waits."""

    def __init__(self):
        self.listening = socket.socket()
        self.listening.bind(('127.0.0.1', 0))
        self.listening.listen(0)
        self.port = self.listening.getsockname()[1]
        self.waiting = []
        for _ in range(4):
            one = socket.socket()
            one.setblocking(False)
            one.connect_ex(('127.0.0.1', self.port))
            self.waiting.append(one)


def slow_rounds(folder, records):
    """How long a round takes with calendars that are slow, all at a time."""
    body = spelled_page(300, page_at(records, 300))
    slow = {
        'a silent calendar': Reply('unreachable', then='silence'),
        'a byte of the head at a time': Reply('unreachable', b'HTTP/1.1 200 OK\r\nX: ', then='drip'),
        'a byte of the body at a time': Reply('unreachable', head(200, len(body)), body[:20], then='drip'),
        'the page, and then silence': Reply('unreachable', head(200), body, then='silence'),
    }
    calendars = {name: BadCalendar(lambda _, reply=reply: reply) for name, reply in slow.items()}
    calendars['a calendar that lets nobody in'] = FullCalendar()
    seconds, ended = {}, {}

    def one(place, name):
        journal = f'slow-{place}'
        write(os.path.join(folder, journal), spelled_journal(groups_of(records[:300], 128)))
        began = time.monotonic()
        ended[name] = mirrored(folder, journal, calendars[name].port, 1)
        seconds[name] = time.monotonic() - began
        ended[name] += (read(os.path.join(folder, journal)),)

    running = [threading.Thread(target=one, args=each) for each in enumerate(calendars)]
    for each in running:
        each.start()
    for each in running:
        each.join()
    for name in calendars:
        same(name, ended[name], (1, 'unreachable\nrecords 300\n', spelled_journal(groups_of(records[:300], 128))))
        if seconds[name] > SECONDS + LATE:
            fail(f'{name}: {seconds[name]:.1f} seconds')
        print(f'{name}: unreachable after {seconds[name]:.1f} seconds')


# ---- a calendar that grows

def post(port, digest):
    with socket.create_connection(('127.0.0.1', port), timeout=60) as link:
        link.sendall(b'POST /digest HTTP/1.1\r\nContent-Length: %d\r\n\r\n' % len(digest) + digest)
        got = b''
        while piece := link.recv(65536):
            got += piece
    same('the reply to a digest', got[:13], b'HTTP/1.1 200 ')


def growing(rng, folder, port):
    """Digests are put into a calendar while it is mirrored: how many runs there were."""
    calendar = Calendar(folder, 'growing', port)
    same('a calendar without records', mirrored(folder, 'grown', port, 5), (0, 'current\nrecords 0\n'))
    digests = [some_bytes(rng, 32) for _ in range(2000)]
    posting = [threading.Thread(target=lambda part: [post(port, one) for one in part], args=(digests[k::4],))
               for k in range(4)]
    for one in posting:
        one.start()
    runs = 0
    while any(one.is_alive() for one in posting):
        status, text = mirrored(folder, 'grown', port, 1000)
        same('a run beside digests', (status, text.split('\n')[-3]), (0, 'current'))
        runs += 1
    for one in posting:
        one.join()
    same('the last run', mirrored(folder, 'grown', port, 1000)[0], 0)
    calendar.stop()
    listed = run(folder, OTSD, 'growing', 'list')
    same('the list of the mirror', run(folder, OTSD, 'grown', 'list'), listed)
    return runs, listed[1].count('\n')


def main():
    parser = argparse.ArgumentParser()
    parser.add_argument('--seed', type=int, default=1)
    parser.add_argument('--count', type=int, default=100_000)
    words = parser.parse_args()
    if words.count < 2000:
        parser.error('at least 2,000 commitments')
    for program in OTS, OTSD, OTSMIRROR:
        if not os.access(program, os.X_OK):
            print(f'{program} is not there: ./run {os.path.basename(program)} builds it', file=sys.stderr)
            sys.exit(70)
    rng = random.Random(words.seed)
    with tempfile.TemporaryDirectory() as folder:
        everything(rng, words.count, folder)


def everything(rng, count, folder):
    records, anchored, unanchored = make_records(rng, count)
    pages = pages_of(records)
    write(os.path.join(folder, 'key'), some_bytes(rng, 32))
    write(os.path.join(folder, 'calendar'), spelled_journal(groups_of(records, 1024)))
    port = free_port()
    names = {'anchored': anchored, 'pending': unanchored}
    for name, stamped in names.items():
        write(os.path.join(folder, name), stamped.proof(f'http://127.0.0.1:{port}'))
    calendar = Calendar(folder, 'calendar', port)
    began = time.monotonic()
    kills, unprinted, without = killed_runs(rng, folder, port, Kept(pages))
    seconds = time.monotonic() - began
    print(f'{len(records)} records in {len(pages)} pages: {kills} kills in {seconds:.0f} seconds, {without} of them '
          f'before a page was taken, {unprinted} between the page and its line')
    at_calendar = {name: upgraded(folder, port, name) for name in names}
    (status, _), written = at_calendar['anchored']
    if status != 0 or bitcoin(HEIGHT) not in written:
        fail(f'the anchored proof at the calendar: {at_calendar["anchored"]}')
    same('the pending proof at the calendar', at_calendar['pending'][0][0], 1)
    calendar.stop()
    same('an end', mirrored(folder, 'mirror', port, 3), (1, 'unreachable\n' * 3 + f'records {len(records)}\n'))
    listed = run(folder, OTSD, 'calendar', 'list')
    same('the lines of list', (listed[0], listed[1].count('\n')), (0, len(records)))
    same('the list of the mirror', run(folder, OTSD, 'mirror', 'list'), listed)
    same('the journal', read(os.path.join(folder, 'mirror')), spelled_journal(pages))
    mirror = Calendar(folder, 'mirror', port)
    same('a journal that is served', mirrored(folder, 'mirror', port, 1), (25, 'disk fault\n'))
    compare_proofs(folder, port, names, at_calendar)
    mirror.stop()
    print(f'list prints the same {len(records)} lines of both, and the upgrades of an anchored and of a pending proof '
          'are the same at both')
    runs, grown = growing(rng, folder, port)
    print(f'a calendar with no record, and then {grown} from digests that came meanwhile: the same of both after '
          f'{runs} runs')
    print(f'{each_kind(rng, folder, records)} kinds of reply, each as it is to be')
    counts = at_random(rng, folder, make_records(rng, 2000)[0], 400)
    print('replies at random: ' + ', '.join(f'{number} {line}' for line, number in sorted(counts.items())))
    slow_rounds(folder, records)
    print('no difference')


if __name__ == '__main__':
    main()
