#!/usr/bin/python3
"""Runs `ots` and `otsd` where a file may have no more than so many bytes (RLIMIT_FSIZE), and sees that the signal never comes.

    interop/file_limits.py [OTS [OTSD]]

A write that begins at the limit or past it would end a program by SIGXFSZ, which these do not handle. Each command of `ots`
that makes an output runs under each limit from 0 to past its length, and long ones under some: where the output fits it is
whole, with status 0, and else the status is 7 with `write fault NAME`, and the file has the bytes up to the limit.

`otsd` makes a new journal, a tip, a batch and an anchor, and adds the records of a journal of version 1, under limits around
what the journal grows to: it does so, or ends with `disk fault` and status 25, and then the journal opens with what it had, and
takes the record where there is no limit. `otsd serve` answers digests under some limits, and under one that falls while it
serves and is lifted again: those that fit have 200, the others 503 `disk`, the last line is `served COUNT` with status 0, and
afterwards the journal lists each commitment that was answered and no other. The limit that binds is the soft one.

Last, where standard output is a file that may have no more than so many bytes, written anew or appended to: the status is 7, and
the file has the first of what is printed, up to the limit.

It prints a line for each command and a last one with counts, and ends with status 1 where one is not as it is to be. OTS and
OTSD are build/ots and build/otsd where none is named (`./run NAME` builds each). It is run by hand, on Linux, makes some
2,600 runs and those that look at what they left, which took one to two minutes on four processors with other work beside, and
needs cc. It speaks to 127.0.0.1 alone.
"""

import contextlib
import os
import resource
import shutil
import signal
import socket
import struct
import subprocess
import sys
import tempfile

from output_calls import Runs, cases

TOP = os.path.dirname(os.path.dirname(os.path.abspath(__file__)))
EMPTY = b'OTSCAL\x02\n\0'
COMMITMENTS = [bytes([turn]) * 44 for turn in range(3)]


def at_most(most, hard=None):
    """What makes a process one that may make files of so many bytes, and that the signal ends."""
    def limits():
        signal.signal(signal.SIGXFSZ, signal.SIG_DFL)
        until = resource.getrlimit(resource.RLIMIT_FSIZE)[1] if hard is None else hard
        resource.setrlimit(resource.RLIMIT_FSIZE, (most, until))
    return limits


def ended(status):
    return f'signal {signal.Signals(-status).name}' if status < 0 else f'status {status}'


class Tally:
    def __init__(self):
        self.count, self.bad, self.signals = 0, 0, 0

    def told(self, line, wrong):
        """A line for these runs, each with its name and what is wrong of it."""
        found = [f'{name}: {"; ".join(it)}' for name, it in wrong if it]
        self.count, self.bad = self.count + len(wrong), self.bad + len(found)
        print(f'{line}: {len(wrong)} runs' + (f': NOT AS IT IS TO BE: {len(found)} times, the first: {found[0]}' if found else ''),
              flush=True)

    def unlike(self, done, wanted):
        """What is wrong of a status and a text."""
        self.signals += done[0] < 0
        return [] if done == wanted else [f'{ended(done[0])}, {done[1]!r}']


# ---- the client

def limits_of(sizes):
    """The limits that are tried: all of a short output, and those of a long one that are near its ends and its writes."""
    most = max(sizes)
    if most < 300:
        return range(most + 3)
    near = [0, 1, 64, 65, 66, 4_095, 4_096, 4_097, 24_000, 32_767, 32_768, 32_833, most // 2]
    return sorted({it for it in [*near, *range(most - 2, most + 3), most + 100_000] if it >= 0})


def client(runs, case, tally):
    whole = runs.remember(case)
    wrong = []
    for most in limits_of([len(data) for data in whole]):
        fits = [len(data) <= most for data in whole]
        first = fits.index(False) if False in fits else len(whole)
        printed = case.before + ''.join(case.each.format(name) for name in case.outputs[:first])
        wanted = (case.status, printed + case.after) if all(fits) else (7, printed + f'write fault {case.outputs[first]}\n')
        for hard in (None, most):
            found = tally.unlike(runs.plainly(case, preexec_fn=at_most(most, hard)), wanted)
            for place, name in enumerate(case.outputs):
                left = runs.read(name)
                if place < first and not runs.is_whole(case, name, left):
                    found.append(f'{name} is not whole')
                elif place == first and len(left or b'') != most:
                    found.append(f'{name} has {None if left is None else len(left)} bytes')
                elif place == first and case.words[0] != 'stamp' and not whole[place].startswith(left):
                    found.append(f'{name} is no prefix')
                elif place > first and left is not None:
                    found.append(f'{name} is there')
            wrong.append((f'at most {most} bytes', found))
    sizes = ', '.join(str(len(data)) for data in whole)
    tally.told(f'ots {case.name}, {sizes} bytes', wrong)


# ---- the calendar

def group(kind, payload):
    """A record of a journal of version 2, a group of its own, whose gate is open."""
    body = bytes([kind]) + struct.pack('>I', len(payload)) + payload
    return b'\xa5\0\1' + struct.pack('>I', len(body)) + body


def journal(*records):
    return EMPTY[:8] + b''.join(group(kind, payload) for kind, payload in records) + b'\0'


def old_journal(*payloads):
    """A journal of version 1, of commitments."""
    return b'OTSCAL\x01\n' + b''.join(b'\xa5\1' + struct.pack('>I', len(it)) + it for it in payloads) + b'\0'


class Calendars:
    """Runs of `otsd` in one folder."""

    def __init__(self, program, folder):
        self.program, self.folder = os.path.abspath(program), folder
        os.mkdir(folder)
        self.put('key', bytes(32))
        self.put('digests', b'00\n' * 3)
        for name in ('block.raw', 'calendar.journal'):
            shutil.copy(os.path.join(TOP, 'examples', name), folder)

    def path(self, name):
        return os.path.join(self.folder, name)

    def put(self, name, data):
        with open(self.path(name), 'wb') as out:
            out.write(data)

    def start(self, *words, most=None):
        return subprocess.Popen([self.program, 'j', *words], cwd=self.folder, stdin=subprocess.DEVNULL, stdout=subprocess.PIPE,
                                preexec_fn=None if most is None else at_most(most))

    def run(self, *words, most=None):
        process = self.start(*words, most=most)
        out = process.communicate(timeout=120)[0].decode()
        return process.returncode, out

    def begin(self, data):
        """Makes the journal one with these bytes, or removes it."""
        if data is None:
            with contextlib.suppress(FileNotFoundError):
                os.remove(self.path('j'))
        else:
            self.put('j', data)

    def size(self):
        return os.path.getsize(self.path('j'))

    def read(self, name='j'):
        with open(self.path(name), 'rb') as file:
            return file.read()

    def refused(self, tally, name, data, words):
        """A command under the limits below what the journal grows to, and under some above."""
        self.begin(data)
        status, printed = self.run(*words)
        if status != 0:
            sys.exit(f'{name}: status {status}, {printed!r}: there was no limit yet')
        grown = self.size()
        self.begin(data)
        before = (0, '') if data is None else self.run('list')
        wrong = []
        least = 0 if data is None else len(data)
        near = {0, 1, 8, 9, *range(least - 2, least + 3), *range(least, grown, 5), *range(grown - 3, grown + 2), grown + 999}
        for most in sorted(it for it in near if it >= 0):
            self.begin(data)
            done = self.run(*words, most=most)
            if most >= grown:
                # (a tree of `batch` has its own nonces)
                found = tally.unlike((done[0], len(done[1])), (0, len(printed)))
            else:
                found = tally.unlike(done, (25, 'disk fault\n'))
                listed = self.run('list')
                if listed != before:
                    found.append(f'then it lists {listed}')
                then = self.run(*words)
                if (then[0], len(then[1])) != (0, len(printed)) or self.size() != grown:
                    found.append(f'without the limit it then ends with {then}, and has {self.size()} bytes')
            wrong.append((f'at most {most} bytes', found))
        tally.told(f'otsd {name}, from {0 if data is None else len(data)} to {grown} bytes', wrong)


def commands(calendars, tally):
    one = journal((1, COMMITMENTS[0]))
    calendars.refused(tally, 'list of a new journal', None, ['list'])
    calendars.refused(tally, 'tip', one, ['tip'])
    calendars.refused(tally, 'batch', None, ['batch', '--key', 'key', '--uri', 'http://127.0.0.1:1', 'digests'])
    calendars.refused(tally, 'batch of a journal', one, ['batch', '--key', 'key', '--uri', 'http://127.0.0.1:1', 'digests'])
    calendars.begin(calendars.read('calendar.journal'))
    calendars.run('tip')
    tipped = calendars.read()
    calendars.refused(tally, 'anchor', tipped, ['anchor', 'block.raw', '--height', '7'])
    calendars.put('old', old_journal(*COMMITMENTS))
    calendars.refused(tally, 'migrate', None, ['migrate', 'old'])


def free_port():
    with socket.socket() as one:
        one.bind(('127.0.0.1', 0))
        return one.getsockname()[1]


def asked(port, data):
    """The status and the body of a reply; (0, b'') where none comes."""
    try:
        with socket.create_connection(('127.0.0.1', port), timeout=30) as one:
            one.settimeout(30)
            one.sendall(data)
            reply = b''.join(iter(lambda: one.recv(65536), b''))
    except OSError:
        return 0, b''
    head, _, body = reply.partition(b'\r\n\r\n')
    return (int(head.split()[1]), body) if head else (0, b'')


def digest(value):
    return b'POST /digest HTTP/1.1\r\nHost: x\r\nContent-Length: 32\r\n\r\n' + bytes([value]) * 32


def commitment_of(listed, body):
    """The commitment that a reply is of: its last eight bytes stand in the tree after 27 others."""
    return next((line.split()[2] for line in listed.splitlines() if line.endswith(body[27:35].hex())), None)


def serving(calendars, most, connections):
    """`otsd serve` under a limit, and its port. The kernel names a free port, which another may take first."""
    for _ in range(20):
        port = free_port()
        words = ['serve', '--key', 'key', '--uri', 'http://127.0.0.1:1', '--port', str(port), '--workers', '1', '--accept',
                 str(connections)]
        process = calendars.start(*words, most=most)
        first = process.stdout.readline().decode()
        if first == f'listening {port}\n':
            return process, port
        rest = process.communicate()[0].decode()
        if process.returncode != 32:
            return (process.returncode, first + rest), None
    sys.exit('no port is free')


def served(calendars, tally):
    """Digests under a limit, one after the other: each one makes a record of its own."""
    digests, wrong, limits_of_statuses = 4, [], {}
    calendars.begin(None)
    process, port = serving(calendars, None, 2)
    sizes = []
    for value in range(2):
        asked(port, digest(value))
        sizes.append(calendars.size())
    process.communicate()
    record = sizes[1] - sizes[0]
    empty = sizes[0] - record
    near = [0, empty - 1, *range(empty, empty + record + 2, 5)]
    near += [it for count in (1, 2) for it in range(empty + record * count - 2, empty + record * count + 3)]
    for most in sorted({*near, empty + record * 3 + 7}):
        calendars.begin(None)
        calendars.run('list')
        process, port = serving(calendars, most, digests + 1)
        # An empty journal is made anew by each opening.
        if port is None:
            wrong.append((f'at most {most} bytes', tally.unlike(process, (25, 'disk fault\n') if most < empty else None)))
            continue
        replies = [asked(port, digest(value)) for value in range(digests)]
        fit = min(max(most - empty, 0) // record, digests)
        statuses = [status for status, _ in replies]
        found = [] if statuses == [200] * fit + [503] * (digests - fit) else [f'the replies are {statuses}']
        limits_of_statuses.setdefault(tuple(statuses), []).append(most)
        if any(body != b'disk\n' for status, body in replies if status == 503):
            found.append(f'a refusal says {[body for status, body in replies if status == 503]}')
        asked(port, b'GET /nothing HTTP/1.1\r\nHost: x\r\n\r\n')
        end = process.communicate(timeout=60)[0].decode()
        found += tally.unlike((process.returncode, end), (0, f'served {digests + 1}\n'))
        status, listed = calendars.run('list')
        kept = [commitment_of(listed, body) for status, body in replies if status == 200]
        if status or None in kept or listed.count('commit') != len(kept):
            found.append(f'{len(kept)} were answered, and it lists {status}, {listed!r}')
        wrong.append((f'at most {most} bytes', found))
    told = '; '.join(f'{list(statuses)} at {found[0]}' + (f' to {found[-1]}' if len(found) > 1 else '')
                     for statuses, found in limits_of_statuses.items())
    tally.told(f'otsd serve, from {empty} bytes by {record} for a digest ({told})', wrong)
    falling(calendars, tally, record)


def falling(calendars, tally, record):
    """A limit that falls to the journal's length while it is served, and is lifted again."""
    calendars.begin(None)
    process, port = serving(calendars, None, 8)
    if port is None:
        sys.exit(f'otsd does not serve: {process}')
    found = []
    replies = [asked(port, digest(value)) for value in range(2)]
    length = calendars.size()
    hard = resource.prlimit(process.pid, resource.RLIMIT_FSIZE)[1]
    for value, most in ((2, length), (3, length + record - 1), (4, 0)):
        resource.prlimit(process.pid, resource.RLIMIT_FSIZE, (most, hard))
        replies.append(asked(port, digest(value)))
    resource.prlimit(process.pid, resource.RLIMIT_FSIZE, (hard, hard))
    replies += [asked(port, digest(value)) for value in (5, 6)]
    statuses = [status for status, _ in replies]
    if statuses != [200, 200, 503, 503, 503, 200, 200]:
        found.append(f'the replies are {statuses}')
    asked(port, b'GET /nothing HTTP/1.1\r\nHost: x\r\n\r\n')
    end = process.communicate(timeout=60)[0].decode()
    found += tally.unlike((process.returncode, end), (0, 'served 8\n'))
    status, listed = calendars.run('list')
    kept = [commitment_of(listed, body) for status, body in replies if status == 200]
    if status or None in kept or listed.count('commit') != len(kept):
        found.append(f'{len(kept)} were answered, and it lists {status}, {listed!r}')
    tally.told(f'otsd serve, while the limit falls and is lifted ({statuses})', [('falling', found)])


# ---- standard output

def of_standard_output(runs, calendars, tally):
    """What becomes of a program that prints into a file at its limit."""
    told = (runs.program, ['info', 'p'], runs.place('')), (calendars.program, ['j', 'list'], calendars.folder)
    for program, words, folder in told:
        calendars.begin(journal((1, COMMITMENTS[0])))
        whole = subprocess.run([program, *words], cwd=folder, stdin=subprocess.DEVNULL, stdout=subprocess.PIPE, check=True,
                               timeout=60).stdout
        found = []
        for before in (b'', b'earlier\n'):
            for most in {0, 1, len(before), len(before) + 1, len(before) + len(whole) - 1, len(before) + len(whole)}:
                name = os.path.join(folder, 'printed')
                with open(name, 'wb') as out:
                    out.write(before)
                with open(name, 'ab') as out:
                    done = subprocess.run([program, *words], cwd=folder, stdin=subprocess.DEVNULL, stdout=out,
                                          preexec_fn=at_most(most), check=False, timeout=60)
                with open(name, 'rb') as file:
                    held = file.read()
                wanted = before + whole[:max(0, most - len(before))]
                status = 0 if most >= len(before) + len(whole) else 7
                found += tally.unlike((done.returncode, held), (status, wanted))
        label = ' '.join([os.path.basename(program), *words])
        tally.told(f'{label}, standard output a file at its limit', [('appended', found)])


def main():
    ots, otsd = (sys.argv[1:] + [None, None])[:2]
    ots = ots or os.path.join(TOP, 'build', 'ots')
    otsd = otsd or os.path.join(TOP, 'build', 'otsd')
    tally = Tally()
    with tempfile.TemporaryDirectory() as folder:
        runs = Runs(ots, folder)
        for case in cases(runs):
            client(runs, case, tally)
        if os.access(otsd, os.X_OK):
            calendars = Calendars(otsd, os.path.join(folder, 'calendars'))
            commands(calendars, tally)
            served(calendars, tally)
            of_standard_output(runs, calendars, tally)
        else:
            print(f'{otsd} is not there: ./run otsd builds it')
            tally.bad += 1
    print(f'{tally.count} runs, {tally.signals or "none"} ended by a signal, {tally.bad or "none"} not as they are to be')
    sys.exit(1 if tally.bad else 0)


if __name__ == '__main__':
    main()
