#!/usr/bin/python3
"""Runs the four programs where the system or a peer really fails, and sees what they print and leave.

    interop/real_faults.py [--programs FOLDER] [--silent] [WORD..]

A file may take no more bytes, a folder stands in place of a file, a folder or a file may not be read or written, a
journal is held by another process or is a pipe, standard output is full or nobody reads it, no descriptor is left, a
word is no UTF-8, a calendar refuses, resets, closes or sends half of a reply, a port is taken. Each case says the
status and the text that docs/GUIDE.md and docs/OPERATOR.md promise, and what its files are to hold then. It prints a
line for each: the words, the failure, the status, what was printed, what the files hold; and ends with status 1 where
one is not so. With --silent there are calendars besides that say nothing, which takes three minutes. With words only
those cases run whose lines have one of them.

It runs build/ots, build/otsd, build/otsmirror and build/otsgate (`./run NAME` builds each), or those of another folder,
speaks to 127.0.0.1 alone, and is run by hand, on Linux. Closed streams, failing syncs, outputs whose calls fail, limits on
the size of files, failing accepts, clients that mean ill, and a system without random bytes, are tried by closed_output.sh,
failing_sync.sh, failing_outputs.py, file_limits.py, failing_accept.py, hostile.py and failing_random.py.
"""

import argparse
import contextlib
import os
import resource
import shutil
import signal
import socket
import struct
import subprocess
import sys
import tempfile
import threading
import time

from client_rows import MAGIC, request_for_digest
from stamps import sha256

TOP = os.path.dirname(os.path.dirname(os.path.abspath(__file__)))
NOBODY = 65534

HEAD = MAGIC + b'\1\x08' + sha256(b'Hello World!\n')
BLOCK_7 = b'\x08\0' + bytes.fromhex('0588960d73d71901') + b'\1\7'
PROOF = HEAD + BLOCK_7
PRINTED = f'file sha256 {sha256(b"Hello World!" + bytes([10])).hex()}\n0 sha256\n1 bitcoin 7\n'
EMPTY = b'OTSCAL\x02\n\0'
# A journal of one commitment, one with its tip, and what these are as texts.
COMMITMENT = bytes(range(44))
ONE = EMPTY[:8] + b'\xa5\0\1\0\0\0\x31\1\0\0\0\x2c' + COMMITMENT + b'\0'
TIP = sha256(COMMITMENT)
TIPPED = ONE[:-1] + b'\xa5\0\1\0\0\0\x35\2\0\0\0\x30' + struct.pack('>QQ', 0, 1) + TIP + b'\0'
LISTED = f'commit 0 {COMMITMENT.hex()}\n'
PAGE = struct.pack('>Q', 0) + b'\1\0\0\0\x2c' + COMMITMENT
OK = b'HTTP/1.1 200 OK\r\nConnection: close\r\nContent-Length: %d\r\n\r\n'


def pending(uri):
    """The item of a pending attestation."""
    payload = bytes([len(uri)]) + uri.encode()
    return b'\0' + bytes.fromhex('83dfe30d2ef90c8e') + bytes([len(payload)]) + payload


class Wrong(Exception):
    """What is not as it is to be."""


class Untried(Exception):
    """Why a case can't be made here."""


# ---- peers

class Peer:
    """A peer that listens on a port of its own, and does with each connection what its kind says."""

    def __init__(self, kind, replies=()):
        self.kind, self.replies, self.held = kind, list(replies), []
        self.socket = socket.create_server(('127.0.0.1', 0))
        self.address = f'http://127.0.0.1:{self.socket.getsockname()[1]}'
        threading.Thread(target=self.serve, daemon=True).start()

    def serve(self):
        while True:
            try:
                link, _ = self.socket.accept()
            except OSError:
                return
            with contextlib.suppress(OSError):
                self.answer(link)

    def answer(self, link):
        if self.kind == 'silent':
            self.held.append(link)
            return
        link.recv(65536)
        reply = self.replies.pop(0) if self.replies else b''
        if self.kind == 'half':
            link.sendall(reply[:len(reply) // 2])
            time.sleep(0.2)
        if self.kind in ('reset', 'half'):
            link.setsockopt(socket.SOL_SOCKET, socket.SO_LINGER, struct.pack('ii', 1, 0))
        elif self.kind == 'good':
            link.sendall(reply)
        link.close()

    def close(self):
        self.socket.close()


def closed_port():
    """The address of a port on which nobody listens."""
    with socket.socket() as one:
        one.bind(('127.0.0.1', 0))
        return f'http://127.0.0.1:{one.getsockname()[1]}'


def port_of(address):
    return int(address.rpartition(':')[2])


# ---- runs

class Run:
    """A run of a program in a folder of its own."""

    def __init__(self, programs, folder):
        self.programs, self.folder, self.words = programs, folder, None

    def path(self, name):
        return os.path.join(self.folder, name)

    def file(self, name, data, mode=0o644):
        with open(self.path(name), 'wb') as out:
            out.write(data)
        os.chmod(self.path(name), mode)

    def holds(self, name, wanted):
        """That a file holds these bytes; with `None` that there is none."""
        found = None
        if os.path.lexists(self.path(name)):
            with open(self.path(name), 'rb') as file:
                found = file.read()
        if found != wanted:
            raise Wrong(f'{name} has {None if found is None else found.hex()}')
        return f'{name}: none' if found is None else f'{name}: {len(found)} bytes, as they are to be'

    def holds_prefix(self, name, wanted):
        with open(self.path(name), 'rb') as file:
            found = file.read()
        if found == wanted or not wanted.startswith(found):
            raise Wrong(f'{name} has {found.hex()}')
        return f'{name}: {len(found)} bytes of {len(wanted)}, a prefix'

    def lists(self, wanted):
        """That the journal opens, and lists these records."""
        done = subprocess.run([self.program('otsd'), 'j', 'list'], cwd=self.folder, capture_output=True, check=False)
        if (done.returncode, done.stdout.decode()) != (0, wanted):
            raise Wrong(f'the journal: status {done.returncode}, {done.stdout!r}')
        return f'j opens with {wanted.count(chr(10))} records'

    def program(self, name):
        return os.path.join(self.programs, name)

    def start(self, *words, most=None, descriptors=None, as_nobody=False, output=subprocess.PIPE):
        """Starts a program. A file may take so many bytes, and so many descriptors may be open."""
        def limits():
            signal.signal(signal.SIGXFSZ, signal.SIG_IGN)
            if most is not None:
                resource.setrlimit(resource.RLIMIT_FSIZE, (most, most))
            if descriptors is not None:
                resource.setrlimit(resource.RLIMIT_NOFILE, (descriptors, descriptors))
            if as_nobody and os.geteuid() == 0:
                os.setgroups([])
                os.setgid(NOBODY)
                os.setuid(NOBODY)

        self.words = ' '.join(os.fsencode(word).decode('ascii', 'backslashreplace') for word in words)
        return subprocess.Popen([self.program(words[0]), *words[1:]], cwd=self.folder, stdin=subprocess.DEVNULL,
                                stdout=output, stderr=subprocess.DEVNULL, preexec_fn=limits)

    def ends(self, status, text, *words, seconds=30, **how):
        """Runs a program, and sees that it ends with this status and has printed this text."""
        started = self.start(*words, **how)
        try:
            out = started.communicate(timeout=seconds)[0] or b''
        except subprocess.TimeoutExpired as late:
            started.kill()
            raise Wrong(f'it runs on after {seconds} seconds') from late
        if (started.returncode, out.decode()) != (status, text):
            raise Wrong(f'status {started.returncode}, {out!r}')
        return f'status {status} | {text.strip() or "nothing"}'.replace('\n', '; ')


CASES = []


def case(why, *, silent=False):
    """A case, with the words for its failure."""
    def add(function):
        CASES.append((why, silent, function))
        return function
    return add


# ---- the client

@case('the output may have 40 bytes')
def output_is_cut(run):
    run.file('p', PROOF)
    yield run.ends(7, 'write fault o\n', 'ots', 'canon', 'p', 'o', most=40)
    yield run.holds_prefix('o', PROOF)


@case('the output may have no byte')
def output_is_empty(run):
    run.file('p', PROOF)
    yield run.ends(7, 'write fault o\n', 'ots', 'merge', 'p', 'p', 'o', most=0)
    yield run.holds_prefix('o', PROOF)


@case('the file system has 4 KiB')
def file_system_is_full(run):
    long = HEAD + b'\0' + bytes(range(1, 9)) + b'\x80\x40' + bytes(8192)
    run.file('p', long)
    with small_file_system(run.path('small')):
        yield run.ends(7, 'write fault small/o\n', 'ots', 'canon', 'p', 'small/o')
        yield run.holds_prefix('small/o', long)


@contextlib.contextmanager
def small_file_system(folder):
    """A file system of one page in memory, where it may be mounted."""
    os.mkdir(folder)
    if subprocess.run(['mount', '-t', 'tmpfs', '-o', 'size=4k', 'tmpfs', folder], stderr=subprocess.DEVNULL,
                      check=False).returncode:
        raise Untried('no file system can be mounted here')
    try:
        yield
    finally:
        subprocess.run(['umount', folder], check=True)


@case('the folder of the output may not be written')
def output_in_a_closed_folder(run):
    run.file('p', PROOF)
    os.mkdir(run.path('closed'), 0o555)
    yield run.ends(7, 'write fault closed/o\n', 'ots', 'prune', 'p', 'closed/o', as_nobody=True)
    yield run.holds('closed/o', None)


@case('a folder has the name of the output')
def output_is_a_folder(run):
    run.file('p', PROOF)
    os.mkdir(run.path('o'))
    yield run.ends(5, 'exists o\n', 'ots', 'canon', 'p', 'o')


@case('the output is a link that leads nowhere')
def output_is_a_link(run):
    run.file('p', PROOF)
    os.symlink('nowhere', run.path('o'))
    yield run.ends(5, 'exists o\n', 'ots', 'canon', 'p', 'o')
    yield run.holds('nowhere', None)


@case('a folder stands in place of the proof')
def input_is_a_folder(run):
    os.mkdir(run.path('p'))
    yield run.ends(6, 'read fault p\n', 'ots', 'info', 'p')


@case('the proof may not be read')
def input_is_closed(run):
    run.file('p', PROOF, 0)
    yield run.ends(6, 'read fault p\n', 'ots', 'info', 'p', as_nobody=True)


@case('the headers may not be read')
def headers_are_closed(run):
    run.file('p', PROOF)
    run.file('f', b'Hello World!\n')
    run.file('h', bytes(80), 0)
    yield run.ends(6, 'read fault h\n', 'ots', 'verify', 'f', 'p', 'h', '--from', '7', as_nobody=True)
    yield run.ends(6, 'read fault h\n', 'ots', 'chain', 'h', '--from', '7', as_nobody=True)


@case('the proof comes through a pipe')
def input_is_a_pipe(run):
    os.mkfifo(run.path('p'))
    threading.Thread(target=run.file, args=('p', PROOF), daemon=True).start()
    yield run.ends(0, PRINTED, 'ots', 'info', 'p')


@case('a word is no UTF-8')
def word_is_no_text(run):
    usage = 'usage: ots info, canon, merge, prune, verify, stamp, upgrade, sample, chain\n'
    yield run.ends(2, usage, 'ots', 'info', b'\xff')


@case('standard output is full')
def output_is_full(run):
    run.file('p', PROOF)
    with open('/dev/full', 'wb') as full:
        yield run.ends(7, '', 'ots', 'info', 'p', output=full)
        yield run.ends(0, '', 'ots', 'canon', 'p', 'o', output=full)
    yield run.holds('o', PROOF)


@case('nobody reads standard output')
def output_is_not_read(run):
    run.file('p', PROOF)
    reading, writing = os.pipe()
    os.close(reading)
    try:
        yield run.ends(7, '', 'ots', 'info', 'p', output=writing)
    finally:
        os.close(writing)


@case('no descriptor is left for the null device')
def no_descriptor(run):
    run.file('p', PROOF)
    # (the fourth one is what the system loads the program by)
    yield run.ends(7, '', 'ots', 'info', 'p', descriptors=4)


@case('no descriptor is left for a file')
def no_descriptor_for_a_file(run):
    run.file('p', PROOF)
    yield run.ends(6, 'read fault p\n', 'ots', 'info', 'p', descriptors=6)
    yield run.ends(0, PRINTED, 'ots', 'info', 'p', descriptors=7)


def upgraded_at(run, peer, said, **how):
    """An upgrade at a calendar that gives no tree: the line says so, and the proof stays as it was."""
    proof = HEAD + b'\x08' + pending(peer if isinstance(peer, str) else peer.address)
    address = peer if isinstance(peer, str) else peer.address
    run.file('p', proof)
    yield run.ends(1, f'{address} {said}\npending\n', 'ots', 'upgrade', '--calendars', address, 'p', 'o', **how)
    yield run.holds('o', proof)


@case('nobody listens on the port of the calendar')
def calendar_refuses(run):
    yield from upgraded_at(run, closed_port(), 'unreachable')


@case('the calendar resets the connection')
def calendar_resets(run):
    yield from upgraded_at(run, Peer('reset'), 'unreachable')


@case('the calendar closes the connection without a byte')
def calendar_closes(run):
    yield from upgraded_at(run, Peer('closed'), 'not http')


@case('the calendar resets the connection within its reply')
def calendar_resets_late(run):
    yield from upgraded_at(run, Peer('half', [OK % len(BLOCK_7) + BLOCK_7]), 'unreachable')


@case('the calendar says nothing for a minute', silent=True)
def calendar_is_silent(run):
    yield from upgraded_at(run, Peer('silent'), 'unreachable', seconds=90)


@case('one of two calendars resets the connection')
def stamp_at_two(run):
    run.file('f', b'Hello World!\n')
    good, bad = Peer('good', [OK % len(BLOCK_7) + BLOCK_7] * 2), Peer('reset')
    lines = f'{bad.address} unreachable\n{good.address} ok\n'
    words = 'ots', 'stamp', '--calendars', f'{bad.address},{good.address}', '--min'
    yield run.ends(10, lines + 'too few 1 of 2\n', *words, '2', 'f')
    yield run.holds('f.ots', None)
    yield run.ends(0, lines + 'wrote f.ots\n', *words, '1', 'f')


@case('the folder of the second proof may not be written')
def stamp_in_a_closed_folder(run):
    run.file('f', b'Hello World!\n')
    run.file('g', b'Hello World!\n')
    good = Peer('good', [OK % len(BLOCK_7) + BLOCK_7])
    os.mkdir(run.path('closed'), 0o555)
    os.symlink('../g', run.path('closed/g'))
    os.chmod(run.folder, 0o777)
    yield run.ends(7, f'{good.address} ok\nwrote f.ots\nwrite fault closed/g.ots\n', 'ots', 'stamp', '--calendars',
                   good.address, '--min', '1', 'f', 'closed/g', as_nobody=True)
    yield run.holds('closed/g.ots', None)


# ---- the calendar

@case('a folder stands in place of the journal')
def journal_is_a_folder(run):
    os.mkdir(run.path('j'))
    yield run.ends(25, 'disk fault\n', 'otsd', 'j', 'list')


@case('a pipe stands in place of the journal')
def journal_is_a_pipe(run):
    os.mkfifo(run.path('j'))
    yield run.ends(25, 'disk fault\n', 'otsd', 'j', 'tip')


@case('the folder of the journal is not there')
def journal_in_no_folder(run):
    yield run.ends(25, 'disk fault\n', 'otsd', 'nowhere/j', 'list')
    yield run.holds('nowhere', None)


@case('the folder of a new journal may not be written')
def journal_in_a_closed_folder(run):
    os.mkdir(run.path('closed'), 0o555)
    yield run.ends(25, 'disk fault\n', 'otsd', 'closed/j', 'list', as_nobody=True)
    yield run.holds('closed/j', None)


@case('the journal may not be written')
def journal_is_closed(run):
    run.file('j', ONE, 0o444)
    yield run.ends(25, 'disk fault\n', 'otsd', 'j', 'tip', as_nobody=True)
    yield run.holds('j', ONE)


@case('the journal may have no more bytes than it has')
def journal_is_full(run):
    run.file('j', ONE)
    yield run.ends(25, 'disk fault\n', 'otsd', 'j', 'tip', most=len(ONE))
    yield run.lists(LISTED)
    yield run.ends(0, f'tip 0 1 {TIP.hex()}\n', 'otsd', 'j', 'tip')
    yield run.holds('j', TIPPED)


@case('the journal may have 20 bytes more, within a record')
def journal_is_cut(run):
    run.file('j', ONE)
    yield run.ends(25, 'disk fault\n', 'otsd', 'j', 'tip', most=len(ONE) + 20)
    yield run.lists(LISTED)
    yield run.ends(0, f'tip 0 1 {TIP.hex()}\n', 'otsd', 'j', 'tip')
    yield run.holds('j', TIPPED)


@case('a new journal may have no byte')
def new_journal_is_full(run):
    yield run.ends(25, 'disk fault\n', 'otsd', 'j', 'list', most=0)
    yield run.lists('')


@case('another process holds the journal')
def journal_is_held(run):
    run.file('j', ONE)
    run.file('k', b'key')
    port = port_of(closed_port())
    with contextlib.ExitStack() as stack:
        words = 'otsd', 'j', 'serve', '--key', 'k', '--uri', f'http://127.0.0.1:{port}', '--port', str(port)
        held = stack.enter_context(run.start(*words))
        stack.callback(held.kill)
        if held.stdout.readline() != f'listening {port}\n'.encode():
            raise Wrong('it does not listen')
        yield run.ends(25, 'disk fault\n', 'otsd', 'j', 'tip')
        yield run.ends(25, 'disk fault\n', 'otsmirror', 'j', closed_port(), '--rounds', '1')
    yield run.lists(LISTED)


@case('a folder stands in place of the key')
def key_is_a_folder(run):
    os.mkdir(run.path('k'))
    run.file('d', b'00\n')
    yield run.ends(6, 'read fault k\n', 'otsd', 'j', 'batch', '--key', 'k', '--uri', 'http://a', 'd')
    yield run.holds('j', None)


@case('the block may not be read')
def block_is_closed(run):
    run.file('j', TIPPED, 0o666)
    run.file('b', bytes(100), 0)
    yield run.ends(6, 'read fault b\n', 'otsd', 'j', 'anchor', 'b', '--height', '7', as_nobody=True)
    yield run.holds('j', TIPPED)


@case('the name of the journal is no UTF-8')
def journal_has_no_text(run):
    yield run.ends(2, 'usage: otsd JOURNAL serve, batch, tip, anchor, list, migrate\n', 'otsd', b'\xff', 'list')


@case('no descriptor is left for the journal')
def no_descriptor_for_the_journal(run):
    run.file('j', ONE)
    yield run.ends(25, 'disk fault\n', 'otsd', 'j', 'list', descriptors=6)
    yield run.lists(LISTED)


@case('standard output is full when a tip is stored')
def tip_is_not_printed(run):
    run.file('j', ONE)
    with open('/dev/full', 'wb') as full:
        yield run.ends(7, '', 'otsd', 'j', 'tip', output=full)
    yield run.holds('j', TIPPED)


@case('the port is taken')
def port_is_taken(run):
    run.file('k', b'key')
    taken = Peer('closed')
    port = str(port_of(taken.address))
    yield run.ends(32, 'accept fault\n', 'otsd', 'j', 'serve', '--key', 'k', '--uri', 'http://a', '--port', port)
    words = '--calendars', 'http://a', '--min', '1', '--port', port, '--round', '1'
    yield run.ends(32, 'accept fault\n', 'otsgate', *words)


# ---- the mirror

@case('nobody listens on the port of the calendar')
def mirror_is_refused(run):
    yield run.ends(1, 'unreachable\nunreachable\nrecords 0\n', 'otsmirror', 'j', closed_port(), '--rounds', '2')
    yield run.holds('j', EMPTY)


@case('the calendar resets the connection, once within its page')
def mirror_is_reset(run):
    peer = Peer('half', [b'', OK % len(PAGE) + PAGE])
    yield run.ends(1, 'unreachable\nunreachable\nrecords 0\n', 'otsmirror', 'j', peer.address, '--rounds', '2')
    yield run.holds('j', EMPTY)


@case('the calendar says nothing for a minute', silent=True)
def mirror_hears_nothing(run):
    yield run.ends(1, 'unreachable\nrecords 0\n', 'otsmirror', 'j', Peer('silent').address, '--rounds', '1', seconds=90)
    yield run.holds('j', EMPTY)


@case('the journal may have 30 bytes, within a record')
def mirror_is_cut(run):
    peer = Peer('good', [OK % len(PAGE) + PAGE] * 2 + [OK % 8 + struct.pack('>Q', 1)])
    yield run.ends(25, 'disk fault\n', 'otsmirror', 'j', peer.address, '--rounds', '1', most=30)
    yield run.lists('')
    yield run.ends(0, 'took 1\ncurrent\nrecords 1\n', 'otsmirror', 'j', peer.address, '--rounds', '5')
    yield run.holds('j', ONE)


@case('no descriptor is left for the folder of the journal, which is synced too')
def no_descriptor_for_the_folder(run):
    peer = Peer('good', [OK % len(PAGE) + PAGE])
    words = 'otsmirror', 'j', peer.address, '--rounds', '1'
    yield run.ends(25, 'disk fault\n', *words, descriptors=7)
    yield run.ends(1, 'took 1\nrecords 1\n', *words, descriptors=8)
    yield run.holds('j', ONE)


@case('a folder stands in place of the journal')
def mirror_in_a_folder(run):
    os.mkdir(run.path('j'))
    yield run.ends(25, 'disk fault\n', 'otsmirror', 'j', closed_port(), '--rounds', '1')


@case('standard output is full')
def mirror_is_not_printed(run):
    peer = Peer('good', [OK % len(PAGE) + PAGE])
    with open('/dev/full', 'wb') as full:
        yield run.ends(7, '', 'otsmirror', 'j', peer.address, '--rounds', '1', output=full)
    yield run.lists(LISTED)


# ---- the gateway

def asked(address, data):
    """What a client is answered that sends these bytes."""
    with socket.create_connection(('127.0.0.1', port_of(address)), timeout=90) as link:
        link.sendall(data)
        return b''.join(iter(lambda: link.recv(65536), b''))


DIGEST = request_for_digest(bytes(32))('127.0.0.1')


def gated(run, calendar, text, replies, *, links=(DIGEST,), seconds=30, **how):
    """A round of a gateway before one calendar: what it prints, and how each client's reply begins."""
    gate = closed_port()
    port = str(port_of(gate))
    started = run.start('otsgate', '--calendars', calendar, '--min', '1', '--port', port, '--round', str(len(links)),
                        '--accept', str(len(links)), **how)
    try:
        if started.stdout.readline() != f'listening {port}\n'.encode():
            raise Wrong('it does not listen')
        found = [None] * len(links)
        threads = []
        for place, data in enumerate(links):
            threads.append(threading.Thread(target=client, args=(gate, data, found, place)))
            threads[-1].start()
            time.sleep(0.2)
        for thread in threads:
            thread.join(seconds)
        out = started.communicate(timeout=seconds)[0].decode()
    finally:
        started.kill()
    if (started.returncode, out) != (0, text):
        raise Wrong(f'status {started.returncode}, {out!r}')
    for reply, wanted in zip(found, replies):
        if wanted is not None and not (reply or b'').startswith(wanted):
            raise Wrong(f'a client has {reply!r}')
    return f'status 0 | {text.strip()}'.replace('\n', '; ')


def client(gate, data, found, place):
    """A client that sends this, or half of a digest's request and then a reset."""
    if data is not None:
        found[place] = asked(gate, data)
        return
    link = socket.create_connection(('127.0.0.1', port_of(gate)))
    link.sendall(DIGEST[:len(DIGEST) // 2])
    time.sleep(0.1)
    link.setsockopt(socket.SOL_SOCKET, socket.SO_LINGER, struct.pack('ii', 1, 0))
    link.close()


NONE, STAMPED = b'HTTP/1.1 503 ', b'HTTP/1.1 200 '


@case('nobody listens on the port of the calendar')
def gateway_is_refused(run):
    calendar = closed_port()
    yield gated(run, calendar, f'{calendar} unreachable\nround 0\n', [NONE])


@case('the calendar resets the connection')
def gateway_is_reset(run):
    calendar = Peer('reset').address
    yield gated(run, calendar, f'{calendar} unreachable\nround 0\n', [NONE])


@case('the calendar says nothing for a minute', silent=True)
def gateway_hears_nothing(run):
    calendar = Peer('silent').address
    yield gated(run, calendar, f'{calendar} unreachable\nround 0\n', [NONE], seconds=90)


@case('no descriptor is left for the conversation')
def no_descriptor_for_the_gateway(run):
    calendar = Peer('good', [OK % len(BLOCK_7) + BLOCK_7]).address
    yield gated(run, calendar, f'{calendar} unreachable\nround 0\n', [NONE], descriptors=8)
    yield gated(run, calendar, f'{calendar} ok\nround 1\n', [STAMPED], descriptors=9)


@case('one of two clients resets its connection within its request')
def client_resets(run):
    calendar = Peer('good', [OK % len(BLOCK_7) + BLOCK_7]).address
    yield gated(run, calendar, f'{calendar} ok\nround 1\n', [None, STAMPED], links=(None, DIGEST))


@case('standard output is full')
def gateway_is_not_printed(run):
    port = str(port_of(closed_port()))
    words = '--calendars', 'http://a', '--min', '1', '--port', port, '--round', '1'
    with open('/dev/full', 'wb') as full:
        yield run.ends(7, '', 'otsgate', *words, output=full)


# ---- all of them

def tried(programs, why, function):
    """The line of a case, and whether it is as it is to be."""
    said = []
    with tempfile.TemporaryDirectory() as work:
        os.chmod(work, 0o755)
        run = Run(programs, work)
        try:
            for one in function(run):
                said.append(one)
            is_so = True
        except Untried as why_not:
            said.append(f'not tried: {why_not}')
            is_so = True
        except Wrong as wrong:
            said.append(f'NOT AS IT IS TO BE: {wrong}')
            is_so = False
        for folder in ('closed',):
            if os.path.isdir(run.path(folder)):
                os.chmod(run.path(folder), 0o755)
    return f'{run.words} | {why} | ' + ' | '.join(said), is_so


def main():
    parser = argparse.ArgumentParser()
    parser.add_argument('--programs', default=os.path.join(TOP, 'build'))
    parser.add_argument('--silent', action='store_true')
    parser.add_argument('words', nargs='*')
    given = parser.parse_args()
    programs = os.path.abspath(given.programs)
    for name in ('ots', 'otsd', 'otsmirror', 'otsgate'):
        if shutil.which(os.path.join(programs, name)) is None:
            sys.exit(f'{programs}/{name} is not built')
    bad = count = 0
    for why, silent, function in CASES:
        if silent and not given.silent:
            continue
        if given.words and not any(word in f'{why} {function.__name__}' for word in given.words):
            continue
        line, is_so = tried(programs, why, function)
        print(line, flush=True)
        count, bad = count + 1, bad + (not is_so)
    print(f'{count} cases, {bad or "none"} not as they are to be')
    sys.exit(1 if bad else 0)


if __name__ == '__main__':
    main()
