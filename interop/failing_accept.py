#!/usr/bin/python3
"""Lets each `accept` of `otsd serve` fail, by strace, with each error that Linux may give, and sees that it goes on.

    interop/failing_accept.py [ERROR..]

A calendar of two workers runs under strace, which makes every second call of accept4 fail with the error. Ten digests
are sent, one after the other; each must have its whole reply with 200, and the calendar must be there after them. Of
EMFILE, ENFILE, ENOBUFS and ENOMEM the calendar waits a little after each. Last, an error that is none of these (EBADF)
must end it with `served COUNT` and 32. It prints a line for each error, and ends with 1 where one is not as it should be.

It needs strace and build/otsd (`./run otsd` builds it), speaks to 127.0.0.1 alone, and is run by hand.
"""

import os
import random
import signal
import socket
import subprocess
import sys
import tempfile
import time

TOP = os.path.dirname(os.path.dirname(os.path.abspath(__file__)))
OTSD = os.path.join(TOP, 'build', 'otsd')
REQUEST = b'POST /digest HTTP/1.1\r\nHost: x\r\nContent-Length: 32\r\n\r\n'
# accept(2): errors of the connection that was to be taken, and those of a system that is short of something.
PASSING = ['ECONNABORTED', 'ECONNRESET', 'EPROTO', 'ENOPROTOOPT', 'EHOSTDOWN', 'ENONET', 'EHOSTUNREACH', 'EOPNOTSUPP',
           'ENETUNREACH', 'ENETDOWN', 'ETIMEDOUT', 'EPERM', 'EINTR', 'EAGAIN']
SHORT = ['EMFILE', 'ENFILE', 'ENOBUFS', 'ENOMEM']


def free_port():
    with socket.socket() as one:
        one.bind(('127.0.0.1', 0))
        return one.getsockname()[1]


def started(folder, error, when):
    port = free_port()
    with open(os.path.join(folder, 'key'), 'wb') as out:
        out.write(os.urandom(32))
    words = ['strace', '-f', '-o', os.path.join(folder, 'calls'), '-e', 'trace=accept4',
             '-e', f'inject=accept4:error={error}:when={when}', OTSD, 'journal', 'serve', '--key', 'key',
             '--uri', f'http://127.0.0.1:{port}', '--port', str(port), '--workers', '2']
    process = subprocess.Popen(words, cwd=folder, stdout=subprocess.PIPE, start_new_session=True)
    if process.stdout.readline() != f'listening {port}\n'.encode():
        sys.exit('the calendar does not listen')
    return process, port


def answer(port, rng):
    with socket.create_connection(('127.0.0.1', port), timeout=15) as one:
        one.settimeout(15)
        one.sendall(REQUEST + rng.randbytes(32))
        reply = b''
        while piece := one.recv(65536):
            reply += piece
    return reply.split(b'\r\n')[0]


def goes_on(error, rng):
    """Whether ten digests are answered while every second accept fails."""
    with tempfile.TemporaryDirectory() as folder:
        process, port = started(folder, error, '1+2')
        try:
            began = time.monotonic()
            lines = [answer(port, rng) for _ in range(10)]
            took = time.monotonic() - began
            alive = process.poll() is None
        except OSError as found:
            lines, took, alive = [found], 0, False
        finally:
            os.killpg(process.pid, signal.SIGKILL)
            process.wait()
        with open(os.path.join(folder, 'calls'), encoding='utf8') as file:
            failed = sum(error in line and 'INJECTED' in line for line in file)
    good = alive and failed >= 5 and all(line == b'HTTP/1.1 200 OK' for line in lines)
    print(f'{error}: {failed} accepts failed, {len(lines)} digests in {took:.2f} s' + ('' if good else f': NOT AS IT SHOULD BE {lines}'),
          flush=True)
    return good


def ends(error):
    """Whether the calendar ends with status 32 where every accept fails."""
    with tempfile.TemporaryDirectory() as folder:
        process, port = started(folder, error, '1+')
        try:
            process.wait(60)
        except subprocess.TimeoutExpired:
            os.killpg(process.pid, signal.SIGKILL)
        out = process.stdout.read()
    good = process.returncode == 32 and out == b'served 0\naccept fault\n'
    print(f'{error} at every accept: status {process.returncode}' + ('' if good else f': NOT AS IT SHOULD BE {out}'))
    return good


def main():
    if not os.access(OTSD, os.X_OK):
        print(f'{OTSD} is not there: ./run otsd builds it', file=sys.stderr)
        sys.exit(70)
    rng = random.Random(1)
    wanted = sys.argv[1:]
    found = [goes_on(error, rng) for error in (wanted or PASSING + SHORT)]
    if not wanted:
        found += [ends('EBADF'), ends('EMFILE')]
    sys.exit(0 if all(found) else 1)


main()
