#!/usr/bin/python3
"""Lets the system give no random bytes, by strace, and sees what `ots stamp` and `otsd serve` do.

    interop/failing_random.py

Sixteen nonces are drawn at once, by one call of getrandom. Under strace, which makes that call fail with an error of
getrandom(2), `ots stamp` of two files ends with `nonce fault` and status 11, asks nobody and writes nothing. A call that
a signal cut short is made again. A calendar whose first draw fails answers that digest with 503 and `nonce`, and the next
seventeen, for which it draws twice, with 200. It prints a line for each, and ends with 1 where one is not as it should be.

It needs strace, build/ots and build/otsd (`./run NAME` builds each), speaks to 127.0.0.1 alone, and is run by hand.
"""

import os
import random
import signal
import socket
import subprocess
import sys
import tempfile

TOP = os.path.dirname(os.path.dirname(os.path.abspath(__file__)))
OTS, OTSD = os.path.join(TOP, 'build', 'ots'), os.path.join(TOP, 'build', 'otsd')
REQUEST = b'POST /digest HTTP/1.1\r\nHost: x\r\nContent-Length: 32\r\n\r\n'


def under_strace(folder, error, when):
    """The words before a program's, so that its draw of nonces fails. The C library's own call comes before it."""
    return ['strace', '-f', '-qq', '-o', os.path.join(folder, 'calls'), '-e', 'trace=getrandom',
            '-e', f'inject=getrandom:error={error}:when={when}']


def draws(folder):
    """Of the calls for nonces, how many there were, and how many failed."""
    with open(os.path.join(folder, 'calls'), encoding='utf8') as file:
        lines = [line for line in file if ', 256, ' in line]
    return len(lines), sum('INJECTED' in line for line in lines)


def told(name, good, found):
    print(f'{name}: {found}' + ('' if good else ': NOT AS IT SHOULD BE'), flush=True)
    return good


def stamps(error, status, printed):
    """`ots stamp` of two files, with nobody at the calendar's port."""
    with tempfile.TemporaryDirectory() as folder:
        for name in 'one', 'two':
            with open(os.path.join(folder, name), 'wb') as out:
                out.write(name.encode())
        words = [OTS, 'stamp', '--calendars', 'http://127.0.0.1:9', '--min', '1', 'one', 'two']
        done = subprocess.run(under_strace(folder, error, 2) + words, cwd=folder, stdout=subprocess.PIPE, timeout=60)
        left = sorted(set(os.listdir(folder)) - {'calls'})
        good = (done.returncode, done.stdout, left) == (status, printed, ['one', 'two']) and draws(folder)[1] == 1
    return told(f'stamp, {error}', good, f'status {done.returncode}, {done.stdout}')


def answer(port, rng):
    with socket.create_connection(('127.0.0.1', port), timeout=15) as one:
        one.settimeout(15)
        one.sendall(REQUEST + rng.randbytes(32))
        reply = b''
        while piece := one.recv(65536):
            reply += piece
    return reply.split(b'\r\n')[0] + (reply[-7:] if b' 503 ' in reply[:13] else b'')


def serves(error):
    """Eighteen digests one after the other, where the first draw fails."""
    with socket.socket() as one:
        one.bind(('127.0.0.1', 0))
        port = one.getsockname()[1]
    with tempfile.TemporaryDirectory() as folder:
        with open(os.path.join(folder, 'key'), 'wb') as out:
            out.write(os.urandom(32))
        words = [OTSD, 'journal', 'serve', '--key', 'key', '--uri', f'http://127.0.0.1:{port}', '--port', str(port),
                 '--workers', '1']
        process = subprocess.Popen(under_strace(folder, error, 2) + words, cwd=folder, stdout=subprocess.PIPE,
                                   start_new_session=True)
        try:
            if process.stdout.readline() != f'listening {port}\n'.encode():
                sys.exit('the calendar does not listen')
            rng = random.Random(1)
            lines = [answer(port, rng) for _ in range(18)]
        finally:
            os.killpg(process.pid, signal.SIGKILL)
            process.wait()
        good = (lines[0].startswith(b'HTTP/1.1 503 ') and lines[0].endswith(b'\nnonce\n')
                and set(lines[1:]) == {b'HTTP/1.1 200 OK'} and draws(folder) == (3, 1))
        return told(f'serve, {error}', good, f'{lines[0]}, then {len(lines) - 1} times {sorted(set(lines[1:]))}')


def main():
    found = [stamps(error, 11, b'nonce fault\n') for error in ('EIO', 'ENOSYS', 'EAGAIN', 'EPERM')]
    found.append(stamps('EINTR', 10, b'http://127.0.0.1:9 unreachable\ntoo few 0 of 1\n'))
    found += [serves('EIO'), serves('ENOSYS')]
    sys.exit(0 if all(found) else 1)


main()
