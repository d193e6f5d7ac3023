#!/usr/bin/python3
"""Runs the conformance vectors over the programs of this repository.

    interop/run_vectors.py [FILE..]

runs each line of vectors/ (or of these files) over build/ots and build/otsd (`./run` builds them), as a user would: proofs,
canonical forms, verdicts, chains, journals and blocks as files, answers and requests over a socket of this machine, replies
and lists of addresses by `ots stamp`. What no command shows, as numbers, hashes, operations, trees and commitments, what a request
asks, the body of a reply and the addresses of a list, is asked of the row programs crates/NAME/out/NAME where they are built
(bench/check.py --program ots_format_rows, ots_bitcoin_rows, ots_http_rows). It prints each difference, and how many vectors of
each kind agree, agree in part (what a command shows of them) or are passed over, and ends with status 1 where one differs.
"""

import atexit
import glob
import itertools
import json
import os
import socket
import subprocess
import sys
import tempfile
import threading

TOP = os.path.dirname(os.path.dirname(os.path.abspath(__file__)))
OTS, OTSD = (os.path.join(TOP, 'build', name) for name in ('ots', 'otsd'))
HASH_WORDS = {'hash': 'hash pieces'}


def run(folder, program, *words):
    done = subprocess.run([program, *words], cwd=folder, stdout=subprocess.PIPE, stdin=subprocess.DEVNULL)
    return done.returncode, done.stdout.decode()


def write(folder, name, data):
    path = os.path.join(folder, name)
    with open(path, 'wb') as out:
        out.write(bytes.fromhex(data) if isinstance(data, str) else data)
    return path


def fresh(folder, name):
    path = os.path.join(folder, name)
    if os.path.exists(path):
        os.unlink(path)
    return path


def written(folder):
    path = os.path.join(folder, 'out')
    if not os.path.exists(path):
        return None
    with open(path, 'rb') as file:
        return file.read().hex()


# ---- files

def proof(folder, case):
    write(folder, 'proof', case['bytes'])
    status, out = run(folder, OTS, 'info', 'proof')
    if 'fault' in case:
        return (status, out) == (3, f'bad proof proof at {case["place"]}: {case["fault"]}\n'), out
    return (status, out) == (0, '\n'.join(case['listing']) + '\n'), out


def rewritten(folder, case):
    write(folder, 'first', case['first'])
    fresh(folder, 'out')
    names = ['first']
    if 'second' in case:
        write(folder, 'second', case['second'])
        names.append('second')
    status, out = run(folder, OTS, case['kind'], *names, 'out')
    if 'fault' in case:
        return (status, out) == (13, case['fault'] + '\n') and written(folder) is None, out
    return status == 0 and written(folder) == case['result'], out


def verify(folder, case):
    for name in ('target', 'proof', 'headers'):
        write(folder, name, case[name])
    _, out = run(folder, OTS, 'verify', 'target', 'proof', 'headers', '--from', str(case['first']))
    return out == case['verdict'] + '\n', out


def chain(folder, case):
    write(folder, 'headers', case['headers'])
    _, out = run(folder, OTS, 'chain', 'headers', '--from', str(case['first']))
    last = case['first'] + len(case['headers']) // 160 - 1
    wanted = f'broken at {case["height"]}: {case["fault"]}\n' if 'fault' in case else f'chain {case["first"]} to {last} tip {case["tip"]}\n'
    return out == wanted, out


def journal(folder, case):
    write(folder, 'journal', case['bytes'])
    _, out = run(folder, OTSD, 'journal', 'list')
    if 'fault' not in case:
        return out == ''.join(line + '\n' for line in case['records']), out
    place = {'damaged': ' at {}', 'bad record': ' {}'}.get(case['fault'], '').format(case.get('place'))
    return out == case['fault'] + place + '\n', out


def block(folder, case):
    write(folder, 'block', case['bytes'])
    fresh(folder, 'journal')
    _, out = run(folder, OTSD, 'journal', 'anchor', 'block', '--height', '1')
    if 'fault' in case:
        return out == f'bad block at {case["place"]}: {case["fault"]}\n', out
    if case['root'] != case['computed']:
        return out == f'bad root {case["root"]} {case["computed"]}\n', out
    return out == 'no tip in the block\n', out


# ---- sockets

class Calendar:
    """`otsd serve` with one journal at a time."""

    def __init__(self, folder):
        self.folder, self.journal, self.process = folder, None, None
        write(folder, 'key', b'k' * 32)

    def with_journal(self, data):
        if data == self.journal:
            return self.port
        self.stop()
        write(self.folder, 'served', data)
        # Between its naming and its use another process may take a port: then the next one is tried.
        for _ in range(20):
            with socket.socket() as one:
                one.bind(('127.0.0.1', 0))
                self.port = one.getsockname()[1]
            words = ['served', 'serve', '--key', 'key', '--uri', 'http://127.0.0.1:1', '--port', str(self.port)]
            self.process = subprocess.Popen([OTSD, *words], cwd=self.folder, stdout=subprocess.PIPE)
            first = self.process.stdout.readline()
            if first == f'listening {self.port}\n'.encode():
                self.journal = data
                return self.port
            self.stop()
            if first != b'accept fault\n':
                sys.exit(f'otsd does not serve: {first!r}')
        sys.exit('otsd finds each port taken')

    def stop(self):
        if self.process:
            self.process.kill()
            self.process.wait()
            self.process.stdout.close()
        self.process = None


def exchanged(port, data):
    """The status and the body of a reply; nothing where none comes."""
    with socket.create_connection(('127.0.0.1', port), timeout=30) as one:
        one.sendall(data)
        one.shutdown(socket.SHUT_WR)
        reply = b''
        while piece := one.recv(65536):
            reply += piece
    head, _, body = reply.partition(b'\r\n\r\n')
    return (int(head.split()[1]), body) if head else (0, b'')


def answer(calendar, case):
    port = calendar.with_journal(case['journal'])
    found = exchanged(port, f'GET /timestamp/{case["commitment"]} HTTP/1.1\r\n\r\n'.encode())
    wanted = (404, case['answer'].encode() + b'\n') if case['answer'] in ('pending', 'not found') else (200, bytes.fromhex(case['answer']))
    return found == wanted, found


def request(calendar, case):
    found = exchanged(calendar.with_journal(''), bytes.fromhex(case['bytes']))
    if 'word' in case:
        return found == (case['status'], case['word'].encode() + b'\n'), found
    what = case['asks'].split(' ')[0]
    if what == 'digest':
        return found[0] == 200, found
    if what == 'records':
        return found[0] in (200, 404), found
    return found == (404, b'not found\n'), found


class Replying:
    """Answers each connection of `ots stamp` with the bytes of a vector."""

    def __init__(self):
        self.listener = socket.create_server(('127.0.0.1', 0))
        self.port, self.reply = self.listener.getsockname()[1], b''
        threading.Thread(target=self.serve, daemon=True).start()

    def serve(self):
        while True:
            one, _ = self.listener.accept()
            with one:
                try:
                    one.recv(65536)
                    one.sendall(self.reply)
                    one.shutdown(socket.SHUT_WR)
                    one.settimeout(5)
                    while one.recv(65536):
                        pass
                except OSError:
                    pass


def reply(folder, replying, case):
    replying.reply = bytes.fromhex(case['bytes'])
    write(folder, 'file', b'x')
    fresh(folder, 'file.ots')
    uri = f'http://127.0.0.1:{replying.port}'
    _, out = run(folder, OTS, 'stamp', '--calendars', uri, '--min', '1', 'file')
    word = out.split('\n')[0].partition(' ')[2]
    said = {'not http', 'too long', 'unreachable'} | {it for it in [word] if it.startswith('status ')}
    return word == case['outcome'] if 'outcome' in case else word not in said, out


def addresses(folder, case):
    if 'addresses' in case:
        return None, None
    write(folder, 'file', b'x')
    status, out = run(folder, OTS, 'stamp', '--calendars', case['list'], '--min', '1', 'file')
    word = 'https is not supported' if case['https'] else 'bad address'
    return (status, out) == (14, f'{word} at {case["place"]}\n'), out


# ---- what no command shows

def asked_of(name, lines):
    """The answers of a row program to these lines; nothing where it is not built."""
    program = os.path.join(TOP, 'crates', name, 'out', name)
    if not os.access(program, os.X_OK):
        return None
    done = subprocess.run([program], input=''.join(line + '\n' for line in lines).encode(), stdout=subprocess.PIPE)
    return [line[2:] for line in done.stdout.decode().split('\n') if line.startswith('=')]


def piece(data):
    """Bytes as a row's answer spells them."""
    if len(data) > 2 and data == data[:2] * (len(data) // 2):
        return f'{data[:2]}*{len(data) // 2}'
    return data or '-'


def row_of(case):
    """The program, the line and its answer, or the first words of it, of a vector that no command shows."""
    kind = case['kind']
    if kind == 'request':
        name, _, rest = case['asks'].partition(' ')
        said = f'{"timestamp" if name == "commitment" else name} {rest}'
        return 'ots_http_rows', f'request whole {case["bytes"]}', f'{said} read'
    if kind == 'reply':
        return 'ots_http_rows', f'reply whole {case["bytes"]}', f'good {piece(case["body"])} read'
    if kind == 'addresses':
        each = itertools.zip_longest(case['list'].split(','), case['addresses'], fillvalue='--')
        said = ' '.join(f'{text} is {host} {port};' for text, (host, port) in each)
        return 'ots_http_rows', f'addresses {case["list"].encode().hex()}', said
    if kind == 'number':
        wanted = f'{case["value"]} in {case["length"]}' if 'value' in case else {'padded': 'not minimal', 'short': 'short', 'large': 'too large'}[case['fault']]
        return 'ots_format_rows', f'number read {case["bytes"] or "-"}', wanted
    if kind == 'hash':
        pieces = [case['bytes'][at:at + 2000] or '-' for at in range(0, max(len(case['bytes']), 1), 2000)]
        if len(pieces) > 3:
            return ('ots_format_rows', f'hash whole {case["bytes"]}', case['digest']) if case['hash'] == 'ripemd160' else None
        return 'ots_format_rows', f'hash pieces {case["hash"]} ' + ' | '.join((pieces + ['-', '-'])[:3]), case['digest']
    if kind == 'operation':
        op = case['operation'] + (f':{case["argument"]}' if case['argument'] else '')
        wanted = f'too long' if case.get('fault') == 'too long' else 'empty' if case.get('fault') else None
        if wanted is None and len(case['result']) > 1024:
            return None
        if wanted is None:
            data = case['result']
            wanted = data if not (len(data) > 2 and data == data[:2] * (len(data) // 2)) else data[:2] + f'*{len(data) // 2}'
        return 'ots_format_rows', f'op apply {op} {case["message"] or "-"}', wanted
    if kind == 'calendar-tree':
        steps = ''.join({'append': 'f020', 'prepend': 'f120', 'sha256': '08'}[name] + argument for name, argument in case['path'])
        return 'ots_bitcoin_rows', f'tree path {len(case["leaves"]) // 64} {case["index"]} | {case["leaves"]}', steps or '-'
    if kind == 'block-tree':
        said = ' '.join([f'{side} {other}' for side, other in case['branch']] + [';'])
        return 'ots_bitcoin_rows', f'block branch {len(case["ids"]) // 64} {case["index"]} | {case["ids"]}', said
    if kind == 'commitment':
        tickets = ' | '.join(nonce + digest for nonce, digest in zip(case['nonces'], case['digests']))
        return 'ots_bitcoin_rows', f'round of {case["second"]} 0 | {case["key"]} | {tickets}', None
    return None


def root_row_of(case):
    """The same of the root of a tree, beside its path."""
    if case['kind'] == 'calendar-tree':
        return 'ots_bitcoin_rows', f'tree root {len(case["leaves"]) // 64} | {case["leaves"]}', case['root']
    if case['kind'] == 'block-tree':
        return 'ots_bitcoin_rows', f'block root {len(case["ids"]) // 64} | {case["ids"]}', case['root']
    return None


def is_answer(case, wanted, answer):
    """Whether a row's answer is the wanted one, or has it as its first words."""
    if case['kind'] == 'commitment':
        return case['commitment'] in answer.split(' ')
    return wanted is not None and (answer == wanted or answer.startswith(wanted + ' '))


def rows(cases, say):
    asked = {}
    for k, case in enumerate(cases):
        found = row_of(case)
        if found is None:
            say(case, None, None)
            continue
        for name, line, wanted in filter(None, (found, root_row_of(case))):
            asked.setdefault(name, []).append((k, line, wanted))
    for name, lines in asked.items():
        answers = asked_of(name, [line for _, line, _ in lines])
        told = {}
        for at, (k, _, wanted) in enumerate(lines):
            if answers is None:
                told[k] = ('in part' if cases[k]['kind'] in ('request', 'reply') else None, None)
            elif told.get(k, (True, None))[0]:
                told[k] = (is_answer(cases[k], wanted, answers[at]), answers[at])
        for k, (agrees, found) in told.items():
            say(cases[k], agrees, found)


def main():
    if not all(os.access(it, os.X_OK) for it in (OTS, OTSD)):
        print('build/ots and build/otsd are not there: ./run builds them', file=sys.stderr)
        sys.exit(70)
    counts, left, bad = {}, [], []

    def say(case, agrees, found):
        word = 'passed over' if agrees is None else 'agree in part' if agrees == 'in part' else 'agree' if agrees else 'DIFFER'
        counts[case['kind'], word] = counts.get((case['kind'], word), 0) + 1
        if agrees is False:
            bad.append(case)
            print(f'{case["kind"]}, {case["name"]}: {found}')

    with tempfile.TemporaryDirectory() as folder:
        calendar, replying = Calendar(folder), Replying()
        atexit.register(calendar.stop)
        files = {'proof': proof, 'canon': rewritten, 'merge': rewritten, 'prune': rewritten, 'verify': verify, 'chain': chain,
                 'journal': journal, 'block': block, 'addresses': addresses}
        for name in sys.argv[1:] or sorted(glob.glob(os.path.join(TOP, 'vectors', '*.jsonl'))):
            with open(name, encoding='utf8') as file:
                for case in map(json.loads, file):
                    kind = case['kind']
                    if kind in files:
                        agrees, found = files[kind](folder, case)
                    elif kind in ('answer', 'request'):
                        agrees, found = (answer if kind == 'answer' else request)(calendar, case)
                    elif kind == 'reply':
                        agrees, found = reply(folder, replying, case)
                    else:
                        agrees, found = None, None
                    # A row program shows more of these.
                    if agrees is None or agrees and ('asks' in case or 'body' in case):
                        left.append(case)
                    else:
                        say(case, agrees, found)
        calendar.stop()
    rows(left, say)
    for (kind, word), count in sorted(counts.items()):
        print(f'{count} {kind} {word}')
    sys.exit(1 if bad else 0)


main()
