#!/usr/bin/python3
"""Compares the HTTP messages of `ots_http` with other programs.

    interop/http_messages.py

posted, asked   the class RemoteCalendar of python-opentimestamps and curl send requests to a socket; what the
                calendar's reader says of the recorded bytes is compared with what was sent
answered        the replies that the calendar's writer makes are sent to both; what they read is compared
written         the requests that the client's writer makes are sent to Python's http.server; the method, path,
                fields and body that it read are compared
replied         what the client's reader says of http.server's own replies is compared with what was sent

It prints how many of each were compared, and ends with status 1 at a difference. It needs rt, curl and Debian's
python3-opentimestamps, and is run by hand. The program is built in a folder of its own, outside the repository,
from interop/http_messages/main.rt.in.
"""

import http.client
import http.server
import os
import random
import shutil
import socket
import subprocess
import sys
import tempfile
import threading

try:
    from opentimestamps.calendar import CommitmentNotFoundError, RemoteCalendar
    from opentimestamps.core.notary import PendingAttestation
    from opentimestamps.core.op import OpAppend, OpPrepend, OpSHA256
    from opentimestamps.core.serialize import BytesSerializationContext
    from opentimestamps.core.timestamp import Timestamp
except ImportError:
    print('the library opentimestamps (Debian: python3-opentimestamps) is not here; nothing was compared')
    sys.exit(0)

TOP = os.path.dirname(os.path.dirname(os.path.abspath(__file__)))
CRATES = ['ots_base', 'ots_outside', 'ots_memory', 'ots_real', 'ots_io', 'ots_varint', 'ots_ripemd', 'ots_ops',
          'ots_attest', 'ots_tree', 'ots_reader', 'ots_address', 'ots_http']
ROUNDS = 40


def build(work):
    """Builds the program in this folder, and answers its path."""
    lines = {line.split(':')[0].split()[0]: line
             for line in open(os.path.join(TOP, 'crates.txt'), encoding='utf8') if line[0] not in '#\n'}
    with open(os.path.join(work, 'crates.txt'), 'w', encoding='utf8') as out:
        out.writelines(lines[name] for name in CRATES)
        out.write('http_messages: ots_http ots_io ots_ops ots_reader ots_tree hex anyhow\n')
    for name in CRATES:
        shutil.copytree(os.path.join(TOP, 'crates', name), os.path.join(work, 'crates', name),
                        ignore=shutil.ignore_patterns('out'))
    made = os.path.join(work, 'crates', 'http_messages')
    os.makedirs(os.path.join(made, 'src'))
    os.makedirs(os.path.join(made, 'specs'))
    shutil.copy(os.path.join(TOP, 'interop', 'http_messages', 'main.rt.in'), os.path.join(made, 'src', 'main.rt'))
    open(os.path.join(made, 'specs', 'Lib.antt'), 'w', encoding='utf8').close()
    done = subprocess.run(['rt', 'run', '--', 'pending'], cwd=made, stdin=subprocess.DEVNULL,
                          stdout=subprocess.PIPE, stderr=subprocess.STDOUT, check=False)
    program = os.path.join(made, 'out', 'http_messages')
    if not os.access(program, os.X_OK):
        sys.exit(done.stdout.decode(errors='replace'))
    return program


class Ours:
    """The program, and a file for the bytes that it reads."""

    def __init__(self, program, work):
        self.program = program
        self.file = os.path.join(work, 'bytes')

    def run(self, *words):
        done = subprocess.run([self.program, *words], stdin=subprocess.DEVNULL, stdout=subprocess.PIPE,
                              stderr=subprocess.PIPE, check=False)
        if done.returncode or done.stderr:
            sys.exit(f'{" ".join(words)}: status {done.returncode}, {done.stderr!r}')
        return done.stdout

    def of_bytes(self, command, data):
        with open(self.file, 'wb') as out:
            out.write(data)
        return self.run(command, self.file)

    def request(self, data):
        return self.of_bytes('request', data).decode().strip()

    def reply(self, data):
        return self.of_bytes('reply', data).decode().strip()


class Recorder:
    """A socket that records one request a connection and answers each with the same bytes."""

    def __init__(self):
        self.answer = b''
        self.recorded = None
        self.socket = socket.create_server(('127.0.0.1', 0))
        self.port = self.socket.getsockname()[1]
        threading.Thread(target=self.serve, daemon=True).start()

    def serve(self):
        while True:
            connection, _ = self.socket.accept()
            with connection:
                connection.settimeout(10)
                self.recorded = self.receive(connection)
                connection.sendall(self.answer)

    def receive(self, connection):
        data = b''
        while b'\r\n\r\n' not in data:
            data += connection.recv(65536)
        head, body = data.split(b'\r\n\r\n', 1)
        fields = [line.split(b':', 1) for line in head.split(b'\r\n')[1:]]
        lengths = [int(value) for name, value in fields if name.lower() == b'content-length']
        if any(name.lower() == b'transfer-encoding' for name, value in fields):
            while not body.endswith(b'0\r\n\r\n'):
                body += connection.recv(65536)
        while lengths and len(body) < lengths[0]:
            body += connection.recv(65536)
        return head + b'\r\n\r\n' + body


class Handler(http.server.BaseHTTPRequestHandler):
    """Keeps what http.server read of a request, and answers with a reply of http.server's own."""
    protocol_version = 'HTTP/1.1'
    seen = None
    status = 200
    body = b''
    with_length = True

    def answer(self):
        cls = type(self)
        length = int(self.headers.get('Content-Length', '0'))
        cls.seen = (self.command, self.path, self.request_version, dict(self.headers.items()), self.rfile.read(length))
        self.send_response(cls.status)
        if cls.with_length:
            self.send_header('Content-Length', str(len(cls.body)))
        self.send_header('Connection', 'close')
        self.end_headers()
        self.wfile.write(cls.body)

    do_GET = answer
    do_POST = answer

    def log_message(self, *_):
        pass


def differ(what, ours, theirs):
    sys.exit(f'{what}: {ours!r} is not {theirs!r}')


def same(what, ours, theirs):
    if ours != theirs:
        differ(what, ours, theirs)
    return 1


def curl(*words):
    done = subprocess.run(['curl', '-s', '--max-time', '10', *words], stdin=subprocess.DEVNULL,
                          stdout=subprocess.PIPE, check=False)
    return done.stdout


def some_bytes(rng, length):
    return bytes(rng.randrange(256) for _ in range(length))


def requests_of_library(rng, ours, recorder):
    """How many digests and commitments of RemoteCalendar's requests were compared."""
    calendar = RemoteCalendar(f'http://127.0.0.1:{recorder.port}/')
    recorder.answer = ours.run('pending')
    posted = asked = answered = 0
    for _ in range(ROUNDS):
        digest = some_bytes(rng, rng.randint(1, 64))
        try:
            calendar.submit(digest)
            differ('a refusal', 'taken', 'refused')
        except OSError:
            pass
        posted += same('digest', ours.request(recorder.recorded), f'digest {digest.hex()}')
        commitment = some_bytes(rng, rng.randint(1, 64))
        try:
            calendar.get_timestamp(commitment)
            differ('a refusal', 'taken', 'refused')
        except CommitmentNotFoundError as refusal:
            answered += same('the words of 404', refusal.reason, 'pending_')
        asked += same('commitment', ours.request(recorder.recorded), f'timestamp {commitment.hex()}')
    return posted, asked, answered


def requests_of_curl(rng, ours, recorder):
    """The same of curl's requests, some of which are to be refused."""
    url = f'http://127.0.0.1:{recorder.port}'
    recorder.answer = ours.run('pending')
    posted = asked = 0
    for _ in range(ROUNDS):
        digest = some_bytes(rng, rng.randint(1, 64))
        with open(ours.file, 'wb') as out:
            out.write(digest)
        words = rng.choice([[], ['--http1.0'], ['-H', 'content-type:']])
        body = curl(*words, '--data-binary', '@' + ours.file, f'{url}/digest')
        same('the body of 404', body, b'pending\n')
        posted += same('digest', ours.request(recorder.recorded), f'digest {digest.hex()}')
        commitment = some_bytes(rng, rng.randint(1, 64))
        digits = rng.choice([commitment.hex(), commitment.hex().upper()])
        curl(f'{url}/timestamp/{digits}')
        asked += same('commitment', ours.request(recorder.recorded), f'timestamp {commitment.hex()}')
    refused = [
        (['-X', 'PUT', '--data-binary', 'abc', f'{url}/digest'], 405),
        (['-I', f'{url}/timestamp/00'], 405),
        ([f'{url}/digest'], 405),
        ([f'{url}/'], 404),
        (['--data-binary', 'abc', f'{url}/digest?x'], 404),
        (['-H', 'Transfer-Encoding: chunked', '--data-binary', 'abc', f'{url}/digest'], 400),
        (['-X', 'POST', f'{url}/digest'], 411),
        (['--data-binary', '', f'{url}/digest'], 400),
        (['--data-binary', 'x' * 65, f'{url}/digest'], 413),
        (['-H', 'Content-Length: +3', '--data-binary', 'abc', f'{url}/digest'], 400),
        ([f'{url}/timestamp/'], 400),
        ([f'{url}/timestamp/0g'], 400),
        ([f'{url}/timestamp/' + '0' * 130], 404),
    ]
    for words, status in refused:
        curl(*words)
        posted += same(' '.join(words), ours.request(recorder.recorded), f'refused {status}')
    return posted, asked


def some_tree(rng, digest):
    """A calendar's tree, as the library's own timestamp."""
    stamp = Timestamp(digest)
    end = stamp
    for _ in range(rng.randint(1, 30)):
        end = end.ops.add(rng.choice([OpAppend(some_bytes(rng, 16)), OpPrepend(some_bytes(rng, 4)), OpSHA256()]))
    end.attestations.add(PendingAttestation('http://127.0.0.1:14788'))
    ctx = BytesSerializationContext()
    stamp.serialize(ctx)
    return stamp, ctx.getbytes()


def replies_to_both(rng, ours, recorder):
    """How many of our replies RemoteCalendar and curl read as they are."""
    calendar = RemoteCalendar(f'http://127.0.0.1:{recorder.port}/')
    answered = 0
    for _ in range(ROUNDS):
        digest = some_bytes(rng, 32)
        stamp, tree = some_tree(rng, digest)
        recorder.answer = ours.of_bytes('tree', tree)
        answered += same('a tree', calendar.submit(digest), stamp)
        answered += same('a tree', calendar.get_timestamp(digest), stamp)
        answered += same('a body', curl(f'http://127.0.0.1:{recorder.port}/timestamp/00'), tree)
    return answered


def conversation(port, data):
    """The bytes that come back from a server on this port."""
    with socket.create_connection(('127.0.0.1', port), timeout=10) as connection:
        connection.sendall(data)
        back = b''
        while piece := connection.recv(65536):
            back += piece
        return back


def requests_to_server(rng, ours):
    """How many of our requests http.server read as they are, and of its replies were read."""
    server = http.server.ThreadingHTTPServer(('127.0.0.1', 0), Handler)
    port = server.server_address[1]
    threading.Thread(target=server.serve_forever, daemon=True).start()
    written = replied = 0
    accept = 'application/vnd.opentimestamps.v1'
    for _ in range(ROUNDS):
        named = rng.choice([80, port])
        host = rng.choice(['127.0.0.1', 'a.example', 'A-1'])
        address = f'http://{host}' + ('' if named == 80 and rng.randrange(2) else f':{named}')
        shown = host if named == 80 else f'{host}:{named}'
        Handler.status = rng.choice([200, 200, 200, 404, 503])
        Handler.body = some_bytes(rng, rng.choice([0, 1, 100, 10_000, 10_001]))
        Handler.with_length = bool(rng.randrange(2))
        if Handler.status != 200:
            expected = f'status {Handler.status}'
        else:
            expected = 'too long' if len(Handler.body) > 10_000 else f'good {Handler.body.hex()}'
        digest = some_bytes(rng, rng.choice([20, 32]))
        back = conversation(port, ours.run('post', address, digest.hex()))
        written += same('a post', Handler.seen, ('POST', '/digest', 'HTTP/1.1', {
            'Host': shown, 'Accept': accept, 'Content-Type': 'application/octet-stream',
            'Content-Length': str(len(digest)), 'Connection': 'close'}, digest))
        replied += same('a reply', ours.reply(back).strip(), expected.strip())
        message = some_bytes(rng, rng.choice([0, 1, 44, 4096]))
        back = conversation(port, ours.run('get', address, message.hex()))
        written += same('a get', Handler.seen, ('GET', f'/timestamp/{message.hex()}', 'HTTP/1.1', {
            'Host': shown, 'Accept': accept, 'Connection': 'close'}, b''))
        replied += same('a reply', ours.reply(back).strip(), expected.strip())
    return written, replied


def main():
    rng = random.Random(20)
    with tempfile.TemporaryDirectory() as work:
        ours = Ours(build(work), work)
        recorder = Recorder()
        posted, asked, refused = requests_of_library(rng, ours, recorder)
        print(f'RemoteCalendar: {posted} digests and {asked} commitments read as sent, {refused} replies 404 read')
        posted, asked = requests_of_curl(rng, ours, recorder)
        print(f'curl: {posted} posts and refused requests and {asked} commitments read as sent')
        print(f'RemoteCalendar and curl: {replies_to_both(rng, ours, recorder)} replies with trees read as written')
        written, replied = requests_to_server(rng, ours)
        print(f'http.server: {written} requests read as written, {replied} of its replies read as sent')


main()
