#!/usr/bin/python3
"""Makes the transcript that the rows of the calendar are to give.

    interop/calendar_rows.py [--write]

reads the script crates/ots_calendar_rows/stdin, whose language the head of that crate describes, and compares the
crate's stdout with what this model says of each line. With --write it writes that file. It does what each line says by
the calendar of `calendar_model.py`, and runs nothing of this repository: it reads words, keys, digests and blocks, makes
commitments, tips, anchors and trees, answers requests, and counts the calls of the disk, the shelf, the sink, the
nonces, the accepter and the links, of which any may fail. Requests are read by http_rows.py. What completes the proofs
of the rows of the client is compared with what is answered here. It is run by hand, and takes some seconds.
"""

import os
import re
import struct
import sys

import http_rows
from calendar_model import (ANCHOR, COMMIT, TIP, Anchor, Book, Calls, Failed, FileDisk, Journal, MemoryDisk, Reader,
                            Refused, anchored_in, applied, bad_record, bitcoin, levels, merkle_path, open_records,
                            pending, read_version_1, sha256, spelled)
from client_rows import Script

TOP = os.path.dirname(os.path.dirname(os.path.abspath(__file__)))

USAGE = 'usage: otsd JOURNAL serve, batch, tip, anchor, list, migrate'


# ---- words and files

def is_number(word, least, most):
    return re.fullmatch('0|[1-9][0-9]*', word) is not None and least <= int(word) <= most


def is_name(word):
    return word != ''


def is_any(_):
    return True


# For each command the forms of its positionals, of the options that it must have, and of those that it may have.
FORMS = {
    'serve': ([], {'--key': is_name, '--uri': is_any, '--port': lambda w: is_number(w, 1, 65535)},
              {'--workers': lambda w: is_number(w, 1, 64), '--accept': lambda w: is_number(w, 1, 2 ** 32 - 1)}),
    'batch': ([is_name], {'--key': is_name, '--uri': is_any}, {}),
    'tip': ([], {}, {}),
    'anchor': ([is_name], {'--height': lambda w: is_number(w, 0, 2 ** 63 - 1)}, {}),
    'list': ([], {}, {}),
    'migrate': ([is_name], {}, {}),
}


def read_words(words):
    """The command, its positionals and its options."""
    usage = Refused(2, USAGE)
    if len(words) < 2 or words[0] == '' or words[1] not in FORMS:
        raise usage
    forms, wanted, allowed = FORMS[words[1]]
    positionals, options, rest = [], {}, words[2:]
    while rest:
        word, *rest = rest
        if not word.startswith('--'):
            positionals.append(word)
        elif word in {**wanted, **allowed} and word not in options and rest:
            options[word], *rest = rest
        else:
            raise usage
    if len(positionals) != len(forms) or not wanted.keys() <= options.keys():
        raise usage
    if not all(form(word) for form, word in zip(forms, positionals)):
        raise usage
    if not all({**wanted, **allowed}[option](word) for option, word in options.items()):
        raise usage
    return words[1], positionals, options


def read_address(text):
    """The one address of a word."""
    place, seen = 0, []
    for one in text.split(','):
        match = re.fullmatch(r'http://[A-Za-z0-9.-]{1,253}(?::([1-9][0-9]{0,4}))?', one)
        if match is None or int(match[1] or 80) > 65535 or one in seen or len(seen) == 16:
            bad = 'https is not supported' if one.startswith('https://') else 'bad address'
            raise Refused(14, f'{bad} at {place}')
        seen.append(one)
        place += len(one) + 1
    if len(seen) > 1:
        raise Refused(14, f'bad address at {len(seen[0]) + 1}')
    return text


class Shelf:
    """Files by name. To open one is a call, and so is each read, which gives what is left; at its end one gives
    nothing."""

    def __init__(self, files, failing):
        self.files, self.calls = files, Calls(failing)

    def pieces(self, name, limit):
        """Up to so many bytes and one more, as they come."""
        fails = self.calls.fails()
        if name not in self.files:
            raise Refused(4, f'no file {name}')
        fault = Refused(6, f'read fault {name}')
        if fails:
            raise fault
        data = self.files[name]
        assert len(data) <= 65536 or not self.calls.failing
        if self.calls.fails():
            raise fault
        yield data[:limit + 1]
        if 0 < len(data) <= limit:
            if self.calls.fails():
                raise fault

    def read(self, name, limit):
        data = b''.join(self.pieces(name, limit))
        if len(data) > limit:
            raise Refused(8, f'too big {name}')
        return data

    def key(self, name):
        data = b''.join(self.pieces(name, 64))
        if not 1 <= len(data) <= 64:
            raise Refused(30, f'bad key {len(data)}')
        return data

    def digests(self, name):
        digests, rest = [], b''
        for piece in self.pieces(name, 2 ** 40):
            *lines, rest = piece.split(b'\n')
            for line in lines:
                if len(digests) == 65536 or not re.fullmatch(rb'(?:[0-9A-Fa-f]{2}){1,64}', line):
                    raise Refused(31, f'bad digests line {len(digests) + 1}')
                digests.append(bytes.fromhex(line.decode()))
        if rest or not digests:
            raise Refused(31, f'bad digests line {len(digests) + 1}')
        return digests


class Sink:
    """Takes what is printed. A text of at most 8192 bytes is one write, and a longer one is several, of which is known
    only that none is empty."""

    ROOM = 8192

    def __init__(self, failing):
        self.text, self.calls = b'', Calls(failing)

    def put(self, text):
        if not text:
            return
        if len(text) > self.ROOM and self.calls.failing - {self.calls.made + 1}:
            self.text += text[:1]
            raise Failed
        self.calls.call()
        self.text += text


# ---- requests and replies

REASONS = {200: 'OK', 400: 'Bad Request', 404: 'Not Found', 405: 'Method Not Allowed', 411: 'Length Required',
           413: 'Content Too Large', 500: 'Internal Server Error', 503: 'Service Unavailable'}


def reply(status, body):
    """The pieces in which a reply is written: one, but a tree of more than 10,000 bytes comes after its head."""
    kind = 'application/octet-stream' if status == 200 else 'text/plain'
    body = body if status == 200 else body.encode() + b'\n'
    head = f'HTTP/1.1 {status} {REASONS[status]}\r\nContent-Type: {kind}\r\nContent-Length: {len(body)}\r\n'
    head = (head + 'Connection: close\r\n\r\n').encode()
    return [head + body] if len(body) <= 10000 else [head, body]


REFUSALS = {400: 'bad request', 404: 'not found', 405: 'method not allowed', 411: 'length required', 413: 'too large'}


class Link(http_rows.Link):
    """A connection: what it sends comes as fast as it is read, and each piece of a reply is one write."""

    def __init__(self, data):
        super().__init__(data)
        self.failing, self.taken = [], b''

    def read(self, most):
        self.counted.call()
        return super().read(most)

    def serve(self, answer):
        """Reads a request, and writes what is answered."""
        self.counted = Calls(self.failing)
        word, _, rest = http_rows.read_request(self).partition(' ')
        for piece in self.said(word, rest, answer):
            self.counted.call()
            self.taken += piece

    @staticmethod
    def said(word, rest, answer):
        """The pieces of the reply to a request."""
        if word == 'closed':
            return []
        if word == 'refused':
            return reply(int(rest), REFUSALS[int(rest)])
        if word == 'records':
            return answer.page(int(rest))
        return (answer.stamp if word == 'digest' else answer.ask)(bytes.fromhex(rest))


class Answers:
    """What a calendar answers to one connection, for which this nonce was drawn, or none."""

    def __init__(self, book, key, uri, second, nonce, stored):
        self.book, self.key, self.uri, self.second, self.nonce = book, key, uri, second, nonce
        self.stored = stored

    def stamp(self, digest):
        if self.nonce is None:
            return reply(503, 'nonce')
        if self.second >= 2 ** 32:
            return reply(500, 'clock')
        try:
            _, commitment = self.book.close(self.second, self.key, [sha256(digest + self.nonce)])
        except Failed:
            return reply(503, 'disk')
        self.stored.append(commitment)
        return reply(200, tree(digest, self.nonce, [], commitment, self.uri))

    def ask(self, commitment):
        answer = self.book.ask(commitment)
        if isinstance(answer, str):
            return reply(404, answer)
        steps, height = answer
        return reply(200, spelled(steps) + bitcoin(height))

    def page(self, number):
        """The records from a number on: as many as fit whole into 10,000 bytes with that number, and at most 128."""
        entries = self.book.journal.entries
        if number > len(entries):
            return reply(404, 'not found')
        page = struct.pack('>Q', number)
        for kind, payload in entries[number:number + 128]:
            entry = struct.pack('>BI', kind, len(payload)) + payload
            if len(page + entry) > 10000:
                break
            page += entry
        return reply(200, page)


def tree(digest, nonce, path, commitment, uri):
    """From a digest to the commitment of its round."""
    steps = [(0xf0, nonce), (0x08, None)] + path + [(0xf1, commitment[:4]), (0xf0, commitment[36:])]
    assert applied(steps, digest) == commitment
    return spelled(steps) + pending(uri)


# ---- runs

class Run:
    """A run of the calendar, and what came of it."""

    def __init__(self, words, on):
        self.on, self.disk, self.links = on, on.disk(), on.links
        self.shelf = Shelf(on.files, on.failing['shelf'])
        self.sink = Sink(on.failing['sink'])
        self.nonces, self.left_nonces = Calls(on.failing['nonce']), on.nonces
        self.accepter, self.accepted, self.given_back = Calls(on.failing['accept']), 0, []
        # The commitments of which a tree was made.
        self.stored = []
        try:
            self.status = self.do(*read_words(words))
        except Refused as refused:
            self.status = refused.status
            self.print_last(refused.line)
        except Failed:
            self.status = 7

    def print_last(self, line):
        try:
            self.sink.put(line.encode() + b'\n')
        except Failed:
            self.status = 7

    def do(self, command, positionals, options):
        uri = read_address(options['--uri']) if '--uri' in options else None
        key = self.shelf.key(options['--key']) if '--key' in options else None
        if command == 'serve':
            most = int(options['--accept']) if '--accept' in options else None
            return self.serve(key, uri, options['--port'], int(options.get('--workers', 4)), most)
        if command == 'batch':
            digests = self.shelf.digests(*positionals)
            return self.batch(Book(self.disk), key, uri, digests)
        if command == 'anchor':
            block = Reader(self.shelf.read(*positionals, 4194304)).block()
            return self.anchor(Book(self.disk), block, int(options['--height']))
        if command == 'migrate':
            return self.migrate(read_version_1(self.shelf.read(*positionals, 1073741824)))
        return self.tip(Book(self.disk)) if command == 'tip' else self.list(Book(self.disk))

    def storing(self, what, *arguments):
        """What a call of the book answers; a disk that fails refuses the run."""
        try:
            return what(*arguments)
        except Failed:
            raise Refused(25, 'disk fault') from None

    def print(self, line):
        self.sink.put(line.encode() + b'\n')
        return 0

    def tip(self, book):
        first, count, root = self.storing(book.tip)
        return self.print(f'tip {first} {count} {root.hex()}')

    def anchor(self, book, block, height):
        anchor = anchored_in(book.records, block, height)
        self.storing(book.append, ANCHOR, anchor.spelled())
        return self.print(f'anchored {anchor.first} {anchor.count} block {height}')

    def list(self, book):
        lines, commits = [], 0
        for kind, payload in book.journal.entries:
            if kind == COMMIT:
                lines.append(f'commit {commits} {payload.hex()}\n')
                commits += 1
            elif kind == TIP:
                lines.append('tip {} {} {}\n'.format(*struct.unpack_from('>QQ', payload), payload[16:].hex()))
            else:
                anchor = Anchor.read(payload)
                lines.append(f'anchor {anchor.first} {anchor.count} {anchor.height} {anchor.root.hex()}\n')
        self.sink.put(''.join(lines).encode())
        return 0

    def migrate(self, old):
        journal = Journal(self.disk)
        records, held = open_records(journal), len(journal.entries)
        for index, entry in enumerate(journal.entries):
            if old[index:index + 1] != [entry]:
                raise Refused(34, f'not a prefix at {index}')
        for index, entry in enumerate(old[held:], held):
            if not records.takes(*entry):
                raise bad_record(index)
        for first in range(held, len(old), 1024):
            self.storing(journal.append, old[first:first + 1024])
        return self.print(f'migrated {len(old)}')

    def nonce(self):
        """The next nonce, or none."""
        if self.nonces.fails() or len(self.left_nonces) < 16:
            return None
        nonce, self.left_nonces = self.left_nonces[:16], self.left_nonces[16:]
        return nonce

    def batch(self, book, key, uri, digests):
        second = self.on.second
        if second >= 2 ** 32:
            raise Refused(33, f'bad second {second}')
        nonces = []
        for _ in digests:
            nonces.append(self.nonce())
            if nonces[-1] is None:
                raise Refused(11, 'nonce fault')
        leaves = [sha256(digest + nonce) for digest, nonce in zip(digests, nonces)]
        index, commitment = self.storing(book.close, second, key, leaves)
        self.stored.append(commitment)
        rising = list(levels(leaves))
        trees = (tree(digest, nonce, merkle_path(rising, i), commitment, uri)
                 for i, (digest, nonce) in enumerate(zip(digests, nonces)))
        self.sink.put(''.join(f'{index} {one.hex()}\n' for one in trees).encode())
        return 0

    def serve(self, key, uri, port, workers, most):
        """One connection after the other: what several workers are answered is the same where the rows ask for it."""
        book = Book(self.disk)
        if self.accepter.fails():
            raise Refused(32, 'accept fault')
        self.print(f'listening {port}')
        # Each worker ends where no link is to come, and so does the thread that goes on once they have ended.
        ended, failed = 0, False
        while ended <= workers and not failed and self.accepted != most:
            failed = self.accepter.fails()
            if failed or self.accepted == len(self.links):
                ended += 1
                continue
            link = self.links[self.accepted]
            self.accepted += 1
            try:
                link.serve(Answers(book, key, uri, self.on.second, self.nonce(), self.stored))
            except Failed:
                pass
            self.given_back.append(link)
        self.sink.put(f'served {self.accepted}\n'.encode() + (b'accept fault\n' if failed else b''))
        return 32 if failed else 0

    def told(self):
        left = self.disk.left()
        # Whatever failed: what was answered with a tree is stored.
        assert all(commitment in left for commitment in self.stored)
        out = b'' if self.on.is_quiet else repeated(self.sink.text)
        out += f'= {self.status}, {self.disk.known()}, {len(left)} bytes\n'.encode()
        if self.links:
            coming = len(self.links) - self.accepted
            out += f'= {self.accepted} accepted, {len(self.given_back)} given back, {coming} to come\n'.encode()
        return out + b''.join(b'= reply ' + escaped(link.taken) + b'\n' for link in self.given_back)


def repeated(text):
    """A text, or what a long one is known by."""
    if len(text) <= 20000:
        return text
    return b'= %d lines, %d bytes, sha256 %s\n' % (text.count(b'\n'), len(text), sha256(text).hex().encode())


def escaped(data):
    special = {0x0d: '\\r', 0x0a: '\\n', 0x5c: '\\\\'}
    return ''.join(special.get(b) or (chr(b) if 0x20 <= b < 0x7f else f'\\x{b:02x}') for b in data).encode()


# ---- rows

class On:
    """What the runs to come are done on. Links, faults and quiet are those of the next run alone."""

    def __init__(self):
        self.journal, self.disk_of, self.files, self.nonces, self.second = b'', MemoryDisk, {}, b'', 0
        self.forget()

    def forget(self):
        self.links, self.is_quiet = [], False
        self.failing = {'disk': [], 'shelf': [], 'sink': [], 'nonce': [], 'accept': []}

    def disk(self):
        return self.disk_of(self.journal, self.failing['disk'])

    def fail(self, what, calls):
        if what == 'link':
            self.links[-1].failing = calls
        else:
            assert what in self.failing
            self.failing[what] = calls


class Scene:
    """What the rows have said, and the last runs."""

    def __init__(self):
        self.names, self.on, self.left, self.text, self.text_before = {}, On(), b'', b'', b''

    def bytes_of(self, text):
        out = b''
        for word in text.split():
            part, _, count = word.partition('*')
            part = self.names[part[1:]] if part.startswith('$') else bytes.fromhex(part)
            out += part * int(count or 1)
        return out

    def obey(self, line):
        """Does what a line says, and answers what came of it."""
        word, _, rest = line.partition(' ')
        first, _, others = rest.partition(' ')
        if word == 'otsd':
            return self.run(['' if one == "''" else one for one in rest.split()])
        if word == 'left':
            return b'= so it is\n' if self.left == self.bytes_of(rest) else self.other()
        if word == 'prefix':
            is_so = self.text != b'' and self.text != self.text_before and self.text_before.startswith(self.text)
            return b'= so it is\n' if is_so else b'= no\n'
        if line == '':
            self.on = On()
        elif word == 'keep':
            self.on.journal = self.left
        elif word == 'let':
            self.names[first] = self.bytes_of(others)
        elif word == 'text':
            self.names[first] = re.sub(r'\\(.)', lambda m: {'n': '\n', 'r': '\r'}[m[1]], others).encode()
        elif first == 'fails':
            self.on.fail(word, [int(one) for one in others.split()])
        elif word == 'file':
            self.on.files[first] = self.bytes_of(others)
        elif word == 'link':
            self.on.links.append(Link(self.bytes_of(rest)))
        elif word in ('journal', 'nonces'):
            setattr(self.on, word, self.bytes_of(rest))
        elif word == 'second':
            self.on.second = int(rest)
        elif word == 'disk':
            self.on.disk_of = {'file': FileDisk, 'memory': MemoryDisk}[rest]
        elif word == 'quiet':
            self.on.is_quiet = True
        else:
            assert word in ('#', 'room'), line
        return b''

    def other(self):
        """What is there in place of what is wanted."""
        return b'= no\n' + (b'= but %s\n' % self.left.hex().encode() if len(self.left) <= 1000 else b'')

    def run(self, words):
        run = Run(words, self.on)
        self.left, self.text_before, self.text = run.disk.left(), self.text, run.sink.text
        told = run.told()
        self.on.forget()
        return told

    def once(self, what, lines, journal, call):
        """What comes of lines where this call fails in the first run."""
        self.on.journal = journal
        self.on.fail(what, [call])
        return b''.join(self.obey(line) for line in lines)

    def each(self, what, last, lines):
        """What comes of lines where each call up to the last fails in turn, once for calls side by side."""
        journal, spans = self.on.journal, []
        for call in range(1, last + 1):
            came = self.once(what, lines, journal, call)
            if spans and spans[-1][2] == came:
                spans[-1][1] = call
            else:
                spans.append([call, call, came])
        # The last call is not made any more.
        assert came == self.once(what, lines, journal, 0)
        return b''.join(b'= %s\n%s' % (named(first, last), came) for first, last, came in spans)


def named(first, last):
    return (f'call {first}' if first == last else f'calls {first} to {last}').encode()


def transcript(script):
    """Each line, and what came of it."""
    scene, block, told = Scene(), None, []
    for line in script.splitlines():
        came = b''
        if block is not None and line == 'end':
            came, block = scene.each(*block), None
        elif block is not None:
            block[-1].append(line)
        elif line.startswith('each '):
            _, what, last = line.split()
            block = what, int(last), []
        else:
            came = scene.obey(line)
        told += [line.encode(), b'\n', came]
    return b''.join(told)


def is_the_clients(made):
    """Whether the reply that completes proofs in the rows of the client is answered here."""
    client = Script()
    with open(os.path.join(TOP, 'crates', 'ots_client_rows', 'stdin'), encoding='utf8') as lines:
        for line in lines:
            if line.startswith('let '):
                client.obey(line.rstrip('\n'))
    return b'= reply ' + escaped(client.named['CYCLE_REPLY']) + b'\n' in made


def main():
    crate = os.path.join(TOP, 'crates', 'ots_calendar_rows')
    with open(os.path.join(crate, 'stdin'), encoding='utf8') as script:
        made = transcript(script.read())
    if not is_the_clients(made):
        sys.exit('the rows of the client have another reply')
    if sys.argv[1:] == ['--write']:
        with open(os.path.join(crate, 'stdout'), 'wb') as file:
            file.write(made)
        return
    with open(os.path.join(crate, 'stdout'), 'rb') as file:
        if file.read() != made:
            sys.exit('the transcript is not what this model makes')


if __name__ == '__main__':
    main()
