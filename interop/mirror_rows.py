#!/usr/bin/python3
"""Makes the transcript that the rows of the mirror are to have, with a plain model of the mirror.

    interop/mirror_rows.py [--write]

reads the script crates/ots_mirror_rows/stdin, whose language the head of that crate describes, and compares the crate's
stdout with what this model says of each line. With --write it writes that file. The program is compared with the same
file by `rt ci`.

The model reads words and pages, makes rounds, prints, and counts the calls of the disk, the dialer and the sink, of
which any may fail; and it keeps what is left where the power goes in a call of the disk. Journals and records are those
of calendar_model.py, addresses and replies are read by http_rows.py, and pieces by client_rows.py. It runs nothing of
this repository. It is run by hand, takes a second, and ends with status 1 at a difference.
"""

import os
import re
import struct
import sys

from calendar_model import Calls, Failed, Journal, MemoryDisk, Refused, open_records
from client_rows import Script, texts_of, words_of
from http_rows import Dialer, Failed as Unreachable, addresses, quoted, told

CRATE = os.path.join(os.path.dirname(os.path.dirname(os.path.abspath(__file__))), 'crates', 'ots_mirror_rows')

MOST_ROUNDS = 1_000_000
MOST_ENTRIES = 128
END_OF_LINE = b'\r'


# ---- the disk

class Disk(MemoryDisk):
    """Bytes in memory, and what the power leaves of them where it goes in one of the calls. It drops the writes since
    the last sync, keeps them, or leaves this byte in their places, also that of a write that failed."""

    def __init__(self, journal, failing, choice):
        super().__init__(journal, failing)
        self.durable, self.pending, self.choice, self.images = bytes(journal), [], choice, []

    def image(self):
        """What is left now."""
        image = bytearray(self.durable)
        for place, piece in self.pending:
            if self.choice != 'dropped':
                image[place:place + len(piece)] = piece if self.choice == 'kept' else self.choice * len(piece)
        return bytes(image)

    def image_in(self, call):
        """What was left in this call, or is left after the last."""
        return (self.images + [self.image()])[min(call - 1, len(self.images))]

    def note(self):
        self.images.append(self.image())

    def length(self):
        self.note()
        return super().length()

    def read(self, place, count):
        self.note()
        return super().read(place, count)

    def write(self, place, piece):
        self.pending.append((place, piece))
        self.note()
        super().write(place, piece)

    def sync(self):
        self.note()
        super().sync()
        self.durable, self.pending = bytes(self.bytes), []


# ---- a run

def read_words(words):
    """The address and the number of rounds that words ask for: `JOURNAL ADDRESS --rounds N`, where an option may have
    its value after `=`, and what comes after `--` is no option."""
    usage = Refused(2, 'usage: otsmirror JOURNAL ADDRESS --rounds N')
    if not words or not words[0]:
        raise usage
    places, rounds, rest = [], [], words[1:]
    while rest:
        word, *rest = rest
        if word == '--':
            places += rest
            rest = []
        elif word == '--rounds' and rest and not re.match('-.', rest[0]):
            rounds.append(rest[0])
            rest = rest[1:]
        elif word.startswith('--rounds='):
            rounds.append(word[len('--rounds='):])
        elif re.match('-.', word):
            raise usage
        else:
            places.append(word)
    if len(places) != 1 or len(rounds) != 1:
        raise usage
    if not re.fullmatch('[1-9][0-9]*', rounds[0]) or int(rounds[0]) > MOST_ROUNDS:
        raise usage
    return places[0], int(rounds[0])


def read_address(word):
    """The one address of a word."""
    found, bad = addresses(word.encode())
    if bad:
        _, _, place, https = bad.split()
        raise Refused(14, f'{"https is not supported" if https == "true" else "bad address"} at {place}')
    if len(found) > 1:
        raise Refused(14, f'bad address at {len(found[0][0]) + 1}')
    return found[0]


def read_page(body):
    """The number and the entries of a page, or nothing."""
    if len(body) < 8:
        return None
    entries, place = [], 8
    while place < len(body):
        if place + 5 > len(body) or len(entries) == MOST_ENTRIES:
            return None
        kind, size = struct.unpack_from('>BI', body, place)
        payload = body[place + 5:place + 5 + size]
        if len(payload) < size:
            return None
        entries.append((kind, payload))
        place += 5 + size
    return struct.unpack_from('>Q', body)[0], entries


class Run:
    """A run of the mirror, and what came of it."""

    def __init__(self, words, on):
        self.disk = Disk(on.journal, on.failing['disk'], on.choice)
        self.dialer = Dialer(on.replies, on.failing['dialer'])
        self.sink, self.text = Calls(on.failing['sink']), ''
        self.stop = on.failing['power'][:1]
        try:
            self.status = self.do(words)
        except Refused as refused:
            self.status = self.end(refused.status, refused.line)

    def print(self, line):
        """Whether a line could be printed."""
        if self.sink.fails():
            return False
        self.text += line + '\n'
        return True

    def end(self, status, line):
        return status if self.print(line) else 7

    def do(self, words):
        word, rounds = read_words(words)
        address = read_address(word)
        journal = Journal(self.disk)
        open_records(journal)
        for _ in range(rounds):
            came = self.round(journal, address)
            if not self.print(came):
                return 7
            if came == 'current':
                return self.end(0, f'records {len(journal.entries)}')
        return self.end(1, f'records {len(journal.entries)}')

    def round(self, journal, address):
        """What comes of one round: the calendar is asked for the page at the mirror's own count of records."""
        held = len(journal.entries)
        try:
            words, body = self.dialer.exchange(address, lambda host: f'GET /records/{held} HTTP/1.1\r\n'.encode())
        except Unreachable:
            return 'unreachable'
        if body is None:
            return words
        page, records = read_page(body), open_records(journal)
        if page is None or page[0] != held or not all(records.takes(*entry) for entry in page[1]):
            return 'bad page'
        if not page[1]:
            return 'current'
        try:
            journal.append(page[1])
        except Failed:
            raise Refused(25, 'disk fault') from None
        return f'took {len(page[1])}'

    def stopped(self):
        """What the power leaves where it goes in one of the calls, or after the last."""
        return self.disk.image_in(self.stop[0]) if self.stop else None

    def left(self):
        stopped = self.stopped()
        return self.disk.left() if stopped is None else stopped

    def told(self):
        if self.stopped() is not None:
            return [f'= stopped, {self.disk.known()}, {len(self.left())} bytes']
        said = self.text.splitlines() + [f'= {self.status}, {self.disk.known()}, {len(self.left())} bytes']
        return said + [f'= sent {host} {port} {quoted(data.partition(END_OF_LINE)[0])}'
                       for host, port, data in self.dialer.sent]


# ---- the script

class On:
    """What the runs to come are done on. The faults are those of the next run alone."""

    def __init__(self):
        self.journal, self.replies, self.choice = b'', [], 'dropped'
        self.forget()

    def forget(self):
        self.failing = {'disk': [], 'dialer': [], 'sink': [], 'power': []}


class MirrorScript(Script):
    """The script of this crate, with the pieces of the client's."""

    def __init__(self):
        super().__init__()
        self.on, self.left, self.block = On(), b'', None

    def read(self, line):
        self.said.append(line)
        if line == 'end':
            (what, last, *lines), self.block = self.block, None
            self.each(what, int(last), lines)
        elif self.block is not None:
            self.block.append(line)
        elif line.startswith('each '):
            self.block = line.split()[1:]
        else:
            self.said += self.came(line)

    def came(self, line):
        """What came of a line."""
        if line.startswith('#'):
            return []
        if not line:
            self.on = On()
            return []
        word, *rest = words_of(line)
        if word == 'mirror':
            run = Run(list(texts_of(rest)), self.on)
            self.left = run.left()
            self.on.forget()
            return run.told()
        if word == 'left':
            return ['= so it is' if self.left == self.bytes_of(rest) else f'= no: {told(self.left)}']
        self.set(word, rest)
        return []

    def set(self, word, rest):
        if word == 'let':
            self.named[rest[0]] = self.bytes_of(rest[1:])
        elif word == 'journal':
            self.on.journal = self.bytes_of(rest)
        elif word == 'reply':
            self.on.replies.append(self.bytes_of(rest))
        elif word == 'clear':
            self.on.replies = []
        elif word == 'keep':
            self.on.journal = self.left
        elif word == 'leaves':
            self.on.choice = rest[0] if rest[0] in ('dropped', 'kept') else bytes.fromhex(rest[0])
        else:
            assert rest[0] == 'fails' and word in self.on.failing, word
            self.on.failing[word] = list(map(int, rest[1:]))

    def each(self, what, last, lines):
        """Says what comes of lines where each call up to the last fails in turn, once for calls side by side."""
        journal, spans = self.on.journal, []
        for call in range(1, last + 1):
            came = self.once(what, journal, call, lines)
            if spans and spans[-1][2] == came:
                spans[-1][1] = call
            else:
                spans.append([call, call, came])
        # The last call is not made any more, and no call after it.
        assert came == self.once(what, journal, last + 1, lines), self.said[-len(lines) - 1]
        for first, end, came in spans:
            self.said += [f'= call {first}' if first == end else f'= calls {first} to {end}', *came]

    def once(self, what, journal, call, lines):
        """What comes of lines where this call fails in the first run."""
        self.on.journal = journal
        self.on.failing[what] = [call]
        return [came for line in lines for came in self.came(line)]


def main():
    script = MirrorScript()
    with open(os.path.join(CRATE, 'stdin'), encoding='utf8') as lines:
        for line in lines:
            script.read(line.rstrip('\n'))
    said = ''.join(line + '\n' for line in script.said)
    name = os.path.join(CRATE, 'stdout')
    if sys.argv[1:] == ['--write']:
        with open(name, 'w', encoding='utf8') as file:
            file.write(said)
        return
    with open(name, encoding='utf8') as file:
        kept = file.read().splitlines()
    differing = 0
    for number, (found, wanted) in enumerate(zip(kept + [''] * len(script.said), script.said), 1):
        if found != wanted:
            print(f'line {number}: {found}\n  is to be: {wanted}')
            differing += 1
    differing += abs(len(kept) - len(script.said))
    print(f'{len(script.said)} lines, {differing or "no"} difference{"s" if differing > 1 else ""}')
    sys.exit(1 if differing else 0)


if __name__ == '__main__':
    main()
