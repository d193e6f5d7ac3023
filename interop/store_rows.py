#!/usr/bin/python3
"""Makes the transcript that the rows of the journal and of the store are to give.

    interop/store_rows.py [--write]     compares crates/ots_store_rows/stdout with what this model says of each line of
                                        the script stdin beside it; with --write it writes that file
    interop/store_rows.py walks         prints the rows on random runs, as they stand in that script

It has a disk with the images that a crash leaves of it, the format of a journal, and the rules on a calendar's
records, each written from its description by Python alone, and runs nothing of this repository. Where our code keeps an
index or ranges it walks over lists. It is run by hand, and takes a second or two.

The disk: a crash undoes the writes since the last sync, does them, or leaves any bytes in their places. A journal: a
magic of eight bytes, then groups, each after a gate, one byte, `a5` where the group counts; a closed gate ends it. A
group: the number of its entries, two bytes, the number of their bytes, four, and the entries, each its kind, one byte,
its length, four, and its payload. Numbers are big-endian. A record is a commitment of 44 bytes (kind 1), a tip (2:
first, count, root) or an anchor (3: first, count, height, root, prefix and suffix with two bytes of length each, the
number of steps, one byte, and for each its side, one byte, and 32 bytes).
"""

import os
import struct
import sys

MAGIC = b'OTSCAL\x02\n'
OLD_MAGIC = b'OTSCAL\x01\n'
OPEN = 0xa5


# ---- the disk

def put(data, place, piece):
    return data[:place] + piece + data[place + len(piece):]


class Disk:
    """One file, and all the calls that were made."""

    def __init__(self, data, failing, room):
        self.first = self.data = data
        self.failing, self.room = failing, room
        self.calls = []
        self.faults = 0

    def is_past(self, place, piece):
        """Whether a call goes past the room."""
        return (len(self.calls) == self.room[0] or len(piece) > self.room[1]
                or place + len(piece) > max(self.room[2], len(self.data)))

    def call(self, kind, place=0, piece=b''):
        """Whether the call is done."""
        if self.is_past(place, piece):
            raise ValueError('the script gives too little room')
        failed = len(self.calls) + 1 in self.failing
        self.calls.append((kind, place, piece, failed))
        if failed:
            self.faults += 1
        elif kind == 'write':
            self.data = put(self.data, place, piece)
        return not failed

    def image(self, moment, choice):
        """What a crash in the middle of this call leaves: the pending writes are those since the last good sync."""
        now, durable, pending = self.first, self.first, []
        for number, (kind, place, piece, failed) in enumerate(self.calls, 1):
            if number > moment:
                break
            if kind == 'write':
                pending.append((place, piece))
            if number == moment or failed:
                continue
            if kind == 'write':
                now = put(now, place, piece)
            if kind == 'sync':
                durable, pending = now, []
        for place, piece in pending:
            if choice == 'kept':
                durable = put(durable, place, piece)
            elif choice != 'dropped':
                durable = put(durable, place, bytes.fromhex(choice) * len(piece))
        return durable


# ---- the journal

class Refused(Exception):
    """Why something is not done, in the words of a transcript."""


def is_entry(payload):
    return 44 <= len(payload) <= 1 << 20


def is_group(entries):
    return 1 <= len(entries) <= 1024 and all(is_entry(payload) for _, payload in entries)


def entry_bytes(kind, payload):
    return bytes([kind]) + struct.pack('>I', len(payload)) + payload


def group_body(entries):
    """What stands after the gate of a group."""
    inner = b''.join(entry_bytes(*entry) for entry in entries)
    return struct.pack('>HI', len(entries), len(inner)) + inner


def entries_in(data, place, count):
    """So many entries from a place on, and the place after them; `None` where they are not whole."""
    entries = []
    for _ in range(count):
        if place + 5 > len(data):
            return None
        kind, length = struct.unpack_from('>BI', data, place)
        payload = data[place + 5:place + 5 + length]
        if len(payload) < length or not is_entry(payload):
            return None
        entries.append((kind, payload))
        place += 5 + length
    return entries, place


def read_journal(data):
    """The entries of more than 9 bytes, and the place of the closed gate."""
    if data[:8] == OLD_MAGIC:
        raise Refused('old version')
    if data[:8] != MAGIC:
        raise Refused('not a journal')
    entries, gate = [], 8
    while data[gate] == OPEN:
        damaged = Refused('damaged %d' % gate)
        if gate + 7 > len(data):
            raise damaged
        count, size = struct.unpack_from('>HI', data, gate + 1)
        found = entries_in(data, gate + 7, count)
        if not 1 <= count <= 1024 or found is None:
            raise damaged
        end = found[1]
        if end != gate + 7 + size or end >= len(data):
            raise damaged
        entries += found[0]
        gate = end
    return entries, gate


def read_version1(data):
    """The entries of a journal of version 1, in which each lies after a gate of its own."""
    if len(data) <= 9:
        return []
    if data[:8] != OLD_MAGIC:
        raise Refused('not a journal')
    entries, gate = [], 8
    while data[gate] == OPEN:
        found = entries_in(data, gate + 1, 1)
        if found is None or found[1] >= len(data):
            raise Refused('damaged %d' % gate)
        entries += found[0]
        gate = found[1]
    return entries


class Journal:
    """A list of entries on a disk. `flight` is the group of which it is not known whether it is kept."""

    def __init__(self, disk, limit):
        self.disk, self.limit = disk, limit
        self.flight = None
        self.called('sync')
        self.called('length')
        if len(disk.data) <= 9:
            self.called('write', 0, MAGIC + b'\0')
            self.called('sync')
            self.entries, self.gate = [], 8
        elif len(disk.data) > limit:
            raise Refused('full %d %d' % (len(disk.data), limit))
        else:
            self.called('read')
            self.entries, self.gate = read_journal(disk.data)

    def called(self, *call):
        if not self.disk.call(*call):
            raise Refused('disk fault')

    def refresh(self):
        if self.flight is None:
            return
        self.called('sync')
        self.called('read')
        group, self.flight = self.flight, None
        if self.disk.data[self.gate:self.gate + 1] == bytes([OPEN]):
            self.take(group)

    def take(self, group):
        self.entries += group
        self.gate += 1 + len(group_body(group))

    def append(self, group):
        """The index of the first of these entries."""
        self.refresh()
        body = group_body(group) + b'\0'
        need = self.gate + 1 + len(body)
        if need > self.limit:
            raise Refused('full %d %d' % (need, self.limit))
        self.flight = group
        for place, piece in (self.gate + 1, body), (self.gate, bytes([OPEN])):
            self.called('write', place, piece)
            self.called('sync')
        self.flight = None
        self.take(group)
        return len(self.entries) - len(group)

    def sure(self):
        return 'sure' if self.flight is None else 'unsure'

    def state(self):
        return '%s, gate %d, entries %d, faults %d' % (self.sure(), self.gate, len(self.entries), self.disk.faults)


# ---- the records of a calendar

class Tip:
    def __init__(self, payload):
        self.first, self.count = struct.unpack('>QQ', payload[:16])
        self.root = payload[16:]


class Anchor:
    """What the payload of an anchor says; `ValueError` or `struct.error` where it is none."""

    def __init__(self, payload):
        self.first, self.count, self.height = struct.unpack('>QQQ', payload[:24])
        self.root = payload[24:56]
        self.prefix, rest = self.sized(payload[56:])
        self.suffix, rest = self.sized(rest)
        steps, rest = rest[0], rest[1:]
        self.steps = [(rest[i], rest[i + 1:i + 33]) for i in range(0, len(rest), 33)]
        if (len(rest) != 33 * steps or steps > 32 or any(side > 1 for side, _ in self.steps)
                or self.height >= 1 << 63 or len(self.prefix) + 32 + len(self.suffix) > 4096):
            raise ValueError

    @staticmethod
    def sized(data):
        length, = struct.unpack('>H', data[:2])
        if len(data) < 2 + length:
            raise ValueError
        return data[2:2 + length], data[2 + length:]

    def text(self):
        text = '%d %d %d %s, prefix %s, suffix %s' % (
            self.first, self.count, self.height, spelled(self.root), spelled(self.prefix), spelled(self.suffix))
        return text + ''.join(', %s %s' % (('left', 'right')[side], spelled(other)) for side, other in self.steps)


class Records:
    """The records of entries, each of which may follow those before it."""

    def __init__(self, entries):
        self.commitments, self.tips, self.anchors = [], [], []
        bad = self.first_bad(entries)
        if bad is not None:
            raise Refused('bad %d' % bad)

    def covered(self):
        return max([anchor.first + anchor.count for anchor in self.anchors], default=0)

    def covering(self, i):
        """The first anchor that covers an index."""
        for anchor in self.anchors:
            if anchor.first <= i < anchor.first + anchor.count:
                return anchor
        return None

    def index(self, commitment):
        return self.commitments.index(commitment) if commitment in self.commitments else None

    def takes(self, kind, payload):
        """Takes an entry as the next record, where it is one that may follow."""
        if kind == 1 and len(payload) == 44:
            self.commitments.append(payload)
            return True
        if kind == 2 and len(payload) == 48:
            tip = Tip(payload)
            follows = tip.first == self.covered() and tip.count and tip.first + tip.count == len(self.commitments)
            if follows:
                self.tips.append(tip)
            return follows
        if kind == 3:
            try:
                anchor = Anchor(payload)
            except (ValueError, IndexError, struct.error):
                return False
            follows = ((anchor.first, anchor.count) in [(tip.first, tip.count) for tip in self.tips]
                       and anchor.first + anchor.count > self.covered())
            if follows:
                self.anchors.append(anchor)
            return follows
        return False

    def first_bad(self, entries):
        for i, entry in enumerate(entries):
            if not self.takes(*entry):
                return i
        return None


class Store:
    """A journal whose entries are records."""

    def __init__(self, disk, limit):
        self.journal = Journal(disk, limit)
        self.records = Records(self.journal.entries)

    def refresh(self):
        self.journal.refresh()
        self.records = Records(self.journal.entries)

    def bad(self, entries):
        try:
            Records(self.journal.entries + entries)
        except Refused as why:
            return 'bad %d' % (int(str(why).split()[1]) - len(self.journal.entries))
        return 'none'

    def append(self, entries):
        try:
            self.journal.append(entries)
        finally:
            self.records = Records(self.journal.entries)

    def commit(self, commitment):
        """The index of a commitment, which is added."""
        self.append([(1, commitment)])
        return len(self.records.commitments) - 1

    def add(self, entries, refusal):
        """Adds entries to a sure store, where they may follow."""
        if self.journal.flight is not None:
            return 'unsure'
        bad = self.bad(entries)
        if bad != 'none':
            return refusal or bad
        self.append(entries)
        return 'ok'

    def state(self):
        return '%s, gate %d, records %d, commitments %d, covered %d, tips %d, faults %d' % (
            self.journal.sure(), self.journal.gate, len(self.journal.entries), len(self.records.commitments),
            self.records.covered(), len(self.records.tips), self.journal.disk.faults)


# ---- how a script spells things

def bytes_of(words):
    data = b''
    for word in words.split():
        digits, _, count = word.partition('*')
        data += bytes.fromhex(digits) * int(count or 1)
    return data


def entry_of(text):
    kind, _, words = text.strip().partition(' ')
    return int(kind), bytes_of(words)


def entries_of(text):
    return [entry_of(part) for part in text.split(';')] if text else []


def spelled(data):
    if not data:
        return '-'
    if len(data) > 1 and data == data[:1] * len(data):
        return '%02x*%d' % (data[0], len(data))
    return data.hex()


def spelled_entry(entry):
    return '%d %s' % (entry[0], spelled(entry[1]))


def spelled_entries(entries):
    return ' ; '.join(spelled_entry(entry) for entry in entries) or 'none'


def shown(number):
    return 'none' if number is None else str(number)


def spelled_numbers(numbers):
    """Numbers that are equal to the one before are counted."""
    runs = []
    for number in numbers:
        if runs and runs[-1][0] == number:
            runs[-1][1] += 1
        else:
            runs.append([number, 1])
    return ' '.join(('-' if number is None else str(number)) + ('*%d' % count if count > 1 else '')
                    for number, count in runs)


def at(items, i):
    return items[i] if i < len(items) else None


def so_it_is(is_so):
    return 'so it is' if is_so else 'no'


def numbers(text, count):
    """So many numbers, and what is after them."""
    words = text.split(' ', count)
    return [int(word) for word in words[:count]] + words[count:]


# ---- the calls

def disk_answer(disk, word, rest):
    """A call of the disk itself. One past the room fails, and is not noted."""
    if word == 'faults':
        return str(disk.faults)
    place, _, words = rest.partition(' ')
    place, piece = int(place or 0), bytes_of(words) if word == 'write' else b''
    if word == 'write' and place > len(disk.data):
        return 'past the end'
    if disk.is_past(place, piece) if word == 'write' else disk.is_past(0, b''):
        disk.faults += 1
        return 'disk fault'
    if not disk.call(word, place, piece):
        return 'disk fault'
    if word == 'length':
        return str(len(disk.data))
    if word == 'read':
        return spelled(disk.data[place:place + int(words)])
    if word not in ('write', 'sync'):
        raise ValueError(word)
    return 'ok'


def done(call, *arguments):
    try:
        result = call(*arguments)
    except Refused as why:
        return str(why)
    return 'ok' if result is None else str(result)


def append_one(journal, entry):
    return done(journal.append, [entry]) if is_entry(entry[1]) else 'no entry'


def has_memory(entries, size):
    return entries < 1 << 40 and size < 1 << 40


def journal_answer(journal, word, rest):
    if word == 'append':
        return append_one(journal, entry_of(rest))
    if word == 'each':
        return ', '.join(append_one(journal, entry) for entry in entries_of(rest))
    if word == 'group':
        entries = entries_of(rest)
        return done(journal.append, entries) if is_group(entries) else 'no group'
    if word == 'reserve':
        return 'ok' if has_memory(*numbers(rest, 2)) else 'out of memory'
    if word == 'refresh':
        return done(journal.refresh)
    if word == 'state':
        return journal.state()
    if word == 'entry':
        entry = at(journal.entries, int(rest))
        return spelled_entry(entry) if entry else 'none'
    if word == 'entries':
        return so_it_is(journal.entries == entries_of(rest))
    raise ValueError(word)


def store_answer(store, word, rest):
    records = store.records
    if word == 'commit':
        return done(store.commit, bytes_of(rest))
    if word == 'commits':
        return ', '.join(done(store.commit, bytes([value]) * 44) for value in bytes_of(rest))
    if word == 'tip':
        first, count, root = numbers(rest, 2)
        return done(store.add, [(2, struct.pack('>QQ', first, count) + bytes_of(root))], 'may not follow')
    if word == 'anchor':
        first, count, height, root = numbers(rest, 3)
        payload = struct.pack('>QQQ', first, count, height) + bytes_of(root) + bytes(5)
        return done(store.add, [(3, payload)], 'may not follow')
    if word == 'group':
        entries = entries_of(rest)
        return done(store.add, entries, None if is_group(entries) else 'no group')
    if word == 'reserve':
        return 'ok'
    if word == 'refresh':
        return done(store.refresh)
    if word == 'state':
        return store.state()
    if word == 'bad':
        return store.bad(entries_of(rest))
    if word == 'index':
        return shown(records.index(bytes_of(rest)))
    if word == 'indexes':
        return spelled_numbers(records.index(bytes([value]) * 44) for value in bytes_of(rest))
    if word == 'covering':
        anchor = records.covering(int(rest))
        return anchor.text() if anchor else 'none'
    if word == 'heights':
        anchors = [records.covering(i) for i in range(int(rest))]
        return spelled_numbers(anchor.height if anchor else None for anchor in anchors)
    if word == 'entry':
        entry = at(store.journal.entries, int(rest))
        return spelled_entry(entry) if entry else 'none'
    if word == 'commitment':
        commitment = at(records.commitments, int(rest))
        return spelled(commitment) if commitment else 'none'
    if word == 'commitments':
        return so_it_is(records.commitments == [bytes([value]) * 44 for value in bytes_of(rest)])
    if word == 'tips':
        return ' ; '.join('%d %d %s' % (tip.first, tip.count, spelled(tip.root)) for tip in records.tips) or 'none'
    raise ValueError(word)


# ---- what is asked of a disk at the end

def call_text(number, call):
    kind, place, piece, failed = call
    text = '%d: %s' % (number, kind)
    if kind == 'write':
        text += ' %d, %d bytes: %s' % (place, len(piece), spelled(piece))
    return text + (', failed' if failed else '')


def after_crash(form, disk, limit):
    """How many entries there are, and how many with one more when it is opened once more."""
    if form == 'journal':
        opened = Journal(disk, limit)
        count = len(opened.entries)
        opened.append([(9, b'\x09' * 44)])
        return '%d then %d' % (count, len(Journal(disk, limit).entries))
    opened = Store(disk, limit)
    count = len(opened.journal.entries)
    opened.commit(b'\x4d' * 44)
    return '%d then %d' % (count, len(Store(disk, limit).journal.entries))


class Scene:
    """What a script has said of a disk, and the transcript."""

    def __init__(self):
        self.names = {}
        self.begin()

    def begin(self):
        self.data, self.failing, self.room, self.limit = b'', set(), (40, 400, 1000), 1000
        self.disk = self.opened = None
        self.asked = False

    def made(self):
        if self.disk is None:
            self.disk = Disk(self.data, self.failing, self.room)
        return self.disk

    def open(self, form):
        assert not self.asked, 'the disk was asked already'
        self.form, self.opened = form, None
        try:
            self.opened = (Journal if form == 'journal' else Store)(self.made(), self.limit)
        except Refused as why:
            return ['%s, faults %d' % (why, self.disk.faults)]
        return [self.opened.state()]

    def ask(self, word, rest):
        self.asked, self.opened = True, None
        disk = self.made()
        if word == 'left':
            wanted = bytes_of(rest)
            return ['so it is, %d bytes' % len(wanted) if disk.data == wanted else 'no: ' + spelled(disk.data)]
        if word == 'calls':
            return [call_text(number, call) for number, call in enumerate(disk.calls, 1) if number >= int(rest)]
        form, first, last, *choices = rest.split(' ')
        assert int(last) - 1 <= len(disk.calls) + 1
        return ['%d: ' % moment + ', '.join(self.image_text(form, disk.image(moment, choice)) for choice in choices)
                for moment in range(int(first), int(last))]

    def image_text(self, form, image):
        """What is told of an image."""
        if form == 'bytes':
            return spelled(image)
        return after_crash(form, Disk(image, set(), self.room), self.limit)

    def set(self, word, rest):
        assert self.disk is None or word == 'let', 'the disk was called already'
        if word == 'let':
            name, _, words = rest.partition(' ')
            self.names['$' + name] = words
        elif word == 'disk':
            self.data = bytes_of(rest)
        elif word == 'fails':
            self.failing = {int(number) for number in rest.split(' ')}
        elif word == 'limit':
            self.limit = int(rest)
        else:
            self.room = [int(number) for number in rest.split(' ')]
        return []

    def obey(self, line):
        """What came of a line."""
        if not line:
            self.begin()
            return []
        if line[0] == '#':
            assert not self.asked, 'a comment after a question'
            return []
        word, _, rest = ' '.join(self.names[w] if w[0] == '$' else w for w in line.split(' ')).partition(' ')
        if word in ('let', 'disk', 'fails', 'limit', 'room'):
            return self.set(word, rest)
        if word in ('journal', 'store'):
            return self.open(word)
        if word in ('left', 'calls', 'images'):
            return self.ask(word, rest)
        if word == 'version1':
            data = bytes_of(rest)
            return ['%d bytes: ' % len(data) + done(lambda: spelled_entries(read_version1(data)))]
        if word in ('write', 'read', 'length', 'sync', 'faults'):
            assert self.opened is None and not self.asked, 'the disk was opened already'
            return [disk_answer(self.made(), word, rest)]
        assert self.opened, 'nothing is open'
        return [(journal_answer if self.form == 'journal' else store_answer)(self.opened, word, rest)]


def transcript(script):
    scene, told = Scene(), []
    for line in script.splitlines():
        told.append(line)
        told += ['= ' + answer for answer in scene.obey(line)]
    return ''.join(line + '\n' for line in told)


# ---- random runs

def walk(seed):
    """40 commitments, tips and anchors by the bits of a linear congruential generator."""
    print('room 300 400 8000\nlimit 8000\nstore')
    store = Store(Disk(b'', set(), (300, 400, 8000)), 8000)
    for height in range(1, 41):
        seed = (seed * 6364136223846793005 + 1442695040888963407) % (1 << 64)
        choice = seed >> 33
        records = store.records
        if choice % 4 < 2:
            line = 'commit %02x*44' % (choice % 11)
        elif choice % 4 == 2:
            line = 'tip %d %d 09*32' % (records.covered(), len(records.commitments) - records.covered())
        elif records.tips:
            tip = records.tips[choice % len(records.tips)]
            line = 'anchor %d %d %d 09*32' % (tip.first, tip.count, height)
        else:
            continue
        print(line, 'indexes $TO11', 'heights 40', sep='\n')
        store_answer(store, *line.split(' ', 1))
    assert len(store.records.anchors) > 1


def stepping(start, step, modulus, count):
    """Values, each a step after the one before."""
    for _ in range(count):
        start = (start % 256 + step) % modulus
        yield start


def walks():
    print('let TO11 ' + bytes(range(12)).hex())
    print('let TO101 ' + bytes(range(102)).hex())
    print('let ALL ' + bytes(range(256)).hex())
    for seed in range(1, 6):
        print('\n# the index and the ranges answer as a walk: run %d' % seed)
        walk(seed)
    for name, start, step, last in (('rising', 0, 1, 255), ('falling', 255, 253, 254), ('shuffled', 3, 97, 250),
                                    ('repeated in falling order', 0, 12, 12),
                                    ('repeated in shuffled order', 0, 7, 22)):
        print('\n# commitments in any order are found as by a walk: %s' % name)
        print('let VALUES ' + bytes(stepping(start, step, last + 1, 60)).hex())
        print('room 300 400 8000', 'limit 8000', 'store', 'commits $VALUES', 'state', 'commitments $VALUES',
              'indexes $ALL', 'store', 'commitments $VALUES', 'indexes $ALL', sep='\n')
    print('\n# groups in any order are found as by a walk')
    print('# shuffled, falling, rising among those that are there, and one value alone')
    print('room 40 2000 8000', 'limit 8000', 'store', sep='\n')
    for start, step in (0, 37), (90, 100), (20, 1), (7, 0):
        group = ' ; '.join('1 %02x*44' % value for value in stepping(start, step, 101, 25))
        print('group ' + group, 'indexes $TO101', sep='\n')
    print('state', 'index 25*44', sep='\n')


def main():
    if sys.argv[1:] == ['walks']:
        walks()
        return
    crate = os.path.join(os.path.dirname(os.path.abspath(__file__)), '..', 'crates', 'ots_store_rows')
    with open(os.path.join(crate, 'stdin')) as script:
        made = transcript(script.read())
    if sys.argv[1:] == ['--write']:
        with open(os.path.join(crate, 'stdout'), 'w') as file:
            file.write(made)
        return
    with open(os.path.join(crate, 'stdout')) as file:
        if file.read() != made:
            sys.exit('the transcript is not what this model makes')


if __name__ == '__main__':
    main()
