"""A calendar in Python: journals, records, books and blocks, for `calendar_rows.py`.

It is made of hashlib, hmac and struct from the formats that docs/ describes, and of nothing of this repository.

The round's commitment, and the tree over leaves: opentimestamps-server, otsserver/calendar.py and
opentimestamps-client, opentimestamps/core/timestamp.py (make_merkle_tree). Blocks: the Bitcoin developer reference,
"Block headers" and "Raw transaction format".
"""

import hashlib
import hmac
import struct


class Refused(Exception):
    """A run is refused: its status and its line."""

    def __init__(self, status, line):
        super().__init__(status, line)
        self.status, self.line = status, line


class Failed(Exception):
    """A call of the outside failed."""


class Calls:
    """The calls of an object: how many were made, and which are to fail."""

    def __init__(self, failing=()):
        self.failing, self.made = set(failing), 0

    def fails(self):
        self.made += 1
        return self.made in self.failing

    def call(self):
        if self.fails():
            raise Failed


# ---- hashes, trees and spellings

def sha256(data):
    return hashlib.sha256(data).digest()


def twice(data):
    return sha256(sha256(data))


def levels(leaves):
    """The levels of a calendar's tree, from the leaves up: an odd last part is lifted, not doubled."""
    level = list(leaves)
    yield level
    while len(level) > 1:
        above = [sha256(level[k] + level[k + 1]) for k in range(0, len(level) - 1, 2)]
        level = above + level[len(above) * 2:]
        yield level


def merkle_root(leaves):
    *_, (top,) = levels(leaves)
    return top


def merkle_path(rising, i):
    """The steps from leaf i of these levels to the root: an operation's byte and its argument."""
    steps = []
    for level in rising[:-1]:
        if i ^ 1 < len(level):
            steps += [(0xf1 if i % 2 else 0xf0, level[i ^ 1]), (0x08, None)]
        i //= 2
    return steps


def varuint(n):
    out = b''
    while n >= 0x80:
        out += bytes([n & 0x7f | 0x80])
        n >>= 7
    return out + bytes([n])


def spelled(steps):
    return b''.join(bytes([tag]) + (b'' if argument is None else varuint(len(argument)) + argument)
                    for tag, argument in steps)


def attestation(kind, payload):
    return b'\0' + bytes.fromhex(kind) + varuint(len(payload)) + payload


def pending(uri):
    return attestation('83dfe30d2ef90c8e', varuint(len(uri)) + uri.encode())


def bitcoin(height):
    return attestation('0588960d73d71901', varuint(height))


# ---- where a journal lies

class MemoryDisk:
    """Bytes in memory. A call that fails changes nothing."""

    def __init__(self, journal, failing):
        self.bytes, self.calls = bytearray(journal), Calls(failing)

    def length(self):
        self.calls.call()
        return len(self.bytes)

    def read(self, place, count):
        self.calls.call()
        return bytes(self.bytes[place:place + count])

    def write(self, place, piece):
        self.calls.call()
        self.bytes[place:place + len(piece)] = piece

    def sync(self):
        self.calls.call()

    def left(self):
        return bytes(self.bytes)

    def known(self):
        return 'disk called' if self.calls.made else 'disk not called'


class FileDisk:
    """A file on a device, as Linux has them: a write goes to the cache, and a sync brings it to the device. A sync that
    fails gives up what was written; then no call is made any more, since no later sync would tell of it. Before the
    first call the file is opened, synced, its pages are dropped, and its folder is synced. A call reads or writes seven
    bytes at most."""

    AT_A_TIME = 7

    def __init__(self, journal, failing):
        self.device, self.calls = bytes(journal), Calls(failing)
        self.cache, self.is_open, self.sync_failed = None, False, False

    def prepare(self):
        if self.sync_failed:
            raise Failed
        if not self.is_open:
            self.calls.call()
            self.cache = bytearray(self.device)
            self.sync_it(brings=True)
            self.calls.call()
            self.sync_it(brings=False)
            self.is_open = True

    def sync_it(self, brings):
        if self.calls.fails():
            self.sync_failed = True
            raise Failed
        if brings:
            self.device = bytes(self.cache)

    def length(self):
        self.prepare()
        self.calls.call()
        return len(self.cache)

    def read(self, place, count):
        self.prepare()
        out = b''
        while len(out) < count:
            self.calls.call()
            piece = self.cache[place + len(out):place + len(out) + min(self.AT_A_TIME, count - len(out))]
            if not piece:
                break
            out += piece
        return out

    def write(self, place, piece):
        self.prepare()
        for done in range(0, len(piece), self.AT_A_TIME):
            self.calls.call()
            part = piece[done:done + self.AT_A_TIME]
            self.cache[place + done:place + done + len(part)] = part

    def sync(self):
        self.prepare()
        self.sync_it(brings=True)

    def left(self):
        return self.device

    @staticmethod
    def known():
        return 'on the device'


# ---- the journal

MAGIC_1, MAGIC_2 = b'OTSCAL\x01\n', b'OTSCAL\x02\n'
OPEN_GATE, CLOSED_GATE = b'\xa5', b'\0'


def spelled_entry(kind, payload):
    return bytes([kind]) + struct.pack('>I', len(payload)) + payload


def read_entry(data, place, end):
    """The entry at a place and the place after it, or `None`."""
    if place + 5 > end:
        return None
    kind, size = struct.unpack_from('>BI', data, place)
    if not 44 <= size <= 1048576 or place + 5 + size > end:
        return None
    return (kind, data[place + 5:place + 5 + size]), place + 5 + size


def damaged(place):
    return Refused(22, f'damaged at {place}')


def read_version_1(data):
    if len(data) <= 9:
        return []
    if data[:8] != MAGIC_1:
        raise Refused(21, 'not a journal')
    entries, gate = [], 8
    while data[gate:gate + 1] == OPEN_GATE:
        read = read_entry(data, gate + 1, len(data) - 1)
        if read is None:
            raise damaged(gate)
        entries.append(read[0])
        gate = read[1]
    return entries


def read_group(data, gate):
    """The entries of the group after an open gate, and the next gate."""
    if gate + 7 > len(data):
        raise damaged(gate)
    count, size = struct.unpack_from('>HI', data, gate + 1)
    place, end = gate + 7, gate + 7 + size
    if not 1 <= count <= 1024 or end + 1 > len(data):
        raise damaged(gate)
    entries = []
    for _ in range(count):
        read = read_entry(data, place, end)
        if read is None:
            raise damaged(gate)
        entries.append(read[0])
        place = read[1]
    if place != end:
        raise damaged(gate)
    return entries, end


class Journal:
    """The entries on a disk. A group is written after a closed gate and synced, and then the gate is opened and synced.
    Where a call of that failed, the next one looks at the gate first."""

    def __init__(self, disk):
        self.disk, self.entries, self.gate, self.flight = disk, [], 8, None
        try:
            self.disk.sync()
            length = self.disk.length()
            if length <= 9:
                self.write_durably(0, MAGIC_2 + CLOSED_GATE)
                return
            data = self.disk.read(0, length)
        except Failed:
            raise Refused(25, 'disk fault') from None
        if data[:8] == MAGIC_1:
            raise Refused(35, 'old version')
        if data[:8] != MAGIC_2:
            raise Refused(21, 'not a journal')
        while data[self.gate:self.gate + 1] == OPEN_GATE:
            entries, self.gate = read_group(data, self.gate)
            self.entries += entries

    def write_durably(self, place, piece):
        self.disk.write(place, piece)
        self.disk.sync()

    def keep(self, entries, size):
        self.entries += entries
        self.gate += 7 + size

    def refresh(self):
        if self.flight is not None:
            self.disk.sync()
            if self.disk.read(self.gate, 1) == OPEN_GATE:
                self.keep(*self.flight)
            self.flight = None

    def append(self, entries):
        self.refresh()
        body = b''.join(spelled_entry(*entry) for entry in entries)
        self.flight = entries, len(body)
        self.write_durably(self.gate + 1, struct.pack('>HI', len(entries), len(body)) + body + CLOSED_GATE)
        self.write_durably(self.gate, OPEN_GATE)
        self.keep(*self.flight)
        self.flight = None


# ---- the records

COMMIT, TIP, ANCHOR = 1, 2, 3


class Anchor:
    """The record of a tip that stands in a block."""

    def __init__(self, first, count, height, root, prefix, suffix, branch):
        self.first, self.count, self.height, self.root = first, count, height, root
        self.prefix, self.suffix, self.branch = prefix, suffix, branch

    @staticmethod
    def read(payload):
        """The record that a payload spells, or `None`."""
        try:
            first, count, height = struct.unpack_from('>QQQ', payload)
            root, place, parts = payload[24:56], 56, []
            for _ in range(2):
                length, = struct.unpack_from('>H', payload, place)
                parts.append(payload[place + 2:place + 2 + length])
                place += 2 + length
            steps = payload[place]
            branch = [(payload[at], payload[at + 1:at + 33]) for at in range(place + 1, place + 1 + 33 * steps, 33)]
        except (struct.error, IndexError):
            return None
        anchor = Anchor(first, count, height, root, *parts, branch)
        is_good = (anchor.spelled() == payload and steps <= 32 and height < 2 ** 63 and len(parts[0] + parts[1]) <= 4064
                   and all(side in (0, 1) for side, _ in branch))
        return anchor if is_good else None

    def spelled(self):
        out = struct.pack('>QQQ', self.first, self.count, self.height) + self.root
        for part in self.prefix, self.suffix:
            out += struct.pack('>H', len(part)) + part
        return out + bytes([len(self.branch)]) + b''.join(bytes([side]) + other for side, other in self.branch)

    def steps_from(self, root_steps):
        """From a commitment to the block's root, by the steps to the tip's root."""
        steps = [(0x08, None)] + root_steps + [(0xf1, self.prefix), (0xf0, self.suffix), (0x08, None), (0x08, None)]
        for side, other in self.branch:
            steps += [(0xf0 if side else 0xf1, other), (0x08, None), (0x08, None)]
        return steps


def applied(steps, message):
    for tag, argument in steps:
        message = {0xf0: lambda m, a: m + a, 0xf1: lambda m, a: a + m, 0x08: lambda m, a: sha256(m)}[tag](
            message, argument)
    return message


class Records:
    """The records of a journal, taken one by one."""

    def __init__(self):
        self.commits, self.tips, self.anchors, self.covered = [], [], [], 0

    def takes(self, kind, payload):
        """Takes an entry, and answers whether it is a record that may stand after the others."""
        if kind == COMMIT and len(payload) == 44:
            self.commits.append(payload)
        elif kind == TIP and len(payload) == 48:
            first, count = struct.unpack_from('>QQ', payload)
            if first != self.covered or count < 1 or first + count != len(self.commits):
                return False
            self.tips.append((first, count, payload[16:]))
        elif kind == ANCHOR and Anchor.read(payload) is not None:
            anchor = Anchor.read(payload)
            spans = [(first, count) for first, count, _ in self.tips]
            if (anchor.first, anchor.count) not in spans or anchor.first + anchor.count <= self.covered:
                return False
            self.anchors.append(anchor)
            self.covered = anchor.first + anchor.count
        else:
            return False
        return True

    def hashes(self, first, count):
        return [sha256(one) for one in self.commits[first:first + count]]

    def steps(self, anchor, i):
        """From commitment i, which an anchor covers, to its block's root."""
        rising = list(levels(self.hashes(anchor.first, anchor.count)))
        return anchor.steps_from(merkle_path(rising, i - anchor.first))

    def is_true(self, kind, payload):
        """Whether the values of a record are right."""
        if kind == TIP:
            first, count = struct.unpack_from('>QQ', payload)
            return merkle_root(self.hashes(first, count)) == payload[16:]
        if kind == ANCHOR:
            anchor = Anchor.read(payload)
            return all(applied(self.steps(anchor, i), self.commits[i]) == anchor.root
                       for i in range(anchor.first, anchor.first + anchor.count))
        return True


def bad_record(index):
    return Refused(23, f'bad record {index}')


def open_records(journal):
    records = Records()
    for index, entry in enumerate(journal.entries):
        if not records.takes(*entry):
            raise bad_record(index)
    return records


class Book:
    """The records on a disk, of which every value is right."""

    def __init__(self, disk):
        self.journal = Journal(disk)
        self.records = open_records(self.journal)
        for index, entry in enumerate(self.journal.entries):
            if not self.records.is_true(*entry):
                raise bad_record(index)

    def append(self, kind, payload):
        self.journal.append([(kind, payload)])
        self.renew()

    def renew(self):
        self.records = open_records(self.journal)

    def tip(self):
        first, commits = self.records.covered, self.records.commits
        count = len(commits) - first
        if count == 0:
            raise Refused(1, 'nothing new')
        root = merkle_root(self.records.hashes(first, count))
        if (first, count, root) not in self.records.tips:
            self.append(TIP, struct.pack('>QQ', first, count) + root)
        return first, count, root

    def close(self, second, key, leaves):
        """Stores the commitment over leaves, and answers its index and its bytes."""
        signed = struct.pack('>I', second) + merkle_root(leaves)
        commitment = signed + hmac.new(key, signed, hashlib.sha256).digest()[:8]
        self.journal.refresh()
        self.renew()
        self.append(COMMIT, commitment)
        return len(self.records.commits) - 1, commitment

    def ask(self, commitment):
        """The steps from a commitment to the root of a block, and the block's height; or a word."""
        if commitment not in self.records.commits:
            return 'not found'
        i = self.records.commits.index(commitment)
        for anchor in self.records.anchors:
            if anchor.first <= i < anchor.first + anchor.count:
                steps = self.records.steps(anchor, i)
                assert applied(steps, commitment) == anchor.root
                return steps, anchor.height
        return 'pending'


# ---- blocks

class Reader:
    """Reads a block field by field, and tells the place of the first fault."""

    def __init__(self, data):
        self.data, self.place = data, 0

    def bad(self, place, reason):
        return Refused(29, f'bad block at {place}: {reason}')

    def field(self, length):
        if self.place + length > len(self.data):
            raise self.bad(self.place, 'truncated')
        self.place += length
        return self.data[self.place - length:self.place]

    def number(self):
        begin = self.place
        first = self.data[begin:begin + 1]
        width = {b'\xfd': 2, b'\xfe': 4, b'\xff': 8}.get(first, 0)
        spelt = self.field(1 + width)
        value = int.from_bytes(spelt[1:], 'little') if width else spelt[0]
        if width and value < {2: 0xfd, 4: 0x10000, 8: 0x100000000}[width]:
            raise self.bad(begin, 'non-minimal number')
        if value > 4194304:
            raise self.bad(begin, 'number too large')
        return value

    def transaction(self):
        """The form without witnesses."""
        out = self.field(4)
        marked = self.data[self.place:self.place + 1] == b'\0'
        if marked:
            self.field(1)
            if self.field(1) != b'\1':
                raise self.bad(self.place - 1, 'bad flag')
        begin = self.place
        inputs = self.number()
        for _ in range(inputs):
            self.field(36)
            self.field(self.number())
            self.field(4)
        for _ in range(self.number()):
            self.field(8)
            self.field(self.number())
        out += self.data[begin:self.place]
        for _ in range(inputs if marked else 0):
            for _ in range(self.number()):
                self.field(self.number())
        return out + self.field(4)

    def block(self):
        """The header's root and the transactions."""
        for length in 4, 32, 32, 4, 4, 4:
            self.field(length)
        begin = self.place
        count = self.number()
        if count == 0:
            raise self.bad(begin, 'no transaction')
        transactions = [self.transaction() for _ in range(count)]
        if self.place != len(self.data):
            raise self.bad(self.place, 'rest')
        return self.data[36:68], transactions


def block_levels(ids):
    """The levels of a block's tree: an odd last hash is doubled."""
    while len(ids) > 1:
        ids = ids + ids[-1:] if len(ids) % 2 else ids
        yield ids
        ids = [twice(ids[k] + ids[k + 1]) for k in range(0, len(ids), 2)]
    yield ids


def branch_of(rising, i):
    steps = []
    for level in rising[:-1]:
        steps.append((0, level[i - 1]) if i % 2 else (1, level[i + 1]))
        i //= 2
    return steps


def anchored_in(records, block, height):
    """The anchor of the tip that a block has in it first."""
    header_root, transactions = block
    rising = list(block_levels([twice(one) for one in transactions]))
    (root,) = rising[-1]
    if root != header_root:
        raise Refused(27, f'bad root {header_root.hex()} {root.hex()}')
    tips = [tip for tip in records.tips if tip[0] + tip[1] > records.covered]
    too_long = None
    for which, transaction in enumerate(transactions):
        places = [(transaction.find(tip[2]), -k) for k, tip in enumerate(tips) if tip[2] in transaction]
        if places and len(transaction) > 4096:
            too_long = too_long or len(transaction)
        elif places:
            place, k = min(places)
            first, count, _ = tips[-k]
            return Anchor(first, count, height, root, transaction[:place], transaction[place + 32:],
                          branch_of(rising, which))
    if too_long is not None:
        raise Refused(28, f'transaction too long {too_long}')
    raise Refused(26, 'no tip in the block')
