#!/usr/bin/python3
"""Prints the values that the tests of the calendar's book expect, and those that its rows name.

    interop/book_rows.py

It makes rounds, commitments, tips, blocks with a tip's root in a transaction, anchors, the paths of proofs and the
bytes of a journal from their definitions, by Python's hashlib, hmac and struct alone, and runs nothing of this
repository. It is run by hand, and takes a second or two.

The round's commitment, and the tree over leaves: opentimestamps-server, otsserver/calendar.py and
opentimestamps-client, opentimestamps/core/timestamp.py (make_merkle_tree). Blocks: the Bitcoin developer reference,
"Block headers" and "Raw transaction format". The journal's bytes are described in docs/.
"""

import hashlib
import hmac
import struct

KEY = b'Jefe'
SECOND = 1700000000
NONCE = bytes([7]) * 16
URI = b'http://127.0.0.1:14788'


def sha256(data):
    return hashlib.sha256(data).digest()


def twice(data):
    return sha256(sha256(data))


def root(leaves):
    """The root of a calendar's tree: an odd part is lifted, not doubled."""
    if len(leaves) == 1:
        return leaves[0]
    half = 1
    while half * 2 < len(leaves):
        half *= 2
    return sha256(root(leaves[:half]) + root(leaves[half:]))


def path(leaves, i):
    """The steps from leaf i to the root: an operation's byte and its argument."""
    if len(leaves) == 1:
        return []
    half = 1
    while half * 2 < len(leaves):
        half *= 2
    if i < half:
        return path(leaves[:half], i) + [(0xf0, root(leaves[half:])), (0x08, None)]
    return path(leaves[half:], i - half) + [(0xf1, root(leaves[:half])), (0x08, None)]


def leaf(digest, nonce):
    return sha256(digest + nonce)


def commitment(second, leaves):
    signed = struct.pack('>I', second) + root(leaves)
    return signed + hmac.new(KEY, signed, hashlib.sha256).digest()[:8]


def varuint(n):
    out = b''
    while n >= 0x80:
        out += bytes([n & 0x7f | 0x80])
        n >>= 7
    return out + bytes([n])


def spelled(ops):
    return b''.join(bytes([tag]) + (b'' if argument is None else varuint(len(argument)) + argument)
                    for tag, argument in ops)


def applied(ops, message):
    for tag, argument in ops:
        if tag == 0xf0:
            message = message + argument
        elif tag == 0xf1:
            message = argument + message
        else:
            message = sha256(message)
    return message


def attestation(tag, payload):
    return b'\0' + bytes.fromhex(tag) + varuint(len(payload)) + payload


def pending():
    return attestation('83dfe30d2ef90c8e', varuint(len(URI)) + URI)


def bitcoin(height):
    return attestation('0588960d73d71901', varuint(height))


def way(second, tickets, i):
    """From the digest of ticket i to the commitment of its round."""
    leaves = [leaf(digest, nonce) for digest, nonce in tickets]
    made = commitment(second, leaves)
    return [(0xf0, tickets[i][1]), (0x08, None)] + path(leaves, i) + [(0xf1, made[:4]), (0xf0, made[36:])]


def transaction(script):
    """One input of zeros, and one output without a value that has this script."""
    assert len(script) < 0xfd
    return (bytes(4) + b'\1' + bytes(36) + b'\0' + bytes(4) + b'\1' + bytes(8) + bytes([len(script)]) + script
            + bytes(4))


def holding(tip_root):
    """A transaction whose output is OP_RETURN and 32 bytes."""
    return transaction(b'\x6a\x20' + tip_root)


def block_root(ids):
    while len(ids) > 1:
        if len(ids) % 2:
            ids = ids + ids[-1:]
        ids = [twice(ids[k] + ids[k + 1]) for k in range(0, len(ids), 2)]
    return ids[0]


def branch(ids, i):
    """The side of each neighbour, 0 for the left and 1 for the right, and the neighbour."""
    steps = []
    while len(ids) > 1:
        if len(ids) % 2:
            ids = ids + ids[-1:]
        steps.append((0, ids[i - 1]) if i % 2 else (1, ids[i + 1]))
        ids = [twice(ids[k] + ids[k + 1]) for k in range(0, len(ids), 2)]
        i //= 2
    return steps


def block(transactions):
    header = bytes(36) + block_root([twice(t) for t in transactions]) + bytes(12)
    return header + bytes([len(transactions)]) + b''.join(transactions)


class Anchor:
    """The anchor of the tip over these commitments, of which the first has an index, in a block."""

    def __init__(self, first, commitments, transactions, which, height):
        self.first, self.commitments, self.height = first, commitments, height
        self.root = root([sha256(c) for c in commitments])
        place = transactions[which].index(self.root)
        self.prefix, self.suffix = transactions[which][:place], transactions[which][place + 32:]
        ids = [twice(t) for t in transactions]
        self.branch = branch(ids, which)
        self.block_root = block_root(ids)

    def record(self):
        out = struct.pack('>QQQ', self.first, len(self.commitments), self.height) + self.block_root
        for part in self.prefix, self.suffix:
            out += struct.pack('>H', len(part)) + part
        return out + bytes([len(self.branch)]) + b''.join(bytes([side]) + other for side, other in self.branch)

    def way(self, i):
        """From the commitment with index i to the Merkle root of the block."""
        leaves = [sha256(c) for c in self.commitments]
        ops = [(0x08, None)] + path(leaves, i - self.first)
        ops += [(0xf1, self.prefix), (0xf0, self.suffix), (0x08, None), (0x08, None)]
        for side, other in self.branch:
            ops += [(0xf0 if side else 0xf1, other), (0x08, None), (0x08, None)]
        assert applied(ops, self.commitments[i - self.first]) == self.block_root
        return ops


def tip(first, commitments):
    return struct.pack('>QQ', first, len(commitments)) + root([sha256(c) for c in commitments])


def journal(entries):
    out = b'OTSCAL\x02\n'
    for kind, payload in entries:
        entry = bytes([kind]) + struct.pack('>I', len(payload)) + payload
        out += b'\xa5' + struct.pack('>HI', 1, len(entry)) + entry
    return out + b'\0'


def show(name, value):
    print(name, value.hex() if isinstance(value, bytes) else value)


def one_ticket():
    """A digest of 32 bytes 11 alone in its round, its tip, and the block of one transaction that holds it."""
    print('# one ticket, its tip, and a block of one transaction at height 7')
    tickets = [(b'\x11' * 32, NONCE)]
    made = commitment(SECOND, [leaf(*t) for t in tickets])
    holds = holding(root([sha256(made)]))
    anchored = block([holds])
    assert len(anchored) == 175
    anchor = Anchor(0, [made], [holds], 0, 7)
    assert (len(anchor.prefix), len(anchor.suffix), len(anchor.record())) == (58, 4, 123)
    stored = journal([(1, made), (2, tip(0, [made])), (3, anchor.record())])
    assert len(stored) == 260
    to_commitment = way(SECOND, tickets, 0)
    assert applied(to_commitment, tickets[0][0]) == made
    assert applied(to_commitment + anchor.way(0), tickets[0][0]) == anchor.block_root
    show('COMMITMENT', made)
    show('TIP_ROOT', anchor.root)
    show('BLOCK', anchored)
    show('BLOCK_ROOT', anchor.block_root)
    show('TICKET_TREE', spelled(to_commitment) + pending())
    show('COMPLETE', spelled(anchor.way(0)) + bitcoin(7))
    show('JOURNAL', stored)
    # the same after the first, at the next second
    later = commitment(SECOND + 1, [leaf(*t) for t in tickets])
    holds = holding(root([sha256(later)]))
    second = Anchor(1, [later], [holds], 0, 8)
    show('LATER', later)
    show('LATER_TIP_ROOT', second.root)
    show('LATER_BLOCK', block([holds]))
    show('LATER_COMPLETE', spelled(second.way(1)) + bitcoin(8))


def several():
    """Rounds of three and of one, a tip over one of them and one over both, and a block for each tip."""
    print('# two rounds, two tips and two blocks')
    tickets = [(b'\x01' * 32, b'\x0a' * 16), (b'\x02' * 20, b'\x0b' * 16), (b'\x03' * 64, b'\x0c' * 16)]
    first = commitment(SECOND, [leaf(*t) for t in tickets])
    alone = [(b'\x04', b'\x0d' * 16)]
    second = commitment(SECOND + 1, [leaf(*t) for t in alone])
    plain = [transaction(b'\x6a\x01' + bytes([n])) for n in range(4)]
    in_second = [plain[0], holding(root([sha256(first)])), plain[1]]
    both = root([sha256(first), sha256(second)])
    in_last = [plain[2], plain[3], plain[0], plain[1], holding(both)]
    early = Anchor(0, [first], in_second, 1, 800000)
    late = Anchor(0, [first, second], in_last, 4, 800001)
    show('FIRST', first)
    show('SECOND', second)
    show('THIRD_TICKET_TREE', spelled(way(SECOND, tickets, 2)) + pending())
    show('EARLY_BLOCK', block(in_second))
    show('EARLY_BLOCK_ROOT', early.block_root)
    show('EARLY_TIP_ROOT', early.root)
    show('SECOND_TIP_ROOT', sha256(second))
    show('LATE_BLOCK', block(in_last))
    show('LATE_BLOCK_ROOT', late.block_root)
    show('LATE_TIP_ROOT', late.root)
    show('FIRST_COMPLETE', spelled(early.way(0)) + bitcoin(800000))
    show('SECOND_COMPLETE', spelled(late.way(1)) + bitcoin(800001))


def full():
    """65,536 digests, each the 8 bytes of its number, high byte first."""
    print('# a full round')
    leaves = [leaf(struct.pack('>Q', n), NONCE) for n in range(65536)]
    show('FULL', commitment(SECOND, leaves))


def main():
    one_ticket()
    several()
    full()


main()
