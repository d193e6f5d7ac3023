#!/usr/bin/python3
"""Makes the transcript that the rows of headers, blocks, trees, anchors and rounds are to have, with a plain model.

    interop/bitcoin_rows.py [--write]

reads the script crates/ots_bitcoin_rows/stdin, whose language the heads of that crate's modules describe, and compares
the crate's stdout with what this model says of each line. With --write it writes that file. The program is compared
with the same file by `rt ci`.

The model is hashlib, hmac and struct, a calendar's tree by its definition (a node is SHA-256 of its left and its right
part side by side, and the left part has the largest power of two of leaves that is below their number), and the reader
of blocks of calendar_model.py. That each path leads from its leaf to its root is tried beside. It runs nothing of this
repository. It is run by hand, takes some seconds, and ends with status 1 at a difference.
"""

import hmac
import os
import re
import struct
import sys

from calendar_model import Reader, Refused, applied, block_levels, branch_of, levels, sha256, spelled, twice

CRATE = os.path.join(os.path.dirname(os.path.dirname(os.path.abspath(__file__))), 'crates', 'ots_bitcoin_rows')
NAMES = {}
MOST_TABLE = 83886080
APPEND, PREPEND, SHA256 = 0xf0, 0xf1, 0x08


# ---- words

def bytes_of(text):
    out = b''
    for word in text.split():
        part, _, times = word.partition('*')
        name = re.fullmatch(r'\$(\w+)(?:\[(\d*)\.\.(\d*)\])?', part)
        if name:
            named = NAMES[name[1]]
            piece = named[int(name[2] or 0):int(name[3] or len(named))]
        else:
            piece = b'' if part == '-' else bytes.fromhex(part)
        out += piece * int(times or 1)
    return out


def pieces_of(text, length):
    data = bytes_of(text)
    assert len(data) % length == 0, text
    return [data[at:at + length] for at in range(0, len(data), length)]


def numbers_of(text):
    return [int(word) for word in text.split() if word != '-']


def asked(text):
    """The leaves of a tree, and those whose paths are asked for."""
    numbers, words = text.split(' | ')
    count, *indexes = numbers_of(numbers)
    leaves = pieces_of(words, 32)
    assert count <= len(leaves), text
    return leaves[:count], indexes


def chain(count, first):
    for _ in range(count):
        first = sha256(first + first)
        yield first


# ---- headers

def fields(header):
    version, previous, root, time, bits, nonce = struct.unpack('<I32s32sIII', header)
    return f'{version} {previous.hex()} {root.hex()} {time} {bits} {nonce}'


def table(first, heights, length, header_at):
    """What a table of so many bytes has at these heights."""
    if length == 0 or length % 80 or length > MOST_TABLE:
        return f'bad headers {min(length, MOST_TABLE + 1)}'
    told = [f'{first} {length // 80}']
    for height in heights:
        told.append(fields(header_at(height - first)) if first <= height < first + length // 80 else 'none')
    return ' '.join(told)


def reads(length, cuts):
    """How many reads a source takes to tell that there is no more: each gives as much as it is cut to."""
    count = 0
    while length > 0:
        length -= min(length, cuts[count]) if count < len(cuts) else length
        count += 1
    return count + 1


def about_header(question, text):
    if question == 'of':
        header = bytes_of(text)
        return f'{fields(header)} {header.hex()} {twice(header)[::-1].hex()}'
    if question == 'double':
        return twice(bytes_of(text)).hex()
    if question == 'zeros':
        count, first, heights = text.split(' | ')
        count = int(count)
        told = table(int(first), numbers_of(heights), count, lambda _: bytes(80))
        return f'{told} {max(count - MOST_TABLE - 1, 0)}'
    first, cuts, failing, heights, words = text.split(' | ')
    data = bytes_of(words)
    if 0 < int(failing) <= reads(len(data), numbers_of(cuts)):
        return 'read fault'
    return table(int(first), numbers_of(heights), len(data), lambda i: data[80 * i:80 * i + 80])


# ---- blocks

def fault_of(data):
    try:
        Reader(data).block()
        return 'a block'
    except Refused as refused:
        place, reason = re.fullmatch(r'bad block at (\d+): (.*)', refused.line).groups()
        return f'{reason} at {place}'


def block(data):
    if fault_of(data) != 'a block':
        return fault_of(data)
    root, transactions = Reader(data).block()
    told = [root.hex(), str(int.from_bytes(data[68:72], 'little')), str(len(transactions))]
    for transaction in transactions:
        told += [twice(transaction).hex(), transaction.hex()]
    return ' '.join(told)


def prefixes(data):
    told, last = [], None
    for length in range(len(data)):
        fault = fault_of(data[:length])
        if fault != last:
            told.append(f'{length} {fault}')
        last = fault
    return ' '.join(told)


def climbed(steps, value):
    for side, other in steps:
        value = twice(value + other if side else other + value)
    return value


def about_block(question, text):
    if question == 'of':
        return block(bytes_of(text))
    if question == 'prefixes':
        return prefixes(bytes_of(text))
    ids, indexes = asked(text)
    rising = list(block_levels(ids))
    (root,) = rising[-1]
    if question == 'root':
        return root.hex()
    told = []
    for i in indexes:
        steps = branch_of(rising, i)
        assert climbed(steps, ids[i]) == root, text
        told += [f'{"right" if side else "left"} {other.hex()}' for side, other in steps] + [';']
    return ' '.join(told)


# ---- calendars' trees

def half_of(leaves):
    """The leaves of the left part: the largest power of two of them that is below their number."""
    return 1 << (len(leaves) - 1).bit_length() - 1


def root_of(leaves):
    if len(leaves) == 1:
        return leaves[0]
    half = half_of(leaves)
    return sha256(root_of(leaves[:half]) + root_of(leaves[half:]))


def path_of(leaves, i):
    if len(leaves) == 1:
        return []
    half = half_of(leaves)
    if i < half:
        return path_of(leaves[:half], i) + [(APPEND, root_of(leaves[half:])), (SHA256, None)]
    return path_of(leaves[half:], i - half) + [(PREPEND, root_of(leaves[:half])), (SHA256, None)]


def path(leaves, i):
    steps = path_of(leaves, i)
    assert applied(steps, leaves[i]) == root_of(leaves)
    return steps


def told_steps(steps):
    return spelled(steps).hex() or '-'


def first_of(leaves, count):
    """The SHA-256 of the root over the first leaves and of the paths of all of them."""
    first = leaves[:count]
    return sha256(root_of(first) + b''.join(spelled(path(first, i)) for i in range(count))).hex()


def about_tree(question, text):
    leaves, indexes = asked(text)
    if question == 'first':
        first = leaves[:indexes[0]]
        root = root_of(first).hex() if first else 'none'
        return ' '.join([root] + [told_steps(path(first, i)) for i in indexes[1:]])
    if question == 'firsts':
        return ' '.join(first_of(leaves, count) for count in range(1, indexes[0] + 1))
    root = root_of(leaves).hex() if leaves else 'none'
    if leaves:
        # the same, level by level
        assert [root] == [top.hex() for top in list(levels(leaves))[-1]]
    count = str(len(leaves))
    told = {'root': [root], 'peaks': [root], 'path': [], 'paths': [count], 'growing': [count, root]}
    return ' '.join(told[question] + [told_steps(path(leaves, i)) for i in indexes])


# ---- anchors

def find(data, roots):
    """The first transaction of at most 4096 bytes that holds a root, the first place in it, and the last root there."""
    if fault_of(data) != 'a block':
        return fault_of(data)
    too_long = None
    for which, transaction in enumerate(Reader(data).block()[1]):
        places = [(transaction.find(root), -k) for k, root in enumerate(roots) if root in transaction]
        if places and len(transaction) > 4096:
            too_long = too_long or len(transaction)
        elif places:
            place, k = min(places)
            return f'{-k} {which} {place}'
    return f'transaction too long {too_long}' if too_long else 'no tip'


def anchor_path(text):
    i, commitments, before, after, words = text.split(' | ')
    commitments = pieces_of(commitments, 44)
    before, after = bytes_of(before), bytes_of(after)
    branch = [(side == 'right', bytes_of(other)) for side, _, other in (word.partition(':') for word in words.split())
              if other]
    leaves = [sha256(commitment) for commitment in commitments]
    doubled = [(SHA256, None)] * 2
    steps = [(SHA256, None)] + path(leaves, int(i))
    steps += [(PREPEND, before)] * bool(before) + [(APPEND, after)] * bool(after) + doubled
    for side, other in branch:
        steps += [(APPEND if side else PREPEND, other)] + doubled
    assert applied(steps, commitments[int(i)]) == climbed(branch, twice(before + root_of(leaves) + after))
    return told_steps(steps)


def about_anchor(question, text):
    if question == 'path':
        return anchor_path(text)
    data, roots = text.split(' | ')
    return find(bytes_of(data), pieces_of(roots, 32))


# ---- rounds

def round_of(text):
    numbers, key, *tickets = text.split(' | ')
    second, i = numbers_of(numbers)
    tickets = [(ticket[16:], ticket[:16]) for ticket in map(bytes_of, tickets) if 1 <= len(ticket) - 16 <= 64]
    leaves = [sha256(digest + nonce) for digest, nonce in tickets]
    signed = struct.pack('>I', second) + root_of(leaves)
    mac = hmac.digest(bytes_of(key), signed, 'sha256')[:8]
    digest, nonce = tickets[i]
    steps = [(APPEND, nonce), (SHA256, None)] + path(leaves, i) + [(PREPEND, signed[:4]), (APPEND, mac)]
    assert applied(steps, digest) == signed + mac
    return ' '.join([leaf.hex() for leaf in leaves] + [(signed + mac).hex(), told_steps(steps)])


def about_round(question, text):
    if question == 'of':
        return round_of(text)
    if question == 'key':
        length = len(bytes_of(text))
        return 'a key' if 1 <= length <= 64 else f'bad key of {length}'
    key, message = text.split(' | ')
    return hmac.digest(bytes_of(key), bytes_of(message), 'sha256').hex()


# ---- the transcript

ABOUT = {'header': about_header, 'block': about_block, 'tree': about_tree, 'anchor': about_anchor, 'round': about_round}


def transcript(script):
    for text in script.splitlines():
        yield text
        word, _, rest = text.partition(' ')
        question, _, rest = rest.partition(' ')
        if word == 'let':
            NAMES.setdefault(question, bytes_of(rest))
        elif word == 'chain':
            count, _, first = rest.partition(' ')
            NAMES.setdefault(question, b''.join(chain(int(count), bytes_of(first))))
        elif word not in ('', '#'):
            yield f'= {ABOUT[word](question, rest)}'.rstrip()


def main():
    with open(os.path.join(CRATE, 'stdin'), encoding='utf8') as script:
        made = list(transcript(script.read()))
    name = os.path.join(CRATE, 'stdout')
    if sys.argv[1:] == ['--write']:
        with open(name, 'w', encoding='utf8') as file:
            file.writelines(text + '\n' for text in made)
        return
    with open(name, encoding='utf8') as file:
        kept = file.read().splitlines()
    differences = [at for at, pair in enumerate(zip(made, kept)) if pair[0] != pair[1]]
    for at in differences[:20]:
        print(f'line {at + 1}: expected {made[at][:300]}\n      and found {kept[at][:300]}')
    if len(made) != len(kept):
        print(f'{len(made)} lines are expected, and there are {len(kept)}')
    print(f'{len(made)} lines, {len(differences)} differ')
    sys.exit(1 if differences or len(made) != len(kept) else 0)


if __name__ == '__main__':
    main()
