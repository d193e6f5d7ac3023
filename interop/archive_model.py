#!/usr/bin/python3
"""A plain model of `otsarchive`, with which its rows and its trials with random proofs are compared.

Sheets of requests and of replies, files of sums, drafts, and what replies make of proofs are modelled here; proofs are read,
brought to their canonical form and spelled as by client_rows.py, and the tree over several files is that of stamps.py. It
runs nothing of this repository.

A run is done on an `Outside` of client_rows.py: files, what is printed, and nonces, each with the calls that are to fail.
"""

import hashlib
import re

from client_rows import (End, Fault, MOST_BYTES, MOST_REPLY, arguments, canonical, heights, joined, number_in, pending_pairs,
                         read_number, read_proof, read_tree, spelled_proof, value)
from stamps import sha256, way
from upgrades import APPEND, BITCOIN, PENDING, SHA256, counted, paths

USAGE = 'usage: otsarchive draft, ask, take'
MOST_LINES, MOST_SHEET = 1_048_576, 268_435_456
MOST_NAMES, MOST_SUM_LINE = 65_536, 4_200
URL = r'https?://[A-Za-z0-9.-]{1,253}(:[1-9][0-9]{0,4})?'


# ---- texts

def is_url(text):
    form = re.fullmatch(URL, text)
    return bool(form) and not (form[1] and int(form[1][1:]) > 65535)


def urls(text):
    """The calendars of a list."""
    found, place = [], 0
    for piece in text.split(','):
        if not is_url(piece) or piece in found or len(found) == 16:
            raise End(14, f'bad address at {place}')
        found.append(piece)
        place += len(piece) + 1
    return found


ESCAPES = {b'\\': b'\\\\', b'\n': b'\\n', b'\r': b'\\r'}


def shown(name):
    """A name as sha256sum shows it."""
    spelled = re.sub(rb'[\\\n\r]', lambda found: ESCAPES[found[0]], name)
    return (b'\\' if spelled != name else b'') + spelled


def text_of(name):
    """A name as a line has it. What is not UTF-8 stays as it is."""
    return shown(name).decode('utf8', 'surrogateescape')


def sheet(lines):
    """Lines of bytes, in order, and the last one."""
    body = b''.join(line + b'\n' for line in lines)
    return body + b'sum %d %s\n' % (len(lines), hashlib.sha256(body).hexdigest().encode())


REQUEST = rb'(post|get) (' + URL.encode() + rb') ([0-9a-f]+)'
REPLY = re.compile(REQUEST + rb' (?:(200) ([0-9a-f]+)|([0-9]{3}) -)')


def reply_in(line):
    """The request's line and what came of it, status and body; or nothing."""
    form = REPLY.fullmatch(line)
    if not form or not is_url(form[2].decode()) or len(form[4]) % 2:
        return None
    length = len(form[4]) // 2
    if length != 32 if form[1] == b'post' else not 1 <= length <= 4096:
        return None
    request = b' '.join([form[1], form[2], form[4]])
    if form[5]:
        good = len(form[6]) % 2 == 0 and 2 <= len(form[6]) <= 2 * MOST_REPLY
        return (request, 200, bytes.fromhex(form[6].decode())) if good else None
    status = int(form[7])
    good = status == 0 or 100 <= status <= 599 and status != 200
    return (request, status, b'') if good else None


def replies_in(data):
    """The replies of a sheet, by the lines of their requests; or the number of its first bad line."""
    found, last, place = {}, b'', 0
    while True:
        number_of_line = len(found) + 1
        end = data.find(b'\n', place)
        line = data[place:end] if end >= 0 else None
        if line is not None and line == sheet_end(data[:place], len(found)):
            if end + 1 > MOST_SHEET or number_of_line > MOST_LINES:
                return None, number_of_line
            return (found, None) if end + 1 == len(data) else (None, number_of_line + 1)
        reply = None if line is None else reply_in(line)
        if reply is None or found and reply[0] <= last or end + 1 > MOST_SHEET or number_of_line > MOST_LINES:
            return None, number_of_line
        last = reply[0]
        found[last] = reply[1:]
        place = end + 1


def sheet_end(body, count):
    return b'sum %d %s' % (count, hashlib.sha256(body).hexdigest().encode())


def sums_in(data):
    """Digests and names; or the number of the first bad line."""
    found = []
    *lines, rest = data.split(b'\n')
    if not lines or rest:
        lines.append(None)
    for line in lines:
        number_of_line = len(found) + 1
        form = line is not None and re.fullmatch(rb'(\\?)([0-9a-f]{64}) [ *](.+)', line, re.DOTALL)
        if not form or len(line) >= MOST_SUM_LINE or number_of_line > MOST_LINES:
            return None, number_of_line
        name = name_in(form[3], bool(form[1]))
        if name is None:
            return None, number_of_line
        found.append((bytes.fromhex(form[2].decode()), name))
    return found, None


def name_in(spelled, is_escaped):
    """The name that is spelled, as sha256sum spells it and in no other way."""
    if b'\0' in spelled:
        return None
    if not is_escaped:
        return None if re.search(rb'[\\\n\r]', spelled) else spelled
    if not re.fullmatch(rb'(?:[^\\\n\r]|\\[\\nr])+', spelled):
        return None
    name = re.sub(rb'\\(.)', lambda found: {b'n': b'\n', b'r': b'\r', b'\\': b'\\'}[found[1]], spelled)
    return name if shown(name) == b'\\' + spelled else None


# ---- what a run is done on

def refused(status, words, name):
    """How a run ends that is refused for what has this name."""
    return End(status, f'{words} {text_of(name)}')


def bytes_under(out, name, given=None):
    """A file's bytes; a refusal is of the name as it was given."""
    try:
        return out.read(name)
    except End as end:
        raise refused(end.status, {4: 'no file', 6: 'read fault'}[end.status], given or name.encode()) from end


def sums_under(out, name):
    found, line = sums_in(bytes_under(out, name))
    if line is not None:
        raise End(41, f'bad sums line {line}')
    return found


def make(out, name, pieces):
    """Makes a file; whether it was not there."""
    try:
        out.make(name, pieces)
    except End as end:
        if end.status == 5:
            return False
        raise refused(7, 'write fault', name.encode()) from end
    return True


class Entry:
    """A proof that is named: by a word, or in a file of sums."""

    def __init__(self, name, is_listed):
        self.name, self.is_listed = name, is_listed

    def proof(self, out):
        if not self.is_listed:
            return self.named(out, self.name.decode())
        try:
            name = self.name.decode('utf8')
        except UnicodeDecodeError as error:
            raise refused(6, 'bad name', self.name) from error
        try:
            return self.named(out, name + '.draft')
        except End as end:
            if end.status != 4:
                raise
        return self.named(out, name + '.ots')

    def named(self, out, name):
        data = bytes_under(out, name, self.name)
        if len(data) > MOST_BYTES:
            raise refused(8, 'too big', self.name)
        try:
            return read_proof(data)
        except Fault as fault:
            raise End(3, f'bad proof {text_of(self.name)} at {fault.place}: {fault.words}') from fault

    def made(self, folder):
        last = self.name.rpartition(b'/')[2]
        last = last + b'.ots' if self.is_listed else re.sub(rb'\.draft$', b'.ots', last, flags=re.DOTALL)
        return folder.encode() + b'/' + last


def entries(out, given, options):
    if '--sums' not in options:
        return [Entry(name.encode(), False) for name in given]
    return [Entry(name, True) for _, name in sums_under(out, options['--sums'])]


# ---- drafts

def draft_of(digest, tree):
    """The operations of a draft, and its message; or nothing."""
    found = list(paths(tree))
    uris = [uri_of(payload) if kind == PENDING else '' for _, kind, payload in found]
    ops = list(found[0][0])
    if any(list(other) != ops for other, _, _ in found) or not all(uri[:5] == 'post:' and is_url(uri[5:]) for uri in uris):
        return None
    message = value(ops, digest)
    return (ops, message) if len(message) == 32 else None


def uri_of(payload):
    return payload[read_number(payload, 0)[1]:].decode()


def pending(uri):
    return ('end', PENDING, counted(uri.encode()))


def under(ops, tree):
    for op in reversed(ops):
        tree = [('op', op, tree)]
    return tree


def draft(out, words):
    given, options = names_or_sums(words, 0, {'calendars': True})
    calendars = urls(options['--calendars'])
    files = draft_files(out, given, options)
    nonces = [out.draw() for _ in files]
    leaves = tuple(sha256(digest + nonce) for (_, digest), nonce in zip(files, nonces))
    some_there = False
    for i, (name, digest) in enumerate(files):
        ops = [(APPEND, nonces[i]), (SHA256, b''), *way(leaves, i)]
        tree = canonical(under(ops, [pending('post:' + address) for address in calendars]))
        made = name.decode() + '.draft'
        there = not make(out, made, spelled_proof(SHA256, digest, tree))
        some_there |= there
        out.print([f'{"exists" if there else "wrote"} {text_of(made.encode())}'])
    return 5 if some_there else 0


def draft_files(out, given, options):
    if '--sums' not in options:
        return [(name.encode(), sha256(bytes_under(out, name))) for name in given]
    found = sums_under(out, options['--sums'])
    if len(found) > MOST_NAMES:
        raise End(41, f'bad sums line {MOST_NAMES + 1}')
    for _, name in found:
        try:
            name.decode('utf8')
        except UnicodeDecodeError as error:
            raise refused(6, 'bad name', name) from error
    return [(name, digest) for digest, name in found]


# ---- asking

def requests_of(proof, calendars, everything):
    """The lines of what a proof asks of calendars, and how many other pairs it has."""
    _, digest, tree = proof
    found, others = [], 0
    is_draft = draft_of(digest, tree) is not None
    if not is_draft and heights(tree, BITCOIN) and not everything:
        return [], 0
    for uri, message in pending_pairs(digest, tree):
        address = uri[5:] if is_draft else uri
        if address in calendars:
            found.append(f'{"post" if is_draft else "get"} {address} {message.hex()}'.encode())
        else:
            others += 1
    return found, others


def ask(out, words):
    (name, *given), options = names_or_sums(words, 1, {'calendars': True}, flags=['all'])
    calendars = urls(options['--calendars'])
    first, found, skipped = None, set(), 0
    for entry in entries(out, given, options):
        try:
            proof = entry.proof(out)
        except End as end:
            first = first or end.status
            out.print([end.line])
            continue
        requests, others = requests_of(proof, calendars, '--all' in options)
        found.update(requests)
        skipped += others
    text = sheet(sorted(found))
    if len(found) >= MOST_LINES or len(text) > MOST_SHEET:
        raise End(42, 'too many requests')
    if not make(out, name, [text]):
        out.print([f'exists {text_of(name.encode())}'])
        return first or 5
    asked = [line.split(b' ')[1].decode() for line in found]
    out.print([f'{address} asks {asked.count(address)}' for address in calendars] + [f'skipped {skipped}'])
    return first or 0


# ---- taking

def outcome(replies, kind, address, message, length, depth):
    """The tree that a calendar answered, if it is good."""
    status, body = replies.get(f'{kind} {address} {message.hex()}'.encode(), (0, b''))
    if status != 200:
        return None
    try:
        return read_tree(body, 0, length, depth)
    except Fault:
        return None


def counts(replies):
    """The line of each address."""
    found = {}
    for line, (status, body) in replies.items():
        kind, address, message = line.split(b' ')
        row = found.setdefault(address, [0, 0, 0])
        if status != 200:
            row[1] += 1
            continue
        try:
            read_tree(body, 0, len(message) // 2, 0)
            row[0] += 1
        except Fault:
            row[2] += 1
    return [f'{address.decode()} ok {row[0]} no {row[1]} bad {row[2]}' for address, row in sorted(found.items())]


def take(out, words):
    (name, *given), options = names_or_sums(words, 1, {'min': True, 'into': True})
    least = options['--min']
    named = entries(out, given, options)
    replies, line = replies_in(bytes_under(out, name))
    if line is not None:
        raise End(40, f'bad sheet at {line}')
    made = [entry.made(options['--into']) for entry in named]
    for i, one in enumerate(made):
        if one in made[:i]:
            raise refused(44, 'twice', one)
    out.print(counts(replies))
    ends = [taken(out, entry, to, replies, least) for entry, to in zip(named, made)]
    for status in ends:
        if status in (3, 4, 6, 8):
            return status
    return next((status for status in (10, 5, 1) if status in ends), 0)


def taken(out, entry, to, replies, least):
    """What becomes of one proof: a status, and its line is printed."""
    try:
        return taken_proof(out, entry, to, replies, least)
    except End as end:
        if end.status not in (3, 4, 6, 8, 10):
            raise
        out.print([end.line])
        return end.status


def taken_proof(out, entry, to, replies, least):
    tag, digest, tree = entry.proof(out)
    found = draft_of(digest, tree)
    if found:
        ops, message = found
        trees = [outcome(replies, 'post', uri[5:], message, 32, len(ops)) for uri, _ in pending_pairs(digest, tree)]
        good = [one for one in trees if one]
        if len(good) < least:
            raise refused(10, f'too few {len(good)} of {least}', entry.name)
        made = canonical(under(ops, [item for one in good for item in one]))
    else:
        answers = {(uri, message): outcome(replies, 'get', uri, message, len(message), depth)
                   for (uri, message), depth in pending_pairs(digest, tree).items()}
        made = joined(digest, tree, answers)
    complete = bool(heights(made, BITCOIN))
    words = 'complete' if complete else 'pending'
    pieces = spelled_proof(tag, digest, made)
    if sum(map(len, pieces)) > MOST_BYTES:
        raise refused(8, 'too big', entry.name)
    if not found and made == canonical(tree):
        out.print([f'same {text_of(entry.name)} {words}'])
        return 0 if complete else 1
    if not make(out, to.decode(), pieces):
        out.print([f'exists {text_of(to)}'])
        return 5
    out.print([f'wrote {text_of(to)} {words}'])
    return 0 if complete or found else 1


# ---- words

def names_or_sums(words, places, options, flags=()):
    """The values of the words of a command, by place and by option: it has names, or a file of sums in their place."""
    options = {**options, 'sums': False, **dict.fromkeys(flags, False)}
    try:
        given, values = arguments(with_values(words, flags), places, options, several=True)
        least = number_in(values['--min'], 1, 16) if '--min' in values else None
    except End as end:
        raise End(2, USAGE) from end
    few = len(given) - places <= MOST_NAMES
    if not few or (len(given) > places) == ('--sums' in values) or '' in (values.get('--sums'), values.get('--into')):
        raise End(2, USAGE)
    return given, {**values, '--min': least}


def with_values(words, flags):
    """The words, with an empty value at each flag. A flag takes none of its own."""
    end = words.index('--') if '--' in words else len(words)
    if any(word.startswith(f'--{flag}=') for word in words[:end] for flag in flags):
        raise End(2, USAGE)
    return [word + '=' if word[2:] in flags and word[:2] == '--' else word for word in words[:end]] + words[end:]


COMMANDS = {'draft': draft, 'ask': ask, 'take': take}


def run(out, words):
    """The number that a run ends with."""
    try:
        try:
            if not words or words[0] not in COMMANDS:
                raise End(2, USAGE)
            return COMMANDS[words[0]](out, words[1:])
        except End as end:
            if end.line is not None:
                out.print([end.line])
            return end.status
    except End as end:
        return end.status
