#!/usr/bin/python3
"""Makes the transcript that the rows of the gateway are to have, with a plain model of the gateway.

    interop/gateway_rows.py [--write]

reads the script crates/ots_gateway_rows/stdin, whose language the head of that crate describes, and compares the
crate's stdout with what this model says of each line. With --write it writes that file. The program is compared with
the same file by `rt ci`. What `ots stamp` sends a gateway, and what it gets, is compared with the rows of the client,
which go on from there.

The model reads words, makes rounds, takes trees, prints, and counts the calls of the accepter, the links, the dialer,
the nonces and the sink, of which any may fail. Addresses, requests and replies are read by http_rows.py, trees and
pieces by client_rows.py, the tree over the digests of a round is that of stamps.py, and hashes are those of hashlib. It
runs nothing of this repository. It is run by hand, takes some seconds, and ends with status 1 at a difference.
"""

import os
import re
import sys

from calendar_model import Calls, Refused
from client_rows import Script, request_for_digest, texts_of, words_of
from http_rows import PHRASES, STATUSES, Dialer, Failed, Link, addresses, quoted, read_request, reply_head
from stamps import deepest, root, sha256, way
from upgrades import APPEND, SHA256, spelled

CRATE = os.path.join(os.path.dirname(os.path.dirname(os.path.abspath(__file__))), 'crates', 'ots_gateway_rows')

USAGE = Refused(2, 'usage: otsgate --calendars LIST --min M --port P --round K')
ACCEPT_FAULT = Refused(32, 'accept fault')
MOST_BYTES = 10_000
REFUSALS = {'400': 'bad request', '404': 'not found', '405': 'method not allowed', '411': 'length required',
            '413': 'too large'}
TOLD_ONE_BY_ONE = 32


# ---- words

# The greatest number that an option may have, where it has one; the least is 1.
OPTIONS = {'--calendars': None, '--min': 16, '--port': 65_535, '--round': 1024, '--accept': 2 ** 32 - 1}


def values_of(words):
    """The values of options. One may stand after `=`, none that stands by itself begins with a dash, and what comes
    after `--` is no option: nothing may."""
    values, rest = {}, list(words)
    while rest and rest != ['--']:
        name, equals, value = rest.pop(0).partition('=')
        if name not in OPTIONS or name in values:
            raise USAGE
        if not equals:
            if not rest or re.match('-.', rest[0]):
                raise USAGE
            value = rest.pop(0)
        values[name] = value
    return values


def number_of(word, most):
    if not re.fullmatch('[1-9][0-9]*', word) or int(word) > most:
        raise USAGE
    return int(word)


def read_words(words):
    """The list of calendars, and the numbers by the names of their options."""
    values = values_of(words)
    if not values.keys() >= OPTIONS.keys() - {'--accept'}:
        raise USAGE
    return values['--calendars'], {name: number_of(values[name], most)
                                   for name, most in OPTIONS.items() if most and name in values}


def read_calendars(text):
    found, bad = addresses(text.encode())
    if bad:
        _, _, place, https = bad.split()
        raise Refused(14, f'{"https is not supported" if https == "true" else "bad address"} at {place}')
    return found


# ---- links

class Client(Link):
    """A link whose reads and writes are counted together, and what it has taken."""

    def __init__(self, data, failing):
        super().__init__(data)
        self.calling, self.taken = Calls(failing), b''

    def call(self):
        if self.calling.fails():
            raise Failed

    def read(self, most):
        self.call()
        return super().read(most)

    def write(self, piece):
        self.call()
        self.taken += piece


def reply_in_words(words):
    status = STATUSES[words]
    body = words.encode() + b'\n'
    return reply_head(status, PHRASES[status], 'text/plain', len(body)) + body


# ---- rounds

class Waiting:
    """A digest that waits, its nonce and its link."""

    def __init__(self, link, digest, nonce):
        self.link, self.digest, self.nonce = link, digest, nonce
        self.leaf = sha256(digest + nonce)

    def tree_over(self, way_of_leaf, below):
        """The way from the digest to the root, and this tree below it."""
        tree = below
        for op in reversed([(APPEND, self.nonce), (SHA256, b''), *way_of_leaf]):
            tree = [('op', op, tree)]
        return tree


def length_of(way_of_leaf):
    """How many bytes a way has: two operations for each level, of which one has an argument of 32 bytes."""
    return 1 + 1 + 16 + 1 + len(way_of_leaf) // 2 * (1 + 1 + 32 + 1)


class Run:
    """A run of the gateway, and what came of it."""

    def __init__(self, words, on):
        self.accepter = Calls(on.failing['accepter'])
        self.coming = [Client(data, failing) for data, failing in on.links]
        self.accepted, self.given_back = 0, []
        self.nonces, self.draws = on.nonces, Calls(on.failing['nonces'])
        self.dialer = Dialer(on.replies, on.failing['dialer'])
        self.sink, self.text = Calls(on.failing['sink']), ''
        try:
            self.status = self.do(words)
        except Refused as refused:
            self.status = self.end(refused)

    def print(self, *lines):
        """Prints lines by one write. What the sink refuses ends the run without a word more."""
        if self.sink.fails():
            raise Refused(7, None)
        self.text += ''.join(line + '\n' for line in lines)

    def end(self, refused):
        try:
            if refused.line:
                self.print(refused.line)
            return refused.status
        except Refused:
            return 7

    def do(self, words):
        text, numbers = read_words(words)
        calendars = read_calendars(text)
        if self.accepter.fails():
            raise ACCEPT_FAULT
        self.print(f'listening {numbers["--port"]}')
        while True:
            links, end = self.accept(numbers['--round'], numbers.get('--accept'))
            if links:
                said, stamped = self.serve(links, calendars, numbers['--min'])
                self.given_back += links
                self.print(*said, f'round {stamped}')
            if end == 'fault':
                raise ACCEPT_FAULT
            if end == 'over':
                return 0

    def accept(self, most, until):
        """The links of a round, and whether the run is 'over' after it, ends by a 'fault', or goes on."""
        links = []
        while self.accepted != until:
            if len(links) == most:
                return links, None
            if self.accepter.fails():
                return links, 'fault'
            if not self.coming:
                return links, 'over'
            links.append(self.coming.pop(0))
            self.accepted += 1
        return links, 'over'

    def serve(self, links, calendars, least):
        """The lines of a round, and how many links are stamped."""
        waiting = [one for one in map(self.hear, links) if one]
        leaves = tuple(one.leaf for one in waiting)
        said, trees = self.ask(calendars, leaves) if leaves else ([], [])
        below = [item for tree in trees for item in tree] if len(trees) >= least else None
        stamped = 0
        for place, one in enumerate(waiting):
            tree = below and spelled(one.tree_over(way(leaves, place), below))
            assert tree is None or len(tree) <= MOST_BYTES
            head = tree and reply_head(200, 'OK', 'application/octet-stream', len(tree))
            try:
                one.link.write(head + tree if tree else reply_in_words('upstream'))
                stamped += tree is not None
            except Failed:
                pass
        return said, stamped

    def hear(self, link):
        """The digest of a link, where it sends one that can wait; anything else is answered at once."""
        try:
            request = read_request(link)
            word, _, rest = request.partition(' ')
            if word == 'digest':
                nonce = self.draw()
                if nonce:
                    return Waiting(link, bytes.fromhex(rest), nonce)
                link.write(reply_in_words('nonce'))
            elif word != 'closed':
                link.write(reply_in_words(REFUSALS[rest] if word == 'refused' else 'not found'))
        except Failed:
            pass
        return None

    def draw(self):
        if self.draws.fails() or len(self.nonces) < 16:
            return None
        nonce, self.nonces = self.nonces[:16], self.nonces[16:]
        return nonce

    def ask(self, calendars, leaves):
        """The line of each calendar, and the trees that are taken: each that fits below the longest way, after those
        that were taken before it and a byte between each two."""
        longest = max((way(leaves, place) for place in range(len(leaves))), key=len)
        assert deepest(len(leaves)) == 2 + len(longest)
        used, lines, taken = length_of(longest), [], []
        for address in calendars:
            said, tree = self.dialer.ask(address, request_for_digest(root(leaves)), 32, 2 + len(longest))
            said = 'ok' if tree else said.rstrip(';')
            if tree and used + len(spelled(tree)) > MOST_BYTES:
                said = 'too long'
            elif tree:
                used += len(spelled(tree)) + 1
                taken.append(tree)
            lines.append(f'{address[0].decode()} {said}')
        return lines, taken

    def told(self):
        taken = [link.taken for link in self.given_back]
        said = self.text.splitlines()
        said.append(f'= {self.status}, {self.accepted} accepted, {len(taken)} given back, {len(self.coming)} to come')
        said += [f'= took {quoted(data)}' for data in (taken if len(taken) <= TOLD_ONE_BY_ONE else [b''.join(taken)])]
        return said + [f'= sent {host} {port} {quoted(data)}' for host, port, data in self.dialer.sent]


# ---- the script

class On:
    """What the runs to come are done on. The faults are those of the next run alone."""

    def __init__(self):
        self.links, self.nonces, self.replies = [], b'', []
        self.forget()

    def forget(self):
        self.failing = {'accepter': [], 'dialer': [], 'nonces': [], 'sink': []}
        self.links = [(data, []) for data, _ in self.links]

    def fail(self, what, calls):
        number = re.fullmatch('link([1-9][0-9]*)', what)
        if number:
            place = int(number[1]) - 1
            self.links[place] = self.links[place][0], calls
        else:
            assert what in self.failing, what
            self.failing[what] = calls


class GatewayScript(Script):
    """The script of this crate, with the pieces of the client's."""

    def __init__(self):
        super().__init__()
        self.on, self.ran, self.block = On(), None, None

    def read(self, line):
        self.said.append(line)
        if line == 'end':
            (what, last, *lines), self.block = self.block, None
            self.each(what, int(last), lines)
        elif self.block is not None:
            self.block.append(line)
        elif line.startswith('each '):
            self.block = line.split()[1:]
        else:
            self.said += self.came(line)

    def came(self, line):
        """What came of a line."""
        if line.startswith('#'):
            return []
        if not line:
            self.on = On()
            return []
        word, *rest = words_of(line)
        if word == 'otsgate':
            self.ran = Run(list(texts_of(rest)), self.on)
            self.on.forget()
            return self.ran.told()
        if word in ('took', 'sent'):
            place, wanted = int(rest[0]) - 1, self.bytes_of(rest[1:])
            found = self.ran.given_back[place].taken if word == 'took' else self.ran.dialer.sent[place][2]
            return ['= so it is' if found == wanted else f'= no: {quoted(found)}']
        self.set(word, rest)
        return []

    def set(self, word, rest):
        if word == 'let':
            self.named[rest[0]] = self.bytes_of(rest[1:])
        elif word == 'link':
            self.on.links.append((self.bytes_of(rest), []))
        elif word == 'links':
            self.on.links += [(self.bytes_of(rest[1:]), [])] * int(rest[0])
        elif word == 'nonces':
            self.on.nonces = self.bytes_of(rest)
        elif word == 'reply':
            self.on.replies.append(self.bytes_of(rest))
        else:
            assert rest[0] == 'fails', word
            self.on.fail(word, list(map(int, rest[1:])))

    def each(self, what, last, lines):
        """Says what comes of lines where each call up to the last fails in turn, once for calls side by side."""
        spans = []
        for call in range(1, last + 1):
            came = self.once(what, call, lines)
            if spans and spans[-1][2] == came:
                spans[-1][1] = call
            else:
                spans.append([call, call, came])
        # The last call is not made any more, and no call after it.
        assert came == self.once(what, last + 1, lines), self.said[-len(lines) - 1]
        for first, end, came in spans:
            self.said += [f'= call {first}' if first == end else f'= calls {first} to {end}', *came]

    def once(self, what, call, lines):
        """What comes of lines where this call fails in the first run."""
        self.on.fail(what, [call])
        return [came for line in lines for came in self.came(line)]


def differs_from_the_clients(script):
    """Which of the bytes that stand in the rows of both are not the same: what `ots stamp` sends a gateway, and gets."""
    client = Script()
    with open(os.path.join(os.path.dirname(CRATE), 'ots_client_rows', 'stdin'), encoding='utf8') as lines:
        for line in lines:
            if line.startswith('let '):
                client.obey(line.rstrip('\n'))
    return [name for name in ('TO_GATEWAY', 'FROM_GATEWAY') if script.named[name] != client.named[name]]


def main():
    script = GatewayScript()
    with open(os.path.join(CRATE, 'stdin'), encoding='utf8') as lines:
        for line in lines:
            script.read(line.rstrip('\n'))
    for name in differs_from_the_clients(script):
        print(f'{name} has other bytes in the rows of the client')
        sys.exit(1)
    said = ''.join(line + '\n' for line in script.said)
    name = os.path.join(CRATE, 'stdout')
    if sys.argv[1:] == ['--write']:
        with open(name, 'w', encoding='utf8') as file:
            file.write(said)
        return
    with open(name, encoding='utf8') as file:
        kept = file.read().splitlines()
    differing = 0
    for number, (found, wanted) in enumerate(zip(kept + [''] * len(script.said), script.said), 1):
        if found != wanted:
            print(f'line {number}: {found}\n  is to be: {wanted}')
            differing += 1
    differing += abs(len(kept) - len(script.said))
    print(f'{len(script.said)} lines, {differing or "no"} difference{"s" if differing > 1 else ""}')
    sys.exit(1 if differing else 0)


if __name__ == '__main__':
    main()
