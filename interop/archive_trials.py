#!/usr/bin/python3
"""Tries `otsarchive` on random proofs, drafts and sheets.

    interop/archive_trials.py [PROOFS [SHEETS]]

where no numbers are given 1,000 and 100,000 are taken.

proofs    PROOFS random proofs with pending attestations of three calendars, and what these answer: a tree, one that is cut
          or has a byte after it, that of another message, a status, or nothing. What `otsarchive take` makes by a sheet
          of these answers is compared, byte for byte, with what `ots upgrade` makes when the calendars send them. Where
          `take` tells that a proof is the same, `ots upgrade` is to write its canonical form.
drafts    as many times 1 to 4 files: drafts of them are made, a sheet of what is asked, and proofs by a sheet of answers;
          these proofs are compared with what `ots stamp` makes with the same nonces and answers.
sheets    SHEETS sheets of replies, each a good one in which bytes or lines were changed, half of them with the right
          sum of what is there then. Each is taken exactly where it is how its replies are spelled, and what is told of
          one that is not taken, and of what was taken, is compared.

It drives the programs of crates/ots_archive_rows and crates/ots_client_rows, as `./run` builds them in build/. All
that they answer is compared with the models of archive_model.py and client_rows.py too. It prints how often each came, and
ends with status 1 at a difference. It is run by hand, and takes some minutes.
"""

import collections
import os
import random
import subprocess
import sys

import archive_model
from archive_rows import ArchiveScript
from client_rows import PENDING, SHA256, Script, canonical, pending_pairs, spelled_proof
from stamps import root, sha256
from upgrades import BITCOIN, OTHER, counted, number, some_tree, spelled

BUILD = os.path.join(os.path.dirname(os.path.dirname(os.path.abspath(__file__))), 'build')

CALENDARS = ['http://a.example', 'http://b.example:8080', 'http://c.example']
OTHERS = ['https://d.example', 'http://later.example']
MOST_CONVERSATIONS = 16
SHEETS_A_RUN = 20_000

# So long a file makes room for each one that is made.
ROOM = 'file room 00*20000'


# ---- the programs

class Driver:
    """A program that runs rows, its model, and the lines for both."""

    def __init__(self, crate, model):
        self.program = os.path.join(BUILD, crate)
        if not os.access(self.program, os.X_OK):
            sys.exit(f'{self.program} is not there: ./run {crate} < /dev/null builds it')
        self.model, self.lines = model, []

    def read(self, *lines):
        """What the model says of these lines."""
        self.lines += lines
        before = len(self.model.said)
        for line in lines:
            self.model.read(line)
        return self.model.said[before:]

    def compare(self):
        """Runs the program on all lines, and ends this script at the first answer that is not the model's."""
        done = subprocess.run([self.program], input=''.join(line + '\n' for line in self.lines), stdout=subprocess.PIPE,
                              encoding='utf8', check=False)
        found, wanted = done.stdout.split('\n'), [*self.model.said, '']
        if done.returncode or found != wanted:
            at = next((i for i, pair in enumerate(zip(found, wanted)) if pair[0] != pair[1]), min(len(found), len(wanted)))
            print(f'{self.program}, status {done.returncode}, differs at line {at + 1}:', *wanted[max(0, at - 8):at], sep='\n  ')
            sys.exit(f'  found {found[at:at + 1]}, wanted {wanted[at:at + 1]}')


def archive():
    return Driver('ots_archive_rows', ArchiveScript())


def client():
    return Driver('ots_client_rows', Script())


def status_of(said):
    """The number that the last run in what was said ended with."""
    return next(line for line in reversed(said) if line.startswith('= ')).split()[1].rstrip(',')


# ---- what calendars answer

def some_bytes(rng, count):
    return bytes(rng.randrange(256) for _ in range(count))


def some_answer(rng):
    """A kind of answer, and its body where it has one."""
    ends = [(BITCOIN, number(rng.randrange(900_000))), (OTHER, b'x'), (PENDING, counted(b'http://later.example'))]
    body = spelled(some_tree(rng, ends, 3))
    kind = rng.choice(['good'] * 6 + ['longer', 'cut', 'other', 'status', 'nothing', 'absent'])
    if kind == 'longer':
        return kind, body + b'\0'
    if kind == 'cut':
        return kind, body[:rng.randrange(1, len(body))]
    return kind, body


def line_of(word, address, message, answer):
    """The line of a sheet of replies for an answer, or none."""
    kind, body = answer
    if kind == 'absent':
        return []
    if kind == 'other':
        message = sha256(b'another' + message)
    request = f'{word} {address} {message.hex()}'
    return [f'{request} {dict(status="503 -", nothing="000 -").get(kind, f"200 {body.hex()}")}'.encode()]


def sent_as(answer):
    """What a calendar sends for an answer."""
    kind, body = answer
    if kind == 'nothing':
        return b''
    if kind in ('other', 'absent', 'status'):
        code = b'503 Service Unavailable' if kind == 'status' else b'404 Not Found'
        return b'HTTP/1.1 %s\r\nContent-Length: 0\r\n\r\n' % code
    return b'HTTP/1.1 200 OK\r\nContent-Length: %d\r\n\r\n%s' % (len(body), body)


def dials(answers):
    """The lines that say what is sent in each conversation, in order."""
    return [f'dial {i} {sent_as(answer).hex()}' for i, answer in enumerate(answers)]


# ---- proofs

def some_proof(rng):
    """A digest, and a tree with at most as many pairs of an address and a message as a run has conversations."""
    digest = some_bytes(rng, 32)
    ends = [(PENDING, counted(uri.encode())) for uri in CALENDARS * 3 + OTHERS]
    ends += [(BITCOIN, number(rng.randrange(900_000))), (OTHER, b'y')] if rng.random() < 0.2 else []
    while True:
        tree = some_tree(rng, ends, 4)
        if len(pending_pairs(digest, tree)) <= MOST_CONVERSATIONS:
            return digest, tree


def try_proofs(count):
    rng = random.Random('proofs')
    ours, other, ended = archive(), client(), collections.Counter()
    for _ in range(count):
        digest, tree = some_proof(rng)
        pairs = [pair for pair in pending_pairs(digest, tree) if pair[0] in CALENDARS]
        answers = [some_answer(rng) for _ in pairs]
        lines = {line for (uri, message), answer in zip(pairs, answers) for line in line_of('get', uri, message, answer)}
        proof = b''.join(spelled_proof(SHA256, digest, tree)).hex()
        sheet = archive_model.sheet(in_order(lines)).hex()
        said = ours.read('clear', ROOM, f'file p {proof}', f'file r {sheet}', 'output d/p', 'otsarchive take --min 1 --into d r p')
        upgraded = other.read('clear', ROOM, f'file p {proof}', *dials(answers), f'ots upgrade --calendars {",".join(CALENDARS)} p o')
        made, written = ours.model.made.get('d/p'), other.model.made['o']
        if (made or b''.join(spelled_proof(SHA256, digest, canonical(tree)))) != written or status_of(said) != status_of(upgraded):
            sys.exit(f'the models differ: {proof}')
        if made:
            ours.read(f'made d/p {written.hex()}')
        other.read(f'made o {written.hex()}')
        ended['made' if made else 'the same'] += 1
    ours.compare()
    other.compare()
    print(f'{count} proofs: {told(ended)}')


def in_order(lines):
    """Lines of replies in the order of their requests, of which each stands once."""
    by_request = {line.rsplit(b' ', 2)[0]: line for line in sorted(lines)}
    return [by_request[request] for request in sorted(by_request)]


# ---- drafts

def try_drafts(count):
    rng = random.Random('drafts')
    ours, other, ended = archive(), client(), collections.Counter()
    for _ in range(count):
        names = ['a', 'b', 'c', 'd'][:rng.randrange(1, 5)]
        calendars = rng.sample(CALENDARS, rng.randrange(1, 4))
        there = ['clear', ROOM]
        contents = [some_bytes(rng, rng.randrange(1, 40)) for _ in names]
        there += [f'file {name} {content.hex()}' for name, content in zip(names, contents)]
        nonces = [some_bytes(rng, 16) for _ in names]
        there.append(f'nonces {b"".join(nonces).hex()}')
        message = root(tuple(sha256(sha256(content) + nonce) for content, nonce in zip(contents, nonces)))
        answers, least = [some_answer(rng) for _ in calendars], rng.randrange(1, 4)
        lines = {line for uri, answer in zip(calendars, answers) for line in line_of('post', uri, message, answer)}
        drafts = [f'{name}.draft' for name in names]
        said = ours.read(*there, f'output {" ".join(drafts)}',
                         f'otsarchive draft --calendars {",".join(calendars)} {" ".join(names)}', 'keep', 'output s',
                         f'otsarchive ask --calendars {",".join(calendars)} s {" ".join(drafts)}')
        asked = archive_model.sheet(sorted(f'post {uri} {message.hex()}'.encode() for uri in calendars))
        ours.read(f'made s {asked.hex()}', f'file r {archive_model.sheet(in_order(lines)).hex()}',
                  f'output {" ".join(f"n/{name}.ots" for name in names)}')
        said = ours.read(f'otsarchive take --min {least} --into n r {" ".join(drafts)}')
        stamped = other.read(*there, *dials(answers),
                             f'ots stamp --calendars {",".join(calendars)} --min {least} {" ".join(names)}')
        made = {name: ours.model.made.get(f'n/{name}.ots') for name in names}
        if made != {name: other.model.made.get(f'{name}.ots') for name in names} or status_of(said) != status_of(stamped):
            sys.exit(f'the models differ: {there}')
        for name, proof in made.items():
            if proof:
                ours.read(f'made n/{name}.ots {proof.hex()}')
                other.read(f'made {name}.ots {proof.hex()}')
        ended['made' if made['a'] else 'too few'] += 1
    ours.compare()
    other.compare()
    print(f'{count} batches of drafts: {told(ended)}')


# ---- sheets

MESSAGE = sha256(b'a message')
PROOF = b''.join(spelled_proof(SHA256, MESSAGE, [('end', PENDING, counted(CALENDARS[0].encode()))]))
SIGNS = b'0123456789abcdefABF \n\r-:/.,+gpostxhum\0\xff'


def some_sheet(rng):
    """A good sheet of replies."""
    lines = set()
    for _ in range(rng.choice([0, 1, 1, 2, 2, 3, 4])):
        post, address = rng.random() < 0.4, rng.choice(CALENDARS + OTHERS)
        message = rng.choice([MESSAGE, some_bytes(rng, 32 if post else rng.randrange(1, 4))])
        lines.update(line_of('post' if post else 'get', address, message, some_answer(rng)))
    return archive_model.sheet(in_order(lines))


def changed(rng, data):
    """A sheet in which bytes or lines were changed, with the sum that it had or the right one."""
    for _ in range(rng.choice([1, 1, 1, 2, 3])):
        data = rng.choice([with_bytes_changed, with_lines_changed])(rng, data)
    if rng.random() < 0.5:
        data = archive_model.sheet(data.split(b'\n')[:-2])
    return data


def with_bytes_changed(rng, data):
    """A byte or some are another, are gone or are there twice, or the rest is gone."""
    at = rng.randrange(len(data) + 1)
    end = min(len(data), at + rng.choice([0, 1, 1, 1, 2, 5]))
    kind = rng.randrange(8)
    if kind < 5:
        sign = bytes([rng.choice(SIGNS)])
        return data[:at] + sign + data[end:]
    if kind < 6:
        return data[:at] + data[end:]
    return data[:end] + data[at:] if kind < 7 else data[:at]


def with_lines_changed(rng, data):
    """Two lines stand in each other's place, or one is gone, is there twice, or stands elsewhere."""
    lines = data.split(b'\n')
    one, other = rng.randrange(len(lines)), rng.randrange(len(lines))
    kind = rng.randrange(4)
    if kind == 0:
        lines[one], lines[other] = lines[other], lines[one]
    elif kind == 1:
        del lines[one]
    elif kind == 2:
        lines.insert(one, lines[one])
    else:
        lines.insert(other, lines.pop(one))
    return b'\n'.join(lines)


def is_spelled(data):
    """Whether a sheet is how its replies are spelled, as far as the model takes it."""
    replies, line = archive_model.replies_in(data)
    if line is not None:
        return False
    lines = [b'%s 200 %s' % (request, body.hex().encode()) if status == 200 else b'%s %03d -' % (request, status)
             for request, (status, body) in replies.items()]
    if archive_model.sheet(lines) != data or sorted(replies) != list(replies):
        sys.exit(f'the model takes what is not spelled so: {data}')
    return True


def try_sheets(count):
    rng = random.Random('sheets')
    ended = collections.Counter()
    for first in range(0, count, SHEETS_A_RUN):
        ours = archive()
        ours.read(ROOM, f'file p {PROOF.hex()}', 'output d/p')
        for _ in range(min(SHEETS_A_RUN, count - first)):
            data = changed(rng, some_sheet(rng))
            said = ours.read(f'file r {data.hex()}', 'otsarchive take --min 1 --into d r p')
            ended['taken' if is_spelled(data) else 'refused'] += 1
            if (status_of(said) != '40') != is_spelled(data):
                sys.exit(f'the model takes, or refuses, {data}')
        ours.compare()
    print(f'{count} sheets: {told(ended)}')


def told(ended):
    return ', '.join(f'{count} {kind}' for kind, count in sorted(ended.items()))


def main():
    proofs, sheets = [*map(int, sys.argv[1:]), *[1_000, 100_000][len(sys.argv) - 1:]]
    try_proofs(proofs)
    try_drafts(proofs)
    try_sheets(sheets)


if __name__ == '__main__':
    main()
