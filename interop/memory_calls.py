#!/usr/bin/python3
"""Counts the calls by which `ots verify` takes memory, and sees that each proof has the same.

    interop/memory_calls.py [PROGRAM]

runs `ots verify` over a preloaded library that counts the calls of malloc, calloc and realloc, the
bytes that they ask for, and the most bytes that are held at once. The proofs have up to 4,194,304
bytes: paths side by side, long chains of operations, nested forks, long arguments, attestations of
every kind. Each is read as it is, through a pipe, beside headers and a target that are not its own,
cut off, with a wrong tag, with another first byte, with a byte after it, and twice. The other files
have the same names and lengths in all runs, so that nothing but the proof varies.

Runs that answer the same, but for a number, must have the same counts, however long the proof is
and whatever is in it; and from the first read of the proof until it is closed no run may take
memory. It prints a line for each run, names each that is not as it is to be, and ends with status 1
where there is one. A program that imports other calls which take memory is refused, and one that is
linked statically. What the C library asks of the system for itself is not counted.

PROGRAM is build/ots where none is named (`./run ots` builds it). It is run by hand, takes a minute
or two, and needs cc and nm.
"""

import fcntl
import os
import re
import struct
import subprocess
import sys
import tempfile
import threading

from plain import BITCOIN, LITECOIN, MAGIC, PENDING, hashed, number

TOP = os.path.dirname(os.path.dirname(os.path.abspath(__file__)))
MOST = 4_194_304
SIZES = [1_024, 65_536, 65_537, 1_048_576, MOST]
UNKNOWN = bytes.fromhex('0102030405060708')
F_SETPIPE_SZ = 1031
THROUGH_A_PIPE = 'through a pipe'
NOT_COUNTED = {'aligned_alloc', 'brk', 'memalign', 'mmap', 'mmap64', 'mremap', 'posix_memalign',
               'pvalloc', 'sbrk', 'syscall', 'valloc'}

# Before each block stands how long it is. The counts lie in a file that the library maps, so that
# they are there however the program ends.
LIBRARY = r'''
#define _GNU_SOURCE
#include <dlfcn.h>
#include <fcntl.h>
#include <stdarg.h>
#include <stdlib.h>
#include <string.h>
#include <sys/mman.h>
#include <unistd.h>

enum { BEFORE = 16 };
static struct counts { long calls, bytes, held, most, reads, meanwhile; } early, *counts = &early;
static int proof = -1, is_read;

extern void *__libc_malloc(size_t);
extern void *__libc_realloc(void *, size_t);
extern void __libc_free(void *);

__attribute__((constructor)) static void begin(void) {
    int file = open(getenv("COUNTS"), O_RDWR | O_CLOEXEC);
    void *place = mmap(NULL, sizeof early, PROT_READ | PROT_WRITE, MAP_SHARED, file, 0);
    if (file < 0 || place == MAP_FAILED) abort();
    counts = memcpy(place, &early, sizeof early);
    close(file);
}

static void count(size_t size) {
    counts->calls++;
    counts->bytes += size;
    counts->meanwhile += is_read;
}

static void hold(long size) {
    counts->held += size;
    if (counts->held > counts->most) counts->most = counts->held;
}

static size_t *start_of(void *block) {
    return (size_t *)((char *)block - BEFORE);
}

static void *block_at(size_t *start, size_t size) {
    if (!start) return NULL;
    *start = size;
    hold(size);
    return (char *)start + BEFORE;
}

void *malloc(size_t size) {
    count(size);
    return block_at(__libc_malloc(size + BEFORE), size);
}

void *calloc(size_t many, size_t size) {
    size_t all;
    if (__builtin_mul_overflow(many, size, &all)) return NULL;
    void *block = malloc(all);
    return block ? memset(block, 0, all) : NULL;
}

void *realloc(void *block, size_t size) {
    if (!block) return malloc(size);
    count(size);
    size_t old = *start_of(block);
    size_t *start = __libc_realloc(start_of(block), size + BEFORE);
    if (start) hold(-(long)old);
    return block_at(start, size);
}

void free(void *block) {
    if (!block) return;
    hold(-(long)*start_of(block));
    __libc_free(start_of(block));
}

int open(const char *name, int flags, ...) {
    static int (*real)(const char *, int, ...);
    va_list more;
    if (!real) real = dlsym(RTLD_NEXT, "open");
    va_start(more, flags);
    int file = real(name, flags, flags & (O_CREAT | O_TMPFILE) ? va_arg(more, int) : 0);
    va_end(more);
    if (!strcmp(name, "proof")) proof = file;
    return file;
}

ssize_t read(int file, void *buffer, size_t size) {
    static ssize_t (*real)(int, void *, size_t);
    if (!real) real = dlsym(RTLD_NEXT, "read");
    if (file >= 0 && file == proof) {
        is_read = 1;
        counts->reads++;
    }
    return real(file, buffer, size);
}

int close(int file) {
    static int (*real)(int);
    if (!real) real = dlsym(RTLD_NEXT, "close");
    if (file == proof) proof = -1, is_read = 0;
    return real(file);
}
'''


# ---- proofs

def sized(data):
    return number(len(data)) + data


def attestation(kind, payload):
    return b'\x00' + kind + sized(payload)


def block(turn):
    """An attestation of a block that is not among the headers."""
    return attestation(BITCOIN, number(100_000 + turn))


def side_by_side(turn, _):
    """A path of two operations."""
    return b'\xf0' + sized(turn.to_bytes(8, 'big')) + b'\x08' + block(turn)


def chain(turn, room):
    """A path of up to 255 operations of one byte."""
    return (b'\x08\xf2\x02\xf3\x03' * 51)[:room - 20] + block(turn)


def nested(turn, room):
    """Nodes below each other, up to 257 of them open at once with the root."""
    below = min(254, (room - 28) // 15)
    return b'\x08' + b'\xff\x08' * below + b'\xff' + (below + 2) * block(turn % 1_000)


def arguments(turn, room):
    """A path of up to 254 operations, of which every second one has up to 4,064 bytes."""
    pair = b'\xf0' + sized(bytes([turn % 256]) * min(4_064, room - 24)) + b'\x08'
    return pair * min(127, (room - 20) // len(pair)) + block(turn)


def attestations(turn, room):
    """One attestation, of up to 8,203 bytes."""
    uri = (b'http://' + b'a' * 993)[:turn * 37 % 1_001]
    item = [attestation(PENDING, sized(uri)), block(turn), attestation(LITECOIN, number(turn)),
            attestation(UNKNOWN, bytes(turn * 1_237 % 8_193))][turn % 4]
    return item if len(item) <= room else block(turn)


# The forms of proofs: the hash of the target, and what makes an item of the root in so much room.
FORMS = {'paths side by side': (0x08, side_by_side), 'chains': (0x08, chain),
         'nested forks': (0x02, nested), 'long arguments': (0x08, arguments),
         'attestations': (0x03, attestations)}
HEIGHTS = {0x08: 7, 0x02: 8, 0x03: 9}


def filled(room):
    """Last items of a root that fill this room, of 150 bytes at least."""
    out = b''
    while room > 5_000:
        out += b'\xff' + attestation(UNKNOWN, bytes(4_000))
        room -= 4_012
    return out + attestation(UNKNOWN, bytes(room - 11))


def proof_of(target, tag, item, size):
    """A proof of this size whose first path is confirmed, and the place of one of its tags, the
    last that begins an item of the root in the first half."""
    first = b'\xff\x08' + attestation(BITCOIN, number(HEIGHTS[tag]))
    parts = [MAGIC + b'\x01' + bytes([tag]) + hashed(tag, target) + first]
    length, turn, place = len(parts[0]), 0, None
    while size - length > 300:
        part = b'\xff' + item(turn, size - length - 200)
        if length <= size // 2:
            place = length
        parts.append(part)
        length, turn = length + len(part), turn + 1
    proof = b''.join(parts) + filled(size - length)
    assert len(proof) == size
    return proof, place


# ---- runs

# Answers: the status, and what is printed, with N for a number.
YES, NO_PATH, NO_DIGEST = (0, 'yes block N time N\n'), (1, 'no path\n'), (1, 'no digest\n')
CUT_OFF, WRONG_TAG, NO_PROOF, TRAILING = (
    (3, f'bad proof proof at N: {why}\n')
    for why in ('truncated', 'unknown operation', 'bad magic', 'trailing bytes'))
TOO_BIG = (8, 'too big proof\n')


class Program:
    """The program over the library, in a folder with the files beside the proof."""

    def __init__(self, path, folder):
        self.path, self.folder = os.path.abspath(path), folder
        listed = subprocess.run(['nm', '-D', '--undefined-only', self.path], capture_output=True,
                                encoding='utf8', check=True).stdout
        imported = set(re.findall(r' U (\w+)', listed))
        if 'malloc' not in imported or imported & NOT_COUNTED:
            others = ', '.join(sorted(imported & NOT_COUNTED))
            sys.exit(f'{path} imports {others or "no malloc"}: its calls are not all counted')
        self.put('calls.c', LIBRARY.encode())
        subprocess.run(['cc', '-shared', '-fPIC', '-O1', '-fno-builtin', '-o', 'calls.so',
                        'calls.c', '-ldl'], cwd=folder, check=True)

    def name(self, name):
        return os.path.join(self.folder, name)

    def put(self, name, data):
        with open(self.name(name), 'wb') as out:
            out.write(data)

    def pour(self, proof):
        """Writes the proof into a pipe of 4,096 bytes, once the program reads there."""
        with open(self.name('proof'), 'wb') as out:
            fcntl.fcntl(out, F_SETPIPE_SZ, 4_096)
            out.write(proof)

    def verify(self, proof, target, headers, is_piped):
        """The status, what is printed, the counts, how often the proof was read, and how many calls
        took memory meanwhile."""
        if os.path.exists(self.name('proof')):
            os.remove(self.name('proof'))
        if is_piped:
            os.mkfifo(self.name('proof'))
            threading.Thread(target=self.pour, args=[proof], daemon=True).start()
        else:
            self.put('proof', proof)
        self.put('counts', bytes(48))
        words = ['verify', target, 'proof', headers, '--from', '7', '--litecoin', headers,
                 '--litecoin-from', '7']
        env = dict(os.environ, LD_PRELOAD=self.name('calls.so'), COUNTS=self.name('counts'))
        done = subprocess.run([self.path] + words, cwd=self.folder, env=env, timeout=600,
                              stdout=subprocess.PIPE, stderr=subprocess.STDOUT, check=False)
        with open(self.name('counts'), 'rb') as file:
            calls, size, _, most, reads, meanwhile = struct.unpack('6q', file.read())
        return done.returncode, done.stdout.decode(), (calls, size, most), reads, meanwhile


class Runs:
    """The runs, each beside the first one with the same answer."""

    def __init__(self, program):
        self.program, self.first, self.count, self.wrong = program, {}, 0, 0

    def run(self, name, proof, target, headers, wanted):
        is_piped = name.endswith(THROUGH_A_PIPE)
        done = self.program.verify(proof, target, headers, is_piped)
        status, text, counts, reads, meanwhile = done
        if not counts[0] or not reads:
            sys.exit(f'{name}: nothing was counted, status {status}, {text!r}')
        cells = [name, len(proof), status, reads, *counts]
        print('|', ' | '.join(map(str, cells)), '|', flush=True)
        first, same = self.first.setdefault(wanted, (f'{name}, {len(proof)} bytes', counts))
        found = []
        if (status, re.sub('[0-9]+', 'N', text)) != wanted:
            found.append(f'it says {text!r}')
        if meanwhile:
            found.append(f'{meanwhile} calls take memory while the proof is read')
        if counts != same:
            found.append(f'the counts of "{first}" are ' + ', '.join(map(str, same)))
        if found:
            print(f'{name}, {len(proof)} bytes: NOT AS IT IS TO BE:', '; '.join(found), flush=True)
        self.count, self.wrong = self.count + 1, self.wrong + bool(found)


def changed(proof, place):
    """What a proof is changed to: a name, the bytes, the target and headers with it, the answer."""
    after = TRAILING if len(proof) < MOST else TOO_BIG
    yield 'as it is', proof, 'own', 'known', YES
    yield THROUGH_A_PIPE, proof, 'own', 'known', YES
    yield 'other headers', proof, 'own', 'other', NO_PATH
    yield 'another target', proof, 'new', 'known', NO_DIGEST
    yield 'the last byte cut off', proof[:-1], 'own', 'known', CUT_OFF
    yield 'the second half cut off', proof[:len(proof) // 2], 'own', 'known', CUT_OFF
    yield 'a wrong tag', proof[:place] + b'\x55' + proof[place + 1:], 'own', 'known', WRONG_TAG
    yield 'another first byte', b'\x01' + proof[1:], 'own', 'known', NO_PROOF
    yield 'a byte after it', proof + b'\x00', 'own', 'known', after
    yield 'twice', proof + proof, 'own', 'known', after


def header(root):
    return bytes(36) + root + bytes(12)


def main():
    path = sys.argv[1] if len(sys.argv) > 1 else os.path.join(TOP, 'build', 'ots')
    if not os.access(path, os.X_OK):
        print(f'{path} is not there: ./run ots builds it', file=sys.stderr)
        sys.exit(70)
    own, new = b'its target.', b'not its own'
    with tempfile.TemporaryDirectory() as folder:
        runs = Runs(Program(path, folder))
        put = runs.program.put
        put('own', own)
        put('new', new)
        put('known', b''.join(header(hashed(0x08, hashed(tag, own))) for tag in HEIGHTS))
        put('other', b''.join(header(hashed(0x08, hashed(tag, new))) for tag in HEIGHTS))
        print('| proof | bytes | status | reads of it | calls | bytes asked for | most at once |')
        print('|---|---|---|---|---|---|---|')
        runs.run('no byte', b'', 'own', 'known', CUT_OFF)
        for size in SIZES:
            for form, (tag, item) in FORMS.items():
                for what, *run in changed(*proof_of(own, tag, item, size)):
                    runs.run(f'{form}, {what}', *run)
    print(f'{runs.count} runs with {len(runs.first)} answers, {runs.wrong} not as they are to be')
    sys.exit(1 if runs.wrong else 0)


if __name__ == '__main__':
    main()
