"""Runs of the commands of `ots` that make outputs, and a preloaded library that lists their calls or lets them fail.

For failing_outputs.py, file_limits.py and output_crashes.py. The library stands before the C library's calls on files. It
lists the ones on a file that the program created, on a folder, and on the standard streams, each with its answer, in
their order; it lets the Nth of a kind fail, be short or be cut short by a signal; and it leaves syncs out, so that they
answer that all is well and are not listed. It needs cc, and a program that is linked with the C library dynamically.
"""

import errno
import http.server
import os
import subprocess
import sys
import threading
from collections import namedtuple

import plain
from plain import BITCOIN, MAGIC, PENDING, number, sha256

LIBRARY = r'''
#define _GNU_SOURCE
#include <dlfcn.h>
#include <errno.h>
#include <fcntl.h>
#include <stdarg.h>
#include <stdio.h>
#include <stdlib.h>
#include <string.h>
#include <sys/resource.h>
#include <sys/stat.h>
#include <sys/syscall.h>
#include <sys/uio.h>
#include <unistd.h>

enum { FOLDER, CREATE, FOLDER_SYNC, WRITE, SYNC, CLOSE, KINDS, DESCRIPTORS = 4096, LONGEST = 1 << 20 };
static const char *const names[KINDS] = {"folder", "create", "folder-sync", "write", "sync", "close"};
static char is[DESCRIPTORS], line[2 * LONGEST + 8192];
static int list = -1, counts[KINDS];

__attribute__((constructor)) static void begin(void) {
    const char *name = getenv("CALLS");
    int file = name ? syscall(SYS_openat, AT_FDCWD, name, O_WRONLY | O_APPEND | O_CREAT | O_CLOEXEC, 0600) : -1;
    if (file < 0) abort();
    /* out of the way of the program's own descriptors */
    list = syscall(SYS_fcntl, file, F_DUPFD_CLOEXEC, 900);
    if (list < 0) abort();
    syscall(SYS_close, file);
}

/* A line of the list: the call, the descriptor, the answer, the error, whether it was made to fail, and more. */
static void tell(const char *call, int fd, long answer, int failed, const char *more, const void *bytes, size_t count) {
    int error = errno;
    int used = snprintf(line, 8192, "%s %d %ld %d %d %s ", call, fd, answer, answer < 0 ? error : 0, failed, more);
    if (used >= 8192 || count > LONGEST) abort();
    for (size_t i = 0; i < count; i++) used += sprintf(line + used, "%02x", ((const unsigned char *)bytes)[i]);
    line[used++] = '\n';
    if (syscall(SYS_write, list, line, (size_t)used) != used) abort();
    errno = error;
}

/* What is to become of this call: an error's number, or -1 short, -2 nothing taken, -3 done and then an error; else 0. */
static int fault(int kind) {
    const char *at = getenv("FAULTS");
    int turn = ++counts[kind];
    while (at && *at) {
        char name[32];
        int when, what;
        if (sscanf(at, "%31[^:]:%d:%d", name, &when, &what) != 3) abort();
        if (!strcmp(name, names[kind]) && when == turn) return what;
        at = strchr(at, ',');
        if (at) at++;
    }
    return 0;
}

static int is_left_out(const char *name) {
    const char *without = getenv("WITHOUT");
    return without && strstr(without, name);
}

static int fails(int error) { errno = error; return -1; }

static int opened(int at, const char *name, int flags, int mode) {
    struct stat found;
    char more[64] = "-";
    int kind = flags & O_CREAT ? CREATE : !fstatat(at, name, &found, 0) && S_ISDIR(found.st_mode) ? FOLDER : -1;
    if (kind < 0) return syscall(SYS_openat, at, name, flags, mode);
    int what = fault(kind), fd = what > 0 ? fails(what) : (int)syscall(SYS_openat, at, name, flags, mode);
    int error = errno;
    if (fd >= DESCRIPTORS) abort();
    if (fd >= 0) {
        is[fd] = kind == CREATE ? 'f' : 'd';
        if (fstat(fd, &found)) abort();
        snprintf(more, sizeof more, "%x,%lu,%lu", flags, (unsigned long)found.st_dev, (unsigned long)found.st_ino);
    }
    errno = error;
    tell(names[kind], fd, fd, what != 0, more, name, strlen(name));
    return fd;
}

#define OPENS(NAME) \
    int NAME(const char *name, int flags, ...) { \
        va_list more; \
        va_start(more, flags); \
        int mode = flags & (O_CREAT | O_TMPFILE) ? va_arg(more, int) : 0; \
        va_end(more); \
        return opened(AT_FDCWD, name, flags, mode); \
    }
#define OPENS_AT(NAME) \
    int NAME(int at, const char *name, int flags, ...) { \
        va_list more; \
        va_start(more, flags); \
        int mode = flags & (O_CREAT | O_TMPFILE) ? va_arg(more, int) : 0; \
        va_end(more); \
        return opened(at, name, flags, mode); \
    }
OPENS(open)
OPENS(open64)
OPENS_AT(openat)
OPENS_AT(openat64)

static char kind_of(int fd) { return fd < 0 || fd >= DESCRIPTORS ? 0 : is[fd]; }

ssize_t write(int fd, const void *bytes, size_t count) {
    int is_output = kind_of(fd) == 'f';
    if (!is_output && fd != 1 && fd != 2) return syscall(SYS_write, fd, bytes, count);
    int what = is_output ? fault(WRITE) : 0;
    ssize_t answer = what > 0 ? fails(what) : what == -2 ? 0 :
        syscall(SYS_write, fd, bytes, what == -1 && count > 1 ? count / 2 : count);
    ssize_t taken = answer < 0 ? 0 : answer;
    if (what == -3) answer = fails(EIO);
    tell(is_output ? "write" : "print", fd, answer, what != 0, "-", bytes, (size_t)taken);
    return answer;
}

ssize_t writev(int fd, const struct iovec *parts, int many) {
    static char all[LONGEST];
    size_t count = 0;
    for (int i = 0; i < many; i++) {
        if (count + parts[i].iov_len > LONGEST) abort();
        memcpy(all + count, parts[i].iov_base, parts[i].iov_len);
        count += parts[i].iov_len;
    }
    return write(fd, all, count);
}

static int synced(const char *call, long which, int fd) {
    char kind = kind_of(fd);
    if (!kind) return syscall(which, fd);
    if (is_left_out(kind == 'd' ? "folder-sync" : "output-sync")) return 0;
    int what = fault(kind == 'd' ? FOLDER_SYNC : SYNC);
    int answer = what > 0 ? fails(what) : (int)syscall(which, fd);
    tell(kind == 'd' ? "folder-sync" : "sync", fd, answer, what != 0, call, "", 0);
    return answer;
}

int fsync(int fd) { return synced("fsync", SYS_fsync, fd); }

int fdatasync(int fd) { return synced("fdatasync", SYS_fdatasync, fd); }

int close(int fd) {
    char kind = kind_of(fd);
    int what = kind ? fault(CLOSE) : 0, answer = (int)syscall(SYS_close, fd);
    if (!kind) return answer;
    is[fd] = 0;
    if (what > 0) answer = fails(what);
    tell("close", fd, answer, what != 0, kind == 'd' ? "folder" : "file", "", 0);
    return answer;
}

static int limited(struct rlimit *limit) {
    int answer = (int)syscall(SYS_prlimit64, 0, RLIMIT_FSIZE, NULL, limit);
    tell("limit", -1, answer, 0, "-", "", 0);
    return answer;
}

int getrlimit(__rlimit_resource_t which, struct rlimit *limit) {
    return which == RLIMIT_FSIZE ? limited(limit) : (int)syscall(SYS_prlimit64, 0, which, NULL, limit);
}

int getrlimit64(__rlimit_resource_t which, struct rlimit64 *limit) {
    return getrlimit(which, (struct rlimit *)limit);
}
'''

SHORT, NOTHING, LATE = -1, -2, -3
# The kinds of calls on an output, in the order in which they are made.
FOLDER, CREATE, FOLDER_SYNC, WRITE, SYNC, CLOSE = KINDS = 'folder', 'create', 'folder-sync', 'write', 'sync', 'close'

Call = namedtuple('Call', 'what fd answer error was_made_to_fail more data')
Done = namedtuple('Done', 'status printed calls')
# What a command is given, the outputs that it makes in their order, and what it prints: before them, for each, after them.
Case = namedtuple('Case', 'name words outputs before each after status')


def said_of(error):
    return {SHORT: 'short', NOTHING: 'taking nothing', LATE: 'done, then EIO'}.get(error) or errno.errorcode[error]


# ---- proofs

def attestation(kind, payload):
    return b'\0' + kind + number(len(payload)) + payload


def block(height):
    return attestation(BITCOIN, number(height))


def forked(items):
    return b''.join(b'\xff' + item for item in items[:-1]) + items[-1]


def proof_of(data, tree):
    return MAGIC + b'\1\x08' + sha256(data) + tree


def path(turn):
    return b'\xf0\4' + turn.to_bytes(4, 'big') + b'\x08' + block(turn)


def many_paths(turns):
    return forked([path(turn) for turn in turns])


ANSWER = b'\xf0\x20' + bytes(range(32)) + b'\x08' + block(800_000)


class Calendar(http.server.BaseHTTPRequestHandler):
    """A calendar that answers each digest and each message by one and the same tree, or messages by 404."""

    def do_POST(self):
        self.rfile.read(int(self.headers['Content-Length']))
        self.reply(200, ANSWER)

    def do_GET(self):
        self.reply(*((404, b'not found\n') if self.server.has_none else (200, ANSWER)))

    def reply(self, status, body):
        self.send_response(status)
        self.send_header('Content-Length', str(len(body)))
        self.end_headers()
        self.wfile.write(body)

    def log_message(self, *_):
        pass


def calendar(has_none):
    """The address of such a calendar of this machine."""
    server = http.server.ThreadingHTTPServer(('127.0.0.1', 0), Calendar)
    server.has_none = has_none
    threading.Thread(target=server.serve_forever, daemon=True).start()
    return f'http://127.0.0.1:{server.server_port}'


# ---- runs

class Runs:
    """Runs of a program in one folder, which has its inputs."""

    def __init__(self, program, folder):
        self.program, self.folder = os.path.abspath(program), folder
        if not os.access(self.program, os.X_OK):
            print(f'{program} is not there: ./run ots builds it', file=sys.stderr)
            sys.exit(70)
        self.whole = {}
        os.mkdir(self.name('work'))
        self.put(LIBRARY.encode(), 'calls.c')
        subprocess.run(['cc', '-shared', '-fPIC', '-O1', '-fno-builtin', '-o', 'calls.so', 'calls.c', '-ldl'], cwd=folder,
                       check=True)

    def name(self, name):
        return os.path.join(self.folder, name)

    def place(self, name):
        """The path of a file in the folder that the program runs in."""
        return os.path.join(self.folder, 'work', name)

    def put(self, data, name):
        with open(self.name(name), 'wb') as out:
            out.write(data)

    def read(self, name):
        """What an output holds; `None` where there is none."""
        try:
            with open(self.place(name), 'rb') as file:
                return file.read()
        except FileNotFoundError:
            return None

    def clear(self, case):
        for name in case.outputs:
            if os.path.lexists(self.place(name)):
                os.remove(self.place(name))

    def plainly(self, case, **how):
        """A run without the library. A status below 0 is a signal."""
        self.clear(case)
        done = subprocess.run([self.program, *case.words], cwd=self.place(''), stdin=subprocess.DEVNULL, timeout=120,
                              stdout=subprocess.PIPE, check=False, **how)
        return done.returncode, done.stdout.decode()

    def run(self, case, faults=(), without=''):
        """A run over the library, with these faults (the kind of a call, which one of them, what becomes of it)."""
        self.clear(case)
        self.put(b'', 'list')
        env = dict(os.environ, LD_PRELOAD=self.name('calls.so'), CALLS=self.name('list'), WITHOUT=without)
        if faults:
            env['FAULTS'] = ','.join(f'{kind}:{turn}:{what}' for kind, turn, what in faults)
        done = subprocess.run([self.program, *case.words], cwd=self.place(''), env=env, stdin=subprocess.DEVNULL,
                              timeout=120, stdout=subprocess.PIPE, check=False)
        with open(self.name('list'), encoding='ascii') as file:
            calls = [call_of(line) for line in file]
        return Done(done.returncode, done.stdout.decode(), calls)

    def is_whole(self, case, name, data):
        """Whether these bytes are the output of this name: what a run that nothing disturbs makes, or for `stamp` a proof of
        the file, which has another nonce each time."""
        if data is None:
            return False
        if case.words[0] != 'stamp':
            return data == self.whole[case.name][case.outputs.index(name)]
        with open(self.place(name[:-len('.ots')]), 'rb') as file:
            wanted = sha256(file.read())
        try:
            tag, digest, items = plain.read_proof(data)
        except (plain.Bad, IndexError):
            return False
        return (tag, digest) == (0x08, wanted) and [item[1:3] for item in items if item[0] == 'end'] == [(BITCOIN, 800_000)]

    def remember(self, case):
        """Runs it plainly, sees that it does what it is to do, and keeps the outputs as whole."""
        status, printed = self.plainly(case)
        wanted = case.before + ''.join(case.each.format(name) for name in case.outputs) + case.after
        outputs = [self.read(name) for name in case.outputs]
        if (status, printed) != (case.status, wanted) or None in outputs:
            sys.exit(f'{case.name}: status {status}, {printed!r}: nothing was made to fail yet')
        self.whole[case.name] = outputs
        for name, data in zip(case.outputs, outputs):
            if not self.is_whole(case, name, data):
                sys.exit(f'{case.name}: {name} is not the proof that it is to be')
        return outputs


def call_of(line):
    what, fd, answer, error, failed, more, data = line.rstrip('\n').split(' ')
    return Call(what, int(fd), int(answer), int(error), failed == '1', more, bytes.fromhex(data))


def cases(runs):
    """Puts the inputs into the folder of these runs, and gives each command that makes an output."""
    asked, pending = calendar(False), calendar(True)

    def end(uri):
        return attestation(PENDING, number(len(uri)) + uri.encode())

    data = b'Hello World!\n'
    inputs = {'p': proof_of(data, block(7)), 'q': proof_of(data, path(9)), 'even': proof_of(data, many_paths(range(0, 6_000, 2))),
              'odd': proof_of(data, many_paths(range(1, 6_000, 2))), 'early': proof_of(data, b'\x08' + end(asked)),
              'waiting': proof_of(data, b'\x08' + end(pending)), 'f': b'1', 'g': b'2', 'h': b'3', 'sub/i': b'4'}
    os.makedirs(runs.place('sub'))
    os.symlink('sub', runs.place('link'))
    for name, content in inputs.items():
        runs.put(content, os.path.join('work', name))
    stamp = ['stamp', '--calendars', asked, '--min', '1']
    return [
        Case('canon', ['canon', 'p', 'o'], ['o'], '', '', '', 0),
        Case('canon of many paths', ['canon', 'even', 'o'], ['o'], '', '', '', 0),
        Case('canon in a folder', ['canon', 'p', 'sub/o'], ['sub/o'], '', '', '', 0),
        Case('canon in a folder by a link', ['canon', 'p', './link//o'], ['./link//o'], '', '', '', 0),
        Case('canon by a whole path', ['canon', 'p', runs.place('o')], [runs.place('o')], '', '', '', 0),
        Case('canon above', ['canon', 'p', 'sub/../o'], ['sub/../o'], '', '', '', 0),
        Case('merge', ['merge', 'p', 'q', 'o'], ['o'], '', '', '', 0),
        Case('merge of many paths', ['merge', 'even', 'odd', 'o'], ['o'], '', '', '', 0),
        Case('prune', ['prune', 'q', 'o'], ['o'], '', '', '', 0),
        Case('upgrade', ['upgrade', '--calendars', asked, 'early', 'o'], ['o'], f'{asked} ok\n', '', 'complete\n', 0),
        Case('upgrade that stays pending', ['upgrade', '--calendars', pending, 'waiting', 'o'], ['o'],
             f'{pending} status 404\n', '', 'pending\n', 1),
        Case('stamp of a file', [*stamp, 'f'], ['f.ots'], f'{asked} ok\n', 'wrote {}\n', '', 0),
        Case('stamp of four files', [*stamp, 'f', 'g', 'sub/i', 'h'], ['f.ots', 'g.ots', 'sub/i.ots', 'h.ots'],
             f'{asked} ok\n', 'wrote {}\n', '', 0),
    ]
