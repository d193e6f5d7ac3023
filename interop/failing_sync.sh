#!/bin/sh
# Serves a journal of which one sync fails, as it does on Linux: the pages are marked clean, the next
# sync answers that all is well, and what the failed one was to write is never written.
#     interop/failing_sync.sh
# A preloaded library keeps what the device would hold in a file of its own, and fails one sync of the
# journal. For each sync from the first on the journal is served, four digests are sent, one after the
# other, and then the journal is listed by a new process, for which the cached pages are gone where it
# asked the system to drop them. It ends with 0 where each commitment that was answered is listed, and
# where no digest is answered after the sync that failed. It needs cc and python3.
set -eu
top=$(CDPATH='' cd -- "$(dirname -- "$0")/.." && pwd)
work=$(mktemp -d)
trap 'rm -rf "$work"' EXIT
cat >"$work/device.c" <<'C'
#define _GNU_SOURCE
#include <dlfcn.h>
#include <errno.h>
#include <fcntl.h>
#include <stdlib.h>
#include <string.h>
#include <sys/stat.h>
#include <unistd.h>

static struct { off_t at; ssize_t count; } dirty[65536];
static int ranges, syncs;

static int is_journal(int fd) {
    struct stat open, named;
    const char *name = getenv("JOURNAL");
    return name && !fstat(fd, &open) && !stat(name, &named) && S_ISREG(open.st_mode) &&
           open.st_dev == named.st_dev && open.st_ino == named.st_ino;
}

static int device(void) { return open(getenv("DEVICE"), O_RDWR | O_CREAT, 0600); }

static void copy(int from, int to, off_t at, off_t count) {
    char buffer[4096];
    while (count > 0) {
        ssize_t some = pread(from, buffer, count < 4096 ? count : 4096, at);
        if (some <= 0) return;
        ssize_t (*put)(int, const void *, size_t, off_t) = dlsym(RTLD_NEXT, "pwrite");
        put(to, buffer, some, at);
        at += some;
        count -= some;
    }
}

ssize_t pwrite(int fd, const void *bytes, size_t count, off_t at) {
    ssize_t (*real)(int, const void *, size_t, off_t) = dlsym(RTLD_NEXT, "pwrite");
    ssize_t answer = real(fd, bytes, count, at);
    if (answer > 0 && is_journal(fd) && ranges < 65536) {
        dirty[ranges].at = at;
        dirty[ranges++].count = answer;
    }
    return answer;
}

ssize_t pwrite64(int fd, const void *bytes, size_t count, off_t at) { return pwrite(fd, bytes, count, at); }

int fsync(int fd) {
    int (*real)(int) = dlsym(RTLD_NEXT, "fsync");
    const char *fails = getenv("FAILS");
    if (!is_journal(fd)) return real(fd);
    int failed = fails && ++syncs == atoi(fails);
    int to = device();
    for (int i = 0; i < ranges && !failed; i++) copy(fd, to, dirty[i].at, dirty[i].count);
    ranges = 0;
    close(to);
    if (failed) errno = EIO;
    return failed ? -1 : real(fd);
}

int posix_fadvise(int fd, off_t at, off_t count, int advice) {
    int (*real)(int, off_t, off_t, int) = dlsym(RTLD_NEXT, "posix_fadvise");
    if (is_journal(fd) && advice == POSIX_FADV_DONTNEED && ranges == 0) {
        struct stat held;
        int from = device();
        if (!fstat(from, &held) && !ftruncate(fd, held.st_size)) copy(from, fd, 0, held.st_size);
        close(from);
    }
    return real(fd, at, count, advice);
}

int posix_fadvise64(int fd, off_t at, off_t count, int advice) { return posix_fadvise(fd, at, count, advice); }
C
cc -shared -fPIC -O1 -o "$work/device.so" "$work/device.c" -ldl
"$top/run" otsd 2>/dev/null || [ $? -eq 2 ]
cat >"$work/serve.py" <<'P'
import http.client, os, re, subprocess, sys, time
otsd, work = sys.argv[1:]
os.chdir(work)
open("key", "wb").write(bytes(32))
port = 47990

def run(words, fails, **more):
    env = dict(os.environ, LD_PRELOAD=work + "/device.so", JOURNAL=work + "/j", DEVICE=work + "/device")
    if fails:
        env["FAILS"] = str(fails)
    return subprocess.Popen([otsd, "j"] + words, env=env, stdout=subprocess.PIPE, text=True, **more)

def post(port, value):
    for _ in range(200):
        try:
            link = http.client.HTTPConnection("127.0.0.1", port, timeout=10)
            link.request("POST", "/digest", bytes([value]) * 32)
            reply = link.getresponse()
            return reply.status, reply.read()
        except ConnectionRefusedError:
            time.sleep(0.02)
    raise SystemExit("otsd does not listen")

for fails in range(1, 20):
    for name in ("j", "device"):
        if os.path.exists(name):
            os.remove(name)
    port += 1
    words = ["serve", "--key", "key", "--uri", "http://127.0.0.1:1", "--port", str(port), "--workers", "1", "--accept", "4"]
    serving = run(words, fails)
    first = serving.stdout.readline()
    answers = [post(port, value) for value in range(4)] if first.startswith("listening") else []
    serving.wait()
    listed = run(["list"], 0).communicate()[0]
    statuses = [status for status, _ in answers]
    # A commitment ends with the eight bytes that stand in its reply after 27 others.
    for status, body in answers:
        if status == 200 and body[27:35].hex() + "\n" not in listed:
            raise SystemExit(f"sync {fails}: a commitment was answered and is not listed: {statuses}\n{listed}")
    if 503 in statuses and 200 in statuses[statuses.index(503):]:
        raise SystemExit(f"sync {fails}: a digest was answered after the sync that failed: {statuses}")
    print(f"sync {fails} fails: otsd ends with {serving.returncode}, answers {statuses}, listed {listed.count('commit')}")
P
python3 "$work/serve.py" "$top/build/otsd" "$work"
