#!/usr/bin/python3
"""Runs the mirror where memory runs out: each allocation of it fails in turn.

    interop/mirror_memory.py [PROGRAM]

runs the program of crates/ots_mirror_rows, as `rt run` or `rt ci` builds it there, over a preloaded library in which
one call of malloc or realloc fails, the first, then the second, up to the last. The script is a run of the mirror from
an empty journal, which takes three records, and a run after it. Where the mirror met the failure, its run is to end
with status 20, and the run after it with status 0 and the journal of the three records; where the program that reads
the script met it, that ends with status 1. It prints how often each came, and ends with status 1 at anything else. It
is run by hand, takes some seconds, and needs cc.
"""

import collections
import os
import subprocess
import sys
import tempfile

CRATE = os.path.join(os.path.dirname(os.path.dirname(os.path.abspath(__file__))), 'crates', 'ots_mirror_rows')

LIBRARY = r'''
#define _GNU_SOURCE
#include <dlfcn.h>
#include <stdlib.h>
#include <unistd.h>

static long calls;

static int fails(void) {
    const char *which = getenv("FAILS");
    if (!which) return 0;
    if (!atol(which) && write(2, ".", 1) != 1) abort();
    return ++calls == atol(which);
}

void *malloc(size_t size) {
    static void *(*real)(size_t);
    if (!real) real = dlsym(RTLD_NEXT, "malloc");
    return fails() ? NULL : real(size);
}

void *realloc(void *block, size_t size) {
    static void *(*real)(void *, size_t);
    if (!real) real = dlsym(RTLD_NEXT, "realloc");
    return fails() ? NULL : real(block, size);
}
'''

RUNS = '''reply $PAGE_0
reply $PAGE_3
mirror j http://c --rounds 5
keep
mirror j http://c --rounds 5
left $THREE
'''


def script():
    """The names of the rows, and two runs."""
    with open(os.path.join(CRATE, 'stdin'), encoding='utf8') as lines:
        return ''.join(line for line in lines if line.startswith('let ')) + RUNS


class Program:
    """The program over the preloaded library."""

    def __init__(self, path, work):
        self.path, self.library = path, os.path.join(work, 'memory.so')
        source = os.path.join(work, 'memory.c')
        with open(source, 'w', encoding='utf8') as file:
            file.write(LIBRARY)
        subprocess.run(['cc', '-shared', '-fPIC', '-O1', '-o', self.library, source, '-ldl'], check=True)

    def run(self, fails):
        """Its status, what it wrote, and how many allocations it made where none fails; this one fails, or none for 0."""
        env = dict(os.environ, LD_PRELOAD=self.library, FAILS=str(fails))
        done = subprocess.run([self.path], input=script(), env=env, capture_output=True, encoding='utf8', check=False)
        return done.returncode, done.stdout, len(done.stderr)


def what_came(status, text):
    """What came of the two runs."""
    answers = [line for line in text.splitlines() if line.startswith('= ') and not line.startswith('= sent')]
    statuses = [line[2:].partition(',')[0] for line in answers]
    if status == 1:
        return 'the program that reads the script ends'
    if statuses == ['0', '0', 'so it is']:
        return 'both runs end well'
    if statuses == ['20', '0', 'so it is']:
        return 'the first run ends with 20, the next one has the three records'
    if statuses == ['0', '20', 'so it is']:
        return 'the second run ends with 20, and the journal stays'
    return f'NOT AS IT IS TO BE: status {status}, {answers}'


def main():
    path = sys.argv[1] if len(sys.argv) > 1 else os.path.join(CRATE, 'out', 'ots_mirror_rows')
    with tempfile.TemporaryDirectory() as work:
        program = Program(path, work)
        status, text, last = program.run(0)
        if what_came(status, text) != 'both runs end well':
            sys.exit(text)
        came = collections.Counter(what_came(*program.run(fails)[:2]) for fails in range(1, last + 1))
    for what, count in came.most_common():
        print(f'{count} of {last} allocations: {what}')
    if any(what.startswith('NOT') for what in came) or len(came) < 3:
        sys.exit(1)


if __name__ == '__main__':
    main()
