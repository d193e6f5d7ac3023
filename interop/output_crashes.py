#!/usr/bin/python3
"""Lets the power go at each moment of runs of `ots`, over a model of the page cache: no output that was told may lack a byte.

    interop/output_crashes.py [OTS]

Each command that makes an output (canon, merge, prune, stamp, upgrade) runs over a preloaded library, which lists its calls
with their answers. The model goes through the list. The name of a new file is on the disk for certain once a sync of its
folder was answered after it, and bytes once a sync of their file was; what a sync that failed was to write is never
written, whatever is answered later, as on Linux. A sync that a signal cut short has done nothing. After each call, and
after the end, the power goes: what isn't certain is lost, kept, or in part lost, a name as a whole and the bytes of a write
in up to 17 pieces, the lost ones as if never written. In each such image each output that was told by then must be whole:
`stamp` tells one by its line `wrote NAME`, `upgrade` by `complete` or `pending`, and the others by their end with status 0.

This is done with a run in which nothing fails, and with runs in each of which one call on an output fails or is cut short by a
signal, or a write is short, or fails after it was done, or is short and the next write or sync fails. What the model took for
written is compared with the files at the end, so no call that it does not know wrote to them.

Last it is shown that the model refuses what it should: the library leaves out the syncs of files, those of folders, and both
(they answer that all is well, and nothing is made durable), and of a run only the last sync of a file is taken out of the
list. In each such run of each command an output must be found that was told and is not whole.

It prints a line for each command and a last one with how many runs, moments and images there were, and ends with status 1
where one is not as it is to be. OTS is build/ots where none is named (`./run ots` builds it). It is run by hand, on Linux,
makes some 470 runs, which took ten seconds on four processors with other work beside, and needs cc. It speaks to 127.0.0.1
alone.
"""

import errno
import os
import random
import sys
import tempfile

from output_calls import (CLOSE, CREATE, FOLDER, FOLDER_SYNC, KINDS, LATE, SHORT, SYNC, WRITE, Runs, cases, said_of)

TOP = os.path.dirname(os.path.dirname(os.path.abspath(__file__)))
PIECE = 16
# Images of each moment in which a coin says what is lost, beside the one that lost all and the one that lost nothing.
TOSSED = 6


class File:
    """A file that was created: what was written to it, and what of that and of its name is on the disk for certain."""

    def __init__(self, name, folder):
        self.name, self.folder = name, folder
        self.data, self.kept, self.pending = bytearray(), [], []
        self.is_named, self.may_be_named = False, True

    def image(self, rng, share):
        """What is there after a crash, where of what is not certain this share is kept; `None` where its name is lost."""
        if not self.is_named and rng.random() >= share:
            return None
        held, end = bytearray(len(self.data)), 0
        for at, until in self.kept:
            held[at:until], end = self.data[at:until], max(end, until)
        for at, until in self.pending:
            step = max(PIECE, (until - at) // 16)
            for begin in range(at, until, step):
                if rng.random() < share:
                    stop = min(begin + step, until)
                    held[begin:stop], end = self.data[begin:stop], max(end, stop)
        return bytes(held[:end])


class Disk:
    """The files of a run."""

    def __init__(self):
        self.files, self.open, self.folders = [], {}, {}

    def takes(self, call):
        """A call with its answer."""
        if call.what == FOLDER and call.answer >= 0:
            self.folders[call.fd] = tuple(int(word) for word in call.more.split(',')[1:])
        elif call.what == CREATE and call.answer >= 0:
            file = File(call.data.decode(), None)
            self.files.append(file)
            self.open[call.fd] = file
        elif call.what in (FOLDER_SYNC, SYNC) and call.error == errno.EINTR:
            pass
        elif call.what == FOLDER_SYNC:
            self.folder_synced(self.folders[call.fd], call.answer == 0 and call.more == 'fsync')
        elif call.what == WRITE:
            file, at = self.open[call.fd], len(self.open[call.fd].data)
            file.data += call.data
            if call.data:
                file.pending.append((at, len(file.data)))
        elif call.what == SYNC:
            file = self.open[call.fd]
            if call.answer == 0:
                file.kept += file.pending
            file.pending = []
        elif call.what == CLOSE:
            self.open.pop(call.fd, None)
            self.folders.pop(call.fd, None)

    def folder_synced(self, folder, is_done):
        """The names that were made in the folder since its last sync are on the disk, or none of them ever is."""
        for file in self.files:
            if file.folder == folder and not file.is_named:
                file.is_named, file.may_be_named = is_done and file.may_be_named, is_done and file.may_be_named

    def images(self, rng):
        """Each image that is looked at: the files that are there, by their names."""
        for share in [0, 1] + [0.5, 0.9] * (TOSSED // 2):
            yield {file.name: file.image(rng, share) for file in self.files}


def told_by(case, printed, status):
    """The outputs that a run has told by now; the status is `None` before its end."""
    lines = printed.split('\n')[:-1]
    if case.each:
        return [name for name in case.outputs if case.each.format(name).rstrip('\n') in lines]
    if case.after:
        return case.outputs if case.after.rstrip('\n') in lines else []
    return case.outputs if status == 0 else []


class Count:
    def __init__(self):
        self.runs = self.moments = self.images = self.told = 0


def lacking(runs, case, done, count):
    """What is wrong at the moments of a run: the first output that was told and is not whole in an image, at each moment."""
    rng = random.Random(1)
    disk, printed, found, known = Disk(), '', [], {}

    def is_whole(name, data):
        if (name, data) not in known:
            known[name, data] = runs.is_whole(case, name, data)
        return known[name, data]

    count.runs += 1
    for at, call in enumerate([*done.calls, None]):
        if call is not None and call.what == 'print':
            printed += call.data.decode()
        elif call is not None and call.what in KINDS:
            disk.takes(call)
            if call.what == CREATE and call.answer >= 0:
                place = os.stat(os.path.dirname(runs.place(call.data.decode())))
                disk.files[-1].folder = place.st_dev, place.st_ino
        told = told_by(case, printed, None if call else done.status)
        count.moments += 1
        count.told += bool(told)
        for image in disk.images(rng):
            count.images += 1
            bad = [name for name in told if not is_whole(name, image.get(name))]
            if bad:
                left = image.get(bad[0])
                found.append(f'after call {at + 1} {bad[0]} was told, and '
                             + ('its name is lost' if left is None else f'of its bytes {len(left)} are left, not all as written'))
                break
    if printed != done.printed:
        found.append('other text was printed than by the calls that were seen')
    for file in disk.files:
        if runs.read(file.name) != bytes(file.data):
            found.append(f'{file.name} has other bytes than by the calls that were seen')
    return found


def faulty(calls):
    """The faults that are tried: for each call on an output."""
    turns = dict.fromkeys(KINDS, 0)
    for call in calls:
        if call.what in KINDS and call.what != CLOSE:
            turns[call.what] += 1
            this = call.what, turns[call.what]
            yield [(*this, errno.EIO)]
            yield [(*this, errno.EINTR)]
            if call.what == WRITE:
                yield [(*this, SHORT)]
                yield [(*this, LATE)]
                yield [(*this, SHORT), (WRITE, this[1] + 1, errno.ENOSPC)]
                yield [(*this, SHORT), (SYNC, this[1] + 1, errno.EIO)]


def tried(runs, case, count):
    """What is wrong in the runs of a case."""
    runs.remember(case)
    done = runs.run(case)
    if not done.calls:
        sys.exit(f'{runs.program} shows no call: is it linked statically?')
    before = count.runs, count.moments
    found = [f'nothing fails: {it}' for it in lacking(runs, case, done, count)]
    for faults in faulty(done.calls):
        words = ', '.join(f'{kind} {turn} {said_of(what)}' for kind, turn, what in faults)
        found += [f'{words}: {it}' for it in lacking(runs, case, runs.run(case, faults), count)]
    print(f'{case.name}: {count.runs - before[0]} runs, {count.moments - before[1]} moments: '
          + (f'NOT AS IT IS TO BE: {len(found)} times, the first: {found[0]}' if found else 'whole'), flush=True)
    return bool(found)


def without(done):
    """A run without its last sync of a file, which nothing says."""
    syncs = [k for k, call in enumerate(done.calls) if call.what == SYNC]
    return done._replace(calls=done.calls[:syncs[-1]] + done.calls[syncs[-1] + 1:]) if syncs else done


def is_let_through(runs, case, done, what):
    """Whether the model finds nothing in a run without syncs."""
    found = lacking(runs, case, done, Count())
    if not found:
        print(f'{case.name}, without {what}: NOT AS IT IS TO BE: the model finds nothing')
    return not found


def main():
    program = sys.argv[1] if len(sys.argv) > 1 else os.path.join(TOP, 'build', 'ots')
    count, bad, planted, missed, example = Count(), 0, 0, 0, ''
    with tempfile.TemporaryDirectory() as folder:
        runs = Runs(program, folder)
        every = cases(runs)
        for case in every:
            bad += tried(runs, case, count)
        for case in every:
            left_out = {'the syncs of files': 'output-sync', 'the syncs of folders': 'folder-sync',
                        'any sync': 'output-sync folder-sync'}
            for what, words in left_out.items():
                planted += 1
                missed += is_let_through(runs, case, runs.run(case, without=words), what)
            planted += 1
            done = runs.run(case)
            missed += is_let_through(runs, case, without(done), 'its last sync')
            example = example or '; '.join(lacking(runs, case, without(done), Count())[:1])
    print(f'without the syncs of files, of folders, both, or the last one: {planted} runs, of which {planted - missed} are refused, '
          f'as they are to be (one: {example})')
    print(f'{count.runs} runs, {count.moments} moments, {count.told} of them after an output was told, {count.images} images; '
          f'{bad or "no"} commands and {missed or "no"} runs without syncs not as they are to be')
    sys.exit(1 if bad or missed else 0)


if __name__ == '__main__':
    main()
