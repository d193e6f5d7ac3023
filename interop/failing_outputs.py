#!/usr/bin/python3
"""Lets each call by which `ots` makes an output fail, and sees what it prints and what it leaves.

    interop/failing_outputs.py [OTS]

Each command that makes an output (canon, merge, prune, stamp, upgrade; small ones, of several writes, in other folders,
of several files) runs over a preloaded library. First nothing fails. For each output the calls must then be, in this
order: its folder is opened, it is created (O_CREAT and O_EXCL), the folder is synced; then, as often as needed, the
limit on the length of files is asked, bytes are written, and the file is synced directly after. So nothing is written after
the last sync, and no output begins before the one before it is done. `sample` creates nothing. The limit is asked before each
print too.

Then each of these calls fails, one in a run, with each error that it may have: of a full disk, a quota, a device, rights.
Each time the program must end with status 7 and `write fault NAME`, make no further call on that file but `close`, and
no later output; those before it are whole and were told, and what is left of this one is nothing, or the bytes that were
written so far, which is shown. A `close` that fails, after a sync that was answered, changes nothing. A call that a
signal cut short, once or three times, is made again, and after a short write the rest is written, each with its sync. An
output that is there already is refused by 5, and stays. A folder that may be written and not read can't be synced: nothing
is made there (which is tried as root, who runs the program as nobody).

It prints a line for each call that failed, and last how many runs there were; it ends with status 1 where one is not as
it is to be. OTS is build/ots where none is named (`./run ots` builds it). It is run by hand, on Linux, makes some 1,150
runs, which took 23 seconds on four processors with other work beside, and needs cc. It speaks to 127.0.0.1 alone.
"""

import errno
import os
import re
import subprocess
import sys
import tempfile

from output_calls import (CLOSE, CREATE, FOLDER, FOLDER_SYNC, KINDS, LATE, NOTHING, SHORT, SYNC, WRITE, Case, Runs, cases,
                          said_of)

TOP = os.path.dirname(os.path.dirname(os.path.abspath(__file__)))
NOBODY = 65534
FAILS = {FOLDER: [errno.EACCES, errno.EIO, errno.EMFILE, errno.ENFILE, errno.ENOMEM],
         CREATE: [errno.ENOSPC, errno.EIO, errno.EDQUOT, errno.EACCES, errno.EROFS, errno.EMFILE],
         FOLDER_SYNC: [errno.ENOSPC, errno.EIO, errno.EDQUOT, errno.EROFS, errno.EINVAL],
         WRITE: [errno.ENOSPC, errno.EIO, errno.EDQUOT, errno.EFBIG, NOTHING, LATE],
         SYNC: [errno.ENOSPC, errno.EIO, errno.EDQUOT, errno.EROFS]}
LETTERS = {FOLDER: 'F', CREATE: 'C', FOLDER_SYNC: 'D', 'limit': 'L', WRITE: 'W', SYNC: 'S', 'print': 'P'}
TOLD = {FOLDER: 'open of the folder', CREATE: 'open of the output', FOLDER_SYNC: 'sync of the folder', WRITE: 'write',
        SYNC: 'sync', CLOSE: 'close'}


def place_of(name):
    found = os.stat(os.path.dirname(name))
    return found.st_dev, found.st_ino


def out_of_order(runs, case, calls):
    """What is not as it is to be in the calls of a run in which each output is made whole."""
    letters = ''.join(LETTERS[call.what] for call in calls if call.what != CLOSE)
    if not re.fullmatch('(LP)*(FCD(LWS)+(LP)*){%d}' % len(case.outputs), letters):
        return [f'the calls are {letters}, not for each output F C D and then L W S, once or oftener']
    found, names, folder, file = [], [], None, None
    for call in calls:
        if call.answer < 0 and not call.was_made_to_fail:
            found.append(f'a {call.what} failed by itself, {errno.errorcode[call.error]}')
        if call.what == FOLDER:
            folder, opened = call.fd, tuple(int(word) for word in call.more.split(',')[1:])
        elif call.what == CREATE:
            file, name, flags = call.fd, call.data.decode(), int(call.more.split(',')[0], 16)
            names.append(name)
            if flags & (os.O_CREAT | os.O_EXCL | os.O_TRUNC) != os.O_CREAT | os.O_EXCL:
                found.append(f'{name} is opened with the flags {flags:o}')
            if opened != place_of(runs.place(name)):
                found.append(f'the folder that was opened is not that of {name}')
        elif call.what == FOLDER_SYNC and (call.fd != folder or call.more != 'fsync'):
            found.append(f'{call.more} of another folder')
        elif call.what in (WRITE, SYNC) and call.fd != file:
            found.append(f'a {call.what} of another file')
        elif call.what == CLOSE and call.fd == file:
            file = None
    if names != case.outputs:
        found.append(f'the outputs are {names}')
    return found


def written(calls):
    """The bytes that were written to the output that was created last."""
    last = max((k for k, call in enumerate(calls) if call.what == CREATE), default=0)
    return b''.join(call.data for call in calls[last:] if call.what == WRITE)


class Tally:
    """The runs of a case, and which are not as they are to be."""

    def __init__(self):
        self.count, self.bad = 0, 0

    def told(self, line, found, silent=False):
        self.count, self.bad = self.count + 1, self.bad + bool(found)
        if found:
            print(f'{line}: NOT AS IT IS TO BE: {"; ".join(found)}', flush=True)
        elif not silent:
            print(line, flush=True)
        return not found


def other_outcome(done, status, printed):
    return [] if (done.status, done.printed) == (status, printed) else [f'status {done.status}, {done.printed!r}']


def is_done(runs, case, done):
    """What is not as after a run that made all."""
    printed = case.before + ''.join(case.each.format(name) for name in case.outputs) + case.after
    found = other_outcome(done, case.status, printed)
    return found + [f'{name} is not whole' for name in case.outputs if not runs.is_whole(case, name, runs.read(name))]


def is_refused(runs, case, done, kind, place):
    """What is not as after a run in which this call of the output at this place failed."""
    name = case.outputs[place]
    printed = case.before + ''.join(case.each.format(it) for it in case.outputs[:place]) + f'write fault {name}\n'
    found = other_outcome(done, 7, printed)
    found += [f'{it} is not whole' for it in case.outputs[:place] if not runs.is_whole(case, it, runs.read(it))]
    found += [f'{it} is there' for it in case.outputs[place + 1:] if runs.read(it) is not None]
    left = runs.read(name)
    if (left is None) != (kind in (FOLDER, CREATE)):
        found.append(f'{name} is {"not " if left is None else ""}there')
    elif left is not None and left != written(done.calls):
        found.append(f'{name} has other bytes than were written')
    failed = [k for k, call in enumerate(done.calls) if call.was_made_to_fail]
    if not failed:
        return found + ['the call was not made']
    later = [call.what for call in done.calls[failed[-1] + 1:] if call.what in KINDS and call.what != CLOSE]
    if later:
        found.append(f'after it the calls {", ".join(later)} are made')
    return found


def left_of(runs, case, place):
    left, whole = runs.read(case.outputs[place]), runs.whole[case.name][place]
    return 'none' if left is None else f'{len(left)} of {len(whole)} bytes'


def tried(runs, case, tally):
    """All runs of a case."""
    runs.remember(case)
    plain = runs.run(case)
    if not plain.calls:
        sys.exit(f'{runs.program} shows no call: is it linked statically?')
    found = is_done(runs, case, plain) + out_of_order(runs, case, plain.calls)
    sizes = ', '.join(str(len(data)) for data in runs.whole[case.name])
    counts = ', '.join(f'{sum(call.what == kind for call in plain.calls)} {kind}' for kind in KINDS)
    tally.told(f'{case.name}: {sizes} bytes by {counts}', found)
    turns = dict.fromkeys(KINDS, 0)
    place = -1
    for call in plain.calls:
        if call.what not in KINDS:
            continue
        place += call.what == FOLDER or call.what == CREATE and not turns[FOLDER]
        turns[call.what] += 1
        of_one(runs, case, tally, call.what, turns[call.what], max(place, 0))


def of_one(runs, case, tally, kind, turn, place):
    """The runs in which one of the calls fails, is short or is cut short."""
    which = f'{case.name}, {TOLD[kind]} {turn}'
    if kind == CLOSE:
        for error in (errno.EIO, errno.ENOSPC, errno.EDQUOT, errno.EINTR):
            done = runs.run(case, [(kind, turn, error)])
            closed = sum(call.what == CLOSE for call in done.calls)
            opened = sum(call.what in (FOLDER, CREATE) and call.answer >= 0 for call in done.calls)
            found = is_done(runs, case, done) + ([f'{closed} closes of {opened}'] if closed > opened else [])
            tally.told(f'{which} ({said_of(error)})', found, silent=True)
        return
    left = {}
    for error in FAILS[kind]:
        done = runs.run(case, [(kind, turn, error)])
        found = is_refused(runs, case, done, kind, place)
        if tally.told(f'{which} ({said_of(error)})', found, silent=True):
            left.setdefault(left_of(runs, case, place), []).append(said_of(error))
    sizes = '; '.join(f'{size} left ({", ".join(errors)})' for size, errors in left.items())
    print(f'{which}: status 7, {sizes}', flush=True)
    for times in 1, 3:
        done = runs.run(case, [(kind, turn + k, errno.EINTR) for k in range(times)])
        again = sum(call.error == errno.EINTR for call in done.calls)
        calls = [call for call in done.calls if call.error != errno.EINTR]
        found = is_done(runs, case, done) + ([] if again == times else [f'{again} calls were cut short'])
        if kind != WRITE and kind != SYNC:
            found += out_of_order(runs, case, calls)
        tally.told(f'{which} cut short {times} times', found, silent=True)
    if kind == WRITE:
        done = runs.run(case, [(kind, turn, SHORT)])
        found = is_done(runs, case, done) + out_of_order(runs, case, done.calls)
        tally.told(f'{which}, a short one', found, silent=True)
        for after, error in ((WRITE, errno.ENOSPC), (SYNC, errno.EIO)):
            done = runs.run(case, [(kind, turn, SHORT), (after, turn + (after == WRITE), error)])
            tally.told(f'{which}, a short one, and then {said_of(error)}', is_refused(runs, case, done, after, place), silent=True)


def refused_as_there(runs, case, tally):
    """An output that is there already."""
    for what in 'a file', 'an empty file', 'a link that leads nowhere':
        name = runs.place('there')
        if what == 'a link that leads nowhere':
            os.symlink('nowhere', name)
        else:
            runs.put(b'' if 'empty' in what else b'kept', os.path.join('work', 'there'))
        done = runs.run(case._replace(words=[*case.words[:-1], 'there']))
        found = other_outcome(done, 5, case.before + 'exists there\n')
        found += ['it was written' for call in done.calls if call.what == WRITE]
        is_as_it_was = os.path.islink(name) if 'link' in what else runs.read('there') == (b'' if 'empty' in what else b'kept')
        found += [] if is_as_it_was and not os.path.lexists(runs.place('nowhere')) else ['it is not as it was']
        os.remove(name)
        tally.told(f'{case.name}, where {what} has the name: status 5', found)


def in_a_folder_that_is_not_read(runs, tally):
    """Where the output's folder may be written and not read, by another user."""
    if os.geteuid() != 0:
        print('a folder that may be written and not read: not tried, for this is not run as root')
        return
    os.mkdir(runs.place('closed'))
    os.chmod(runs.place('closed'), 0o333)
    for folder in (runs.folder, runs.place('')):
        os.chmod(folder, 0o755)

    def as_nobody():
        os.setgroups([])
        os.setgid(NOBODY)
        os.setuid(NOBODY)

    for there in False, True:
        if there:
            runs.put(b'kept', os.path.join('work', 'closed', 'o'))
        try:
            done = subprocess.run([runs.program, 'canon', 'p', 'closed/o'], cwd=runs.place(''), stdin=subprocess.DEVNULL,
                                  stdout=subprocess.PIPE, preexec_fn=as_nobody, timeout=60, check=False)
        except PermissionError:
            print('a folder that may be written and not read: not tried, for nobody may run the program')
            return
        status, printed = (5, b'exists closed/o\n') if there else (7, b'write fault closed/o\n')
        found = [] if (done.returncode, done.stdout) == (status, printed) else [f'status {done.returncode}, {done.stdout!r}']
        found += [] if runs.read('closed/o') == (b'kept' if there else None) else ['closed/o is not as it was']
        which = ', where the name is there' if there else ''
        tally.told(f'canon, in a folder that may be written and not read{which}: status {status}', found)


def main():
    program = sys.argv[1] if len(sys.argv) > 1 else os.path.join(TOP, 'build', 'ots')
    tally = Tally()
    with tempfile.TemporaryDirectory() as folder:
        runs = Runs(program, folder)
        every = cases(runs)
        for case in every:
            tried(runs, case, tally)
        for case in every:
            if case.outputs == ['o'] and 'many' not in case.name:
                refused_as_there(runs, case, tally)
        in_a_folder_that_is_not_read(runs, tally)
        sample = Case('sample', ['sample', '1000'], [], '', '', '', 0)
        made = [call.what for call in runs.run(sample).calls if call.what not in ('limit', 'print')]
        tally.told('sample creates nothing', [f'it makes the calls {", ".join(made)}'] if made else [])
    print(f'{tally.count} runs, {tally.bad or "none"} not as they are to be')
    sys.exit(1 if tally.bad else 0)


if __name__ == '__main__':
    main()
