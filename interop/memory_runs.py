#!/usr/bin/python3
"""Runs rows where memory runs out: each growth of memory is refused in turn.

    interop/memory_runs.py [WORD..]     the runs whose names have one of these words in them; without words, all

runs the programs of crates/ots_client_rows, ots_store_rows, ots_calendar_rows and ots_archive_rows, as `./run` builds them, over the library of mirror_memory.py, in which one call of malloc or realloc fails: the first, then the second,
up to the last. The scripts below name the bytes that the rows of these crates name. What a run is to answer with enough
memory is said by the models of the rows.

With one refusal a program answers as with enough memory; or the run answers want of memory, status 20, and has then
printed no more than its text, made no file but a prefix of its output, and left the journal as it was or as the run
leaves it; or the program that reads the script, which takes memory too, ends with status 1, or loses a word of it.
Anything else ends this script with status 1. It prints a line for each run: how many growths were refused, how often
each of the three came. It is run by hand, takes some minutes, and needs cc.
"""

import collections
import os
import re
import subprocess
import sys
import tempfile

import archive_rows
import calendar_rows
import client_rows
import store_rows
from mirror_memory import LIBRARY

TOP = os.path.dirname(os.path.dirname(os.path.abspath(__file__)))
CRATES = os.path.join(TOP, 'crates')
ROW, WANT, READER, OTHER = 'the row', 'want of memory', 'the reader of the script', 'other'

STAMP = 'ots stamp --calendars http://127.0.0.1:14788,http://127.0.0.1:14789 --min 1 a b c'
UPGRADE = 'ots upgrade --calendars http://127.0.0.1:14788 p o'
BATCH = 'otsd j batch --key k --uri http://127.0.0.1:14788 d'

# Scripts of the client: what there is, one run, and what it is to have made.
CLIENT = {
    'merge and prune: merge': 'file p $HEAD $PENDING\nfile q $HEAD $BLOCK_7\nots merge p q o\nmade o $HEAD $BOTH',
    'merge and prune: with itself': 'file p $HEAD $BOTH\nots merge p p o\nmade o $HEAD $BOTH',
    'merge and prune: prune': 'file p $HEAD $BOTH\nots prune p o\nmade o $HEAD $BLOCK_7',
    'merge and prune: canon': 'file p $HEAD $FORK_5_3\nots canon p o\nmade o $HEAD $FORK_3_5',
    'merge and prune: differs': 'file p $PLAIN\nfile c $HEAD_OF_ABC $BITCOIN 00\nots merge p c o',
    'merge and prune: exists': 'file p $HEAD $BOTH\nots merge p p p',
    'genesis verify: yes': 'file f $COINBASE\nfile b $SHA256_HEAD 08 $BITCOIN 00\nfile h $HEADER\n'
                           'ots verify f b h --from 0',
    'genesis verify: no path': 'file f $COINBASE\nfile b $SHA256_HEAD 08 $LOCAL\nfile h $HEADER\n'
                               'ots verify f b h --from 0',
    'genesis verify: no digest': 'file f "another file"\nfile b $SHA256_HEAD 08 $BITCOIN 00\nfile h $HEADER\n'
                                 'ots verify f b h --from 0',
    'genesis verify: bad headers': 'file f $COINBASE\nfile b $SHA256_HEAD 08 $BITCOIN 00\nfile h $HEADER[..79]\n'
                                   'ots verify f b h --from 0',
    'whole cycle: stamp': 'file a "Hello World!\\n"\nfile b "abc"\nfile c "Hello World!\\n"\n'
                          'nonces "AAAAAAAAAAAAAAAABBBBBBBBBBBBBBBBCCCCCCCCCCCCCCCC"\n'
                          'dial http://127.0.0.1:14788 $GOOD\ndial http://127.0.0.1:14789 $BUSY\n'
                          f'{STAMP}\nmade a.ots $ONE_PROOF\nmade b.ots $OTHER_PROOF\nmade c.ots $THIRD_PROOF',
    'whole cycle: upgrade, pending': 'file p $ONE_PROOF\ndial http://127.0.0.1:14788 $WAITING\n'
                                     f'{UPGRADE}\nmade o $ONE_PROOF',
    'whole cycle: upgrade, complete': 'file p $ONE_PROOF\ndial http://127.0.0.1:14788 $CYCLE_REPLY\n'
                                      f'{UPGRADE}\nmade o $CYCLE_PROOF',
    'whole cycle: verify': 'file a "Hello World!\\n"\nfile o $CYCLE_PROOF\nfile h 00*36 $CYCLE_ROOT 00*12\n'
                           'ots verify a o h --from 7',
    'samples: 1': 'ots sample 1',
    'samples: 2': 'ots sample 2',
    'samples: 100': 'ots sample 100',
    'chain: two pins': 'file h $GENESIS $SECOND\nfile p $FIRST_PIN $SECOND_PIN\nots chain h --from 0 --pins p',
    'chain: a bad link': 'file h $GENESIS $GENESIS\nots chain h --from 0',
}

# Scripts of the calendar: what there is, one run, and what the journal then lists.
CALENDAR = {
    'whole cycle: tip': 'journal $MAGIC $CYCLE_GROUP 00\notsd j tip',
    'whole cycle: anchor': 'journal $CYCLE_TIPPED\nfile b 00*36 $CYCLE_ROOT 00*12 01 $PREFIX $CYCLE_TIP 00*4\n'
                           'otsd j anchor b --height 7',
    'whole cycle: nothing new': 'journal $CYCLE_ANCHORED\notsd j tip',
    'batch: one line': f'file k $KEY\nfile d $DIGEST\nnonces $NONCE\nsecond 1700000000\n{BATCH}',
    'batch: three lines': f'journal $STORED\nfile k $KEY\nfile d $DIGESTS\nnonces 01*16 02*16 03*16\n'
                          f'second 1700000000\n{BATCH}',
    'batch: a second line that is none': 'file k $KEY\nfile d $DIGEST 6162630a\nnonces $NONCE\n'
                                         f'second 1700000000\n{BATCH}',
    'migration: three records': 'file d $OLD\notsd j migrate d',
    'migration: two of three': 'journal $ONE\nfile d $OLD\notsd j migrate d',
}

# Scripts of the journal.
STORE = {
    'journal limits: a second entry is too long': 'limit 100\njournal\nappend 1 01*44\nappend 1 02*44\n'
                                                  'entries 1 01*44\nstate\njournal\nentries 1 01*44',
    'journal limits: no journal': 'disk 78*20\nlimit 100\njournal',
    'journal limits: an empty journal': 'disk 78*9\nlimit 200\njournal\nentries\nappend 1 01*44',
    'journal limits: cut short': 'disk $MAGIC a5 $ONE_OF_44 01*44\nlimit 200\njournal',
    'journal limits: a failed sync': 'fails 12\nlimit 200\njournal\nappend 1 01*44\nappend 1 02*44\nstate\nrefresh\n'
                                     'entries 1 01*44 ; 1 02*44\nstate',
}

# Scripts of the archive: what there is, one run, and what it is to have made.
ARCHIVE = {
    'archive: draft': 'file a "contents of a"\nfile b "contents of b"\noutput a.draft b.draft\nnonces $FIRST $SECOND\n'
                      'otsarchive draft --calendars http://a.example,https://b.example a b',
    'archive: draft of sums': 'file s $A "  a\\n" $B " *b\\n"\noutput a.draft b.draft\nnonces $FIRST $SECOND\n'
                              'otsarchive draft --calendars http://a.example --sums s',
    'archive: ask': 'file a.draft $DRAFT_OF_A\nfile p $HEAD_B 08 ff $AT_A $AT_B\noutput r\n'
                    'otsarchive ask --calendars http://a.example,https://b.example r a.draft p x',
    'archive: ask for sums': 'file a.draft $DRAFT_OF_A\nfile b.ots $HEAD_B 08 ff $AT_A $AT_B\nfile s $A "  a\\n" $B " *b\\n"\n'
                             'output r\notsarchive ask --calendars http://a.example --sums s r',
    'archive: take a draft': 'file a.draft $DRAFT_OF_A\noutput d/a.ots\n'
                             'sheet r $POST_A " 200 " $LATER "\\n" $POST_B " 200 " $HASHED_TO_9 "\\n"\n'
                             'otsarchive take --min 2 --into d r a.draft',
    'archive: take a proof': 'file p $HEAD_B 08 ff $AT_A $AT_B\noutput d/p\n'
                             'sheet r "get http://a.example " $MESSAGE_B " 200 " $BLOCK_7 "\\n"\n'
                             'otsarchive take --min 1 --into d r p x',
}


# ---- scripts

# How a line begins that names bytes.
NAMING = ('let ', 'text ', 'sha256 ', 'hex ')


def named(crate, script):
    """A script after the lines of its crate that name the bytes which it uses."""
    with open(os.path.join(CRATES, crate, 'stdin'), encoding='utf8') as lines:
        naming = [line.rstrip('\n') for line in lines if line.startswith(NAMING)]
    wanted, taken = set(re.findall(r'\$(\w+)', script)), []
    for line in reversed(naming):
        name = line.split()[1]
        if name in wanted and name not in [one.split()[1] for one in taken]:
            taken.insert(0, line)
            wanted |= set(re.findall(r'\$(\w+)', line))
    return '\n'.join([*taken, script]) + '\n'


def of_client(script):
    model = client_rows.Script()
    for line in script.splitlines():
        model.read(line)
    return ''.join(line + '\n' for line in model.said)


def of_calendar(script):
    return calendar_rows.transcript(script).decode()


def of_store(script):
    return store_rows.transcript(script)


def of_archive(script):
    model = archive_rows.ArchiveScript()
    for line in script.splitlines():
        model.read(line)
    return ''.join(line + '\n' for line in model.said)


# ---- what a run is to answer where it answers want of memory

def split_at(text, run):
    """The lines before a run, its own, and those after it. A run's own lines end with that of its status."""
    lines = text.splitlines()
    at = lines.index(run) + 1
    end = next(i for i in range(at, len(lines)) if re.match(r'= \d', lines[i])) + 1
    return lines[:at], lines[at:end], lines[end:]


def is_text_cut(lines, wanted):
    """Whether lines of a text are those that come first in another."""
    return lines == wanted[:len(lines)]


def is_client_short(script, text, wanted):
    """Whether a run of the client answers want of memory, and leaves of its outputs prefixes."""
    run = next(line for line in script.splitlines() if line.startswith('ots '))
    (before, found, after), (same, whole, rest) = split_at(text, run), split_at(wanted, run)
    asked = whole[-1].partition(', asked ')[2].split()
    status, _, to = found[-1].partition(', asked ')
    made = {line.split()[1]: int(line.split()[2]) for line in whole if line.startswith('+ ')}
    left = {line.split()[1]: int(line.split()[2]) for line in found if line.startswith('+ ')}
    printed = [line for line in found[:-1] if not line.startswith(('+ ', '! '))]
    return (before == same and status == '= 20' and to.split() == asked[:len(to.split())]
            and is_text_cut(printed, [line for line in whole[:-1] if not line.startswith('+ ')])
            and all(left[name] <= made.get(name, -1) for name in left)
            and not any(line.startswith('! ') for line in found)
            and all(is_made_short(script, line, said) for line, said in zip(after[::2], after[1::2]))
            and after[::2] == rest[::2])


def is_made_short(script, line, said):
    """Whether what is said of a file that is to be made is that it is, that there is none, or that it has a prefix."""
    if said in ('= so it is', '= no: nothing'):
        return True
    model = client_rows.Script()
    for one in script.splitlines():
        if one.startswith('let '):
            model.read(one)
    found = re.fullmatch('= no: ([0-9a-f]*)', said)
    return found is not None and model.bytes_of(line.split()[2:]).hex().startswith(found[1])


def is_calendar_short(script, text, wanted):
    """Whether a run of the calendar answers want of memory, and the journal lists what it had or what the run stores;
    or the run that lists does."""
    run = next(line for line in script.splitlines() if line.startswith('otsd '))
    (before, found, after), (same, whole, rest) = split_at(text, run), split_at(wanted, run)
    if before != same:
        return False
    if found == whole:
        _, listed, none = split_at('\n'.join(after), LISTED)
        return re.match('= 20, ', listed[-1]) is not None and len(listed) == 1 and not none
    untouched = of_calendar(script.replace(run + '\nkeep\n', ''))
    return (re.match('= 20, ', found[-1]) is not None and is_text_cut(found[:-1], whole[:-1])
            and split_at('\n'.join(after), LISTED)[1] in (split_at('\n'.join(rest), LISTED)[1],
                                                           split_at(untouched, LISTED)[1]))


def is_archive_short(script, text, wanted):
    """Whether a run of the archive answers want of memory, and leaves of its outputs prefixes."""
    run = next(line for line in script.splitlines() if line.startswith('otsarchive '))
    (before, found, after), (same, whole, rest) = split_at(text, run), split_at(wanted, run)
    sizes = [{line.rpartition(' ')[0]: int(line.rpartition(' ')[2]) for line in lines if line.startswith('+ ')}
             for lines in (found, whole)]
    printed = [[line for line in lines[:-1] if not line.startswith('+ ')] for lines in (found, whole)]
    return (before == same and found[-1].startswith('= 20') and is_text_cut(*printed) and after == rest
            and all(size <= sizes[1].get(name, -1) for name, size in sizes[0].items()))


LISTED = 'otsd j list'


# The lines of a script that have bytes, and the place of their first word.
CALENDAR_BYTES = {'let': 2, 'file': 2, 'journal': 1, 'nonces': 1}
STORE_BYTES = {'disk': 1, 'append': 2, 'entries': 1}


def lost_words(script, model, places):
    """What the program says that reads a script, where it loses one word of digits: that of the calendar and that of
    the journal take a word for whose bytes there is no memory for one that is none."""
    lines = script.splitlines()
    named = {'$' + line.split()[1]: line.split()[2:] for line in lines if line.startswith('let ')}
    for at, line in enumerate(lines):
        words = line.split(' ')
        if model is of_store and words[0] in places:
            words = [one for word in words for one in named.get(word, [word])]
        for place in range(places.get(words[0], len(words)), len(words)):
            if re.fullmatch(r'([0-9a-f]{2})+(\*\d+)?', words[place]):
                cut = ' '.join(words[:place] + words[place + 1:])
                said = model('\n'.join(lines[:at] + [cut] + lines[at + 1:]) + '\n').splitlines()
                said[said.index(cut)] = line
                yield '\n'.join(said) + '\n'


def without(lines, at):
    """A script without one of its calls, and where that opens the journal, without the calls after it."""
    end = at + 1
    if lines[at] == 'journal':
        while end < len(lines) and lines[end] != 'journal':
            end += 1
    return lines[:at] + lines[end:]


def is_store_short(script, text, _):
    """Whether one call answers want of memory, and the others as they do where that call is not made. Where a journal
    is not opened, none of its calls is made."""
    lines = text.splitlines()
    refused = [at for at, line in enumerate(lines) if line.startswith('= out of memory')]
    if len(refused) != 1 or lines[refused[0]] not in ('= out of memory', '= out of memory, faults 0'):
        return False
    kept = lines[:refused[0] - 1] + lines[refused[0] + 1:]
    asked, said = [line for line in kept if not line.startswith('= ')], script.splitlines()
    return (asked in [without(said, at) for at, line in enumerate(said) if line == lines[refused[0] - 1]]
            and of_store('\n'.join(asked) + '\n').splitlines() == kept)


# ---- runs

# The scripts of a crate of rows and how each ends, what its model says, how a run tells want of memory, and where its
# script has bytes.
Form = collections.namedtuple('Form', 'crate scripts end model is_short places')
FORMS = [Form('ots_client_rows', CLIENT, '', of_client, is_client_short, {}),
         Form('ots_calendar_rows', CALENDAR, f'\nkeep\n{LISTED}', of_calendar, is_calendar_short, CALENDAR_BYTES),
         Form('ots_store_rows', STORE, '', of_store, is_store_short, STORE_BYTES),
         Form('ots_archive_rows', ARCHIVE, '', of_archive, is_archive_short, {})]


class Program:
    """The program of a crate of rows over the preloaded library."""

    def __init__(self, crate, library):
        self.path, self.library = os.path.join(TOP, 'build', crate), library
        if not os.path.exists(self.path):
            sys.exit(f'{self.path} is not there: ./run {crate} < /dev/null builds it')

    def run(self, script, fails):
        """Its status, what it wrote, and how many allocations it made where none fails; this one fails, or none for 0."""
        env = dict(os.environ, LD_PRELOAD=self.library, FAILS=str(fails))
        done = subprocess.run([self.path], input=script, env=env, capture_output=True, encoding='utf8', check=False)
        return done.returncode, done.stdout, len(done.stderr)


def what_came(script, wanted, form, status, text):
    if status == 1 and wanted.startswith(text):
        return READER
    if status != 0:
        return OTHER
    if text == wanted:
        return ROW
    if form.is_short(script, text, wanted):
        return WANT
    return READER if text in lost_words(script, form.model, form.places) else OTHER


def run(name, program, script, form):
    """Prints what came of one run, and answers whether it was what is to come."""
    wanted = form.model(script)
    status, text, last = program.run(script, 0)
    if (status, text) != (0, wanted):
        print(f'{name}: NOT AS THE MODEL SAYS with enough memory:\n{text}')
        return False
    came = collections.Counter()
    for fails in range(1, last + 1):
        status, text, _ = program.run(script, fails)
        what = what_came(script, wanted, form, status, text)
        came[what] += 1
        if what == OTHER and came[what] == 1:
            print(f'{name}: NOT AS IT IS TO BE where growth {fails} is refused, status {status}:\n{text}')
    print(f'| {name} | {last} | {came[WANT]} | {came[ROW]} | {came[READER]} |', flush=True)
    return not came[OTHER] and came[WANT] > 0


def main():
    wanted_words, is_good = sys.argv[1:], True
    print('| run | growths refused | want of memory | answer of the row | met by the reader of the script |')
    print('|---|---|---|---|---|')
    with tempfile.TemporaryDirectory() as work:
        library, source = os.path.join(work, 'memory.so'), os.path.join(work, 'memory.c')
        with open(source, 'w', encoding='utf8') as file:
            file.write(LIBRARY)
        subprocess.run(['cc', '-shared', '-fPIC', '-O1', '-o', library, source, '-ldl'], check=True)
        for form in FORMS:
            chosen = {name: script for name, script in form.scripts.items()
                      if not wanted_words or any(word in name for word in wanted_words)}
            program = Program(form.crate, library) if chosen else None
            for name, script in chosen.items():
                is_good &= run(name, program, named(form.crate, script + form.end), form)
    sys.exit(0 if is_good else 1)


if __name__ == '__main__':
    main()
