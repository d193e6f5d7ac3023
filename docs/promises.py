#!/usr/bin/env python3
"""Sees that each call, clause and definition that the pages of promises name is in the sources.

    docs/promises.py

Of docs/PROMISES.md and docs/promises/ each word between backquotes that is a name, as `run_client`, `Shared::hold`,
`ends` or `IsUpgradeOf`, must be a function, a type, a variant, a field, a clause, a definition of specs/, a crate, a
test or a file of this repository. Words in italics after the name of a crate of rows must stand in a comment of its
script. It prints each that is none with its page and line, and each cell of a table with more than 40 words, and ends
with status 1 where there is one.
"""

import os
import re
import sys

TOP = os.path.dirname(os.path.dirname(os.path.abspath(__file__)))
# Words between backquotes that are no names of this repository: programs, options, lines that are printed, words of Rust.
OTHERS = set('''busy disk nonce clock pending anchored listening records current behind unreachable complete wrote round
ok upstream Ok Err Send Sync Drop Debug true false usize u64 clap sha1 sha2 hex std fsync main mod rt python3
opentimestamps otsd ots otsmirror otsgate OutOfMemory None Some Ord Eq unwrap create_new POSIX_FADV_DONTNEED sqlite_disk verify_against_blockheader batches'''.split())


def files(*endings):
    for folder, names, found in os.walk(f'{TOP}/crates'):
        names[:] = [it for it in names if it != 'out']
        for name in found:
            if name.endswith(endings):
                with open(f'{folder}/{name}', encoding='utf8') as file:
                    yield f'{folder}/{name}', file.read()


def known():
    """All names that the sources declare."""
    names = set(os.listdir(f'{TOP}/crates')) | OTHERS
    for path, text in files('.rt'):
        names.add(os.path.basename(path)[:-3])
        names.update(re.findall(r'\b(?:fn|struct|enum|trait|type|const|mod)\s+(\w+)', text))
        names.update(re.findall(r'\b(?:ensures|requires)\*?\s+(\w+)\s*\{', text))
        names.update(re.findall(r'^\s*(?:pub(?:\(crate\))?\s+)?(\w+)\s*[:,({]', text, re.M))
        names.update(re.findall(r'ghost\s+(\w+)', text))
    for path, text in files('.antt'):
        names.add(os.path.basename(path)[:-5])
        names.update(re.findall(r'^\s*(?:unfoldable|abbrev)?\s*(?:pub\s+)?(?:record\s+|data\s+)?([\w-]+)\s*[:(]', text, re.M))
        names.update(re.findall(r'\b(?:record|data)\s+(\w+)', text))
        names.update(re.findall(r'\bpub\s+(?:record\s+)?([\w-]+)', text))
    return names


def pages():
    yield 'docs/PROMISES.md'
    for name in sorted(os.listdir(f'{TOP}/docs/promises')):
        yield f'docs/promises/{name}'


def wrong_in(line, names):
    """The names of a line that are not known."""
    for word in re.findall(r'`([^`]+)`', line):
        if '/' in word or '.' in word or ' ' in word or '-' in word:
            if re.fullmatch(r'(interop|bench|docs|crates|examples|by-hand)/[\w./-]+', word) and not os.path.exists(f'{TOP}/{word}'):
                yield word
            continue
        if re.fullmatch(r'\w+(::\w+)*', word) and not re.fullmatch(r'[0-9a-f]+|\d\w*', word):
            if not all(part in names for part in word.split('::')):
                yield word


def comments_of(crate):
    """The comments of a crate of rows, each in one line."""
    with open(f'{TOP}/crates/{crate}/stdin', encoding='utf8') as file:
        return re.sub(r'\n# ', ' ', '\n'.join(line.rstrip('\n') for line in file if line.startswith('#')))


def absent_rows(line):
    """The words in italics that no comment of the rows which are named before them has."""
    crate = None
    for name, words in re.findall(r'`(\w+)`|\*([^*]+)\*', line) if line.startswith('|') else ():
        crate = name or crate
        if words and crate and crate.endswith('_rows') and words not in comments_of(crate):
            yield f'{words}, of {crate},'


def main():
    names, bad = known(), 0
    for page in pages():
        with open(f'{TOP}/{page}', encoding='utf8') as file:
            for number, line in enumerate(file, 1):
                for word in [*wrong_in(line, names), *absent_rows(line)]:
                    print(f'{page}:{number}: {word} is nowhere in the sources')
                    bad += 1
                cells = line.strip().strip('|').split(' | ') if line.startswith('|') else []
                for cell in cells:
                    if len(cell.split()) > 40:
                        print(f'{page}:{number}: a cell of {len(cell.split())} words')
                        bad += 1
    sys.exit(1 if bad else 0)


main()
