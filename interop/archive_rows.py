#!/usr/bin/python3
"""Makes the transcript that the rows of the archive are to have, with a plain model of `otsarchive`.

    interop/archive_rows.py [--write]

reads the script crates/ots_archive_rows/stdin, whose language the head of that crate describes, and compares the crate's
stdout with what the model of archive_model.py says of each line. With --write it writes that file. The program is compared
with the same file by `rt ci`.

It runs nothing of this repository. It is run by hand, takes some seconds, and ends with status 1 at a difference.
"""

import hashlib
import os
import sys

from archive_model import run, sheet
from client_rows import Outside, Script, Stage, text_of, texts_of, words_of
from http_rows import quoted, told

CRATE = os.path.join(os.path.dirname(os.path.dirname(os.path.abspath(__file__))), 'crates', 'ots_archive_rows')

NAMING = {'let': bytes, 'sha256': lambda data: hashlib.sha256(data).digest(), 'hex': lambda data: data.hex().encode()}


class ArchiveScript(Script):
    """The script of this crate, with the pieces of the client's."""

    def __init__(self):
        super().__init__()
        self.outputs = []

    def obey(self, line):
        self.said.append(line)
        if line.startswith('#') or not line:
            return
        word, *rest = words_of(line)
        if word == 'otsarchive':
            self.run(list(texts_of(rest)))
        elif word == 'made':
            self.compare(self.made.get(text_of(rest[0])), self.bytes_of(rest[1:]))
        elif word in NAMING:
            self.named[rest[0]] = NAMING[word](self.bytes_of(rest[1:]))
        else:
            self.prepare(word, rest)

    def prepare(self, word, rest):
        stage = self.stage
        if word == 'clear':
            self.stage, self.outputs = Stage(), []
        elif word == 'file':
            stage.files[text_of(rest[0])] = self.bytes_of(rest[1:])
        elif word == 'sheet':
            stage.files[text_of(rest[0])] = sheet(self.bytes_of(rest[1:]).split(b'\n')[:-1])
        elif word == 'output':
            self.outputs = list(texts_of(rest))
        elif word == 'keep':
            stage.files.update(self.made)
        elif word == 'nonces':
            stage.nonces = self.bytes_of(rest)
        else:
            assert word in ('shelf', 'sink', 'nonce'), word
            stage.failing[word] = list(map(int, rest))

    def run(self, words):
        out = Outside(self.stage)
        status = run(out, words)
        self.stage.failing = Stage().failing
        made = {name for name in out.files if name not in out.old}
        assert made <= set(self.outputs), made
        self.made = {name: out.files[name] for name in self.outputs if name in made}
        text = out.text.encode('utf8', 'surrogateescape')
        try:
            self.said += text.decode('utf8').split('\n')[:-1]
        except UnicodeDecodeError:
            self.said.append(f'= printed {quoted(text)}')
        self.said += [f'+ {quoted(name.encode())} {len(data)}' for name, data in self.made.items()]
        self.said.append(f'= {status}')

    def compare(self, found, wanted):
        if found != wanted:
            sys.exit(f'{self.said[-1]}: the model has {found and told(found)}, not {told(wanted)}')
        self.said.append('= so it is')


def main():
    script = ArchiveScript()
    with open(os.path.join(CRATE, 'stdin'), encoding='utf8') as lines:
        for line in lines:
            script.read(line.rstrip('\n'))
    said = ''.join(line + '\n' for line in script.said)
    name = os.path.join(CRATE, 'stdout')
    if sys.argv[1:] == ['--write']:
        with open(name, 'w', encoding='utf8') as file:
            file.write(said)
        return
    with open(name, encoding='utf8') as file:
        differs = file.read() != said
    print(f'{len(script.said)} lines, {"another transcript" if differs else "no difference"}')
    sys.exit(1 if differs else 0)


if __name__ == '__main__':
    main()
