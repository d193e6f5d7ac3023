#!/usr/bin/env python3
"""Sees that each place to which docs/AUDIT.md leads is there.

    docs/audit.py [--write]

A place is a link [`TEXT`](../PATH#LN): line N of the file PATH must have TEXT in it. A link without a line must lead to a
file. In the tables of definitions the number of a file's lines must be right. With --write the numbers are made
right: N is the first line with TEXT. It prints what is wrong, and ends with status 1 where something is.
"""

import os
import re
import sys

TOP = os.path.dirname(os.path.dirname(os.path.abspath(__file__)))
PAGE = f'{TOP}/docs/AUDIT.md'


def lines_of(path):
    with open(f'{TOP}/{path}', encoding='utf8') as file:
        return file.read().split('\n')


def main():
    with open(PAGE, encoding='utf8') as file:
        text = file.read()
    bad = []

    def place(match):
        said, path, number = match.group(1), match.group(2), int(match.group(3))
        if not os.path.isfile(f'{TOP}/{path}'):
            bad.append(f'{path} is not there')
            return match.group(0)
        lines = lines_of(path)
        if number <= len(lines) and said in lines[number - 1]:
            return match.group(0)
        found = next((k for k, line in enumerate(lines, 1) if said in line), None)
        bad.append(f'{path}: line {number} has no {said}' + ('' if found else ', nor has another'))
        return f'[`{said}`](../{path}#L{found or number})'

    def count(match):
        path, number = match.group(1), match.group(2)
        if not os.path.isfile(f'{TOP}/{path}'):
            bad.append(f'{path} is not there')
            return match.group(0)
        lines = len(lines_of(path)) - 1
        if int(number) != lines:
            bad.append(f'{path} has {lines} lines')
        return match.group(0).replace(f'| {number} |', f'| {lines} |')

    text = re.sub(r'\[`([^`\]]+)`\]\(\.\./([\w./+-]+)#L(\d+)\)', place, text)
    text = re.sub(r'\]\(\.\./(crates/[\w./+-]+)\) \| (\d+) \|', count, text)
    for path in re.findall(r'\]\(\.\./([\w./+-]+)\)', text):
        if not os.path.exists(f'{TOP}/{path}'):
            bad.append(f'{path} is not there')
    if sys.argv[1:] == ['--write']:
        with open(PAGE, 'w', encoding='utf8') as file:
            file.write(text)
        bad = [it for it in bad if 'is not there' in it or 'nor has' in it]
    print('\n'.join(bad) or 'each place is there')
    sys.exit(1 if bad else 0)


main()
