#!/usr/bin/env python3
"""Writes docs/promises/calls.md: every public call of every library, from the sources.

    docs/calls.py [--check]

For each call: whether it may answer want of memory, whether it may wait for others, its refusals with the clauses that
give each its cause, and the clauses that say what stands then. With --check it ends with status 1 where the
page is another, or where a refusal has no clause.
"""

import os
import re
import sys

TOP = os.path.dirname(os.path.dirname(os.path.abspath(__file__)))
PAGE = f'{TOP}/docs/promises/calls.md'
LEFT_OUT = re.compile(r'_(tests|rows|program|refused|streams|words)$')
# Words of a clause that speak of every refusal of a call at once.
OF_ALL = re.compile(r'\b(IfErr|OnErr|MatchResult|MatchOption|HasCause|IsErrOf|Refused|Unrefreshed|Ends|IsRound|Rounds|is_ok|IsOk)\b')


def crates():
    """The libraries, in the order of crates.txt."""
    with open(f'{TOP}/crates.txt', encoding='utf8') as file:
        names = [line.split(':')[0].split()[0] for line in file if ':' in line and not line.startswith('#')]
    return [it for it in names if os.path.exists(f'{TOP}/crates/{it}/src/lib.rt') and not LEFT_OUT.search(it)]


def sources(crate):
    folder = f'{TOP}/crates/{crate}/src'
    for at, _, names in os.walk(folder):
        for name in sorted(names):
            if name.endswith('.rt'):
                with open(f'{at}/{name}', encoding='utf8') as file:
                    text = file.read()
                yield name, re.sub(r'(?m)^\s*//.*$', '', text)


def closing(text, at):
    """The place after the bracket that closes the one at a place."""
    depth = 0
    for k in range(at, len(text)):
        if text[k] in '({[':
            depth += 1
        elif text[k] in ')}]':
            depth -= 1
            if depth == 0:
                return k + 1
    return len(text)


def exported(crate):
    """The names that the crate's lib.rt gives out."""
    with open(f'{TOP}/crates/{crate}/src/lib.rt', encoding='utf8') as file:
        text = re.sub(r'(?m)^\s*//.*$', '', file.read())
    found = set(re.findall(r'\bpub (?:fn|struct|enum|trait|type) (\w+)', text))
    for group in re.findall(r'pub use ([^;]+);', text):
        found.update(re.findall(r'(\w+)(?=\s*(?:,|\}|$))', group))
    return found


def errors():
    """The variants of each enum of a refusal."""
    found = {}
    for crate in crates():
        for _, text in sources(crate):
            for match in re.finditer(r'\bpub enum (\w+)[^{;]*\{', text):
                body = text[match.end() - 1:closing(text, match.end() - 1)][1:-1]
                body = re.sub(r'#\[[^\]]*\]', '', body)
                while re.search(r'\([^()]*\)|\{[^{}]*\}', body):
                    body = re.sub(r'\([^()]*\)|\{[^{}]*\}', '', body)
                found[match.group(1)] = [it.strip() for it in body.split(',') if it.strip()]
    return found


def functions(text, names):
    """The public calls of a file: their names, signatures and clauses."""
    spans = []
    for match in re.finditer(r'(?m)^(?:pub )?(impl|trait)\b([^{;]*)\{', text):
        # (an impl has clauses of its own within it, and none before its bracket)
        head, end = match.group(2), closing(text, match.end() - 1)
        is_trait_impl = match.group(1) == 'impl' and re.search(r'\bfor\b', head)
        name = re.sub(r'<[^<>]*(?:<[^<>]*>)*[^<>]*>', '', head).strip().split(' ')[0] if match.group(1) == 'impl' else head.split(':')[0].split('<')[0].strip()
        if match.group(1) == 'trait' or not is_trait_impl:
            spans.append((match.start(), end, name, match.group(1) == 'trait'))
    for match in re.finditer(r'(?m)^( *)(pub )?fn (\w+)', text):
        inside = next((it for it in spans if it[0] < match.start() < it[1]), None)
        if match.group(1) and not inside:
            continue
        if inside and inside[2] not in names or not inside and match.group(3) not in names:
            continue
        if not match.group(2) and not (inside and inside[3]):
            continue
        yield (f'{inside[2]}::' if inside else '') + match.group(3), signature(text, match.end())


def signature(text, at):
    """The head of a function and its clauses, as (kind, name, text)."""
    k, clauses, head_end = at, [], None
    while k < len(text):
        match = re.compile(r'\s*(ensures|requires)(\*?)\s*(\w*)\s*\{').match(text, k)
        if match:
            head_end = head_end if head_end is not None else k
            end = closing(text, match.end() - 1)
            clauses.append((match.group(1), match.group(3), text[match.end():end - 1]))
            k = end
        elif text[k] in '{;':
            return text[at:head_end if head_end is not None else k], clauses
        else:
            k = closing(text, k) if text[k] in '([' else k + 1
    return text[at:], clauses


def refusals(head, variants):
    """The refusals of a call by its result: (word as clauses have it, name)."""
    result = head.rpartition('->')[2].strip() if '->' in head else ''
    match = re.search(r'\bResult<(.*)>\s*(?:where.*)?$', result, re.S)
    if match:
        parts, depth, last = [], 0, 0
        inner = match.group(1)
        for k, letter in enumerate(inner):
            depth += letter in '<(' 
            depth -= letter in '>)'
            if letter == ',' and depth == 0:
                parts.append(inner[last:k])
                last = k + 1
        error = (parts + [inner[last:].strip().rstrip(',')])[-1].strip() or parts[-1].strip()
        error = re.sub(r'<.*', '', error).split('::')[-1].strip()
        if error in variants:
            return [(f'{error}.{it}', it) for it in variants[error]]
        return [(error, error)]
    return [('None', 'None')] if re.match(r'Option<', result) else []


def row(name, head, clauses, variants):
    """A row of the table, and whether each of its refusals has a clause."""
    told = [(label or 'ensures', body) for kind, label, body in clauses if kind == 'ensures']
    found = refusals(head, variants)
    takes = 'Global' in head or any(it == 'OutOfMemory' for _, it in found)
    cells, whole = [], True
    for word, short in found:
        if short == 'OutOfMemory':
            continue
        own = [label for label, body in told if re.search(rf'\b{re.escape(word)}\b', body) or re.search(rf'\b{short}\b', body)]
        own = own or [label for label, body in told if OF_ALL.search(body)] or [label for label, body in told if re.search(r'\bresult\b', body)]
        whole = whole and bool(own)
        cells.append(f'{short}: ' + (', '.join(f'`{it}`' for it in own[:3]) if own else '**none**'))
    after = [label for label, body in told if '.new' in body or '.exit' in body]
    changes, given = '&mut' in head, re.search(r'\(\s*(mut )?self\b', head)
    wait = ' waits;' if re.search(r':[^,>]*\bWait\b', head) else ''
    memory = 'may run out' if takes else 'none'
    said = '; '.join(cells) if cells else 'none'
    left = ', '.join(f'`{it}`' for it in after[:6]) if changes else 'what was handed in is used up' if given else 'it changes nothing'
    left = left if found else 'no refusal'
    return f'| `{name}` |{wait} {memory} | {said} | {left or "**open**"} |', whole and bool(left)


def main():
    variants, out, lacking, count = errors(), [], [], 0
    for crate in crates():
        rows, names = [], exported(crate)
        for _, text in sources(crate):
            for name, (head, clauses) in functions(text, names):
                line, whole = row(name, head, clauses, variants)
                rows.append(line)
                count += 1
                if not whole:
                    lacking.append(f'{crate}: {name}')
        if rows:
            out += ['', f'## `{crate}`', '', '| call | memory | refusals, with the clauses of their causes | clauses on what stands then |',
                    '|---|---|---|---|', *sorted(rows)]
    head = ['# Every public call', '', f'Made from the sources by `docs/calls.py`: {count} calls. That each returns is the prover\'s; those marked *waits* may wait for',
            'others, and what they promise holds if they return. Want of memory is the one answer that needs no cause. A refusal that is named',
            'by no clause of its own has its cause by one that speaks of the whole result; `ensures` is a call\'s one clause without a name.']
    text = '\n'.join(head + out) + '\n'
    if sys.argv[1:] == ['--check']:
        with open(PAGE, encoding='utf8') as file:
            same = file.read() == text
        print('\n'.join(lacking + ([] if same else ['docs/promises/calls.md is another: docs/calls.py writes it'])))
        sys.exit(0 if same and not lacking else 1)
    with open(PAGE, 'w', encoding='utf8') as file:
        file.write(text)
    print(f'{count} calls, {len(lacking)} with a refusal without a clause')
    print('\n'.join(lacking))


main()
