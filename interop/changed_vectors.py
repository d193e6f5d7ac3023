#!/usr/bin/python3
"""Whether each runner of the conformance vectors notices an expected value that was changed.

    interop/changed_vectors.py [SEED]

For each kind of vectors/ and each of its expected values it takes up to four cases, changes that value (another digit of the
last byte, one more, the last item left out, another case's fault) and runs each runner on that one line, before and after:
interop/run_vectors.py over the programs, interop/plain.py, and interop/library_vectors.py where the library is there. A
runner that says it agrees before is to end with another status than 0 after. It prints how often each runner noticed, and
each change that it did not, and ends with status 1 where there is one. SEED chooses the cases.
"""

import glob
import json
import os
import random
import subprocess
import sys
import tempfile

TOP = os.path.dirname(os.path.dirname(os.path.abspath(__file__)))
RUNNERS = {'run_vectors.py': [], 'plain.py': ['vectors'], 'library_vectors.py': []}
# The second reader and the library refuse, and have other words for why: they read no fault and no place.
UNREAD = {'run_vectors.py': [], 'plain.py': ['fault', 'place'], 'library_vectors.py': ['fault', 'place']}
ANSWERS = {
    'number': ['value', 'length', 'fault'], 'hash': ['digest'], 'operation': ['result', 'fault'],
    'proof': ['listing', 'fault', 'place'], 'canon': ['result'], 'prune': ['result'], 'merge': ['result', 'fault'],
    'verify': ['verdict'], 'chain': ['tip', 'fault', 'height'], 'calendar-tree': ['root', 'path'],
    'block-tree': ['root', 'branch'], 'commitment': ['commitment'], 'block': ['root', 'computed', 'fault', 'place'],
    'journal': ['records', 'fault', 'place'], 'answer': ['answer'], 'request': ['status', 'word', 'asks'],
    'reply': ['body', 'outcome'], 'addresses': ['addresses', 'place', 'https'],
}


def other(value, all_values):
    """Another value of the same form."""
    if isinstance(value, bool):
        return not value
    if isinstance(value, int):
        return value + 1
    if isinstance(value, list):
        return value[:-1] if value else value + [value]
    if value.isdigit() and len(value) < 20:
        return str(int(value) + 1)
    if value and all(digit in '0123456789abcdef' for digit in value):
        return value[:-1] + ('0' if value[-1] != '0' else '1')
    rest = sorted({it for it in all_values if it != value}, key=str)
    return rest[0] if rest else value + ' '


def run(runner, case):
    """The runner's status on one line, and what it printed."""
    with tempfile.NamedTemporaryFile('w', suffix='.jsonl') as out:
        out.write(json.dumps(case) + '\n')
        out.flush()
        words = [sys.executable, os.path.join(TOP, 'interop', runner), *RUNNERS[runner], out.name]
        done = subprocess.run(words, stdout=subprocess.PIPE, stderr=subprocess.DEVNULL, stdin=subprocess.DEVNULL)
    return done.returncode, done.stdout.decode()


def agrees(runner, case):
    status, printed = run(runner, case)
    return status == 0 and 'agree' in printed and '0 agree' not in printed.replace('10 agree', '')


def main():
    rng = random.Random(int((sys.argv[1:] or ['1'])[0]))
    cases = {}
    for name in sorted(glob.glob(os.path.join(TOP, 'vectors', '*.jsonl'))):
        with open(name) as lines:
            for line in lines:
                case = json.loads(line)
                cases.setdefault(case['kind'], []).append(case)
    noticed, missed = {runner: 0 for runner in RUNNERS}, 0
    for kind, answers in ANSWERS.items():
        for answer in answers:
            those = [case for case in cases[kind] if answer in case]
            values = [case[answer] for case in those if isinstance(case[answer], str)]
            for case in rng.sample(those, min(4, len(those))):
                changed = dict(case, **{answer: other(case[answer], values)})
                for runner in RUNNERS:
                    if answer in UNREAD[runner] or not agrees(runner, case):
                        continue
                    if run(runner, changed)[0] != 0:
                        noticed[runner] += 1
                    else:
                        missed += 1
                        print(f'{runner}: {kind} {case["name"]}: {answer} {str(changed[answer])[:60]} was not noticed')
    for runner, count in noticed.items():
        print(f'{runner}: {count} changed values noticed')
    return 1 if missed else 0


if __name__ == '__main__':
    sys.exit(main())
