#!/usr/bin/python3
"""Draws docs/cycle.svg: how a file comes to a proof that needs no calendar any more.

    docs/cycle.py [--check]

writes the drawing, or compares it with the file that is there and ends with status 1 where they differ.
"""

import os
import sys

BOX_WIDTH, BOX_HEIGHT = 190, 46
WIDTH, HEIGHT = 860, 388

# Each box: its place, its first line, which is a command or a thing, its second line, and whether it is a command.
BOXES = {
    'file': (20, 20, 'a file', 'yours; it stays with you', False),
    'stamp': (20, 106, 'ots stamp', 'a nonce, one root for all files', True),
    'gate': (335, 20, 'otsgate', 'many clients, one root a round', True),
    'serve': (335, 106, 'otsd serve', 'one commitment a round', True),
    'journal': (335, 192, 'the journal', 'no crash loses a record', False),
    'mirror': (650, 106, 'otsmirror', 'a copy of the journal', True),
    'tip': (335, 278, 'otsd tip, otsd anchor', 'the root, and the way to a block', True),
    'block': (650, 278, 'a block of Bitcoin', 'carries the root', False),
    'upgrade': (20, 192, 'ots upgrade', 'the proof, complete', True),
    'verify': (20, 278, 'ots verify', 'needs the headers alone', True),
}

# Each arrow: from a point to a point, and what stands beside it.
ARROWS = [
    ((115, 66), (115, 106), ''),
    ((210, 116), (335, 53), 'POST'),
    ((430, 66), (430, 106), ''),
    ((210, 131), (335, 131), 'POST /digest'),
    ((430, 152), (430, 192), ''),
    ((525, 205), (650, 138), 'GET /records'),
    ((430, 238), (430, 278), ''),
    ((525, 301), (650, 301), ''),
    ((335, 215), (210, 215), 'GET /timestamp'),
    ((115, 152), (115, 192), ''),
    ((115, 238), (115, 278), ''),
]

STYLE = """
    text { font: 13px sans-serif; fill: #222; text-anchor: middle }
    .command { font-family: monospace; font-weight: bold }
    .small { font-size: 11px; fill: #555 }
    rect { fill: #f4f6f8; stroke: #57606a; rx: 6px }
    line { stroke: #57606a; stroke-width: 1.5; marker-end: url(#head) }
    marker path { fill: #57606a }
    @media (prefers-color-scheme: dark) {
      text { fill: #e6edf3 }
      .small { fill: #9da7b1 }
      rect { fill: #1c2128; stroke: #9da7b1 }
      line { stroke: #9da7b1 }
      marker path { fill: #9da7b1 }
    }
"""


def drawn():
    parts = [
        f'<svg xmlns="http://www.w3.org/2000/svg" viewBox="0 0 {WIDTH} {HEIGHT}" width="{WIDTH}" height="{HEIGHT}">',
        '<title>From a file to a proof that needs no calendar</title>',
        f'<style>{STYLE}</style>',
        '<defs><marker id="head" viewBox="0 0 10 10" refX="9" refY="5" markerWidth="7" markerHeight="7" orient="auto">'
        '<path d="M0 0L10 5L0 10z"/></marker></defs>',
    ]
    for (from_x, from_y), (to_x, to_y), words in ARROWS:
        parts.append(f'<line x1="{from_x}" y1="{from_y}" x2="{to_x}" y2="{to_y}"/>')
        if words:
            parts.append(f'<text class="small" x="{(from_x + to_x) / 2:g}" y="{(from_y + to_y) / 2 - 7 - abs(to_y - from_y) / 6:g}">{words}</text>')
    for x, y, first, second, is_command in BOXES.values():
        middle = x + BOX_WIDTH / 2
        parts.append(f'<rect x="{x}" y="{y}" width="{BOX_WIDTH}" height="{BOX_HEIGHT}"/>')
        kind = ' class="command"' if is_command else ''
        parts.append(f'<text{kind} x="{middle:g}" y="{y + 19}">{first}</text>')
        parts.append(f'<text class="small" x="{middle:g}" y="{y + 36}">{second}</text>')
    parts.append(f'<text class="small" x="{WIDTH / 2:g}" y="{HEIGHT - 16}">'
                 'once the proof is complete, calendars may go: a file, its proof and the headers of your own node stay'
                 '</text>')
    return '\n'.join(parts) + '\n</svg>\n'


def main():
    name = os.path.join(os.path.dirname(os.path.abspath(__file__)), 'cycle.svg')
    if sys.argv[1:] == ['--check']:
        with open(name, encoding='utf8') as file:
            sys.exit(0 if file.read() == drawn() else 1)
    with open(name, 'w', encoding='utf8') as file:
        file.write(drawn())


if __name__ == '__main__':
    main()
