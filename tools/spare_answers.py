#!/usr/bin/env python3
"""spare_answers.py [--drop] CRATE..: takes all answers of a crate away at once, checks the crate over sources (over_sources.py), and says of each function
which answers the search finds. With --drop those go, with the imports that nothing uses then; where a function is not proved without them its file comes
back whole. Without it every file comes back. Run it at the top of a clone of its own. It decides nothing."""
import os
import re
import subprocess
import sys

ANSWER = re.compile(r'^pub (\S+) : goal\.')


def check(crate, *more):
    ran = subprocess.run(['python3', 'tools/over_sources.py', crate, '--only', crate, '--allow-holes', *more], capture_output=True, text=True)
    return (ran.stdout + ran.stderr).split('\n')


def asked(crate, said):
    """The answers that the check asks for, by file."""
    needed, path = {}, None
    for line in said:
        if m := re.match(r'help: (?:write|add these lines to) \./(proofs/\S*Answers\.antt)', line):
            path = f'crates/{crate}/{m[1]}'
        elif line.startswith(('note:', 'fn ', 'help:', 'error', 'warning')):
            path = None
        elif path and (m := ANSWER.match(line.strip())):
            needed.setdefault(path, set()).add(m[1])
    return needed


def without(text, free):
    """The file without these answers: each with the comments above it, up to the next item."""
    lines, out, i = text.split('\n'), [], 0
    while i < len(lines):
        m = ANSWER.match(lines[i])
        if not m or m[1] not in free:
            out.append(lines[i])
            i += 1
            continue
        while out and out[-1].startswith('--') and not out[-1].startswith('-- ----'):
            out.pop()
        i += 1
        while i < len(lines) and (not lines[i] or lines[i].startswith((' ', m[1] + ' ', 'unfolding '))):
            i += 1
    return '\n'.join(out).rstrip('\n') + '\n'


def write(path, text):
    with open(path, 'w', encoding='utf-8') as f:
        f.write(text)


drop = '--drop' in sys.argv
for crate in (a for a in sys.argv[1:] if a != '--drop'):
    listed = subprocess.run(['git', 'ls-files', f'crates/{crate}/proofs'], capture_output=True, text=True).stdout.split()
    texts = {}
    for path in listed:
        if path.endswith('/Answers.antt'):
            with open(path, encoding='utf-8') as f:
                texts[path] = f.read()
            os.remove(path)
    said = check(crate)
    needed = asked(crate, said)
    spare = {}
    for path, text in texts.items():
        names = [m[1] for line in text.split('\n') if (m := ANSWER.match(line))]
        if needed.get(path, set()) <= set(names) and any('holes=' in line for line in said):
            spare[path] = [n for n in names if n not in needed.get(path, set())]
        if not spare.get(path) or not drop:
            write(path, text)
        elif len(spare[path]) < len(names):
            write(path, without(text, spare[path]))
        if spare.get(path):
            print(crate, path, len(spare[path]), 'of', len(names), 'found:', ' '.join(spare[path]), flush=True)
    if drop:
        for line in check(crate, '--fix-imports'):
            for path in texts:
                if path[len(f'crates/{crate}/'):] in line and line.startswith('fn ') and 'no proof: expected' in line and spare.get(path):
                    write(path, texts[path])
                    print(crate, path, 'not proved without them: it came back', flush=True)
