#!/usr/bin/env python3
"""statements.py COMMIT: the statements of the proof files (theorems and lemmas that `pub` hands out) that changed since a commit, old and new.

Answers, invariants and what a check writes are left out: they state nothing of their own. `port.py contracts` lists contracts and definitions.
"""
import re
import subprocess
import sys


def files(commit):
    """The proof files that state something, by name."""
    names = subprocess.run(['git', 'ls-tree', '-r', '--name-only', commit, 'crates/'], check=True, stdout=subprocess.PIPE,
                           text=True).stdout.split()
    names = [n for n in names if re.fullmatch(r'crates/\w+/proofs/.*\.antt', n)
             and n.rsplit('/', 1)[1] not in ('Answers.antt', 'Invariants.antt', 'Goals.antt')]
    return {n: subprocess.run(['git', 'show', f'{commit}:{n}'], check=True, stdout=subprocess.PIPE, text=True).stdout
            for n in names}


def statements(read):
    """What each public name states: its type, or the fields of its record, without the proof."""
    said = {}
    for name, text in read.items():
        lines = [line for line in text.split('\n') if not line.strip().startswith('--')]
        for i, line in enumerate(lines):
            m = re.match(r'( *)(?:abbrev |unfoldable )?pub (?:abbrev |unfoldable |record |data )?([^\s:{(]+)(?= )', line)
            if not m or line.strip().startswith('pub use'):
                continue
            record = re.search(r'\bpub (record|data) ', line)
            depth, taken = len(m.group(1)), [line.strip()]
            clauses = re.match(r' *(abbrev|unfoldable) ', line)
            for more in lines[i + 1:]:
                inner = len(more) - len(more.lstrip())
                own = clauses and inner == depth and more.split()[:1] == [m.group(2)]
                if not more.strip() or (inner <= depth and not own):
                    break
                taken.append(more.strip())
            if not record and depth and re.search(r'^\s+pub \S+ : ', line) and is_field(lines, i, depth):
                continue
            said[(name.split('/')[1], name.split('/proofs/')[1], m.group(2))] = ' '.join(taken)
    return said


def is_field(lines, i, depth):
    """Whether a line is a field of a record above it."""
    for line in reversed(lines[:i]):
        if line.strip() and len(line) - len(line.lstrip()) < depth:
            return bool(re.search(r'\b(record|data) ', line))
    return False


def main():
    old, new = statements(files(sys.argv[1])), statements(files('HEAD'))
    moved = {(c, n): (c, f, n) for c, f, n in new}
    gone = []
    for key in sorted(old):
        now = key if key in new else moved.get((key[0], key[2]))
        if now is None:
            gone.append(key)
        elif new[now] != old[key]:
            print(f'{key[0]} {key[1]} {key[2]}\n    - {old[key]}\n    + {new[now]}')
    for c, f, n in gone:
        print(f'gone: {c} {f} {n}\n    - {old[(c, f, n)]}')
    print(f'{len(old)} -> {len(new)} statements, {len(gone)} of the old names gone')


main()
