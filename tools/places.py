#!/usr/bin/env python3
"""places.py [COMMIT]: lists the places of docs/DESIGN-PASS.md in the sources, as they stand or at a commit.

What it finds by text is read by a person: not each place that it lists is one, and the page says which are.
"""
import collections
import re
import subprocess
import sys


def sources(commit):
    """The sources, by name."""
    names = subprocess.run(['git', 'ls-tree', '-r', '--name-only', commit, 'crates/'] if commit else
                           ['git', 'ls-files', 'crates/'], check=True, stdout=subprocess.PIPE, text=True).stdout.split()
    read = {}
    for name in names:
        if not re.fullmatch(r'crates/\w+/src/\w+\.rt', name):
            continue
        if commit:
            read[name] = subprocess.run(['git', 'show', f'{commit}:{name}'], check=True, stdout=subprocess.PIPE,
                                        text=True).stdout
        else:
            with open(name) as f:
                read[name] = f.read()
    return read


def functions(text):
    """The functions of a source: name, head and body."""
    for m in re.finditer(r'^( *)(?:pub(?:\(crate\))? )?(?:extern "C" )?fn (\w+)', text, re.M):
        brace = re.compile(r'^' + m.group(1) + r'\{$', re.M).search(text, m.end())
        if brace is None:
            continue
        end = text.index('\n' + m.group(1) + '}', brace.end())
        yield m.group(2), text[m.start():brace.start()], text[brace.end():end]


def shape(head, body):
    """A function without its name, its types, its words and its numbers."""
    tokens = re.findall(r'[A-Za-z_]\w*|\d\w*|[^\s\w]', re.sub(r'//[^\n]*', '', body))
    kept = {'if', 'else', 'for', 'in', 'while', 'loop', 'match', 'return', 'let', 'mut', 'as', 'break', 'continue'}
    return len(re.findall(r'\w+: ', head)), tuple(t if t in kept or not re.match(r'\w', t) else '.' for t in tokens)


def grep(read, pattern, title):
    found = [(name, n, line.strip()) for name, text in read.items()
             for n, line in enumerate(text.split('\n'), 1) if re.search(pattern, line) and not line.lstrip().startswith('//')]
    print(f'\n{title}: {len(found)}')
    for name, n, line in found:
        print(f'  {name}:{n}: {line[:110]}')


def main():
    read = sources(sys.argv[1] if 1 < len(sys.argv) else '')
    grep(read, r'^ *(pub(\(crate\))? )?enum ', '1, enums')
    grep(read, r'\b(number|kind|datatype|unit|class|lead): u\d+\b', '1, fields and parameters that are a number for a kind')
    grep(read, r'const \w+: u8 = \d', '1, constants that are a number for a kind')
    grep(read, r'^ +(pub )?\w+: bool,$', '1, flags in structs')
    grep(read, r'\b(width|counted|sequences) [!=]= 0', '1, numbers of which 0 is none')
    alike = collections.defaultdict(list)
    for name, text in read.items():
        for function, head, body in functions(text):
            if 12 <= len(re.findall(r'\w+|[^\s\w]', body)):
                alike[shape(head, body)].append(f'{name.split("/")[1]}::{function}')
    groups = sorted(g for g in alike.values() if 2 <= len(g))
    print(f'\n2, functions that differ in names, types and numbers alone: {sum(map(len, groups))} in {len(groups)} groups')
    for g in groups:
        print('  ' + ', '.join(g))
    grep(read, r'^\s*(while|loop)\b', '3, loops that are no `for`')
    grep(read, r'^\s*for\b', '3, `for` loops')
    grep(read, r'if (\w+) <=? (\w+) \{ (\1|\2) \} else \{ (\1|\2) \}|wrapping_(add|sub)_u\d+\(', '4, the least of two and sums by hand')
    grep(read, r'\bas [iu](8|16|32|64|size)\b', '4, `as`')
    facts = collections.Counter()
    for text in read.values():
        for m in re.finditer(r'requires(?: \w+)? \{ (.*) \}', text):
            facts.update(part.strip(' ()') for part in m.group(1).split(' × '))
    often = [(n, f) for f, n in facts.items() if 3 <= n]
    print(f'\n5, facts in three `requires` or more: {sum(n for n, f in often)} of {len(often)}')
    for n, f in sorted(often, reverse=True):
        print(f'  {n} {f}')
    together = collections.Counter()
    for text in read.values():
        for function, head, body in functions(text):
            ps = re.findall(r'(\w+): (&(?:mut )?\[\w+\]|[\w:]+|\[[^\]]*\])', head.split('ensures')[0].split('requires')[0])
            together.update({(a, b) for a, b in zip(ps, ps[1:])})
    many = [(n, a, b) for (a, b), n in together.items() if 5 <= n]
    print(f'\n5, parameters that stand beside one another in five functions or more: {sum(n for n, a, b in many)} of {len(many)}')
    for n, a, b in sorted(many, reverse=True):
        print(f'  {n} {a[0]}: {a[1]}, {b[0]}: {b[1]}')
    grep(read, r'(: |\()(&mut )?\[u\d+; \w+(::\w+)?\]|= \[0\w*; ', '6, arrays of a fixed size')
    grep(read, r'\bfn\(|&dyn |match (w|kind|step)\b', '7, switches and tables')


main()
