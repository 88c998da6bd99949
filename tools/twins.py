#!/usr/bin/env python3
"""Lists the functions, and the types, of the crates' src/ whose texts are alike but for names, types and numbers, in groups: they may be twins.

Usage: tools/twins.py [FOLDER]     (FOLDER: the repository, else the one that the script lies in)
"""
import difflib, os, re, sys

root = sys.argv[1] if len(sys.argv) > 1 else os.path.join(os.path.dirname(os.path.abspath(__file__)), '..')
LEAST = 44      # words that a text must have, so that one-line functions do not count
ALIKE = 0.88    # of its words in the same order

HEAD = re.compile(r'^( *)(?:pub(?:\(crate\))? )?(?:extern "C" )?(?:const )?(fn|struct|enum) (\w+)')
WORD = re.compile(r"\w+|[^\w\s]")
KEYWORDS = set('let mut if else match while for in loop return break continue fn pub struct enum self Self as true false const &'.split())

def items(path):
    lines = open(path, encoding='utf-8').read().split('\n')
    n = 0
    while n < len(lines):
        m = HEAD.match(lines[n])
        if not m:
            n += 1
            continue
        end = n
        while end < len(lines) and lines[end] != m.group(1) + '}' and not (end == n and lines[n].rstrip().endswith((';', '}'))):
            end += 1
        yield m.group(2), m.group(3), n + 1, lines[n:end + 1]
        n = end + 1

def shape(lines):
    text = []
    for line in lines:
        line = line.split('//')[0].strip()
        if not line.startswith(('ensures', 'requires', 'ghost', '×')):
            text.append(line)
    return ['n' if w[0].isdigit() else w if w in KEYWORDS or not (w[0].isalpha() or w[0] == '_') else 'x' for w in WORD.findall(' '.join(text))]

found = []
for folder, _, files in sorted(os.walk(os.path.join(root, 'crates'))):
    if '/src' not in folder:
        continue
    for file in sorted(files):
        if file.endswith('.rt'):
            path = os.path.join(folder, file)
            for kind, name, line, lines in items(path):
                words = shape(lines)
                if len(words) >= LEAST:
                    found.append((kind, os.path.relpath(path, root), line, name, words))

group = list(range(len(found)))

def first_of(i):
    while group[i] != i:
        i = group[i]
    return i

for i, a in enumerate(found):
    for j in range(i + 1, len(found)):
        b = found[j]
        if a[0] == b[0] and 0.8 <= len(a[4]) / len(b[4]) <= 1.25:
            matcher = difflib.SequenceMatcher(None, a[4], b[4], autojunk=False)
            if matcher.real_quick_ratio() >= ALIKE and matcher.quick_ratio() >= ALIKE and matcher.ratio() >= ALIKE:
                group[first_of(j)] = first_of(i)

groups = {}
for i in range(len(found)):
    groups.setdefault(first_of(i), []).append(found[i])
groups = [g for g in groups.values() if len(g) > 1]
for g in groups:
    print(', '.join(f'{path}:{line} {name}' for _, path, line, name, _ in g))
print(f'{len(groups)} groups of {sum(len(g) for g in groups)} functions and types')
