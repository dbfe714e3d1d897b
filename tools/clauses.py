#!/usr/bin/env python3
# Facts that stand in the contracts of three or more functions of a crate, and parameters that travel together in three or more.
# Usage: tools/clauses.py [ROOT]. A clause counts as the same at entry and at exit (`.old`, `.new` and `.now` are read alike).
import collections
import glob
import re
import sys

ROOT = sys.argv[1] if len(sys.argv) > 1 else '.'
SKIPPED = ('self', '&self', '&mut self', 'mut self', 'rt')

requires, ensures, pairs = (collections.defaultdict(set) for _ in range(3))
for path in sorted(glob.glob(f'{ROOT}/crates/*/src/**/*.rt', recursive=True)):
    crate = path.split('/crates/')[1].split('/')[0]
    text = open(path).read()
    for m in re.finditer(r'\bfn (\w+)[^{;(]*?\(([^{]*?)\)\s*(->|requires|ensures|\{|;|where)', text, re.S):
        names = [p.split(':')[0].strip().removeprefix('mut ') for p in re.split(r',(?![^<(\[]*[>)\]])', m.group(2)) if p.strip()]
        names = [n for n in names if n not in SKIPPED and not n.startswith('_')]
        for i, a in enumerate(names):
            for b in names[i + 1:]:
                pairs[crate, a, b].add(m.group(1))
    function = None
    for line in text.split('\n'):
        if m := re.search(r'\bfn (\w+)', line):
            function = m.group(1)
        if m := re.match(r'\s*(requires|ensures)\s*\*?\s*(\w+ )?\{ (.*) \}\s*;?$', line):
            fact = re.sub(r'\.(old|new)\b', '.now', m.group(3))
            (requires if m.group(1) == 'requires' else ensures)[crate, fact].add(function)

for title, found in (('required', requires), ('ensured', ensures), ('together', pairs)):
    rows = [(k, v) for k, v in sorted(found.items()) if len(v) >= 3]
    print(f'{title} in three or more functions: {len(rows)}')
    for k, v in rows:
        print('  ', k[0], '|', ' '.join(k[1:]), '|', ', '.join(sorted(v)))
