#!/usr/bin/env python3
# Pairs of functions whose bodies are alike but for names, types and constants. Usage: tools/twins.py [ROOT]
import difflib
import glob
import re
import sys

ROOT = sys.argv[1] if len(sys.argv) > 1 else '.'
SHORTEST, ALIKE = 12, 0.85
KEPT = {'if', 'else', 'match', 'for', 'in', 'while', 'let', 'mut', 'return', 'break', 'self', 'Ok', 'Err', 'Some', 'None'}


def body(text, start):
    """The text between the braces that open at the first line that has nothing but one, or at the signature's end."""
    m = re.compile(r'\{[^\S\n]*\n|\{\}').search(text, start)
    if not m:
        return ''
    depth, i = 0, m.start()
    for i in range(m.start(), len(text)):
        depth += {'{': 1, '}': -1}.get(text[i], 0)
        if depth == 0:
            break
    return text[m.start() + 1:i]


found = []
for path in sorted(glob.glob(f'{ROOT}/crates/*/src/**/*.rt', recursive=True)):
    text = re.sub(r'//[^\n]*', '', open(path).read())
    text = re.sub(r'^\s*(requires|ensures\*?)[^\n]*\n', '', text, flags=re.M)
    for m in re.finditer(r'\bfn (\w+)', text):
        head = text[m.start():m.start() + 400]
        if re.match(r'fn \w+[^{;]*;', head):
            continue
        words = re.findall(r'\w+|[^\w\s]', body(text, m.start()))
        shape = [w if w in KEPT or not w[0].isalnum() else '#' for w in words]
        if len(shape) >= SHORTEST:
            found.append((path.split('/crates/')[1], m.group(1), shape))

count = 0
for i, (p, f, a) in enumerate(found):
    for q, g, b in found[i + 1:]:
        if abs(len(a) - len(b)) > 0.2 * max(len(a), len(b)):
            continue
        r = difflib.SequenceMatcher(None, a, b, autojunk=False).ratio()
        if r >= ALIKE:
            count += 1
            print(f'{r:.2f}  {p} {f}  |  {q} {g}')
print('pairs:', count)
