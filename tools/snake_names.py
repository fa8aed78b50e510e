#!/usr/bin/env python3
"""Brings the names of our own definitions and lemmas to snake case: a name that is declared in some specs/ or proofs/,
begins with a small letter and has a capital in it (setOf becomes set_of, member-setOf member-set_of), and a definition
of specs/ that has a dash in it. A lemma keeps the dashes that join its parts, and has them again where port.py wrote
it as such a definition is now called. Types, modules and what Rattle declares keep their names. It runs once, over all
crates, after port.py; must-fail edits are brought over one by one. Names that would fall together end it.

usage: python3 tools/snake_names.py"""
import glob
import re
import sys

NAME = re.compile(r"(?<![\w'\-·])[A-Za-z][\w'\-·]*")
DECLARED = re.compile(r'\s*(?:(?:pub|unfoldable|abbrev) )*([a-z][^\s(){}.;,:]*)(?:\s*\{[^}]*\})*\s+:(?:\s|$)')
MARKED = re.compile(r'\s*(?:(?:pub|unfoldable|abbrev) )+([a-z][^\s(){}.;,:]*)')
KEYWORDS = {'use', 'module', 'mod', 'where', 'unfolding', 'let', 'in', 'record', 'data', 'pub', 'abbrev', 'unfoldable'}


def snake(name):
    return re.sub(r'(?<=[a-z0-9])[A-Z]', lambda m: '_' + m.group(0).lower(), name)


antt = sorted(glob.glob('crates/*/specs/*.antt') + glob.glob('crates/*/proofs/**/*.antt', recursive=True))
code = sorted(glob.glob('crates/*/src/*.rt'))
declared, tokens = {}, {}
texts = {path: open(path, encoding='utf-8').read() for path in antt + code}
for path in antt:
    for line in texts[path].splitlines():
        for form in (DECLARED, MARKED):
            m = form.match(line)
            if m and m.group(1) not in KEYWORDS:
                declared.setdefault(m.group(1), set()).add(path)
for path, text in texts.items():
    for token in NAME.findall(text):
        tokens.setdefault(token, set()).add(path)

turned = {}
for name, paths in declared.items():
    new = snake(name)
    if any('/specs/' in path for path in paths):
        new = new.replace('-', '_')
    if new != name:
        turned[name] = new

clashes, dashed = [], {}
twice = {}
for name, new in turned.items():
    twice.setdefault(new, []).append(name)
    if new in declared:
        dashed[new] = new.replace('_', '-')
        if dashed[new] in tokens or any('/specs/' in path for path in declared[new]):
            clashes.append(f'{name}: {new} stands already')
clashes += [f'{names} would all be {new}' for new, names in twice.items() if len(names) > 1]
ours = {path.split('/')[1] for path in antt}
for path, text in texts.items():
    for line in text.splitlines():
        m = re.match(r'\s*(?:ghost )?use ([\w.·+\'-]+)\.\{(.*)\}', line)
        if m and not (m.group(1).startswith('Rattle.') and m.group(1).split('.')[1] in ours):
            clashes += [f'{name} is of {m.group(1)}' for name in re.split(r', *', m.group(2)) if name in turned or name in dashed]
if clashes:
    print('\n'.join(sorted(set(clashes))))
    sys.exit(1)
# a lemma's own name, not a field or a part of a path
ALONE = re.compile(r"(?<![\w'\-·.])(?:" + '|'.join(sorted(dashed)) + r")(?![\w'\-·.])") if dashed else None

n = 0
for path, text in texts.items():
    new = ALONE.sub(lambda m: dashed[m.group(0)], text) if ALONE and path.endswith('.antt') else text
    new = NAME.sub(lambda m: turned.get(m.group(0), m.group(0)), new)
    if new != text:
        open(path, 'w', encoding='utf-8').write(new)
        n += 1
print(f'turned {len(turned)} names in {n} files')
