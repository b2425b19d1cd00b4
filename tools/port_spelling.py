#!/usr/bin/env python3
"""Spells the repository's own definitions, fields and lemmas as today's Rattle does: words in snake case; a dash is kept only
where it joins two names of definitions. Types, modules, functions of src/ and names that Rattle makes keep their spelling.

    tools/port_spelling.py            lists what changes, and names that fall together
    tools/port_spelling.py --write    changes the files that git knows

It was run once, after the kit's own script (docs/PORT.md), and stays so that a reader can see by it what was respelled.
"""
import re, subprocess, sys, collections

files = subprocess.check_output(['git', 'ls-files', 'crates'], text=True).split()
antt = [f for f in files if f.endswith('.antt')]
own = [f for f in antt if '/specs/' in f or f.count('/') == 3]      # not the proof files of functions
texts = {f: open(f, encoding='utf8').read() for f in files if f.endswith(('.antt', '.rt', '.edit'))}
crates = sorted({f.split('/')[1] for f in files})
head = re.compile(r"^(\s*)((?:(?:unfoldable|abbrev|opaque|private)\s+)*)(pub\s+)?(?:(?:record|data|ruleset|module)\s+)?([^\s(){}.,;:]+)(\s[^=↦]*?)?\s:\s")
names, functions, parts_of = set(), set(), set()      # parts_of: fields and constructors
for f in own:
    inside = False
    for line in texts[f].split('\n'):
        m = head.match(line)
        if re.match(r'(pub )?(record|data) ', line):
            inside = True
        elif line[:1].strip():
            inside = False
        if m and not line.lstrip().startswith('--'):
            names.add(m.group(4))
            if inside and line[:1] == ' ':
                parts_of.add(m.group(4))
            if re.search('unfoldable|abbrev', m.group(2)):
                functions.add(m.group(4))
# proof files of functions have local lemmas of their own too; those that do not speak of a goal
for f in antt:
    if f in own:
        continue
    for line in texts[f].split('\n'):
        m = head.match(line)
        if m and 'tie.' not in line and not line.lstrip().startswith('--'):
            names.add(m.group(4))
# what can't be respelled: types and modules (upper camel case), operators, names of the library
STD = set('''length take drop set append map filter sum member get_or reverse concat foldr foldl min max zip range replicate
add mul sub suc div mod pos eq ne lt le nth index all any'''.split())

def camel(word):
    """deg, degTo -> deg_to; sideAB -> side_ab; uX -> u_x."""
    word = re.sub(r"([a-z0-9'])([A-Z]+)(?=[^a-z]|$)", lambda m: m.group(1) + '_' + m.group(2).lower(), word)
    return re.sub(r"([a-z0-9'])([A-Z])", lambda m: m.group(1) + '_' + m.group(2).lower(), word)

def spelled_word(w):
    return camel(w) if re.match(r"[a-z]", w) and re.search(r"[A-Z]", w) else w

rust = {w for f, t in texts.items() if f.endswith('.rt') for w in re.findall(r"\bfn ([a-z_0-9]+)", t)}
defs = {n for n in functions if '-' not in n} | STD

def spelled(n):
    if not re.match(r"[A-Za-z]", n) or re.search(r"[◌≡≤<+*^∷∈∉∧∨¬→↔]", n):
        return n
    if '-' not in n:
        return spelled_word(n)
    parts = n.split('-')
    if '' in parts:
        return n
    if len(parts) == 2 and n not in parts_of and parts[1] != 'spec' and all(len(w) > 2 and w in defs for w in parts) and '_'.join(parts) not in rust:
        return spelled_word(parts[0]) + '-' + spelled_word(parts[1])
    return '_'.join(map(spelled_word, parts))

renamed = {n: spelled(n) for n in names if spelled(n) != n}
# a lemma that would have its function's name
for n in list(renamed):
    if '-' in n and renamed[n] in {spelled(m) for m in names if '-' not in m}:
        renamed[n] += '_lem'
renamed.update({'root_is': 'root_is_lem', 'numbers_of': 'numbers_of_lem'})      # local lemmas beside rootIs, numbersOf
token = re.compile(r"(?<![A-Za-z0-9_'\-ℕ≡≤<])([A-Za-z][A-Za-z0-9_'\-]*[A-Za-z0-9_'])(?![A-Za-z0-9_'ℕ≡≤]|-[A-Za-z])")
# names that fall together: two old names with one new one; a new name that is there already
back = collections.defaultdict(set)
for a, b in renamed.items():
    back[b].add(a)
for b, s in sorted(back.items()):
    if len(s) > 1 or b in names:
        print('falls together:', b, '<-', ' '.join(sorted(s)), '(there already)' if b in names else '')
for b in sorted(set(renamed.values()) & rust):
    print('also a function of src/:', b)
changed = 0
for f, t in texts.items():
    # what this file takes from the library keeps the library's spelling
    theirs = set()
    for module, taken in re.findall(r"^(?:ghost )?use ([A-Za-z_.]+)\.\{([^}]*)\}", t, re.M):
        if not re.match(r"Rattle\.(" + '|'.join(crates) + r")\.", module):
            theirs |= {w.strip().split(' ')[0] for w in taken.split(',')}

    def put(m):
        return m.group(1) if m.group(1) in theirs else renamed.get(m.group(1), m.group(1))
    if f.endswith('.rt'):
        new = '\n'.join(token.sub(put, l) for l in t.split('\n'))
    else:
        new = token.sub(put, t)
    if new != t:
        changed += 1
        if '--write' in sys.argv:
            open(f, 'w', encoding='utf8').write(new)
print(len(names), 'names,', len(renamed), 'respelled,', changed, 'files')
