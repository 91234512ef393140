#!/usr/bin/env python3
"""Brings this repository's own definitions and lemmas to today's spelling: words in snake case.

    tools/respell.py [FOLDER]      once, right after the kit's port.py, at the top of the repository (or of FOLDER)

A name is respelled everywhere if it is declared in specs/ or in a law file (proofs/*.antt) and has a dash or a capital inside. What keeps its
spelling: types and modules, functions of src/, names that Rattle makes (goals), and names that the kit declares too. Functions' own proof files
(proofs/F/) follow the names that they cite. A lemma that would get a definition's name gets `_lem`.
"""
import os, re, sys

top = sys.argv[1] if len(sys.argv) > 1 else '.'
ID = r"[^\s(){}\[\].,;:@\"`|&]+"
TOKEN = re.compile(ID)
# text that is no name: keywords and symbols
SYMBOLS = set('= → ↦ λ × ≡ ≤ < + * - / % ^ ∙ ∷ ++ ? _ ⊥ ⊎ ¬ ↔ ≢ ..'.split())

def files(folder, ends):
    for path, folders, names in os.walk(folder):
        folders[:] = [f for f in folders if f not in ('out', 'target', '.git')]
        for name in sorted(names):
            if name.endswith(ends):
                yield os.path.join(path, name)

def respelled(name):
    if name.startswith(('Need-', '+')):
        return name
    if name[0].isupper():
        return re.sub(r'-([a-z])', lambda m: m.group(1).upper(), name)
    said = name.replace('′', "'").replace('-', '_')
    said = re.sub(r'(?<=[a-z0-9])([A-Z])', lambda m: '_' + m.group(1).lower(), said)
    return said

DECLARED = re.compile(r'^\s*(?:(?:pub|abbrev|unfoldable|instance|irrelevant)\s+)*((?:%s\s+)*%s)\s*:(?:\s|$)' % (ID, ID))

def declared(path):
    text = open(path).read()
    for line in text.split('\n'):
        line = re.sub(r'--.*', '', line)
        m = DECLARED.match(line)
        if m:
            for name in m.group(1).split():
                yield name

def law_file(path):
    parts = path.split(os.sep)
    at = parts.index('crates')
    if parts[at + 2] == 'specs':
        return True
    return parts[at + 2] == 'proofs' and len(parts) == at + 4

own, spelled, imported = set(), {}, set()
IMPORT = re.compile(r'\buse\s+(?!Rattle\.(?!std\b))[\w.]+\.\{([^}]*)\}')
for path in files(os.path.join(top, 'crates'), ('.antt', '.rt')):
    text = open(path).read()
    if path.endswith('.antt') and law_file(path):
        own.update(declared(path))
    for names in IMPORT.findall(text):
        imported.update(name.strip() for name in names.split(','))

# Two names that port.py made one, a definition and a lemma: the files that have the lemma.
FALLEN = {
    'cell_at': ['runner/proofs/Placing.antt'],
    'kind_at': ['archive/proofs/Calls.antt', 'archive/proofs/free/Proof.antt', 'runner/proofs/Latching.antt'],
    'row_of': ['runner/proofs/Collecting.antt', 'runner/proofs/Flowing.antt', 'runner/proofs/Latching.antt', 'runner/proofs/Starting.antt',
               'runner/proofs/Tabled.antt', 'runner/proofs/state/start/Proof.antt', 'runner/proofs/ticks/flows/Proof.antt'],
    'step_of': ['rates/proofs/States.antt'],
    'word_at': ['calendar/proofs/Shown.antt', 'checker/proofs/Bounds.antt', 'checker/proofs/WordLaws.antt', 'influence/proofs/Histories.antt'],
}

# A definition that would have the name of a lemma of the kit that stands beside it.
BESIDE_KIT = {'takeAt': 'take_at_bit'}

def lemma_beside(name):
    return name + '_lem'

# Definitions come first: a lemma that would have a definition's name gets `_lem`.
turn = {}
for name in sorted(own, key=lambda name: ('-' in name, name)):
    new = BESIDE_KIT.get(name) or respelled(name)
    if new == name or name in SYMBOLS:
        continue
    if name in imported:
        print(f'kept, the kit has it and it is used here: {name}')
        continue
    if '-' in name:
        if new in spelled or new in own or new in imported:
            new = lemma_beside(new)
    elif new in own:
        turn[new] = lemma_beside(new)
        print(f'{new}, a lemma, is {turn[new]} beside {name}')
    if new in spelled or new in imported:
        print(f'look: {new} ({name}) stands elsewhere too')
    turn[name] = new
    spelled[new] = name

def turned(text, fallen=()):
    return TOKEN.sub(lambda m: lemma_beside(m.group(0)) if m.group(0) in fallen else turn.get(m.group(0), m.group(0)), text)

def in_words(text):
    """A comment: a word with a dash is English."""
    return TOKEN.sub(lambda m: m.group(0) if '-' in m.group(0) else turn.get(m.group(0), m.group(0)), text)

def line_turned(line, sign, fallen):
    code, at, comment = line.partition(sign)
    return turned(code, fallen) + at + in_words(comment)

count = 0
for path in files(os.path.join(top, 'crates'), ('.antt', '.rt', '.edit')):
    text = open(path).read()
    fallen = [name for name, paths in FALLEN.items() if any(path.endswith('crates/' + p) for p in paths)]
    sign = {'.rt': '//', '.antt': '-- '}.get(os.path.splitext(path)[1], '\0')
    new = '\n'.join(line_turned(line, sign, fallen) for line in text.split('\n'))
    if new != text:
        open(path, 'w').write(new)
        count += 1
with_code = re.compile(r'`[^`\n]+`')
for path in files(top, '.md'):
    text = open(path).read()
    new = with_code.sub(lambda m: turned(m.group(0)), text)
    if new != text:
        open(path, 'w').write(new)
        count += 1
print(f'respelled {len(turn)} names in {count} files')
