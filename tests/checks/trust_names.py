#!/usr/bin/env python3
"""trust_names.py: whether every name in backquotes in docs/TRUST.md is the name of something.

A name with a hyphen is a theorem of the document's own table, one of the file that is named after it, or a program of tools/. Any other is a file, a crate,
a function or a definition. Where the table says what a theorem's type or a function's contract is, it is that one. It prints each name that is none, and
exits with 1 where there is one. That a theorem of the table is in its file is for trust_check.py."""
import re
import sys

from definitions import defined, file
from documents import ROOT, TRUST, files_of, function, functions, source

# a line of the bench, a word of the language, what files are called, and what the toolchain has
WORDS = {'all', 'requires', 'specs', 'Parts'}
TEXT = TRUST.read_text()
HEADING = '| Theorem | Where | What it says |'
THEOREMS = [row.split(' | ') for row in TEXT[TEXT.index(HEADING):].split('\n\n')[0].split('\n')[2:]]
PROVED = {(name, path.relative_to(ROOT).parts[1]) for row in THEOREMS for name in re.findall(r'`([^`]+)`', row[0]) for path in files_of(row[1])}
NAMES = {name for name, _ in PROVED} | {path.stem for path in (ROOT / 'tools').glob('*.cpp')}
CRATES = {crate.name for crate in (ROOT / 'crates').iterdir()}
PROOFS = {path.name for row in THEOREMS for path in files_of(row[1]) if path.is_file()}
KNOWN = WORDS | NAMES | CRATES | PROOFS | functions() | defined()
faults = []


def is_path(name):
    """Whether a name such as crate::module::function is one of a function, or of a module. A path may leave out its crate."""
    crate, _, rest = name.partition('::')
    inside = [(own, name) for own in CRATES] + [(crate, rest)]
    return any(function(*place) for place in inside) or source(crate, rest + '::').is_file()


def is_one(name, after):
    """Whether a name is one, by what follows it: a theorem may be 'of' a file or of a crate."""
    place = (re.match(r' of `(crates/[^`]+\.antt|\w+)`', after) or ['', ''])[1]
    if '/' in name:
        return '*' in name or ' ' in name or (ROOT / name).exists()
    if '/' in place:
        return name in file(ROOT / place).definitions
    if place in CRATES and name[0].islower():
        return (name, place) in PROVED
    if '::' in name:
        return is_path(name)
    return name in (NAMES if '-' in name else KNOWN)


def stated(cells):
    """What a row says that a theorem's type or a function's contract is, beside what it is."""
    found = re.search(r'(?:Its type|It) is `(\w+)`', cells[2])
    for name in re.findall(r'`([^`]+)`', cells[0]) if found else []:
        if '::' in name:
            stated_by = function(*name.split('::', 1)) or ''
        else:
            stated_by = ' '.join(' '.join(file(path).definitions[name].type) for path in files_of(cells[1]) if name in file(path).definitions)
        if not re.search(r'(?<![\w.])(?:\w+\.)?%s\b' % found[1], stated_by):
            faults.append('docs/TRUST.md says that %s is stated by %s, and it is not' % (name, found[1]))


for found in re.finditer(r'`([^`\n]+)`', TEXT):
    if not is_one(found[1], TEXT[found.end():found.end() + 100]):
        faults.append('docs/TRUST.md, line %d, names %s, which is nothing' % (TEXT.count('\n', 0, found.start()) + 1, found[1]))
for cells in THEOREMS:
    stated(cells)
print(*faults or ['every name of docs/TRUST.md is there, %d theorems among them' % len({name for name, _ in PROVED})], sep='\n')
sys.exit(1 if faults else 0)
