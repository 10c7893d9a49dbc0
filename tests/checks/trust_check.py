#!/usr/bin/env python3
"""trust_check.py: whether docs/TRUST.md lists the files of all definitions that have to be read: those in the contract of a function that a host
may call or in the type of a theorem of its table, and those in what they say, until nothing new comes; and no other file.

    python3 tests/checks/trust_check.py               says what is wrong, with one way to each definition, and exits with 1 where something is
    python3 tests/checks/trust_check.py --unused      the definitions of listed files that nothing leads to
    python3 tests/checks/trust_check.py --libraries   the names of the toolchain's libraries that are read with them"""
import re
import sys

from definitions import MODULE, Definition, file, free, is_name, tokens
from documents import ROOT, TRUST, files_of, function, host_functions, source

SPECS = re.compile(r'`(crates/\w+/specs/[\w/]+\.antt)`')
# what the language itself knows; 'now' is what a reference refers to
GIVEN = {'Unit', 'tt', '⊥', 'now'}
rows = TRUST.read_text().split('\n')
listed = {path for row in rows if re.match(r'\| `crates/\w+/specs/', row) for path in files_of(row.split(' | ')[0])}
outright = {ROOT / name for row in rows if 'are given outright by' in row for name in SPECS.findall(row)}
faults = []
reached = {}  # each definition or library's name that was come to, with what led there


def short(path):
    return str(path.relative_to(ROOT))


# ---- where to begin

def contracts():
    """Each function that a host may call: what it is called, its file, and the names in what it ensures."""
    for crate, path in host_functions():
        before, *clauses = re.split(r'\bensures(?: \w+)? (?={)', function(crate, path) or '')
        ensured = ' '.join(clauses)
        if not ensured:
            faults.append('%s::%s ensures nothing' % (crate, path))
        else:
            yield '%s::%s' % (crate, path), file(source(crate, path)), free(tokens(ensured), {'result', *re.findall(r'(\w+):(?!:)', before)})


def named(cell, paths):
    """The theorems that a cell names; 'a-x to b-x' are all of the files whose name ends so."""
    found = [d for path in paths for d in file(path).definitions.values()]
    for first, last in re.findall(r'`([^`]+)`(?: to `([^`]+)`)?', cell):
        ending = '-' + last.split('-')[-1]
        theorems = [d for d in found if d.name == first or last and d.public and d.name.endswith(ending)]
        if not theorems:
            faults.append('the theorem %s is in none of %s' % (first, ', '.join(map(short, paths))))
        yield from theorems


def is_operator(where, token):
    found = where.meaning(token)
    return '◌' in getattr(found, 'name', found or '')


def is_named(d):
    """Whether a theorem's type is a definition of specs, alone or put to operands, for any type M perhaps."""
    depth, outside = 0, []
    for token in d.type:
        depth += (token in '({') - (token in ')}')
        outside += [token] if depth == 0 and token not in ')}' else []
    outside = outside[1:] if d.type[:1] == ['{'] and outside[:1] == ['→'] else outside
    head = d.file.meaning(outside[0]) if outside else None
    plain = all(is_name(t) and not is_operator(d.file, t) or t.isdecimal() for t in outside)
    return not d.around and plain and isinstance(head, Definition) and 'specs' in head.file.path.parts


def theorems():
    """Each theorem of the table: its name, its file, and the names in its type and in the modules around it."""
    table = rows[rows.index('| Theorem | Where | What it says |') + 2:]
    for row in table[:table.index('')]:
        cells = row.split(' | ')
        paths = [path for path in files_of(cells[1]) if path.is_file()]
        for d in named(cells[0], paths) if 'the contract of' not in cells[0] else []:
            if not is_named(d):
                faults.append('the type of %s stands in no specs file' % d)
            yield d.name, d.file, free(d.around + d.type, set())


# ---- what they lead to

def meanings(where, names, led):
    """What names of a file stand for, as far as it was not come to before."""
    new = []
    for name in names:
        found = where.meaning(name)
        if found is None and name not in GIVEN or isinstance(found, str) and MODULE.match(found) and '.declared.' not in found:
            faults.append('%s names %s, which is nowhere' % (led, name))
        elif found is not None and found not in reached:
            reached[found] = led
            new.append(found)
    return new


def follow(new, through):
    """All that definitions lead to, through those whose files may be gone through."""
    while new:
        new = [to for d in new if isinstance(d, Definition) and through(d.file.path) for to in meanings(d.file, d.names, d)]


def come_to():
    """The definitions come to, by their places."""
    return sorted((d for d in reached if isinstance(d, Definition)), key=lambda d: (d.file.path, d.line))


def way(d):
    """How a definition was come to."""
    steps = []
    while isinstance(d, Definition):
        steps.append(d.name)
        d = reached[d]
    return ' → '.join([d] + steps[::-1])


for begin in contracts, theorems:
    for name, where, names in begin():
        follow(meanings(where, names, name), lambda path: path not in outright)
needed = come_to()
for d in needed:
    if d.file.path in outright:
        follow(meanings(d.file, d.names, d), lambda path: True)
beneath = [d for d in come_to() if d not in needed]

# ---- what is wrong

for d, only in [(d, '') for d in needed] + [(d, ', only beneath what is given outright') for d in beneath]:
    path = d.file.path
    why = 'it stands in no specs file' if 'specs' not in path.parts else 'no Parts should be' if path.stem.endswith('Parts') \
        else 'docs/TRUST.md does not list its file' if path not in listed | outright else None
    if why:
        faults.append('%s has to be read%s, and %s: %s' % (d, only, why, way(d)))
for path in sorted(listed | outright):
    if path not in {d.file.path for d in needed + beneath}:
        faults.append('docs/TRUST.md names %s, and nothing leads there' % short(path))
    elif path in listed - {d.file.path for d in needed}:
        faults.append('docs/TRUST.md lists %s, and only what is given outright leads there' % short(path))
for path in sorted({d.file.path for d in needed + beneath if 'specs' in d.file.path.parts}):
    faults += ['%s:%d is neither a type nor a clause of the name above it' % (short(path), line) for line in file(path).strange]
if sys.argv[1:] == ['--unused']:
    shown = [str(d) for path in sorted(listed | outright) for d in file(path).definitions.values() if d not in reached]
elif sys.argv[1:] == ['--libraries']:
    shown = sorted(name for name in reached if isinstance(name, str) and not MODULE.match(name) and '::' not in name)
else:
    shown = list(dict.fromkeys(faults))
print(*shown, sep='\n', end='\n' if shown else '')
sys.exit(1 if faults and not sys.argv[1:] else 0)
