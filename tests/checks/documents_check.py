#!/usr/bin/env python3
"""documents_check.py: whether the documents name files that are there, docs/TRUST.md counts their lines right, docs/DECISIONS.md names every
public function that asks something of its callers, docs/WRONG_ANSWERS.md names edits that are there and two wrong programs of every exported function,
README.md shows the stored session of the bench and the stored example, and docs/HOST.md what dvs-show says.

    python3 tests/checks/documents_check.py          says what is wrong, and exits with 1 where something is
    python3 tests/checks/documents_check.py write    puts the right counts into docs/TRUST.md"""
import re
import sys

import edits
from documents import ROOT, TRUST, files_of, function, host_functions

DOCUMENTS = [ROOT / 'README.md'] + sorted((ROOT / 'docs').glob('*.md')) + sorted((ROOT / 'tests').glob('**/README.md'))
faults = []


def lines(path):
    return len(path.read_text().splitlines())


def counted(text):
    """The text with the right counts, and their sum."""
    total, rows = 0, []
    for row in text.split('\n'):
        cells = row.split(' | ')
        if row.startswith('| `crates/') and len(cells) == 4 and re.fullmatch(r'[\d,]+', cells[1]):
            missing = [p for p in files_of(cells[0]) if not p.is_file()]
            faults.extend('docs/TRUST.md names %s, which is not there' % p.relative_to(ROOT) for p in missing)
            count = sum(lines(p) for p in files_of(cells[0]) if p.is_file())
            total += count
            row = ' | '.join([cells[0], str(count)] + cells[2:])
        rows.append(row)
    return re.sub(r'all of them, [\d,]+ lines', 'all of them, {:,} lines'.format(total), '\n'.join(rows))


text = TRUST.read_text()
right = counted(text)
if sys.argv[1:] == ['write']:
    TRUST.write_text(right)
elif right != text:
    faults.append('docs/TRUST.md has wrong counts of lines: python3 tests/checks/documents_check.py write')
for document in DOCUMENTS:
    for link in re.findall(r'\]\(([^)#]+)\)', document.read_text()):
        if not link.startswith('http') and not (document.parent / link).exists():
            faults.append('%s links to %s, which is not there' % (document.relative_to(ROOT), link))
    for name in re.findall(r'`((?:crates|tests|examples|tools|include|docs)/[\w./-]+\.\w+)`', document.read_text()):
        if not (ROOT / name).exists():
            faults.append('%s names %s, which is not there' % (document.relative_to(ROOT), name))


# the sections and the words that docs/TRUST.md says to read beside a definition
plain = re.sub(r'[*`\\]', '', ''.join((ROOT / 'docs' / name).read_text() for name in ('SPEC.md', 'LAYOUT.md', 'HOST.md')))
sections = set(re.findall(r'^#+ (.*)$', plain, re.M))
for row in TRUST.read_text().split('\n'):
    cells = row.split(' | ')
    if row.startswith('| `crates/') and len(cells) == 4:
        for title in re.findall(r"(?:^|(?<=[ (]))'([A-Z0-9](?:[^']|'s)*)'", cells[2]):
            if title not in sections:
                faults.append("docs/TRUST.md names the section '%s', which is nowhere" % title)
        for words in re.findall(r'"([^"]+?)(?: …)?"', cells[2]):
            if words.replace('`', '') not in plain:
                faults.append('docs/TRUST.md quotes "%s", which is nowhere' % words)


# what is asked of a carrier, in the same words wherever it is said
asked = re.search(r'-- 1\. .*?\n--\n', (ROOT / 'crates' / 'rules' / 'specs' / 'Hosts.antt').read_text(), re.S).group(0)
properties = [' '.join(words.replace('--', ' ').split()) for words in re.split(r'-- \d\. ', asked)[1:]]
for name in ('docs/SPEC.md', 'docs/HOST.md', 'include/dvs.h'):
    said = ' '.join(re.sub(r'^ \*', ' ', (ROOT / name).read_text(), flags=re.M).split())
    faults.extend('%s does not say of a carrier: %s' % (name, words) for words in properties if words not in said)


def believed():
    """The files of definitions that docs/TRUST.md names, in a table or in its text."""
    named = {ROOT / name for name in re.findall(r'`(crates/\w+/specs/[\w/]+\.antt)`', TRUST.read_text())}
    for row in TRUST.read_text().split('\n'):
        if re.match(r'\| `crates/\w+/specs/', row):
            named.update(files_of(row.split(' | ')[0]))
    return named


named = believed()
for path in sorted((ROOT / 'crates').glob('*/specs/**/*.antt')):
    if path not in named and not path.stem.endswith('Parts') and path.stem != 'Lib':
        faults.append('docs/TRUST.md does not name %s, and it is no Parts' % path.relative_to(ROOT))
for crate, path in host_functions():
    contract = function(crate, path)
    if not contract:
        faults.append('docs/DECISIONS.md names %s::%s, which is no public function' % (crate, path))
    elif re.search(r'\brequires(?: \w+)? \{', contract):
        faults.append('%s::%s, which a host may call, asks something of its caller' % (crate, path))


# wrong answers: those that are named are there, and every exported function has a row with two different wrong programs
wrong = (ROOT / 'docs' / 'WRONG_ANSWERS.md').read_text()
answers = edits.every()
for crate, name in re.findall(r'`(\w+)/(\w+)`', wrong):
    if '%s/%s' % (crate, name) not in answers:
        faults.append('docs/WRONG_ANSWERS.md names %s/%s, which is not an edit' % (crate, name))
rows = {row[0]: row[1:] for row in re.findall(r'^\| `(dvs_\w+)` \| `([^`]+)` \| `([^`]+)` \|$', wrong, re.M)}
exported = {path.split('::')[-1] for crate, path in host_functions() if crate == 'dvs'}
faults.extend('docs/WRONG_ANSWERS.md has no row with two wrong programs of %s' % name for name in sorted(exported - rows.keys()))
faults.extend('docs/WRONG_ANSWERS.md has a row of %s, which is not an exported function' % name for name in sorted(rows.keys() - exported))
faults.extend('docs/WRONG_ANSWERS.md names one wrong program of %s twice' % name for name, (one, other) in rows.items() if one == other)
used = [name for row in rows.values() for name in row]
faults.extend('docs/WRONG_ANSWERS.md gives %s to two functions' % name for name in sorted(set(used)) if used.count(name) > 1)


def shown(heading, document='README.md'):
    """The indented lines of a section of a document."""
    section = (ROOT / document).read_text().split('\n## %s\n' % heading)[1].split('\n## ')[0]
    return [line[4:] for line in section.split('\n') if line.startswith('    ')]


def stored(path):
    return (ROOT / path).read_text().splitlines()


# what is typed, what is answered and what it means stand in columns; `all`, which is first, has no answer
figure = stored('tests/scripts/readme-session.figure')
if shown('A session with the bench')[:len(figure)] != figure:
    faults.append('README.md shows another figure than tests/scripts/readme-session.figure')
session = [(line[:18].rstrip(), line[18:38].rstrip()) for line in shown('A session with the bench')[len(figure):]]
typed, answers = stored('tests/scripts/readme-session.txt'), [''] + stored('tests/scripts/readme-session.out')
if len(typed) != len(answers) or session != list(zip(typed, answers)):
    faults.append('README.md shows another session than tests/scripts/readme-session')
sample = shown("An operator's view", 'docs/HOST.md')
said = (ROOT / 'tests' / 'show' / 'expected.txt').read_text().split('--- dvs-show ')
if not sample or sample not in [[line for line in book.splitlines() if line in sample] for book in said]:
    faults.append('docs/HOST.md shows what dvs-show does not say, by tests/show/expected.txt')
example = [line for line in stored('examples/first/first.cpp') if line and not line.startswith('//')]
if example != [line for line in shown('How to link it') if line in example]:
    faults.append('README.md shows another example than examples/first/first.cpp')
linking = (ROOT / 'README.md').read_text().split('\n## How to link it\n')[1].split('\n## ')[0]
faults.extend('README.md does not say that the example prints: %s' % line for line in stored('examples/first/expected.txt') if '`%s`' % line not in linking)
for fault in faults:
    print(fault)
sys.exit(1 if faults else 0)
