#!/usr/bin/env python3
"""selftest.py: whether the checks notice what they are for. In a copy of the tree it makes one change after another, and a check must fail each time:

- two neighbouring refusals exchanged, or one left out, in the table of calls, the header, docs/REFUSALS.md and docs/SPEC.md: calls_check.py;
- a parameter of the table changed: calls_check.py;
- a number of docs/LAYOUT.md changed: layout_check.py, or header_check.py for the layout's own number;
- the name of a theorem in docs/TRUST.md changed, wherever it is named: trust_names.py, or trust_check.py.

It prints each change that passes, and exits with 1 where there is one. Some seconds: the checks are run in this process."""
import contextlib
import functools
import io
import os
import pathlib
import re
import shutil
import sys
import tempfile

ROOT = pathlib.Path(__file__).resolve().parents[2]
faults = []
changes = 0


def orders(pattern, number=r'\d+'):
    """Gives the texts in which two neighbours of an order are exchanged, or the second of them is left out. The order is the pattern's group."""
    def variants(text):
        for found in re.finditer(pattern, text, re.M):
            places = [(found.start(1) + place.start(), found.start(1) + place.end()) for place in re.finditer(number, found[1])]
            for (start, end), (second, last) in zip(places, places[1:]):
                one, other = text[start:end], text[second:last]
                if one != other:
                    yield text[:start] + other + text[end:second] + one + text[last:], '%s and %s exchanged' % (one, other)
                yield text[:end] + text[last:], '%s left out after %s' % (other, one)
    return variants


def other_parameters(text):
    """The table of calls with one parameter changed: read instead of written, of another width, or of another name."""
    parameter = re.compile(r'(READS|WRITES)\((\w+)\)|NUMBER\(uint(\d+)_t, (\w+)\)')
    for found in parameter.finditer(text, text.index('/* ---- the library */')):
        sort, name, width, number = found.groups()
        if name:
            instead = ['%s(%s)' % ('READS' if sort == 'WRITES' else 'WRITES', name), '%s(%s)' % (sort, 'book' if name == 'count' else 'count')]
        else:
            instead = ['NUMBER(uint%d_t, %s)' % (96 - int(width), number), 'NUMBER(uint%s_t, another)' % width]
        for other in instead:
            yield text[:found.start()] + other + text[found.end():], '%s instead of %s' % (other, found[0])


def other_numbers(text):
    """The text with each of its numbers 1 higher, but for those in backquotes."""
    hidden = [found.span() for found in re.finditer(r'`[^`\n]*`', text)]
    for found in re.finditer(r'\b\d+(?:,\d{3})*', text):
        if not any(start <= found.start() < end for start, end in hidden):
            number = int(found[0].replace(',', '')) + 1
            yield text[:found.start()] + str(number) + text[found.end():], '%d instead of %s' % (number, found[0])


def other_theorems(text):
    """The text with the name of each theorem changed: a name in backquotes that has a hyphen, or that the table of theorems has."""
    for found in re.finditer(r'(?<=`)(\w+(?:-\w+)+|packets|demand3|finality|cases|all_shown|bytes_read)(?=`)', text):
        name = found[1] + 's' if not found[1].endswith('s') else found[1][:-1]
        yield text[:found.start()] + name + text[found.end():], '%s instead of %s' % (name, found[1])


@functools.lru_cache(None)
def program(path):
    return compile(path.read_text(), str(path), 'exec')


def passes(copy, check):
    path = copy / 'tests' / 'checks' / check
    with contextlib.redirect_stdout(io.StringIO()):
        try:
            exec(program(path), {'__name__': '__main__', '__file__': str(path)})
        except SystemExit as end:
            return not end.code
    return True


def attempt(copy, name, variants, *checks):
    """Each variant of a file, which one of the checks must refuse."""
    global changes
    text, before = (copy / name).read_text(), changes
    for variant, what in variants(text):
        (copy / name).write_text(variant)
        changes += 1
        if all(passes(copy, check) for check in checks):
            line = 1 + os.path.commonprefix([text, variant]).count('\n')
            faults.append('%s, line %d: %s, and %s passes' % (name, line, what, ' and '.join(checks)))
    (copy / name).write_text(text)
    if changes == before:
        faults.append('%s: there is nothing to change' % name)


def main(copy):
    for name in ('docs', 'include', 'tests/checks', 'tests/outside'):
        shutil.copytree(ROOT / name, copy / name)
    shutil.copy(ROOT / 'Makefile', copy)
    for name in ('crates', 'tools'):
        (copy / name).symlink_to(ROOT / name)
    sys.path.insert(0, str(copy / 'tests' / 'checks'))
    sys.argv = sys.argv[:1]
    for check in ('calls_check.py', 'layout_check.py', 'header_check.py', 'trust_names.py', 'trust_check.py'):
        if not passes(copy, check):
            sys.exit('%s fails without a change' % check)
    attempt(copy, 'tests/outside/calls.inc', orders(r'^(?:CALL|SPLIT|PART)\((.*)\)$'), 'calls_check.py')
    attempt(copy, 'tests/outside/calls.inc', other_parameters, 'calls_check.py')
    attempt(copy, 'include/dvs.h', orders(r'Refusals: ([^.;]*)'), 'calls_check.py')
    attempt(copy, 'include/dvs.h', orders(r'in this order, by ([^;]*);'), 'calls_check.py')
    attempt(copy, 'docs/REFUSALS.md', orders(r'^\| \w+ \| (\d[^|]*)\|[^|]*\|$'), 'calls_check.py')
    attempt(copy, 'docs/REFUSALS.md', orders(r'^\| \w+ \|[^|]*\| (\d[^|]*)\|$'), 'calls_check.py')
    attempt(copy, 'docs/REFUSALS.md', orders(r'^\| `dvs_\w+` \| ([^;:.|]*)'), 'calls_check.py')
    attempt(copy, 'docs/REFUSALS.md', orders(r'for each message ([^.|]*)'), 'calls_check.py')
    attempt(copy, 'docs/REFUSALS.md', orders(r'every byte is as it was: ([\d, ]+or \d+)'), 'calls_check.py')
    attempt(copy, 'docs/SPEC.md', orders(r'^\| [a-z…: ]+(\| [^|\n]*;[^|\n]*) \|$', r'(?<=\| )\d+|(?<=; )\d+|(?<=: )\d+'), 'calls_check.py')
    attempt(copy, 'docs/LAYOUT.md', other_numbers, 'layout_check.py', 'header_check.py')
    attempt(copy, 'docs/TRUST.md', other_theorems, 'trust_names.py', 'trust_check.py')


with tempfile.TemporaryDirectory() as place:
    main(pathlib.Path(place))
print(*faults or ['%d changes to the table of calls, the header and the documents: a check fails for each' % changes], sep='\n')
sys.exit(1 if faults else 0)
