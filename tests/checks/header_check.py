#!/usr/bin/env python3
"""header_check.py: holds the C headers in include/ to the Rattle sources.

It compares every constant, length, place and refusal number of the headers, and the name and parameter list of every exported function, with
crates/*/src, and the version with the Makefile's. Each function must have DVS_MUST_CHECK. It prints each difference and exits with 1 where there is one."""
import re
import sys

from sources import ROOT, constants, source

WIDTHS = {'u8': 'uint8_t', 'u32': 'uint32_t', 'u64': 'uint64_t'}
BOOK_PLACES = ('MEMBERS', 'SELF', 'SETTLED', 'CARRIER', 'CLIENT', 'REGISTERED', 'HANDED', 'TOLD', 'REPORTED', 'TAKEN', 'INFOS',
               'REGISTRATIONS', 'TOLDS', 'OPENS', 'OUTGOING')
RANGES = ('BOOK', 'EVENT', 'LENGTH', 'MESSAGE', 'BUFFER', 'LIST', 'BOOKS', 'QUEUES', 'STEP', 'ANSWER', 'DELIVERY', 'FOUND')
faults = []


def found(pattern, text, where, flags=0):
    """The groups of the one match of a pattern."""
    matches = re.findall(pattern, text, flags)
    if len(matches) != 1:
        sys.exit('%s: %d matches of %s, where this program looks for one' % (where, len(matches), pattern))
    return matches[0]


def version():
    """The version of the Makefile as one number, which the library's source and definition have too."""
    major, minor, patch = map(int, found(r'^VERSION := (\d+)\.(\d+)\.(\d+)$', (ROOT / 'Makefile').read_text(), 'Makefile', re.M))
    number = 10000 * major + 100 * minor + patch
    defined = int(found(r'^version = (\d+)$', source('dvs/specs/Library.antt'), 'Library.antt', re.M))
    for where, given in ('crates/dvs/src/library.rt', constants('dvs/src/library.rt')['VERSION']), ('crates/dvs/specs/Library.antt', defined):
        if given != number:
            faults.append('%s has the version %d, the Makefile %d' % (where, given, number))
    return number


def layout():
    """The layout's number, as docs/LAYOUT.md gives it."""
    return int(found(r'^This is layout (\d+)\b', (ROOT / 'docs' / 'LAYOUT.md').read_text(), 'docs/LAYOUT.md', re.M))


def screaming(name):
    return re.sub(r'(?<=[a-z])(?=[A-Z])', '_', name).upper()


def expected_constants():
    """What the header has to define, by the sources: names to numbers, or to the text of a macro's body."""
    limits, books, groups = constants('views/src/limits.rt'), constants('book_bytes/src/lib.rt'), constants('group_bytes/src/lib.rt')
    library, run, sizes = constants('dvs/src/library.rt'), constants('group_run/src/lib.rt'), constants('views/src/sizes.rt')
    answers, messages, kinds = constants('c_answers/src/lib.rt'), constants('wire/src/record.rt'), constants('wire/src/format.rt')
    wanted = {'DVS_' + name: limits[name] for name in ('MEMBERS', 'VIEWS', 'OPEN', 'OUTGOING', 'WAITING', 'ORDERED', 'LONGEST')}
    wanted.update(DVS_BOOK_SIZE=books['SIZE'], DVS_EVENT_SIZE=answers['EVENT'], DVS_LENGTH_SIZE=answers['LENGTH'],
                  DVS_DELIVERY_SIZE=answers['DELIVERY'], DVS_MESSAGE_SIZE=messages['RECORD'], DVS_VIEW_SIZE=groups['VIEW'],
                  DVS_BOOKS_SIZE=groups['BOOKS'], DVS_IDENTIFIER_SIZE=sizes['IDENTIFIER'], DVS_FOUND_SIZE=answers['FOUND'])
    wanted['DVS_LIST_SIZE(views)'] = '(DVS_VIEW_SIZE * DVS_COUNT(views))'
    wanted['DVS_QUEUES_SIZE(views)'] = '(%du + %du * DVS_COUNT(views))' % (groups['HEAD'], groups['TABLE'])
    wanted['DVS_QUEUES_ORDER(i)'] = '(%du + %du * DVS_COUNT(i))' % (groups['HEAD'], groups['TABLE'])
    waiting = groups['HEAD'] + groups['ORDER'], groups['TABLE'], groups['WAITING']
    wanted['DVS_QUEUES_WAITING(i, p)'] = '(%du + %du * DVS_COUNT(i) + %du * DVS_COUNT(p))' % waiting
    wanted['DVS_LAYOUT'] = sizes['LAYOUT']
    if layout() != sizes['LAYOUT']:
        faults.append('docs/LAYOUT.md is of layout %d, the sources have %d' % (layout(), sizes['LAYOUT']))
    wanted['DVS_MUST_CHECK'] = '__attribute__((warn_unused_result))'
    wanted['DVS_COUNT(views)'] = '((size_t)(views))'  # as C has it, the last of the two
    wanted.update({'DVS_BOOK_' + name: books[name] for name in BOOK_PLACES})
    wanted.update({'DVS_SIZE_' + name: library[name] for name in RANGES}, DVS_VERSION=version())
    wanted.update({'DVS_QUEUES_' + name: groups[name] for name in ('MADE', 'MARKS', 'LAYOUT')})
    wanted.update(DVS_VIEW_IDENTIFIER=0, DVS_VIEW_SET=sizes['IDENTIFIER'])
    # a run's records: the kind and the number stand first
    wanted.update(DVS_STEP_SIZE=run['STEP'], DVS_STEP_KIND=0, DVS_STEP_FIRST=run['FIRST'], DVS_STEP_SECOND=run['SECOND'],
                  DVS_ANSWER_SIZE=run['ANSWER'], DVS_ANSWER_NUMBER=0, DVS_ANSWER_EVENT=run['SHOWN'])
    # the places in an event, in a delivery and in a message's record
    wanted.update({'DVS_EVENT_' + name: answers[name] for name in ('KIND', 'MEMBER', 'VIEW', 'SENDER', 'ENTRY')})
    wanted['DVS_EVENT_SET'] = answers['VIEW'] + sizes['IDENTIFIER']
    wanted.update({'DVS_DELIVERY_' + name: answers[name] for name in ('COUNT', 'STOPPED')})
    wanted.update(DVS_FOUND_THERE=answers['THERE'], DVS_FOUND_VIEW=answers['SEEN'])
    wanted.update({'DVS_MESSAGE_' + name: messages[name] for name in ('KIND', 'VIEW', 'NUMBER', 'COUNT', 'VIEWS')})
    wanted.update({'DVS_' + name: kinds[name] for name in ('CLIENT', 'INFO', 'REGISTERED', 'TOLD')})
    # the steps, by the kinds of the dispatcher's arms; the refusals, by their numbers
    steps = constants('events/src/kinds.rt')
    arms = re.findall(r'^\s+kinds::(\w+) => (?:plain\()?[\w:]*?(\w+)\(\s*(?:list|all),', source('group/src/step.rt'), flags=re.M)
    wanted.update({'DVS_STEP_' + name.upper(): steps[kind] for kind, name in arms})
    wanted['DVS_ACCEPTED'] = int(found(r'Ok\(\(\)\) => (\d+),', source('views/src/refusal.rt'), 'refusals'))
    refusals = re.findall(r'^    (\w+) = (\d+),$', source('views/src/refusal.rt'), flags=re.M)
    wanted.update({'DVS_REFUSED_' + screaming(name): int(number) for name, number in refusals})
    wanted['DVS_REFUSALS'] = len(refusals)
    # whether every arm was matched: the dispatcher's last one begins where the steps end. The refusals are held to their list by refusals.py
    beyond = int(found(r'0 \| (\d+)\.\.=255 =>', source('group/src/step.rt'), 'steps'))
    if [steps[kind] for kind, _ in arms] != list(range(1, beyond)):
        sys.exit('steps %s in the sources, where this program looks for 1 to %d' % (', '.join(kind for kind, _ in arms), beyond - 1))
    return wanted


def given_constants(text):
    given = {}
    for name, body in re.findall(r'^#define (DVS_\w+(?:\([\w, ]+\))?)[ \t]+(\S.*?)[ \t]*$', text, flags=re.M):
        number = re.fullmatch(r'(\d+)u', body)
        given[name] = int(number.group(1)) if number else body
    return given


def expected_functions():
    """The exported functions as C has them: a range is a pointer and its length."""
    functions = {}
    for path in sorted((ROOT / 'crates').glob('*/src/**/*.rt')):
        for name, parameters, result in re.findall(r'pub extern "C" fn (\w+)\(([^)]*)\)\s*-> (\w+)', path.read_text()):
            listed = []
            for parameter in filter(None, (p.strip() for p in parameters.split(','))):
                own, kind = (part.strip() for part in parameter.split(':'))
                if kind in ('&mut [u8]', '&[u8]'):
                    listed += ['%suint8_t *%s' % ('' if 'mut' in kind else 'const ', own), 'size_t %s_size' % own]
                else:
                    listed.append('%s %s' % (WIDTHS[kind], own))
            functions[name] = '%s %s(%s)' % (WIDTHS[result], name, ', '.join(listed) or 'void')
    return functions


def given_functions(text):
    functions = {}
    for result, name, parameters, checked in re.findall(r'^(\w+) (\w+)\(([^)]*)\)( DVS_MUST_CHECK)?;', text, flags=re.M):
        if not checked:
            faults.append('function %s of the header has no DVS_MUST_CHECK' % name)
        functions[name] = '%s %s(%s)' % (result, name, ' '.join(parameters.split()))
    return functions


def compare(sort, wanted, given):
    for name in sorted(wanted.keys() | given.keys()):
        if name not in given:
            faults.append('%s %s is not in the header: the sources have %s' % (sort, name, wanted[name]))
        elif name not in wanted:
            faults.append('%s %s of the header is in no source: %s' % (sort, name, given[name]))
        elif wanted[name] != given[name]:
            faults.append('%s %s: the header has %s, the sources %s' % (sort, name, given[name], wanted[name]))
    return len(wanted)


headers = sorted((ROOT / 'include').glob('*.h'))
text = re.sub(r'/\*.*?\*/', '', '\n'.join(header.read_text() for header in headers), flags=re.S)
numbers = compare('constant', expected_constants(), given_constants(text))
functions = compare('function', expected_functions(), given_functions(text))
for fault in faults:
    print(fault)
if faults:
    sys.exit(1)
print('%s agree with the sources: %d constants, %d functions' % (', '.join(header.name for header in headers), numbers, functions))
