#!/usr/bin/env python3
"""layout_check.py: holds every number of docs/LAYOUT.md to the Rattle sources, its section on a saved book to include/dvs_saved.hpp, and the number of the
layout to the places that it numbers.

For each section it has the rows of its tables (offset, size, then the numbers that the row's words and its limit name) and the numbers that the text
around the tables names. It prints each difference and exits with 1 where there is one."""
import hashlib
import re
import sys

from sources import ROOT, constants, source

# the layout's number, and a digest of the places that it numbers: a book or a group with other places has another number
NUMBER, DIGEST = 1, '6c09caa728977943'
LENT = 'A queue entry', 'An inward list', 'An order', "A member's book", 'The list', 'The queues'
LAYOUT = (ROOT / 'docs' / 'LAYOUT.md').read_text()
SAVED = (ROOT / 'include' / 'dvs_saved.hpp').read_text()
book, slot, group = constants('book_bytes/src/lib.rt'), constants('slots/src/lib.rt'), constants('group_bytes/src/lib.rt')
inward, line, wire = constants('slots/src/inward.rt'), constants('slots/src/order.rt'), constants('wire/src/format.rt')
event, record, run = constants('c_answers/src/lib.rt'), constants('wire/src/record.rt'), constants('group_run/src/lib.rt')
sizes, limits, steps = constants('views/src/sizes.rt'), constants('views/src/limits.rt'), constants('events/src/kinds.rt')
library = constants('dvs/src/library.rt')
refusal = {name: int(number) for name, number in re.findall(r'^    (\w+) = (\d+),$', source('views/src/refusal.rt'), re.M)}
view, number, identifier = sizes['VIEW'], sizes['NUMBER'], sizes['IDENTIFIER']
members, views, ordered, longest = limits['MEMBERS'], limits['VIEWS'], limits['ORDERED'], limits['LONGEST']


def at(place, *strides):
    """An offset as the document writes it: a place, and for each letter how far apart its places are."""
    return ' + '.join(([str(place)] if place or not strides else []) + ['%d%s' % (apart, letter) if apart > 1 else letter for apart, letter in strides])


def after(apart, place):
    """A place in the records of a list."""
    return '%di' % apart + (' + %d' % place if place else '')


def saved_places():
    """The places of a saved book and its length, by the constants of the C++ header."""
    known = {}
    for name, value in re.findall(r'constexpr std::size_t kSaved(\w+) = ([^;]+);', SAVED):
        known[name] = eval(value.replace('DVS_BOOK_SIZE', str(book['SIZE'])).replace('kSaved', ''), {}, known)
    return known


saved = saved_places()
magic = int(re.search(r'kMagic = 0x(\w+)u;', SAVED)[1], 16).to_bytes(4, 'big')
kinds = [wire[name] for name in ('CLIENT', 'INFO', 'REGISTERED', 'TOLD')]
any_kind = kinds + [kinds[0], kinds[-1]]  # each kind in words, then the limit
parts = [identifier, view - identifier]   # 'identifier 4, set 1'
mark = [1, 0, 0, 1]                       # '1: there is one, 0: none', then the limit '0 or 1'
front = wire['VIEWS_AT']
order, waiting = (group['TABLE'], 'i'), (group['WAITING'], 'p')
waits = group['HEAD'] + group['ORDER']
TABLES = {
    'A message': [
        (0, 1, *any_kind),
        (wire['IDENTIFIER_AT'], identifier),
        (wire['COUNT_AT'], 1, 1, views, 0),
        (at(front, (view, 'i')), identifier),
        (at(front + identifier, (view, 'i')), 1, 0, 0),
        (at(front, (view, 'n')), 1, 1, 0),
        (at(wire['SHORTEST'], (view, 'n')), '%dm' % number, 1, ordered)],
    'A queue entry': [
        (0, 1),
        (slot['KIND'], 1, *any_kind),
        (slot['NUMBER'], number, 0, 1, ordered),
        (slot['COUNT'], 1, 1, views),
        (at(slot['VIEWS'], (view, 'i')), view, *parts)],
    'An inward list': [
        (0, 1, 0, ordered),
        (at(inward['SENDERS'], (1, 'k')), 1),
        (at(inward['NUMBERS'], (number, 'k')), number)],
    'An order': [
        (0, 1, 0, ordered),
        (at(line['SENDERS'], (1, 'k')), 1),
        (at(line['KINDS'], (1, 'k')), 1, *any_kind),
        (at(line['COUNTS'], (1, 'k')), 1, 1, views, 1, ordered),
        (at(line['NUMBERS'], (number, 'k')), number),
        (at(line['VIEWS'], (line['CARRIED'], 'k'), (view, 'i')), view, *parts)],
    "A member's book": [
        (book['MEMBERS'], 1, 1, members),
        (book['SELF'], 1),
        (book['SETTLED'], view, *parts),
        (book['CARRIER'], 1, *mark),
        (book['CARRIER'] + 1, view),
        (book['CLIENT'], 1, *mark),
        (book['CLIENT'] + 1, view),
        (book['REGISTERED'], 1, 1, 0, 1),
        (book['HANDED'], 1, 0),
        (book['TOLD'], 1),
        (book['REPORTED'], 1),
        (book['TAKEN'], 1, ordered, 0),
        (book['INFOS'], 1, refusal['InfoMissing']),
        (book['REGISTRATIONS'], 1, refusal['RegistrationMissing']),
        (at(book['TOLDS'], (1, 'q')), 1, 0, members - 1, refusal['ToldTooLow'], 0, ordered),
        (book['SIDE'], 1, 0, 1),
        (book['OPENS'], 1, 0, limits['OPEN']),
        (at(book['OPENS'] + 1, (view, 'i')), view),
        (book['OUTGOING'], 1, 0, limits['OUTGOING']),
        (at(book['OUTGOING'] + 1, (slot['SLOT'], 'i')), slot['SLOT']),
        (book['INWARD'], inward['SIZE'], 0),
        (book['INWARD'] + book['APART'], inward['SIZE'], 1)],
    'A saved book': [
        (saved['Magic'], saved['Layout'] - saved['Magic'], *magic),
        (saved['Layout'], saved['Length'] - saved['Layout'], NUMBER),
        (saved['Length'], saved['Book'] - saved['Length'], book['SIZE']),
        (saved['Book'], saved['Checksum'] - saved['Book']),
        (saved['Checksum'], saved['Size'] - saved['Checksum'], 32)],
    'The list': [
        (after(view, 0), identifier),
        (after(view, identifier), 1)],
    'The queues': [
        (group['MADE'], 1, 1),
        (group['MARKS'], group['MARKS_SIZE'], 2),
        (group['LAYOUT'], 1, sizes['LAYOUT']),
        (group['LAYOUT'] + 1, group['HEAD'] - group['LAYOUT'] - 1, 0),
        (at(group['HEAD'], order), line['SIZE']),
        (at(waits, order, waiting), 1, 0, limits['WAITING']),
        (at(waits + 1, order, waiting, (slot['SLOT'], 'k')), slot['SLOT'])],
    'A list of steps and its answers': [
        (after(run['STEP'], 0), 1, steps['CREATE'], steps['COLLECT']),
        (after(run['STEP'], run['FIRST']), run['SECOND'] - run['FIRST']),
        (after(run['STEP'], run['SECOND']), run['STEP'] - run['SECOND']),
        (after(run['ANSWER'], 0), 1, 0),
        (after(run['ANSWER'], run['SHOWN']), event['EVENT'], 0)],
    'An event': [
        (event['KIND'], 1, *(steps[name] for name in ('ATTEMPT', 'REGISTER', 'SEND', 'HAND', 'SAFE'))),
        (event['MEMBER'], 1),
        (event['VIEW'], identifier),
        (event['VIEW'] + identifier, 1, 0),
        (event['SENDER'], 1, 0),
        (event['ENTRY'], number, 0)],
    'A delivery': [
        (event['COUNT'], event['STOPPED'] - event['COUNT'], ordered),
        (event['STOPPED'], 1, 0)],
    'A view that was found': [
        (event['THERE'], 1, 1, 0),
        (event['SEEN'], view, *parts, 0)],
    "A message's record": [
        (record['KIND'], 1, *any_kind, refusal['UnknownKind']),
        (record['VIEW'], identifier),
        (record['NUMBER'], number, 0, 1, ordered, refusal['ToldOutOfRange']),
        (record['COUNT'], 1, 1, views, 0, refusal['SectionCount']),
        (at(record['VIEWS'], (view, 'i')), view, *parts, 0, refusal['EmptySet'], refusal['NotRising'])],
}
unsound = refusal['RecordsUnsound']
TEXTS = {
    'A message': [wire['SHORTEST'] + number, wire['SHORTEST'], wire['SHORTEST'], view, longest],
    'A queue entry': [slot['SLOT']],
    'An inward list': [inward['SIZE'], ordered],
    'An order': [line['SIZE'], ordered, unsound],
    # the small record ends before outgoing; what a start leaves; how much of a slot a message without views writes, and an info
    "A member's book": [book['SIZE'], book['SETTLED'], book['OUTGOING'] - 1, 0, 0, 1, 0, slot['COUNT'], slot['COUNT'], 0],
    # its length, the numbers of the reasons, and what is around the book
    'A saved book': [saved['Size'], 1, saved['Book'], 2, saved['Size'] - book['SIZE'], 3, 4, 5],
    'The list': [view, 1, views],
    'The books': [group['BOOKS'], book['SIZE'], book['SIZE']],
    'The queues': [group['HEAD'], group['TABLE'], 0, 1, 0],
    'A list of steps and its answers': [unsound, run['STEP'], run['ANSWER']],
    'What the C interface lends': [unsound] + [library[name] for name in ('BOOK', 'BUFFER', 'LIST', 'QUEUES', 'STEP', 'ANSWER', 'DELIVERY', 'FOUND')],
    'An event': [event['EVENT'], 0],
    # a length, what a message took, the steps of a driver, and the views of a query
    'A number that a call gives out': [event['LENGTH'], longest, wire['SHORTEST'], longest, 2 * members * members + 8 * members, views],
    'A delivery': [event['DELIVERY'], 0],
    'A view that was found': [event['FOUND']],
    'Identifiers': [identifier],
    "A message's record": [record['RECORD'], record['RECORD']],
}
faults = []
checked = 0


def numbers(text):
    """The numbers of a text, names in backquotes and hexadecimal ones left out."""
    return [int(found.replace(',', '')) for found in re.findall(r'\b\d+(?:,\d{3})*(?!x)', re.sub(r'`[^`]*`', '', text))]


def compare(where, written, wanted):
    global checked
    checked += len(wanted)
    if written != wanted:
        faults.append('docs/LAYOUT.md, %s: %s, the sources have %s' % (where, ', '.join(map(str, written)), ', '.join(map(str, wanted))))


sections = dict(re.findall(r'^##+ ([^\n]*)\n(.*?)(?=^#|\Z)', LAYOUT, re.M | re.S))
for title in sorted((TABLES.keys() | TEXTS.keys()) - sections.keys()):
    faults.append("docs/LAYOUT.md has no section '%s'" % title)
for title, text in sections.items():
    lines = text.split('\n')
    rows = [[cell.strip() for cell in row.strip('|').split('|')] for row in lines if re.match(r'\| \d', row)]
    compare("the number of rows of '%s'" % title, [len(rows)], [len(TABLES.get(title, []))])
    for (offset, size, *words), (place, length, *named) in zip(rows, TABLES.get(title, [])):
        compare("'%s', the row at %s" % (title, offset), [offset, size] + numbers(' '.join(words)), [str(place), str(length)] + named)
    compare("the text of '%s'" % title, numbers('\n'.join(row for row in lines if not row.startswith('|'))), TEXTS.get(title, []))
reasons = re.findall(r'^  (\w+) = [1-9]\d*,', SAVED, re.M)
compare("the reasons of 'A saved book'", re.findall(r'^\d\. `(\w+)`', sections.get('A saved book', ''), re.M), reasons)
polynomial = re.findall(r'polynomial (\w+)', sections.get('A saved book', ''))
compare("the polynomial of 'A saved book'", polynomial, [found for found in polynomial if re.search(r'\b%su?\b' % found, SAVED, re.I)] or ['another'])
compare('its number', [int(found) for found in re.findall(r'^This is layout (\d+),', LAYOUT, re.M)], [NUMBER])
if sizes['LAYOUT'] != NUMBER:
    faults.append('views::sizes has layout %d; this check is of layout %d' % (sizes['LAYOUT'], NUMBER))
digest = hashlib.sha256(repr([(title, [row[:2] for row in TABLES[title]]) for title in LENT]).encode()).hexdigest()[:16]
if digest != DIGEST:
    faults.append('these are not the places of layout %d: raise DVS_LAYOUT, its number in docs/LAYOUT.md and the minor version; here it is %d, with the digest '
                  '%s' % (NUMBER, NUMBER + 1, digest))
print(*faults or ['docs/LAYOUT.md agrees with the sources: %d numbers' % checked], sep='\n')
sys.exit(1 if faults else 0)
