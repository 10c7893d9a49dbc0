#!/usr/bin/env python3
"""calls_check.py: holds the header and the documents to the table of calls, tests/outside/calls.inc.

It compares the table with the parameters of every function of include/dvs.h, and with every order of refusals that is written: the last sentence of each
function's comment there, the two tables of docs/REFUSALS.md, and the table 'Where each refusal is checked' of docs/SPEC.md. A list may say '32 to 38'. It
prints each difference and exits with 1 where there is one. header_check.py holds the header's parameters to the sources.

A step's order begins with 4, 5, 6. The documents say so once, and the table in each row as far as it applies: a step of a known kind is not refused with 5,
a create names no member and is not refused with 6, and a member by itself is given no kind."""
import re
import sys

from calls import TABLE, table
from sources import ROOT

CALLS = table()
STEPS, PACKET, DRIVER = CALLS['dvs_group_step'], CALLS['dvs_deliver_packet'], CALLS['dvs_group_form']
REFUSING = [call for call in CALLS.values() if call.sort != 'GIVES']
OWN = {kind: CALLS['dvs_' + kind] for kind in STEPS.parts if 'dvs_' + kind in CALLS}  # the member's own call of a kind
ALONE = 'member by itself: '
faults = []
compared = 0


def front(kind):
    """With which refusals the order of a step of this kind begins, in the table."""
    return [4] if kind == 'create' else [4, 6]


def numbers(text):
    """The numbers of a list such as '4, 6, 32 to 38'. A text that is not such a list has none."""
    listed = []
    for item in text.split(','):
        found = re.fullmatch(r'(\d+)(?: to (\d+))?', item.strip())
        if not found:
            return []
        listed += range(int(found[1]), int(found[2] or found[1]) + 1)
    return listed


def numbers_after(pattern, text):
    """The numbers of the list that the pattern's group is."""
    found = re.search(pattern, text)
    return numbers(found[1]) if found else []


def hold(where, given, wanted):
    """An order that is written somewhere, beside the table's."""
    global compared
    compared += 1
    if given != wanted:
        faults.append('%s: the order is %s; %s has %s' % (where, ', '.join(map(str, given)) or 'missing', TABLE, ', '.join(map(str, wanted))))


# ---- include/dvs.h

def header():
    text = (ROOT / 'include' / 'dvs.h').read_text()
    functions = {name: (declared, ' '.join(re.sub(r'^ \* ?', '', comment, flags=re.M).split())) for comment, declared, name in
                 re.findall(r'/\*((?:(?!\*/).)*)\*/\n(\w+ (\w+)\([^)]*\)) DVS_MUST_CHECK;', text, re.S)}
    for name in sorted(functions.keys() ^ CALLS.keys()):
        faults.append('%s is in one of include/dvs.h and %s, and not in the other' % (name, TABLE))
    for name in sorted(functions.keys() & CALLS.keys()):
        declared, comment = functions[name]
        if ' '.join(declared.split()) != CALLS[name].declaration():
            faults.append('include/dvs.h declares %s; %s has %s' % (' '.join(declared.split()), TABLE, CALLS[name].declaration()))
        last_sentence(CALLS[name], comment)
    if PACKET.name in functions:
        stops = numbers_after(r'can be stopped, in this order, by ([^;]*);', functions[PACKET.name][1])
        hold('include/dvs.h, what stops a packet', stops, PACKET.parts['none'].refusals)


def last_sentence(call, comment):
    """The order with which a function's comment ends, and whether it goes on with others."""
    found = re.search(r'Refusals: ([^.;]*)(; then [^.]*)?\.$', comment)
    if call.sort == 'GIVES':
        if 'Refusals:' in comment:
            faults.append('include/dvs.h has refusals for %s, which gives a number' % call.name)
    elif not found:
        faults.append("include/dvs.h: the comment of %s does not end with 'Refusals: ' and their order" % call.name)
    else:
        hold('include/dvs.h, %s' % call.name, numbers(found[1]), call.refusals + ([6] if call is STEPS else []))
        if bool(found[2]) != bool(call.others or call is STEPS):
            faults.append("include/dvs.h, %s: 'then' has to be there if others follow in %s, and only then" % (call.name, TABLE))


# ---- the documents

def rows(document, heading):
    """The rows of the table under this heading, each as its cells."""
    text = (ROOT / 'docs' / document).read_text()
    if heading not in text:
        sys.exit("docs/%s has no table '%s'" % (document, heading))
    lines = text[text.index(heading):].split('\n')[2:]
    return [[cell.strip() for cell in line.strip('|').split('|')] for line in lines[:lines.index('')]]


def refusals():
    """docs/REFUSALS.md: the steps, in a group and by itself; the other calls by name, with their whole order."""
    steps = {kind: (grouped, alone) for kind, grouped, alone in rows('REFUSALS.md', '| Step | In a group | By itself |')}
    others = {name.strip('`'): order for name, order in rows('REFUSALS.md', '| Call | Order |')}
    for kind in sorted(steps.keys() ^ STEPS.parts.keys()):
        faults.append('docs/REFUSALS.md or %s has no step %s' % (TABLE, kind))
    for kind in sorted(steps.keys() & STEPS.parts.keys()):
        grouped, alone = steps[kind]
        hold("docs/REFUSALS.md, '%s' in a group" % kind, front(kind) + numbers(grouped), STEPS.parts[kind].refusals)
        if alone or kind in OWN:
            hold("docs/REFUSALS.md, '%s' by itself" % kind, [4, 6] + numbers(alone), OWN[kind].refusals if kind in OWN else [])
    for name in sorted(others.keys() ^ {call.name for call in REFUSING if call is not STEPS and call not in OWN.values()}):
        faults.append('docs/REFUSALS.md has no order for %s, or has one for what is not a call' % name)
    for name in sorted(others.keys() & CALLS.keys()):
        hold('docs/REFUSALS.md, %s' % name, numbers(re.split('[;:.]', others[name])[0]), CALLS[name].refusals)
    hold('docs/REFUSALS.md, what stops a packet', numbers_after(r'for each message ([^.]*)\.', others.get(PACKET.name, '')), PACKET.parts['none'].refusals)
    steps_of = numbers_after(r'every byte is as it was: ([\d, ]+), whose', (ROOT / 'docs' / 'REFUSALS.md').read_text().replace(' or ', ', '))
    hold("docs/REFUSALS.md, 'The driver', its steps", steps_of, [4] + DRIVER.others)


def specification():
    """The orders of docs/SPEC.md by their places. A condition is a number with its words, or another row, as "the reader's" and 'as start'."""
    places = {}
    for place, conditions in rows('SPEC.md', '| Place | Conditions |'):
        listed = []
        for condition in map(str.strip, conditions.split('.')[0].split(';')):
            number = re.match(r'(?:[a-z ]+: )?(\d+(?: to \d+)?)\b', condition)
            row = re.sub(r"^(?:then )?(?:as |the )?|'s$", '', condition)
            packet = re.match(r'of each message (\d+) and the row of deliver without (\d+)', condition)
            if number:
                listed += numbers(number[1])
            elif row in places:
                listed += places[row]
            elif packet:
                places['stops'] = [int(packet[1])] + [n for n in places[ALONE + 'deliver'] if n != int(packet[2])]
            elif not condition.startswith('then the '):
                faults.append("docs/SPEC.md: '%s' of '%s' is neither a number nor a row" % (condition, place))
        places[place.replace('… ', ALONE).strip('`')] = listed
    return places


def spec():
    """docs/SPEC.md: the steps, in a group and by itself. Another call has a row with its own name, or one that the specification calls otherwise."""
    places = specification()
    alone = places[ALONE + 'every other call']
    hold('docs/SPEC.md, every step', places['every step'], STEPS.refusals + [6])
    hold('docs/SPEC.md, what stops a packet', places['stops'], PACKET.parts['none'].refusals)
    for kind, part in STEPS.parts.items():
        hold("docs/SPEC.md, '%s'" % kind, front(kind) + places[kind], part.refusals)
    for kind, call in OWN.items():
        hold("docs/SPEC.md, '%s' by itself" % kind, alone + places.get(ALONE + kind, places[kind]), call.refusals)
    places.update({
        'dvs_start': places[ALONE + 'start'],
        'dvs_deliver_packet': places[ALONE + 'packet'],
        'dvs_check': alone,
        'dvs_read_front': [4] + places['reader'],
        'dvs_read': [4] + places['exactly one message'],
        'dvs_write': [4] + places['writer'],
        'dvs_group_start': [4] + places['start'],
        'dvs_group_form': places['driver'],
        'dvs_group_run': places['start and list of steps'],
        'dvs_group_steps': places['list of steps'],
        'dvs_group_check': places['every step'][:1],
        'dvs_group_crossing': places['crossing and holding'],
        'dvs_group_holding': places['crossing and holding'],
        'dvs_group_newest_before': places['newest before'],
    })
    for call in REFUSING:
        if call is not STEPS and call not in OWN.values():
            hold('docs/SPEC.md, %s' % call.name, places.get(call.name, []), call.refusals)


# ---- the table itself

def parts():
    """Each kind of step begins as a step does. A packet that took some messages is refused with no 6, 13 or 42: its first message would have been."""
    for kind, part in STEPS.parts.items():
        hold('%s, how %s begins' % (TABLE, kind), part.refusals[:len(front(kind))], front(kind))
    some = [number for number in PACKET.parts['none'].refusals if number not in (6, 13, 42)]
    hold('%s, a packet that took some messages' % TABLE, PACKET.parts['some'].refusals, some)


for check in header, refusals, spec, parts:
    check()
print(*faults or ['%d calls; their orders of refusals are the same wherever they are written, %d times' % (len(CALLS), compared)], sep='\n')
sys.exit(1 if faults else 0)
