"""calls.py: the table of calls, tests/outside/calls.inc, for the checks that hold other files to it."""
import re
import sys

from sources import ROOT

TABLE = 'tests/outside/calls.inc'
TAKES = re.compile(r'#define (\w+)_takes\(READS, WRITES, NUMBER\)((?: *\\\n)?[^\n]*)\n')
ROW = re.compile(r'^(CALL|SPLIT|PART|GIVES|RANGE)\((.*)\)$', re.M)
PARAMETER = re.compile(r'(READS|WRITES)\((\w+)\)|NUMBER\((\w+), (\w+)\)')


class Call:
    """A function of the table. A part of one has the same form, with no parameters of its own."""
    def __init__(self, name, sort, refusals, result='uint32_t'):
        self.name, self.sort, self.result = name, sort, result
        ordered, _, others = refusals.partition('THEN')
        self.refusals = [int(number) for number in re.findall(r'\d+', ordered)]  # in order
        self.others = [int(number) for number in re.findall(r'\d+', others)]     # after THEN, in none
        self.parts = {}
        self.parameters = []  # as the header has them: a range is a pointer and a length

    def declaration(self):
        return '%s %s(%s)' % (self.result, self.name, ', '.join(self.parameters) or 'void')


def parameters(text, ranges):
    """What a function takes, as C has it."""
    listed = []
    for sort, name, width, number in PARAMETER.findall(text):
        if name and name not in ranges:
            sys.exit('%s: %s is a range without a length' % (TABLE, name))
        listed += ['%suint8_t *%s' % ('const ' if sort == 'READS' else '', name), 'size_t %s_size' % name] if name else ['%s %s' % (width, number)]
    return listed


def table():
    """The calls by name, in the order of the table."""
    text = (ROOT / TABLE).read_text()
    text = text[text.index('/* ---- the ranges */'):]
    calls, ranges = {}, set()
    for sort, row in ROW.findall(text):
        words = [word.strip() for word in row.split(',')]
        if sort == 'RANGE':
            ranges.add(words[0])
        elif sort == 'GIVES':
            calls[words[1]] = Call(words[1], sort, '', words[0])
        elif sort == 'PART':
            calls[words[0]].parts[words[1]] = Call(words[1], sort, ','.join(words[2:]))
        else:
            calls[words[0]] = Call(words[0], sort, ','.join(words[1:]))
    for name, text in TAKES.findall(text):
        if name not in calls:
            sys.exit('%s: %s takes something and has no row' % (TABLE, name))
        calls[name].parameters = parameters(text, ranges)
    return calls
